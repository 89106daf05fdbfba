"""Runs a program on its input: says why its output can't be written, and how far it is where that takes long.

The programs ignore SIGPIPE, and say only that they can't write. This script ends as other filters do: by that signal,
if nobody reads what the program writes.
"""
import contextlib
import errno
import os
import select
import signal
import stat
import subprocess
import sys
import threading
import time

try:
    import ctypes
except ImportError:  # where Python is made without
    ctypes = None

PATIENCE = 2  # seconds before it is said how far it is
PEEKED = 1 << 16  # bytes of the input that are looked at, at most
DIES_WITH_PARENT = 1  # PR_SET_PDEATHSIG
FORWARDED = (signal.SIGTERM, signal.SIGHUP, signal.SIGINT, signal.SIGQUIT, signal.SIGUSR1, signal.SIGUSR2)


def peek(descriptor=0):
    """The first bytes of what is read from here, which stay to be read; nothing where that can't be known."""
    mode = os.fstat(descriptor).st_mode
    with contextlib.suppress(OSError, AttributeError):
        if stat.S_ISREG(mode):
            return os.pread(descriptor, PEEKED, os.lseek(descriptor, 0, os.SEEK_CUR))
        if stat.S_ISFIFO(mode):
            libc = ctypes.CDLL(None, use_errno=True)
            ours, end = os.pipe()
            try:
                count = libc.tee(descriptor, end, ctypes.c_size_t(PEEKED), 0)
                return os.read(ours, count) if count > 0 else b""
            finally:
                os.close(ours)
                os.close(end)
    return b""


def is_left():
    """Whether nobody reads standard output any more."""
    ended = select.poll()
    ended.register(1, 0)
    return any(events & select.POLLERR for _, events in ended.poll(0))


def why_unwritten():
    """Why nothing more can be written to standard output, as far as that is known."""
    try:
        if stat.S_ISREG(os.fstat(1).st_mode):
            room = os.fstatvfs(1)
            return os.strerror(errno.ENOSPC) if room.f_bavail == 0 else "the system refused it"
        os.write(1, b"")
    except OSError as error:
        return error.strerror
    return "the system refused it"


def end_by(number):
    """Ends this process by a signal."""
    signal.signal(number, signal.SIG_DFL)
    os.kill(os.getpid(), number)


class Pump:
    """Hands standard input on, with a carriage return before each line feed."""

    def __init__(self, to):
        self.to = to
        threading.Thread(target=self.run, daemon=True).start()

    def run(self):
        with contextlib.suppress(OSError), self.to:
            while True:
                piece = os.read(0, PEEKED)
                if not piece:
                    return
                self.to.write(piece.replace(b"\n", b"\r\n"))


class Said:
    """What the program says on standard error: passed on but for a last line, which says that it can't write."""

    def __init__(self, name):
        self.mark, self.rest, self.cannot_write = f"{name}: write\n".encode(), b"", False

    def take(self, piece):
        """Passes on the lines that are whole."""
        *lines, self.rest = (self.rest + piece).split(b"\n")
        for line in lines:
            if line + b"\n" == self.mark:
                self.cannot_write = True
            else:
                self.say(line + b"\n")

    def say(self, line):
        """Writes to standard error."""
        with contextlib.suppress(OSError):
            os.write(2, line)


class Progress:
    """A line on a terminal that says how much of a file is read, where that takes long and nothing else is there."""

    def __init__(self, name, process):
        self.name, self.process, self.begun, self.width = name, process, time.monotonic(), 0
        found = os.fstat(0)
        self.size = found.st_size if stat.S_ISREG(found.st_mode) else 0
        self.is_shown = os.isatty(2) and not os.isatty(1)

    def show(self):
        """Writes the line again."""
        passed = time.monotonic() - self.begun
        if not self.is_shown or passed < PATIENCE:
            return
        text = f"{self.name}: {passed:.0f} s"
        with contextlib.suppress(OSError, ValueError, IndexError):
            with open(f"/proc/{self.process}/fdinfo/0", encoding="ascii") as file:
                at = int(file.readline().split()[1])
            if self.size:
                text += f", {100 * min(at, self.size) // self.size} % read"
        os.write(2, f"\r{text.ljust(self.width)}".encode())
        self.width = len(text)

    def end(self):
        """Removes the line."""
        if self.width:
            with contextlib.suppress(OSError):
                os.write(2, f"\r{' ' * self.width}\r".encode())
            self.width = 0


def started(program, words, feeds):
    """Starts the program. It ends where this process does."""
    with contextlib.suppress(OSError, AttributeError):
        libc = ctypes.CDLL(None)

    def prepare():
        with contextlib.suppress(NameError, AttributeError):
            libc.prctl(DIES_WITH_PARENT, signal.SIGTERM)

    stdin = subprocess.PIPE if feeds else None
    return subprocess.Popen(words, executable=program, stdin=stdin, stderr=subprocess.PIPE, preexec_fn=prepare)


def run(name, program, words, feeds=False):
    """Runs the program on these words, and answers its status. With `feeds`, its input gets carriage returns."""
    process = started(program, [name, *words], feeds)
    for number in FORWARDED:
        signal.signal(number, lambda number, _: process.send_signal(number))
    if feeds:
        Pump(process.stdin)
    said, progress = Said(name), Progress(name, process.pid)
    while True:
        if not select.select([process.stderr], [], [], 0.5)[0]:
            progress.show()
            continue
        piece = os.read(process.stderr.fileno(), PEEKED)
        progress.end()
        if not piece:
            break
        said.take(piece)
    said.say(said.rest)
    status = process.wait()
    if status < 0:
        end_by(-status)
    if said.cannot_write:
        if is_left():
            end_by(signal.SIGPIPE)
        print(f"{name}: what it prints can't be written: {why_unwritten()}", file=sys.stderr)
    return status
