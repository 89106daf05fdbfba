"""A program in a pseudo-terminal of its own."""

from __future__ import annotations

import contextlib
import fcntl
import os
import shutil
import signal
import struct
import termios
from typing import Mapping, NamedTuple, Optional, Sequence

from ._answers import CELL_HEIGHT, CELL_WIDTH
from ._failures import ProgramNotFound
from ._terminfo import fitting_terminfo

_IUTF8 = 0o40000  # so that a character of several bytes is erased as one
_ENTER = 'cd -- "$1" && shift && exec "$@"'
# Variables in which another terminal describes itself.
_OF_OTHERS = {
    *("LINES", "COLUMNS", "TERMCAP", "TERM_PROGRAM", "TERM_PROGRAM_VERSION", "TMUX", "TMUX_PANE", "STY", "WINDOW"),
    *("VTE_VERSION", "KITTY_WINDOW_ID", "WT_SESSION", "KONSOLE_VERSION", "COLORFGBG", "WINDOWID", "NO_COLOR"),
}


class Activity(NamedTuple):
    """What a program, and those that it has started, are doing."""

    is_busy: bool
    """One of them runs, or waits for a processor or a disk."""
    ticks: int
    """How much processor time they have taken, in hundredths of a second."""


IDLE = Activity(False, 0)


def environment(changes: Optional[Mapping[str, Optional[str]]]) -> dict[str, str]:
    """The environment of a program: that of the test, with variables that describe the terminal, and the changes."""
    made = {name: text for name, text in os.environ.items() if name not in _OF_OTHERS and not name.startswith("LC_")}
    made.update({"TERM": "xterm-256color", "COLORTERM": "truecolor", "LANG": "C.UTF-8", "NCURSES_NO_UTF8_ACS": "1"})
    terminfo = fitting_terminfo()
    if terminfo:
        made["TERMINFO"] = terminfo
    for name, text in (changes or {}).items():
        if text is None:
            made.pop(name, None)
        else:
            made[name] = text
    return made


def _program(word: str, env: Mapping[str, str], cwd: str) -> str:
    """The path of a program. Raises ProgramNotFound."""
    if os.sep in word:
        path = os.path.join(cwd, word)
        if not os.path.exists(path):
            raise ProgramNotFound(f"there is no program {path}")
        if os.path.isdir(path) or not os.access(path, os.X_OK):
            raise ProgramNotFound(f"{path} can't be run: it isn't executable")
        return path
    found = shutil.which(word, path=env.get("PATH", os.defpath))
    if not found:
        raise ProgramNotFound(f"there is no program {word!r} in the folders of PATH")
    return os.path.abspath(found)


class Process:
    """A program that runs in a pseudo-terminal. It has ended once `status` isn't None."""

    def __init__(self, words: Sequence[str], size: tuple[int, int], env: Mapping[str, str], cwd: Optional[str]) -> None:
        path = _program(words[0], env, cwd or ".")
        arguments = list(words)
        if cwd is not None:
            if not os.path.isdir(cwd):
                raise NotADirectoryError(f"there is no folder {cwd} to run {words[0]} in")
            arguments = ["sh", "-c", _ENTER, "sh", os.path.abspath(cwd), os.path.abspath(path), *words[1:]]
            path = "/bin/sh"
        self.status: Optional[int] = None
        self.fd, other = os.openpty()
        try:
            self.resize(*size)
            modes = termios.tcgetattr(other)
            modes[0] |= _IUTF8
            termios.tcsetattr(other, termios.TCSANOW, modes)
            self.pid = self._spawned(path, arguments, env, os.ttyname(other))
        except BaseException:
            os.close(self.fd)
            raise
        finally:
            os.close(other)
        os.set_blocking(self.fd, False)
        self.ended_fd: Optional[int] = None
        """A file that can be read once the program has ended, if the system has such files."""
        with contextlib.suppress(AttributeError, OSError):
            self.ended_fd = os.pidfd_open(self.pid)

    @staticmethod
    def _spawned(path: str, arguments: list[str], env: Mapping[str, str], tty: str) -> int:
        """Starts it as the leader of a session, whose terminal is the first file that it opens."""
        files = [(os.POSIX_SPAWN_OPEN, 0, tty, os.O_RDWR, 0), (os.POSIX_SPAWN_DUP2, 0, 1), (os.POSIX_SPAWN_DUP2, 0, 2)]
        catchable = signal.valid_signals() - {signal.SIGKILL, signal.SIGSTOP}
        usual = [number for number in catchable if number < signal.SIGRTMIN]
        try:
            return os.posix_spawn(path, arguments, env, file_actions=files, setsid=True, setsigmask=[], setsigdef=usual)
        except OSError as error:
            raise ProgramNotFound(f"{path} can't be run: {error.strerror}") from None

    def resize(self, rows: int, cols: int) -> None:
        """Gives its terminal another size, and notifies the program."""
        size = struct.pack("HHHH", rows, cols, min(cols * CELL_WIDTH, 65535), min(rows * CELL_HEIGHT, 65535))
        fcntl.ioctl(self.fd, termios.TIOCSWINSZ, size)

    def signal(self, number: int) -> None:
        """Sends a signal to the processes that have the terminal, as keys do. Does nothing if the program has ended."""
        group = self.pid
        with contextlib.suppress(OSError):
            group = os.tcgetpgrp(self.fd) or self.pid
        self._kill(group, number)

    def _kill(self, group: int, number: int) -> None:
        if self.status is None:
            with contextlib.suppress(ProcessLookupError, PermissionError):
                os.killpg(group, number)

    def kill(self, number: int) -> None:
        """Sends a signal to the processes that the program has started in its own group."""
        self._kill(self.pid, number)

    def has_ended(self) -> bool:
        """Whether it has ended. Then `status` is its status, or less than 0: the number of a signal."""
        if self.status is None:
            try:
                pid, status = os.waitpid(self.pid, os.WNOHANG)
            except ChildProcessError:
                self.status = 0  # somebody else has waited for it
            else:
                if pid:
                    self.status = os.waitstatus_to_exitcode(status)
        return self.status is not None

    def activity(self) -> Activity:
        """What it, and what it has started, is doing just now."""
        return _activity(self.pid, 0) if self.status is None else IDLE

    def read(self) -> Optional[bytes]:
        """The next bytes that it has written; nothing at their end, None if there are none yet."""
        try:
            return os.read(self.fd, 65536)
        except BlockingIOError:
            return None
        except OSError:
            return b""

    def write(self, data: bytes) -> int:
        """Sends as much as there is room for, and returns how much that is."""
        try:
            return os.write(self.fd, data)
        except BlockingIOError:
            return 0
        except OSError:
            return len(data)  # no process reads it any more

    def close(self) -> None:
        """Closes its terminal."""
        os.close(self.fd)
        if self.ended_fd is not None:
            os.close(self.ended_fd)
            self.ended_fd = None


def _activity(pid: int, depth: int) -> Activity:
    """The activity of a process and those that it has started; idle if the system doesn't say."""
    is_busy, ticks, folder = False, 0, f"/proc/{pid}/task"
    with contextlib.suppress(OSError, ValueError, IndexError):  # it may end meanwhile
        ticks = sum(map(int, _stat(f"/proc/{pid}/stat")[11:15]))
        for task in os.listdir(folder):
            is_busy = is_busy or _stat(f"{folder}/{task}/stat")[0] in (b"R", b"D")
            with open(f"{folder}/{task}/children", "rb") as file:
                children = file.read().split() if depth < 8 else []
            for child in children:
                below = _activity(int(child), depth + 1)
                is_busy, ticks = is_busy or below.is_busy, ticks + below.ticks
    return Activity(is_busy, ticks)


def _stat(path: str) -> list[bytes]:
    """The fields of a process after its name; the first is its state."""
    with open(path, "rb") as file:
        return file.read().rpartition(b")")[2].split()


def status_words(status: int) -> str:
    """How a program has ended."""
    if status >= 0:
        return f"with status {status}"
    try:
        return f"by signal {signal.Signals(-status).name}"
    except ValueError:
        return f"by signal {-status}"
