"""share: watchers, what is refused, updates, statuses, and the terminal that it was started in."""

from __future__ import annotations

import contextlib
import os
import pty
import re
import resource
import select
import shutil
import signal
import socket
import stat
import struct
import subprocess
import sys
import tempfile
import termios
import time
import unittest

from jeihpal_share.updates import UpdateEnds

from . import sharing
from .sharing import WHOLE, Shared, Watching, processor_seconds, wait_for

BUSY = r"""
import sys, time
for n in range(300):
    rows = ("".join(f"\x1b[{31 + (n + r * k) % 6}m{chr(65 + (n * k + r) % 26)}" for k in range(79)) for r in range(23))
    sys.stdout.write("\x1b[H" + "\r\n".join(rows))
    sys.stdout.flush()
    time.sleep(0.01)
sys.stdout.write("\x1b[H\x1b[2J\x1b[mthe end"); sys.stdout.flush(); time.sleep(0.3)
"""


def read_both(*watchers: Watching) -> None:
    """Reads what comes to any of them, until all have come to their end."""
    left = list(watchers)
    while left:
        for ready in select.select([it.sock for it in left], [], [], 20)[0]:
            left = [it for it in left if it.sock is not ready or it.read()]


class Watchers(unittest.TestCase):
    def test_quick_slow_and_gone(self):
        with Shared(BUSY) as shared, Watching(shared) as quick, Watching(shared, room=4096) as slow:
            with Watching(shared) as gone:
                gone.read(5)
            while quick.frames() < 70:
                quick.read(20)
            read_both(quick, slow)
            self.assertEqual(shared.end(), 0)
            for watcher in (quick, slow):
                self.assertEqual(watcher.view.text().strip(), "the end")
                self.assertTrue(watcher.data.startswith(WHOLE + b"\x1b[?25h\x1b[m\x1b[H\x1b[J"))
            self.assertLess(slow.frames() + 30, quick.frames())  # it has skipped what came meanwhile

    def test_one_that_comes_back_gets_all(self):
        with Shared("print('first'); input()") as shared:
            with Watching(shared) as watcher:
                watcher.read_until("first")
            with Watching(shared) as watcher:
                watcher.read_until("first")
                self.assertEqual(watcher.frames(), 1)

    def test_lines_are_drawn(self):
        for options, shown in (((), "┌─┐"), (("--no-line-drawing",), "lqk")):
            with Shared(r"print('\x1b(0lqk\x1b(B'); input()", *options) as shared, Watching(shared) as watcher:
                watcher.read_until(shown)

    def test_the_rate(self):
        with Shared("import time\nfor n in range(100): print(n); time.sleep(.02)", "--rate", "4") as shared:
            with Watching(shared) as watcher:
                watcher.read_all()
                self.assertIn("99", watcher.view.text())
                self.assertLessEqual(watcher.frames(), 12)

    def test_a_socket_of_this_user(self):
        with tempfile.TemporaryDirectory() as folder:
            path = f"{folder}/screen"
            with socket.socket(socket.AF_UNIX) as left:
                left.bind(path)  # nobody listens there, as after a crash
            with Shared("print('hello'); input()", "--unix", path) as shared:
                self.assertEqual(stat.S_IMODE(os.stat(path).st_mode), 0o600)
                with Watching(shared, path) as watcher:
                    watcher.read_until("hello")
                again = Shared("", "--unix", path)
                self.assertEqual(again.end(), 1)
                again.run.stderr.close()
            self.assertFalse(os.path.exists(path))

    def test_a_socket_that_somebody_removes(self):
        with tempfile.TemporaryDirectory() as folder:
            for is_replaced in (False, True):
                with self.subTest(is_replaced), Shared("print(1); input()", "--unix", f"{folder}/screen") as shared:
                    with Watching(shared, f"{folder}/screen") as watcher:
                        watcher.read_until("1")
                    os.unlink(f"{folder}/screen")
                    if is_replaced:
                        open(f"{folder}/screen", "w").close()
                    shared.run.send_signal(signal.SIGTERM)
                    self.assertEqual(shared.end(), 129)
                    self.assertNotIn("Traceback", shared.said)
                    self.assertEqual(os.path.exists(f"{folder}/screen"), is_replaced)

    @unittest.skipUnless(shutil.which("tmux") and shutil.which("socat"), "there is no tmux, or no socat")
    def test_a_real_tmux(self):
        rows = r"'\x1b[31mred\x1b[m 米 and \x1b[1;4mbold\x1b[m\n' * 5"
        program = f"import time; print({rows} + '$ ', end=''); time.sleep(60)"
        with Shared(program) as shared, tempfile.TemporaryDirectory() as folder, Watching(shared) as watcher:
            watcher.read_until("$")
            tmux = ["tmux", "-S", f"{folder}/server", "-f", "/dev/null"]
            where = "tcp:%s:%d" % shared.place()
            command = f"socat -,raw,echo=0 {where}"
            run = {"env": {**os.environ, "LC_ALL": "C.UTF-8", "TERM": "xterm-256color"}, "check": True}
            words = ["new-session", "-d", "-x", "80", "-y", "24", command, ";", "set", "-g", "status", "off"]
            subprocess.run([*tmux, *words], **run)
            shown = lambda: subprocess.run([*tmux, "capture-pane", "-p"], stdout=subprocess.PIPE, **run).stdout.decode()
            try:
                rows = [row.rstrip() for row in watcher.view.text().split("\n")]
                wait_for(lambda: [row.rstrip() for row in shown().split("\n")[:24]] == rows)
            finally:
                subprocess.run([*tmux, "kill-server"], **run)


class Refusals(unittest.TestCase):
    def test_watchers_cannot_type(self):
        program = "import select, sys; print('ready'); print('typed', len(select.select([0], [], [], 1)[0]))"
        with Shared(program) as shared, Watching(shared) as watcher:
            watcher.read_until("ready")
            watcher.sock.sendall(b"rm -rf /\r\n")
            watcher.read_all()
            self.assertIn("typed 0", watcher.view.text())
            self.assertEqual(shared.end(), 0)

    def test_one_that_sends_too_much(self):
        with Shared("print('ready'); input()") as shared, Watching(shared) as watcher:
            watcher.read_until("ready")
            watcher.sock.sendall(bytes(20000))
            watcher.read_all()
            self.assertIn(b"watchers can't type", watcher.data)
            wait_for(lambda: "it sends too much" in shared.said)
            with Watching(shared) as other:
                other.read_until("ready")

    def test_ctrl_c_leaves(self):
        with Shared("print('ready'); input()") as shared, Watching(shared) as watcher:
            watcher.read_until("ready")
            watcher.sock.sendall(b"\x03")
            watcher.read_all()
            self.assertIsNone(shared.run.poll())

    def test_too_many(self):
        with Shared("print('ready'); input()", "--terminals", "5") as shared:
            watchers = [Watching(shared) for _ in range(5)]
            try:
                watchers[-1].read_until("ready")
                with Watching(shared) as late:
                    self.assertIn(b"too many watchers", late.read_all().data)
                wait_for(lambda: "a watcher was refused: there are 5" in shared.said)
                watchers.pop().__exit__()
                wait_for(lambda: self.is_let_in(shared))
            finally:
                for watcher in watchers:
                    watcher.__exit__()

    def test_descriptors_run_out(self):
        with Shared("print('ready'); input()", "--listen", "127.0.0.1:0", "--http", "127.0.0.1:0") as shared:
            resource.prlimit(shared.run.pid, resource.RLIMIT_NOFILE, (40, 40))
            watchers = [Watching(shared) for _ in range(50)]
            try:
                watchers[0].read_until("ready")
                wait_for(lambda: "there are no descriptors left" in shared.said)
                with socket.create_connection(shared.place("browsers")):
                    before = processor_seconds(shared.run.pid)
                    time.sleep(2)
                    self.assertLess(processor_seconds(shared.run.pid) - before, 0.2)
                for watcher in watchers[:25]:
                    watcher.__exit__()
                watchers[-1].read_until("ready")  # it has waited
            finally:
                for watcher in watchers:
                    watcher.__exit__()
            self.assertNotIn("Traceback", shared.said)

    @staticmethod
    def is_let_in(shared: Shared) -> bool:
        with Watching(shared) as watcher:
            while not watcher.frames() and watcher.read(5):
                pass
            return watcher.frames() > 0

    def test_words(self):
        for words, status in (
            ([], 2),
            (["--size", "0x80", "true"], 2),
            (["--listen", "here", "true"], 2),
            (["--size", "65535x65535", "true"], 2),
            (["--rate", "none", "true"], 2),
            (["--terminals", "0", "true"], 2),
            (["--browsers", "many", "true"], 2),
            (["--listen", "1", "--unix", "x", "true"], 2),
            (["--publish", "x", "true"], 2),
            (["--publish", "x", "--as", "a/b", "true"], 2),
            (["--token", "/no/such/folder/token", "true"], 1),
            (["--token", "/dev/null", "true"], 1),
            (["there is no such command"], 127),
            (["--listen", "192.0.2.1:1", "true"], 1),
        ):
            with self.subTest(words):
                started = [sys.executable, "-m", "jeihpal_share", *words]
                run = subprocess.run(started, cwd=sharing.PYTHON, stderr=subprocess.PIPE)
                self.assertEqual(run.returncode, status)
                self.assertTrue(run.stderr and b"Traceback" not in run.stderr)


class Updates(unittest.TestCase):
    def test_an_update_is_held(self):
        program = r"""
import sys, time
w = lambda text, seconds: (sys.stdout.write(text), sys.stdout.flush(), time.sleep(seconds))
w("before", .3)
for n in range(20): w(f"\x1b[?2026h\x1b[H\x1b[2Jleft {n}", .05); w(f"\x1b[2;1Hright {n}\x1b[?2026l", .01)
"""
        with Shared(program) as shared, Watching(shared) as watcher:
            shown = set()
            while watcher.read(20):
                shown.add(watcher.view.text().strip())
            self.assertIn("left 19\nright 19", shown)
            for text in shown - {"", "before"}:
                self.assertRegex(text, r"\Aleft (\d+)\nright \1\Z")

    def test_updates_without_a_pause(self):
        program = r"""
import sys, time
end = time.monotonic() + 1.5
n = 0
while time.monotonic() < end:
    sys.stdout.write(f"\x1b[?2026h\x1b[H{n}\x1b[K\x1b[2;1H{n}\x1b[K\x1b[?2026l" + "\x1b[?2026h\x1b[H-"); n += 1
sys.stdout.write("\x1b[H\x1b[2J\x1b[?2026l")
"""
        with Shared(program) as shared, Watching(shared) as watcher:
            while watcher.read(20):
                shown = watcher.view.text().split("\n")
                self.assertEqual(shown[0], shown[1])
            self.assertGreater(watcher.frames(), 5)

    def test_ends_that_pieces_cut(self):
        mark = b"\x1b[?2026l"
        for cut in range(1, len(mark)):
            ends = UpdateEnds()
            found = ends.last_end(b"left" + mark[:cut]), ends.last_end(mark[cut:] + b"\x1b[?2026hnext")
            self.assertEqual(found, (0, len(mark) - cut))

    def test_what_ends_an_update(self):
        for text, end in (
            (b"\x1b[?25;2026lz", 11),
            (b"\x1b[?02026lz", 9),
            (b"a\x1bcb", 3),
            (mark := b"\x1b[?2026l", 8),
            (mark + b"between" + mark + b"z", 23),
            (b"\x1b[?2026:1lz", 0),
            (b"\x1b[?12026lz", 0),
            (b"\x1b[2026lz", 0),
            (b"\x1b[?2026hz", 0),
        ):
            self.assertEqual(UpdateEnds().last_end(text), end, text)

    def test_not_for_ever(self):
        program = r"import sys, time; sys.stdout.write('\x1b[?2026hheld'); sys.stdout.flush(); time.sleep(30)"
        with Shared(program) as shared, Watching(shared) as watcher:
            begun = time.monotonic()
            watcher.read_until("held", 5)
            self.assertLess(time.monotonic() - begun, 3)

    def test_one_left_open_at_the_end(self):
        with Shared(r"import sys; sys.stdout.write('\x1b[?2026hthe end')") as shared, Watching(shared) as watcher:
            watcher.read_all()
            self.assertIn("the end", watcher.view.text())


class Statuses(unittest.TestCase):
    def test_statuses(self):
        for program, status in (("import sys; sys.exit(7)", 7), ("import os; os.kill(os.getpid(), 15)", 143)):
            with self.subTest(program), Shared(program) as shared:
                self.assertEqual(shared.end(), status)

    def test_told_to_end(self):
        with Shared("print('ready'); input()") as shared, Watching(shared) as watcher:
            watcher.read_until("ready")
            shared.run.send_signal(signal.SIGTERM)
            self.assertEqual(shared.end(), 129)
        stubborn = "import signal; signal.signal(signal.SIGHUP, signal.SIG_IGN); print('ready'); signal.pause()"
        with Shared(stubborn) as shared, Watching(shared) as watcher:
            watcher.read_until("ready")
            shared.run.send_signal(signal.SIGTERM)
            self.assertEqual(shared.end(), 137)

    def test_one_that_leaves_others_behind(self):
        program = "import subprocess; subprocess.Popen(['sleep', '30']); print('gone')"
        with Shared(program) as shared:
            begun = time.monotonic()
            self.assertEqual(shared.end(), 0)
            self.assertLess(time.monotonic() - begun, 5)


class Flood(unittest.TestCase):
    def test_nothing_is_lost_and_memory_is_bounded(self):
        program = "for n in range(300000): print('line', n)"
        with Shared(program) as shared, Watching(shared) as watcher, Watching(shared, room=4096):
            watcher.read_all()
            most = None
            try:
                most = shared.memory()
            except (OSError, TypeError):
                pass  # it has ended
            self.assertIn("line 299999", watcher.view.text())
            self.assertGreater(watcher.frames(), 5)
            if most:
                self.assertLess(most, 100 << 20)
            self.assertEqual(shared.end(), 0)


class Local(unittest.TestCase):
    """share in a terminal: a pseudo-terminal of this test's."""

    def start(self, program: str) -> tuple[int, int]:
        words = [sys.executable, "-m", "jeihpal_share", "--", sys.executable, "-u", "-c", program]
        pid, fd = pty.fork()
        if not pid:
            os.chdir(sharing.PYTHON)
            os.execv(sys.executable, words)
        self.addCleanup(os.close, fd)
        return pid, fd

    def read_until(self, fd: int, text: bytes) -> bytes:
        data = b""
        while text not in data:
            data += os.read(fd, 65536)
        return data

    def test_shown_here_and_restored(self):
        size = "print('size', *os.get_terminal_size())"
        program = f"import os; {size}; print('got', input()); {size}"
        pid, fd = self.start(program)
        before = termios.tcgetattr(fd)
        self.read_until(fd, b"size 80 24")
        wait_for(lambda: termios.tcgetattr(fd) != before)
        termios.tcsetwinsize(fd, (10, 30)) if hasattr(termios, "tcsetwinsize") else self.resize(fd, 10, 30)
        time.sleep(0.3)
        os.write(fd, b"keys\r")
        said = self.read_until(fd, b"size 30 10")
        self.assertIn(b"got keys", said)
        status = os.waitpid(pid, 0)[1]
        self.assertEqual(os.waitstatus_to_exitcode(status), 0)
        self.assertEqual(termios.tcgetattr(fd), before)

    def test_what_a_killed_command_leaves(self):
        """The terminal here leaves the alternate screen, and has no modes of the command."""
        left = r"\x1b[?1049h\x1b[?1003;1006;2004;1h\x1b=\x1b[5 q\x1b[?25l\x1b[31mleft"
        pid, fd = self.start(f"import os, sys; sys.stdout.write('{left}'); sys.stdout.flush(); os.kill(os.getpid(), 9)")
        said = b""
        with contextlib.suppress(OSError):
            while data := os.read(fd, 65536):
                said += data
        self.assertEqual(os.waitstatus_to_exitcode(os.waitpid(pid, 0)[1]), 137)
        ended = said.partition(b"left")[2]
        for text in (b"?1049l", b"?9;1000;1002;1003l", b"?1005;1006l", b"?2004l", b"?1l", b"0 q", b"?25h", b"m"):
            self.assertIn(b"\x1b[" + text, ended)
        self.assertIn(b"\x1b>", ended)

    @staticmethod
    def resize(fd: int, rows: int, cols: int) -> None:
        import fcntl

        fcntl.ioctl(fd, termios.TIOCSWINSZ, struct.pack("HHHH", rows, cols, 0, 0))

    def test_a_flood_here(self):
        pid, fd = self.start("for n in range(40000): print('line', n)")
        said = self.read_until(fd, b"line 39999")
        self.assertEqual(len(re.findall(rb"line \d+\r\n", said + b"\r\n")), 40000)
        self.assertEqual(os.waitpid(pid, 0)[1], 0)

    def test_a_terminal_that_stands_still(self):
        """It holds up the command, as without share, but no watcher."""
        pid, fd = self.start("import time; print('ready'); time.sleep(1); print('x' * 3000000); time.sleep(30)")
        said = self.read_until(fd, b"ready")
        place = re.search(rb"tcp:([0-9.]+):(\d+)", said)
        with socket.create_connection((place[1].decode(), int(place[2]))) as sock:
            sock.settimeout(10)
            data = b""
            while b"xxxx" not in data:
                data += sock.recv(65536)
        os.kill(pid, signal.SIGTERM)
        while True:
            try:
                if not os.read(fd, 65536):
                    break
            except OSError:
                break
        self.assertEqual(os.waitstatus_to_exitcode(os.waitpid(pid, 0)[1]), 129)


if __name__ == "__main__":
    unittest.main()
