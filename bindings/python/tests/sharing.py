"""What the tests of share have in common."""

from __future__ import annotations

import os
import re
import select
import socket
import subprocess
import sys
import threading
import time
from typing import Callable

from jeihpal import View

PYTHON = os.path.dirname(os.path.dirname(os.path.abspath(__file__)))
START = b"\x1b[?2026h"
END = b"\x1b[?2026l"
# What a whole frame begins with: after its start mark each mouse mode and encoding is turned off, as xterm numbers
# them, and the cursor's style is reset (DECSCUSR).
WHOLE = START + b"".join(b"\x1b[?%dl" % mode for mode in (9, 1000, 1002, 1003, 1005, 1006)) + b"\x1b[0 q"


def wait_for(what: Callable[[], object], seconds: float = 10.0) -> None:
    """Waits until something holds."""
    end = time.monotonic() + seconds
    while not what():
        if time.monotonic() > end:
            raise AssertionError("it didn't come in time")
        time.sleep(0.01)


def processor_seconds(pid: int) -> float:
    """The processor time that a process has had."""
    with open(f"/proc/{pid}/stat", encoding="ascii") as file:
        fields = file.read().rpartition(")")[2].split()
    return (int(fields[11]) + int(fields[12])) / os.sysconf("SC_CLK_TCK")


class Shared:
    """share, run with a Python program as its command."""

    ENVIRONMENT = {**os.environ, "PYTHONDONTWRITEBYTECODE": "1"}

    def __init__(self, program: str, *options: str, size: str = "24x80") -> None:
        words = ["-m", "jeihpal_share", "--size", size, *options, "--", sys.executable, "-u", "-c", program]
        self.run = self._start([sys.executable, *words])
        self.rows, self.cols = map(int, size.split("x"))
        self.said = ""
        self._reader = threading.Thread(target=self._read_said, daemon=True)
        self._reader.start()
        begun = "(terminals:|browsers:|published as) .*\n"
        wait_for(lambda: self.run.poll() is not None or re.search(begun, self.said), 20)

    def _start(self, words: list[str]) -> subprocess.Popen[bytes]:
        nothing, said = subprocess.DEVNULL, subprocess.PIPE
        return subprocess.Popen(words, cwd=PYTHON, stdin=nothing, stdout=nothing, stderr=said, env=self.ENVIRONMENT)

    def _read_said(self) -> None:
        assert self.run.stderr
        while data := os.read(self.run.stderr.fileno(), 4096):
            self.said += data.decode()

    def place(self, who: str = "terminals") -> tuple[str, int]:
        """Where terminals or browsers connect."""
        wait_for(lambda: re.search(rf"{who}: .*\n", self.said))
        host, port = re.search(rf"{who}: .*?([0-9.]+):(\d+)/?\n", self.said).groups()
        return host, int(port)

    def memory(self) -> int:
        """The most bytes of memory that it has had."""
        with open(f"/proc/{self.run.pid}/status", encoding="ascii") as file:
            return 1024 * int(re.search(r"VmHWM:\s+(\d+)", file.read())[1])

    def end(self, seconds: float = 30.0) -> int:
        """Waits for its end, and returns its status."""
        status = self.run.wait(seconds)
        self._reader.join()
        return status

    def __enter__(self) -> Shared:
        return self

    def __exit__(self, *_: object) -> None:
        if self.run.poll() is None:
            self.run.terminate()
            try:
                self.run.wait(10)
            except subprocess.TimeoutExpired:
                self.run.kill()
        self.run.wait()
        self._reader.join()
        self.run.stderr.close()


class Watching:
    """A watcher, with a view of what it has read."""

    def __init__(
        self,
        shared: Shared,
        place: tuple[str, int] | str | None = None,
        room: int | None = None,
        sock: socket.socket | None = None,
    ) -> None:
        self.sock = sock or self._connected(place or shared.place(), room)
        self.view = View(shared.rows, shared.cols)
        self.data = b""

    @staticmethod
    def _connected(place: tuple[str, int] | str, room: int | None) -> socket.socket:
        sock = socket.socket(socket.AF_UNIX if isinstance(place, str) else socket.AF_INET)
        if room:
            sock.setsockopt(socket.SOL_SOCKET, socket.SO_RCVBUF, room)
        sock.settimeout(20)
        sock.connect(place)
        return sock

    def read(self, seconds: float = 0.0) -> bytes:
        """Reads what comes in this many seconds, or what is there; nothing if the connection has ended."""
        if not select.select([self.sock], [], [], seconds)[0]:
            raise TimeoutError
        try:
            data = self.sock.recv(65536)
        except ConnectionResetError:
            data = b""
        self.view.advance(data)
        self.data += data
        return data

    def read_until(self, text: str, seconds: float = 10.0) -> None:
        """Reads until its view shows a text."""
        end = time.monotonic() + seconds
        while text not in self.view.text():
            if time.monotonic() > end or not self.read(seconds):
                raise AssertionError(f"{text!r} isn't shown, but {self.view.text().strip()!r}")

    def read_all(self) -> Watching:
        """Reads to the end."""
        while self.read(20):
            pass
        return self

    def frames(self) -> int:
        """How many whole frames it has read."""
        return self.data.count(END)

    def __enter__(self) -> Watching:
        return self

    def __exit__(self, *_: object) -> None:
        self.sock.close()
        self.view.close()
