"""The command in its pseudo-terminal, and the terminal that share was started in."""

from __future__ import annotations

import asyncio
import contextlib
import fcntl
import os
import pty
import resource
import signal
import struct
import sys
import termios
import tty
from typing import Callable

from jeihpal import Look

from .options import MOST_CELLS

_MOST_WAITING = 65536  # bytes that wait for a slow terminal, until the command is held up
_PIECE = 65536


def window(fd: int) -> tuple[int, int]:
    """The rows and columns of a terminal; of one with very many cells only the first rows."""
    rows, cols, _, _ = struct.unpack("HHHH", fcntl.ioctl(fd, termios.TIOCGWINSZ, bytes(8)))
    cols = cols or 80
    return min(rows or 24, MOST_CELLS // cols), cols


def set_window(fd: int, rows: int, cols: int) -> None:
    """Gives a pseudo-terminal this many rows and columns."""
    fcntl.ioctl(fd, termios.TIOCSWINSZ, struct.pack("HHHH", rows, cols, 0, 0))


def raise_descriptors() -> tuple[int, int]:
    """Allows as many descriptors as possible. Returns the limits of before, for the command."""
    limits = resource.getrlimit(resource.RLIMIT_NOFILE)
    with contextlib.suppress(OSError, ValueError):
        resource.setrlimit(resource.RLIMIT_NOFILE, (limits[1], limits[1]))
    return limits


def undoing(look: Look) -> bytes:
    """The bytes that end, in the terminal here, the modes that a command has left on. They end colours too."""
    left = (
        (look.updating, b"\x1b[?2026l"),
        (look.alternate, b"\x1b[?1049l"),
        (look.mouse, b"\x1b[?9;1000;1002;1003l"),
        (look.encoding, b"\x1b[?1005;1006l"),
        (look.paste, b"\x1b[?2004l"),
        (look.keypad, b"\x1b>"),
        (look.cursor_keys, b"\x1b[?1l"),
        (look.style, b"\x1b[0 q"),
        (look.hidden, b"\x1b[?25h"),
    )
    return b"".join(text for is_on, text in left if is_on) + b"\x1b[m"


class Outlet:
    """Bytes for a file that may be slow: they wait here, and nothing else waits for them."""

    def __init__(self, loop: asyncio.AbstractEventLoop, fd: int, on_room: Callable[[], None]) -> None:
        self._loop, self._fd, self._on_room = loop, fd, on_room
        self._waiting = bytearray()

    @property
    def is_full(self) -> bool:
        """Whether nothing further should be written for now. `on_room` is called once that ends."""
        return len(self._waiting) >= _MOST_WAITING

    @property
    def is_waiting(self) -> bool:
        """Whether something still waits."""
        return bool(self._waiting)

    def write(self, data: bytes) -> None:
        """Writes as much as the file takes, and the rest as it takes more."""
        if not self._waiting:
            self._loop.add_writer(self._fd, self._drain)
        self._waiting += data
        self._drain()

    def _drain(self) -> None:
        was_full = self.is_full
        try:
            del self._waiting[: os.write(self._fd, self._waiting[:_PIECE])]
        except BlockingIOError:
            pass
        except OSError:
            self._waiting.clear()  # nobody is there any more
        if not self._waiting:
            self._loop.remove_writer(self._fd)
        if was_full and not self.is_full:
            self._on_room()

    def close(self) -> None:
        """Forgets what waits."""
        self._loop.remove_writer(self._fd)


class Command:
    """A command in a pseudo-terminal of its own."""

    def __init__(self, words: list[str], rows: int, cols: int, descriptors: tuple[int, int]) -> None:
        self.pid, self.fd = pty.fork()
        if not self.pid:
            self._become(words, rows, cols, descriptors)
        os.set_blocking(self.fd, False)
        set_window(self.fd, rows, cols)
        self.status: int | None = None

    @staticmethod
    def _become(words: list[str], rows: int, cols: int, descriptors: tuple[int, int]) -> None:
        """In the child: becomes the command."""
        try:
            set_window(0, rows, cols)
            resource.setrlimit(resource.RLIMIT_NOFILE, descriptors)
            for name in (signal.SIGPIPE, signal.SIGXFSZ):
                signal.signal(name, signal.SIG_DFL)
            kept = {name: word for name, word in os.environ.items() if name not in ("LINES", "COLUMNS")}
            os.execvpe(words[0], words, {**kept, "TERM": "xterm-256color"})
        except OSError as error:
            os.write(2, f"share: {words[0]}: {error.strerror}\r\n".encode())
        finally:
            os._exit(126)

    def read(self) -> bytes | None:
        """The next bytes that the command has written; nothing at their end, None if there are none yet."""
        try:
            return os.read(self.fd, _PIECE)
        except BlockingIOError:
            return None
        except OSError:
            return b""

    def resize(self, rows: int, cols: int) -> None:
        """Gives its terminal another size, and notifies the command."""
        set_window(self.fd, rows, cols)

    def signal(self, number: int) -> None:
        """Sends a signal to its process group, unless it has ended."""
        if self.status is None:
            with contextlib.suppress(OSError):
                os.killpg(self.pid, number)

    def has_ended(self) -> bool:
        """Whether it has ended. Then `status` is its status, as a shell reports it."""
        if self.status is None:
            pid, status = os.waitpid(self.pid, os.WNOHANG)
            if pid:
                code = os.waitstatus_to_exitcode(status)
                self.status = code if code >= 0 else 128 - code
        return self.status is not None


class LocalTerminal:
    """The terminal that share was started in. While it is entered its keys are raw."""

    def __init__(self) -> None:
        self.fd = os.open(os.ttyname(sys.stdout.fileno()), os.O_RDWR | os.O_NOCTTY | os.O_NONBLOCK)

    def __enter__(self) -> LocalTerminal:
        self._kept = termios.tcgetattr(self.fd)
        tty.setraw(self.fd)
        return self

    def __exit__(self, *_: object) -> None:
        termios.tcsetattr(self.fd, termios.TCSANOW, self._kept)
        os.close(self.fd)

    @staticmethod
    def is_there() -> bool:
        """Whether keys come from a terminal, and output goes to one."""
        return os.isatty(0) and os.isatty(1)

    def keys(self) -> bytes | None:
        """The next keys; nothing at the end of input, None if there are none yet."""
        try:
            return os.read(self.fd, 4096)
        except BlockingIOError:
            return None
        except OSError:
            return b""
