"""The terminal that a recording is played in. It is left as it was, even if a signal ends the program."""

from __future__ import annotations

import contextlib
import os
import re
import select
import signal
import sys
import termios
import tty
from typing import Any, Iterator

_ENDING = (signal.SIGTERM, signal.SIGHUP, signal.SIGINT, signal.SIGQUIT)
# Another screen, and the modes that frames may set; back to how it was.
_ENTER = b"\x1b[?1049h\x1b[?25l"
_LEAVE = b"\x1b[?2026l\x1b[m\x1b[0 q\x1b[?25h\x1b[?1049l"
_KEY = re.compile(rb"\x1b\[[0-9;]*[A-Za-z~]|\x1bO[A-Za-z]|\x1b|[^\x1b]", re.DOTALL)
_NAMES = dict(zip(b"ABCDHF", ("up", "down", "right", "left", "home", "end")))
_TILDES = {b"1": "home", b"4": "end", b"7": "home", b"8": "end"}


class Ended(Exception):
    """A signal has come that ends the program."""

    def __init__(self, number: int) -> None:
        super().__init__(number)
        self.number = number


def _key_of(part: bytes) -> str:
    """A key's name, or its character."""
    if len(part) < 3 or part[:1] != b"\x1b":
        return part.decode("latin-1")
    numbers, final = part[2:-1].split(b";"), part[-1]
    name = _TILDES.get(numbers[0], "") if final == ord("~") else _NAMES.get(final, "")
    return f"shift-{name}" if numbers[1:] == [b"2"] and name else name


class Terminal:
    """Standard input and output, if both are a terminal, for as long as the block runs."""

    def __init__(self) -> None:
        self._in, self._out = sys.stdin.fileno(), sys.stdout.fileno()
        self.has_new_size = False

    @staticmethod
    def is_there() -> bool:
        """Whether standard input and output are a terminal."""
        return sys.stdin.isatty() and sys.stdout.isatty()

    def __enter__(self) -> Terminal:
        self._before = termios.tcgetattr(self._in)
        self._woken, self._wakes = os.pipe()  # a byte for each signal, so that a wait ends
        os.set_blocking(self._woken, False)
        os.set_blocking(self._wakes, False)
        self._woke = signal.set_wakeup_fd(self._wakes, warn_on_full_buffer=False)
        self._handlers = {number: signal.signal(number, self._end) for number in _ENDING}
        self._handlers[signal.SIGWINCH] = signal.signal(signal.SIGWINCH, self._resize)
        self._take()
        return self

    def __exit__(self, *_: object) -> None:
        for number in self._handlers:
            signal.signal(number, signal.SIG_IGN)
        self._give_back()
        for number, handler in self._handlers.items():
            signal.signal(number, handler)
        signal.set_wakeup_fd(self._woke)
        os.close(self._woken)
        os.close(self._wakes)

    def _take(self) -> None:
        tty.setraw(self._in, termios.TCSADRAIN)
        self.write(_ENTER)

    def _give_back(self) -> None:
        with contextlib.suppress(OSError):
            self.write(_LEAVE)
        with contextlib.suppress(termios.error):
            termios.tcsetattr(self._in, termios.TCSADRAIN, self._before)

    def _end(self, number: int, _: Any) -> None:
        raise Ended(number)

    def _resize(self, *_: Any) -> None:
        self.has_new_size = True

    def suspend(self) -> None:
        """Gives the terminal back and stops, as a shell's job, until it is continued."""
        self._give_back()
        os.kill(os.getpid(), signal.SIGSTOP)
        self._take()
        self.has_new_size = True

    def size(self) -> tuple[int, int]:
        """Rows and columns."""
        self.has_new_size = False
        cols, rows = os.get_terminal_size(self._out)
        return rows or 24, cols or 80

    def write(self, data: bytes) -> None:
        """Writes all of it."""
        while data:
            data = data[os.write(self._out, data) :]

    def keys(self, seconds: float | None) -> Iterator[str]:
        """The keys that come within some time: characters, and names such as `left` or `shift-left`. `end-of-input` if
        the terminal is gone."""
        ready = select.select([self._in, self._woken], [], [], seconds)[0]
        if self._woken in ready:
            os.read(self._woken, 4096)
        if self._in in ready:
            data = os.read(self._in, 4096)
            if not data:
                yield "end-of-input"
            for part in _KEY.finditer(data):
                yield _key_of(part[0])
