"""A session as an asciicast."""

from __future__ import annotations

import codecs
import json
import shlex
import time
from typing import Sequence

_MOST = 8 << 20  # characters that are kept; after that the recording starts again from the screen of that moment


class Recording:
    """What a program has written and what was sent to it, with times: an asciicast of version 3."""

    def __init__(self, command: Sequence[str], rows: int, cols: int) -> None:
        self._command, self._size = list(command), (rows, cols)
        self._start = self._last = time.monotonic()
        self._epoch = int(time.time())
        self._events: list[str] = []
        self._kept = 0
        self._decoder = codecs.getincrementaldecoder("utf-8")("replace")

    @property
    def is_full(self) -> bool:
        """Whether it has become so long that it must start again."""
        return self._kept > _MOST

    def begin_anew(self, state: bytes, rows: int, cols: int) -> None:
        """Forgets all events, and starts with the screen that a state leads to."""
        self._events, self._kept, self._size = [], 0, (rows, cols)
        self._start = self._last = time.monotonic()
        self.output(state)

    def output(self, data: bytes) -> None:
        """The program has written."""
        if text := self._decoder.decode(data):
            self._add("o", text)

    def input(self, data: bytes) -> None:
        """Something was sent to it."""
        self._add("i", data.decode("utf-8", "replace"))

    def resized(self, rows: int, cols: int) -> None:
        """The terminal has another size."""
        self._add("r", f"{cols}x{rows}")

    def marker(self, text: str) -> None:
        """A moment that has a name."""
        self._add("m", text)

    def ended(self, status: int) -> None:
        """The program has ended."""
        self._add("x", str(status))

    def _add(self, code: str, text: str) -> None:
        now = time.monotonic()
        event = json.dumps([round(now - self._last, 6), code, text], ensure_ascii=False)
        self._events.append(event.encode("utf-8", "replace").decode())
        self._kept += len(event)
        self._last += round(now - self._last, 6)

    def text(self) -> str:
        """The asciicast."""
        head = {
            "version": 3,
            "term": {"cols": self._size[1], "rows": self._size[0], "type": "xterm-256color"},
            "timestamp": self._epoch,
            "command": shlex.join(self._command),
        }
        return "\n".join([json.dumps(head, ensure_ascii=False), *self._events, ""])
