"""Records what is shown, as an asciicast."""

from __future__ import annotations

import json
import shlex
import time
from typing import TextIO

from jeihpal import Answer

from .notices import Notices
from .screen import SharedScreen


class Recorder:
    """Writes each frame with its time, as an asciicast of version 3: what a watcher that keeps up is shown."""

    def __init__(self, screen: SharedScreen, file: TextIO, command: list[str], notices: Notices) -> None:
        self._screen, self._file, self._notices = screen, file, notices
        self._client: int | None = None
        self._begins = True  # the client has had no frame
        self._size, self._last = screen.size, screen.loop.time()
        rows, cols = self._size
        head: dict[str, object] = {"version": 3, "term": {"cols": cols, "rows": rows}}
        head["timestamp"], head["command"] = int(time.time()), shlex.join(command)
        self._line(head)
        screen.add(self)

    def show(self) -> None:
        """Writes the next frame, if there is one."""
        if self._size != self._screen.size:
            self._size = self._screen.size
            self._event("r", f"{self._size[1]}x{self._size[0]}")
        try:
            frame = self._frame()
        except MemoryError:
            return self._notices.say("out of memory: a frame wasn't recorded")
        if frame:
            self._event("o", frame.decode("utf-8", "replace"))

    def _frame(self) -> bytes:
        """The next frame. A client begins with a whole one: a terminal may have modes on from the client before."""
        hub = self._screen.hub
        if self._client is None:
            self._client = hub.attach()
        answer = hub.frame(self._client)
        if answer is Answer.TOO_LONG:
            self._notices.say("a frame wasn't recorded: it would be longer than 2 MB")
        frame = hub.owed(self._client) if answer.is_frame else b""
        hub.sent(self._client, len(frame))
        if frame and self._begins:
            frame = hub.whole_frame(self._client) or frame
            self._begins = False
        return frame

    def detach(self) -> None:
        """Notes that the client ends: a whole frame follows."""
        self._client, self._begins = None, True

    def end(self, status: int) -> None:
        """The command has ended, and its last screen was shown."""
        self._event("x", str(status))

    def _event(self, code: str, text: str) -> None:
        after = round(self._screen.loop.time() - self._last, 6)
        self._last += after
        self._line([after, code, text])

    def _line(self, value: object) -> None:
        """Writes a line at once, so that what is recorded so far can be played."""
        try:
            self._file.write(json.dumps(value, ensure_ascii=False) + "\n")
            self._file.flush()
        except (OSError, ValueError) as error:
            self._notices.say(f"can't record: {error}")
