"""A program's screen as its bytes come, read only at moments at which it is whole."""

from __future__ import annotations

import base64
import binascii
from typing import Callable, Optional

import jeihpal
from jeihpal import RequestKind

from ._answers import Scanner, answer, is_update
from ._picture import Picture, picture_of


class LiveScreen:
    """A screen, the answers to what the program asks of it, and its pictures.

    While the program is in a synchronized update of its own, the picture is the one before the update. All calls are
    made on one thread.
    """

    def __init__(self, rows: int, cols: int) -> None:
        self._screen = jeihpal.Screen(rows, cols, draws_lines=True)
        self._scanner = Scanner()
        self._before: Optional[Picture] = None  # of an update
        self._shown: Optional[Picture] = None  # the current picture, if it has been made already
        self.look = self._screen.look()
        """Its size, cursor and modes."""
        self.title = ""
        """The window's title."""
        self.bells = 0
        """How often the program has rung the bell."""
        self.clipboard: Optional[str] = None
        """What the program has last put into the clipboard."""

    def feed(self, data: bytes, on_moment: Callable[[Picture], None]) -> bytes:
        """Reads the program's next bytes, and returns what is sent back for them.

        `on_moment` is called with the screen when an update begins, and when it ends.
        """
        answers = b""
        for piece in self._scanner.pieces(data):
            was_updating = self.look.updating
            self._screen.process(piece.data)
            self.look = self._screen.look()
            if not self.look.updating:
                self._before = None
            is_mark = piece.asked is not None and is_update(piece.asked)
            if not (is_mark and piece.asked and piece.asked[0] == piece.data):
                self._shown = None
            if piece.asked is not None and not is_mark:
                answers += answer(piece.asked, self.look)
            if is_mark and self.look.updating != was_updating:
                self._take_requests()
                picture = self._picture()
                self._before = picture if self.look.updating else None
                on_moment(picture)
        self._take_requests()
        return answers

    def _take_requests(self) -> None:
        """Takes the program's requests to its terminal beyond drawing."""
        for request in self._screen.requests():
            if request.kind == RequestKind.TITLE:
                self.title = request.text.decode("utf-8", "replace")
                self._shown = None
            elif request.kind in (RequestKind.BELL, RequestKind.VISUAL_BELL):
                self.bells += 1
            elif request.kind == RequestKind.COPY:
                try:
                    self.clipboard = base64.b64decode(request.text).decode("utf-8", "replace")
                except binascii.Error:
                    pass

    def resize(self, rows: int, cols: int) -> None:
        """Gives the screen another size. That ends an update."""
        self._screen.resize(rows, cols)
        self.look = self._screen.look()
        self._before = self._shown = None

    def end_update(self) -> None:
        """Ends an update that the program won't end any more, as terminals do."""
        if self.look.updating:
            self.resize(self.look.rows, self.look.cols)

    def picture(self) -> Picture:
        """The screen at the last whole moment."""
        if self.look.updating and self._before:
            return self._before
        return self._picture()

    def state(self) -> bytes:
        """The escape sequences that take a fresh terminal to it."""
        return self._screen.state()

    def close(self) -> None:
        """Frees it."""
        self._screen.close()

    def _picture(self) -> Picture:
        if self._shown is None:
            self._shown = picture_of(self._screen, self.look, self.title)
        return self._shown
