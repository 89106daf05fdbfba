"""Hubs."""

from __future__ import annotations

import ctypes

from ._cells import OpenEnum
from ._filter import Filter
from ._object import Shown, checked_count, checked_size


class Answer(OpenEnum):
    """The result of a request for a frame."""

    UNCHANGED = 0
    """The screen shows what it did at the client's last frame."""
    BEHIND = 1
    """Bytes of the last frame still wait for the client."""
    HELD = 2
    """The program is in a synchronized update of its own (private mode 2026)."""
    TOO_LONG = 3
    """The frame would be longer than 2,097,150 bytes; never for up to 2,000 cells."""
    FULL = 4
    """The frame leads from any picture."""
    DIFFERENCE = 5
    """It leads from the picture of the client's last frame."""
    UNSURE = 6
    """As FULL, of a screen that shows U+FE0F, on whose width terminals disagree."""

    @property
    def is_frame(self) -> bool:
        """Whether there is a new frame, whose bytes now wait for the client."""
        return self >= Answer.FULL


class Hub(Shown):
    """One program's screen, and clients that are sent frames of it."""

    _kind = "hub"

    def __init__(self, rows: int, cols: int, *, draws_lines: bool = False, most_cells: int | None = None) -> None:
        """A blank screen of this size, without clients.

        If it draws lines, what the program writes passes through a `Filter` first. A size of more than `most_cells`
        cells raises TooLarge, here and in `resize`.
        """
        self._filter = Filter() if draws_lines else None
        super().__init__(checked_size(rows), checked_size(cols), most_cells=most_cells)

    def feed(self, data: bytes) -> None:
        """Feeds the program's next bytes to the screen. They may be cut anywhere.

        After a MemoryError the hub has failed: it makes no further frames, but bytes that wait for clients can still be
        sent.
        """
        with self._lock:
            self._give("feed", self._filter.drawn(data) if self._filter else data)

    def resize(self, rows: int, cols: int) -> None:
        """Gives the screen another size, or the same, and ends the program's synchronized update. Every client ends."""
        self._size("resize", checked_size(rows), checked_size(cols))

    def attach(self) -> int:
        """Attaches a new client, and returns its key. The key of a client that has ended may be given again."""
        client = ctypes.c_size_t()
        self._call("attach", client)
        return client.value

    def fork(self, client: int) -> int:
        """Adds a client that starts from what this one has once it has read all its frames, and returns its key.

        No bytes wait for it, and its next frame starts from there: a terminal that has read this client's frames, or
        its redraw, goes on with the new client's frames.
        """
        fork = ctypes.c_size_t()
        self._call("fork", checked_count(client), fork)
        return fork.value

    def detach(self, client: int) -> None:
        """Detaches a client. Bytes that wait for it are dropped."""
        self._call("detach", checked_count(client))

    def frame(self, client: int) -> Answer:
        """Asks for a frame. If there is a new one, its bytes wait for the client from then on."""
        return Answer(self._call("frame", checked_count(client)))

    def owed(self, client: int, most: int | None = None) -> bytes:
        """The bytes that wait for the client, or the first `most` of them."""
        return self._text("owed", checked_count(client), most=most)

    def redraw(self, client: int) -> bytes | None:
        """The bytes that draw, on a fresh terminal, what the client shows once it has read all its frames.

        Bytes that still wait for it count as read. Before the first frame the redraw is empty. None if it is longer
        than a terminal buffers.
        """
        answer, text = self._answered("redraw", checked_count(client))
        return None if answer else text

    def whole_frame(self, client: int) -> bytes | None:
        """The bytes that draw what the client shows, as `redraw`, on any terminal, whatever frames it has read.

        They are the redraw, with escape sequences after the start mark that turn off the mouse's modes and encodings,
        and reset the cursor's style. So they may come anywhere in a stream that several terminals read. Before the
        first frame the result is empty. It is None if they are more than a terminal buffers.
        """
        answer, text = self._answered("whole_frame", checked_count(client))
        return None if answer else text

    def sent(self, client: int, count: int) -> None:
        """Reports that the first `count` of the bytes that wait for the client were sent. They no longer wait."""
        self._call("sent", checked_count(client), checked_count(count))

    def contents(self) -> str:
        """The text of all rows."""
        return self._text("contents").decode()
