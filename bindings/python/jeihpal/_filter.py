"""Filters."""

from __future__ import annotations

from ._object import Object


class Filter(Object):
    """Draws a program's lines, on the way to a hub or a screen.

    Programs draw boxes with DEC's special graphics: after `ESC ( 0` the letters `lqqk` mean `┌──┐`. A filter gives
    all bytes on as they are, except such letters: in their place it gives the characters that they mean.

    Directly after a sequence that `vt100` doesn't know, it gives others that `vt100` knows, and that do the same: such
    as `CSI 4 m` after the curly underline `CSI 4:3 m`. `docs/PYTHON.md` lists them.
    """

    _kind = "filter"

    def drawn(self, data: bytes) -> bytes:
        """Reads the next piece of a program's output, cut anywhere, and returns the bytes to use in its place.

        After a MemoryError the piece has not passed, and the call may be repeated with it.
        """
        with self._lock:
            self._give("pass", data)
            return self._text("given", first=len(data) + 1)  # long enough if all bytes are given as they are
