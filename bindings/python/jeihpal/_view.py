"""Views."""

from __future__ import annotations

import ctypes

from ._object import Shown, checked_size


class View(Shown):
    """A small far terminal, which reads frames in any pieces."""

    _kind = "view"

    def __init__(self, rows: int, cols: int, *, most_cells: int | None = None) -> None:
        """A view of this size that shows nothing. It allocates all the memory that it needs, except for texts.

        A size of more than `most_cells` cells raises TooLarge.
        """
        super().__init__(checked_size(rows), checked_size(cols), most_cells=most_cells)
        self._rows = rows

    def advance(self, data: bytes) -> None:
        """Reads the next bytes. What a frame changes is shown once its last byte has been read."""
        self._give("advance", data)

    def stop(self) -> None:
        """Parses the bytes that are held back, and shows what they change: for a frame that has begun, but whose end
        doesn't come."""
        self._call("stop")

    def held(self) -> int:
        """How many bytes are held back, until the end of a frame or of a synchronized update."""
        count = ctypes.c_size_t()
        self._call("held", count)
        return count.value

    def text(self) -> str:
        """The rows, a line for each."""
        return "\n".join(self.row_text(row) for row in range(self._rows))
