"""The screen for browsers: its rows as JSON."""

from __future__ import annotations

import json
from typing import Any, NamedTuple

from jeihpal import Cell, Color, Hub


class Moment(NamedTuple):
    """What the screen shows at one moment."""

    size: tuple[int, int]
    rows: list[str]
    """Each row as JSON: runs of cells that look the same, each its text, columns, colours and attributes.

    A run has one character for each column, or is one cell. A cell of several characters has a sixth item, 1.
    """
    cursor: list[int] | None
    """The cursor's row, first column and columns, or nothing if it is hidden."""


class Camera:
    """Makes moments. The text of a row is made again only if the row has changed."""

    def __init__(self) -> None:
        self._cells: list[tuple[Cell, ...]] = []
        self._rows: list[str] = []

    def take(self, hub: Hub) -> Moment:
        """What a hub's screen shows now."""
        look = hub.look()
        cells = [row.cells for row in hub.cells()]
        before = zip(self._cells, self._rows)
        self._rows = [self._text(row, *next(before, ((), ""))) for row in cells]
        self._cells = cells
        cursor = None if look.hidden else _cursor(cells[look.row], look.row, min(look.col, look.cols - 1))
        return Moment((look.rows, look.cols), self._rows, cursor)

    @staticmethod
    def _text(cells: tuple[Cell, ...], before: tuple[Cell, ...], text: str) -> str:
        return text if cells is before or cells == before else _row(cells)


def _color(color: Color) -> int | str | None:
    """A colour: null for the page's own, a number, or #rrggbb."""
    return color if color is None or isinstance(color, int) else "#%02x%02x%02x" % color


def _row(cells: tuple[Cell, ...]) -> str:
    """A row's text."""
    runs: list[list[Any]] = []
    before = None
    for cell in cells:
        if not cell.width:
            continue
        look = cell[2:] if cell.width == 1 and len(cell.text) < 2 else None
        if look and look == before:
            runs[-1][0] += cell.text or " "
            runs[-1][1] += 1
        else:
            colors = _color(cell.foreground), _color(cell.background)
            runs.append([cell.text or " ", cell.width, *colors, int(cell.attributes)])
            if len(cell.text) > 1:
                runs[-1].append(1)
        before = look
    return json.dumps(runs, ensure_ascii=False, separators=(",", ":"))


def _cursor(cells: tuple[Cell, ...], row: int, col: int) -> list[int]:
    """Where the cursor is drawn: it covers a wide character, of which it is on one half."""
    width = cells[col].width
    return [row, col, width] if width else [row, col - 1, 2]
