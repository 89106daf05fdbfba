"""Describes what differs between two pictures, for people to read."""

from __future__ import annotations

from typing import Iterator

from ._picture import PLAIN, Cell, Picture, Style, cursor_words


def difference(old: Picture, new: Picture) -> str:
    """The rows, styles and the cursor that differ; nothing if the pictures are equal."""
    told: list[str] = []
    if old.size != new.size:
        told += ["size", f"- {old.size[0]} rows, {old.size[1]} columns", f"+ {new.size[0]} rows, {new.size[1]} columns"]
    for row in range(max(old.size[0], new.size[0])):
        told += _of_row(old, new, row)
    if old.cursor != new.cursor:
        told += ["cursor", "- " + _cursor(old), "+ " + _cursor(new)]
    return "\n".join(told)


def _cursor(picture: Picture) -> str:
    return cursor_words(picture.cursor).partition(" ")[2]


def _of_row(old: Picture, new: Picture, row: int) -> list[str]:
    """What differs in a row."""
    if row >= old.size[0]:
        return [f"row {row}", f"+ {new.lines[row]}"]
    if row >= new.size[0]:
        return [f"row {row}", f"- {old.lines[row]}"]
    before, after = old.cells[row], new.cells[row]
    told = []
    marks = _marks(before, after)
    if marks:
        told = [f"row {row}", f"- {old.lines[row]}", f"+ {new.lines[row]}", f"  {marks}"]
    for start, end, one, other in _styles(before, after):
        where = f"column {start}" if end == start else f"columns {start} to {end}"
        told += [f"row {row}, {where}", f"- {one}", f"+ {other}"]
    return told


def _marks(before: tuple[Cell, ...], after: tuple[Cell, ...]) -> str:
    """`^` below each column whose text differs; nothing if no text does."""
    marks = "".join(" " if one.text == other.text else "^" for one, other in zip(before, after))
    return marks.rstrip()


def _styles(before: tuple[Cell, ...], after: tuple[Cell, ...]) -> Iterator[tuple[int, int, Style, Style]]:
    """The runs of columns whose style differs in the same way: first, last, and both styles."""
    run: tuple[int, int, Style, Style] | None = None
    for col, (one, other) in enumerate(zip(before, after)):
        if run and (run[2], run[3]) == (one.style, other.style):
            run = run[0], col, run[2], run[3]
            continue
        if run:
            yield run
        run = (col, col, one.style, other.style) if one.style != other.style else None
    if run:
        yield run


def style_runs(cells: tuple[Cell, ...]) -> Iterator[tuple[int, int, Style]]:
    """The runs of columns that aren't drawn plainly: first, last, and their style."""
    for start, end, _, style in _styles((Cell(),) * len(cells), cells):
        if style != PLAIN:
            yield start, end, style
