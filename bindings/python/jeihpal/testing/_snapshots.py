"""Screens that are kept as text, and compared with those of a later run."""

from __future__ import annotations

import difflib
import os
import re
from typing import TYPE_CHECKING, Callable, Iterable, Optional, Pattern, Union

import jeihpal

from ._differences import style_runs
from ._failures import ScreenChanged, WaitFailed
from ._picture import CURSOR_STYLES, Cell, Cells, Cursor, Picture, cursor_words, framed, style_of_words

if TYPE_CHECKING:
    from ._terminal import Terminal

Mask = Union[str, Pattern[str], tuple[int, int, int, int]]
_HEAD = re.compile(r"screen of (\d+) rows and (\d+) columns")
_STYLE = re.compile(r"(\d+) (\d+)(?:-(\d+))? (.+)")


def written(picture: Picture, styles: bool = True, cursor: bool = True) -> str:
    """A picture as text: a bar and then the text for each row, then cursor, title and styles."""
    told = [f"screen of {picture.size[0]} rows and {picture.size[1]} columns"]
    told += [f"|{line}" for line in picture.lines]
    if cursor:
        told.append(cursor_words(picture.cursor))
    if picture.title:
        told.append(f"title {picture.title}")
    if styles:
        told.append("styles")
        for row, cells in enumerate(picture.cells):
            for start, end, style in style_runs(cells):
                told.append(f"{row} {start}-{end} {style}" if end > start else f"{row} {start} {style}")
    return "\n".join(told) + "\n"


def read(text: str) -> Picture:
    """The picture that a text describes. Raises ValueError, with the line, if it doesn't describe one."""
    lines = text.split("\n")
    head = _HEAD.fullmatch(lines[0])
    if not head:
        raise ValueError("line 1: it isn't `screen of ROWS rows and COLUMNS columns`")
    rows, cols = map(int, head.groups())
    shown = lines[1 : 1 + rows]
    for number, line in enumerate(shown, 2):
        if not line.startswith("|"):
            raise ValueError(f"line {number}: a row begins with `|`")
    if len(shown) < rows:
        raise ValueError(f"line {len(lines)}: there are {len(shown)} of {rows} rows")
    cells = [list(row) for row in cells_of_lines([line[1:] for line in shown], cols)]
    cursor, title = Cursor(0, 0), ""
    for number, line in enumerate(lines[1 + rows :], 2 + rows):
        word, _, rest = line.partition(" ")
        if word == "cursor":
            cursor = _cursor(rest)
        elif word == "title":
            title = rest
        elif line not in ("", "styles"):
            _set_style(cells, line, number)
    return Picture(tuple(map(tuple, cells)), cursor, title)


def _cursor(words: str) -> Cursor:
    row, col, *looks = words.split()
    style = next((word for word in looks if word in CURSOR_STYLES), "default")
    return Cursor(int(row), int(col), "hidden" in looks, style)


def _set_style(cells: list[list[Cell]], line: str, number: int) -> None:
    """Draws a run of cells as a line says."""
    found = _STYLE.fullmatch(line)
    if not found:
        raise ValueError(f"line {number}: it isn't `ROW FIRST-LAST STYLE`")
    row, start, end = int(found[1]), int(found[2]), int(found[3] or found[2])
    style = style_of_words(found[4])
    for col in range(start, end + 1):
        cells[row][col] = cells[row][col]._replace(style=style)


def cells_of_lines(lines: list[str], cols: int) -> Cells:
    """Plain cells that show these lines, in the widths that the screen gives characters."""
    with jeihpal.Screen(len(lines), cols) as screen:
        for row, line in enumerate(lines):
            screen.process(f"\x1b[{row + 1}H{line}".encode())
        return tuple(
            tuple(Cell(cell.text or (" " if cell.width else ""), cell.width) for cell in screen.cells(row))
            for row in range(len(lines))
        )


def masked(picture: Picture, masks: tuple[Mask, ...]) -> Picture:
    """A picture with `*` for what a text or a pattern finds, or for what is in a region."""
    if not masks:
        return picture
    cells = [list(row) for row in picture.cells]
    for mask in masks:
        if isinstance(mask, tuple):
            row, col, rows, cols = mask
            places = [(r, c) for r in range(row, row + rows) for c in range(col, col + cols)]
        else:
            places = _found(picture, mask)
        for r, c in places:
            cells[r][c] = Cell("*")
    return Picture(tuple(map(tuple, cells)), picture.cursor, picture.title)


def _found(picture: Picture, mask: Union[str, Pattern[str]]) -> list[tuple[int, int]]:
    """The places of all that a text or a pattern finds."""
    pattern = re.compile(re.escape(mask)) if isinstance(mask, str) else mask
    places = []
    for row, line in enumerate(picture.lines):
        for found in pattern.finditer(line):
            if found.end() > found.start():
                first, last = picture.column(row, found.start()), picture.column(row, found.end() - 1)
                places += [(row, col) for col in range(first, last + picture.cell(row, last).width)]
    return places


class Snapshots:
    """The kept screens of one file of tests, in a folder."""

    def __init__(self, folder: str, is_updating: bool, how: str) -> None:
        """`how` is for the message of a failure: it says how to keep the new screen."""
        self.folder, self.is_updating, self._how = folder, is_updating, how

    def path(self, name: str) -> str:
        """Where a screen is kept."""
        if not re.fullmatch(r"[\w.+-]+( [\w.+-]+)*", name):
            raise ValueError(f"{name!r} is no name for a screen: take letters, digits, spaces and . + - _")
        return os.path.join(self.folder, f"{name}.txt")

    def check(
        self,
        screen: Union[Picture, Terminal],
        name: str,
        mask: Iterable[Mask] = (),
        styles: bool = True,
        cursor: bool = True,
    ) -> None:
        """Compares a screen with the kept one of this name. Raises ScreenChanged if they differ.

        For a terminal it waits until its screen equals the kept one.
        """
        __tracebackhide__ = True
        path, masks = self.path(name), tuple(mask)

        def text(picture: Picture) -> str:
            return written(masked(picture, masks), styles, cursor)

        kept = None if self.is_updating else _text_or_none(path)
        picture = screen if isinstance(screen, Picture) else _waited(screen, lambda it: text(it) == kept, kept is None)
        now = text(picture)
        if self.is_updating:
            self._keep(path, now)
        elif kept is None:
            words = f"no screen {name!r} is kept yet, in {path}: {self._how} keeps this one\n{framed(picture)}"
            raise ScreenChanged(words, name, None, read(now))
        elif kept != now:
            raise ScreenChanged(self._told(path, name, kept, now), name, _read_or_none(kept), read(now))

    def _told(self, path: str, name: str, kept: str, now: str) -> str:
        """What differs, row by row, or line by line if the kept text isn't a screen."""
        old = _read_or_none(kept)
        told = old.difference(read(now)) if old else ""
        if not told:
            told = "\n".join(difflib.unified_diff(kept.splitlines(), now.splitlines(), path, "now", lineterm=""))
        return f"the screen isn't the kept one, {name!r} (-), any more (+):\n{told}\n{path}: {self._how} keeps this one"

    @staticmethod
    def _keep(path: str, text: str) -> None:
        os.makedirs(os.path.dirname(path), exist_ok=True)
        with open(path, "w", encoding="utf-8", newline="\n") as file:
            file.write(text)


def _waited(terminal: Terminal, is_wanted: Callable[[Picture], bool], is_unknown: bool) -> Picture:
    """A terminal's screen once it is as wanted, or its last one; if no wanted screen is known, one that is quiet."""
    try:
        return terminal.wait_until_quiet() if is_unknown else terminal.wait_for(is_wanted)
    except WaitFailed as failure:
        return failure.screen


def _text_or_none(path: str) -> Optional[str]:
    try:
        with open(path, encoding="utf-8", newline="") as file:
            return file.read().replace("\r\n", "\n")
    except FileNotFoundError:
        return None


def _read_or_none(text: str) -> Optional[Picture]:
    try:
        return read(text)
    except (ValueError, IndexError):
        return None
