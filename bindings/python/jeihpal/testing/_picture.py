"""What a screen shows at one moment. It never changes."""

from __future__ import annotations

import re
from typing import Callable, Iterator, NamedTuple, Optional, Pattern, Union

import jeihpal

from ._colors import name_of

Sought = Union[str, Pattern[str]]
CURSOR_STYLES = ("default", "blinking-block", "block", "blinking-underline", "underline", "blinking-bar", "bar")


class Place(NamedTuple):
    """A row and a column, from 0."""

    row: int
    col: int


class Cursor(NamedTuple):
    """Where the cursor is, and how it looks."""

    row: int
    col: int
    """It is the number of columns if the next character goes to the next row."""
    hidden: bool = False
    style: str = "default"
    """`default`, or one of `block`, `underline` and `bar`, also with `blinking-` before it."""

    @property
    def place(self) -> Place:
        """Where it is."""
        return Place(self.row, self.col)


class Style(NamedTuple):
    """How a cell is drawn. Its text is in words, such as `bold red on blue`."""

    foreground: str = "default"
    """A colour by its name: `default`, `red`, `bright-red`, `color-123` or `#rrggbb`."""
    background: str = "default"
    attributes: frozenset[str] = frozenset()
    """Those of `bold`, `dim`, `italic`, `underlined` and `inverse` that are set."""

    def __str__(self) -> str:
        words = [name for name in ATTRIBUTES if name in self.attributes]
        if self.foreground != "default":
            words.append(self.foreground)
        if self.background != "default":
            words += ["on", self.background]
        return " ".join(words) or "default"


ATTRIBUTES = tuple(name.lower() for name in jeihpal.Attributes.__members__)
_BITS = {name: jeihpal.Attributes[name.upper()] for name in ATTRIBUTES}
PLAIN = Style()


class Cell(NamedTuple):
    """One cell."""

    text: str = " "
    """A character with the zero-width ones that joined it; a space in an empty cell; nothing in a second half."""
    width: int = 1
    """1; 2 if it takes the next column too; 0 for the second half of such a cell."""
    style: Style = PLAIN

    @property
    def foreground(self) -> str:
        """The text's colour, by its name."""
        return self.style.foreground

    @property
    def background(self) -> str:
        """The background's colour, by its name."""
        return self.style.background

    @property
    def attributes(self) -> frozenset[str]:
        """The names of the attributes that are set."""
        return self.style.attributes


def style_of_words(words: str) -> Style:
    """The style that this text describes."""
    front, _, background = words.partition("on ") if words.startswith("on ") else words.partition(" on ")
    attributes = frozenset(word for word in front.split() if word in ATTRIBUTES)
    colors = [word for word in front.split() if word not in ATTRIBUTES]
    return Style(colors[0] if colors else "default", background or "default", attributes)


Cells = tuple[tuple[Cell, ...], ...]


class Row:
    """A row of a picture."""

    def __init__(self, index: int, text: str, cells: Callable[[], tuple[Cell, ...]]) -> None:
        self.index = index
        self.text = text
        """Its text without the spaces at its end."""
        self._cells = cells

    @property
    def cells(self) -> tuple[Cell, ...]:
        """Its cells, from the first column."""
        return self._cells()

    def __str__(self) -> str:
        return self.text

    def __repr__(self) -> str:
        return f"<Row {self.index}: {self.text!r}>"

    def __contains__(self, sought: Sought) -> bool:
        return next(matches(self.text, sought), None) is not None

    def __eq__(self, other: object) -> bool:
        return isinstance(other, Row) and self.cells == other.cells

    def __hash__(self) -> int:
        return hash(self.text)


def matches(text: str, sought: Sought) -> Iterator[tuple[int, int]]:
    """Where a text or a pattern is found in a line: the first character, and the one after the last."""
    pattern = re.compile(re.escape(sought)) if isinstance(sought, str) else sought
    for found in pattern.finditer(text):
        yield found.span()


class Picture:
    """What a screen shows at one moment: its cells, its cursor, its title. It never changes.

    Rows and columns are counted from 0. Two pictures are equal if their sizes, cells and cursors are; a space that was
    written equals an empty cell.
    """

    def __init__(
        self,
        cells: Union[Cells, Callable[[], Cells]],
        cursor: Cursor,
        title: str = "",
        lines: Optional[tuple[str, ...]] = None,
        size: Optional[tuple[int, int]] = None,
    ) -> None:
        """A picture of these cells, or of a function that makes them, which is called when they are first read."""
        self._made: Optional[Cells] = None if callable(cells) else cells
        self._make = cells if callable(cells) else None
        self.cursor = cursor
        """Its cursor."""
        self.title = title
        """The window's title, if the program has set one."""
        self._lines = lines
        self.size = size or (len(self.cells), len(self.cells[0]) if self.cells else 0)
        """Its rows and columns."""

    @property
    def cells(self) -> Cells:
        """All cells, row by row."""
        if self._made is None:
            assert self._make
            self._made = self._make()
        return self._made

    @property
    def lines(self) -> tuple[str, ...]:
        """The text of each row without the spaces at its end."""
        if self._lines is None:
            self._lines = tuple("".join(cell.text for cell in row).rstrip() for row in self.cells)
        return self._lines

    @property
    def text(self) -> str:
        """The text of all rows, without the empty ones at the end."""
        return "\n".join(self.lines).rstrip("\n")

    @property
    def rows(self) -> tuple[Row, ...]:
        """The rows."""
        return tuple(self.row(index) for index in range(self.size[0]))

    def row(self, index: int) -> Row:
        """A row; -1 is the last one. Raises IndexError if there is no such row."""
        text = self.lines[index]
        at = index % self.size[0]
        return Row(at, text, lambda: self.cells[at])

    def cell(self, row: int, col: int) -> Cell:
        """The cell at a place. Raises IndexError outside of the screen."""
        if not (0 <= row < self.size[0] and 0 <= col < self.size[1]):
            raise IndexError(f"{row}, {col} is outside of a screen of {self.size[0]} rows and {self.size[1]} columns")
        return self.cells[row][col]

    def find(self, sought: Sought) -> Optional[Place]:
        """Where a text or a pattern is first found in a row; None if it is in no row."""
        return next(iter(self.find_all(sought)), None)

    def find_all(self, sought: Sought) -> list[Place]:
        """All places where it is found, from the first row on."""
        found = []
        for row, line in enumerate(self.lines):
            for start, _ in matches(line, sought):
                found.append(Place(row, self.column(row, start)))
        return found

    def column(self, row: int, at: int) -> int:
        """The column of the character number `at` of a row's text."""
        if self.lines[row].isascii():
            return at
        length = 0
        for col, cell in enumerate(self.cells[row]):
            length += len(cell.text)
            if length > at:
                return col
        return self.size[1]

    def __contains__(self, sought: Sought) -> bool:
        """Whether a text or a pattern is found in a row, or in the text of all rows if it goes over rows' ends."""
        if isinstance(sought, str):
            return any(sought in line for line in self.lines) or ("\n" in sought and sought in self.text)
        return any(sought.search(line) for line in self.lines) or bool(sought.search(self.text))

    def region(self, row: int, col: int, rows: int, cols: int) -> Picture:
        """The part of this many rows and columns from a place on, as a picture of its own."""
        if row < 0 or col < 0 or rows < 1 or cols < 1 or row + rows > self.size[0] or col + cols > self.size[1]:
            size = f"{self.size[0]} rows and {self.size[1]} columns"
            raise IndexError(f"{rows}x{cols} at {row}, {col} isn't within a screen of {size}")
        cells = tuple(_part(line[col : col + cols]) for line in self.cells[row : row + rows])
        place = self.cursor.row - row, self.cursor.col - col
        is_in = 0 <= place[0] < rows and 0 <= place[1] < cols
        cursor = self.cursor._replace(row=place[0], col=place[1]) if is_in else Cursor(0, 0, hidden=True)
        return Picture(cells, cursor, self.title)

    def difference(self, other: Picture) -> str:
        """What differs from another picture, row by row; nothing if they are equal. `-` is this one, `+` the other."""
        from ._differences import difference

        return difference(self, other)

    def __eq__(self, other: object) -> bool:
        if not isinstance(other, Picture):
            return NotImplemented
        return self.size == other.size and self.cursor == other.cursor and self.cells == other.cells

    def __hash__(self) -> int:
        return hash((self.size, self.cursor, self.lines))

    def __str__(self) -> str:
        """The rows in a frame, and where the cursor is."""
        return framed(self)

    def __repr__(self) -> str:
        first = next((line for line in self.lines if line), "")
        return f"<Picture {self.size[0]}x{self.size[1]}, cursor {self.cursor.row}, {self.cursor.col}: {first[:40]!r}>"


def _part(cells: tuple[Cell, ...]) -> tuple[Cell, ...]:
    """Some cells of a row, without halves of wide ones."""
    made = list(cells)
    if made[0].width == 0:
        made[0] = made[0]._replace(text=" ", width=1)
    if made[-1].width == 2:
        made[-1] = made[-1]._replace(text=" ", width=1)
    return tuple(made)


def framed(picture: Picture) -> str:
    """The rows of a picture with their numbers in a frame. Empty ones in sequence are one line."""
    rows, cols = picture.size
    digits = len(str(rows - 1))
    bar = "─" * cols
    told, row = [f"{'':{digits}} ┌{bar}┐"], 0
    while row < rows:
        end = row
        while end < rows and not picture.lines[end]:
            end += 1
        if end > row + 2:
            told.append(f"{row:{digits}} ┊ {end - row} empty rows".ljust(digits + cols + 2) + "┊")
            row = end
            continue
        told.append(f"{row:{digits}} │{padded(picture, row)}│")
        row += 1
    return "\n".join([*told, f"{'':{digits}} └{bar}┘", cursor_words(picture.cursor)])


def padded(picture: Picture, row: int) -> str:
    """A row's text with the spaces at its end."""
    line = picture.lines[row]
    taken = len(line) if line.isascii() else sum(cell.width for cell in picture.cells[row][: _end(picture, row)])
    return line + " " * (picture.size[1] - taken)


def _end(picture: Picture, row: int) -> int:
    """The column after the last one of a row that shows something."""
    cells = picture.cells[row]
    end = len(cells)
    while end and cells[end - 1].text == " ":
        end -= 1
    return end


def cursor_words(cursor: Cursor) -> str:
    """Where a cursor is, and how it looks."""
    words = ["cursor", str(cursor.row), str(cursor.col)]
    words += ["hidden"] if cursor.hidden else []
    words += [] if cursor.style == "default" else [cursor.style]
    return " ".join(words)


# What `picture_of` reads of a live screen.
def picture_of(screen: jeihpal.Screen, look: jeihpal.Look, title: str) -> Picture:
    """What a live screen shows now. Its cells are read when they are first looked at."""
    state = screen.state()
    size = look.rows, look.cols
    lines = tuple(screen.row_text(row).rstrip() for row in range(look.rows))
    cursor = Cursor(look.row, look.col, look.hidden, CURSOR_STYLES[look.style])
    return Picture(lambda: _cells_of(state, size), cursor, title, lines, size)


def _cells_of(state: bytes, size: tuple[int, int]) -> Cells:
    """The cells that a state leads to."""
    with jeihpal.Screen(*size) as screen:
        screen.process(state)
        return tuple(tuple(map(_cell_of, screen.cells(row))) for row in range(size[0]))


def _cell_of(cell: jeihpal.Cell) -> Cell:
    found = _known.get(cell)
    if found is None:
        attributes = frozenset(name for name, bit in _BITS.items() if cell.attributes & bit)
        style = Style(name_of(cell.foreground), name_of(cell.background), attributes)
        text = cell.text or (" " if cell.width else "")
        found = _known[cell] = Cell(text, cell.width, style)
        if len(_known) > _MOST_KNOWN:
            _known.clear()
    return found


_MOST_KNOWN = 8192
_known: dict[jeihpal.Cell, Cell] = {}
