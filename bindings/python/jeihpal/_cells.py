"""What a screen shows: colours, cells, and its size, cursor and modes."""

from __future__ import annotations

import ctypes
import enum
import functools
import operator
import struct
from typing import NamedTuple, TypeVar, Union

from ._library import RawCell, RawColor, RawDrawing, RawLook

Open = TypeVar("Open", bound="OpenEnum")


class OpenEnum(enum.IntEnum):
    """Numbers with names. One that a later library adds is a member too, without a name of its own."""

    @classmethod
    def _missing_(cls: type[Open], value: object) -> Open | None:
        if not isinstance(value, int):
            return None
        member = int.__new__(cls, value)
        member._name_, member._value_ = f"UNKNOWN_{value}", value
        return cls._value2member_map_.setdefault(value, member)  # type: ignore[return-value]


class Rgb(NamedTuple):
    """A colour by its parts, each 0 to 255."""

    red: int
    green: int
    blue: int


# None is the terminal's own colour, and a number is one of the 256 numbered ones.
Color = Union[None, int, Rgb]


class Attributes(enum.IntFlag):
    """How a cell's text is drawn. If both BOLD and DIM are set, it is bold."""

    BOLD = 1
    DIM = 2
    ITALIC = 4
    UNDERLINED = 8
    INVERSE = 16


class Cell(NamedTuple):
    """One cell of a screen."""

    text: str
    """A character and the zero-width ones that joined it, or nothing."""
    width: int
    """1; 2 if the cell takes the next column too; 0 for the second half of such a cell."""
    foreground: Color
    background: Color
    attributes: Attributes


class Mouse(OpenEnum):
    """Which mouse events a program asks for."""

    NONE = 0
    PRESS = 1
    PRESS_RELEASE = 2
    BUTTON_MOTION = 3
    ANY_MOTION = 4


class Encoding(OpenEnum):
    """How mouse events are written."""

    DEFAULT = 0
    UTF8 = 1
    SGR = 2


class Size(NamedTuple):
    """How many rows and columns there are."""

    rows: int
    cols: int


class Cursor(NamedTuple):
    """The cursor."""

    row: int
    col: int
    """It is the number of columns if the next character goes to the next row."""
    hidden: bool
    style: int
    """How it looks: the number of DECSCUSR, 0 to 6."""

    @property
    def x(self) -> int:
        """The column."""
        return self.col

    @property
    def y(self) -> int:
        """The row."""
        return self.row


class Modes(NamedTuple):
    """The modes that a program has set."""

    mouse: Mouse
    encoding: Encoding
    keypad: bool
    """The keypad sends application sequences."""
    cursor_keys: bool
    """The cursor keys do."""
    paste: bool
    """Pasted text is marked as such (private mode 2004)."""
    alternate: bool
    """The alternate screen is shown; never in a view."""
    updating: bool
    """The program is in a synchronized update of its own (private mode 2026); never in a view."""


class Row(NamedTuple):
    """A row of a screen."""

    cells: tuple[Cell, ...]
    wrapped: bool
    """Its text continues in the next row."""

    @property
    def text(self) -> str:
        """Its text, with a space for each empty column."""
        return "".join([cell.text or " " for cell in self.cells if cell.width])


class Drawing(NamedTuple):
    """How the next character is drawn."""

    foreground: Color
    background: Color
    attributes: Attributes


class Look(NamedTuple):
    """A screen's size, cursor and modes."""

    kept: int
    """How many rows have scrolled off and are kept; 0 in a hub or a view."""
    scrolled: int
    """How many of them are shown; 0 in a hub or a view."""
    rows: int
    cols: int
    row: int
    """The cursor's row, from 0."""
    col: int
    """The cursor's column, from 0; it is `cols` if the next character goes to the next row."""
    hidden: bool
    """The cursor is hidden."""
    style: int
    """How the cursor looks: the number of DECSCUSR, 0 to 6."""
    mouse: Mouse
    encoding: Encoding
    keypad: bool
    """The keypad sends application sequences."""
    cursor_keys: bool
    """The cursor keys do."""
    paste: bool
    """Pasted text is marked as such (private mode 2004)."""
    alternate: bool
    """The alternate screen is shown; never in a view."""
    updating: bool
    """The program is in a synchronized update of its own (private mode 2026); never in a view."""
    failed: bool
    """The screen has failed for lack of memory; never in a view."""


_BY_NUMBER = [Attributes(number) for number in range(32)]


def color_of(raw: RawColor) -> Color:
    """The colour that the library's struct says."""
    if raw.kind == 0:
        return None
    if raw.kind == 1:
        return int(raw.red_or_index)
    return Rgb(raw.red_or_index, raw.green, raw.blue)


class _Cells(dict[bytes, Cell]):
    """Cells by the bytes of the library's struct: a screen has the same cells many times."""

    def __missing__(self, data: bytes) -> Cell:
        if len(self) >= _MOST_CELLS:
            self.clear()
        cell = self[data] = _cell_of(data)
        return cell


class _Groups(dict[bytes, "tuple[Cell, ...]"]):
    """Groups of cells by the bytes of the library's structs, one after another."""

    def __missing__(self, data: bytes) -> tuple[Cell, ...]:
        if len(self) >= _MOST_CELLS:
            self.clear()
        cells = self[data] = tuple([_known[data[at : at + CELL_SIZE]] for at in range(0, len(data), CELL_SIZE)])
        return cells


class _Style(dict[int, Cell]):
    """The cells of one style, by a text of one byte, or by 0 for none."""

    def __init__(self, style: bytes) -> None:
        super().__init__()
        self.none = bytearray(bytes(_LENGTH) + b"\0\1" + style)  # the library's struct without a text

    def __missing__(self, byte: int) -> Cell:
        data = self.none.copy()
        data[0], data[_LENGTH] = byte, byte > 0
        cell = self[byte] = _known[bytes(data)]
        return cell


_MOST_CELLS = 8192
_GROUP = 4  # how many cells are kept as one group, since they come again and again
CELL_SIZE = ctypes.sizeof(RawCell)
_LENGTH = RawCell.length.offset  # the texts lie before it, and the widths after it
_STYLE = RawCell.attributes.offset  # attributes and colours lie from there on
_LENGTHS = bytes([0, *[1] * 255])  # of texts of one byte, or none
_known = _Cells()
_groups = _Groups()
_style = functools.lru_cache(maxsize=256)(_Style)


@functools.lru_cache(maxsize=64)
def _struct_of(cols: int) -> struct.Struct:
    """The layout of this many of the library's structs, in groups, and a byte."""
    groups, left = divmod(cols, _GROUP)
    return struct.Struct(f"{_GROUP * CELL_SIZE}s" * groups + f"{left * CELL_SIZE}sB")


def _plain_cells(data: bytes) -> tuple[Cell, ...] | None:
    """The cells of a row, if all have the first one's style and a text of at most one byte."""
    style = data[_STYLE:CELL_SIZE]
    if style != data[-1 - len(style) : -1]:
        return None
    known, texts = _style(style), data[:-1:CELL_SIZE]
    row = known.none * len(texts)
    row[::CELL_SIZE] = texts
    row[_LENGTH::CELL_SIZE] = texts.translate(_LENGTHS)
    return operator.itemgetter(0, *texts)(known)[1:] if data.startswith(row) else None


def _any_cells(data: bytes) -> tuple[Cell, ...]:
    """The cells of a row."""
    *groups, _ = _struct_of(len(data) // CELL_SIZE).unpack(data)
    cells: list[Cell] = []
    for group in groups:
        cells += _groups[group]
    return tuple(cells)


def row_of(data: bytes) -> Row:
    """The row of the library's structs and of a byte after them, which says whether it continues in the next row."""
    return Row(_plain_cells(data) or _any_cells(data), data[-1] != 0)


def drawing_of(raw: RawDrawing) -> Drawing:
    """The drawing that the library's struct says."""
    switches = (raw.bold, raw.dim, raw.italic, raw.underlined, raw.inverse)
    number = sum(1 << place for place, switch in enumerate(switches) if switch)
    return Drawing(color_of(raw.foreground), color_of(raw.background), _BY_NUMBER[number])


def cell_of(raw: RawCell) -> Cell:
    """The cell that the library's struct says."""
    return _known[bytes(raw)]


def _cell_of(data: bytes) -> Cell:
    raw = RawCell.from_buffer_copy(data)
    text = bytes(raw.text[: raw.length]).decode() if raw.length else ""
    attributes = _BY_NUMBER[raw.attributes]
    return Cell(text, raw.width, color_of(raw.foreground), color_of(raw.background), attributes)


def look_of(raw: RawLook) -> Look:
    """The look that the library's struct says."""
    return Look(
        *(raw.kept, raw.scrolled, raw.rows, raw.cols, raw.row, raw.col),
        hidden=bool(raw.hidden),
        style=raw.style,
        mouse=Mouse(raw.mouse),
        encoding=Encoding(raw.encoding),
        keypad=bool(raw.keypad),
        cursor_keys=bool(raw.cursor_keys),
        paste=bool(raw.paste),
        alternate=bool(raw.alternate),
        updating=bool(raw.updating),
        failed=bool(raw.failed),
    )
