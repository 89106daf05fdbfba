"""Draws a screen in this terminal: its cells, and a line of words below them."""

from __future__ import annotations

from jeihpal import Attributes, Cell, Color, Hub, Rgb, Screen

_ATTRIBUTES = (
    (Attributes.BOLD, ";1"),
    (Attributes.DIM, ";2"),
    (Attributes.ITALIC, ";3"),
    (Attributes.UNDERLINED, ";4"),
    (Attributes.INVERSE, ";7"),
)


def _color(color: Color, base: int) -> str:
    """The parameters of SGR for a colour of texts (38) or backgrounds (48)."""
    if color is None:
        return ""
    if isinstance(color, Rgb):
        return f";{base};2;{color.red};{color.green};{color.blue}"
    return f";{base};5;{color}"


def _sgr(cell: Cell) -> str:
    attributes = "".join(text for bit, text in _ATTRIBUTES if cell.attributes & bit)
    return f"\x1b[0{attributes}{_color(cell.foreground, 38)}{_color(cell.background, 48)}m"


def _row(cells: list[Cell], cols: int) -> str:
    """The cells of a row as far as there are columns. A wide one that doesn't fit is a space."""
    drawn, last = [], None
    for col, cell in enumerate(cells[:cols]):
        style = cell[2:]
        if style != last:
            drawn.append(_sgr(cell))
            last = style
        if cell.width:
            fits = col + cell.width <= cols
            drawn.append(cell.text or " " if fits else " ")
    return "".join(drawn)


class Display:
    """This terminal's picture: a hub of its size, whose frames are what is written."""

    def __init__(self, rows: int, cols: int) -> None:
        self.rows, self.cols = rows, cols
        self._hub = Hub(rows, cols)
        self._client = self._hub.attach()

    def frame(self, screen: Screen, words: str) -> bytes:
        """The bytes that take the terminal to a screen with words below it, or nothing if it shows that already."""
        look = screen.look()
        rows, cols = min(look.rows, self.rows - 1), min(look.cols, self.cols)
        drawn = ["\x1b[?25l\x1b[m\x1b[2J"]
        for row in range(rows):
            drawn.append(f"\x1b[{row + 1}H{_row(screen.cells(row)[:cols], cols)}")
        drawn.append(f"\x1b[{self.rows}H\x1b[0;7m{_clean(words)[: self.cols].ljust(self.cols)}\x1b[m")
        if not look.hidden and look.row < rows:
            drawn.append(f"\x1b[{look.row + 1};{min(look.col, cols - 1) + 1}H\x1b[?25h")
        self._hub.feed("".join(drawn).encode("utf-8", "replace"))
        if not self._hub.frame(self._client).is_frame:
            return b""
        owed = self._hub.owed(self._client)
        self._hub.sent(self._client, len(owed))
        return owed

    def close(self) -> None:
        """Frees it."""
        self._hub.close()


def _clean(words: str) -> str:
    """Words without controls, and without characters that turn the order of others."""
    return "".join(it if it.isprintable() else "?" for it in words)
