"""A picture as SVG."""

from __future__ import annotations

from html import escape
from typing import Iterator

from ._colors import BACKGROUND, FOREGROUND, NAMES, hex_of_name
from ._picture import Cell, Picture, Style

_WIDTH, _HEIGHT, _BASE, _FONT = 9, 18, 14, 15  # in pixels: a cell, the baseline of letters, the font
_FONTS = "ui-monospace,Menlo,Consolas,'DejaVu Sans Mono',monospace"


def svg(picture: Picture) -> str:
    """The picture as an SVG document: colours, attributes, wide characters and the cursor."""
    rows, cols = picture.size
    width, height = cols * _WIDTH + 10, rows * _HEIGHT + 10
    told = [
        f'<svg xmlns="http://www.w3.org/2000/svg" viewBox="0 0 {width} {height}" width="{width}" height="{height}">',
        f'<rect width="100%" height="100%" fill="{BACKGROUND}"/>',
        f'<g transform="translate(5 5)" font-family="{_FONTS}" font-size="{_FONT}" fill="{FOREGROUND}"',
        ' shape-rendering="crispEdges">',
    ]
    for row, cells in enumerate(picture.cells):
        told += _row(row, cells)
    cursor = picture.cursor
    if not cursor.hidden:
        place = f'x="{_WIDTH * min(cursor.col, cols - 1)}" y="{cursor.row * _HEIGHT}"'
        told.append(f'<rect {place} width="{_WIDTH}" height="{_HEIGHT}" fill="none" stroke="{FOREGROUND}"/>')
    return "\n".join([*told, "</g>", "</svg>", ""])


def _runs(cells: tuple[Cell, ...]) -> Iterator[tuple[int, int, str, Style]]:
    """Runs of a row that are drawn at once: column, columns, text, style. A character beyond ASCII is its own run."""
    start, cols, text, style = 0, 0, "", Style()
    for col, cell in enumerate(cells):
        if cell.width == 0:
            continue
        is_simple = cell.width == 1 and cell.text.isascii()
        if cols and is_simple and style == cell.style and text.isascii():
            cols, text = cols + 1, text + cell.text
            continue
        if cols:
            yield start, cols, text, style
        start, cols, text, style = col, cell.width, cell.text, cell.style
    if cols:
        yield start, cols, text, style


def _row(row: int, cells: tuple[Cell, ...]) -> list[str]:
    """A row: the background of the texts, and the texts."""
    behind, texts = [], []
    for start, cols, text, style in _runs(cells):
        bright = f"bright-{style.foreground}"
        name = bright if "bold" in style.attributes and bright in NAMES else style.foreground  # as terminals do
        front, back = hex_of_name(name, FOREGROUND), hex_of_name(style.background, BACKGROUND)
        if "inverse" in style.attributes:
            front, back = back, front
        place, wide = f'x="{start * _WIDTH}" y="{row * _HEIGHT}"', cols * _WIDTH
        if back != BACKGROUND:
            behind.append(f'<rect {place} width="{wide}" height="{_HEIGHT}" fill="{back}"/>')
        if text.strip():
            look = _look(style, front)
            place = f'x="{start * _WIDTH}" y="{row * _HEIGHT + _BASE}"'
            texts.append(
                f'<text xml:space="preserve" {place} textLength="{wide}"{look}>{escape(_drawable(text))}</text>'
            )
    return behind + texts


def _drawable(text: str) -> str:
    """The text without characters that XML forbids."""
    return "".join("\ufffd" if c < " " or c in "\ufffe\uffff" else c for c in text)


def _look(style: Style, front: str) -> str:
    """How a text is drawn."""
    told = "" if front == FOREGROUND else f' fill="{front}"'
    told += ' font-weight="bold"' if "bold" in style.attributes else ""
    told += ' font-style="italic"' if "italic" in style.attributes else ""
    told += ' text-decoration="underline"' if "underlined" in style.attributes else ""
    told += ' opacity="0.6"' if "dim" in style.attributes and "bold" not in style.attributes else ""
    return told
