"""Finds what a program asks its terminal in its bytes, and makes the answers."""

from __future__ import annotations

import re
from typing import Callable, Iterator, NamedTuple

from jeihpal import Encoding, Look, Mouse

from ._colors import BACKGROUND, FOREGROUND, hex_of_number

VERSION = "0.1.0"
_ST = rb"(?:\x07|\x1b\\)"
_MOST_TAIL = 4096  # how many bytes of an unfinished sequence are looked at
CELL_WIDTH, CELL_HEIGHT = 8, 16  # in pixels, for programs that ask for them

# What comes after ESC. Each name but the first is a method of _Answers.
_FORMS = {
    "update": rb"\[\?(?:\d*;)*0*2026(?:;\d*)*[hl]",
    "status": rb"\[5n",
    "place": rb"\[(?P<place_mark>\??)6n",
    "attributes": rb"\[0?c",
    "second_attributes": rb"\[>0?c",
    "third_attributes": rb"\[=0?c",
    "version": rb"\[>0?q",
    "size": rb"\[(?P<size_kind>1[4689])t",
    "private_mode": rb"\[\?(?P<private_number>\d+)\$p",
    "mode": rb"\[(?P<mode_number>\d+)\$p",
    "own_color": rb"\](?P<own_number>1[012]);\?(?P<own_end>" + _ST + rb")",
    "numbered_color": rb"\]4;(?P<color_number>\d+);\?(?P<color_end>" + _ST + rb")",
    "setting": rb"P\$q[^\x1b]*\x1b\\",
    "capability": rb"P\+q[^\x1b]*\x1b\\",
}
_NAMED_FORMS = b"|".join(rb"(?P<%s>%s)" % (name.encode(), form) for name, form in _FORMS.items())
_SEQUENCE = re.compile(rb"\x1b(?=\[[\d;?>=$]*[hlncqtp]|\]|P)(?:" + _NAMED_FORMS + rb")")  # most others end soon
# An unfinished sequence at the end, which may become one of the forms.
_BEGUN = re.compile(rb"\x1b(?:\[[?>=]?[\d;]*\$?|\](?:\d*(?:;[\d?]*)*\x1b?)|P(?:[$+]q?[^\x1b]*\x1b?)?)?\Z")


class Piece(NamedTuple):
    """A program's next bytes, up to the end of a sequence that asks, or begins or ends an update; or else all."""

    data: bytes
    asked: re.Match[bytes] | None


class Scanner:
    """Cuts a program's bytes after each question in them, no matter in what pieces they come."""

    def __init__(self) -> None:
        self._tail = b""

    def pieces(self, data: bytes) -> Iterator[Piece]:
        """The same bytes, in pieces."""
        text, done = self._tail + data, len(self._tail)
        for found in _SEQUENCE.finditer(text):
            yield Piece(text[done : found.end()], found)
            done = found.end()
        begun = _BEGUN.search(text, max(done if done > len(self._tail) else 0, len(text) - _MOST_TAIL))
        self._tail = begun[0] if begun else b""
        if done < len(text):
            yield Piece(text[done:], None)


def _report(text: str) -> bytes:
    return b"\x1b" + text.encode()


class _Answers:
    """The answers to one question, by the question's name."""

    def __init__(self, asked: re.Match[bytes], look: Look) -> None:
        self._asked, self._look = asked, look

    def status(self) -> bytes:
        return _report("[0n")

    def place(self) -> bytes:
        look, mark = self._look, self._asked["place_mark"].decode()
        return _report(f"[{mark}{look.row + 1};{min(look.col, look.cols - 1) + 1}R")

    def attributes(self) -> bytes:
        return _report("[?62;22c")  # a VT220 with colours

    def second_attributes(self) -> bytes:
        return _report("[>1;100;0c")

    def third_attributes(self) -> bytes:
        return _report("P!|00000000\x1b\\")

    def version(self) -> bytes:
        return _report(f"P>|jeihpal {VERSION}\x1b\\")

    def size(self) -> bytes:
        rows, cols = self._look.rows, self._look.cols
        answers = {
            b"14": f"[4;{rows * CELL_HEIGHT};{cols * CELL_WIDTH}t",
            b"16": f"[6;{CELL_HEIGHT};{CELL_WIDTH}t",
            b"18": f"[8;{rows};{cols}t",
            b"19": f"[9;{rows};{cols}t",
        }
        return _report(answers[self._asked["size_kind"]])

    def private_mode(self) -> bytes:
        number = int(self._asked["private_number"])
        is_set = _PRIVATE_MODES.get(number)
        state = 0 if is_set is None else 1 if is_set(self._look) else 2
        return _report(f"[?{number};{state}$y")

    def mode(self) -> bytes:
        return _report(f"[{int(self._asked['mode_number'])};0$y")

    def own_color(self) -> bytes:
        color = BACKGROUND if self._asked["own_number"] == b"11" else FOREGROUND
        head = b"\x1b]%s;" % self._asked["own_number"]
        return head + _color_words(color) + self._asked["own_end"]

    def numbered_color(self) -> bytes:
        number = int(self._asked["color_number"])
        if number > 255:
            return b""
        return b"\x1b]4;%d;%s%s" % (number, _color_words(hex_of_number(number)), self._asked["color_end"])

    def setting(self) -> bytes:
        return _report("P0$r\x1b\\")  # no such setting

    def capability(self) -> bytes:
        return _report("P0+r\x1b\\")  # no such capability


_PRIVATE_MODES: dict[int, Callable[[Look], bool]] = {
    1: lambda look: look.cursor_keys,
    9: lambda look: look.mouse == Mouse.PRESS,
    25: lambda look: not look.hidden,
    47: lambda look: look.alternate,
    1000: lambda look: look.mouse == Mouse.PRESS_RELEASE,
    1002: lambda look: look.mouse == Mouse.BUTTON_MOTION,
    1003: lambda look: look.mouse == Mouse.ANY_MOTION,
    1005: lambda look: look.encoding == Encoding.UTF8,
    1006: lambda look: look.encoding == Encoding.SGR,
    1049: lambda look: look.alternate,
    2004: lambda look: look.paste,
    2026: lambda look: look.updating,
}


def _color_words(color: str) -> bytes:
    """A colour as X11 writes it."""
    parts = color[1:3], color[3:5], color[5:7]
    return b"rgb:" + b"/".join(2 * part.encode() for part in parts)


def is_update(asked: re.Match[bytes]) -> bool:
    """Whether the program begins or ends an update, rather than asks something."""
    return asked.lastgroup == "update"


def answer(asked: re.Match[bytes], look: Look) -> bytes:
    """The answer, for a screen that has this look when the question is read."""
    said: Callable[[], bytes] = getattr(_Answers(asked, look), asked.lastgroup or "")
    return said()
