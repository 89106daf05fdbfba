"""Keys, pasted text and clicks as the bytes that a terminal sends for them."""

from __future__ import annotations

import difflib
from typing import NamedTuple

from jeihpal import Encoding, Look, Mouse

_SHIFT, _ALT, _CTRL = 1, 2, 4
_MODIFIERS = {"shift": _SHIFT, "alt": _ALT, "meta": _ALT, "ctrl": _CTRL, "control": _CTRL}

# The last byte of `ESC [` and `ESC O`.
_CURSOR_KEYS = {"up": "A", "down": "B", "right": "C", "left": "D", "end": "F", "home": "H"}
_FIRST_FUNCTION_KEYS = {"f1": "P", "f2": "Q", "f3": "R", "f4": "S"}
# The number of `ESC [ number ~`.
_NUMBERED_KEYS = {
    **{"insert": 2, "delete": 3, "pageup": 5, "pagedown": 6},
    **{"f5": 15, "f6": 17, "f7": 18, "f8": 19, "f9": 20, "f10": 21, "f11": 23, "f12": 24},
}
_CHARACTERS = {"enter": "\r", "return": "\r", "tab": "\t", "escape": "\x1b", "backspace": "\x7f", "space": " "}
_OTHER_NAMES = {"esc": "escape", "ins": "insert", "del": "delete", "pgup": "pageup", "pgdn": "pagedown"}
_NAMES = [*_CURSOR_KEYS, *_FIRST_FUNCTION_KEYS, *_NUMBERED_KEYS, *_CHARACTERS, *_OTHER_NAMES]
_CONTROLS = {" ": "\0", "2": "\0", "3": "\x1b", "4": "\x1c", "5": "\x1d", "6": "\x1e", "7": "\x1f", "8": "\x7f"}
_CONTROLS.update({"/": "\x1f", "-": "\x1f", "?": "\x7f"})

_BUTTONS = {"left": 0, "middle": 1, "right": 2, "wheel-up": 64, "wheel-down": 65}
_START_PASTE, _END_PASTE = "\x1b[200~", "\x1b[201~"


class _Key(NamedTuple):
    """A key: its name in small letters or its character, and the modifiers that are held with it."""

    name: str
    modifiers: int

    @property
    def parameter(self) -> str:
        """The modifiers as a parameter of a sequence."""
        return str(1 + self.modifiers)


def _parsed(words: str) -> _Key:
    """The key that a name such as `Ctrl-Shift-Left` means. Raises ValueError if there is no such key."""
    modifiers, rest = 0, words
    while "-" in rest[1:]:
        modifier, _, after = rest.partition("-")
        if modifier.lower() not in _MODIFIERS or not after:
            break
        modifiers |= _MODIFIERS[modifier.lower()]
        rest = after
    name = rest if len(rest) == 1 else _OTHER_NAMES.get(rest.lower(), rest.lower())
    if len(name) != 1 and name not in _NAMES:
        near = difflib.get_close_matches(name, _NAMES, 1)
        hint = f": is it {near[0].capitalize()}?" if near else "; `type` sends whole words"
        raise ValueError(f"there is no key {words!r}{hint}")
    return _Key(name, modifiers)


def key_bytes(words: str, look: Look) -> bytes:
    """What a terminal in these modes sends for a key, as xterm does."""
    key = _parsed(words)
    if key.name in _CURSOR_KEYS:
        return _lettered(key, _CURSOR_KEYS[key.name], "O" if look.cursor_keys else "[")
    if key.name in _FIRST_FUNCTION_KEYS:
        return _lettered(key, _FIRST_FUNCTION_KEYS[key.name], "O")
    if key.name in _NUMBERED_KEYS:
        number = _NUMBERED_KEYS[key.name]
        middle = f"{number};{key.parameter}" if key.modifiers else number
        return f"\x1b[{middle}~".encode()
    return _character(key).encode()


def _lettered(key: _Key, letter: str, introducer: str) -> bytes:
    """A key whose sequence ends in a letter: a short one if no modifier is held."""
    if key.modifiers:
        return f"\x1b[1;{key.parameter}{letter}".encode()
    return f"\x1b{introducer}{letter}".encode()


def _character(key: _Key) -> str:
    """A key that types a character."""
    if key.name == "tab" and key.modifiers & _SHIFT:
        return "\x1b[Z"
    text = _CHARACTERS.get(key.name, key.name)
    if key.modifiers & _SHIFT and text.isalpha():
        text = text.upper()
    if key.modifiers & _CTRL:
        text = "\x08" if key.name == "backspace" else _control(text)
    return f"\x1b{text}" if key.modifiers & _ALT else text


def _control(text: str) -> str:
    """The control character of a character; the character itself if there is none."""
    if text in _CONTROLS:
        return _CONTROLS[text]
    upper = text.upper()
    return chr(ord(upper) & 0x1F) if len(upper) == 1 and "@" <= upper <= "_" else text


def typed_bytes(text: str) -> bytes:
    """What is sent for typed text: the Enter key for each line end."""
    return text.replace("\r\n", "\r").replace("\n", "\r").encode()


def pasted_bytes(text: str, look: Look) -> bytes:
    """What is sent for pasted text, marked as such if the program asks for it."""
    text = text.replace(_END_PASTE, "")
    return typed_bytes(f"{_START_PASTE}{text}{_END_PASTE}" if look.paste else text)


def click_bytes(row: int, col: int, button: str, modifiers: str, look: Look) -> bytes:
    """What is sent for a button that goes down and up at a place. Raises ValueError if nothing can be sent."""
    if look.mouse == Mouse.NONE:
        raise ValueError("the program hasn't asked for mouse events, so a click sends nothing")
    if button not in _BUTTONS:
        raise ValueError(f"there is no button {button!r}; there are {', '.join(_BUTTONS)}")
    number = _BUTTONS[button]
    for word in filter(None, modifiers.lower().split("-")):
        if word not in _MODIFIERS:
            raise ValueError(f"there is no modifier {word!r}; there are Shift, Alt and Ctrl")
        number |= _MODIFIERS[word] << 2
    down = _event(number, row, col, True, look.encoding)
    has_release = look.mouse != Mouse.PRESS and not number & 64
    return down + (_event(number, row, col, False, look.encoding) if has_release else b"")


def _event(number: int, row: int, col: int, is_down: bool, encoding: Encoding) -> bytes:
    """A button that goes down or up."""
    if encoding == Encoding.SGR:
        return f"\x1b[<{number};{col + 1};{row + 1}{'M' if is_down else 'm'}".encode()
    number = number if is_down else number | 3
    codes = [32 + number, 33 + col, 33 + row]
    if max(codes) > (2047 if encoding == Encoding.UTF8 else 255):
        raise ValueError(f"the program's mouse encoding has no place {row}, {col}")
    characters = "".join(map(chr, codes))
    return b"\x1b[M" + (characters.encode() if encoding == Encoding.UTF8 else characters.encode("latin-1"))
