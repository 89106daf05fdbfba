"""Colours by their names, and as `#rrggbb`."""

from __future__ import annotations

from jeihpal import Color

# The terminal's own colours, if a picture or a program asks for them. These and the first sixteen are xterm's, as in
# the theme `xterm` of screentext.
FOREGROUND, BACKGROUND = "#e5e5e5", "#000000"
_EIGHT = ("black", "red", "green", "yellow", "blue", "magenta", "cyan", "white")
NAMES = (*_EIGHT, *(f"bright-{name}" for name in _EIGHT))
_SIXTEEN = (
    *("#000000", "#cd0000", "#00cd00", "#cdcd00", "#0000ee", "#cd00cd", "#00cdcd", "#e5e5e5"),
    *("#7f7f7f", "#ff0000", "#00ff00", "#ffff00", "#5c5cff", "#ff00ff", "#00ffff", "#ffffff"),
)
_STEPS = (0, 95, 135, 175, 215, 255)


def name_of(color: Color) -> str:
    """A colour by its name: `default`, `red`, `bright-red`, `color-123` or `#rrggbb`."""
    if color is None:
        return "default"
    if isinstance(color, int):
        return NAMES[color] if color < 16 else f"color-{color}"
    return "#%02x%02x%02x" % color


def hex_of_number(number: int) -> str:
    """One of the 256 numbered colours as xterm has it."""
    if number < 16:
        return _SIXTEEN[number]
    if number < 232:
        red, green, blue = (_STEPS[(number - 16) // part % 6] for part in (36, 6, 1))
        return f"#{red:02x}{green:02x}{blue:02x}"
    return f"#{8 + 10 * (number - 232):02x}" + 2 * f"{8 + 10 * (number - 232):02x}"


def hex_of_name(name: str, default: str) -> str:
    """A named colour as `#rrggbb`."""
    if name == "default":
        return default
    if name in NAMES:
        return _SIXTEEN[NAMES.index(name)]
    return name if name.startswith("#") else hex_of_number(int(name.rpartition("-")[2]))
