"""A terminfo description for programs: that of xterm-256color without what the screen doesn't know."""

from __future__ import annotations

import atexit
import functools
import os
import shutil
import struct
import tempfile
from typing import Optional

_NAME = "xterm-256color"
_FOLDERS = ("/etc/terminfo", "/lib/terminfo", "/usr/share/terminfo", "/usr/lib/terminfo", "/usr/local/share/terminfo")
# The strings that say what the screen doesn't know, by their numbers in a description: back tabs and tab stops,
# insert mode, automatic margins, blinking and invisible text, and another character set for lines.
_UNKNOWN = {
    "cbt": 0,
    "tbc": 4,
    "smacs": 25,
    "blink": 26,
    "smir": 31,
    "invis": 32,
    "rmacs": 38,
    "rmir": 42,
    "hts": 132,
    "acsc": 146,
    "smam": 151,
    "rmam": 152,
    "enacs": 155,
}


def without_unknown(data: bytes) -> bytes:
    """A compiled description without these strings. Raises ValueError if the data isn't a description."""
    if len(data) < 12:
        raise ValueError("it is no description of a terminal")
    magic, names, flags, numbers, strings, _ = struct.unpack_from("<6H", data)
    if magic not in (0o432, 0o1036):
        raise ValueError("it is no description of a terminal")
    start = 12 + names + flags
    start += start % 2 + numbers * (2 if magic == 0o432 else 4)
    if start + 2 * strings > len(data):
        raise ValueError("it ends too soon")
    made = bytearray(data)
    for index in _UNKNOWN.values():
        if index < strings:
            struct.pack_into("<h", made, start + 2 * index, -1)
    return bytes(made)


@functools.lru_cache(maxsize=1)
def fitting_terminfo() -> Optional[str]:
    """A folder with the description, for TERMINFO; None if the system has no description to start from."""
    for folder in _FOLDERS:
        try:
            with open(f"{folder}/x/{_NAME}", "rb") as file:
                data = without_unknown(file.read())
        except (OSError, ValueError):
            continue
        made = tempfile.mkdtemp(prefix="jeihpal-terminfo-")
        atexit.register(shutil.rmtree, made, True)
        os.mkdir(f"{made}/x")
        with open(f"{made}/x/{_NAME}", "wb") as file:
            file.write(data)
        return made
    return None
