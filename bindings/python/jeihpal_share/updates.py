"""Where a program's synchronized updates end in its output, which comes in pieces."""

from __future__ import annotations

import re

_MODE = 2026
# What may end an update: private modes that are reset, or a full reset.
_END = re.compile(rb"\x1b(?:\[\?([0-9;:]*)l|c)")
# The beginning of such a sequence, at the end of a piece.
_BEGUN = re.compile(rb"\x1b(?:\[(?:\?[0-9;:]*)?)?\Z")
_LONGEST = 64  # bytes of a sequence that are kept at most


class UpdateEnds:
    """Finds the ends, also those whose sequence a piece's end cuts. It is given each piece, in order."""

    def __init__(self) -> None:
        self._begun = b""  # the sequence that the last piece has begun

    def last_end(self, piece: bytes) -> int:
        """How many bytes of the piece come up to the last end in it; 0 where no update ends in it."""
        text, before = self._begun + piece, len(self._begun)
        ends = [found.end() for found in _END.finditer(text) if _ends_update(found[1])]
        begun = _BEGUN.search(text, max(len(text) - _LONGEST, 0))
        self._begun = begun[0] if begun else b""
        return ends[-1] - before if ends else 0


def _ends_update(modes: bytes | None) -> bool:
    """Whether an update ends where these modes are reset, or all is."""
    return modes is None or any(mode.isdigit() and int(mode) == _MODE for mode in modes.split(b";"))
