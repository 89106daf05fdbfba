"""What share itself says."""

from __future__ import annotations

import sys
from collections import Counter


class Notices:
    """Lines for standard error: at once, or at the end if the command's screen is shown in the same terminal."""

    def __init__(self, is_shown_here: bool) -> None:
        self._is_shown_here = is_shown_here
        self._times: Counter[str] = Counter()

    def say(self, text: str) -> None:
        """Says a line. One that has been said is only counted from then on."""
        self._times[text] += 1
        if self._times[text] == 1 and not self._is_shown_here:
            self._print(text)

    def end(self) -> None:
        """Says what has waited, and what was said more than once."""
        for text, times in self._times.items():
            if times > 1:
                self._print(f"{text} ({times} times)")
            elif self._is_shown_here:
                self._print(text)
        self._times.clear()

    @staticmethod
    def _print(text: str) -> None:
        print(f"share: {text}", file=sys.stderr, flush=True)
