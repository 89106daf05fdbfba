"""What fails a test, and what it says."""

from __future__ import annotations

from typing import TYPE_CHECKING, Optional

if TYPE_CHECKING:
    from ._picture import Picture


class ProgramNotFound(FileNotFoundError):
    """There is no such program, or it can't be run."""


class WaitFailed(AssertionError):
    """What was waited for didn't come. The message has the screen, the cursor, and what was written and sent last."""

    def __init__(self, words: str, screen: Picture) -> None:
        super().__init__(words)
        self.screen = screen
        """The last whole screen."""


class ScreenChanged(AssertionError):
    """A screen differs from the kept one of its name."""

    def __init__(self, words: str, name: str, kept: Optional[Picture], screen: Picture) -> None:
        super().__init__(words)
        self.name = name
        self.kept = kept
        """The kept screen; None if there is none."""
        self.screen = screen
        """The screen of this run."""
