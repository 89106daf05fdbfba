"""Tests of programs that run in a terminal: they wait for screens and compare them.

>>> from jeihpal.testing import Terminal
>>> with Terminal("less README.md") as less:
...     screen = less.wait_for("Jeihpal")
...     less.press("Down", "q")
...     less.wait_for_exit()
0

`Terminal` runs a program, `Picture` is what its screen shows at one moment. The plugin for pytest has the fixtures
`terminal` and `assert_screen`, and `TerminalMixin` is the same for unittest. `jeihpal-test` runs scripts.
"""

from ._failures import ProgramNotFound, ScreenChanged, WaitFailed
from ._picture import Cell, Cursor, Picture, Place, Row, Style
from ._snapshots import Snapshots
from ._svg import svg
from ._terminal import Terminal
from ._unittest import TerminalMixin

for _public in (ProgramNotFound, ScreenChanged, WaitFailed):
    _public.__module__ = __name__  # so that reports name them as a test does

__all__ = [
    "Cell",
    "Cursor",
    "Picture",
    "Place",
    "ProgramNotFound",
    "Row",
    "ScreenChanged",
    "Snapshots",
    "Style",
    "Terminal",
    "TerminalMixin",
    "WaitFailed",
    "svg",
]
