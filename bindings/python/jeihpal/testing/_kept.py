"""The terminals of one test, and the files that are written if it fails."""

from __future__ import annotations

import os
import re
import shutil
from typing import Iterable, Mapping, Optional, Sequence, Union

from ._failures import ScreenChanged
from ._picture import Picture
from ._snapshots import Mask, Snapshots, written
from ._svg import svg
from ._terminal import TIMEOUT, Terminal


class TestTerminals:
    """Makes the terminals of a test, compares its screens, and writes files if it fails."""

    __test__ = False  # so that pytest doesn't collect it as a test

    def __init__(self, snapshots: Snapshots, failed: str) -> None:
        """`failed` is the folder for the files that are written if the test fails."""
        self.snapshots, self.failed = snapshots, failed
        self.terminals: list[Terminal] = []
        self._changed: Optional[ScreenChanged] = None
        shutil.rmtree(failed, ignore_errors=True)

    def make(
        self,
        command: Union[str, Sequence[str]],
        rows: int = 24,
        cols: int = 80,
        env: Optional[Mapping[str, Optional[str]]] = None,
        cwd: Union[None, str, os.PathLike[str]] = None,
        timeout: float = TIMEOUT,
    ) -> Terminal:
        """Runs a program in a terminal, which is closed at the test's end."""
        terminal = Terminal(command, rows, cols, env, cwd, timeout)
        self.terminals.append(terminal)
        return terminal

    def assert_screen(
        self,
        screen: Union[Picture, Terminal],
        name: str,
        mask: Iterable[Mask] = (),
        styles: bool = True,
        cursor: bool = True,
    ) -> None:
        """Compares a screen with the one that is kept under this name. Raises ScreenChanged if they differ.

        For a terminal it waits until its screen equals the kept one, for at most the terminal's timeout. What `mask`
        finds is compared as `*`: texts, patterns, and regions as (row, column, rows, columns). Without `styles` only
        texts are compared, and without `cursor` the cursor isn't.
        """
        __tracebackhide__ = True
        try:
            self.snapshots.check(screen, name, mask, styles, cursor)
        except ScreenChanged as error:
            self._changed = error
            raise

    def save(self) -> list[str]:
        """Writes the files: for each terminal its screen and its session, and the two screens that differ."""
        files: dict[str, str] = {}
        for number, terminal in enumerate(self.terminals, 1):
            name = "screen" if len(self.terminals) == 1 else f"screen{number}"
            files[f"{name}.txt"], files[f"{name}.svg"] = written(terminal.screen), svg(terminal.screen)
            files[f"{name}.cast"] = terminal.recording()
        if self._changed:
            files[f"{self._changed.name}.now.svg"] = svg(self._changed.screen)
            if self._changed.kept:
                files[f"{self._changed.name}.kept.svg"] = svg(self._changed.kept)
        if files:
            os.makedirs(self.failed, exist_ok=True)
        for name, text in files.items():
            with open(os.path.join(self.failed, name), "w", encoding="utf-8", newline="\n") as file:
                file.write(text)
        return sorted(files)

    def close(self) -> None:
        """Closes the terminals."""
        for terminal in self.terminals:
            terminal.close()


def folder_name(test: str) -> str:
    """A test's name as one for a folder."""
    return re.sub(r"[^\w.+-]+", "-", test).strip("-.") or "test"
