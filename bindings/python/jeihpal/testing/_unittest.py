"""The same for Python's unittest."""

from __future__ import annotations

import inspect
import os
import sys
import unittest
from typing import TYPE_CHECKING, Iterable, Mapping, Optional, Sequence, Union

from ._kept import TestTerminals, folder_name
from ._picture import Picture
from ._snapshots import Mask, Snapshots
from ._terminal import TIMEOUT, Terminal

if TYPE_CHECKING:
    _Base = unittest.TestCase
else:
    _Base = object


class TerminalMixin(_Base):
    """For a `unittest.TestCase`: `self.terminal(..)` and `self.assert_screen(screen, "name")`.

    If the environment has JEIHPAL_UPDATE_SCREENS, the screens of the run are kept. The files of a test that fails go to
    screens/failed beside the test's file.
    """

    _terminals: TestTerminals

    def terminal(
        self,
        command: Union[str, Sequence[str]],
        rows: int = 24,
        cols: int = 80,
        env: Optional[Mapping[str, Optional[str]]] = None,
        cwd: Union[None, str, os.PathLike[str]] = None,
        timeout: float = TIMEOUT,
    ) -> Terminal:
        """Runs a program in a terminal, which is closed at the test's end."""
        return self._terminals.make(command, rows, cols, env, cwd, timeout)

    def assert_screen(
        self,
        screen: Union[Picture, Terminal],
        name: str,
        mask: Iterable[Mask] = (),
        styles: bool = True,
        cursor: bool = True,
    ) -> None:
        """Compares a screen with the kept one of this name, as the fixture of pytest does."""
        __tracebackhide__ = True
        self._terminals.assert_screen(screen, name, mask, styles, cursor)

    def run(self, result: Optional[unittest.TestResult] = None) -> Optional[unittest.TestResult]:
        """Runs the test, and writes files if it fails."""
        folder, file = os.path.split(os.path.abspath(inspect.getfile(type(self))))
        module = os.path.splitext(file)[0]
        test = folder_name(f"{module}.{type(self).__name__}.{self._testMethodName}")
        how = "JEIHPAL_UPDATE_SCREENS=1"
        is_updating = os.environ.get("JEIHPAL_UPDATE_SCREENS", "") not in ("", "0")
        snapshots = Snapshots(os.path.join(folder, "screens", module), is_updating, how)
        self._terminals = TestTerminals(snapshots, os.path.join(folder, "screens", "failed", test))
        result = result or self.defaultTestResult()
        before = len(result.failures) + len(result.errors)
        try:
            super().run(result)
            if len(result.failures) + len(result.errors) > before and (files := self._terminals.save()):
                print(f"\n{self._terminals.failed}{os.sep}: {', '.join(files)}", file=sys.stderr)
        finally:
            self._terminals.close()
        return result
