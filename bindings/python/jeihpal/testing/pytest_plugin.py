"""A plugin for pytest: the fixtures `terminal` and `assert_screen`, and the files of a failed test.

pytest finds it by itself where the module is installed. Elsewhere: `pytest -p jeihpal.testing.pytest_plugin`.
"""

from __future__ import annotations

import os
from typing import Any, Callable, Generator, Optional

import pytest

from ._kept import TestTerminals, folder_name
from ._picture import Picture, Row
from ._snapshots import Snapshots
from ._terminal import Terminal

_KEPT = "_jeihpal_terminals"


def pytest_addoption(parser: Any) -> None:
    """The plugin's options."""
    group = parser.getgroup("jeihpal", "screens of terminals")
    group.addoption("--update-screens", action="store_true", help="keep the screens of this run for assert_screen")
    where = "where the screens and the session of a failed test go (screens/failed beside the test's file)"
    group.addoption("--failed-screens", metavar="FOLDER", help=where)


def _terminals(request: Any) -> TestTerminals:
    """The terminals of the test that asks."""
    item = request.node
    kept: Optional[TestTerminals] = getattr(item, _KEPT, None)
    if kept is None:
        folder, file = os.path.split(str(item.path))
        module = os.path.splitext(file)[0]
        failed = request.config.getoption("failed_screens") or os.path.join(folder, "screens", "failed")
        snapshots = Snapshots(
            os.path.join(folder, "screens", module),
            bool(request.config.getoption("update_screens")),
            "pytest --update-screens",
        )
        kept = TestTerminals(snapshots, os.path.join(failed, folder_name(f"{module}.{item.name}")))
        setattr(item, _KEPT, kept)
        request.addfinalizer(kept.close)
    return kept


@pytest.fixture
def terminal(request: Any) -> Callable[..., Terminal]:
    """Runs a program in a terminal, as `Terminal`: `terminal("less README.md", rows=24, cols=80)`."""
    return _terminals(request).make


@pytest.fixture
def assert_screen(request: Any) -> Callable[..., None]:
    """Compares a screen with the kept one: `assert_screen(screen, "name")`. With --update-screens it keeps this one."""
    return _terminals(request).assert_screen


@pytest.hookimpl(hookwrapper=True)  # type: ignore[misc]
def pytest_runtest_makereport(item: Any, call: Any) -> Generator[None, Any, None]:
    """Writes the files of a test that fails, and says where they are."""
    outcome = yield
    report = outcome.get_result()
    kept: Optional[TestTerminals] = getattr(item, _KEPT, None)
    if report.when == "call" and report.failed and kept and (kept.terminals or call.excinfo):
        told = [str(terminal.screen) for terminal in kept.terminals]
        files = kept.save()
        if files:
            told.append(f"{kept.failed}{os.sep}: {', '.join(files)}")
            report.sections.append(("screens", "\n".join(told)))


def pytest_assertrepr_compare(op: str, left: object, right: object) -> Optional[list[str]]:
    """The message of a failed assertion about pictures."""
    if isinstance(left, Picture) and isinstance(right, Picture) and op == "==":
        return ["the screens differ (- left, + right)", *left.difference(right).split("\n")]
    if isinstance(left, Row) and isinstance(right, Row) and op == "==":
        return [f"{left!r} == {right!r}"]
    if isinstance(right, Picture) and op in ("in", "not in"):
        return [f"{left!r} {op} the screen", *str(right).split("\n")]
    return None
