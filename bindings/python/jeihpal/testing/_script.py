"""jeihpal-test: tests of programs in a terminal as scripts, with one step on each line."""

from __future__ import annotations

import argparse
import os
import shutil
import signal
from typing import Any, Callable, Iterator, Optional

from ._differences import difference
from ._failures import ProgramNotFound, ScreenChanged, WaitFailed
from ._kept import TestTerminals, folder_name
from ._picture import Cursor, Picture, framed
from ._snapshots import Snapshots, cells_of_lines
from ._steps import FORMS, ScriptError, Step, Word, steps_of
from ._terminal import TIMEOUT, Terminal

ENDING = ".steps"
ABOUT = f"""Plays scripts, each a test of a program in a terminal: a step a line. Prints TAP. Of a folder it plays what
ends in {ENDING}. The status is 0; 1 where a test fails; 2 where a script can't be read."""


class Skipped(Exception):
    """A program that the script needs isn't there."""


class Player:
    """Runs the steps of one script."""

    def __init__(self, terminals: TestTerminals, folder: str) -> None:
        self._terminals, self._folder = terminals, folder
        self._size = (24, 80)
        self._env: dict[str, Optional[str]] = {}
        self._timeout = TIMEOUT
        self._masks: list[Word] = []
        self._terminal: Optional[Terminal] = None

    def play(self, step: Step) -> None:
        """Runs a step. Raises AssertionError if what is expected doesn't come."""
        name = f"{step.name}_{step.words[0]}" if step.name == "expect" else step.name
        play: Callable[[Step, list[Any]], None]
        play = getattr(self, f"_do_{name}", None) or getattr(self, f"_do_{step.name}")
        play(step, step.words)

    @property
    def _running(self) -> Terminal:
        if self._terminal is None:
            raise AssertionError("nothing runs yet: `run COMMAND` comes before")
        return self._terminal

    def _do_needs(self, step: Step, words: list[str]) -> None:
        for word in words:
            if not shutil.which(word):
                raise Skipped(f"there is no {word}")

    def _do_size(self, step: Step, words: list[str]) -> None:
        self._size = int(words[0]), int(words[1])

    def _do_env(self, step: Step, words: list[str]) -> None:
        name, _, text = words[0].partition("=")
        self._env[name] = text

    def _do_timeout(self, step: Step, words: list[str]) -> None:
        self._timeout = float(words[0])
        if self._terminal:
            self._terminal.timeout = self._timeout

    def _do_run(self, step: Step, words: list[str]) -> None:
        if self._terminal:
            self._terminal.close()
        rows, cols = self._size
        self._terminal = self._terminals.make(words, rows, cols, self._env, self._folder, self._timeout)

    def _do_type(self, step: Step, words: list[str]) -> None:
        self._running.type(words[0])

    def _do_press(self, step: Step, words: list[str]) -> None:
        self._running.press(*words)

    def _do_paste(self, step: Step, words: list[str]) -> None:
        self._running.paste(words[0])

    def _do_click(self, step: Step, words: list[Any]) -> None:
        self._running.click((int(words[0]), int(words[1])) if len(words) == 2 else words[0])

    def _do_resize(self, step: Step, words: list[str]) -> None:
        self._running.resize(int(words[0]), int(words[1]))

    def _do_signal(self, step: Step, words: list[str]) -> None:
        self._running.signal(words[0])

    def _do_wait(self, step: Step, words: list[Word]) -> None:
        self._running.wait_for(words[0])

    def _do_gone(self, step: Step, words: list[Word]) -> None:
        self._running.wait_until_gone(words[0])

    def _do_quiet(self, step: Step, words: list[str]) -> None:
        self._running.wait_until_quiet(float(words[0]) if words else 0.1)

    def _do_mask(self, step: Step, words: list[Word]) -> None:
        self._masks += words

    # These steps wait for what they expect.

    def _do_expect(self, step: Step, words: list[Word]) -> None:
        self._running.wait_for(words[0])

    def _do_expect_no(self, step: Step, words: list[Word]) -> None:
        self._running.wait_until_gone(words[1])

    def _do_expect_row(self, step: Step, words: list[str]) -> None:
        row, text = int(words[1]), words[2]
        if row >= self._running.screen.size[0]:
            raise AssertionError(f"there is no row {row}")
        self._want(lambda screen: screen.lines[row] == text, f"{text!r} in row {row}")

    def _do_expect_cursor(self, step: Step, words: list[str]) -> None:
        place = int(words[1]), int(words[2])
        self._want(lambda screen: screen.cursor.place == place, f"the cursor at {place[0]}, {place[1]}")

    def _do_expect_title(self, step: Step, words: list[str]) -> None:
        self._want(lambda screen: screen.title == words[1], f"the title {words[1]!r}")

    def _do_expect_screen(self, step: Step, words: list[str]) -> None:
        if not step.rows:
            self._terminals.assert_screen(self._running, words[1], self._masks)
            return
        rows, cols = self._running.screen.size
        if len(step.rows) != rows:
            raise AssertionError(f"the screen has {rows} rows, and {len(step.rows)} are written here")
        try:
            self._running.wait_for(lambda screen: screen.lines == tuple(step.rows))
        except WaitFailed as failure:
            wanted = Picture(cells_of_lines(step.rows, cols), failure.screen.cursor)
            shown = Picture(cells_of_lines(list(failure.screen.lines), cols), failure.screen.cursor)
            told = f"the screen isn't as written here (-), but so (+):\n{difference(wanted, shown)}"
            raise AssertionError(f"{told}\n{framed(failure.screen)}") from None

    def _do_expect_exit(self, step: Step, words: list[str]) -> None:
        status, wanted = self._running.wait_for_exit(), words[1]
        name = wanted.upper() if wanted.upper().startswith("SIG") else f"SIG{wanted.upper()}"
        number = int(wanted) if wanted.isdigit() else -getattr(signal, name, 0)
        if status != number:
            how = f"status {status}" if status >= 0 else f"signal {signal.Signals(-status).name[3:]}"
            raise AssertionError(f"the program has ended with {how}, not with {wanted}\n{self._running.screen}")

    def _want(self, test: Callable[[Picture], object], words: str) -> None:
        self._running.wait_for_test(test, words)


def _scripts(paths: list[str]) -> Iterator[str]:
    """The scripts that the arguments name."""
    for path in paths:
        if os.path.isdir(path):
            for folder, folders, files in sorted(os.walk(path)):
                folders.sort()
                yield from (os.path.join(folder, name) for name in sorted(files) if name.endswith(ENDING))
        else:
            yield path


class Run:
    """A run of some scripts, and what it prints."""

    def __init__(self, is_updating: bool, failed: Optional[str]) -> None:
        self._is_updating, self._failed = is_updating, failed
        self.status = 0

    def test(self, path: str, number: int) -> None:
        """Runs a script, and prints its lines of TAP."""
        name = os.path.basename(path)
        name = name[: -len(ENDING)] if name.endswith(ENDING) else name
        try:
            with open(path, encoding="utf-8") as file:
                steps = steps_of(file.read())
        except (OSError, UnicodeDecodeError) as error:
            self._fail(2, number, name, f"{path}: {error}")
        except ScriptError as error:
            self._fail(2, number, name, f"{path}:{error.line}: {error}")
        else:
            self._play(path, number, name, steps)

    def _play(self, path: str, number: int, name: str, steps: list[Step]) -> None:
        folder = os.path.dirname(os.path.abspath(path))
        snapshots = Snapshots(os.path.join(folder, "screens", name), self._is_updating, "jeihpal-test --update-screens")
        failed = self._failed or os.path.join(folder, "screens", "failed")
        terminals = TestTerminals(snapshots, os.path.join(failed, folder_name(name)))
        player, line = Player(terminals, folder), 0
        try:
            for step in steps:
                line = step.line
                player.play(step)
            print(f"ok {number} - {name}", flush=True)
        except Skipped as skipped:
            print(f"ok {number} - {name} # SKIP {skipped}", flush=True)
        except (AssertionError, ProgramNotFound, ScreenChanged, OSError, ValueError) as error:
            told = f"{path}:{line}: {error}"
            if files := terminals.save():
                told += f"\n{terminals.failed}{os.sep}: {', '.join(files)}"
            self._fail(1, number, name, told)
        finally:
            terminals.close()

    def _fail(self, status: int, number: int, name: str, told: str) -> None:
        self.status = max(self.status, status)
        print(f"not ok {number} - {name}")
        print("\n".join(f"# {line}".rstrip() for line in told.split("\n")), flush=True)


def main(words: Optional[list[str]] = None) -> int:
    """Runs the scripts that the arguments name. Returns the exit status."""
    steps = "\n".join(f"  {name:8} {form}" for name, form in FORMS.items())
    parser = argparse.ArgumentParser(
        prog="jeihpal-test",
        description=ABOUT,
        epilog=f"the steps:\n{steps}",
        formatter_class=argparse.RawDescriptionHelpFormatter,
        allow_abbrev=False,
    )
    parser.add_argument("scripts", nargs="+", metavar="SCRIPT|FOLDER")
    parser.add_argument("--update-screens", action="store_true", help="keep the screens of this run")
    where = "where the screens and the session of a failed test go (screens/failed beside the script)"
    parser.add_argument("--failed-screens", metavar="FOLDER", help=where)
    parser.add_argument("--version", action="version", version="jeihpal-test 0.1", help="print the version")
    given = parser.parse_args(words)
    scripts = list(_scripts(given.scripts))
    print(f"TAP version 13\n1..{len(scripts)}", flush=True)
    run = Run(given.update_screens, given.failed_screens)
    for number, path in enumerate(scripts, 1):
        run.test(path, number)
    return run.status
