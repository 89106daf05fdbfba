"""A program that marks its updates, looked at a hundred times by jeihpal.testing, by pexpect with pyte, and by tmux's
capture-pane: how many looks see half an update.

python3 -m tests.halves prints figures, for those that are installed.
"""

from __future__ import annotations

import contextlib
import shutil
import subprocess
import sys
import tempfile
import time
from typing import Callable, Iterator, Sequence

from jeihpal.testing import Terminal

LOOKS, PAUSE = 100, 0.05
ROWS, COLS = 6, 20
PROGRAM = r"""
import sys, time
for number in range(1000):
    sys.stdout.write("\x1b[?2026h\x1b[H\x1b[2J")
    for row in range(6):
        sys.stdout.write(f"\x1b[{row + 1};1H{number:3} {row}")
        sys.stdout.flush()
        time.sleep(0.002)
    sys.stdout.write("\x1b[?2026l")
    sys.stdout.flush()
    time.sleep(0.02)
"""
COMMAND = [sys.executable, "-c", PROGRAM]
Look = Callable[[], Sequence[str]]


def is_half(rows: Sequence[str]) -> bool:
    """Whether rows are of two updates, or some are missing."""
    numbers = [row[:3] for row in rows if row.strip()]
    return bool(numbers) and (len(numbers) < ROWS or len(set(numbers)) > 1)


@contextlib.contextmanager
def jeihpal() -> Iterator[Look]:
    with Terminal(COMMAND, ROWS, COLS) as terminal:
        terminal.wait_for("0")
        yield lambda: terminal.screen.lines


@contextlib.contextmanager
def pexpect_with_pyte() -> Iterator[Look]:
    import pexpect
    import pyte

    screen = pyte.Screen(COLS, ROWS)
    stream = pyte.ByteStream(screen)
    child = pexpect.spawn(COMMAND[0], COMMAND[1:], dimensions=(ROWS, COLS))

    def look() -> Sequence[str]:
        stream.feed(child.read_nonblocking(65536, timeout=5))
        return screen.display

    yield look
    child.close(force=True)


@contextlib.contextmanager
def tmux() -> Iterator[Look]:
    if not shutil.which("tmux"):
        raise ImportError("there is no tmux")
    with tempfile.TemporaryDirectory() as folder:
        words = ["tmux", "-S", f"{folder}/socket", "-f", "/dev/null"]
        subprocess.run([*words, "new-session", "-d", "-x", str(COLS), "-y", str(ROWS + 1), *COMMAND], check=True)
        how = {"stdout": subprocess.PIPE, "check": True, "encoding": "utf-8"}
        yield lambda: subprocess.run([*words, "capture-pane", "-p"], **how).stdout.split("\n")[:ROWS]
        subprocess.run([*words, "kill-server"], check=True)


def main() -> None:
    for way in (jeihpal, pexpect_with_pyte, tmux):
        name = way.__name__.replace("_", " ")
        try:
            with way() as look:
                halves = 0
                for _ in range(LOOKS):
                    halves += is_half(look())
                    time.sleep(PAUSE)
            print(f"{name}: {halves} of {LOOKS} looks see half an update", flush=True)
        except ImportError as error:
            print(f"{name}: left out, {error}", flush=True)


if __name__ == "__main__":
    main()
