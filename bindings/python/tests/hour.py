"""The page of a recording of an hour: its bytes, and how long it takes to make it, to open it and to go about in it.

python3 -m tests.hour [FILE] prints figures of each browser; of FILE, an asciicast, in place of the hour. It needs
screentext, and Chromium or Firefox.
"""

from __future__ import annotations

import gzip
import json
import os
import random
import sys
import tempfile
import time
from typing import Any, Iterator

from .test_player import BROWSERS, READY, cast, screentext, wait

ROWS, COLS = 30, 100
WORDS = "the screen of each moment is drawn once and every row that differs stands in the page once".split()
# Milliseconds that some steps take: until the script is done, and until the second frame after it.
TIMED = """(window.took = null, (() => {
  const begun = performance.now();
  STEP;
  const done = performance.now();
  requestAnimationFrame(() => requestAnimationFrame(() => { window.took = [done - begun, performance.now() - begun]; }));
})())"""
OPENED = """(() => {
  const [it] = performance.getEntriesByType("navigation");
  return it.loadEventEnd && [it.domContentLoadedEventEnd, it.loadEventEnd];
})()"""


class Hour:
    """An hour at a prompt and in an editor, with pauses: the same each time."""

    def __init__(self) -> None:
        self._chance = random.Random(70)
        self._now = 0.0
        self.events: list[list[Any]] = []

    def write(self, text: str, least: float, most: float) -> None:
        """Adds output, from `least` to `most` seconds after the event before."""
        self._now += self._chance.uniform(least, most)
        self.events.append([round(self._now, 6), "o", text])

    def words(self, count: int) -> str:
        return " ".join(self._chance.choice(WORDS) for _ in range(count))

    def types(self) -> None:
        self.write("\r\n\x1b[1;32m~/work\x1b[m$ ", 0.05, 0.3)
        for character in self.words(self._chance.randint(2, 7)):
            self.write(character, 0.05, 0.35)

    def builds(self) -> None:
        for number in range(self._chance.randint(10, 60)):
            color = self._chance.randint(31, 36)
            self.write(f"\r\n\x1b[{color}m{number:4}\x1b[m {self.words(8)}", 0.005, 0.12)
        for done in range(21):
            self.write(f"\r\x1b[K[{'#' * done:<20}] {5 * done:3}%", 0.05, 0.2)

    def edits(self) -> None:
        rows = [f"\x1b[{row};1H\x1b[K\x1b[33m{row:3}\x1b[m {self.words(10)}" for row in range(1, ROWS)]
        self.write("\x1b[?1049h\x1b[2J" + "".join(rows), 0.05, 0.2)
        for _ in range(self._chance.randint(20, 80)):
            row, col = self._chance.randint(1, ROWS - 1), self._chance.randint(5, COLS - 9)
            self.write(f"\x1b[{row};{col}H{self.words(1)[:4]}", 0.05, 0.5)
        self.write("\x1b[?1049l", 0.1, 0.5)

    def play(self, seconds: float) -> None:
        """What is done until a time, with a marker every ten minutes or so."""
        due = 600.0
        while self._now < seconds:
            self.types()
            self._chance.choice((self.builds, self.builds, self.edits))()
            self._now += self._chance.uniform(1, 12)
            if self._now > due:
                self.events.append([round(self._now, 6), "m", f"after {due / 60:.0f} minutes"])
                due += 600


def hour() -> bytes:
    """An asciicast of an hour."""
    made = Hour()
    made.play(3600)
    return cast((ROWS, COLS), made.events, title="An hour")


def timed(browser: Any, step: str) -> list[float]:
    """The milliseconds that a step takes."""
    browser.value(TIMED.replace("STEP", step))
    return wait(browser, "window.took")


def pressed(key: str) -> str:
    return f"document.body.dispatchEvent(new KeyboardEvent('keydown', {{ key: {json.dumps(key)}, bubbles: true }}))"


def figures(browser: Any) -> Iterator[tuple[str, list[float]]]:
    """What takes how long in a page that is open."""
    yield "opened", wait(browser, OPENED)
    yield "to the end", timed(browser, pressed("End"))
    yield "back to the beginning", timed(browser, pressed("Home"))
    tenths = [timed(browser, pressed(str(tenth))) for tenth in (5, 1, 9, 2, 8, 3, 7, 4, 6, 0)]
    yield "to any tenth, at most", [max(times) for times in zip(*tenths)]
    yield "one moment on", timed(browser, pressed("."))
    browser.value("(document.getElementById('text').value = '100%')")
    yield "a text found in time", timed(browser, "document.querySelector('#search button').click()")


def main() -> int:
    if sys.argv[1:]:
        with open(sys.argv[1], "rb") as file:
            data = file.read()
    else:
        data = hour()
    begun = time.monotonic()
    made = screentext(data, "--player", seconds=900)
    seconds = time.monotonic() - begun
    events = data.count(b"\n") - 1
    print(f"recording: {events:,} events, {len(data):,} bytes, {len(gzip.compress(data)):,} packed by gzip")
    print(f"page: {len(made):,} bytes, {len(gzip.compress(made)):,} packed; of nothing: {len(empty()):,}")
    print(f"made in {seconds:.1f} s, load {os.getloadavg()[0]:.1f}")
    with tempfile.NamedTemporaryFile(suffix=".html") as file:
        file.write(made)
        file.flush()
        for name, kind in BROWSERS:
            with kind(f"file://{file.name}") as browser:
                wait(browser, READY)
                for what, (done, shown) in figures(browser):
                    print(f"{name}, {what}: {done:.1f} ms, with the picture {shown:.0f} ms", flush=True)
    return 0


def empty() -> bytes:
    """The page of a recording that shows nothing: what each page has."""
    return screentext(cast((1, 1), [[0, "o", ""]]), "--player")


if __name__ == "__main__":
    sys.exit(main())
