"""screenplay itself: its arguments, its keys, and what it shows when."""

from __future__ import annotations

import argparse
import os
import signal
import sys
import time
from typing import Callable

from jeihpal import Size

from .drawing import Display
from .playback import Playback
from .recording import NoRecording, Recording, microseconds, parse
from .terminal import Ended, Terminal

ABOUT = """Plays a recording of a terminal session: an asciicast v1, v2 or v3, a ttyrec, or with its timing file a
typescript. It goes to any moment, back too, and shows exactly what the terminal showed then. The status is 0; 1 at a
fault, and where --find finds nothing; 2 for words that aren't understood; 3 where only a part of FILE was read."""
KEYS = """keys:
  space          play or pause
  .  ,           the next or the previous moment at which the screen changes
  right  left    5 seconds; with Shift a tenth of the length
  0 .. 9         tenths of the length; Home and End are its ends
  ]  [           the next or the previous marker
  >  <           faster or slower
  /  n  N        find a text: where it comes to the screen first, next, before
  Ctrl-Z  q      suspend; leave"""
SPEEDS = (0.25, 0.5, 1.0, 1.5, 2.0, 4.0, 8.0, 16.0)
_STEP = 5_000_000  # microseconds that an arrow goes
_SLACK = 1_000_000  # microseconds after a marker in which `[` goes to the one before it
_FRAME = 1 / 60  # seconds between two frames, at least
_TICK = 0.25  # seconds between two looks at the clock
_BAR = 20  # columns of the bar


def clock(micros: int) -> str:
    """A time as minutes and seconds, and hours if there are any."""
    seconds = micros // 1_000_000
    minutes = f"{seconds // 60 % 60:02}" if seconds >= 3600 else f"{seconds // 60}"
    return (f"{seconds // 3600}:" if seconds >= 3600 else "") + f"{minutes}:{seconds % 60:02}"


class Player:
    """Plays in the terminal, until it is left."""

    def __init__(self, terminal: Terminal, playback: Playback, speed: float, is_playing: bool, note: str) -> None:
        self._terminal, self._playback = terminal, playback
        self._speeds = sorted({*SPEEDS, speed})
        self._speed, self._is_playing = speed, is_playing
        self._began = time.monotonic() - self._lasted()
        self._display = Display(*terminal.size())
        self._note = note  # what is shown after the bar, until a key comes
        self._typed: str | None = None  # the text that is being typed
        self._found: list[int] = []
        self._is_over = False

    def _lasted(self) -> float:
        """How many seconds it plays to come to this place."""
        return self._playback.place / 1e6 / self._speed

    def run(self) -> None:
        """Plays until it is left."""
        while not self._is_over:
            if self._terminal.has_new_size:
                self._display.close()
                self._display = Display(*self._terminal.size())
            self._terminal.write(self._display.frame(self._playback.screen, self._words()))
            for key in self._terminal.keys(self._wait()):
                self._press(key)
            if self._is_playing:
                self._playback.go((time.monotonic() - self._began) * 1e6 * self._speed)
                self._is_playing = self._playback.place < self._playback.end
        self._display.close()

    def _wait(self) -> float | None:
        """For how many seconds there is nothing to do."""
        if not self._is_playing:
            return None
        due = (self._playback.next_place() - self._playback.place) / 1e6 / self._speed
        return max(min(due, _TICK), _FRAME)

    def _words(self) -> str:
        """The line below the screen."""
        if self._typed is not None:
            return f"/{self._typed}"
        playback = self._playback
        done = _BAR * playback.place // playback.end if playback.end else 0
        bar = ["-"] * (_BAR + 1)
        for at, _ in playback.markers:
            bar[_BAR * playback.place_of(at) // playback.end if playback.end else 0] = "|"
        bar[done] = "#"
        state = "play " if self._is_playing else "pause"
        words = f"{state} {clock(playback.place)} / {clock(playback.end)} [{''.join(bar)}] {self._speed:g}x"
        look = playback.screen.look()
        if look.rows >= self._display.rows or look.cols > self._display.cols:
            words += f" {look.rows}x{look.cols} cut"
        return f"{words}  {self._note}"

    # ---- keys

    def _press(self, key: str) -> None:
        if self._typed is not None:
            self._type(key)
            return
        self._note = ""
        playback = self._playback
        tenth = playback.end // 10
        does: dict[str, Callable[[], object]] = {
            " ": self._flip,
            "right": lambda: playback.go(playback.place + _STEP),
            "left": lambda: playback.go(playback.place - _STEP),
            "shift-right": lambda: playback.go(playback.place + tenth),
            "shift-left": lambda: playback.go(playback.place - tenth),
            "home": lambda: playback.go(0),
            "end": lambda: playback.go(playback.end),
            ".": lambda: self._step(1),
            ",": lambda: self._step(-1),
            "]": lambda: self._mark(1),
            "[": lambda: self._mark(-1),
            ">": lambda: self._faster(1),
            "<": lambda: self._faster(-1),
            "/": self._ask,
            "n": lambda: self._find(1),
            "N": lambda: self._find(-1),
            "\x1a": self._terminal.suspend,
            **dict.fromkeys(("q", "\x03", "end-of-input"), self._leave),
        }
        if key.isdigit() and key.isascii():
            playback.go(playback.end * int(key) // 10)
        elif key in does:
            does[key]()
        self._began = time.monotonic() - self._lasted()

    def _leave(self) -> None:
        self._is_over = True

    def _flip(self) -> None:
        if not self._is_playing and self._playback.place >= self._playback.end:
            self._playback.go(0)
        self._is_playing = not self._is_playing

    def _step(self, by: int) -> None:
        self._is_playing = False
        self._playback.step(by)

    def _mark(self, by: int) -> None:
        name = self._playback.marker(by, _SLACK if self._is_playing else 0)
        self._note = "no marker there" if name is None else f"marker {name}"

    def _faster(self, by: int) -> None:
        place = self._speeds.index(self._speed) + by
        self._speed = self._speeds[max(0, min(place, len(self._speeds) - 1))]

    # ---- texts

    def _ask(self) -> None:
        self._is_playing = False
        self._typed = ""

    def _type(self, key: str) -> None:
        """A key while a text is typed. Bytes of UTF-8 come one by one, as characters of Latin 1."""
        assert self._typed is not None
        if key in ("\r", "\n"):
            text, self._typed = self._typed.encode("latin-1").decode("utf-8", "replace"), None
            if text:
                self._found = self._playback.first_shown(text)
                self._find(1)
        elif key in ("\x1b", "\x03"):
            self._typed = None
        elif key in ("\x7f", "\b"):
            self._typed = self._typed[:-1]
        elif len(key) == 1 and key >= " ":
            self._typed += key

    def _find(self, by: int) -> None:
        self._is_playing = False
        if not self._found:
            self._note = "not there"
            return
        here = self._playback.moment
        near = [i for i, moment in enumerate(self._found) if (moment > here if by > 0 else moment < here)]
        chosen = (near[0] if by > 0 else near[-1]) if near else (0 if by > 0 else len(self._found) - 1)
        self._playback.go_to_moment(self._found[chosen])
        self._note = f"{chosen + 1} of {len(self._found)}"


# ---- words


def _seconds(text: str) -> int:
    value = float(text)
    if not 0 <= value < float("inf"):
        raise ValueError
    return microseconds(value)


def _speed(text: str) -> float:
    value = float(text)
    if not 1 / 1024 <= value <= 1024:
        raise ValueError
    return value


def _size(text: str) -> Size:
    rows, cols = (int(side) for side in text.split("x"))
    if not (1 <= rows <= 65535 and 1 <= cols <= 65535):
        raise ValueError
    return Size(rows, cols)


def _parser() -> argparse.ArgumentParser:
    how = argparse.RawDescriptionHelpFormatter
    parser = argparse.ArgumentParser(
        prog="screenplay", description=ABOUT, epilog=KEYS, formatter_class=how, allow_abbrev=False
    )
    parser.add_argument("--at", metavar="TIME", help="begin, paused, at this second of the recording or at this marker")
    parser.add_argument("--idle", type=_seconds, metavar="SECONDS", help="no screen stands longer than this")
    parser.add_argument("--speed", type=_speed, default=1.0, metavar="N", help="play N times as fast")
    parser.add_argument("--size", type=_size, metavar="RxC", help="rows and columns at first (as recorded, else 24x80)")
    parser.add_argument("--timing", metavar="FILE", help="the timing file of a typescript that was made by script")
    parser.add_argument("--no-line-drawing", action="store_true", help="letters stay where DEC's line drawing is used")
    parser.add_argument("--find", metavar="TEXT", help="print the seconds at which a text comes to the screen, and end")
    parser.add_argument("--print", action="store_true", help="print the text of the last screen, or --at, and end")
    parser.add_argument("--version", action="version", version="screenplay 0.1", help="print the version")
    parser.add_argument("file", metavar="FILE")
    return parser


def _time(playback: Playback, word: str) -> int:
    """The time that a word names: seconds, or a marker."""
    try:
        return _seconds(word)
    except ValueError:
        times = [at for at, name in playback.markers if name == word]
        if not times:
            names = ", ".join(repr(name) for _, name in playback.markers)
            there = f"the markers are {names}" if names else "there are no markers"
            sys.exit(f"screenplay: {word}: no such time or marker; {there}")
        return times[0]


def _bytes(path: str) -> bytes:
    try:
        with open(path, "rb") as file:
            return file.read()
    except OSError as error:
        sys.exit(f"screenplay: {path}: {error.strerror}")


def _read(path: str, timing: str | None) -> Recording:
    """Reads a recording. If only a part of it makes sense, that is said."""
    try:
        recording = parse(_bytes(path), None if timing is None else _bytes(timing))
    except NoRecording as error:
        sys.exit(f"screenplay: {path}: {error}")
    if recording.fault:
        print(f"screenplay: {path}: {recording.fault}. What is before it is played", file=sys.stderr)
    return recording


def _print_found(playback: Playback, text: str) -> bool:
    """Prints when a text comes to the screen. Returns whether it does."""
    found = playback.first_shown(text)
    for moment in found:
        print(f"{playback.times[moment] / 1e6:.6f}")
    return bool(found)


def _print_screen(playback: Playback) -> None:
    screen = playback.screen
    for row in range(screen.look().rows):
        print(screen.row_text(row).rstrip(" "))


def _play(playback: Playback, speed: float, is_playing: bool, note: str) -> None:
    """Plays in the terminal. A signal that ends this program does so once the terminal is as it was."""
    if not Terminal.is_there():
        sys.exit("screenplay: standard input and output are no terminal")
    try:
        with Terminal() as terminal:
            Player(terminal, playback, speed, is_playing, note).run()
    except Ended as ended:
        signal.signal(ended.number, signal.SIG_DFL)
        os.kill(os.getpid(), ended.number)


def main(words: list[str] | None = None) -> int:
    """Runs the program on its arguments, and returns its status."""
    given = _parser().parse_args(words)
    recording = _read(given.file, given.timing)
    size = given.size or recording.size or Size(24, 80)
    playback = Playback(recording, size, given.idle, not given.no_line_drawing)
    if given.at is not None:
        playback.go_to_time(_time(playback, given.at))
    elif given.print:
        playback.go(playback.end)
    if given.find is not None:
        if not _print_found(playback, given.find):
            return 1
    elif given.print:
        _print_screen(playback)
    else:
        _play(playback, given.speed, given.at is None, recording.fault)
    return 3 if recording.fault else 0
