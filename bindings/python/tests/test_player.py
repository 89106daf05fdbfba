"""screentext --player in Chromium and Firefox, and screenplay in a terminal, beside screentext --at."""

from __future__ import annotations

import contextlib
import itertools
import json
import os
import random
import re
import shutil
import signal
import struct
import subprocess
import sys
import tempfile
import time
import unittest
from typing import Any, Iterator

from jeihpal.testing import Terminal

from . import chromium, firefox
from .sharing import PYTHON

ROOT = os.path.dirname(os.path.dirname(PYTHON))
SCREENTEXT = os.path.join(ROOT, "crates", "screentext", "out", "screentext")
MOMENTS = 100  # of each recording
BROWSERS = [
    (name, kind.__dict__[name]) for name, kind in (("Chromium", chromium), ("Firefox", firefox)) if kind.PROGRAM
]
EVIL = "</title></bdi></button><script>document.title='bad'</script>\u202e\"' &amp; <!-- <![CDATA["
# A block's rows beside those of the page. What keeps characters from turning others isn't in the block.
COMPARED = r"""(() => {
  const block = new DOMParser().parseFromString(BLOCK, "text/html").querySelector("pre");
  const given = block.innerHTML.replace(/\n$/, "").split("\n");
  const shown = [...document.getElementById("screen").children].map((row) => row.innerHTML.replace(/<\/?bdi>/g, ""));
  const other = given.findIndex((row, i) => row !== shown[i]);
  if (given.length !== shown.length) return `${shown.length} rows, not ${given.length}`;
  return other < 0 ? "" : `row ${other}: ${shown[other]}, not ${given[other]}`;
})()"""


def cast(size: tuple[int, int], events: list[list[Any]], **more: Any) -> bytes:
    """An asciicast of version 2."""
    header = {"version": 2, "height": size[0], "width": size[1], **more}
    return "".join(json.dumps(line) + "\n" for line in [header, *events]).encode()


def hostile() -> bytes:
    """A recording with markup in its title, markers and screens, with other sizes and other characters."""
    texts = [
        (0.5, "o", "</script><img src=x onerror=\"document.title='bad'\">\r\n"),
        (0.6, "m", EVIL),
        (1.0, "o", "</template></div></main><h1>bad</h1>\r\n"),
        (1.5, "o", "a\u202eb c\u202c d \u2066e\u2069 f\r\n"),
        (2.0, "o", "\x1b[1;31mred \x1b[44m&lt;b&gt;&amp;\x1b[m \"double\" 'single'\r\n"),
        (2.5, "o", "米日本語 e\u0301 \ufffe\uffff \u05d0\u05d1\u05d2 end\r\n"),
        (3.0, "o", "\x1b(0lqqk\x1b(B\r\n"),
        (3.5, "r", "30x4"),
        (4.0, "o", "\x1b[2J\x1b[Hsmall\x1b[?25l"),
        (4.5, "r", "50x8"),
        (5.0, "o", "\r\nlarger --> ]]> <!-- \x1b[?25h"),
        (60.25, "m", ""),
        (75.5, "o", "\r\nafter a long pause"),
        (80.0, "i", "x"),
    ]
    return cast((6, 40), [list(it) for it in texts], title=EVIL)


def spread(data: bytes, rows: int, cols: int) -> bytes:
    """A stream as a recording: some pieces, each a time after the one before."""
    chance = random.Random(len(data))
    text, events, now = data.decode("utf-8", "replace"), [], 0.0
    step = max(len(text) // 150, 1)
    for place in range(0, len(text), step):
        now = round(now + chance.choice([0.033333, 0.25, 1.000001, 7.5]), 6)
        events.append([now, "o", text[place : place + step]])
    return cast((rows, cols), events)


def recordings() -> Iterator[tuple[str, bytes]]:
    """The recordings of the examples, a hostile one, and those of the folder that JEIHPAL_RECORDINGS names."""
    yield "hostile", hostile()
    with open(os.path.join(ROOT, "examples", "build.cast"), "rb") as file:
        yield "build", file.read()
    with open(os.path.join(ROOT, "examples", "editor.session"), "rb") as file:
        yield "editor", spread(file.read(), 8, 40)
    folder = os.environ.get("JEIHPAL_RECORDINGS", "")
    for name in sorted(os.listdir(folder)) if folder else ():
        with open(os.path.join(folder, name), "rb") as file:
            data = file.read()
        if size := re.fullmatch(r"(.*)\.(\d+)x(\d+)\.bin", name):
            yield size[1], spread(data, int(size[2]), int(size[3]))
        elif name.endswith(".cast"):
            yield name[:-5], data


def screentext(data: bytes, *words: str, seconds: float = 60.0) -> bytes:
    """What screentext prints of a recording."""
    return subprocess.run([SCREENTEXT, *words], input=data, stdout=subprocess.PIPE, check=True, timeout=seconds).stdout


def times(data: bytes, count: int) -> list[str]:
    """Moments of a recording: those of events, others shortly before, and any others."""
    header, *lines = [json.loads(line) for line in data.decode().split("\n") if line and not line.startswith("#")]
    own = [float(line[0]) for line in lines]
    if header["version"] == 3:  # times since the event before
        own = list(itertools.accumulate(own))
    chance = random.Random(count)
    any_other = [round(chance.uniform(0, own[-1]), 6) for _ in range(count)]
    found = [0.0, own[-1], *own, *(max(it - 0.000001, 0) for it in own), *any_other]
    chosen = chance.sample(sorted(set(found)), min(count, len(set(found))))
    return [f"{it:.6f}" for it in chosen]


@contextlib.contextmanager
def page(data: bytes, *words: str) -> Iterator[str]:
    """The address of a recording's page on the disk."""
    with tempfile.TemporaryDirectory() as folder:
        path = os.path.join(folder, "page.html")
        with open(path, "wb") as file:
            file.write(screentext(data, "--player", *words))
        yield f"file://{path}"


def wait(browser: Any, expression: str, seconds: float = 60.0) -> Any:
    """Waits until an expression is something in a page."""
    end = time.monotonic() + seconds
    while not (value := browser.value(expression)):
        if time.monotonic() > end:
            raise TimeoutError(expression)
        time.sleep(0.02)
    return value


READY = "!document.getElementById('controls').hidden"


def go(browser: Any, at: str) -> None:
    """Takes a page to a time of the recording."""
    browser.value(f"(location.hash = '#t={at}')")
    wait(browser, f"Math.abs(parseFloat(document.getElementById('time').title) - {at}) < 0.001")


def press(browser: Any, key: str, **more: Any) -> None:
    """Presses a key in a page."""
    how = json.dumps({"key": key, "bubbles": True, "cancelable": True, **more})
    event = f"new KeyboardEvent('keydown', {how})"
    browser.value(f"document.body.dispatchEvent({event})")


@contextlib.contextmanager
def display() -> Iterator[str]:
    """An X display of its own, in which keys go to the browser and not only to its page."""
    if not (shutil.which("Xvfb") and shutil.which("xdotool")):
        raise unittest.SkipTest("there is no Xvfb or no xdotool")
    there, back = os.pipe()
    words = ["Xvfb", "-displayfd", str(back), "-screen", "0", "1000x700x24"]
    server = subprocess.Popen(words, pass_fds=(back,), stderr=subprocess.DEVNULL)
    os.close(back)
    try:
        with os.fdopen(there) as said:
            yield f":{said.readline().strip()}"
    finally:
        server.terminate()
        server.wait()


def keys(name: str, *words: str) -> None:
    """Presses keys on a display."""
    subprocess.run(["xdotool", *words], env={**os.environ, "DISPLAY": name}, check=True, stderr=subprocess.DEVNULL)


SELECTED = "(document.hasFocus() && String(getSelection()))"
COPIED = """(() => {
  getSelection().selectAllChildren(document.getElementById("screen"));
  const copy = new ClipboardEvent("copy", { clipboardData: new DataTransfer(), bubbles: true, cancelable: true });
  document.getElementById("screen").dispatchEvent(copy);
  return copy.clipboardData.getData("text/plain");
})()"""


def says(browser: Any, name: str) -> str:
    """The text of a part of a page."""
    return browser.value(f"document.getElementById({json.dumps(name)}).textContent")


@unittest.skipUnless(os.access(SCREENTEXT, os.X_OK), "screentext isn't built: ./build makes it")
@unittest.skipUnless(BROWSERS, "there is neither Chromium nor Firefox")
class Pages(unittest.TestCase):
    def each(self, data: bytes, *words: str) -> Iterator[tuple[str, Any]]:
        """The page of a recording in each browser."""
        with page(data, *words) as url:
            for name, kind in BROWSERS:
                with self.subTest(name), kind(url) as browser:
                    wait(browser, READY)
                    yield name, browser

    def test_each_moment_is_that_of_screentext(self):
        for label, data in recordings():
            moments = times(data, MOMENTS)
            blocks = [screentext(data, "--html-block", "--at", at).decode() for at in moments]
            for name, browser in self.each(data):
                for at, block in zip(moments, blocks):
                    go(browser, at)
                    other = browser.value(COMPARED.replace("BLOCK", json.dumps(block)))
                    self.assertFalse(other, f"{label} in {name} at {at}: {other}")

    def test_hostile_texts_stay_texts(self):
        for name, browser in self.each(hostile()):
            title = browser.value("document.title")
            self.assertTrue(title.startswith("</title>"), title)
            heading = browser.value("document.querySelector('h1 bdi').textContent")
            self.assertEqual(heading, EVIL)
            names = browser.value("[...document.querySelectorAll('#markers bdi')].map((it) => it.textContent)")
            self.assertEqual(names, [EVIL, ""])
            self.assertEqual(browser.value("document.querySelectorAll('img, script').length"), 1)
            if folder := os.environ.get("JEIHPAL_PICTURES"):
                go(browser, "2.5")
                with open(os.path.join(folder, f"player-{name.lower()}.png"), "wb") as file:
                    file.write(browser.picture())

    def test_keys(self):
        events = [[i, "o", f"\r\nline {i}"] for i in range(1, 41)]
        events[20:20] = [[20.5, "m", "half"]]
        for _, browser in self.each(cast((5, 20), events, title="keys"), "--at", "7"):
            self.assertIn("line 7", says(browser, "screen"))  # the poster
            self.assertEqual(says(browser, "time"), "0:00 / 0:40")
            for key, place, text in (
                ("5", "0:20", "line 20"),
                ("ArrowRight", "0:25", "line 25"),
                ("ArrowLeft", "0:20", "line 20"),
                (".", "0:21", "line 21"),
                (",", "0:20", "line 20"),
                ("]", "0:20", "line 20"),
                ("End", "0:40", "line 40"),
                ("[", "0:20", "line 20"),
                ("Home", "0:00", ""),
            ):
                press(browser, key)
                self.assertEqual(says(browser, "time"), f"{place} / 0:40", key)
                last = [row for row in says(browser, "screen").split() if row.isdigit()][-1:]
                self.assertEqual(last, text.split()[1:], key)
            for key, speed in ((">", "1.5"), (">", "2"), ("<", "1.5"), (">", "2"), (">", "4"), (">", "8"), (">", "16")):
                press(browser, key)
                self.assertEqual(browser.value("document.getElementById('speed').value"), speed)
            press(browser, " ")
            wait(browser, "document.getElementById('time').textContent === '0:40 / 0:40'")
            self.assertEqual(says(browser, "play"), "Play")

    def test_keys_of_other_layouts(self):
        """Signs that are typed with AltGr or Option, digits that want Shift, and letters of other scripts."""
        events = [[i, "o", f"\r\nline {i}"] for i in range(1, 41)]
        events[20:20] = [[20.5, "m", "half"]]
        for _, browser in self.each(cast((5, 20), events)):
            for key, how, place in (
                ("]", {"code": "Digit9", "altKey": True, "ctrlKey": True, "modifierAltGraph": True}, "0:20"),
                ("\u00e0", {"code": "Digit0"}, "0:00"),
                ("]", {"code": "Digit6", "altKey": True}, "0:20"),
                ("End", {}, "0:40"),
                ("[", {"code": "Digit5", "altKey": True}, "0:20"),
                ("Home", {}, "0:00"),
                ("n", {"code": "KeyN"}, "0:20"),
                ("5", {"code": "Digit5", "shiftKey": True}, "0:20"),
                ("(", {"code": "Digit9", "shiftKey": True}, "0:20"),
                ("ArrowLeft", {"altKey": True}, "0:20"),
                ("1", {"ctrlKey": True}, "0:20"),
                ("\u03c0", {"code": "KeyP"}, "0:20"),
                ("End", {}, "0:40"),
                ("\u03c0", {"code": "KeyP"}, "0:20"),
            ):
                press(browser, key, **how)
                self.assertEqual(says(browser, "time"), f"{place} / 0:40", (key, how))

    def test_it_opens_on_a_screen_with_text(self):
        """Without --at it shows the last screen that has text, and a button that plays."""
        events = [[i, "o", f"line {i}\r\n"] for i in range(1, 5)] + [[5, "o", "\x1b[2J\x1b[Hend"]]
        for _, browser in self.each(cast((6, 20), events)):
            self.assertIn("line 4", says(browser, "screen"))
            self.assertEqual(says(browser, "time"), "0:00 / 0:05")
            self.assertEqual(browser.value("document.title"), "Recording")
            self.assertFalse(browser.value("document.getElementById('start').hidden"))
            browser.value("document.getElementById('start').click()")
            self.assertTrue(browser.value("document.getElementById('start').hidden"))
            self.assertEqual(says(browser, "play"), "Pause")
            browser.value("document.getElementById('screen').click()")
            self.assertEqual(says(browser, "play"), "Play")
            bar = "document.getElementById('bar').getBoundingClientRect().width"
            page = "document.getElementById('player').getBoundingClientRect().width"
            self.assertAlmostEqual(browser.value(bar), browser.value(page), delta=2)

    def test_addresses(self):
        events = [[i, "o", f"\r\nline {i}"] for i in range(1, 81)]
        for _, browser in self.each(cast((5, 20), events)):
            for asked, place, does in (
                ("t=12.5", "0:12", "Play"),
                ("t=1:05", "1:05", "Play"),
                ("t=0:00:30.25", "0:30", "Play"),
                ("t=3&play", "0:03", "Pause"),
                ("t=2", "0:02", "Play"),
                ("play", "0:02", "Pause"),
            ):
                browser.value(f"(location.hash = '#{asked}')")
                wait(browser, f"document.getElementById('play').textContent === '{does}'")
                wait(browser, f"document.getElementById('time').textContent.startsWith('{place}')")
            browser.value("(location.hash = '#t=30.25')")
            wait(browser, "document.getElementById('link').hash === '#t=30.25'")

    def test_in_a_frame(self):
        """The page in a frame of another one: it fits."""
        data = screentext(cast((24, 80), [[i, "o", f"line {i}\r\n"] for i in range(1, 9)]), "--player")
        # The page's policy forbids other scripts, so this copy has no policy. Its script reports to the outer page.
        data = re.sub(rb'<meta http-equiv="Content-Security-Policy".*?">', b"", data, flags=re.DOTALL)
        report = b"<script>parent.postMessage([document.documentElement.className, document.body.scrollHeight, "
        report += b"document.body.scrollWidth].join(' '), '*')</script></body>"
        frame = "<iframe src='page.html' width='600' height='360' style='border:0'></iframe>"
        heard = "<script>onmessage = ({ data }) => { document.title = data; }</script>"
        with tempfile.TemporaryDirectory() as folder:
            with open(os.path.join(folder, "page.html"), "wb") as file:
                file.write(data.replace(b"</body>", report))
            with open(os.path.join(folder, "outer.html"), "w", encoding="utf-8") as file:
                file.write(f"<!DOCTYPE html>{heard}{frame}")
            for name, kind in BROWSERS:
                with self.subTest(name), kind(f"file://{folder}/outer.html") as browser:
                    state, height, width = wait(browser, "document.title").split()
                    self.assertEqual(state, "framed")
                    self.assertLessEqual(int(height), 360)
                    self.assertLessEqual(int(width), 600)

    def test_texts_are_found_in_time(self):
        events = [[1, "o", "one\r\n"], [2, "o", "two\r\n"], [3, "o", "\x1b[2J"], [4, "o", "two"]]
        for _, browser in self.each(cast((5, 20), events)):
            browser.value("(document.getElementById('text').value = 'TWO')")
            for place, found in (("0:02", "1 of 2"), ("0:04", "2 of 2"), ("0:02", "1 of 2")):
                browser.value("document.querySelector('#search button').click()")
                self.assertEqual((says(browser, "time"), says(browser, "found")), (f"{place} / 0:04", found))
            selected = "(getSelection().selectAllChildren(document.getElementById('screen')), String(getSelection()))"
            self.assertIn("two", browser.value(selected))

    def test_the_browsers_own_search_finds_texts(self):
        data = cast((5, 20), [[1, "o", "one\r\ntwo words\r\nthree"]])
        for name, kind in BROWSERS:
            with self.subTest(name), display() as shown, page(data) as url, kind(url, display=shown) as browser:
                wait(browser, READY)
                wait(browser, "document.hasFocus()")
                keys(shown, "key", "ctrl+f")
                wait(browser, "!document.hasFocus()")
                keys(shown, "type", "--delay", "50", "two words")
                time.sleep(2)  # the page isn't notified of what was found
                keys(shown, "key", "Escape")
                self.assertEqual(wait(browser, SELECTED), "two words")

    def test_what_is_copied_has_no_spaces_at_the_ends_of_rows(self):
        for _, browser in self.each(cast((3, 20), [[1, "o", "one   \x1b[2;3Htwo"]])):
            self.assertEqual(browser.value(COPIED).strip("\n").split("\n"), ["one", "  two"])

    def test_it_loads_nothing(self):
        for _, browser in self.each(hostile()):
            self.assertEqual(browser.value("performance.getEntriesByType('resource').length"), 0)

    def test_it_is_light_or_dark_as_the_reader_has_it(self):
        if not chromium.PROGRAM:
            self.skipTest("there is no Chromium")
        with page(hostile()) as url, chromium.Chromium(url) as browser:
            wait(browser, READY)
            colors = []
            for scheme in ("light", "dark"):
                browser.ask("Emulation.setEmulatedMedia", features=[{"name": "prefers-color-scheme", "value": scheme}])
                colors.append(browser.value("getComputedStyle(document.body).backgroundColor"))
            self.assertEqual(colors, ["rgb(255, 255, 255)", "rgb(18, 18, 18)"])

    def test_long_pauses_are_shortened(self):
        data = cast((5, 20), [[1, "o", "a"], [1000, "o", "b"], [1002, "o", "c"]])
        for _, browser in self.each(data, "--idle", "3", "--speed", "2"):
            self.assertEqual(says(browser, "time"), "0:00 / 0:06")
            self.assertEqual(browser.value("document.getElementById('speed').value"), "2")
            press(browser, "End")
            self.assertEqual(browser.value("document.getElementById('time').title"), "1002.000 s of the recording")
            browser.value("document.getElementById('idle').click()")
            self.assertEqual(says(browser, "time"), "16:42 / 16:42")

    def test_it_is_told_to_a_screen_reader(self):
        if not chromium.PROGRAM:
            self.skipTest("there is no Chromium")
        with page(cast((3, 20), [[1, "o", "told"]])) as url, chromium.Chromium(url) as browser:
            wait(browser, READY)
            told = browser.told()
            for role, name in (("group", "Screen"), ("slider", "Time"), ("button", "Play"), ("searchbox", None)):
                self.assertTrue([it for it in told if it[0] == role and name in (None, it[1])], role)
            self.assertTrue([text for _, text in told if text.startswith("told")])
            browser.value("document.getElementById('aloud').click()")
            press(browser, "Home")
            press(browser, "End")
            aloud = "document.querySelector('[aria-live]').textContent.trim()"
            self.assertEqual(wait(browser, aloud), "told")


def process(path: str) -> int:
    """The process of screenplay that plays a file."""
    for name in filter(str.isdigit, os.listdir("/proc")):
        with contextlib.suppress(OSError), open(f"/proc/{name}/cmdline", "rb") as file:
            if {b"jeihpal_play", path.encode()} <= set(file.read().split(b"\0")):
                return int(name)
    raise AssertionError(f"nothing plays {path}")


class Terminals(unittest.TestCase):
    """screenplay."""

    def setUp(self):
        folder = tempfile.TemporaryDirectory()
        self.addCleanup(folder.cleanup)
        self.path = os.path.join(folder.name, "a.cast")

    def kept(self, data: bytes) -> list[str]:
        """The arguments that play a recording."""
        with open(self.path, "wb") as file:
            file.write(data)
        return [sys.executable, "-m", "jeihpal_play", self.path]

    def said(self, *words: str) -> str:
        run = [sys.executable, "-m", "jeihpal_play", *words, self.path]
        return subprocess.run(run, cwd=PYTHON, stdout=subprocess.PIPE, check=True, timeout=60).stdout.decode()

    @unittest.skipUnless(os.access(SCREENTEXT, os.X_OK), "screentext isn't built: ./build makes it")
    def test_each_moment_is_that_of_screentext(self):
        from jeihpal_play.playback import Playback
        from jeihpal_play.recording import Size, parse

        for label, data in recordings():
            recording = parse(data)
            playback = Playback(recording, recording.size or Size(24, 80))
            for at in times(data, MOMENTS):
                playback.go_to_time(round(float(at) * 1e6))
                screen = playback.screen
                rows = [screen.row_text(row).rstrip(" ") for row in range(screen.look().rows)]
                given = screentext(data, "--at", at).decode().split("\n")[:-1]
                self.assertEqual(rows, [row.rstrip(" ") for row in given], f"{label} at {at}")
            playback.close()

    def test_it_plays_and_seeks(self):
        events = [[i, "o", f"\r\nline {i}\x1b[?1h\x1b[?1000h"] for i in range(1, 41)]
        events[20:20] = [[20.5, "m", "half"]]
        with Terminal([*self.kept(cast((5, 30), events)), "--at", "7"], rows=8, cols=70, cwd=PYTHON) as terminal:
            terminal.wait_for("pause 0:07 / 0:40")
            for key, place, text in (
                ("5", "0:20", "line 20"),
                ("Right", "0:25", "line 25"),
                ("Left", "0:20", "line 20"),
                (".", "0:21", "line 21"),
                (",", "0:20", "line 20"),
                ("]", "0:20", "marker half"),
                ("End", "0:40", "line 40"),
                ("[", "0:20", "marker half"),
                ("Shift-Left", "0:16", "line 16"),
                ("0", "0:00", "0:00"),
            ):
                terminal.press(key)
                screen = terminal.wait_for(lambda it, p=place, t=text: f"pause {p} " in it.text and t in it.text)
            self.assertFalse(terminal.modes.cursor_keys or terminal.modes.mouse)
            for key, speed in ((">", "1.5"), (">", "2"), ("<", "1.5"), (">", "2"), (">", "4"), (">", "8"), (">", "16")):
                terminal.press(key)
                terminal.wait_for(f" {speed}x")
            terminal.press(" ")
            screen = terminal.wait_for("pause 0:40", timeout=30)
            self.assertIn("line 40", screen.text)
            terminal.type("/LINE 33\n")
            terminal.wait_for(lambda it: "pause 0:33" in it.text and "1 of 1" in it.text)
            terminal.type("/nowhere\n")
            terminal.wait_for("not there")
            terminal.press("q")
            self.assertEqual(terminal.wait_for_exit(), 0)

    def test_the_terminal_is_left_as_it_was(self):
        play = " ".join(self.kept(cast((5, 30), [[1, "o", "\x1b[?25l\x1b[4mshown"], [90, "o", "x"]])))
        for name in ("TERM", "HUP", "INT", "QUIT", None):
            with Terminal("bash --norc --noprofile", rows=8, cols=70, cwd=PYTHON) as shell:
                shell.type("PS1='ready$ '; stty -a > before; echo here\n".replace("before", f"{self.path}.before"))
                before = shell.wait_for("here\nready")
                shell.type(f"{play}\n")
                shell.wait_for("shown", timeout=30)
                if name:
                    os.kill(process(self.path), getattr(signal, f"SIG{name}"))
                else:
                    shell.press("q")
                after = shell.wait_for(lambda it: it.lines[:2] == before.lines[:2] and it.cursor != before.cursor)
                self.assertFalse(after.cursor.hidden or shell.modes.alternate)
                shell.type(f"stty -a | cmp - {self.path}.before && echo the same\n")
                shell.wait_for("the same\nready")

    def test_texts_are_found_in_time(self):
        self.kept(cast((5, 20), [[1.5, "o", "one\r\n"], [2, "o", "two\r\n"], [3, "o", "\x1b[2J"], [4, "o", "TWO"]]))
        self.assertEqual(self.said("--find", "two"), "2.000000\n4.000000\n")
        self.assertEqual(self.said("--print", "--at", "2").split(), ["one", "two"])

    def test_recordings_of_other_kinds(self):
        first = {"version": 1, "width": 20, "height": 3, "stdout": [[0.5, "a"], [0.25, "b"]]}
        third = ['{"version": 3, "term": {"cols": 20, "rows": 3}}', "# no event", '[0.5, "o", "a"]', '[0.25, "o", "b"]']
        frames = b"".join(struct.pack("<III", 10 + i, 0, 1) + b"ab"[i : i + 1] for i in (0, 1))
        for data, at in ((json.dumps(first).encode(), 0.75), ("\n".join(third).encode(), 0.75), (frames, 1)):
            self.kept(data)
            self.assertEqual(self.said("--find", "ab"), f"{at:.6f}\n")
        with open(f"{self.path}.times", "wb") as file:
            file.write(b"0.25 1\n0.5 1\n")
        self.kept(b"Script started\nab")
        self.assertEqual(self.said("--find", "ab", "--timing", f"{self.path}.times"), "0.750000\n")

    def refused(self, status: int, data: bytes, *words: str) -> tuple[str, str]:
        """What is printed, and what is said of a fault, where the status is this one."""
        run = [*self.kept(data), *words]
        ended = subprocess.run(run, cwd=PYTHON, capture_output=True, check=False, timeout=60)
        self.assertEqual(ended.returncode, status, ended.stderr)
        return ended.stdout.decode(), ended.stderr.decode()

    def test_what_is_no_recording(self):
        huge = b'{"version": 2, "width": 65535, "height": 65535}\n'
        for data, words in (
            (b'{"version": 4}\n', "no header"),
            (b"raw", "neither an asciicast nor a ttyrec"),
            (b"\x1f\x8b\x08\0", "compressed"),
            (b'{"version": 1, "width": 0}', "no header"),
            (huge, "more than 4,000,000 cells"),
            (cast((3, 20), [[1, "r", "65535x65535"]]), "more than 4,000,000 cells"),
        ):
            self.assertIn(words, self.refused(1, data, "--print")[1])

    def test_a_recording_in_part(self):
        data = cast((2, 20), [[1, "o", "whole"]]) + b'[2, "o"]\n'
        shown, said = self.refused(3, data, "--print")
        self.assertEqual(shown, "whole\n\n")
        self.assertIn("a.cast: line 3: not an event of asciicast", said)
        with Terminal([*self.kept(data), "--at", "1"], rows=4, cols=100, cwd=PYTHON) as terminal:
            terminal.wait_for("line 3: not an event of asciicast")
            terminal.press("q")
            self.assertEqual(terminal.wait_for_exit(), 3)
