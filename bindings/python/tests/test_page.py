"""share --http: the page, its events, what is refused, and the page in Chromium."""

from __future__ import annotations

import json
import os
import re
import socket
import tempfile
import time
import unittest

from . import hostile
from .chromium import PROGRAM, Chromium
from .sharing import Shared, wait_for

HTTP = ("--http", "127.0.0.1:0")
READY = "print('ready'); input()"
COLOURS = r"""
import sys, time
w = sys.stdout.write
w("\x1b[2J\x1b[H\x1b[1;37;44m a build, watched from afar \x1b[m\r\n\r\n")
for i in range(8):
    w(f"\x1b[{30 + i}m{i} normal \x1b[1mbold \x1b[22;2mdim \x1b[22;3mitalic")
    w("\x1b[23;4m under\x1b[24;7m inverse\x1b[m\r\n")
w("\x1b[38;5;208m256 colours \x1b[38;2;120;200;255mand 24 bits\x1b[m \x1b[48;2;60;0;90m behind \x1b[m\r\n")
w("wide: 米日本語 thé e\u0301 |end\r\n<script>alert(1)</script> & \"quotes\"\r\n$ make 米\x1b[D")
input()
"""


def asked(shared: Shared, request: bytes, seconds: float = 10.0) -> bytes:
    """What a request is answered, to the end of the connection."""
    with socket.create_connection(shared.place("browsers")) as sock:
        sock.settimeout(seconds)
        sock.sendall(request)
        answer = b""
        try:
            while data := sock.recv(65536):
                answer += data
        except ConnectionResetError:
            pass
        return answer


def get(path: str, host: str = "localhost") -> bytes:
    """A request."""
    return f"GET {path} HTTP/1.1\r\nHost: {host}\r\n\r\n".encode()


class Page:
    """A page as its script has it: the screen that its events make."""

    def __init__(self, shared: Shared, room: int | None = None, path: str = "/events") -> None:
        self.sock = socket.socket()
        if room:
            self.sock.setsockopt(socket.SOL_SOCKET, socket.SO_RCVBUF, room)
        self.sock.settimeout(20)
        self.sock.connect(shared.place("browsers"))
        self.sock.sendall(get(path))
        self.said, self.rows, self.messages, self.ended = b"", [], [], None
        self.lost = 0  # differences that lead from a message that it doesn't have

    @property
    def moments(self) -> int:
        """How many moments it was shown."""
        return len(self.messages)

    def read(self) -> bool:
        """Reads the next event. Whether there was one."""
        while b"\n\n" not in self.said:
            data = self.sock.recv(65536)
            if not data:
                return False
            self.said += data.replace(b"\r", b"")
        event, _, self.said = self.said.partition(b"\n\n")
        if found := re.search(rb"^data: (.*)", event, re.M):
            if re.search(rb"^event: ended$", event, re.M):
                self.ended = int(found[1])
            else:
                self.take(json.loads(found[1]))
        return True

    def take(self, moment: dict) -> None:
        """Takes an event's moment."""
        before = self.messages[-1]["n"] if self.messages else 0
        self.lost += "size" not in moment and moment["from"] != before
        self.messages.append(moment)
        if "size" in moment:
            self.rows = [""] * moment["size"][0]
        for row, runs in moment["rows"].items():
            self.rows[int(row)] = "".join(run[0] for run in runs).rstrip()

    def read_until(self, text: str) -> None:
        """Reads until it shows a text."""
        while text not in "\n".join(self.rows):
            if not self.read():
                raise AssertionError(f"{text!r} isn't shown")

    def __enter__(self) -> Page:
        return self

    def __exit__(self, *_: object) -> None:
        self.sock.close()


class Refusals(unittest.TestCase):
    def test_requests_that_are_none(self):
        with Shared(READY, *HTTP) as shared:
            for request, status in (
                (b"hello\r\n\r\n", b"400"),
                (b"\r\n\r\n", b"400"),
                (b"GET / HTTP/1.1\r\n\r\n", b"400"),
                (b"GET / HTTP/1.1\r\nHost: a\r\nHost: b\r\n\r\n", b"400"),
                (b"GET / HTTP/1.1\r\nHost localhost\r\n\r\n", b"400"),
                (b"GET / HTTP/3\r\nHost: localhost\r\n\r\n", b"400"),
                (b"POST / HTTP/1.1\r\nHost: localhost\r\n\r\n", b"405"),
                (get("/other"), b"404"),
                (get("/../etc/passwd"), b"404"),
                (get("/", "example.org"), b"421"),
                (get("/events", "evil.example:80"), b"421"),
                (get("/" + "a" * 20000), b"431"),
                (b"GET / HTTP/1.1\r\n" + b"X: y\r\n" * 5000, b"431"),
            ):
                with self.subTest(request[:40]):
                    self.assertEqual(asked(shared, request)[:12], b"HTTP/1.1 " + status)
            for status in ("400", "405", "404", "421", "431"):
                wait_for(lambda: f"a browser was refused: {status}" in shared.said)

    def test_hostile_requests(self):
        with Shared(READY, *HTTP) as shared:
            for request, status in hostile.REQUESTS:
                with self.subTest(request[:60]):
                    answer = asked(shared, request)
                    self.assertEqual(answer[:12], b"HTTP/1.1 " + status)
                    self.assertEqual(answer.count(b"HTTP/1.1 "), 1)
            self.assertNotIn("Traceback", shared.said)

    def test_names_of_this_machine(self):
        with Shared(READY, *HTTP) as shared:
            for host in ("LOCALHOST", "localhost.", "localhost:80", "127.0.0.1", "127.1.2.3:9", "[::1]:80"):
                with self.subTest(host):
                    self.assertEqual(asked(shared, get("/?x=1", host))[:12], b"HTTP/1.1 200")
            for host in ("localhost.example.org", "localhost..", "127.0.0.1.example.org", "[::2]", ""):
                with self.subTest(host):
                    self.assertEqual(asked(shared, get("/", host))[:12], b"HTTP/1.1 421")

    def test_heads_alone(self):
        with Shared(READY, *HTTP) as shared:
            for path in ("/", "/events", "/?x"):
                answer = asked(shared, get(path).replace(b"GET", b"HEAD"))
                self.assertTrue(answer.startswith(b"HTTP/1.1 200") and answer.endswith(b"\r\n\r\n"), answer)

    def test_a_head_without_end(self):
        with Shared(READY, *HTTP) as shared:
            begun = time.monotonic()
            self.assertEqual(asked(shared, b"GET / HTTP/1.1\r\nHost: localhost\r\n", 15)[:12], b"HTTP/1.1 408")
            self.assertLess(time.monotonic() - begun, 8)

    def test_one_that_sends_more(self):
        with Shared(READY, *HTTP) as shared, Page(shared) as page:
            page.read_until("ready")
            page.sock.sendall(b"more")
            while page.read():
                pass
            wait_for(lambda: "it sends more than a request" in shared.said)

    def test_too_many(self):
        with Shared(READY, *HTTP, "--browsers", "5") as shared:
            pages = [Page(shared) for _ in range(5)]
            try:
                pages[-1].read_until("ready")
                self.assertEqual(asked(shared, get("/"))[:12], b"HTTP/1.1 503")
                pages.pop().sock.close()
                wait_for(lambda: asked(shared, get("/"))[:12] == b"HTTP/1.1 200")
            finally:
                for page in pages:
                    page.sock.close()


class Events(unittest.TestCase):
    def test_the_page(self):
        with Shared(READY, *HTTP) as shared:
            head, _, page = asked(shared, get("/")).partition(b"\r\n\r\n")
            self.assertTrue(head.startswith(b"HTTP/1.1 200 OK\r\n"))
            self.assertIn(b"form-action 'none'", head)
            nonce = re.search(rb"script-src 'nonce-([\w-]+)'", head)[1]
            self.assertEqual(page.count(b'nonce="' + nonce), 2)
            self.assertLess(len(page), 16000)
            self.assertNotIn(b"http", page)  # nothing comes from elsewhere

    def test_the_screen(self):
        program = "import time; print('米 one'); time.sleep(.5); print('two'); time.sleep(.5); import sys; sys.exit(3)"
        with Shared(program, *HTTP) as shared, Page(shared) as page:
            page.read_until("two")
            self.assertEqual(page.rows[0], "米 one")
            while page.read():
                pass
            self.assertEqual((page.ended, shared.end()), (3, 3))

    def test_a_slow_one_gets_the_newest(self):
        rows = "'\\r\\n'.join(str(n) * 20 for _ in range(23))"
        program = f"import time\nfor n in range(250): print('\\x1b[H' + {rows}); time.sleep(.01)"
        with Shared(program, *HTTP) as shared, Page(shared) as quick, Page(shared, room=4096) as slow:
            while quick.read():
                if quick.moments > 20 and quick.moments % 10 == 0:
                    slow.read()
            while slow.read():
                pass
            self.assertLess(slow.moments, quick.moments)
            self.assertEqual((quick.rows, quick.ended, slow.ended), (slow.rows, 0, 0))
            self.assertIn("249" * 20, quick.rows)
            self.assertEqual((quick.lost, slow.lost), (0, 0))


def dark(browser: Chromium, scheme: str = "dark") -> None:
    """Has the reader prefer dark pages, or light ones."""
    browser.ask("Emulation.setEmulatedMedia", features=[{"name": "prefers-color-scheme", "value": scheme}])


@unittest.skipUnless(PROGRAM, "there is no Chromium")
class InChromium(unittest.TestCase):
    def test_the_page(self):
        with Shared(COLOURS, *HTTP, size="16x60") as shared:
            with Chromium("http://%s:%d/" % shared.place("browsers")) as browser:
                dark(browser)
                wait_for(lambda: "make" in (browser.value("document.getElementById('text')?.textContent") or ""), 30)
                self.assertEqual(browser.value("document.getElementById('state').textContent"), "live")
                text = browser.value("document.getElementById('text').textContent")
                self.assertIn('wide: 米日本語 thé e\u0301 |end\n<script>alert(1)</script> & "quotes"', text)
                self.check_drawing(browser)
                self.check_reader(browser)
                if folder := os.environ.get("JEIHPAL_PICTURES"):
                    with open(f"{folder}/page.png", "wb") as file:
                        file.write(browser.picture())

    def check_drawing(self, browser: Chromium) -> None:
        """Colours, wide cells and the cursor lie where they should."""
        style = "getComputedStyle(document.querySelectorAll('.row')[{}].children[{}]).{}"
        self.assertEqual(browser.value(style.format(3, 0, "color")), "rgb(205, 49, 49)")
        self.assertEqual(browser.value(style.format(0, 0, "backgroundColor")), "rgb(59, 120, 255)")
        self.assertEqual(browser.value(style.format(10, 1, "color")), "rgb(120, 200, 255)")
        left = "document.querySelectorAll('.row')[{}].{}.getBoundingClientRect().{}"
        one = browser.value(left.format(0, "children[0]", "width")) / 28
        start = browser.value(left.format(11, "firstElementChild", "left"))
        end = browser.value(left.format(11, "lastElementChild", "right"))
        self.assertAlmostEqual(end - start, 60 * one, delta=1)
        cursor = "document.getElementById('cursor').getBoundingClientRect().{}"
        self.assertAlmostEqual(browser.value(cursor.format("left")) - start, 7 * one, delta=1)
        self.assertAlmostEqual(browser.value(cursor.format("width")), 2 * one, delta=1)

    def check_reader(self, browser: Chromium) -> None:
        """A screen reader gets the text once, by its rows."""
        told = browser.told()
        self.assertIn(("group", "Screen of 16 rows and 60 columns"), told)
        texts = [name for role, name in told if role == "StaticText" and "256 colours" in name]
        self.assertEqual(len(texts), 1)
        self.assertIn("256 colours and 24 bits  behind\nwide:", texts[0])

    def test_text_stays_in_its_cells(self):
        """Letters of other fonts and scripts, and marks that reorder, move nothing else."""
        program = r"""
for text in ("abc\u202edef", "\u05d0\u05d1\u05d2 x \u0627\u0644", "\u20ac\u2500\u2588\u1d11e\ua9c5\u0e01", "e\u0301a\u0302"):
    print(text + "\x1b[20G|end")
input()
"""
        with Shared(program, *HTTP, size="6x30") as shared:
            with Chromium("http://%s:%d/" % shared.place("browsers")) as browser:
                text = lambda: browser.value("document.getElementById('text')?.textContent") or ""
                wait_for(lambda: text().count("|end") == 4, 30)
                self.assertNotIn("\u202e", text())
                one = browser.value("document.getElementById('rows').getBoundingClientRect().width") / 30
                left = browser.value("document.querySelector('.row').getBoundingClientRect().left")
                self.check_columns(browser, left, one)

    def check_columns(self, browser: Chromium, left: float, one: float) -> None:
        """Each letter is drawn in its column."""
        script = """[...document.querySelectorAll('.row')].slice(0, 4).map((row) => {
          const walker = document.createTreeWalker(row, NodeFilter.SHOW_TEXT), found = [];
          while (walker.nextNode()) for (let at = 0; at < walker.currentNode.length; at++) {
            const range = document.createRange();
            range.setStart(walker.currentNode, at);
            range.setEnd(walker.currentNode, at + 1);
            const letter = walker.currentNode.data[at];
            if (/[ -~]/.test(letter)) found.push([letter, range.getBoundingClientRect().left]);
          }
          return found;
        })"""
        for row in browser.value(script):
            found = "".join(letter for letter, _ in row).rstrip()
            places = dict(row)
            self.assertTrue(found.endswith("|end"), found)
            for at, letter in enumerate("|end", 19):
                self.assertAlmostEqual(places[letter] - left, at * one, delta=1)
        first = dict(browser.value(script)[0])
        for at, letter in ((0, "a"), (1, "b"), (2, "c"), (4, "f")):
            self.assertLess(first[letter] - left, (at + 2) * one)

    def test_it_fits_and_is_light_or_dark(self):
        """On a phone and in a window, each column and row is seen; colours are readable on light paper."""
        with Shared(COLOURS, *HTTP, size="24x80") as shared:
            with Chromium("http://%s:%d/" % shared.place("browsers")) as browser:
                wait_for(lambda: "make" in (browser.value("document.getElementById('text')?.textContent") or ""), 30)
                for width, height in ((390, 844), (1280, 800)):
                    size = {"width": width, "height": height, "deviceScaleFactor": 1, "mobile": False}
                    browser.ask("Emulation.setDeviceMetricsOverride", **size)
                    seen = "document.getElementById('screen').{0} <= document.getElementById('screen').{1}"
                    self.assertTrue(browser.value(seen.format("scrollWidth", "clientWidth")), width)
                    box = "document.getElementById('screen').getBoundingClientRect().{}"
                    self.assertLessEqual(browser.value(box.format("right")), width)
                    self.assertLessEqual(browser.value(box.format("bottom")), height)
                red = "getComputedStyle(document.querySelectorAll('.row')[3].children[0]).color"
                for scheme, color in (("light", "rgb(207, 34, 46)"), ("dark", "rgb(205, 49, 49)")):
                    dark(browser, scheme)
                    wait_for(lambda: browser.value(red) == color)
                browser.value("document.getElementById('light').click()")
                self.assertEqual(browser.value(red), "rgb(207, 34, 46)")

    def test_it_goes_back(self):
        """What was shown is shown again: by the bar, by keys, and as it came; and then the newest again."""
        program = "import time\nfor n in range(30): print('\\x1b[Hmoment', n); time.sleep(.1)\ninput()"
        with Shared(program, *HTTP, size="3x20") as shared:
            with Chromium("http://%s:%d/" % shared.place("browsers")) as browser:
                value = lambda name: browser.value(f"document.getElementById('{name}')?.textContent") or ""
                wait_for(lambda: "moment 29" in value("text"), 30)
                press = "document.body.dispatchEvent(new KeyboardEvent('keydown', {key: %s, bubbles: true}))"
                browser.value(press % "'Home'")
                first = int(value("text").split()[1])
                self.assertLess(first, 15)
                self.assertIn("before the newest", value("time"))
                browser.value(press % "'.'")
                second = int(value("text").split()[1])
                self.assertGreater(second, first)
                browser.value(press % "','")
                self.assertEqual(int(value("text").split()[1]), first)
                browser.value("(document.getElementById('bar').value = document.getElementById('bar').max / 2)")
                browser.value("document.getElementById('bar').oninput()")
                self.assertTrue(first < int(value("text").split()[1]) < 29)
                browser.value("document.getElementById('play').click()")
                wait_for(lambda: "moment 29" in value("text"), 30)
                self.assertIn("newest", value("time"))
                browser.value(press % "'Home'")
                browser.value("document.getElementById('live').click()")
                self.assertIn("moment 29", value("text"))

    def test_pause(self):
        with tempfile.TemporaryDirectory() as folder:
            is_told = f"os.path.exists('{folder}/stop')"
            program = f"import os, time\nwhile not {is_told}: print('\\x1b[H', time.time()); time.sleep(.05)"
            with Shared(program, *HTTP) as shared:
                with Chromium("http://%s:%d/" % shared.place("browsers")) as browser:
                    self.check_pause(browser, f"{folder}/stop")

    def check_pause(self, browser: Chromium, stop: str) -> None:
        """A paused page doesn't change, and then goes on to the end."""
        value = lambda name: browser.value(f"document.getElementById('{name}')?.textContent") or ""
        wait_for(lambda: value("text").strip(), 30)
        browser.value("document.getElementById('pause').click()")
        before = value("text")
        time.sleep(0.5)
        self.assertEqual(value("text"), before)
        browser.value("document.getElementById('pause').click()")
        wait_for(lambda: value("text") != before)
        open(stop, "w").close()
        wait_for(lambda: value("state") == "ended with status 0", 30)


if __name__ == "__main__":
    unittest.main()
