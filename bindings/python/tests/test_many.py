"""share for many: numbered messages, what a page does with them, and frames that several are sent."""

from __future__ import annotations

import asyncio
import contextlib
import json
import os
import resource
import socket
import stat
import tempfile
import time
import unittest
from typing import Any

from jeihpal import View
from jeihpal_share.messages import MOST_KEPT, Messages
from jeihpal_share.moments import Moment
from jeihpal_share.notices import Notices
from jeihpal_share.screen import SharedScreen
from jeihpal_share.tokens import Token, kept_token
from jeihpal_share.watchers import Watcher, Watchers

from .chromium import PROGRAM, Chromium
from .scripted import Scripted
from .sharing import END, WHOLE, Shared, Watching, wait_for
from .test_page import HTTP, Page, asked, get


def moment(*texts: str) -> Moment:
    """A moment of rows that have these texts."""
    return Moment((len(texts), 9), [json.dumps([[text, len(text), None, None, 0]]) for text in texts], [0, 0, 1])


class Numbers(unittest.TestCase):
    def test_whole_and_differences(self):
        messages = Messages("make")
        messages.add(moment("a", "b"))
        whole = json.loads(messages.text(0))
        self.assertEqual((whole["n"], whole["k"], whole["name"], whole["size"]), (1, 1, "make", [2, 9]))
        self.assertEqual(list(whole["rows"]), ["0", "1"])
        messages.add(moment("a", "c"))
        messages.add(moment("a", "d"))
        for since in (1, 2):
            message = json.loads(messages.text(since))
            self.assertEqual((message["n"], message["from"], message["run"]), (3, since, whole["run"]))
            self.assertEqual(message["rows"], {"1": [["d", 1, None, None, 0]]})
        self.assertIs(messages.text(2), messages.text(2))  # it is made once
        self.assertAlmostEqual(json.loads(messages.text(0))["t"] / 1e6, time.time(), delta=10)

    def test_where_a_whole_one_is_due(self):
        messages = Messages("make")
        messages.add(moment("a", "b"))
        messages.add(moment("a"))
        self.assertIn("size", json.loads(messages.text(1)))
        for _ in range(MOST_KEPT):
            messages.add(moment("a"))
        self.assertIn("from", json.loads(messages.text(3)))
        for unknown in (1, 2, 99):
            self.assertIs(messages.text(unknown), messages.text(0))


class Pages(unittest.TestCase):
    def test_one_message_for_all(self):
        program = "import time\nfor n in range(40): print('\\x1b[H', n); time.sleep(.05)"
        with Shared(program, *HTTP, "--rate", "5") as shared:
            pages = [Page(shared) for _ in range(3)]
            while any([page.read() for page in pages]):
                pass
            first, second, third = [page.messages for page in pages]
            self.assertEqual(first[-4:], second[-4:])
            self.assertEqual(first[-4:], third[-4:])
            for page in pages:
                self.assertEqual(page.lost, 0)
                page.sock.close()

    def test_one_that_comes_late_is_shown_all_at_once(self):
        with Shared("print('ready'); input()", *HTTP, "--rate", "0.2") as shared, Page(shared) as first:
            first.read_until("ready")
            begun = time.monotonic()
            with Page(shared) as second:
                second.read_until("ready")
            self.assertLess(time.monotonic() - begun, 3)

    def test_nothing_is_sent_where_nothing_changes(self):
        program = "import time\nfor n in range(20): print('\\x1b[Hsame'); time.sleep(.05)"
        with Shared(program, *HTTP) as shared, Page(shared) as page:
            while page.read():
                pass
            self.assertLessEqual(page.moments, 4)

    def test_descriptors(self):
        """The command has the limits that share was started with."""
        program = "import resource; print('limits', *resource.getrlimit(resource.RLIMIT_NOFILE)); input()"
        with Shared(program) as shared, Watching(shared) as watcher:
            watcher.read_until("limits %d %d" % resource.getrlimit(resource.RLIMIT_NOFILE))


class Terminal:
    """A terminal at a socket of this process."""

    def __init__(self, loop: asyncio.AbstractEventLoop, watchers: Watchers) -> None:
        self._loop, self._watchers = loop, watchers
        self._ours, self._theirs = socket.socketpair()
        self._ours.setblocking(False)
        self._theirs.setblocking(False)
        self.view = View(2, 20)

    def come(self) -> None:
        """It watches from now on."""
        self._watchers.add(Watcher(self._loop, self._theirs, self._watchers))

    def shown(self) -> str:
        """What it shows, once it has read what there is."""
        with contextlib.suppress(BlockingIOError):
            while data := self._ours.recv(65536):
                self.view.advance(data)
        return self.view.text().strip()

    def __enter__(self) -> Terminal:
        return self

    def __exit__(self, *_: object) -> None:
        self._ours.close()
        self._theirs.close()
        self.view.close()


class Terminals(unittest.TestCase):
    def test_one_frame_for_all(self):
        program = "import time\nfor n in range(20): print('\\x1b[H', n); time.sleep(.05)"
        with Shared(program, "--rate", "5") as shared:
            watchers = [Watching(shared) for _ in range(3)]
            frames = [watcher.read_all().data.split(END)[1:-1] for watcher in watchers]
            shortest = min(map(len, frames))
            self.assertGreater(shortest, 0)
            self.assertEqual(frames[0][-shortest:], frames[1][-shortest:])
            self.assertEqual(frames[0][-shortest:], frames[2][-shortest:])
            for watcher in watchers:
                watcher.__exit__()

    def test_one_that_comes_late_is_shown_all_at_once(self):
        with Shared("print('ready'); input()", "--rate", "0.2") as shared, Watching(shared) as first:
            first.read_until("ready")
            begun = time.monotonic()
            with Watching(shared) as second:
                second.read_until("ready")
                self.assertEqual(second.frames(), 1)
            self.assertLess(time.monotonic() - begun, 3)

    def test_one_that_comes_during_an_update(self):
        """It is shown what the others are, and goes on with their frames."""
        with contextlib.closing(asyncio.new_event_loop()) as loop:
            notices = Notices(False)
            screen = SharedScreen(loop, (2, 20), 30.0, notices)
            watchers = Watchers(screen, 2, Token(None), notices)
            with Terminal(loop, watchers) as first, Terminal(loop, watchers) as second:
                first.come()
                screen.feed(b"before\x1b[?1000h")
                screen.show()
                self.assertEqual(first.shown(), "before")
                screen.feed(b"\x1b[?2026h and")
                screen.show()
                second.come()
                self.assertEqual((first.shown(), second.shown()), ("before", "before"))
                self.assertTrue(second.view.look().mouse)
                screen.feed(b" after\x1b[?1000l\x1b[?2026l")
                self.assertEqual((first.shown(), second.shown()), ("before and after", "before and after"))
                self.assertFalse(second.view.look().mouse)
                watchers.close()

    def test_modes_of_one_that_was_behind(self):
        """A slow watcher that skipped the end of a mode gets the sequence that turns it off."""
        rows = r"'\r\n'.join('\x1b[3%dm' % (1 + (n + r) % 6) + f'{n} ' * 12 for r in range(23))"
        program = f"""import sys, time
w = sys.stdout.write
for n in range(150): w('\\x1b[?1000;1006' + 'lh'[n // 3 % 2] + '\\x1b[H' + {rows}); sys.stdout.flush(); time.sleep(.01)
w('\\x1b[?1000;1006l\\x1b[m\\x1b[H\\x1b[2Jthe end'); sys.stdout.flush(); time.sleep(.5)"""
        with Shared(program) as shared, Watching(shared) as quick, Watching(shared, room=4096) as slow:
            while "the end" not in quick.view.text() and quick.read(20):
                pass
            slow.read_all()
            self.assertEqual(slow.view.text().strip(), "the end")
            self.assertFalse(slow.view.look().mouse)
            self.assertFalse(slow.view.look().encoding)
            self.assertGreater(slow.data.count(WHOLE), 1)  # it has skipped frames
            self.assertLess(slow.frames(), quick.read_all().frames())


class Tokens(unittest.TestCase):
    def test_made_and_kept(self):
        with tempfile.TemporaryDirectory() as folder:
            token = kept_token(f"{folder}/token")
            self.assertEqual(kept_token(f"{folder}/token"), token)
            self.assertEqual(stat.S_IMODE(os.stat(f"{folder}/token").st_mode), 0o600)
            self.assertGreater(len(token), 30)
            for text in ("", "short", "has a space in it", "is&more=1234", "ümläuts-in-it"):
                with open(f"{folder}/token", "w", encoding="utf-8") as file:
                    file.write(f"{text}\nright-token\n")
                with self.subTest(text), self.assertRaises(OSError):
                    kept_token(f"{folder}/token")

    def test_who_may_watch(self):
        with tempfile.TemporaryDirectory() as folder:
            token = kept_token(f"{folder}/token")
            words = (*HTTP, "--listen", "127.0.0.1:0", "--token", f"{folder}/token")
            with Shared("print('ready'); input()", *words) as shared:
                self.check_pages(shared, token)
                self.check_terminals(shared, token)
                self.assertNotIn(token, shared.said)
                self.assertIn("a watcher was refused: its first line isn't the token", shared.said)

    def check_pages(self, shared: Shared, token: str) -> None:
        almost = (f"?token={token[:-1]}", f"?token={token}x", f"?x={token}", f"?token={token[:-1]}%00")
        for query in ("", "?", "?token=", "?token", *almost):
            for path in ("/", "/events"):
                with self.subTest(path + query):
                    self.assertEqual(asked(shared, get(path + query))[:12], b"HTTP/1.1 403")
        self.assertEqual(asked(shared, get(f"/?x=1&token={token}"))[:12], b"HTTP/1.1 200")
        with Page(shared, path=f"/events?token={token}") as page:
            page.read_until("ready")

    def check_terminals(self, shared: Shared, token: str) -> None:
        for line in (token.encode() + b"\r", token.encode() + b"\nmore"):
            with self.subTest(line), Watching(shared) as watcher:
                watcher.sock.sendall(line)
                watcher.read_until("ready")
        for line in (b"\r", b"\n\n", b"wrong\r", token[:-1].encode() + b"\r", b"a" * 1000, b"\x00\xff\r"):
            with self.subTest(line), Watching(shared) as watcher:
                watcher.sock.sendall(line)
                self.assertNotIn(b"ready", watcher.read_all().data)
                self.assertIn(b"the first line must be the token", watcher.data)
        with Watching(shared) as watcher:
            watcher.sock.sendall(token.encode())
            watcher.sock.shutdown(socket.SHUT_WR)
            self.assertNotIn(b"ready", watcher.read_all().data)


def whole(n: int, run: str = "a", **more: Any) -> dict[str, Any]:
    """A whole message of a scripted page."""
    rows = {"0": [[f"whole {n}", 7, None, None, 0]], "1": [["second", 6, None, None, 0]]}
    said = {"n": n, "run": run, "t": time.time_ns() // 1000, "k": 1, "name": "make", "size": [2, 20], "cursor": None}
    return {**said, "rows": rows, **more}


def difference(n: int, run: str = "a", **more: Any) -> dict[str, Any]:
    """One that leads from the number before."""
    rows = {"0": [[f"difference {n}", 12, None, None, 0]]}
    return {"n": n, "from": n - 1, "run": run, "t": time.time_ns() // 1000, "cursor": None, "rows": rows, **more}


@unittest.skipUnless(PROGRAM, "there is no Chromium")
class InChromium(unittest.TestCase):
    def check(self, browser: Chromium, state: str, text: str) -> None:
        """The page comes to a state, with a text in its first row."""
        value = lambda name: browser.value(f"document.getElementById('{name}')?.textContent") or ""
        seen = lambda: (value("state"), value("text").split("\n")[0])
        try:
            wait_for(lambda: seen() == (state, text), 30)
        except AssertionError:
            self.assertEqual(seen(), (state, text))

    def test_gaps(self):
        with Scripted(GAP=1000) as server, Chromium(server.url) as browser:
            self.check(browser, "waiting for the screen", "")
            server.send(difference(1))
            server.send(whole(2))
            self.check(browser, "live", "whole 2")
            server.send(difference(3))
            self.check(browser, "live", "difference 3")
            server.send(difference(5))  # 4 is missing
            self.check(browser, "catching up", "difference 3")
            server.send(whole(6))
            server.send(difference(6))  # doubled
            server.send(whole(5))  # late
            self.check(browser, "live", "whole 6")
            server.send(difference(9, **{"from": 6}))
            self.check(browser, "live", "difference 9")
            server.send(difference(2, "b"))  # of another run
            self.check(browser, "catching up", "difference 9")
            server.cut()
            wait_for(lambda: server.asked == 2)  # it asks anew
            server.send(whole(1, "b"))
            self.check(browser, "live", "whole 1")

    def test_late_and_silent(self):
        with Scripted(SILENCE=2500) as server, Chromium(server.url) as browser:
            server.send(whole(1))
            self.check(browser, "live", "whole 1")
            asked = server.asked
            server.send(difference(2, t=time.time_ns() // 1000 - 9_000_000))
            wait_for(lambda: server.asked == asked + 1)
            server.cut()  # for the connection that it has left
            server.send(whole(3))
            self.check(browser, "live", "whole 3")
            wait_for(lambda: server.asked > asked + 1)  # it hears nothing

    def test_ended_and_another_run(self):
        with Scripted() as server, Chromium(server.url) as browser:
            server.send(whole(1))
            server.send_ended(3)
            self.check(browser, "ended with status 3", "whole 1")
            server.send(whole(1, "b"))
            server.send(difference(2, "b"))
            self.check(browser, "live", "difference 2")
            asked = server.asked
            server.send_ended(0)
            server.cut()
            self.check(browser, "ended with status 0", "difference 2")
            time.sleep(0.5)
            self.assertEqual(server.asked, asked)  # it is over


if __name__ == "__main__":
    unittest.main()
