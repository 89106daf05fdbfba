"""share --record: what is shown, as an asciicast."""

from __future__ import annotations

import asyncio
import contextlib
import io
import json
import os
import sys
import tempfile
import unittest

from jeihpal import Mouse, Screen
from jeihpal.testing import Terminal
from jeihpal_share.notices import Notices
from jeihpal_share.recorder import Recorder
from jeihpal_share.screen import SharedScreen

from .sharing import PYTHON

PROGRAM = r"""
print("\x1b[31mone\x1b[m", flush=True)
while input() != "end":
    print("\x1b[?2026h\x1b[H\x1b[2Jhalf", flush=True)
    print("\x1b[Htwo \x1b[?2026l", flush=True)
raise SystemExit(3)
"""


class Recording(unittest.TestCase):
    def recorded(self, folder):
        """Runs share in a terminal that gets another size, and returns the recording's lines."""
        path = os.path.join(folder, "a.cast")
        words = [sys.executable, "-m", "jeihpal_share", "--record", path, "--", sys.executable, "-c", PROGRAM]
        with Terminal(words, rows=5, cols=60, cwd=PYTHON, timeout=60) as terminal:
            terminal.wait_for("one")
            terminal.resize(4, 30)
            terminal.type("more\n")
            terminal.wait_for("two")
            terminal.type("end\n")
            self.assertEqual(terminal.wait_for_exit(), 3)
        with open(path, encoding="utf-8") as file:
            return [json.loads(line) for line in file]

    def test_it_can_be_played(self):
        with tempfile.TemporaryDirectory() as folder:
            head, *events = self.recorded(folder)
        self.assertEqual((head["version"], head["term"]), (3, {"cols": 60, "rows": 5}))
        self.assertIn("-c", head["command"])
        self.assertEqual([event[2] for event in events if event[1] == "r"], ["30x4"])
        self.assertEqual(events[-1][1:], ["x", "3"])
        self.assertTrue(all(event[0] >= 0 for event in events))
        seen = []
        with Screen(5, 60) as screen:
            for _, code, text in events:
                if code == "r":
                    screen.resize(4, 30)
                elif code == "o":
                    screen.process(text.encode())
                    seen.append(screen.contents())
                    self.assertFalse(screen.look().updating)
            self.assertTrue(screen.row_text(0).startswith("two"))
        self.assertTrue(any(text.startswith("one") for text in seen))
        self.assertFalse(any("half" in text for text in seen))

    def test_modes_that_end_with_a_size(self):
        """A mode that was off before it was shown so, when a client ended, is off for who plays it."""
        with contextlib.closing(asyncio.new_event_loop()) as loop, io.StringIO() as file:
            notices = Notices(False)
            screen = SharedScreen(loop, (2, 20), 30.0, notices)
            Recorder(screen, file, ["true"], notices)
            screen.feed(b"on\x1b[?1000h\x1b[4 q")
            screen.show()
            screen.feed(b"\roff\x1b[?1000l\x1b[0 q")
            screen.resize(2, 20)
            events = [json.loads(line) for line in file.getvalue().splitlines()[1:]]
        with Screen(2, 20) as played:
            for event, *want in zip(events, ("on", "off"), (Mouse.PRESS_RELEASE, Mouse.NONE), (4, 0)):
                played.process(event[2].encode())
                look = played.look()
                self.assertEqual([played.contents(), look.mouse, look.style], want)
            self.assertEqual(len(events), 2)

    def test_a_file_that_cannot_be_made(self):
        words = [sys.executable, "-m", "jeihpal_share", "--record", "/no/such/folder/a.cast", "--", "true"]
        with Terminal(words, rows=5, cols=60, cwd=PYTHON, timeout=60) as terminal:
            self.assertEqual(terminal.wait_for_exit(), 1)
            self.assertIn("share: can't begin: ", terminal.screen)
