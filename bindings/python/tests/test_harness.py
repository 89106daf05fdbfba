"""The plugin for pytest, the mixin for unittest, and jeihpal-test: what they keep, compare, say and leave."""

from __future__ import annotations

import os
import shutil
import subprocess
import sys
import tempfile
import unittest
import xml.dom.minidom

PACKAGE = os.path.dirname(os.path.dirname(os.path.abspath(__file__)))
COUNTER = """import sys
print("\\x1b[1;31mcount\\x1b[m", sys.argv[1], flush=True)
input()
raise SystemExit(int(sys.argv[1]))
"""
PYTEST = """import sys

def test_counter(terminal, assert_screen):
    counter = terminal([sys.executable, "counter.py", open("number").read()], rows=3, cols=20)
    counter.wait_for("count", timeout=20)
    assert_screen(counter.wait_for("count"), "counter")
    counter.type("\\n")
    assert counter.wait_for_exit() == 1

def test_pictures(terminal):
    counter = terminal([sys.executable, "counter.py", "1"], rows=3, cols=20)
    before = counter.wait_for("count", timeout=20)
    assert "count 1" in before
    if open("number").read() != "1":
        counter.type("ab")
        assert before == counter.wait_for("ab")
"""
UNITTEST = """import sys, unittest
from jeihpal.testing import TerminalMixin

class Counters(TerminalMixin, unittest.TestCase):
    def test_counter(self):
        counter = self.terminal([sys.executable, "counter.py", open("number").read()], rows=3, cols=20)
        self.assert_screen(counter.wait_for("count", timeout=20), "counter")
"""
SCRIPT = f"""# a counter
size 3 20
run "{sys.executable}" counter.py 1
timeout 20
wait "count"
expect screen
  |count 1
  |
  |
expect screen counter
expect cursor 1 0
expect row 0 "count 1"
expect no /count [2-9]/
type "\\n"
expect exit 1
"""


def with_pytest() -> str:
    """A Python that has pytest."""
    for python in (sys.executable, "/usr/bin/python3"):
        if os.access(python, os.X_OK) and not subprocess.run([python, "-c", "import pytest"], stderr=-3).returncode:
            return python
    raise unittest.SkipTest("there is no pytest")


class Folder(unittest.TestCase):
    """Tests in a folder of their own."""

    def setUp(self):
        self.folder = tempfile.mkdtemp(prefix="harness-")
        self.addCleanup(shutil.rmtree, self.folder)
        self.write("counter.py", COUNTER)
        self.write("number", "1")

    def write(self, name, text):
        with open(os.path.join(self.folder, name), "w", encoding="utf-8") as file:
            file.write(text)

    def text(self, *names):
        with open(os.path.join(self.folder, *names), encoding="utf-8") as file:
            return file.read()

    def run_here(self, status, *words, **env):
        """Runs a program there, and returns what it prints."""
        env = {**os.environ, "PYTHONPATH": PACKAGE, "PYTHONDONTWRITEBYTECODE": "1", **env}
        how = {"stdin": subprocess.DEVNULL, "stdout": subprocess.PIPE, "stderr": subprocess.STDOUT, "timeout": 300}
        run = subprocess.run(words, cwd=self.folder, env=env, encoding="utf-8", **how)
        self.assertEqual(run.returncode, status, run.stdout)
        return run.stdout

    def said(self, told, *parts):
        """The output has these parts, one after another."""
        at = 0
        for part in parts:
            self.assertIn(part, told[at:], told)
            at = told.index(part, at) + len(part)

    def left(self, *names):
        """What was left of a failed test."""
        return set(os.listdir(os.path.join(self.folder, "screens", "failed", *names)))


class Plugin(Folder):
    def setUp(self):
        super().setUp()
        self.write("test_counter.py", PYTEST)
        self.words = [with_pytest(), "-m", "pytest", "-p", "jeihpal.testing.pytest_plugin", "-p", "no:cacheprovider"]

    def test_screens_are_kept_and_compared(self):
        told = self.run_here(1, *self.words)
        self.said(told, "no screen 'counter' is kept yet", "pytest --update-screens keeps this one", "│count 1")
        self.run_here(0, *self.words, "--update-screens")
        kept = ["screen of 3 rows and 20 columns", "|count 1", "|", "|", "cursor 1 0", "styles", "0 0-4 bold red", ""]
        self.assertEqual(self.text("screens", "test_counter", "counter.txt").split("\n"), kept)
        self.run_here(0, *self.words)
        self.assertFalse(os.path.exists(os.path.join(self.folder, "screens", "failed", "test_counter.test_counter")))

    def test_what_fails_is_told_and_left(self):
        self.run_here(0, *self.words, "--update-screens")
        self.write("number", "2")
        told = self.run_here(1, *self.words)
        self.said(told, "isn't the kept one, 'counter'", "- count 1", "+ count 2", "       ^", "keeps this one")
        self.said(told, "the screens differ (- left, + right)", "+ ab", "cursor", "- 1 0", "+ 1 2")
        files = {"screen.txt", "screen.svg", "screen.cast"}
        self.assertEqual(self.left("test_counter.test_counter"), files | {"counter.now.svg", "counter.kept.svg"})
        self.assertEqual(self.left("test_counter.test_pictures"), files)
        for name, shown in (("now", "2"), ("kept", "1")):
            text = self.text("screens", "failed", "test_counter.test_counter", f"counter.{name}.svg")
            texts = xml.dom.minidom.parseString(text).getElementsByTagName("text")
            self.assertEqual([it.firstChild.data.strip() for it in texts], ["count", shown])
        self.run_here(1, *self.words, "--failed-screens", "elsewhere")
        self.assertIn("test_counter.test_counter", os.listdir(os.path.join(self.folder, "elsewhere")))


class Mixin(Folder):
    def test_screens_are_kept_and_compared(self):
        self.write("test_counter.py", UNITTEST)
        words = [sys.executable, "-W", "error", "-m", "unittest", "test_counter"]
        self.said(self.run_here(1, *words), "no screen 'counter' is kept yet", "JEIHPAL_UPDATE_SCREENS=1")
        self.run_here(0, *words, JEIHPAL_UPDATE_SCREENS="1")
        self.run_here(0, *words)
        self.write("number", "2")
        self.said(self.run_here(1, *words), "test_counter.Counters.test_counter", "- count 1", "+ count 2")
        files = {"screen.txt", "screen.svg", "screen.cast", "counter.now.svg", "counter.kept.svg"}
        self.assertEqual(self.left("test_counter.Counters.test_counter"), files)


class Scripts(Folder):
    WORDS = [sys.executable, "-m", "jeihpal.testing"]

    def test_a_folder_of_them(self):
        self.write("counter.steps", SCRIPT)
        self.write("other.steps", "needs no-such-program\nrun no-such-program\n")
        self.write("notes.txt", "no script")
        self.run_here(0, *self.WORDS, "--update-screens", ".")
        told = self.run_here(0, *self.WORDS, ".").split("\n")
        skipped = "ok 2 - other # SKIP there is no no-such-program"
        self.assertEqual(told, ["TAP version 13", "1..2", "ok 1 - counter", skipped, ""])

    def played(self, texts):
        """What is said of scripts with these texts."""
        for number, text in enumerate(texts, 1):
            self.write(f"{number:02}.steps", text)
        told = self.run_here(self.status, *self.WORDS, ".")
        parts = told.split("\nnot ok ")
        self.assertEqual(len(parts), len(texts) + 1, told)
        return parts[1:]

    def test_what_fails_is_told_with_its_line(self):
        self.status = 1
        cases = (
            ('wait "count 2"', ("steps:5:", "in vain for 'count 2'", "│count 1")),
            ("expect screen\n  |count 2\n  |\n  |", ("steps:5:", "- count 2", "+ count 1", "^")),
            ("expect screen\n  |count 1", ("steps:5:", "has 3 rows, and 1 are written")),
            ("expect cursor 0 1", ("steps:5:", "the cursor at 0, 1")),
            ('expect row 0 "x"', ("steps:5:", "'x' in row 0")),
            ('expect title "x"', ("steps:5:", "the title 'x'")),
            ("expect screen unknown", ("steps:5:", "no screen 'unknown' is kept yet", "jeihpal-test --update")),
            ('timeout 60\ntype "\\n"\nexpect exit 2', ("steps:7:", "has ended with status 1, not with 2")),
            ("press Entr", ("steps:5:", "there is no key 'Entr': is it Enter?")),
            ("timeout 60\nsignal KILL\nexpect exit TERM", ("steps:7:", "with signal KILL, not with TERM")),
            ("run no-such-program", ("steps:5:", "there is no program 'no-such-program'")),
            ("click 0 0", ("steps:5:", "hasn't asked for mouse events")),
        )
        head = "\n".join([*SCRIPT.split("\n")[1:3], 'wait "count"', "timeout 0.2", ""])
        for (_, wanted), told in zip(cases, self.played([head + line for line, _ in cases])):
            self.said(told, *wanted)
        self.assertIn("screen.cast", self.left("01"))

    def test_what_is_no_script(self):
        self.status = 2
        cases = (
            ("size 3", ":1: a line of this step is `size ROWS COLUMNS`"),
            ("\nrun x\npres Enter", ":3: there is no step 'pres': is it press?"),
            ('type "no end', ":1: a text has no end, in `type TEXT`"),
            ('type "\\q"', ":1: there is no escape \\q"),
            ("wait /(/", ":1: "),
            ("|row", ":1: a row of a screen stands behind `expect screen`"),
            ("expect screen", ":1: `expect screen` has a name, or rows behind it"),
            ("expect cursor 1", ":1: a line of this step is `expect "),
            ("run 'x", ":1: No closing quotation"),
        )
        for (_, wanted), told in zip(cases, self.played([text for text, _ in cases])):
            self.said(told, ".steps" + wanted)
        self.said(self.run_here(2, *self.WORDS, "none.steps"), "not ok 1 - none", "No such file")
        self.said(self.run_here(2, *self.WORDS), "usage: jeihpal-test")
        self.said(self.run_here(0, *self.WORDS, "--help"), "the steps:", "press    KEY ..")
