"""jeihpal.testing: keys, answers, whole moments, pictures, kept screens, and programs that end, crash or hang."""

from __future__ import annotations

import json
import os
import random
import re
import signal
import sys
import tempfile
import threading
import time
import unittest

import jeihpal
from jeihpal import Encoding, Mouse
from jeihpal.testing import Picture, ProgramNotFound, ScreenChanged, Snapshots, Terminal, WaitFailed, svg
from jeihpal.testing import _keys as keys
from jeihpal.testing import _terminfo as terminfo
from jeihpal.testing._answers import Scanner, answer, is_update
from jeihpal.testing._live import LiveScreen
from jeihpal.testing._picture import picture_of
from jeihpal.testing._snapshots import masked, read, written

PARTS = [
    *("text", "\n", "\r", "ß", "漢", "e\u0301", "\t", "  ", " x", "\x1b[H", "\x1b[2;3H", "\x1b[K", "\x1b[J", "\x1b[m"),
    *("\x1b[1m", "\x1b[2;3m", "\x1b[4;7m", "\x1b[31m", "\x1b[94m", "\x1b[48;5;200m", "\x1b[38;2;1;2;3m", "\x1b[44m"),
    *("\x1b[?25l", "\x1b[?25h", "\x1b[3 q", "\x1b[L", "\x1b[2P", "\x1b[?1049h", "\x1b[?1049l", "❤", "❤\ufe0f"),
]


def look_after(data: bytes = b"") -> jeihpal.Look:
    """The modes that a program sets by these bytes."""
    with jeihpal.Screen(24, 80) as screen:
        screen.process(data)
        return screen.look()


def picture_after(data: bytes, rows: int = 4, cols: int = 20) -> Picture:
    """What a screen shows after these bytes."""
    with jeihpal.Screen(rows, cols) as screen:
        screen.process(data)
        return picture_of(screen, screen.look(), "")


def python(program: str, **how: object) -> Terminal:
    """A program in Python, in a small terminal."""
    return Terminal([sys.executable, "-c", program], **{"rows": 5, "cols": 40, **how})  # type: ignore[arg-type]


class Keys(unittest.TestCase):
    def test_as_xterm_sends_them(self):
        plain = look_after()
        for name, sent in (
            *(
                ("a", "a"),
                ("A", "A"),
                ("é", "é"),
                ("-", "-"),
                ("Ctrl-C", "\x03"),
                ("Ctrl-c", "\x03"),
                ("Alt-x", "\x1bx"),
            ),
            *(("Enter", "\r"), ("Esc", "\x1b"), ("Tab", "\t"), ("Shift-Tab", "\x1b[Z"), ("Backspace", "\x7f")),
            *(
                ("Ctrl-Space", "\0"),
                ("Ctrl-[", "\x1b"),
                ("Ctrl--", "\x1f"),
                ("Ctrl-Alt-a", "\x1b\x01"),
                ("Shift-a", "A"),
            ),
            *(("Up", "\x1b[A"), ("Left", "\x1b[D"), ("Home", "\x1b[H"), ("End", "\x1b[F"), ("Ctrl-Right", "\x1b[1;5C")),
            *(
                ("F1", "\x1bOP"),
                ("F5", "\x1b[15~"),
                ("F12", "\x1b[24~"),
                ("Shift-F5", "\x1b[15;2~"),
                ("Ctrl-F1", "\x1b[1;5P"),
            ),
            *(("Delete", "\x1b[3~"), ("PageDown", "\x1b[6~"), ("pgup", "\x1b[5~"), ("Ctrl-Shift-Alt-Up", "\x1b[1;8A")),
        ):
            self.assertEqual(keys.key_bytes(name, plain), sent.encode(), name)

    def test_as_the_modes_ask(self):
        application = look_after(b"\x1b[?1h")
        self.assertEqual(keys.key_bytes("Up", application), b"\x1bOA")
        self.assertEqual(keys.key_bytes("Ctrl-Up", application), b"\x1b[1;5A")
        self.assertEqual(keys.key_bytes("End", application), b"\x1bOF")
        self.assertEqual(keys.pasted_bytes("a\nb", look_after()), b"a\rb")
        pasting = look_after(b"\x1b[?2004h")
        self.assertEqual(keys.pasted_bytes("a\nb\x1b[201~c", pasting), b"\x1b[200~a\rbc\x1b[201~")

    def test_unknown_ones_are_refused(self):
        for name, hint in (("Entr", "Enter"), ("Ctrl-Donw", "Down"), ("hello", "`type`"), ("Hyper-x", "`type`")):
            with self.assertRaisesRegex(ValueError, hint):
                keys.key_bytes(name, look_after())

    def test_clicks(self):
        for modes, mouse, encoding, sent in (
            ("\x1b[?1000h", Mouse.PRESS_RELEASE, Encoding.DEFAULT, b"\x1b[M %$\x1b[M#%$"),
            ("\x1b[?9h", Mouse.PRESS, Encoding.DEFAULT, b"\x1b[M %$"),
            ("\x1b[?1003h\x1b[?1006h", Mouse.ANY_MOTION, Encoding.SGR, b"\x1b[<0;5;4M\x1b[<0;5;4m"),
        ):
            look = look_after(modes.encode())
            self.assertEqual((look.mouse, look.encoding), (mouse, encoding))
            self.assertEqual(keys.click_bytes(3, 4, "left", "", look), sent)
        look = look_after(b"\x1b[?1002h\x1b[?1006h")
        self.assertEqual(keys.click_bytes(0, 0, "wheel-down", "Ctrl-Shift", look), b"\x1b[<85;1;1M")
        self.assertEqual(keys.click_bytes(0, 300, "right", "", look), b"\x1b[<2;301;1M\x1b[<2;301;1m")
        self.assertEqual(
            keys.click_bytes(0, 300, "left", "", look_after(b"\x1b[?1000h\x1b[?1005h"))[:6], b"\x1b[M \xc5\x8d"
        )
        for data, button in ((b"", "left"), (b"\x1b[?1000h", "fourth")):
            with self.assertRaises(ValueError):
                keys.click_bytes(0, 0, button, "", look_after(data))
        with self.assertRaisesRegex(ValueError, "no place 0, 300"):
            keys.click_bytes(0, 300, "left", "", look_after(b"\x1b[?1000h"))


class Answers(unittest.TestCase):
    ASKED = {
        b"\x1b[5n": b"\x1b[0n",
        b"\x1b[2;3H\x1b[6n": b"\x1b[2;3R",
        b"\x1b[1;80Hx\x1b[6n": b"\x1b[1;80R",
        b"\x1b[?6n": b"\x1b[?1;1R",
        b"\x1b[c": b"\x1b[?62;22c",
        b"\x1b[0c": b"\x1b[?62;22c",
        b"\x1b[>c": b"\x1b[>1;100;0c",
        b"\x1b[18t": b"\x1b[8;24;80t",
        b"\x1b[14t": b"\x1b[4;384;640t",
        b"\x1b[?2026$p": b"\x1b[?2026;2$y",
        b"\x1b[?2026h\x1b[?2026$p": b"\x1b[?2026;1$y",
        b"\x1b[?25$p": b"\x1b[?25;1$y",
        b"\x1b[?25l\x1b[?25$p": b"\x1b[?25;2$y",
        b"\x1b[?1;2004h\x1b[?2004$p": b"\x1b[?2004;1$y",
        b"\x1b[?77$p": b"\x1b[?77;0$y",
        b"\x1b[4$p": b"\x1b[4;0$y",
        b"\x1b]11;?\x07": b"\x1b]11;rgb:0000/0000/0000\x07",
        b"\x1b]10;?\x1b\\": b"\x1b]10;rgb:e5e5/e5e5/e5e5\x1b\\",
        b"\x1b]4;9;?\x07": b"\x1b]4;9;rgb:ffff/0000/0000\x07",
        b"\x1bP+q436f\x1b\\": b"\x1bP0+r\x1b\\",
        b"\x1bP$qm\x1b\\": b"\x1bP0$r\x1b\\",
        b"\x1b[1m\x1b[38;5;6m\x1b[2J\x1b]0;6n\x07\x1b[6;7H": b"",
    }

    def test_each(self):
        for asked, wanted in self.ASKED.items():
            live = LiveScreen(24, 80)
            self.assertEqual(live.feed(asked, lambda _: None), wanted, asked)
            live.close()

    def test_in_any_pieces(self):
        data = b"text\x1b[31m".join(self.ASKED)
        wanted = None
        for size in (len(data), 1, 2, 3, 5, 7, 11, 64):
            live = LiveScreen(24, 80)
            said = b"".join(live.feed(data[at : at + size], lambda _: None) for at in range(0, len(data), size))
            wanted = wanted or said
            self.assertEqual(said, wanted)
            live.close()

    def test_the_bytes_stay(self):
        data = b"a\x1b[?2026hb\x1b[6nc\x1b]11;?\x1b\\d\x1b[?25;2026le\x1bP+qab"
        for size in range(1, len(data)):
            scanner = Scanner()
            pieces = [it for at in range(0, len(data), size) for it in scanner.pieces(data[at : at + size])]
            self.assertEqual(b"".join(it.data for it in pieces), data)
            self.assertEqual([is_update(it.asked) for it in pieces if it.asked], [True, False, False, True])
        self.assertEqual(answer(next(Scanner().pieces(b"\x1b[6n")).asked, look_after(b"ab")), b"\x1b[1;3R")

    def test_a_program_gets_them(self):
        program = (
            "import os, sys, tty; tty.setraw(0); os.write(1, b'abc\\x1b[6n'); said = b''\n"
            "while not said.endswith(b'R'): said += os.read(0, 1)\n"
            "os.write(1, b'\\r\\n' + repr(said).encode()); os.read(0, 1)"
        )
        with python(program) as terminal:
            terminal.wait_for(r"b'\x1b[1;4R'")


class WholeMoments(unittest.TestCase):
    def test_an_update_is_shown_when_it_ends(self):
        live, seen = LiveScreen(2, 20), []
        live.feed(b"one", seen.append)
        before = live.picture()
        live.feed(b"\x1b[?2026h\r\x1b[Ktw", seen.append)
        self.assertIs(live.picture(), seen[-1])
        self.assertEqual((live.picture(), live.picture().text), (before, "one"))
        live.feed(b"o\x1b[?2026l\x1b[?2026h\rthree", seen.append)
        self.assertEqual(live.picture().text, "two")
        live.feed(b"\x1b[?2026l", seen.append)
        self.assertEqual(live.picture().text, "three")
        self.assertEqual([it.text for it in seen], ["one", "two", "two", "three"])
        live.close()

    def test_however_it_is_written(self):
        for begin, end in (
            (b"\x1b[?25;2026h", b"\x1b[?2026;25l"),
            (b"\x1b[?02026h", b"\x1bc"),
            (b"\x1b[?;2026;h", b"\x1b[?2026l"),
        ):
            live = LiveScreen(2, 20)
            live.feed(b"one" + begin + b"two", lambda _: None)
            self.assertEqual((live.look.updating, live.picture().text), (True, "one"), begin)
            live.feed(end + b"\rthree", lambda _: None)
            self.assertEqual((live.look.updating, live.picture().text[:5]), (False, "three"), end)
            live.close()

    def test_however_it_is_cut(self):
        data = b"".join(b"\x1b[?2026h\x1b[H%d\x1b[2H%d\x1b[?2026l" % (n, n) for n in range(9))
        for size in range(1, 40):
            live, seen = LiveScreen(2, 20), []
            for at in range(0, len(data), size):
                live.feed(data[at : at + size], seen.append)
                seen.append(live.picture())
            self.assertTrue(all(it.lines[0] == it.lines[1] for it in seen), size)
            self.assertEqual({it.lines[0] for it in seen}, {"", *"012345678"})
            live.close()

    def test_a_given_screen_never_changes(self):
        with python("import time\nfor n in range(100): print(n, flush=True); time.sleep(.03)") as terminal:
            screen = terminal.wait_for(re.compile("^9$"))
            text, cells = screen.text, screen.cells
            terminal.wait_for(re.compile("^40$"))
            self.assertEqual((screen.text, screen.cells), (text, cells))
            self.assertNotEqual(terminal.screen, screen)

    def test_a_moment_that_came_and_went_is_found(self):
        program = (
            "import time; input(); print('\\x1b[H\\x1b[2JSaving', flush=True); time.sleep(.5)\n"
            "print('\\x1b[H\\x1b[2JSaved'); input()"
        )
        with python(program) as terminal:
            terminal.type("\n")
            time.sleep(2)
            self.assertEqual(terminal.wait_for("Saving").row(0).text, "Saving")
            self.assertEqual(terminal.wait_for("Saved").row(0).text, "Saved")
            with self.assertRaises(WaitFailed):
                terminal.wait_for("Saving", 0.1)

    def test_an_update_that_the_program_leaves_open(self):
        with python("print('before', end='\\x1b[?2026h\\r', flush=True); print('half'); 1/0") as terminal:
            self.assertEqual(terminal.wait_for_exit(), 1)
            self.assertIn("ZeroDivisionError", terminal.screen)
        with python("print('before', end='\\x1b[?2026h\\rhalf', flush=True); input()") as terminal:
            terminal.wait_for("before")
            with self.assertRaisesRegex(WaitFailed, "synchronized update"):
                terminal.wait_for("half", 0.2)
            terminal.resize(5, 40)
            self.assertEqual(terminal.screen.row(0).text, "halfre")


class Pictures(unittest.TestCase):
    def test_cells_are_those_of_the_screen(self):
        chance = random.Random(7)
        for _ in range(300):
            rows, cols = chance.randint(1, 5), chance.randint(1, 12)
            data = "".join(chance.choice(PARTS) for _ in range(chance.randint(0, 40))).encode()
            with jeihpal.Screen(rows, cols) as screen:
                screen.process(data)
                look = screen.look()
                picture = picture_of(screen, look, "")
                self.assertEqual(picture.size, (look.rows, look.cols))
                for row in range(rows):
                    for mine, cell in zip(picture.cells[row], screen.cells(row)):
                        self.assertEqual((mine.text.strip(" "), mine.width), (cell.text.strip(" "), cell.width), data)
                self.assertEqual(read(written(picture)), picture, data)
                self.assertEqual(picture.difference(picture), "")

    def test_finding(self):
        screen = picture_after("one\r\n漢字 two\r\n  two\r\ne\u0301x".encode())
        self.assertEqual(screen.find("two"), (1, 5))
        self.assertEqual(screen.find_all(re.compile("t.o")), [(1, 5), (2, 2)])
        self.assertEqual(screen.find("x"), (3, 1))
        self.assertEqual(screen.find("字"), (1, 2))
        self.assertIsNone(screen.find("three"))
        self.assertIn("one\n漢字", screen)
        self.assertIn(re.compile("^one$"), screen)
        self.assertNotIn("three", screen)
        self.assertEqual(screen.row(2).text, "  two")
        self.assertEqual(screen.row(-1).index, 3)
        self.assertEqual(screen.text, "one\n漢字 two\n  two\ne\u0301x")
        self.assertEqual([len(row.cells) for row in screen.rows], [20] * 4)
        with self.assertRaises(IndexError):
            screen.row(4)
        with self.assertRaises(IndexError):
            screen.cell(0, 20)

    def test_colours_and_attributes_by_name(self):
        screen = picture_after(b"\x1b[1;4;31ma\x1b[m\x1b[94;48;5;200mb\x1b[m\x1b[38;2;1;2;3;7mc\x1b[m\x1b[2;3md")
        names = [str(screen.cell(0, col).style) for col in range(5)]
        self.assertEqual(
            names, ["bold underlined red", "bright-blue on color-200", "inverse #010203", "dim italic", "default"]
        )
        self.assertEqual(screen.cell(0, 0).attributes, {"bold", "underlined"})
        self.assertEqual((screen.cell(0, 1).foreground, screen.cell(0, 1).background), ("bright-blue", "color-200"))

    def test_regions(self):
        screen = picture_after("abcd\r\n漢字漢字\r\nijkl".encode(), 4, 8)
        part = screen.region(0, 1, 2, 4)
        self.assertEqual((part.size, part.lines), ((2, 4), ("bcd", " 字")))
        self.assertTrue(part.cursor.hidden)
        self.assertEqual(screen.region(2, 1, 1, 4).cursor.place, (0, 3))
        self.assertEqual(screen.region(0, 0, 4, 8), screen)
        self.assertNotEqual(screen.region(0, 0, 3, 8), screen)
        with self.assertRaises(IndexError):
            screen.region(3, 0, 2, 2)

    def test_differences(self):
        old = picture_after(b"one\r\n\x1b[31mtwo\x1b[m three")
        new = picture_after(b"one\r\n\x1b[32mtwo\x1b[m Three\x1b[?25l")
        told = [
            *("row 1", "- two three", "+ two Three", "      ^"),
            *("row 1, columns 0 to 2", "- red", "+ green"),
            *("cursor", "- 1 9", "+ 1 9 hidden"),
        ]
        self.assertEqual(old.difference(new).split("\n"), told)
        self.assertIn("size\n- 4 rows, 20 columns\n+ 5 rows, 20 columns", old.difference(picture_after(b"one", 5)))

    def test_svg(self):
        text = svg(picture_after("\x1b[1;31m<a> & b\x1b[m\x1b[7m漢\x1b[m\r\n\x1b[4m_".encode()))
        import xml.dom.minidom

        document = xml.dom.minidom.parseString(text)
        texts = ["".join(it.data for it in node.childNodes) for node in document.getElementsByTagName("text")]
        self.assertEqual(texts, ["<a> & b", "漢", "_"])


class KeptScreens(unittest.TestCase):
    def test_kept_then_compared(self):
        with tempfile.TemporaryDirectory() as folder:
            screen = picture_after(b"at 12:34:56 \x1b[31mred")
            with self.assertRaisesRegex(ScreenChanged, "no screen 'clock' is kept yet(.|\n)*at 12:34:56"):
                Snapshots(folder, False, "--update").check(screen, "clock")
            Snapshots(folder, True, "--update").check(screen, "clock", [re.compile(r"\d\d:\d\d:\d\d")])
            kept = Snapshots(folder, False, "--update")
            with open(kept.path("clock"), encoding="utf-8") as file:
                rows = ["|at ******** red", "|", "|", "|"]
                lines = ["screen of 4 rows and 20 columns", *rows, "cursor 0 15", "styles", "0 12-14 red", ""]
                self.assertEqual(file.read().split("\n"), lines)
            later = picture_after(b"at 23:45:07 \x1b[31mred")
            kept.check(later, "clock", [re.compile(r"\d\d:\d\d:\d\d")])
            kept.check(later, "clock", [(0, 3, 1, 8)])
            with self.assertRaises(ScreenChanged) as failure:
                kept.check(picture_after(b"at 23:45:07 \x1b[31mRed"), "clock", [(0, 3, 1, 8)])
            for line in ("- at ******** red", "+ at ******** Red", "              ^", "--update"):
                self.assertIn(line, str(failure.exception))
            with self.assertRaises(ValueError):
                kept.check(later, "../clock")

    def test_what_is_no_screen(self):
        for text in ("", "screen of 2 rows and 3 columns\n|\n", "screen of 1 rows and 3 columns\nab\n"):
            with self.assertRaises(ValueError):
                read(text)

    def test_masks(self):
        screen = picture_after("漢字 1 22".encode())
        self.assertEqual(masked(screen, (re.compile(r"\d+"), "字")).lines[0], "漢** * **")


class Programs(unittest.TestCase):
    def test_statuses(self):
        with python("raise SystemExit(3)") as terminal:
            self.assertEqual((terminal.wait_for_exit(), terminal.status), (3, 3))
        with python("import os; os.abort()") as terminal:
            self.assertEqual(terminal.wait_for_exit(), -signal.SIGABRT)
            self.assertIn("has ended by signal SIGABRT", repr(terminal))
        with python("import time; print('up', flush=True); time.sleep(99)") as terminal:
            terminal.wait_for("up")
            self.assertIsNone(terminal.status)
            terminal.press("Ctrl-C")
            self.assertEqual(terminal.wait_for_exit(), -signal.SIGINT)
        with python("import time; print('up', flush=True); time.sleep(99)") as terminal:
            terminal.wait_for("up")
            terminal.signal("term")
            self.assertEqual(terminal.wait_for_exit(), -signal.SIGTERM)

    def test_all_that_was_written_is_shown(self):
        for _ in range(20):
            with python("print('the end' * 3)") as terminal:
                self.assertEqual(terminal.wait_for_exit(), 0)
                self.assertEqual(terminal.screen.row(0).text, "the end" * 3)

    def test_no_such_program(self):
        with self.assertRaisesRegex(ProgramNotFound, "no program 'no-such'"):
            Terminal("no-such --option")
        with self.assertRaisesRegex(ProgramNotFound, "isn't executable"):
            Terminal([__file__])
        with self.assertRaises(NotADirectoryError):
            Terminal("true", cwd="/no/such/folder")
        with self.assertRaises(ValueError):
            Terminal("")
        with self.assertRaises(ValueError):
            Terminal("true", rows=0)
        with tempfile.TemporaryDirectory() as folder:
            path = os.path.join(folder, "no program")
            with open(path, "wb") as file:
                file.write(b"\x7fELF but not really")
            os.chmod(path, 0o755)
            with self.assertRaisesRegex(ProgramNotFound, "can't be run"):
                Terminal([path])

    def test_environment_and_folder(self):
        os.environ["JEIHPAL_OF_THE_TEST"] = "1"
        self.addCleanup(os.environ.pop, "JEIHPAL_OF_THE_TEST")
        names = "('TERM', 'NEW', 'JEIHPAL_OF_THE_TEST', 'LINES')"
        program = f"import os; print(os.getcwd(), *map(os.environ.get, {names}))"
        with tempfile.TemporaryDirectory() as folder:
            env = {"NEW": "a b", "JEIHPAL_OF_THE_TEST": None}
            with python(program, cwd=folder, env=env, cols=200) as terminal:
                terminal.wait_for(f"{os.path.realpath(folder)} xterm-256color a b None None")

    def test_it_is_a_terminal(self):
        program = (
            "import os, sys; print(*map(os.isatty, (0, 1, 2)), *os.get_terminal_size(), os.open('/dev/tty', 2) > 2)"
        )
        with python(program, rows=7, cols=50) as terminal:
            terminal.wait_for("True True True 50 7 True")

    def test_waits_that_fail(self):
        with python("import time; print('here', flush=True); time.sleep(99)") as terminal:
            terminal.wait_for("here")
            terminal.type("ab")
            begun = time.monotonic()
            with self.assertRaises(WaitFailed) as failure:
                terminal.wait_for("there", timeout=0.3)
            self.assertLess(time.monotonic() - begun, 3)
            told = str(failure.exception)
            for part in (
                "in vain for 'there', 0.3 s",
                "waits for something, and wrote last",
                "│here",
                "cursor 1 ",
                "type 'ab'",
            ):
                self.assertIn(part, told)
            self.assertIn("b'here\\r\\n", told)
            self.assertIn("here", failure.exception.screen)
            with self.assertRaisesRegex(WaitFailed, "the program's end"):
                terminal.wait_for_exit(0.1)
            with self.assertRaisesRegex(WaitFailed, "'here' to be gone"):
                terminal.wait_until_gone("here", 0.1)
        with python("print('here'); raise SystemExit(2)") as terminal:
            begun = time.monotonic()
            with self.assertRaisesRegex(WaitFailed, "the program has ended(.|\n)*with status 2(.|\n)*here"):
                terminal.wait_for("there", timeout=60)
            self.assertLess(time.monotonic() - begun, 30)

    def test_quiet(self):
        program = "import time\nfor n in range(5): print(n, flush=True); time.sleep(.1)\ninput()"
        with python(program, rows=9) as terminal:
            terminal.wait_for("0")
            self.assertIn("4", terminal.wait_until_quiet(0.4))
        with python("import time\nwhile True: print('x', flush=True); time.sleep(.01)") as terminal:
            with self.assertRaisesRegex(WaitFailed, "0.5 s without a byte"):
                terminal.wait_until_quiet(0.5, timeout=1)

    def test_a_busy_program_is_not_quiet(self):
        program = (
            "import time; end = time.time() + .6\nwhile time.time() < end: pass\nprint('done', flush=True); input()"
        )
        with python(program) as terminal:
            self.assertIn("done", terminal.wait_until_quiet(0.3))

    def test_much_is_sent(self):
        program = (
            "import sys, tty; tty.setraw(0); print('up', flush=True)\n"
            "print(len(sys.stdin.buffer.read(300000)), flush=True); input()"
        )
        with python(program) as terminal:
            terminal.wait_for("up")
            terminal.send(b"x" * 300000)
            terminal.wait_for("300000")

    def test_resizes(self):
        program = (
            "import os, signal, time\n"
            "signal.signal(28, lambda *_: print(*os.get_terminal_size(), flush=True)); print('up', flush=True)\n"
            "while True: time.sleep(9)"
        )
        with python(program) as terminal:
            terminal.wait_for("up")
            for rows, cols in ((10, 30), (3, 9), (60, 200)):
                terminal.resize(rows, cols)
                self.assertEqual(terminal.wait_for(f"{cols} {rows}").size, (rows, cols))
            with self.assertRaises(ValueError):
                terminal.resize(0, 10)

    def test_what_it_asks_for(self):
        program = "print('\\x1b]2;the title\\x07\\x07\\x07\\x1b]52;c;aGVsbG8=\\x07up', flush=True); input()"
        with python(program) as terminal:
            self.assertEqual(terminal.wait_for("up").title, "the title")
            self.assertEqual((terminal.title, terminal.bells, terminal.clipboard), ("the title", 2, "hello"))

    def test_clicks(self):
        program = (
            "import sys, tty; tty.setraw(0); print('\\x1b[?1000h\\x1b[?1006h\\x1b[3;5HOK', flush=True)\n"
            "print(ascii(sys.stdin.read(18)), flush=True); input()"
        )
        with python(program) as terminal:
            terminal.wait_for("OK")
            with self.assertRaisesRegex(ValueError, "isn't on the screen"):
                terminal.click("Cancel")
            terminal.click("OK")
            terminal.wait_for(r"'\x1b[<0;5;3M\x1b[<0;5;3m'")
        with python("print('OK', flush=True); input()") as terminal:
            terminal.wait_for("OK")
            with self.assertRaisesRegex(ValueError, "hasn't asked for mouse"):
                terminal.click((0, 0))

    def test_one_whose_children_keep_the_terminal(self):
        with Terminal(["sh", "-c", "trap '' HUP; sleep 30 & echo started"], rows=3, cols=30) as terminal:
            begun = time.monotonic()
            self.assertEqual(terminal.wait_for_exit(), 0)
            self.assertLess(time.monotonic() - begun, 10)
            self.assertIn("started", terminal.screen)

    def test_one_that_ignores_hangups_is_killed(self):
        program = "import signal, time; signal.signal(1, signal.SIG_IGN); print('up', flush=True); time.sleep(99)"
        with python(program) as terminal:
            terminal.wait_for("up")
        self.assertEqual(terminal.status, -signal.SIGKILL)
        self.assertIn("up", terminal.screen)
        with self.assertRaises(RuntimeError):
            terminal.resize(3, 3)

    def test_nothing_is_left(self):
        def files():
            return len(os.listdir("/proc/self/fd"))

        with python("input()"):
            pass
        before, threads = files(), threading.active_count()
        for _ in range(10):
            with python("print('up', flush=True); input()") as terminal:
                terminal.wait_for("up")
        self.assertEqual((files(), threading.active_count()), (before, threads))

    def test_many_at_once(self):
        terminals = [python(f"print({n} * 11, flush=True); input()") for n in range(1, 10)]
        for number, terminal in enumerate(terminals, 1):
            terminal.wait_for(str(number * 11))
            terminal.close()

    def test_recordings(self):
        with python("print('héllo', flush=True); input(); raise SystemExit(4)") as terminal:
            terminal.wait_for("héllo")
            terminal.resize(6, 50)
            terminal.mark("here")
            terminal.type("\n")
            terminal.wait_for_exit()
        head, *events = map(json.loads, terminal.recording().splitlines())
        self.assertEqual((head["version"], head["term"]["cols"], head["term"]["rows"]), (3, 40, 5))
        codes = [event[1] for event in events]
        self.assertEqual("".join(event[2] for event in events if event[1] == "o"), "héllo\r\n\r\n")
        self.assertEqual((codes[0], events[-1][1:]), ("o", ["x", "4"]))
        self.assertEqual([event[2] for event in events if event[1] in "rmi"], ["50x6", "here", "\r"])
        self.assertTrue(all(event[0] >= 0 for event in events))


class Descriptions(unittest.TestCase):
    def test_what_the_screen_does_not_know_is_not_said(self):
        folder = terminfo.fitting_terminfo()
        if not folder:
            self.skipTest("the system has no description of xterm-256color")
        program = (
            "import curses; curses.setupterm(); s = curses.tigetstr\n"
            "print([n for n in 'cbt smacs acsc smir hts blink cup kcbt'.split() if s(n)], curses.tigetnum('colors'))"
        )
        with python(program, cols=120) as terminal:
            terminal.wait_for("['cup', 'kcbt'] 256")

    def test_what_is_no_description(self):
        for data in (b"", b"\x1a\x01" + bytes(8), b"text of many letters", b"\x1a\x01\x01\0\x02\0\x03\0\xff\x7f\0\0"):
            with self.assertRaises(ValueError):
                terminfo.without_unknown(data)
