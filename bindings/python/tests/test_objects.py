"""Hubs, views, screens and recordings."""

import copy
import ctypes
import doctest
import gc
import os
import pathlib
import signal
import threading
import unittest

import jeihpal
from jeihpal import Answer, Attributes, Encoding, Event, EventKind, Fault, FaultKind, Filter, Hub, Mouse
from jeihpal import NoRecording, NotOwed, Recording, RecordingKind, RequestKind, Rgb, Screen, Size, TooLarge
from jeihpal import UnknownClient, View, _library

EXAMPLES = pathlib.Path(__file__).resolve().parents[3] / "examples"


def carry(hub: Hub, client: int, view: View, piece: int) -> None:
    """Passes the bytes that wait for a client to a view, in pieces."""
    while owed := hub.owed(client, most=piece):
        view.advance(owed)
        hub.sent(client, len(owed))


class Hubs(unittest.TestCase):
    def test_a_frame_arrives(self):
        with Hub(1, 20) as hub, View(1, 20) as view:
            client = hub.attach()
            for line, want in ((b"[####      ]  40%", Answer.FULL), (b"\r[########  ]  80%", Answer.DIFFERENCE)):
                hub.feed(line)
                self.assertIs(hub.frame(client), want)
                self.assertIs(hub.frame(client), Answer.BEHIND)
                carry(hub, client, view, 5)
            self.assertIs(hub.frame(client), Answer.UNCHANGED)
            self.assertEqual((view.text(), hub.contents(), hub.row_text(0)), ("[########  ]  80%",) * 3)
            hub.detach(client)
            with self.assertRaises(UnknownClient):
                hub.frame(client)

    def test_a_late_terminal_goes_on(self):
        with Hub(1, 20) as hub, View(1, 20) as view:
            client = hub.attach()
            self.assertEqual(hub.redraw(client), b"")
            hub.feed(b"one")
            self.assertIs(hub.frame(client), Answer.FULL)
            hub.feed(b" two")
            view.advance(hub.redraw(client))
            self.assertEqual(view.text(), "one")
            fork = hub.fork(client)
            self.assertIs(hub.frame(fork), Answer.DIFFERENCE)
            carry(hub, fork, view, 5)
            self.assertEqual(view.text(), "one two")
            hub.detach(fork)
            for late in (hub.redraw, hub.fork):
                with self.assertRaises(UnknownClient):
                    late(fork)

    def test_a_whole_frame_turns_modes_off(self):
        with Hub(1, 20) as hub, View(1, 20) as view:
            client = hub.attach()
            self.assertEqual(hub.whole_frame(client), b"")
            hub.feed(b"one")
            hub.frame(client)
            hub.sent(client, len(hub.owed(client)))
            # After the start mark come xterm's private modes 9, 1000, 1002, 1003, 1005 and 1006, reset, and DECSCUSR 0.
            off = b"".join(b"\x1b[?%dl" % mode for mode in (9, 1000, 1002, 1003, 1005, 1006)) + b"\x1b[0 q"
            start, redraw = b"\x1b[?2026h", hub.redraw(client)
            self.assertEqual(hub.whole_frame(client), start + off + redraw[len(start) :])
            view.advance(b"\x1b[?1003h\x1b[?1005h\x1b[4 qother")
            view.advance(hub.whole_frame(client))
            look = view.look()
            self.assertEqual((view.text(), look.mouse, look.encoding, look.style), ("one", 0, 0, 0))
            hub.feed(b" two")
            self.assertIs(hub.frame(client), Answer.DIFFERENCE)
            carry(hub, client, view, 5)
            self.assertEqual(view.text(), "one two")
            hub.detach(client)
            with self.assertRaises(UnknownClient):
                hub.whole_frame(client)

    def test_a_frame_byte_for_byte(self):
        with Hub(1, 20) as hub:
            client = hub.attach()
            hub.feed(bytearray(b"hello"))
            hub.frame(client)
            want = b"\x1b[?2026h\x1b[?25h\x1b[m\x1b[H\x1b[Jhello\x1b>\x1b[?1l\x1b[?2004l\x1b[?2026l"
            self.assertEqual((hub.owed(client), hub.owed(client, most=3)), (want, want[:3]))

    def test_an_update_is_held(self):
        with Hub(2, 9) as hub:
            client = hub.attach()
            hub.feed(b"\x1b[?2026hx")
            self.assertIs(hub.frame(client), Answer.HELD)
            self.assertTrue(hub.look().updating)
            hub.resize(2, 9)
            self.assertIs(hub.frame(hub.attach()), Answer.FULL)

    def test_sizes_have_a_limit(self):
        for make in (Hub, View, Screen):
            with self.assertRaises(TooLarge):
                make(65535, 65535, most_cells=20)
            with self.assertRaises(TooLarge):
                make(3, 7, most_cells=20)
            with self.assertRaises(ValueError):
                make(3, 7, most_cells=-1)
        View(4, 5, most_cells=20).close()
        with Hub(4, 5, most_cells=20) as hub, Screen(4, 5, 1000, most_cells=20) as screen, screen.clone() as clone:
            for it in (hub, screen, clone):
                with self.assertRaises(TooLarge):
                    it.resize(3, 7)
                self.assertEqual(it.size, (4, 5))
                it.resize(20, 1)
                self.assertEqual(it.size, (20, 1))

    def test_a_large_frame(self):
        with Hub(200, 200) as hub, View(200, 200) as view:
            client = hub.attach()
            for row in range(200):
                hub.feed(f"\x1b[{row + 1};1H".encode() + b"".join(b"\x1b[%dmx" % (31 + k % 6) for k in range(200)))
            self.assertTrue(hub.frame(client).is_frame)
            self.assertGreater(len(hub.owed(client)), 200_000)
            view.advance(hub.owed(client))
            self.assertEqual(view.row_text(199), "x" * 200)

    def test_sessions(self):
        for name, rows in (("build", 12), ("editor", 8)):
            with self.subTest(name), Hub(rows, 40) as hub, View(rows, 40) as view:
                client, session = hub.attach(), (EXAMPLES / f"{name}.session").read_bytes()
                for at in range(0, len(session), 7):
                    hub.feed(session[at : at + 7])
                    hub.frame(client)
                    carry(hub, client, view, 11)
                self.assertEqual(view.text() + "\n", (EXAMPLES / f"{name}.screen").read_text(encoding="utf-8"))


class Views(unittest.TestCase):
    def test_cells(self):
        with View(2, 9) as view:
            view.advance(b"\x1b[1;3;38;5;9;48;2;1;2;3m\xe7\xb1\xb3\x1b[m\x1b[?1003;1006h\x1b[4 q")
            wide, half, empty = view.cells(0)[:3]
            self.assertEqual((wide.text, wide.width, wide.foreground, wide.background), ("米", 2, 9, Rgb(1, 2, 3)))
            self.assertEqual(wide.attributes, Attributes.BOLD | Attributes.ITALIC)
            self.assertEqual((half.text, half.width, empty.text, empty.width), ("", 0, "", 1))
            self.assertEqual((view.cell(0, 0), len(view.cells(1))), (wide, 9))
            look = view.look()
            self.assertEqual((look.rows, look.cols, look.row, look.col, look.style), (2, 9, 0, 2, 4))
            self.assertEqual((look.mouse, look.encoding), (Mouse.ANY_MOTION, Encoding.SGR))
            for place in ((2, 0), (0, 9), (-1, 0), (0, 1 << 16)):
                with self.assertRaises(IndexError):
                    view.cell(*place)

    def test_what_is_held_back(self):
        with View(1, 9) as view:
            view.advance(b"\x1b[?2026hnow")
            self.assertEqual((view.text(), view.held() > 0), ("", True))
            view.stop()
            self.assertEqual((view.text(), view.held()), ("now", 0))


class Screens(unittest.TestCase):
    def test_texts(self):
        with Screen(24, 80) as screen:
            screen.process(b"this text is \x1b[31mRED\x1b[m")
            self.assertEqual(screen.contents_formatted(), b"\x1b[?25h\x1b[m\x1b[H\x1b[Jthis text is \x1b[31mRED\x1b[m")
            self.assertEqual(screen.difference(), screen.state())
            screen.mark()
            screen.process(b"\x1b[3D\x1b[32mGREEN")
            self.assertEqual(screen.contents(), "this text is GREEN")
            self.assertEqual(screen.difference(), b"\x1b[1;14H\x1b[32mGREEN")
            self.assertEqual(screen.contents_between((0, 5), (0, 9)), "text")

    def test_scrollback(self):
        with Screen(2, 5, scrollback=3) as screen:
            screen.process(b"a\r\nb\r\nc\r\nd")
            screen.scroll(9)
            self.assertEqual((screen.look().kept, screen.look().scrolled, screen.contents()), (2, 2, "a\nb"))
            screen.resize(3, 4)
            self.assertEqual(screen.look()[2:4], (3, 4))

    def test_requests(self):
        with Screen(2, 5) as screen:
            screen.process(b"\a\x1b[8;30;90t\x1b]2;title\a\x1b]52;cp;aGk=\a")
            bell, resize, title, copied = screen.requests()
            self.assertEqual((bell.kind, resize.kind, resize.rows, resize.cols), (RequestKind.BELL, 3, 30, 90))
            self.assertEqual((title.kind, title.text), (RequestKind.TITLE, b"title"))
            self.assertEqual((copied.kind, copied.clipboards, copied.text), (RequestKind.COPY, b"cp", b"aGk="))
            self.assertEqual(list(screen.requests()), [])
            self.assertEqual(screen.dropped_requests, 0)

    def test_a_queue_is_bounded(self):
        with Screen(2, 5) as screen:
            name = b"x" * 1021
            screen.process(b"\x1b]2;" + name + b"\a" * 258)
            self.assertEqual(next(screen.requests()).text, name)
            self.assertEqual(screen.dropped_requests, 2)
            self.assertEqual(len(list(screen.requests())), 255)

    def test_no_text_is_cut(self):
        with Screen(2, 5) as screen:
            for count in (1021, 1022, 1023, 1024, 9999):
                screen.process(b"\x1b]2;%s\a\x1b]52;c;%s\a" % (b"x" * count, b"y" * (count - 1)))
            lengths = [len(request.clipboards + request.text) for request in screen.requests()]
            self.assertEqual((lengths, screen.dropped_requests), ([1021, 1021], 8))

    def test_what_is_told(self):
        with Screen(2, 5) as screen:
            screen.process(b"\x00\x1b[?5i")
            self.assertEqual(list(screen.requests()), [])
            screen.tell(unhandled=True, rows=True)
            screen.process(b"\x00\x1b#8\x1b[?1;2:3i\x1b]9;a\a\xff\x1b[31ma\r\nb\r\n")
            told = [(request.kind, request.clipboards, request.text) for request in screen.requests()]
            self.assertEqual(
                told,
                [
                    (RequestKind.UNHANDLED_CONTROL, b"", b"\x00"),
                    (RequestKind.UNHANDLED_ESCAPE, b"#", b"8"),
                    (RequestKind.UNHANDLED_CSI, b"?", b"1;2:3i"),
                    (RequestKind.UNHANDLED_OSC, b"", b"9;a"),
                    (RequestKind.UNHANDLED_CHAR, b"", "\ufffd".encode()),
                    (RequestKind.ROW, b"", b"\x1b[31ma\n"),
                ],
            )

    def test_rows_wait_without_a_bound(self):
        with Screen(2, 5) as screen:
            screen.tell(rows=True)
            screen.process(b"\a" * 300 + b"\n" * 3000)
            kinds = [request.kind for request in screen.requests()]
            self.assertEqual((kinds.count(RequestKind.ROW), screen.dropped_requests), (2999, 44))


class Reading(unittest.TestCase):
    """The expected escape sequences are those of the Rust crate vt100."""

    def test_rows(self):
        with Screen(2, 4) as screen:
            screen.process("\x1b[1;31ma米\x1b[mbcd".encode())
            first, second = screen.cells()
            self.assertEqual((first.wrapped, second.wrapped), (True, False))
            self.assertEqual([cell.text for cell in first.cells], ["a", "米", "", "b"])
            self.assertEqual([cell.width for cell in first.cells], [1, 2, 0, 1])
            self.assertEqual(first.cells, tuple(screen.cell(0, col) for col in range(4)))
            self.assertEqual((screen.cells(1), screen.row(1)), (list(second.cells), second))
            self.assertEqual(screen.display, ["a米b", "cd  "])
            for row in (2, -1, 70000):
                with self.assertRaises(IndexError):
                    screen.row(row)

    def test_each_cell_of_rows(self):
        """Rows of one style and of several, whose texts are one byte and more."""
        lines = ["", "plain", "\x1b[1;7;34mbold", "a\x1b[31mb\x1b[m", "米", "e\u0301 ", "x\x1b[48;2;1;2;3m\x1b[K"]
        for cols in (1, 3, 4, 5, 11):
            with Screen(2 * len(lines), cols) as screen:
                screen.process("".join(f"\x1b[{2 * row + 1}H\x1b[m{line}" for row, line in enumerate(lines)).encode())
                for number, row in enumerate(screen.cells()):
                    self.assertEqual(row.cells, tuple(screen.cell(number, col) for col in range(cols)))

    def test_rows_of_hubs_and_views(self):
        with Hub(2, 5) as hub, View(2, 5) as view:
            for read in (hub.feed, view.advance):
                read(b"\x1b[44mabcdefg")
            self.assertEqual(hub.cells(), view.cells())
            self.assertTrue(hub.row(0).wrapped)
            self.assertEqual(view.display, ["abcde", "fg   "])

    def test_parts(self):
        with Screen(3, 5, scrollback=10) as screen:
            screen.process(b"abcdefg\r\n\x1b[1;31mred\x1b[?2004h\x1b[4m")
            self.assertEqual(screen.attributes_formatted(), b"\x1b[m\x1b[31;1;4m")
            self.assertEqual(screen.input_mode_formatted(), b"\x1b>\x1b[?1l\x1b[?2004h")
            self.assertEqual(screen.cursor_state_formatted(), b"\x1b[?25h\x1b[3;4H")
            self.assertEqual(screen.rows_formatted(), [b"abcde", b"fg", b"\x1b[31;1mred"])
            self.assertEqual(screen.contents_formatted_basic(), b"abcdefg\n\x1b[31;1mred")
            self.assertEqual(screen.drawing, (1, None, Attributes.BOLD | Attributes.UNDERLINED))

    def test_clones_of_what_is_shown(self):
        with Screen(2, 5, scrollback=10) as screen:
            screen.process(b"a\r\nb\r\nc\r\nd")
            bottom = screen.clone_visible()
            screen.scroll(1)
            shown, fresh = screen.clone_visible(), Screen(2, 5)
            self.assertEqual((shown.look().kept, shown.look().scrolled), (0, 0))
            fresh.process(bottom.state())
            self.assertEqual(fresh.contents(), "c\nd")
            fresh.process(shown.difference(bottom))
            self.assertEqual(fresh.contents(), screen.contents())

    def test_clones(self):
        with Screen(3, 5, scrollback=10) as screen:
            screen.process(b"abcdefg\r\n\x1b[1;31mred\x1b[?2004h\x1b[4m\x1b]2;t\a")
            before, copied = screen.clone(), copy.copy(screen)
            screen.process(b"\x1b[m\x1b[1;2Hx\x1b[?2004l")
            self.assertEqual(screen.contents_difference(before), b"\x1b[1;2H\x1b[mx")
            self.assertEqual(screen.difference(before), b"\x1b[1;2H\x1b[mx\x1b[?2004l")
            self.assertEqual(screen.input_mode_difference(before), b"\x1b[?2004l")
            self.assertEqual(screen.rows_difference(before), [b"\x1b[Cx", b"", b""])
            self.assertEqual((screen.difference(screen), screen.rows_difference(screen)), (b"", [b"", b"", b""]))
            self.assertEqual((copied.contents(), list(copied.requests())), (before.contents(), []))
            self.assertEqual((copied.title, screen.title), ("t", "t"))
            before.close()
            with self.assertRaises(ValueError):
                screen.difference(before)
            copied.close()

    def test_a_long_text(self):
        with Screen(100, 200) as screen:
            screen.process(b"x" * 20000)
            self.assertEqual(len(screen.contents()), 20000)
            self.assertEqual(sum(map(len, screen.rows_formatted(0, 200))), 20000)

    def test_as_users_expect(self):
        with Screen(3, 9) as screen:
            screen.process(b"a\x1b]2;one\a\x1b]1;icon\a\x1b[?25l\x1b[?1002h\x1b]2;two\a\a")
            self.assertEqual((screen.title, screen.icon_name, screen.size), ("two", "icon", (3, 9)))
            self.assertEqual((screen.cursor.x, screen.cursor.y, screen.cursor.hidden), (1, 0, True))
            self.assertEqual(screen.modes.mouse, Mouse.BUTTON_MOTION)
            kinds = [request.kind for request in screen.requests()]
            self.assertEqual(kinds, [5, 4, 5, 1])

    def test_dirty(self):
        with Screen(4, 9) as screen:
            self.assertEqual(screen.dirty, {0, 1, 2, 3})
            screen.clean()
            self.assertEqual(screen.dirty, set())
            screen.process(b"\x1b[2;1Hx\x1b[4;1H\x1b[41m\x1b[K")
            self.assertEqual(screen.dirty, {1, 3})
            screen.resize(4, 8)
            self.assertEqual(screen.dirty, {0, 1, 2, 3})

    def test_history(self):
        with Screen(2, 5, scrollback=3) as screen:
            screen.process(b"a\r\nb\r\nc\r\nd\r\ne\r\nf")
            screen.scroll(1)
            self.assertEqual(len(screen.history), 3)
            self.assertEqual([screen.history.text(number) for number in (0, 1, -1)], ["b", "c", "d"])
            self.assertEqual([row.text for row in screen.history], ["b    ", "c    ", "d    "])
            self.assertEqual((screen.look().scrolled, screen.contents()), (1, "d\ne"))
            with self.assertRaises(IndexError):
                screen.history[3]
            screen.clear_scrollback()
            self.assertEqual(len(screen.history), 0)

    def test_answers(self):
        with Screen(3, 9) as screen:
            self.assertEqual(screen.answer(b"ab\x1b[6nc\x1b["), b"\x1b[1;3R")
            self.assertEqual(screen.answer(b"6n\x1b[5n"), b"\x1b[1;4R\x1b[0n")
            self.assertEqual(screen.answer(b"\x1b[c\r\nx"), b"\x1b[?62;22c")
            self.assertEqual(screen.contents(), "abc\nx")


class Refusals(unittest.TestCase):
    def test_sizes_and_counts(self):
        for size in ((0, 1), (1, 0), (70000, 1), (1, -1)):
            with self.subTest(size), self.assertRaises(ValueError):
                Hub(*size)
        with Hub(1, 1) as hub:
            client = hub.attach()
            with self.assertRaises(NotOwed):
                hub.sent(client, 1)
            with self.assertRaises(ValueError):
                hub.sent(client, -1)
            for wrong in ("text", None, 3):
                with self.assertRaises(TypeError):
                    hub.feed(wrong)

    def test_closed(self):
        hub = Hub(1, 1)
        hub.close()
        hub.close()
        with self.assertRaises(ValueError):
            hub.attach()

    def test_a_cast_is_refused(self):
        with View(1, 1) as view:
            self.assertEqual(_library.library.jeihpal_hub_feed(view._word, b"x", 1), -2)

    def test_no_copies(self):
        with Hub(1, 1) as hub, self.assertRaises(TypeError):
            copy.copy(hub)

    def test_a_screen_on_any_thread(self):
        with Screen(3, 20) as screen:

            def use():
                for _ in range(500):
                    screen.process(b"x\r")
                    self.assertEqual(screen.row_text(0), "x")
                    self.assertEqual(screen.cells()[0].cells[0].text, "x")
                    self.assertEqual(screen.clone().contents(), "x")

            threads = [threading.Thread(target=use) for _ in range(4)]
            for thread in threads:
                thread.start()
            for thread in threads:
                thread.join()
            self.assertEqual(screen.contents(), "x")

    def test_a_hub_on_any_thread(self):
        """Threads with a client each ask one hub for frames, and one more client shares what these are of."""
        shown, made = [], []
        with Hub(3, 20) as hub:
            made.append(hub.attach())

            def use(letter):
                with View(3, 20) as view:
                    client = hub.attach()
                    for time in range(200):
                        hub.feed(f"\x1b[H{letter}{time % 10}".encode())
                        for it in (client, made[0]):
                            hub.frame(it)
                        carry(hub, client, view, 100)
                        shown.append(view.row_text(0))
                    hub.detach(client)

            threads = [threading.Thread(target=use, args=(letter,)) for letter in "abcd"]
            for thread in threads:
                thread.start()
            for thread in threads:
                thread.join()
            self.assertEqual(len(shown), 800)
            self.assertEqual([it for it in shown if len(it) != 2 or it[0] not in "abcd"], [])
            on_another_thread(hub.close)
            self.assertRaises(ValueError, hub.attach)

    def test_a_signal_in_the_midst_of_a_text(self):
        """A handler that reads the same object leaves the interrupted call's text alone."""
        with Screen(24, 80) as screen:
            screen.process(b"\r\n".join(b"%d" % row * 30 for row in range(24)))
            whole, row, seen = screen.contents(), screen.row_text(2), []
            before = signal.signal(signal.SIGALRM, lambda *_: seen.append(screen.row_text(2)))
            signal.setitimer(signal.ITIMER_REAL, 0.0005, 0.0005)
            try:
                wrong = sum(screen.contents() != whole for _ in range(20000))
            finally:
                signal.setitimer(signal.ITIMER_REAL, 0)
                signal.signal(signal.SIGALRM, before)
            self.assertEqual((wrong, set(seen)), (0, {row}))

    def test_threads_with_an_object_each(self):
        def use(letter, said):
            with Hub(3, 20) as hub, View(3, 20) as view:
                client = hub.attach()
                for time in range(300):
                    hub.feed(f"\x1b[H{letter}{time}".encode())
                    hub.frame(client)
                    carry(hub, client, view, 100)
                said.append(view.row_text(0))

        said = []
        threads = [threading.Thread(target=use, args=(letter, said)) for letter in "ab"]
        for thread in threads:
            thread.start()
        for thread in threads:
            thread.join()
        self.assertEqual(sorted(said), ["a299", "b299"])

    def test_what_is_let_go_is_freed(self):
        before = memory()
        for _ in range(300):
            View(100, 100)
            gc.collect(0)
        for _ in range(300):
            box = [Hub(100, 100), View(100, 100), Screen(100, 100)]
            on_another_thread(box.clear)
        self.assertLess(memory() - before, 100 << 20)


THEME = b'{"fg": "#010203", "bg": "#ffffff", "palette": "%s"}' % b":".join(b"#0000%02x" % n for n in range(16))
CAST = b"""{"version": 3, "term": {"cols": 80, "rows": 24, "theme": %s}}
[0.5, "o", "hi\\r\\n"]
[0.25, "r", "90x30"]
[1, "m", "here"]
[1, "i", "q"]
none
""" % THEME


class Recordings(unittest.TestCase):
    def test_an_asciicast(self):
        with Recording(CAST) as recording:
            self.assertEqual((recording.kind, recording.size), (RecordingKind.ASCIICAST, Size(24, 80)))
            self.assertEqual((recording.length, recording.fault), (2750000, Fault(FaultKind.LINE, 6)))
            self.assertEqual(recording.most_cells, 30 * 90)
            want = [
                Event(500000, EventKind.OUTPUT, b"hi\r\n", None),
                Event(750000, EventKind.RESIZE, b"", Size(30, 90)),
                Event(1750000, EventKind.MARKER, b"here", None),
            ]
            self.assertEqual((list(recording), len(recording), recording[-1]), (want, 3, want[2]))
            self.assertEqual(recording.colors, [0x010203, 0xFFFFFF, *range(16)])
            for index in (3, -4):
                with self.assertRaises(IndexError):
                    recording[index]

    def test_a_screen_at_each_event(self):
        with Recording(CAST) as recording, Screen(*recording.size) as screen:
            shown = []
            for event in recording:
                if event.kind == EventKind.OUTPUT:
                    screen.process(event.data)
                elif event.kind == EventKind.RESIZE:
                    screen.resize(*event.size)
                shown.append((screen.size, screen.row_text(0)))
            self.assertEqual(shown, [((24, 80), "hi"), ((30, 90), "hi"), ((30, 90), "hi")])

    def test_a_screen_at_a_time(self):
        with Recording(CAST) as recording:
            for time, size, text in ((499999, (24, 80), ""), (500000, (24, 80), "hi"), (9**9, (30, 90), "hi")):
                with recording.screen_at(time) as screen:
                    self.assertEqual((screen.size, screen.row_text(0)), (size, text))
        with Recording(b"raw") as recording:
            for size, shown in ((None, (24, 80)), (Size(2, 5), (2, 5))):
                with recording.screen_at(0, size) as screen:
                    self.assertEqual((screen.size, screen.row_text(0)), (shown, "raw"))

    def test_other_kinds(self):
        ttyrec = (5).to_bytes(4, "little") + bytes(4) + (2).to_bytes(4, "little") + b"ab"
        with Recording(ttyrec + b"cut") as recording:
            self.assertEqual((recording.kind, recording.size), (RecordingKind.TTYREC, None))
            self.assertEqual(recording.fault, Fault(FaultKind.BYTE, 14))
            self.assertEqual([it.data for it in recording], [b"ab"])
        with Recording(b"began\nabc", timing=b"0.25 2\n0.5 9\n") as recording:
            self.assertEqual((recording.kind, recording[0].time), (RecordingKind.TYPESCRIPT, 250000))
            self.assertEqual((recording[0].data, recording.fault), (b"ab", Fault(FaultKind.STEP, 2)))
        with Recording(b"x" * 5000) as recording:
            self.assertEqual((recording.kind, recording[0].data), (RecordingKind.RAW, b"x" * 5000))
        with Recording(b"") as recording:
            self.assertEqual((recording[0].data, recording.colors), (b"", []))

    def test_none(self):
        for data in (b'{"version": 1}\n', b"\x1f\x8b"):
            with self.assertRaises(NoRecording):
                Recording(data)

    def test_on_another_thread(self):
        seen, recording = [], Recording(b"x")
        on_another_thread(lambda: seen.append(recording[0].data))
        on_another_thread(recording.close)
        self.assertEqual(seen, [b"x"])
        self.assertRaises(ValueError, lambda: recording[0])


class Filters(unittest.TestCase):
    def test_pieces(self):
        with Filter() as lines:
            given = [lines.drawn(it) for it in (b"\x1b(", b"0l", b"", b"x" * 5000, bytearray(b"k\x1b(Bq"))]
        drawn = ["\x1b(", "0┌", "", "│" * 5000, "┐\x1b(Bq"]
        self.assertEqual([it.decode() for it in given], drawn)
        self.assertRaises(ValueError, lines.drawn, b"q")

    def test_hubs_and_screens_that_draw_lines(self):
        with Hub(1, 9, draws_lines=True) as hub, Screen(1, 9, draws_lines=True) as screen, Hub(1, 9) as letters:
            for piece in (b"\x1b(", b"0lq", b"k"):
                hub.feed(piece)
                letters.feed(piece)
                screen.process(piece)
            self.assertEqual((hub.contents(), screen.contents(), letters.contents()), ("┌─┐", "┌─┐", "lqk"))
            with screen.clone() as copy:
                copy.process(b"q\x1b(0q")
                self.assertEqual(copy.contents(), "┌─┐q─")


class Declarations(unittest.TestCase):
    def test_docs(self):
        self.assertEqual(doctest.testmod(jeihpal).failed, 0)

    def test_the_page(self):
        page = pathlib.Path(__file__).parents[3] / "docs" / "PYTHON.md"
        said = doctest.testfile(str(page), module_relative=False)
        self.assertEqual(said.failed, 0)
        self.assertGreater(said.attempted, 20)

    def test_a_number_without_a_name(self):
        for kind in (Answer, Mouse, Encoding, RequestKind):
            unknown = kind(99)
            self.assertEqual((unknown, unknown.name, kind(99) is unknown), (99, "UNKNOWN_99", True))
        self.assertTrue(Answer(99).is_frame)

    def test_sizes(self):
        """The structs are as the C compiler has them: the file that JEIHPAL_SIZES names says how."""
        path = os.environ.get("JEIHPAL_SIZES")
        if not path:
            self.skipTest("JEIHPAL_SIZES isn't set")
        structs = {
            "hub": _library.Word,
            "color": _library.RawColor,
            "cell": _library.RawCell,
            "drawing": _library.RawDrawing,
            "look": _library.RawLook,
            "request": _library.RawRequest,
            "recorded": _library.RawRecorded,
            "event": _library.RawEvent,
        }
        said = []
        for name, struct in structs.items():
            said.append(f"{name} {ctypes.sizeof(struct)}")
            if name != "hub":
                for field, *_ in struct._fields_:
                    at = getattr(struct, field)
                    said.append(f"{name}.{field} {at.offset} {at.size}")
        self.assertEqual(said, pathlib.Path(path).read_text(encoding="ascii").splitlines())


def on_another_thread(work):
    thread = threading.Thread(target=work)
    thread.start()
    thread.join()


def memory() -> int:
    """How many bytes of memory this process has."""
    with open("/proc/self/statm", encoding="ascii") as file:
        return int(file.read().split()[1]) * os.sysconf("SC_PAGESIZE")


if __name__ == "__main__":
    unittest.main()
