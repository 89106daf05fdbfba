"""A program that marks its updates (private mode 2026): none is seen half drawn."""

import sys

CLOCK = r"""
import sys, time
for number in range(100):
    sys.stdout.write("\x1b[?2026h\x1b[H\x1b[2J")
    for row in range(6):
        sys.stdout.write(f"\x1b[{row + 1};1H{number:3} {row}")
        sys.stdout.flush()
        time.sleep(0.001 * (number % 4))
    sys.stdout.write("\x1b[?2026l")
    sys.stdout.flush()
input()
"""


def is_whole(screen):
    """All rows are of one update."""
    return len({line[:3] for line in screen.lines if line}) <= 1 and (not screen.text or all(screen.lines[:6]))


def test_no_update_is_seen_half_drawn(terminal):
    clock = terminal([sys.executable, "-c", CLOCK], rows=6, cols=20)
    seen = []

    def is_last(screen):
        seen.append(screen)
        return screen.row(0).text == " 99 0"

    clock.wait_for(is_last)
    assert all(map(is_whole, seen))
    numbers = [int(screen.row(0).text[:3]) for screen in seen if screen.text]
    assert sorted(set(numbers)) == list(range(100)), "each update is seen"
    clock.press("Enter")
    assert clock.wait_for_exit() == 0


def test_an_update_that_is_not_ended_is_not_shown(terminal):
    program = r"print('before', end='\x1b[?2026h\r half', flush=True); input()"
    half = terminal([sys.executable, "-c", program], rows=3, cols=20)
    screen = half.wait_for("before")
    half.wait_until_gone("nothing")
    assert half.screen == screen
    half.press("Enter")
    assert half.wait_for_exit() == 0
