"""A program whose terminal gets another size."""

import sys

import pytest

SIZES = r"""
import os, signal
def draw(*_):
    size = os.get_terminal_size()
    bar = "+" + (size.columns - 2) * "-" + "+"
    middle = "|" + f"{size.lines} x {size.columns}".center(size.columns - 2) + "|"
    rows = [bar, *(size.lines - 2) * [middle], bar]
    print("\x1b[2J\x1b[H" + "\r\n".join(rows), end="", flush=True)
signal.signal(signal.SIGWINCH, draw)
draw()
while True:
    signal.pause()
"""


def test_a_program_draws_to_each_size(terminal):
    program = terminal([sys.executable, "-c", SIZES], rows=5, cols=20)
    for rows, cols in ((5, 20), (10, 40), (3, 12), (24, 80), (60, 200)):
        if program.screen.size != (rows, cols):
            program.resize(rows, cols)
        screen = program.wait_for(lambda it: f"{rows} x {cols}" in it and it.row(-1).text.endswith("-+"))
        assert screen.size == (rows, cols)
        assert screen.row(0).text == screen.row(-1).text == "+" + (cols - 2) * "-" + "+"
        assert len(screen.find_all(f"{rows} x {cols}")) == rows - 2
    program.signal("TERM")
    assert program.wait_for_exit() == -15


@pytest.mark.needs("less")
def test_less_goes_on_in_another_size(terminal, tmp_path):
    (tmp_path / "numbers").write_text("".join(f"line {number}\n" for number in range(1, 101)))
    less = terminal("less numbers", rows=6, cols=30, cwd=tmp_path, env={"LESS": None})
    less.wait_for("line 5")
    less.resize(12, 40)
    less.wait_for("line 11")
    less.resize(4, 20)
    less.wait_for(lambda it: it.row(2).text == "line 3" and it.row(3).text == ":")
    less.press("q")
    assert less.wait_for_exit() == 0
