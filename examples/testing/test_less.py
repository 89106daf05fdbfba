"""less: pages, a search, and its highlights."""

import pytest


@pytest.mark.needs("less")
def test_less_pages_and_searches(terminal, assert_screen, tmp_path):
    (tmp_path / "numbers").write_text("".join(f"line {number}\n" for number in range(1, 101)))
    less = terminal("less numbers", rows=8, cols=40, cwd=tmp_path, env={"LESS": None, "LESSOPEN": None})
    screen = less.wait_for("line 7")
    assert screen.row(-1).text == "numbers"
    assert "inverse" in screen.cell(7, 0).attributes
    less.press("Space")
    assert less.wait_for("line 14").row(0).text == "line 8"
    less.press("Up", "Up")
    less.wait_for(lambda it: it.row(0).text == "line 6")
    less.type("/0$\n")
    screen = less.wait_for(lambda it: it.row(0).text == "line 10")
    assert "inverse" in screen.cell(0, 6).attributes
    assert_screen(less, "found")
    less.press("End", "G")
    less.wait_for("(END)")
    less.press("q")
    assert less.wait_for_exit() == 0
