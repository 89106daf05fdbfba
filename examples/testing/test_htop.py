"""htop, or top where that isn't installed: a screen that always changes."""

import re

import pytest


@pytest.mark.needs("htop")
def test_htop_shows_processes_and_its_setup(terminal, tmp_path):
    htop = terminal("htop", rows=30, cols=100, env={"HTOPRC": str(tmp_path / "htoprc")})
    screen = htop.wait_for(re.compile(r"PID\b.*\bCommand"))
    head = screen.find("PID")
    assert head and screen.cell(*head).background in ("green", "cyan")
    assert re.search(r"F1\s*Help", screen.row(-1).text)
    htop.press("F2")
    htop.wait_for("Display options")
    htop.press("F10")
    htop.wait_until_gone("Display options")
    htop.press("q")
    assert htop.wait_for_exit() == 0


@pytest.mark.needs("top")
def test_top_follows_its_keys(terminal, tmp_path):
    top = terminal("top -d 60", rows=24, cols=80, env={"HOME": str(tmp_path)})
    screen = top.wait_for(re.compile(r"PID USER"))
    head = screen.find("PID USER")
    assert head and "inverse" in screen.cell(*head).attributes
    top.press("t")  # one key at a time: top forgets what is typed while it draws
    top.wait_for(lambda it: "[" in it.row(2).text)
    top.press("m")
    top.wait_for(lambda it: "[" in it.row(3).text)
    top.press("h")
    top.wait_for("Help for Interactive Commands")
    top.press("q")
    top.wait_for("PID USER")
    top.press("q")
    assert top.wait_for_exit() == 0
