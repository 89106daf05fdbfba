"""tmux: two panes, each with a shell."""

import pytest


@pytest.mark.needs("tmux")
def test_tmux_splits(terminal, tmp_path):
    (tmp_path / "conf").write_text("set -g default-command 'PS1=\"$ \" exec sh'\n")
    env = {"TMUX_TMPDIR": str(tmp_path), "ENV": None}
    tmux = terminal("tmux -f conf new-session -s work", rows=12, cols=60, env=env, cwd=tmp_path)
    screen = tmux.wait_for("[work]")
    assert screen.cell(11, 0).style.background == "green"
    tmux.wait_for(lambda it: it.row(0).text == "$")
    tmux.type("echo one\n")
    tmux.wait_for(lambda it: it.row(1).text == "one")
    tmux.press("Ctrl-b", "%")
    screen = tmux.wait_for(lambda it: it.find("│") and it.row(0).text.endswith("$"))
    right = screen.find("│").col + 1
    tmux.type("echo two\n")
    tmux.wait_for(lambda it: it.region(0, right, 11, 60 - right).row(1).text == "two")
    screen = tmux.screen
    assert screen.region(0, 0, 11, right - 1).row(1).text == "one"
    tmux.press("Ctrl-b", ":")
    tmux.wait_for(lambda it: it.row(11).text == ":")
    tmux.type("kill-server\n")
    assert tmux.wait_for_exit() in (0, 1)
    assert "exited" in tmux.screen or "lost" in tmux.screen
