"""vim: a file is changed, searched and saved."""

import re

import pytest


@pytest.mark.needs("vim")
def test_vim_edits_a_file(terminal, assert_screen, tmp_path):
    (tmp_path / "list.txt").write_text("milk\nbread\n")
    vim = terminal("vim -u NONE -N -n -i NONE list.txt", rows=10, cols=50, cwd=tmp_path)
    vim.wait_for(re.compile(r'"list.txt" 2L'))
    vim.type("Gobutter")
    vim.wait_for("-- INSERT --")
    vim.press("Esc")
    vim.wait_until_gone("-- INSERT --")
    vim.type("gg/bread\n")
    screen = vim.wait_for(lambda it: "/bread" in it and it.cursor.row == 1)
    assert screen.row(2).text == "butter"
    assert screen.cell(3, 0).foreground == "bright-blue"  # the ~ below the text
    vim.type(":w\n")
    vim.wait_for("written")
    assert_screen(vim, "written")
    vim.type(":q\n")
    assert vim.wait_for_exit() == 0
    assert (tmp_path / "list.txt").read_text() == "milk\nbread\nbutter\n"
