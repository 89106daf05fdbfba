"""bash with a prompt that draws itself anew."""

import pytest

PROMPT = r"\[\e7\e[8;31H\e[7m$COLUMNS cols\e[m\e8\]\[\e[32m\]\w\[\e[m\]> "


def bash(terminal, folder, cols=40):
    (folder / "rc").write_text(f"PS1='{PROMPT}'\nPROMPT_COMMAND='printf \"\\r\\e[K\"'\nshopt -s checkwinsize\n")
    env = {"HOME": str(folder), "INPUTRC": "/dev/null", "HISTFILE": None, "PROMPT_COMMAND": None}
    return terminal("bash --rcfile rc -i", rows=8, cols=cols, cwd=folder, env=env)


@pytest.mark.needs("bash")
def test_bash_redraws_its_prompt(terminal, tmp_path):
    shell = bash(terminal, tmp_path)
    screen = shell.wait_for(lambda it: "~>" in it and it.cursor.col == 3)
    assert screen.cell(0, 0).foreground == "green"
    shell.type("echo a long line that goes on in the next row")
    shell.wait_for(lambda it: it.cursor.row == 1)
    shell.press("Ctrl-A")
    shell.wait_for(lambda it: it.cursor.place == (0, 3))
    shell.press("Ctrl-K")
    shell.wait_for(lambda it: it.row(0).text.startswith("~>") and not it.row(1).text)
    shell.type("echo {1..3}\n")
    shell.wait_for("1 2 3")
    shell.press("Ctrl-R")
    shell.type("ech")
    shell.wait_for("(reverse-i-search)`ech': echo {1..3}")
    shell.press("Ctrl-G")
    shell.wait_until_gone("reverse-i-search")
    shell.press("Ctrl-L")
    shell.wait_for(lambda it: it.row(0).text.startswith("~>") and not it.row(1).text)
    shell.press("Ctrl-D")
    assert shell.wait_for_exit() == 0
