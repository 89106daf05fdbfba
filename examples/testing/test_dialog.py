"""dialog: a menu in a box."""

import pytest


@pytest.mark.needs("dialog")
def test_dialog_menu(terminal, assert_screen, tmp_path):
    command = ["dialog", "--no-shadow", "--output-fd", "3", "--menu", "Choose one", "12", "40", "3"]
    choices = ["a", "first", "b", "second", "c", "third"]
    shell = ["sh", "-c", '"$@" 3>chosen', "sh", *command, *choices]
    dialog = terminal(shell, rows=14, cols=50, cwd=tmp_path, env={"DIALOGRC": None})
    screen = dialog.wait_for("Cancel")
    box = screen.find("┌")
    assert box and screen.row(box.row).text.strip() == "┌" + 38 * "─" + "┐"
    dialog.press("Down", "Down")
    dialog.wait_for(lambda it: it.cell(*it.find("third")).background == "blue")
    assert_screen(dialog, "third")
    dialog.press("Enter")
    assert dialog.wait_for_exit() == 0
    assert (tmp_path / "chosen").read_text() == "c"


@pytest.mark.needs("dialog")
def test_dialog_by_mouse(terminal, tmp_path):
    dialog = terminal('dialog --yesno "Go on?" 7 30', rows=12, cols=40, env={"DIALOGRC": None})
    dialog.wait_for("No")
    dialog.click("No")
    assert dialog.wait_for_exit() == 1
