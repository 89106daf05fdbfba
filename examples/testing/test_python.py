"""Python's prompt."""

import sys


def test_python_prompt(terminal, tmp_path):
    env = {"HOME": str(tmp_path), "PYTHONSTARTUP": None, "PYTHON_BASIC_REPL": "1", "INPUTRC": "/dev/null"}
    python = terminal([sys.executable, "-q"], rows=12, cols=60, env=env)
    python.wait_for(">>>")
    python.type("def double(x):\n    return 2 * x\n\n")
    python.wait_for(lambda it: it.lines.count(">>>") == 1 and "... " in it.text)
    python.type("double(21)\n")
    python.wait_for(lambda it: "42" in it.lines)
    python.press("Up")
    python.wait_for(lambda it: it.row(it.cursor.row).text == ">>> double(21)")
    python.press("Home", "Right", "Right", "Delete", "Ctrl-K")
    python.wait_for(lambda it: it.row(it.cursor.row).text == ">>> do")
    python.press("Ctrl-C")
    python.wait_for("KeyboardInterrupt")
    python.press("Ctrl-D")
    assert python.wait_for_exit() == 0
