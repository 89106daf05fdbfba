"""Tests that fail, for what they say. docs/TESTING.md has it; with `--check FILE` it is compared with that."""

import re
import sys
import tempfile

from jeihpal.testing import Snapshots, Terminal

COLOURS = r"print('\x1b[32m[####  ]\x1b[m 40%', flush=True); input()"


def a_wait_that_fails():
    with Terminal("sh -c 'echo compiling; exec sleep 60'", rows=4, cols=40) as terminal:
        terminal.wait_for("compiling")
        terminal.press("Enter")
        terminal.wait_for("done", timeout=1)


def a_program_that_crashes():
    with Terminal("sh -c 'echo reading; kill -SEGV $$'", rows=4, cols=40) as terminal:
        terminal.wait_for("done")


def a_program_that_hangs():
    with Terminal("sleep 60", rows=4, cols=40) as terminal:
        terminal.press("q")
        terminal.wait_for_exit(timeout=1)


def a_program_that_is_not_there():
    Terminal("vmi README.md")


def a_key_that_is_none():
    with Terminal("cat", rows=4, cols=40) as terminal:
        terminal.press("Entr")


def a_screen_that_has_changed():
    with tempfile.TemporaryDirectory() as folder:
        for is_kept, text in ((True, COLOURS), (False, COLOURS.replace("32m", "31m").replace("4", "5"))):
            with Terminal([sys.executable, "-c", text], rows=4, cols=40) as terminal:
                screen = terminal.wait_for("%")
                Snapshots(folder, is_kept, "pytest --update-screens").check(screen, "bar")


def told():
    """What each of them says, by its name."""
    tests = [it for name, it in sorted(globals().items()) if name.startswith("a_")]
    for test in tests:
        try:
            test()
        except Exception as error:
            name, text = type(error).__name__, re.sub(r"/tmp/\w+/", "screens/test_bar/", str(error))
            yield test.__name__, f"{name}: {text}"
        else:
            raise AssertionError(f"{test.__name__} doesn't fail")


def same(text):
    """A text without the times in it."""
    return re.sub(r"\d+\.\d+ s", "0.0 s", text)


def main():
    if sys.argv[1:2] == ["--check"]:
        with open(sys.argv[2], encoding="utf-8") as file:
            page = same(file.read())
        for name, text in told():
            if same(text) not in page:
                sys.exit(f"{sys.argv[2]} doesn't have what {name} says:\n{text}")
        return
    for name, text in told():
        print(f"{name}\n\n```text\n{text}\n```\n")


if __name__ == "__main__":
    main()
