"""fzf: a picker that asks its terminal where the cursor is."""

import pytest


@pytest.mark.needs("fzf")
def test_fzf_filters(terminal, tmp_path):
    (tmp_path / "fruits").write_text("apple\nbanana\ncherry\ndate\n")
    env = {"FZF_DEFAULT_OPTS": None}
    fzf = terminal(["sh", "-c", "fzf --height 8 < fruits > chosen"], rows=12, cols=40, cwd=tmp_path, env=env)
    fzf.wait_for("4/4")
    fzf.type("an")
    screen = fzf.wait_for("1/4")
    assert "banana" in screen and "cherry" not in screen
    fzf.press("Enter")
    assert fzf.wait_for_exit() == 0
    assert (tmp_path / "chosen").read_text() == "banana\n"
