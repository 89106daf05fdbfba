"""Programs that write a great deal."""


def test_the_end_of_a_flood_is_right(terminal):
    flood = terminal("seq 300000", rows=10, cols=40)
    assert flood.wait_for_exit(timeout=60) == 0
    assert flood.screen.lines == tuple(str(number) for number in range(299992, 300001)) + ("",)


def test_a_flood_is_stopped(terminal):
    flood = terminal("yes to all", rows=10, cols=40)
    screen = flood.wait_for(lambda it: it.lines[:9] == 9 * ("to all",))
    flood.press("Ctrl-C")
    assert flood.wait_for_exit(timeout=60) == -2
    assert screen.lines[:9] == 9 * ("to all",), "a screen that was given never changes"
