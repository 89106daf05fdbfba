"""A tree of shares: python3 -m tests.tree [BELOW TERMINALS]

One share draws, and each of BELOW others has a terminal of it as its command. Each of these has TERMINALS watchers, of
which one of ten is slow, and some are killed. Without numbers there are ten others with 100 watchers. The top one draws
ten moments a second and floods the screen meanwhile. It fails where one that stayed wasn't shown the last screen.
"""

from __future__ import annotations

import contextlib
import sys
import time

from .crowds import DRAWING, Readers, told
from .sharing import Shared, processor_seconds

SECONDS = 20.0
# What one below has as its command.
TERMINAL = "import os; os.execvp('socat', ['socat', '-u', 'tcp:%s:%d', '-'])"


def below(top: Shared, terminals: int) -> Shared:
    """A share that shows what the one at the top shows."""
    return Shared(TERMINAL % top.place(), "--listen", "127.0.0.1:0", "--terminals", str(terminals + 10))


def figures(tops: list[Shared], begun: list[float], seconds: float) -> str:
    """What parts of a core the shares took, and their memory."""
    parts = [(processor_seconds(it.run.pid) - at) / seconds for it, at in zip(tops, begun)]
    memory = max(it.memory() for it in tops) >> 20
    said = f"the top: {100 * parts[0]:.0f} % of a core, all below: {100 * sum(parts[1:]):.0f} %"
    return f"{said}, memory at most {memory} MB"


def tree(count: int, terminals: int) -> bool:
    """Runs this many shares below one. Returns whether all is well."""
    with contextlib.ExitStack() as stack:
        top = stack.enter_context(Shared(DRAWING % SECONDS, "--listen", "127.0.0.1:0"))
        shares = [top, *(stack.enter_context(below(top, terminals)) for _ in range(count))]
        numbers = (terminals, terminals // 10, terminals // 20, SECONDS)
        readers = [Readers("terminals", it.place(), "-", *numbers) for it in shares[1:]]
        for it in readers:
            stack.callback(it.close)
        for it in readers:
            it.wait_until_open()
        begun, at = time.monotonic(), [processor_seconds(it.run.pid) for it in shares]
        time.sleep(SECONDS / 2)
        print(figures(shares, at, time.monotonic() - begun))
        is_well = [told(f"terminals below {n}", it.figures()) for n, it in enumerate(readers, 1)]
        statuses = [it.end() for it in shares]
    return all(is_well) and not any(statuses) and not any("Traceback" in it.said for it in shares)


def main() -> None:
    count, terminals = map(int, sys.argv[1:]) if sys.argv[1:] else (10, 100)
    if not tree(count, terminals):
        sys.exit("something was lost")


if __name__ == "__main__":
    main()
