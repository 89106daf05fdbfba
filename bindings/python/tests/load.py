"""share under load: 200 watchers, of which half read slowly and some are killed, and commands that flood.

python3 -m tests.load prints figures, within some four minutes. It fails where a watcher that stayed doesn't show the
last screen, or where what a flood wrote waits in memory.
"""

from __future__ import annotations

import contextlib
import random
import selectors
import sys
import time
from collections import deque

from .sharing import Shared, Watching, processor_seconds

DRAWING = r"""
import sys, time
end = time.monotonic() + 8
n = 0
while time.monotonic() < end:
    rows = (f"\x1b[{31 + (n + row) % 6}m" + f"{n} " * 12 for row in range(23))
    sys.stdout.write("\x1b[H" + "\r\n".join(rows)); sys.stdout.flush()
    n += 1; time.sleep(.02)
sys.stdout.write("\x1b[m\x1b[H\x1b[2Jthe end"); sys.stdout.flush(); time.sleep(.5)
"""
PAUSE = 0.15  # seconds between the reads of a slow watcher
MOST_WAITING = 24 << 20  # bytes of memory that a flood may add
FLOOD = "import os\nline = b'0123456789' * 7 + b'\\r\\n'\nfor n in range(%d): os.write(1, line * 56)\nprint('the end')"


class Crowd:
    """Watchers: every other one reads at most 2 KB each 150 ms, and some are killed as they go."""

    def __init__(self, shared: Shared, count: int) -> None:
        self.watchers = [Watching(shared, room=4096 if n % 2 else None) for n in range(count)]
        self.slow = set(self.watchers[1::2])
        self.killed: set[Watching] = set()
        self.left = lambda: None
        self._open = set(self.watchers)
        self._pausing: deque[tuple[float, Watching]] = deque()
        self._random = random.Random(1)
        self._selector = selectors.DefaultSelector()
        for watcher in self.watchers:
            watcher.sock.setblocking(False)
            self._selector.register(watcher.sock, selectors.EVENT_READ, watcher)

    def kill(self) -> None:
        """Kills a watcher, in the middle of a frame or not."""
        watcher = self._random.choice(sorted(self._open, key=self.watchers.index))
        if watcher.sock in self._selector.get_map():
            self._selector.unregister(watcher.sock)
        self._leave(watcher)
        self.killed.add(watcher)
        watcher.sock.close()

    def _leave(self, watcher: Watching) -> None:
        self._open.discard(watcher)
        self.left()

    def read(self, to_kill: int, seconds: float) -> None:
        """Reads until all have come to their end, and kills `to_kill` of them on the way."""
        begun = time.monotonic()
        while self._open:
            now = time.monotonic()
            if now - begun > seconds:
                sys.exit(f"{len(self._open)} haven't come to their end in {seconds:.0f} s")
            if len(self.killed) < to_kill and now - begun > 1 + 0.1 * len(self.killed):
                self.kill()
            self._wake(now)
            for key, _ in self._selector.select(0.02):
                self._read_one(key.data, now)

    def _wake(self, now: float) -> None:
        """The slow ones whose pause is over read again."""
        while self._pausing and self._pausing[0][0] <= now:
            _, watcher = self._pausing.popleft()
            if watcher in self._open:
                self._selector.register(watcher.sock, selectors.EVENT_READ, watcher)

    def _read_one(self, watcher: Watching, now: float) -> None:
        try:
            data = watcher.sock.recv(2048 if watcher in self.slow else 65536)
        except BlockingIOError:
            return
        except ConnectionResetError:
            data = b""
        watcher.view.advance(data)
        watcher.data += data
        if not data or watcher in self.slow:
            self._selector.unregister(watcher.sock)
        if not data:
            self._leave(watcher)
        elif watcher in self.slow:
            self._pausing.append((now + PAUSE, watcher))

    def close(self) -> None:
        """Ends them all."""
        self._selector.close()
        for watcher in self.watchers:
            watcher.__exit__()


def crowd(count: int, to_kill: int) -> None:
    """Runs this many watchers of a screen that changes all the time."""
    with Shared(DRAWING) as shared:
        watching, seen = Crowd(shared, count), [0.0, 0]

        def left() -> None:
            with contextlib.suppress(OSError, TypeError):  # it may have ended
                seen[:] = processor_seconds(shared.run.pid), shared.memory()

        watching.left = left
        watching.read(to_kill, 90)
        status = shared.end()
        stayed = [it for it in watching.watchers if it not in watching.killed]
        wrong = [it for it in stayed if it.view.text().strip() != "the end"]
        quick = [it.frames() for it in stayed if it not in watching.slow]
        slow = [it.frames() for it in stayed if it in watching.slow]
        watching.close()
    print(f"{count} watchers, {len(slow)} slow ones, {len(watching.killed)} killed: status {status}")
    print(f"frames of a quick one {min(quick)} to {max(quick)}, of a slow one {min(slow)} to {max(slow)}")
    print(f"processor {seen[0]:.1f} s in 9 s, memory at most {seen[1] >> 20} MB")
    if wrong or status:
        sys.exit(f"{len(wrong)} of {len(stayed)} don't show the last screen")


def flood(pieces: int, watchers: int) -> None:
    """A command that writes 4 KB pieces as fast as it can, for at most a minute."""
    with Shared(FLOOD % pieces) as shared:
        watching = [Watching(shared, room=4096) for _ in range(watchers)]
        begun, before, most = time.monotonic(), shared.memory(), 0
        last = Watching(shared)
        while last.read(30):
            with contextlib.suppress(OSError, TypeError):  # it may have ended
                most = max(most, shared.memory())
            if time.monotonic() - begun > 60:
                sys.exit("a flood doesn't come to its end in 60 s")
        seconds = time.monotonic() - begun
        shown = last.view.text()
        for watcher in (*watching, last):
            watcher.__exit__()
        shared.end()
    megabytes = pieces * 56 * 72 / 1e6
    print(f"a flood of {megabytes:.0f} MB, {watchers} watchers that read nothing: {megabytes / seconds:.1f} MB/s, ", end="")
    print(f"{most >> 20} MB of memory, {before >> 20} MB before")
    if "the end" not in shown:
        sys.exit("the last screen isn't shown")
    if most > before + MOST_WAITING:
        sys.exit("what it wrote waits in memory")


def main() -> None:
    crowd(200, 40)
    flood(12000, 0)
    flood(12000, 50)


if __name__ == "__main__":
    main()
