"""share with as many watchers as the machine carries: python3 -m tests.crowds [PAGES TERMINALS]

Without numbers 5,000 pages and 1,000 terminals, and fewer where there are fewer descriptors or processors. A tenth of
the pages reads through nginx, where that is installed, and it is started again in mid-stream. Of the pages one of fifty
is slow, of the terminals one of five, and some are killed. The command draws ten moments a second and floods the screen
meanwhile. It fails where a message is lost, or where one that stayed wasn't shown the last screen.
"""

from __future__ import annotations

import contextlib
import json
import os
import pty
import resource
import subprocess
import sys
import threading
import time
from typing import Any

from .nginx import Nginx, has
from .sharing import PYTHON, Shared, Watching, processor_seconds
from .test_page import Page

DRAWING = r"""
import os, select, sys, time, tty
tty.setraw(0)
begun = time.monotonic(); seconds = %f; n = keys = 0; flooded = False
def write(text):
    data = text.encode()
    while data: data = data[os.write(1, data):]
while (now := time.monotonic() - begun) < seconds:
    if select.select([0], [], [], max(0, n / 10 - now))[0]:
        keys += len(os.read(0, 100)); write(f"\x1b[24H\x1b[Kkeys {keys}")
    elif not flooded and now > seconds / 2:
        flooded = True
        while time.monotonic() - begun < seconds / 2 + 2: write("0123456789" * 7 + "\r\n")
        write("\x1b[H\x1b[2J"); n = int((seconds / 2 + 2) * 10)
    else:
        bar = f"cpu {n * 7 %% 100}%% " * 3 + "#" * (n * 3 %% 40) + "\x1b[K"
        rows = (f"\x1b[{(n * 6 + k) %% 22 + 1}H\x1b[3{(n + k) %% 7 + 1}m{n:6d}\x1b[m {bar}" for k in range(6))
        write("\x1b[?1000" + "hl"[n // 7 %% 2] + "".join(rows))
        n += 1
write("\x1b[?1000l\x1b[m\x1b[H\x1b[2Jthe end"); time.sleep(.5)
"""
FLOOD = 4.0  # seconds from its begin on, in which no keys are typed
A_WHILE = 8.0  # seconds that an answer may take


class SharedHere(Shared):
    """share in a terminal, where keys can be typed."""

    def _start(self, words: list[str]) -> subprocess.Popen[bytes]:
        self.keys, there = pty.openpty()
        said = subprocess.PIPE
        run = subprocess.Popen(words, cwd=PYTHON, stdin=there, stdout=there, stderr=said, env=self.ENVIRONMENT)
        os.close(there)
        threading.Thread(target=self._discard, daemon=True).start()
        return run

    def _discard(self) -> None:
        with contextlib.suppress(OSError):
            while os.read(self.keys, 65536):
                pass


class Readers:
    """Watchers in a process of their own."""

    def __init__(self, kind: str, place: tuple[str, int], path: str, *numbers: float) -> None:
        words = [sys.executable, "-m", "tests.readers", kind, place[0], str(place[1]), path, *map(str, numbers)]
        self._run = subprocess.Popen(words, cwd=PYTHON, stdout=subprocess.PIPE, env=Shared.ENVIRONMENT)

    def wait_until_open(self) -> None:
        """Waits until all are connected."""
        assert self._run.stdout
        if self._run.stdout.readline() != b"open\n":
            sys.exit("the watchers didn't connect")

    def figures(self) -> dict[str, Any]:
        """What came out."""
        assert self._run.stdout
        return json.loads(self._run.stdout.readline())

    def close(self) -> None:
        """Ends them."""
        assert self._run.stdout
        self._run.kill()
        self._run.wait()
        self._run.stdout.close()


class Keys:
    """Keys that are typed at share, and when a terminal and a page show what they have done."""

    def __init__(self, shared: SharedHere) -> None:
        self._shared, self._typed = shared, 0
        self._terminal, self._page = Watching(shared), Page(shared)
        self.seconds: dict[str, list[float]] = {"terminal": [], "page": []}

    def type(self) -> None:
        """Types a key, and waits until it is shown."""
        self._typed += 1
        text, begun = f"keys {self._typed}", time.monotonic()
        waiting = threading.Thread(target=self._read_page, args=(text, begun))
        waiting.start()
        os.write(self._shared.keys, b"k")
        self._terminal.read_until(text, A_WHILE)
        self.seconds["terminal"].append(time.monotonic() - begun)
        waiting.join()

    def _read_page(self, text: str, begun: float) -> None:
        self._page.read_until(text)
        self.seconds["page"].append(time.monotonic() - begun)

    def last_screens(self) -> list[str]:
        """What both show at the end."""
        self._terminal.read_all()
        while self._page.read():
            pass
        shown = [self._terminal.view.text().strip(), "\n".join(self._page.rows).strip()]
        self._terminal.__exit__()
        self._page.sock.close()
        return shown

    def figures(self) -> str:
        """The median and 99 of 100."""
        told = []
        for who, seconds in self.seconds.items():
            ordered = sorted(seconds) or [0.0]
            middle, most = ordered[len(ordered) // 2], ordered[len(ordered) * 99 // 100]
            told.append(f"{who} {1000 * middle:.0f} ms, 99 of 100 {1000 * most:.0f} ms")
        return f"a key to a {', to a '.join(told)} ({len(seconds)} keys)"


def sizes() -> tuple[int, int]:
    """How many pages and terminals this machine is asked to carry."""
    descriptors = resource.getrlimit(resource.RLIMIT_NOFILE)[1]
    part = min(1.0, (descriptors - 200) / 7000, (os.cpu_count() or 1) / 4)
    return max(50, int(5000 * part)), max(20, int(1000 * part))


def door(pages: int) -> Nginx | None:
    """nginx with nchan, where it is installed. Its limits for one address are lifted, and nothing is encrypted."""
    if not has("nchan"):
        return None
    limits = {"limit_conn watchers 50": f"limit_conn watchers {pages + 100}", "rate=20r/s": "rate=5000r/s"}
    limits.update({"burst=40": "burst=5000", "if ($may_watch = 0)": "if ($screen = 0)"})
    return Nginx("nginx.conf", is_plain=True, **limits)


def typed_meanwhile(shared: SharedHere, keys: Keys, begun: float, seconds: float, nginx: Nginx | None) -> float:
    """Types keys until shortly before the end, and starts nginx again. Returns the part of a core that share took."""
    parts, is_restarted = [], False
    while (now := time.monotonic() - begun) < seconds - 3:
        if nginx and not is_restarted and now > 0.75 * seconds:
            is_restarted = True
            nginx.stop()
            nginx.start()
        if seconds / 2 - 1 < now < seconds / 2 + FLOOD:
            time.sleep(0.2)
            continue
        before, at = processor_seconds(shared.run.pid), time.monotonic()
        keys.type()
        time.sleep(0.35)
        parts.append((processor_seconds(shared.run.pid) - before) / (time.monotonic() - at))
    return sum(parts) / max(1, len(parts))


def told(name: str, figures: dict[str, Any]) -> bool:
    """Prints figures. Returns whether all is well."""
    print(f"{figures['watchers']} {name}, {figures['slow']} slow ones, {figures['killed']} killed:", end=" ")
    print(f"{figures['messages']} messages, {figures['joins']} joins, {figures['lost']} lost,", end=" ")
    print(f"{figures['wrong']} not shown the last screen, their own processor {figures['processor']} s")
    if figures["99 of 100"]:
        print(f"  from a moment to a quick page {figures['median']} ms, 99 of 100 {figures['99 of 100']} ms")
    return not figures["lost"] and not figures["wrong"]


def crowd(pages: int, terminals: int) -> bool:
    """Runs this many watchers to the end. Returns whether all is well."""
    seconds = 30 + pages / 200
    options = ["--listen", "127.0.0.1:0", "--http", "127.0.0.1:0", "--rate", "10"]
    options += ["--browsers", str(pages + 10), "--terminals", str(terminals + 10)]
    with contextlib.ExitStack() as stack:
        nginx = door(pages)
        if nginx:
            stack.enter_context(nginx).start()
            options += ["--publish", f"{nginx.folder}/pub.sock", "--as", "crowd"]
        begun = time.monotonic()
        shared = stack.enter_context(SharedHere(DRAWING % seconds, *options))
        far = pages // 10 if nginx else 0
        kinds = {"pages": (shared.place("browsers"), "/events", pages - far, pages // 50, pages // 50)}
        kinds["terminals"] = (shared.place(), "-", terminals, terminals // 5, terminals // 20)
        if nginx:
            kinds["pages through nginx"] = (("127.0.0.1", nginx.port), "/crowd/events", far, 0, far // 50)
        readers = {name: Readers(name.split()[0], *numbers, seconds) for name, numbers in kinds.items()}
        for it in readers.values():
            stack.callback(it.close)
        for it in readers.values():
            it.wait_until_open()
        print(f"all open after {time.monotonic() - begun:.0f} s of {seconds:.0f} s")
        keys = Keys(shared)
        part = typed_meanwhile(shared, keys, begun, seconds, nginx)
        memory = shared.memory()
        last = keys.last_screens()
        is_well = [told(name, it.figures()) for name, it in readers.items()]
        status = shared.end()
        print(f"share: {100 * part:.0f} % of a core, memory at most {memory >> 20} MB, status {status}")
        print(keys.figures())
    return all(is_well) and last == ["the end", "the end"] and not status and "Traceback" not in shared.said


def main() -> None:
    pages, terminals = map(int, sys.argv[1:]) if sys.argv[1:] else sizes()
    if not crowd(pages, terminals):
        sys.exit("something was lost")


if __name__ == "__main__":
    main()
