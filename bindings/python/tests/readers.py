"""Very many watchers in a process of their own: python3 -m tests.readers KIND HOST PORT PATH COUNT SLOW KILLED SECONDS

KIND is pages or terminals. Of COUNT watchers SLOW read at most 2 KB a second until SECONDS have passed, and KILLED are
ended meanwhile. Pages that are cut off come back. Prints `open` once all are connected, and figures as JSON at the end.
"""

from __future__ import annotations

import json
import random
import re
import resource
import select
import socket
import sys
import time
from typing import Any

from jeihpal import View

SIZE = 24, 80
LAST = "the end"
_A_SECOND = 1000  # connections that are made in a second
_SLOW = 2048  # bytes of a slow one's read
_HEAD = re.compile(rb'data: \{"n":(\d+),"run":"(\w+)","t":(\d+),(?:"from":(\d+))?')
_ENDED = re.compile(rb"^event: ended$", re.M)
_END_OF_FRAME = b"\x1b[?2026l"


class Reader:
    """A watcher."""

    can_come_back = False

    def __init__(self, crowd: Crowd, is_slow: bool) -> None:
        self._crowd, self.is_slow = crowd, is_slow
        self.sock: socket.socket | None = None
        self.due = 0.0  # when a slow one reads again, or one that was cut off comes back

    def connect(self) -> None:
        """Connects, and sends its request."""
        self.sock = socket.socket()
        if self.is_slow:
            self.sock.setsockopt(socket.SOL_SOCKET, socket.SO_RCVBUF, 4096)
        self.sock.connect(self._crowd.place)
        if self._crowd.request:
            self.sock.sendall(self._crowd.request)
        self.sock.setblocking(False)

    def close(self) -> None:
        """Ends the connection."""
        if self.sock:
            self.sock.close()
            self.sock = None

    def take(self, data: bytes) -> None:
        """Takes what has come."""
        raise NotImplementedError

    def is_well(self) -> bool:
        """Whether it was shown all, up to the last screen."""
        raise NotImplementedError


class PageReader(Reader):
    """A page. It looks at the numbers of its messages."""

    can_come_back = True

    def __init__(self, crowd: Crowd, is_slow: bool) -> None:
        super().__init__(crowd, is_slow)
        self._rest, self._run, self.has, self.lost, self.has_ended = b"", b"", 0, 0, False

    def connect(self) -> None:
        self._rest, self.has = b"", 0
        super().connect()

    def take(self, data: bytes) -> None:
        *events, self._rest = (self._rest + data).replace(b"\r", b"").split(b"\n\n")
        for event in events:
            if found := _HEAD.search(event):
                self._take_message(*found.groups())
            elif _ENDED.search(event):
                self.has_ended, self.can_come_back = True, False

    def _take_message(self, number: bytes, run: bytes, made: bytes, since: bytes | None) -> None:
        if run == self._run and int(number) <= self.has:
            return
        if since and (run != self._run or int(since) != self.has):
            self.lost += 1
        self._run, self.has = run, int(number)
        self._crowd.messages += 1
        if not self.is_slow:
            self._crowd.late.append(time.time() - int(made) / 1e6)

    def is_well(self) -> bool:
        return self.has_ended and not self.lost and self.has == self._crowd.last


class TerminalReader(Reader):
    """A terminal. A view says what it shows."""

    def __init__(self, crowd: Crowd, is_slow: bool) -> None:
        super().__init__(crowd, is_slow)
        self._view = View(*SIZE)

    def take(self, data: bytes) -> None:
        self._view.advance(data)
        self._crowd.messages += data.count(_END_OF_FRAME)

    def is_well(self) -> bool:
        return self._view.text().strip() == LAST and not self._view.look().mouse


class Crowd:
    """All of them."""

    def __init__(self, kind: str, place: tuple[str, int], path: str, counts: list[int], seconds: float) -> None:
        count, slow, killed = counts
        self.place = place
        self.request = f"GET {path} HTTP/1.0\r\nHost: localhost\r\n\r\n".encode() if kind == "pages" else b""
        made = PageReader if kind == "pages" else TerminalReader
        self.readers: list[Any] = [made(self, at < slow) for at in range(count)]
        self._to_kill = random.Random(1).sample(self.readers[slow:], killed)
        self.killed: set[Reader] = set()
        self.messages, self.joins, self.late = 0, 0, []
        self.last = 0  # the number of the last message that any page has had
        self._begun, self._seconds = time.monotonic(), seconds
        self._poll = select.epoll()
        self._by_number: dict[int, Reader] = {}
        self._waiting: set[Reader] = set()  # slow ones between two reads, and those that come back

    @property
    def stayed(self) -> list[Any]:
        """Those that weren't killed."""
        return [it for it in self.readers if it not in self.killed]

    def connect(self) -> None:
        """Connects all, and reads meanwhile."""
        for at, reader in enumerate(self.readers):
            self._connect(reader)
            while at > (time.monotonic() - self._begun) * _A_SECOND:
                self._read(0.002)

    def _connect(self, reader: Reader) -> None:
        try:
            reader.connect()
        except OSError:
            return self._lose(reader)
        self.joins += 1
        assert reader.sock
        if reader.is_slow:
            self._wait(reader, 0)
        else:
            self._by_number[reader.sock.fileno()] = reader
            self._poll.register(reader.sock, select.EPOLLIN)

    def _wait(self, reader: Reader, seconds: float) -> None:
        reader.due = time.monotonic() + seconds
        self._waiting.add(reader)

    def _lose(self, reader: Reader) -> None:
        """Its connection has ended."""
        if reader.sock:
            self._by_number.pop(reader.sock.fileno(), None)
        reader.close()
        if reader.can_come_back and reader not in self.killed:
            self._wait(reader, 1 + random.random())

    def read_all(self) -> None:
        """Reads until all have come to their end, or it takes too long."""
        while self._by_number or self._waiting:
            now = time.monotonic() - self._begun
            if now > self._seconds + 60:
                return
            if self._to_kill and now > self._seconds / 2:
                self._kill(self._to_kill.pop())
            self._read(0.02)

    def _kill(self, reader: Reader) -> None:
        self.killed.add(reader)
        self._waiting.discard(reader)
        self._lose(reader)

    def _read(self, seconds: float) -> None:
        """Reads what comes, and from slow ones whose time it is."""
        for number, _ in self._poll.poll(seconds, 512):
            if number in self._by_number:
                self._read_one(self._by_number[number], 1 << 18)
        now = time.monotonic()
        pause = 1.0 if now - self._begun < self._seconds else 0.1
        for reader in [it for it in self._waiting if it.due <= now]:
            self._waiting.discard(reader)
            if not reader.sock:
                self._connect(reader)
            elif self._read_one(reader, _SLOW):
                self._wait(reader, pause)

    def _read_one(self, reader: Reader, most: int) -> bool:
        """Reads from one. Whether its connection goes on."""
        assert reader.sock
        try:
            data = reader.sock.recv(most)
        except BlockingIOError:
            return True
        except OSError:
            data = b""
        if data:
            reader.take(data)
        else:
            self._lose(reader)
        return bool(data)

    def figures(self) -> dict[str, Any]:
        """What came out."""
        self.last = max(getattr(it, "has", 0) for it in self.readers)
        late, wrong = sorted(self.late) or [0.0], [it for it in self.stayed if not it.is_well()]
        return {
            "watchers": len(self.readers),
            "slow": sum(it.is_slow for it in self.readers),
            "killed": len(self.killed),
            "joins": self.joins,
            "messages": self.messages,
            "lost": sum(getattr(it, "lost", 0) for it in self.readers),
            "wrong": len(wrong),
            "wrong and quick": sum(not it.is_slow for it in wrong),
            "median": round(1000 * late[len(late) // 2], 1),
            "99 of 100": round(1000 * late[len(late) * 99 // 100], 1),
            "processor": round(time.process_time(), 1),
        }


def main() -> None:
    kind, host, port, path, *numbers = sys.argv[1:]
    resource.setrlimit(resource.RLIMIT_NOFILE, (resource.getrlimit(resource.RLIMIT_NOFILE)[1],) * 2)
    crowd = Crowd(kind, (host, int(port)), path, [int(it) for it in numbers[:3]], float(numbers[3]))
    crowd.connect()
    print("open", flush=True)
    crowd.read_all()
    print(json.dumps(crowd.figures()), flush=True)


if __name__ == "__main__":
    main()
