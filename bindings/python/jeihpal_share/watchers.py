"""Watchers: terminals that are connected by a socket."""

from __future__ import annotations

import asyncio
import contextlib
import os
import re
import socket
import stat
import time
from typing import Callable

from jeihpal import Answer

from .connections import Connection, Crowd, Door, bid_farewell
from .notices import Notices
from .screen import SharedScreen
from .tokens import Token

TOKEN_SECONDS = 10.0  # seconds that a connection may take to send the token
_MOST_LINE = 256  # most bytes of the line with the token
MOST_SENT = 16384  # bytes that a watcher may send in a second, as reports of the mouse; they are thrown away
_LEAVES = (b"\x03", b"\x04")  # Ctrl-C and Ctrl-D
# Mouse, paste, keypad and cursor keys as in a fresh terminal, a visible cursor, and no colours.
_FAREWELL = b"\x1b[?9;1000;1002;1003;1005;1006;2004;1l\x1b>\x1b[?25h\x1b[m"


class Watcher(Connection):
    """A terminal that watches."""

    def __init__(self, loop: asyncio.AbstractEventLoop, sock: socket.socket, watchers: Watchers) -> None:
        super().__init__(loop, sock, watchers)
        self._watchers = watchers
        self._second, self._sent = 0, 0

    def heard(self, data: bytes) -> None:
        """Throws away what a watcher sends, except keys by which it leaves."""
        if any(key in data for key in _LEAVES):
            return self._watchers.leave(self, _FAREWELL)
        second = int(time.monotonic())
        self._sent = len(data) + (self._sent if second == self._second else 0)
        self._second = second
        if self._sent > MOST_SENT:
            self._watchers.notices.say("a watcher was refused: it sends too much")
            self._watchers.leave(self, _FAREWELL + b"\r\nshare: watchers can't type\r\n")


class Watchers(Crowd):
    """All terminals, at one listening socket. The frames of one client of the hub go to each that is level.

    A terminal that joins, or isn't level any more, begins with this client's whole frame: it leads to where the others
    are.
    """

    def __init__(self, screen: SharedScreen, most: int, token: Token, notices: Notices) -> None:
        super().__init__()
        self._loop, self._screen, self._most, self.notices = screen.loop, screen, most, notices
        self._token = token
        self._tasks: set[asyncio.Task[None] | None] = set()  # of those that haven't sent the token yet
        self._client: int | None = None
        self._whole = b""  # the client's whole frame, if one was needed since its last frame
        self._is_current = False  # the client was asked for a frame when the screen was shown last
        self._door: Door | None = None
        screen.add(self)

    def listen(self, listener: socket.socket) -> None:
        """Takes connections from now on."""
        self._door = Door(self._loop, listener, self._take, self.notices)

    def _take(self, sock: socket.socket) -> None:
        if len(self) + len(self._tasks) >= self._most:
            self.notices.say(f"a watcher was refused: there are {self._most}")
            return bid_farewell(sock, b"share: there are too many watchers\r\n")
        if not self._token.is_wanted:
            return self.add(Watcher(self._loop, sock, self))
        task = self._loop.create_task(self._ask(sock))
        self._tasks.add(task)
        task.add_done_callback(self._tasks.discard)

    async def _ask(self, sock: socket.socket) -> None:
        """Takes a connection whose first line is the token."""
        line = b""
        with contextlib.suppress(OSError, asyncio.TimeoutError):
            line = await asyncio.wait_for(self._first_line(sock), TOKEN_SECONDS)
        self._tasks.discard(asyncio.current_task())  # it counts as a watcher from now on
        if self._token.is_known(line):
            return self.add(Watcher(self._loop, sock, self))
        self.notices.say("a watcher was refused: its first line isn't the token")
        bid_farewell(sock, b"share: the first line must be the token\r\n")

    async def _first_line(self, sock: socket.socket) -> bytes:
        """What a connection says before it sends a line's end, which may be a terminal's key."""
        data = b""
        while not re.search(rb"[\r\n]", data) and len(data) < _MOST_LINE:
            more = await self._loop.sock_recv(sock, _MOST_LINE)
            if not more:
                return b""
            data += more
        return re.split(rb"[\r\n]", data)[0]

    def show(self) -> None:
        """Sends the next frame to each that is level, and the whole frame to each other that can take it."""
        self._is_current = len(self) > 0
        if not self._is_current:
            return
        self._try(self._send_frame)
        if self.is_lead_wanted:
            self._try(self._make_whole)
        if self._whole:
            self.lift()

    def _try(self, make: Callable[[], None]) -> None:
        """Makes a frame, or says why there is none."""
        try:
            make()
        except MemoryError:
            self.notices.say("out of memory: a frame was left out")
            self._begin_anew()
        except OverflowError:
            self.notices.say("a frame was left out: it would be longer than 2 MB")

    def _send_frame(self) -> None:
        """Sends the shared client's next frame, if there is one. Raises OverflowError for one that is too long."""
        hub = self._screen.hub
        if self._client is None:
            self._client = hub.attach()
        answer = hub.frame(self._client)
        if answer is Answer.TOO_LONG:
            raise OverflowError
        if answer.is_frame:
            frame = hub.owed(self._client)
            hub.sent(self._client, len(frame))
            self._whole = b""
            self.give(frame)

    def _make_whole(self) -> None:
        """Makes what draws on any terminal what the shared client has been sent. Raises OverflowError as above."""
        if self._client is None or self._whole:
            return
        whole = self._screen.hub.whole_frame(self._client)
        if whole is None:
            raise OverflowError
        self._whole = whole

    def _begin_anew(self) -> None:
        """Attaches another client in place of the shared one."""
        if self._client is not None:
            self._screen.hub.detach(self._client)
        self.detach()

    def lead(self, connection: Connection) -> bytes:
        """The whole frame; nothing if the shared client doesn't have the shown screen yet, or has had no frame."""
        if self._is_current:
            self._try(self._make_whole)
        return self._whole

    def make_lead(self) -> None:
        """Has the screen shown soon. Then the shared client is asked for a frame, and there is a whole frame of it."""
        self._screen.show_soon()

    def detach(self) -> None:
        """Notes that the client ends: each watcher gets a whole frame next."""
        self._client, self._whole = None, b""
        self.fall_behind()

    def end(self) -> None:
        """The last frame was made: each watcher is sent it, and then leaves."""
        if self._door:
            self._door.close()
        for task in self._tasks:
            if task:
                task.cancel()
        self.finish(_FAREWELL)


def tcp_listener(host: str, port: int) -> socket.socket:
    """A socket that listens at an address."""
    family = socket.AF_INET6 if ":" in host else socket.AF_INET
    return socket.create_server((host, port), family=family)


def unix_listener(path: str) -> socket.socket:
    """A socket in the file system, for this user alone. One that nobody listens at any more is replaced."""
    listener = socket.socket(socket.AF_UNIX)
    try:
        if os.path.exists(path) and stat.S_ISSOCK(os.stat(path).st_mode) and not _is_listened_at(path):
            os.unlink(path)
        before = os.umask(0o177)
        try:
            listener.bind(path)
        finally:
            os.umask(before)
        listener.listen()
    except OSError:
        listener.close()
        raise
    return listener


def remove_socket(path: str, made: os.stat_result) -> None:
    """Removes a socket's file, unless somebody has done so, or has put another there."""
    with contextlib.suppress(OSError):
        if os.path.samestat(os.stat(path), made):
            os.unlink(path)


def _is_listened_at(path: str) -> bool:
    with socket.socket(socket.AF_UNIX) as probe:
        try:
            probe.connect(path)
        except ConnectionRefusedError:
            return False
    return True
