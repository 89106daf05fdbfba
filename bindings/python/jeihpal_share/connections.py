"""Connections that are sent the same: those that keep up, and those that come or fall behind."""

from __future__ import annotations

import asyncio
import contextlib
import errno
import socket
from typing import Callable

from .notices import Notices

_SEND_BUFFER = 16384  # most bytes that the kernel buffers for a slow connection, so that what it reads is new
_UNSENT = 1  # a socket with fewer unsent bytes than this takes more
_PIECE = 65536
_AT_ONCE = 100  # most connections that are accepted before other work has its turn
_BACKLOG = 4096  # most connections that wait in the kernel to be accepted
_REST = 0.5  # seconds in which no connection is accepted, after descriptors have run out
_EXHAUSTED = (errno.EMFILE, errno.ENFILE, errno.ENOBUFS, errno.ENOMEM)


class Door:
    """A listening socket, and the function that takes its connections."""

    def __init__(
        self,
        loop: asyncio.AbstractEventLoop,
        listener: socket.socket,
        take: Callable[[socket.socket], None],
        notices: Notices,
    ) -> None:
        self._loop, self._listener, self._take, self._notices = loop, listener, take, notices
        self._resting: asyncio.TimerHandle | None = None
        listener.setblocking(False)
        listener.listen(_BACKLOG)
        self._open()

    def _open(self) -> None:
        self._loop.add_reader(self._listener, self._accept)

    def _accept(self) -> None:
        for _ in range(_AT_ONCE):
            try:
                sock, _ = self._listener.accept()
            except BlockingIOError:
                return
            except OSError as error:
                if error.errno in _EXHAUSTED:
                    return self._wait()
                continue
            sock.setblocking(False)
            self._take(sock)

    def _wait(self) -> None:
        """Accepts no connections for a while. Those that come meanwhile wait in the kernel."""
        self._notices.say("who connects has to wait: there are no descriptors left")
        self._loop.remove_reader(self._listener)
        self._resting = self._loop.call_later(_REST, self._open)

    def close(self) -> None:
        """Accepts no connections any more."""
        if self._resting:
            self._resting.cancel()
        self._loop.remove_reader(self._listener)
        self._listener.close()


class Connection:
    """A socket that takes what it can. Nothing is added to what it hasn't taken yet."""

    def __init__(self, loop: asyncio.AbstractEventLoop, sock: socket.socket, crowd: Crowd) -> None:
        self._loop, self._sock, self._crowd = loop, sock, crowd
        self._rest = memoryview(b"")
        self.has = 0  # the mark of what it was sent last, if it isn't level with the others
        keep_little(sock)
        loop.add_reader(sock, self._read)

    @property
    def is_sending(self) -> bool:
        """Whether something waits here until the socket takes it."""
        return bool(self._rest)

    def _read(self) -> None:
        try:
            data = self._sock.recv(4096)
        except BlockingIOError:
            return
        except OSError:
            data = b""
        if data:
            self.heard(data)
        else:
            self._crowd.leave(self)

    def heard(self, data: bytes) -> None:
        """The peer has sent something."""
        raise NotImplementedError

    def give(self, data: bytes) -> None:
        """Sends data, and the rest of it once the socket takes more."""
        try:
            count = self._sock.send(data)
        except BlockingIOError:
            count = 0
        except OSError:
            return self._crowd.leave(self)
        if count < len(data):
            self._rest = memoryview(data)[count:]
            self._loop.add_writer(self._sock, self._send_rest)

    def _send_rest(self) -> None:
        try:
            self._rest = self._rest[self._sock.send(self._rest) :]
        except BlockingIOError:
            return
        except OSError:
            return self._crowd.leave(self)
        if not self._rest:
            self._loop.remove_writer(self._sock)
            self._crowd.has_room(self)

    def close(self, farewell: bytes) -> None:
        """Ends the connection, with a last text if it has taken all that came before."""
        self._loop.remove_reader(self._sock)
        self._loop.remove_writer(self._sock)
        bid_farewell(self._sock, b"" if self._rest else farewell)
        self._rest = memoryview(b"")


class Crowd:
    """Connections that are shown the same. Those that are level have been sent all, and get the same bytes."""

    def __init__(self) -> None:
        self._level: set[Connection] = set()
        self._late: set[Connection] = set()
        self._parting: set[Connection] = set()  # those that are sent the farewell
        self._mark = 0
        self._farewell: bytes | None = None

    def __len__(self) -> int:
        return len(self._level) + len(self._late) + len(self._parting)

    def lead(self, connection: Connection) -> bytes:
        """The bytes that lead a connection from what it has to where the others are; nothing if they must be made."""
        raise NotImplementedError

    def make_lead(self) -> None:
        """Arranges that the bytes that lead on are soon made."""
        raise NotImplementedError

    def add(self, connection: Connection) -> None:
        """Adds a connection, which has nothing yet."""
        self._late.add(connection)
        self._lift(connection)

    def give(self, data: bytes, mark: int = 0) -> None:
        """Sends data to each connection that is level. One that hasn't taken the data before is no longer level."""
        for it in list(self._level):
            if it.is_sending:
                it.has = self._mark
                self._level.discard(it)
                self._late.add(it)
            else:
                it.give(data)
        self._mark = mark

    def fall_behind(self) -> None:
        """Notes that no data leads on from where the others were: no connection is level any more."""
        for it in self._level:
            it.has = self._mark
        self._late |= self._level
        self._level.clear()

    @property
    def is_lead_wanted(self) -> bool:
        """Whether a connection that isn't level has taken all that it was sent."""
        return not all(it.is_sending for it in self._late)

    def lift(self) -> None:
        """Makes the connections that can take more level with the others."""
        for it in [it for it in self._late if not it.is_sending]:
            self._lift(it)

    def _lift(self, connection: Connection) -> None:
        data = self.lead(connection)
        if not data:
            return self.make_lead()
        self._late.discard(connection)
        self._level.add(connection)
        connection.give(data)
        if not connection.is_sending:
            self._part(connection)

    def has_room(self, connection: Connection) -> None:
        """A connection has taken what it was sent, later than the others."""
        if connection in self._late:
            self._lift(connection)
        elif connection in self._parting:
            self.leave(connection)
        else:
            self._part(connection)

    def _part(self, connection: Connection) -> None:
        """If nothing new comes, sends the farewell to a connection that has the last data, and ends it."""
        if self._farewell is not None and connection in self._level:
            self._level.discard(connection)
            self._parting.add(connection)
            connection.give(self._farewell)
            if not connection.is_sending:
                self.leave(connection)

    def leave(self, connection: Connection, farewell: bytes = b"") -> None:
        """Ends a connection."""
        for group in (self._level, self._late, self._parting):
            if connection in group:
                group.discard(connection)
                connection.close(farewell)

    def finish(self, farewell: bytes) -> None:
        """Notes that nothing new comes: each connection gets the last data and a farewell, as soon as it takes them."""
        self._farewell = farewell
        for it in [it for it in self._level if not it.is_sending]:
            self._part(it)

    def close(self) -> None:
        """Ends every connection."""
        for it in [*self._level, *self._late, *self._parting]:
            self.leave(it)


def keep_little(sock: socket.socket) -> None:
    """Has the kernel keep little of what a connection hasn't taken yet."""
    with contextlib.suppress(OSError):  # it may have gone already
        sock.setsockopt(socket.SOL_SOCKET, socket.SO_SNDBUF, _SEND_BUFFER)
        if sock.family != socket.AF_UNIX:
            sock.setsockopt(socket.IPPROTO_TCP, socket.TCP_NODELAY, 1)
            sock.setsockopt(socket.SOL_SOCKET, socket.SO_KEEPALIVE, 1)
            if hasattr(socket, "TCP_NOTSENT_LOWAT"):
                sock.setsockopt(socket.IPPROTO_TCP, socket.TCP_NOTSENT_LOWAT, _UNSENT)


def bid_farewell(sock: socket.socket, text: bytes) -> None:
    """Sends a last text, if the socket takes it, and closes it."""
    with sock, contextlib.suppress(OSError):
        sock.send(text)
        sock.shutdown(socket.SHUT_WR)
        # The text may be lost if the socket is closed with bytes that weren't read.
        for _ in range(16):
            if not sock.recv(_PIECE):
                break
