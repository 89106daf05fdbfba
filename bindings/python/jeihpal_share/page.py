"""Browsers: one small page, and the messages that keep it as the screen is."""

from __future__ import annotations

import asyncio
import os
import secrets
import socket

from .connections import Connection, Crowd, Door, bid_farewell
from .messages import Messages
from .notices import Notices
from .requests import HEADER_SECONDS, Refused, head_of, is_loopback, parsed_request, read_head, refuse
from .screen import SharedScreen
from .tokens import Token

_STILL_HERE = 15.0  # seconds after which a message is sent if nothing changes
_MOST_REFUSED = 64  # most connections past the limit that get a refusal at the same time

with open(os.path.join(os.path.dirname(os.path.abspath(__file__)), "page.html"), encoding="utf-8") as _file:
    _PAGE = _file.read()

_PAGE_FIELDS = """Content-Security-Policy: default-src 'none'; script-src 'nonce-{0}'; style-src 'nonce-{0}'; \
connect-src 'self'; img-src data:; base-uri 'none'; form-action 'none'; frame-ancestors 'none'
Content-Type: text/html; charset=utf-8
"""
_EVENT_FIELDS = "Content-Type: text/event-stream; charset=utf-8\n"
_EVENTS = head_of("200 OK", _EVENT_FIELDS)


class Page(Connection):
    """A page that is open in a browser."""

    def __init__(self, loop: asyncio.AbstractEventLoop, sock: socket.socket, browsers: Browsers) -> None:
        super().__init__(loop, sock, browsers)
        self._browsers = browsers

    def heard(self, data: bytes) -> None:
        """Ends the connection: a browser may send nothing after its request."""
        self._browsers.notices.say("a browser was refused: it sends more than a request")
        self._browsers.leave(self)


class Browsers(Crowd):
    """All browsers, at one listening socket. A moment's message goes to each page that is level."""

    def __init__(self, screen: SharedScreen, name: str, most: int, token: Token, notices: Notices) -> None:
        super().__init__()
        self._loop, self._screen, self._most, self.notices = screen.loop, screen, most, notices
        self._token = token
        self._messages = Messages(name)
        self._tasks: set[asyncio.Task[None] | None] = set()  # of those whose request isn't answered yet
        self._still_here: asyncio.TimerHandle | None = None
        self._door: Door | None = None
        self._is_current = False  # the newest message is of what was shown last
        screen.add(self)

    def listen(self, listener: socket.socket) -> None:
        """Takes connections from now on."""
        self._is_local = is_loopback(listener.getsockname()[0])
        self._door = Door(self._loop, listener, self._take, self.notices)

    def _take(self, sock: socket.socket) -> None:
        if len(self) + len(self._tasks) >= self._most + _MOST_REFUSED:
            return bid_farewell(sock, b"")
        task = self._loop.create_task(self._serve(sock))
        self._tasks.add(task)
        task.add_done_callback(self._tasks.discard)

    async def _serve(self, sock: socket.socket) -> None:
        """A connection's request. The connection is ended, unless it becomes a page's."""
        try:
            if await self._answer(sock):
                return
        except Refused as refused:
            self.notices.say(f"a browser was refused: {refused}")
            await refuse(self._loop, sock, str(refused))
        except (OSError, asyncio.TimeoutError, asyncio.CancelledError):
            pass
        sock.close()

    async def _answer(self, sock: socket.socket) -> bool:
        """Answers a request. Returns whether the connection becomes a page's."""
        if len(self) + len(self._tasks) > self._most:
            raise Refused("503 Service Unavailable")
        head, rest = await read_head(self._loop, sock)
        request = parsed_request(head, self._is_local)
        if request.path not in ("/", "/events"):
            raise Refused("404 Not Found")
        if not self._token.is_in(request.query):
            raise Refused("403 Forbidden")
        if request.path == "/":
            await asyncio.wait_for(self._loop.sock_sendall(sock, _page(request.is_head)), HEADER_SECONDS)
        elif request.is_head:
            sock.send(_EVENTS)
        else:
            self._open(sock, rest)
            return True
        return False

    def _open(self, sock: socket.socket, rest: bytes) -> None:
        """A page asks for its events, and has sent some more with that."""
        sock.send(_EVENTS + b"retry: 1000\n\n")
        page = Page(self._loop, sock, self)
        self._tasks.discard(asyncio.current_task())  # it counts as a page from now on
        self.add(page)
        if rest:
            page.heard(rest)

    def show(self) -> None:
        """Sends what has changed to each page that is level."""
        self._is_current = len(self) > 0
        if not self._is_current:
            return
        moment = self._screen.moment()
        if moment != self._messages.newest:
            self._messages.add(moment)
            self._give_newest()
        self.lift()

    def _give_newest(self) -> None:
        """Sends the newest message, and plans another one in case nothing changes."""
        number = self._messages.number
        self.give(_event(self._messages.text(number - 1)), number)
        if self._still_here:
            self._still_here.cancel()
        self._still_here = self._loop.call_later(_STILL_HERE, self._say_still_here)

    def _say_still_here(self) -> None:
        """A message without a change: a page that hears nothing for long takes its connection for dead."""
        moment = self._messages.newest
        if moment:
            self._messages.add(moment)
            self._give_newest()

    def lead(self, connection: Connection) -> bytes:
        """The data that leads a page from the message that it has to the newest one."""
        return _event(self._messages.text(connection.has)) if self._is_current else b""

    def make_lead(self) -> None:
        """There is a new message when the screen is shown next."""
        self._screen.show_soon()

    def detach(self) -> None:
        """Does nothing: browsers aren't clients of the hub."""

    def end(self, status: int) -> None:
        """The last moment was shown: each page is sent it and the command's status, and then leaves."""
        if self._door:
            self._door.close()
        if self._still_here:
            self._still_here.cancel()
        self.finish(b"event: ended\ndata: %d\n\n" % status)

    async def close_all(self) -> None:
        """Ends every connection."""
        self.close()
        tasks = [task for task in self._tasks if task]
        for task in tasks:
            task.cancel()
        await asyncio.gather(*tasks, return_exceptions=True)


def _page(is_head: bool) -> bytes:
    """The answer that is the page, or its head alone."""
    nonce = secrets.token_urlsafe(16)
    head = head_of("200 OK", _PAGE_FIELDS.format(nonce))
    return head if is_head else head + _PAGE.replace("RANDOM-WORD", nonce).encode()


def _event(message: bytes) -> bytes:
    """A message as a server-sent event."""
    return b"data: %b\n\n" % message
