"""The screen for an nginx with nchan, which hands it on to browsers. It is posted over a Unix socket."""

from __future__ import annotations

import asyncio
import re

from .messages import Messages
from .notices import Notices
from .screen import SharedScreen

EVERY = 20  # one of this many messages is whole
_BETWEEN = 0.1  # seconds between two messages at least
_AGAIN = 0.5  # seconds after which a message that wasn't taken is tried again
_STILL = 30.0  # seconds after which a whole message follows if nothing changes
_MOST_SECONDS = 5.0  # seconds that an answer may take
_LINES = 100  # most lines of an answer's head


class NotTaken(Exception):
    """A message wasn't taken, as far as is known."""


class Post:
    """A connection to nginx, by which one message after another is posted."""

    def __init__(self, socket_path: str, name: str) -> None:
        self._socket_path, self._name = socket_path, name
        self._streams: tuple[asyncio.StreamReader, asyncio.StreamWriter] | None = None

    async def send(self, body: bytes, keep: int, event: str = "") -> None:
        """Posts a message, and has nginx keep the newest `keep`. Raises NotTaken."""
        fields = f"X-EventSource-Event: {event}\r\n" if event else ""
        fields += f"Host: localhost\r\nContent-Length: {len(body)}\r\n"
        head = f"POST /pub/{self._name}?keep={keep} HTTP/1.1\r\n{fields}"
        try:
            await asyncio.wait_for(self._exchange(head.encode() + b"\r\n" + body), _MOST_SECONDS)
        except (OSError, EOFError, ValueError, asyncio.TimeoutError) as error:
            self.close()
            raise NotTaken(str(error) or type(error).__name__) from None

    async def _exchange(self, request: bytes) -> None:
        if not self._streams:
            self._streams = await asyncio.open_unix_connection(self._socket_path)
        reader, writer = self._streams
        writer.write(request)
        await writer.drain()
        status = await reader.readuntil(b"\r\n")
        fields = {}
        for _ in range(_LINES):
            line = (await reader.readuntil(b"\r\n")).strip()
            if not line:
                break
            name, _, value = line.lower().partition(b":")
            fields[name] = value.strip()
        await reader.readexactly(int(fields.get(b"content-length", b"0")))
        if fields.get(b"connection") == b"close" or b"content-length" not in fields:
            self.close()
        if not re.match(rb"HTTP/1\.[01] 20[012] ", status):
            raise ValueError(status.decode("latin-1").strip())

    def close(self) -> None:
        """Ends the connection. The next message opens another."""
        if self._streams:
            self._streams[1].close()
            self._streams = None


class Publisher:
    """Posts the newest moment, and waits for the answer before the next one, so that nothing waits here."""

    def __init__(self, screen: SharedScreen, post: Post, title: str, notices: Notices) -> None:
        self._screen, self._post, self._notices = screen, post, notices
        self._messages = Messages(title)
        self._kept = 0  # messages since the last whole one, that included, which nginx keeps; 0 if that isn't known
        self._is_due = False
        self._task: asyncio.Task[None] | None = None
        self._still: asyncio.TimerHandle | None = None
        screen.add(self)
        screen.show_soon()

    def show(self) -> None:
        """Posts what is shown, unless a message is on its way. Then this is called again after it."""
        self._is_due = self._task is not None
        if self._is_due:
            return
        moment = self._screen.moment()
        if not self._kept or moment != self._messages.newest:
            self._messages.add(moment)
            self._task = self._screen.loop.create_task(self._publish())

    async def _publish(self) -> None:
        """Posts the newest message, and plans the next one."""
        pause = _BETWEEN
        try:
            await self._post_newest()
        except NotTaken as error:
            self._notices.say(f"a message wasn't published: {error}")
            pause = _AGAIN
        await asyncio.sleep(pause)
        self._task = None
        self._publish_within(_STILL)
        if self._is_due or not self._kept:
            self._screen.show_soon()

    def _publish_within(self, seconds: float) -> None:
        """Plans a whole message for when nothing has been posted for this many seconds."""
        if self._still:
            self._still.cancel()
        self._still = self._screen.loop.call_later(seconds, self._publish_whole)

    def _publish_whole(self) -> None:
        """Makes the next message a whole one."""
        self._kept = 0
        self._screen.show_soon()

    async def _post_newest(self) -> None:
        """Posts the newest message: a whole one if it isn't known what nginx has, and at every `EVERY`th message."""
        number, kept = self._messages.number, self._kept
        since = self._messages.leads_from(number - 1 if 0 < kept < EVERY else 0)
        kept = kept + 1 if since else 1
        self._kept = 0  # until it is known that it was taken
        await self._post.send(self._messages.text(since), kept)
        self._kept = kept

    def detach(self) -> None:
        """Does nothing: it isn't a client of the hub."""

    async def end(self, status: int, seconds: float) -> None:
        """The last moment was shown: it is posted, and the command's status."""
        try:
            await asyncio.wait_for(self._finish(status), seconds)
        except asyncio.TimeoutError:
            self._notices.say("the end wasn't published")
        finally:
            if self._still:
                self._still.cancel()
            if self._task:
                self._task.cancel()
            self._post.close()

    async def _finish(self, status: int) -> None:
        while True:
            while self._task or self._is_due or not self._kept:
                await asyncio.sleep(0.01)
            try:
                return await self._post.send(b"%d" % status, self._kept + 1, "ended")
            except NotTaken:
                self._publish_whole()
