"""share itself: a command, its screen, this terminal, and who watches, until the command has ended."""

from __future__ import annotations

import asyncio
import contextlib
import os
import shutil
import signal
import socket
import sys
from typing import Callable, TextIO

from .notices import Notices
from .options import Options, parsed
from .page import Browsers
from .publisher import Post, Publisher
from .recorder import Recorder
from .screen import SharedScreen
from .terminals import Command, LocalTerminal, Outlet, raise_descriptors, undoing, window
from .tokens import Token, kept_token
from .watchers import Watchers, remove_socket, tcp_listener, unix_listener

LINGER = 5.0  # seconds that watchers may take to read the last frame
_DRAIN = 0.5  # seconds that what the command has started may write on after its end
_KILL = 2.0  # seconds that the command may take to end after the signal to end


class Session:
    """A command, its screen and this terminal. `ended` is done once the command has ended and all was read."""

    def __init__(
        self, loop: asyncio.AbstractEventLoop, command: Command, screen: SharedScreen, local: LocalTerminal | None
    ) -> None:
        self._loop, self._command, self._screen, self._local = loop, command, screen, local
        self.ended: asyncio.Future[None] = loop.create_future()
        self._is_read = False
        self._keys = Outlet(loop, command.fd, self._read_keys)
        self._picture = Outlet(loop, local.fd, self._read_command) if local else None

    def start(self, has_own_size: bool) -> None:
        """Begins to read. A screen that has no size of its own is as large as the terminal here."""
        self._read_command()
        self._loop.add_signal_handler(signal.SIGCHLD, self._reap)
        for name in (signal.SIGTERM, signal.SIGHUP, signal.SIGINT):
            self._loop.add_signal_handler(name, self.hang_up)
        if self._local:
            self._read_keys()
            if not has_own_size:
                self._loop.add_signal_handler(signal.SIGWINCH, self._resize)
        self._reap()

    def _read_command(self) -> None:
        if not self._is_read:
            self._loop.add_reader(self._command.fd, self._take_picture)

    def _take_picture(self) -> None:
        """The command's next bytes. A slow terminal here holds up the command, as without share."""
        data = self._command.read()
        if data:
            self._screen.feed(data)
            if self._picture:
                self._picture.write(data)
                if self._picture.is_full:
                    self._loop.remove_reader(self._command.fd)
        elif data is not None:
            self._loop.remove_reader(self._command.fd)
            self._is_read = True
            self._reap()

    def _read_keys(self) -> None:
        assert self._local
        self._loop.add_reader(self._local.fd, self._take_keys)

    def _take_keys(self) -> None:
        """The next keys that were typed here."""
        assert self._local
        keys = self._local.keys()
        if keys:
            self._keys.write(keys)
        if keys == b"" or self._keys.is_full:
            self._loop.remove_reader(self._local.fd)

    def _resize(self) -> None:
        """The terminal here has another size."""
        assert self._local
        size = window(self._local.fd)
        if size != self._screen.size:
            self._command.resize(*size)
            self._screen.resize(*size)

    def _reap(self) -> None:
        """Ends once the command has ended and its bytes are read, or soon after."""
        if self._command.has_ended() and not self.ended.done():
            if self._is_read:
                self.ended.set_result(None)
            else:
                self._loop.call_later(_DRAIN, self._stop_reading)

    def _stop_reading(self) -> None:
        self._is_read = True
        self._reap()

    def hang_up(self) -> None:
        """Sends the command a signal to end, and soon kills it."""
        self._command.signal(signal.SIGHUP)
        self._command.signal(signal.SIGCONT)
        self._loop.call_later(_KILL, self._command.signal, signal.SIGKILL)

    def restore(self) -> None:
        """The command has ended: the terminal here gets its modes back, whatever the command has left."""
        if self._picture:
            self._picture.write(undoing(self._screen.hub.look()))

    def is_behind(self) -> bool:
        """Whether the terminal here has still to show something."""
        return bool(self._picture and self._picture.is_waiting)

    def close(self) -> None:
        """Stops reading and writing."""
        self._loop.remove_reader(self._command.fd)
        self._keys.close()
        if self._local and self._picture:
            self._loop.remove_reader(self._local.fd)
            self._picture.close()


async def _until(loop: asyncio.AbstractEventLoop, is_done: Callable[[], bool], seconds: float) -> None:
    """Waits until something is done, at most this many seconds."""
    end = loop.time() + seconds
    while not is_done() and loop.time() < end:
        await asyncio.sleep(0.005)


class Sockets:
    """The sockets that the options ask for, and who may connect."""

    def __init__(self, options: Options, stack: contextlib.ExitStack) -> None:
        self.terminals: socket.socket | None = None
        self.browsers: socket.socket | None = None
        if options.unix:
            self.terminals = stack.enter_context(unix_listener(options.unix))
            stack.callback(remove_socket, options.unix, os.stat(options.unix))
        elif options.listen:
            self.terminals = stack.enter_context(tcp_listener(*options.listen))
        if options.http:
            self.browsers = stack.enter_context(tcp_listener(*options.http))
        self.token = Token(kept_token(options.token) if options.token else None)
        self.recording: TextIO | None = None
        if options.record:
            self.recording = stack.enter_context(open(options.record, "w", encoding="utf-8"))
        self._options = options

    def announce(self, size: tuple[int, int]) -> None:
        """Says where to watch."""
        said = [f"a screen of {size[0]} rows and {size[1]} columns"]
        if self.terminals and self.terminals.family == socket.AF_UNIX:
            said.append(f"terminals: socat -,raw,echo=0 unix:{self.terminals.getsockname()}")
        elif self.terminals:
            said.append(f"terminals: socat -,raw,echo=0 tcp:{_place(self.terminals)}")
        if self.browsers:
            said.append(f"browsers: http://{_place(self.browsers)}/")
        if self._options.publish:
            said.append(f"published as {self._options.name} to {self._options.publish}")
        if self._options.token:
            said.append(f"the token in {self._options.token} is wanted: as a first line, by a browser behind /?token=")
        for line in said:
            print(f"share: {line}", file=sys.stderr, flush=True)


def _place(listener: socket.socket) -> str:
    host, port = listener.getsockname()[:2]
    return f"[{host}]:{port}" if ":" in host else f"{host}:{port}"


class Audiences:
    """All who watch, at the sockets that there are."""

    def __init__(self, options: Options, screen: SharedScreen, sockets: Sockets, notices: Notices) -> None:
        title = os.path.basename(options.command[0])
        self._watchers = Watchers(screen, options.terminals, sockets.token, notices)
        self._browsers = Browsers(screen, title, options.browsers, sockets.token, notices)
        self._publisher: Publisher | None = None
        self._recorder: Recorder | None = None
        if sockets.recording:
            self._recorder = Recorder(screen, sockets.recording, options.command, notices)
        if options.publish and options.name:
            self._publisher = Publisher(screen, Post(options.publish, options.name), title, notices)
        if sockets.terminals:
            self._watchers.listen(sockets.terminals)
        if sockets.browsers:
            self._browsers.listen(sockets.browsers)

    async def end(self, loop: asyncio.AbstractEventLoop, status: int) -> None:
        """The command has ended, and its last screen was shown. Waits for those that have still to read it."""
        if self._recorder:
            self._recorder.end(status)
        self._watchers.end()
        self._browsers.end(status)
        reading = _until(loop, lambda: not len(self._watchers) + len(self._browsers), LINGER)
        publishing = [self._publisher.end(status, LINGER)] if self._publisher else []
        await asyncio.gather(reading, *publishing)

    async def close(self) -> None:
        """Ends every connection."""
        self._watchers.close()
        await self._browsers.close_all()


async def _share(
    options: Options, command: Command, size: tuple[int, int], sockets: Sockets, local: LocalTerminal | None
) -> int:
    """Shares the command's screen until it ends. Returns its status."""
    loop, notices = asyncio.get_running_loop(), Notices(local is not None)
    screen = SharedScreen(loop, size, options.rate, notices, options.draws_lines)
    audiences = Audiences(options, screen, sockets, notices)
    session = Session(loop, command, screen, local)
    try:
        with local or contextlib.nullcontext():
            session.start(has_own_size=options.size is not None)
            await session.ended
            session.restore()
            await _until(loop, lambda: not session.is_behind(), LINGER)
            session.close()
        screen.finish()
        await audiences.end(loop, command.status or 0)
    finally:
        await audiences.close()
        notices.end()
    return command.status or 0


def _reason(error: OSError) -> str:
    """What failed, and with which file."""
    return ": ".join(filter(None, (error.filename, error.strerror or str(error))))


def main(words: list[str] | None = None) -> int:
    """Runs share. Returns its status: the command's, 127 if there is no such command, 1 if it can't begin."""
    options = parsed(sys.argv[1:] if words is None else words)
    if not shutil.which(options.command[0]):
        print(f"share: {options.command[0]}: there is no such command", file=sys.stderr)
        return 127
    descriptors = raise_descriptors()
    with contextlib.ExitStack() as stack:
        try:
            sockets = Sockets(options, stack)
        except OSError as error:
            print(f"share: can't begin: {_reason(error)}", file=sys.stderr)
            return 1
        local = LocalTerminal() if LocalTerminal.is_there() else None
        size = options.size or (window(local.fd) if local else (24, 80))
        sockets.announce(size)
        command = Command(options.command, *size, descriptors)
        try:
            return asyncio.run(_share(options, command, size, sockets, local))
        except MemoryError:
            print("share: out of memory", file=sys.stderr)
            return 1
        finally:
            command.signal(signal.SIGKILL)
