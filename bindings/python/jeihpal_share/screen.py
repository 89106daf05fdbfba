"""The command's screen, and when those that watch it are shown it."""

from __future__ import annotations

import asyncio
import time
from typing import Protocol

from jeihpal import Hub

from .moments import Camera, Moment
from .notices import Notices
from .updates import UpdateEnds

PAUSE = 0.01  # seconds; a command that writes nothing for this long has finished drawing
MOST_HELD = 1.0  # seconds for which it may hold an update back


class Audience(Protocol):
    """Those that watch the screen."""

    def show(self) -> None:
        """Shows the screen as it is now."""

    def detach(self) -> None:
        """Notes that its clients of the hub end. It starts again when it next has to show the screen."""


class SharedScreen:
    """A hub that is fed the command's bytes. After them, soon but not too often, it has the audiences show it."""

    def __init__(
        self,
        loop: asyncio.AbstractEventLoop,
        size: tuple[int, int],
        rate: float,
        notices: Notices,
        draws_lines: bool = True,
    ) -> None:
        self._draws_lines = draws_lines
        self.hub = self._blank(*size)
        self.size = size
        self.loop, self._between, self._notices = loop, 1 / rate, notices
        self._audiences: list[Audience] = []
        self._last = self._first = 0.0  # when it was shown, and when the first byte came after that
        self._took = 0.0  # seconds of a processor that showing it has taken
        self._camera = Camera()
        self._moment: Moment | None = None
        self._ends = UpdateEnds()
        self._tick: asyncio.TimerHandle | None = None
        self._held: asyncio.TimerHandle | None = None

    def _blank(self, rows: int, cols: int) -> Hub:
        return Hub(rows, cols, draws_lines=self._draws_lines)

    def add(self, audience: Audience) -> None:
        """Adds an audience."""
        self._audiences.append(audience)

    def feed(self, data: bytes) -> None:
        """Takes the command's next bytes."""
        end = self._ends.last_end(data)
        if self._held and end:
            # What waits for the end of an update is shown right there, before the next one begins.
            self._take(data[:end])
            if not self.hub.look().updating:
                self.show()
            data = data[end:]
        self._take(data)
        self.show_soon()

    def _take(self, data: bytes) -> None:
        try:
            self.hub.feed(data)
        except MemoryError:
            self._notices.say("out of memory: the screen begins anew")
            self._begin_anew()

    def _begin_anew(self) -> None:
        """Takes another hub, in place of one that has failed."""
        for audience in self._audiences:
            audience.detach()
        self.hub.close()
        self.hub = self._blank(*self.size)

    def show_soon(self) -> None:
        """Plans to show it: after a pause of the command, at latest once the rate allows it."""
        now = self.loop.time()
        if self._tick and self._tick.when() <= now:
            return  # it is about to be shown
        if self._tick:
            self._tick.cancel()
        else:
            self._first = now
        between = max(self._between, 1.5 * self._took)  # so that showing takes at most two thirds of a processor
        soonest, latest = self._last + between, self._first + between
        self._tick = self.loop.call_at(max(soonest, min(latest, now + PAUSE)), self.show)

    def show(self) -> None:
        """Has it shown to everybody, unless the command holds an update back."""
        if self._tick:
            self._tick.cancel()
            self._tick = None
        if self.hub.look().updating:
            self._held = self._held or self.loop.call_later(MOST_HELD, self._end_update)
            return
        if self._held:
            self._held.cancel()
            self._held = None
        self._last, begun = self.loop.time(), time.thread_time()
        self._moment = None
        for audience in self._audiences:
            audience.show()
        self._took = time.thread_time() - begun

    def moment(self) -> Moment:
        """The moment that is shown, for an audience that is showing it. It is made once for all of them."""
        self._moment = self._moment or self._camera.take(self.hub)
        return self._moment

    def _end_update(self) -> None:
        """The command doesn't end its update: a resize to the same size does."""
        self._held = None
        if self.hub.look().updating:
            self.resize(*self.size)

    def resize(self, rows: int, cols: int) -> None:
        """Gives it another size, or the same. Whoever watches gets the whole screen."""
        self.size = rows, cols
        for audience in self._audiences:
            audience.detach()
        try:
            self.hub.resize(rows, cols)
        except MemoryError:
            self.hub.close()
            self.hub = self._blank(rows, cols)
        self.show()

    def finish(self) -> None:
        """Shows the last screen of a command that has ended, even if it has left an update open."""
        if self.hub.look().updating:
            self.resize(*self.size)
        else:
            self.show()
