"""A recording that is played: where it is, and the screen of that moment."""

from __future__ import annotations

import bisect
import itertools
from typing import Iterator, NamedTuple

from jeihpal import Filter, Screen, Size

from .recording import Event, Marker, Recording


class Moment(NamedTuple):
    """What happens at one time of the recording."""

    time: int
    changes: list[bytes | Size]


def _moments(events: list[Event], draws_lines: bool) -> list[Moment]:
    """The moments of a recording. The first is at its beginning, even if nothing happens there."""
    lines = Filter() if draws_lines else None
    moments = [Moment(0, [])]
    for time, group in itertools.groupby(events, key=lambda event: event.time):
        if time:
            moments.append(Moment(time, []))
        for event in group:
            change = event.change
            if isinstance(change, bytes):
                change = lines.drawn(change) if lines else change
            if not isinstance(change, Marker):
                moments[-1].changes.append(change)
    return moments


class Playback:
    """A recording, a place in it, and the screen there. Places are in microseconds of playing time."""

    def __init__(self, recording: Recording, size: Size, idle: int | None = None, draws_lines: bool = True) -> None:
        self._size = size
        self._moments = _moments(recording.events, draws_lines)
        self.times = [moment.time for moment in self._moments]
        gaps = (then - now for now, then in zip(self.times, [*self.times[1:], recording.length]))
        shown = [gap if idle is None else min(gap, idle) for gap in gaps]
        self._starts = [0, *itertools.accumulate(shown)]
        self.end = self._starts.pop()
        self.markers = [(time, change.name) for time, change in recording.events if isinstance(change, Marker)]
        self._changed: list[int] | None = None
        self._begin()
        self.place = 0
        self.moment = 0
        self.go(0)

    def _begin(self) -> None:
        self.screen = Screen(*self._size)
        self._done = -1  # the moment that the screen has reached

    def _reach(self, moment: int) -> None:
        """Takes the screen to a moment: on from where it is, or else from the beginning."""
        if moment < self._done:
            self.screen.close()
            self._begin()
        written: list[bytes] = []
        for each in self._moments[self._done + 1 : moment + 1]:
            for change in each.changes:
                if isinstance(change, Size):
                    self.screen.process(b"".join(written))
                    self.screen.resize(*change)
                    written.clear()
                else:
                    written.append(change)
        self.screen.process(b"".join(written))
        self._done = moment

    def go(self, place: float) -> None:
        """Goes to a place, or to the nearest place that exists."""
        self.place = int(max(0, min(place, self.end)))
        self.moment = bisect.bisect_right(self._starts, self.place) - 1
        self._reach(self.moment)

    def go_to_moment(self, moment: int) -> None:
        """Goes to where a moment begins."""
        self.moment = max(0, min(moment, len(self.times) - 1))
        self.place = self._starts[self.moment]
        self._reach(self.moment)

    def place_of(self, time: int) -> int:
        """The place of a time of the recording."""
        moment = max(bisect.bisect_right(self.times, time) - 1, 0)
        following = self._starts[moment + 1] if moment + 1 < len(self._starts) else self.end
        return min(self._starts[moment] + max(time - self.times[moment], 0), following)

    def go_to_time(self, time: int) -> None:
        """Goes to a time of the recording."""
        self.go(self.place_of(time))
        moment = max(bisect.bisect_right(self.times, time) - 1, 0)
        if moment != self.moment:  # several moments are at this place
            self.moment = moment
            self._reach(moment)

    @property
    def time(self) -> int:
        """The time of the recording at this place."""
        return self.times[self.moment] + self.place - self._starts[self.moment]

    def next_place(self) -> int:
        """Where the next moment begins, or the end."""
        return self._starts[self.moment + 1] if self.moment + 1 < len(self._starts) else self.end

    def marker(self, by: int, slack: int = 0) -> str | None:
        """Goes to the next marker, or back to the one before; its name. Back counts from `slack` before this place."""
        places = [(self.place_of(time), time, name) for time, name in self.markers]
        if by > 0:
            near = [it for it in places if it[0] > self.place][:1]
        else:
            near = [it for it in places if it[0] < self.place - slack][-1:]
        for _, time, name in near:
            self.go_to_time(time)
            return name
        return None

    def _screens(self) -> Iterator[tuple[int, Screen]]:
        """Each moment with a screen of it, from the beginning. The screen is this one, which is left at the end."""
        if self._done >= 0:
            self.screen.close()
            self._begin()
        for moment in range(len(self._moments)):
            self._reach(moment)
            yield moment, self.screen

    def changed(self) -> list[int]:
        """The moments at which the screen changes, the first among them."""
        if self._changed is None:
            here, found = self.moment, []
            for moment, screen in self._screens():
                if not moment or screen.difference() or self._resizes(moment):
                    found.append(moment)
                screen.mark()
            self._changed = found
            self._reach(here)
        return self._changed

    def _resizes(self, moment: int) -> bool:
        return any(isinstance(change, Size) for change in self._moments[moment].changes)

    def step(self, by: int) -> None:
        """Goes to the next moment at which the screen changes, or back to the one before this place."""
        changed = self.changed()
        if by > 0:
            near = bisect.bisect_right(changed, self.moment)
        else:
            near = bisect.bisect_left(changed, self.moment) - 1
        if 0 <= near < len(changed):
            self.go_to_moment(changed[near])

    def first_shown(self, text: str) -> list[int]:
        """The moments at which a text comes to the screen that wasn't there the moment before. Case doesn't count."""
        wanted, here, found, was = text.lower(), self.moment, [], False
        for moment, screen in self._screens():
            does = wanted in screen.contents().lower()
            if does and not was:
                found.append(moment)
            was = does
        self._reach(here)
        return found

    def close(self) -> None:
        """Frees the screen."""
        self.screen.close()
