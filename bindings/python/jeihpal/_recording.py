"""Recordings."""

from __future__ import annotations

import ctypes
from typing import Iterator, NamedTuple

from ._cells import OpenEnum, Size
from ._library import RawEvent, RawRecorded
from ._object import Object
from ._screen import Screen

_COLORS = 18


class RecordingKind(OpenEnum):
    """The form in which a recording was stored."""

    ASCIICAST = 1
    """An asciicast, version 1, 2 or 3."""
    TYPESCRIPT = 2
    """A typescript of script(1), with the file of its times."""
    TTYREC = 3
    RAW = 4
    """The bytes alone: one event at the time 0."""


class FaultKind(OpenEnum):
    """How a recording stops making sense."""

    LINE = 1
    """A line of an asciicast isn't an event."""
    BYTE = 2
    """No whole frame of a ttyrec begins at this byte."""
    STEP = 3
    """A line of a file of times isn't a step, or takes more bytes than are left."""


class Fault(NamedTuple):
    """The first place at which a recording stops making sense."""

    kind: FaultKind
    place: int
    """A line counted from 1, or a byte counted from 0."""


class EventKind(OpenEnum):
    """What an event does."""

    OUTPUT = 1
    """The program writes the bytes, which needn't be UTF-8, and may end within a character."""
    RESIZE = 2
    """The terminal gets a size."""
    MARKER = 3
    """The bytes name the moment."""


class Event(NamedTuple):
    """What happens at a moment of a recording."""

    time: int
    """Microseconds since the beginning, never less than those of the event before."""
    kind: EventKind
    data: bytes
    """What is written, or a marker's name in UTF-8."""
    size: Size | None
    """The size of RESIZE."""


class Recording(Object):
    """What a program wrote to its terminal, and when, up to the first fault."""

    _kind = "recording"

    kind: RecordingKind
    """The form in which it was stored."""
    size: Size | None
    """How many rows and columns there are at first, if the recording says it."""
    length: int
    """Microseconds from the beginning to the last event, even if that doesn't concern a screen."""
    fault: Fault | None
    """The first place at which it stops making sense, if it does. What comes before it is read."""

    def __init__(self, data: bytes, timing: bytes | None = None) -> None:
        """Reads a recording in the kind that its first bytes say, or with a file of times a typescript."""
        self._begin()
        data = bytes(memoryview(data))
        if timing is None:
            self._call("open", data, len(data))
        else:
            timing = bytes(memoryview(timing))
            self._call("open_script", data, len(data), timing, len(timing))
        raw = RawRecorded()
        self._call("look", raw)
        self.kind = RecordingKind(raw.kind)
        self.size = Size(raw.rows, raw.cols) if raw.rows else None
        self.length = raw.length
        self.fault = Fault(FaultKind(raw.fault), raw.place) if raw.fault else None
        self._events: int = raw.events

    def __len__(self) -> int:
        """How many events there are."""
        return self._events

    def __getitem__(self, index: int) -> Event:
        """An event, counted from 0, or back from the end. Raises IndexError if there are fewer."""
        index = index + self._events if index < 0 else index
        if not 0 <= index < self._events:
            raise IndexError("the recording has fewer events")
        raw = RawEvent()
        self._call("event", index, raw)
        data = self._text("event_text", index) if raw.length else b""
        size = Size(raw.rows, raw.cols) if raw.rows else None
        return Event(raw.time, EventKind(raw.kind), data, size)

    def __iter__(self) -> Iterator[Event]:
        """The events, in order."""
        return (self[index] for index in range(self._events))

    @property
    def most_cells(self) -> int:
        """How many cells its largest size has, at first or later; 0 if it says no size.

        Whoever made the recording chose it, and a screen takes memory for it: check it before `screen_at` of a
        stranger's recording."""
        raw, sizes = RawEvent(), [self.size] if self.size else []
        for index in range(self._events):
            self._call("event", index, raw)
            sizes.append(Size(raw.rows, raw.cols))
        return max((size.rows * size.cols for size in sizes), default=0)

    def screen_at(self, time: int, size: Size | None = None) -> Screen:
        """A new screen as it is after all events up to a time, in microseconds. It begins in the size that the
        recording says, or else in this one, or in 24 rows of 80 columns."""
        screen = Screen(*(self.size or size or Size(24, 80)))
        for event in self:
            if event.time > time:
                break
            if event.kind == EventKind.OUTPUT:
                screen.process(event.data)
            elif event.size:
                screen.resize(*event.size)
        return screen

    @property
    def colors(self) -> list[int]:
        """The colours that an asciicast has of its own, each as 0xRRGGBB: that of texts, that of backgrounds, and the
        first sixteen; else none."""
        room, count = (ctypes.c_uint32 * _COLORS)(), ctypes.c_size_t()
        self._call("colors", room, _COLORS, count)
        return list(room[: count.value])
