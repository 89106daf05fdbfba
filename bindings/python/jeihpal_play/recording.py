"""Recordings as events, which the library reads."""

from __future__ import annotations

import math
from typing import NamedTuple, Union

import jeihpal
from jeihpal import EventKind, FaultKind, RecordingKind, Size

_MOST_CELLS = 4_000_000  # of a size in the recording
_FAULTS = {
    FaultKind.LINE: "line {}: not an event of asciicast",
    FaultKind.BYTE: "byte {}: not a frame of ttyrec",
    FaultKind.STEP: "line {} of the timing file: not a step",
}


class NoRecording(Exception):
    """What was read isn't a recording."""


class Marker(NamedTuple):
    """A name for a moment."""

    name: str


Change = Union[bytes, Size, Marker]


class Event(NamedTuple):
    """A time in microseconds, and what happens then: output, another size or a marker."""

    time: int
    change: Change


class Recording(NamedTuple):
    """A recording, up to the first fault."""

    size: Size | None
    """The size at first, if the recording says it."""
    events: list[Event]
    """What happens, in order."""
    length: int
    """The time of the last event, in microseconds, even if it changes nothing here."""
    fault: str = ""
    """Where it stops making sense, if it does."""


def microseconds(seconds: float) -> int:
    """A number of seconds as the nearest number of microseconds."""
    return math.floor(seconds * 1_000_000 + 0.5)


def _fitting(size: Size) -> Size:
    """The size, if a screen can have it. Raises NoRecording if it is too large."""
    if size.rows * size.cols > _MOST_CELLS:
        raise NoRecording(f"a size of {size.rows} rows and {size.cols} columns: more than {_MOST_CELLS:,} cells")
    return size


def _event(event: jeihpal.Event) -> Event:
    if event.kind == EventKind.MARKER:
        return Event(event.time, Marker(event.data.decode("utf-8", "replace")))
    return Event(event.time, event.data if event.size is None else _fitting(event.size))


def parse(data: bytes, timing: bytes | None = None) -> Recording:
    """Reads a recording; with the file of its times a typescript. A file of another kind raises NoRecording."""
    try:
        with jeihpal.Recording(data, timing) as found:
            if found.kind == RecordingKind.RAW:
                raise NoRecording("neither an asciicast nor a ttyrec, and a typescript wants --timing")
            fault = _FAULTS.get(found.fault.kind, "{}").format(found.fault.place) if found.fault else ""
            size = found.size and _fitting(found.size)
            return Recording(size, list(map(_event, found)), found.length, fault)
    except jeihpal.NoRecording as error:
        raise NoRecording(str(error)) from None
