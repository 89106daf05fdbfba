"""What a refused call raises."""

from __future__ import annotations


class JeihpalError(Exception):
    """A call was refused."""


class Failed(JeihpalError):
    """An earlier call found no memory, and what the screen shows is undefined: make a new object."""


class UnknownClient(JeihpalError, LookupError):
    """The client has ended, or never was."""


class NotOwed(JeihpalError, ValueError):
    """Fewer bytes wait for the client."""


class TooLarge(JeihpalError, ValueError):
    """The size has more cells than the object may have."""


class NoRecording(JeihpalError, ValueError):
    """A recording has no header, or is a compressed file."""


def refusal(code: int) -> Exception:
    """The exception for a code of the library that is less than 0."""
    if code == -4:
        return MemoryError("the library found no memory")
    known = {
        -1: ValueError("it is closed"),
        -3: ValueError("a size is 1 to 65,535 rows and columns"),
        -5: Failed("an earlier call found no memory"),
        -6: UnknownClient("the client has ended, or never was"),
        -7: NotOwed("fewer bytes are owed"),
        -8: IndexError("the place is outside the screen"),
        -10: NoRecording("the recording has no header"),
        -11: NoRecording("the recording is a compressed file"),
        -12: IndexError("the recording has fewer events"),
        -13: TooLarge("the size has more cells than is allowed"),
    }
    return known.get(code) or JeihpalError(f"the library answered {code}")
