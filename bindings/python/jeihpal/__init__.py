"""Terminal screens that arrive whole: hubs, views, screens, recordings and filters, proved in Rattle.

A `Hub` keeps the screen of one program, and makes frames of it for its clients: at most one frame waits for each. A
`View` is a small far terminal that reads frames. A `Screen` is a terminal's screen made of a program's bytes, with
escape sequences that redraw it. A `Recording` has the events of an asciicast, a typescript or a ttyrec. A `Filter`
draws a program's lines, on the way to a hub or a screen.

>>> with Hub(1, 20) as hub, View(1, 20) as view:
...     client = hub.attach()
...     hub.feed(b"[####      ]  40%")
...     hub.frame(client).is_frame
...     view.advance(hub.owed(client))
...     view.row_text(0)
True
'[####      ]  40%'

An object may be used on any thread, and has a lock of its own, which each call holds while it runs. No call waits for
anything else. Close an object, or use it in a `with`; an object that is garbage-collected is closed too. Rows and
columns are counted from 0. A refused call raises an exception, and has changed nothing unless its description says so.
"""

from ._cells import Attributes, Cell, Color, Cursor, Drawing, Encoding, Look, Modes, Mouse, Rgb, Row, Size
from ._errors import Failed, JeihpalError, NoRecording, NotOwed, TooLarge, UnknownClient
from ._filter import Filter
from ._hub import Answer, Hub
from ._recording import Event, EventKind, Fault, FaultKind, Recording, RecordingKind
from ._screen import History, Request, RequestKind, Screen
from ._view import View

__all__ = [
    "Answer",
    "Attributes",
    "Cell",
    "Color",
    "Cursor",
    "Drawing",
    "Encoding",
    "Event",
    "EventKind",
    "Failed",
    "Fault",
    "FaultKind",
    "Filter",
    "History",
    "Hub",
    "JeihpalError",
    "Look",
    "Modes",
    "Mouse",
    "NoRecording",
    "NotOwed",
    "Recording",
    "RecordingKind",
    "Request",
    "RequestKind",
    "Rgb",
    "Row",
    "Screen",
    "Size",
    "TooLarge",
    "UnknownClient",
    "View",
]
__version__ = "0.1.0"
