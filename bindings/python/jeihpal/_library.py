"""The shared library: where it lies, its structs, and its functions' types."""

from __future__ import annotations

import ctypes
import os
from typing import Any

ABI = 1

_HERE = os.path.dirname(os.path.abspath(__file__))
_PLACES = (
    os.path.join(_HERE, "libjeihpal.so"),  # as installed
    os.path.join(_HERE, "..", "..", "out", "libjeihpal.so"),  # as ./build --library leaves it in a checkout
)


class Word(ctypes.Structure):
    """A hub, a view, a screen or a recording, as the library keeps it. It begins null."""

    _fields_ = [("held", ctypes.c_void_p)]


class RawColor(ctypes.Structure):
    """jeihpal_color."""

    _fields_ = [(name, ctypes.c_uint8) for name in ("kind", "red_or_index", "green", "blue")]


class RawCell(ctypes.Structure):
    """jeihpal_cell."""

    _fields_ = [
        ("text", ctypes.c_uint8 * 32),
        ("length", ctypes.c_uint8),
        ("width", ctypes.c_uint8),
        ("attributes", ctypes.c_uint8),
        ("reserved", ctypes.c_uint8),
        ("foreground", RawColor),
        ("background", RawColor),
    ]


class RawLook(ctypes.Structure):
    """jeihpal_look."""

    _fields_ = [
        *[(name, ctypes.c_size_t) for name in ("kept", "scrolled")],
        *[(name, ctypes.c_uint16) for name in ("rows", "cols", "row", "col")],
        *[(name, ctypes.c_uint8) for name in ("hidden", "style", "mouse", "encoding", "keypad", "cursor_keys")],
        *[(name, ctypes.c_uint8) for name in ("paste", "alternate", "updating", "failed")],
    ]


class RawDrawing(ctypes.Structure):
    """jeihpal_drawing."""

    _fields_ = [
        *[(name, RawColor) for name in ("foreground", "background")],
        *[(name, ctypes.c_uint8) for name in ("bold", "dim", "italic", "underlined", "inverse")],
    ]


class RawRequest(ctypes.Structure):
    """jeihpal_request."""

    _fields_ = [
        *[(name, ctypes.c_size_t) for name in ("length", "letters", "dropped")],
        *[(name, ctypes.c_uint16) for name in ("rows", "cols")],
        ("kind", ctypes.c_uint8),
    ]


class RawRecorded(ctypes.Structure):
    """jeihpal_recorded."""

    _fields_ = [
        ("events", ctypes.c_size_t),
        *[(name, ctypes.c_uint64) for name in ("length", "place")],
        *[(name, ctypes.c_uint16) for name in ("rows", "cols")],
        *[(name, ctypes.c_uint8) for name in ("kind", "fault")],
    ]


class RawEvent(ctypes.Structure):
    """jeihpal_event."""

    _fields_ = [
        ("time", ctypes.c_uint64),
        ("length", ctypes.c_size_t),
        *[(name, ctypes.c_uint16) for name in ("rows", "cols")],
        ("kind", ctypes.c_uint8),
    ]


_U16, _SIZE = ctypes.c_uint16, ctypes.c_size_t
_BYTES = [ctypes.c_char_p, _SIZE]
_OUT_SIZE = ctypes.POINTER(_SIZE)
_TEXT = [ctypes.c_void_p, _SIZE, _OUT_SIZE]
_LOOK = [ctypes.POINTER(RawLook)]
_CELL = [_U16, _U16, ctypes.POINTER(RawCell)]
_WORD = ctypes.POINTER(Word)
_ROW_CELLS = [_U16, ctypes.c_void_p, _SIZE, _OUT_SIZE, ctypes.POINTER(ctypes.c_uint8)]
_ROWS = [_U16, _U16, *_TEXT, ctypes.c_void_p, _SIZE, _OUT_SIZE]

# Of each function the parameters after the word.
PARAMETERS: dict[str, list[Any]] = {
    "hub_new": [_U16, _U16],
    "hub_new_within": [_U16, _U16, _SIZE],
    "hub_feed": _BYTES,
    "hub_resize": [_U16, _U16],
    "hub_resize_within": [_U16, _U16, _SIZE],
    "hub_attach": [_OUT_SIZE],
    "hub_fork": [_SIZE, _OUT_SIZE],
    "hub_detach": [_SIZE],
    "hub_frame": [_SIZE],
    "hub_owed": [_SIZE, *_TEXT],
    "hub_redraw": [_SIZE, *_TEXT],
    "hub_whole_frame": [_SIZE, *_TEXT],
    "hub_sent": [_SIZE, _SIZE],
    "hub_look": _LOOK,
    "hub_cell": _CELL,
    "hub_row_cells": _ROW_CELLS,
    "hub_row_text": [_U16, *_TEXT],
    "hub_contents": _TEXT,
    "view_new": [_U16, _U16],
    "view_new_within": [_U16, _U16, _SIZE],
    "view_advance": _BYTES,
    "view_stop": [],
    "view_held": [_OUT_SIZE],
    "view_look": _LOOK,
    "view_cell": _CELL,
    "view_row_cells": _ROW_CELLS,
    "view_row_text": [_U16, *_TEXT],
    "screen_new": [_U16, _U16, _SIZE],
    "screen_new_within": [_U16, _U16, _SIZE, _SIZE],
    "screen_process": _BYTES,
    "screen_resize": [_U16, _U16],
    "screen_resize_within": [_U16, _U16, _SIZE],
    "screen_scroll": [_SIZE],
    "screen_look": _LOOK,
    "screen_cell": _CELL,
    "screen_row_cells": _ROW_CELLS,
    "screen_row_text": [_U16, *_TEXT],
    "screen_contents": _TEXT,
    "screen_contents_between": [_U16, _U16, _U16, _U16, *_TEXT],
    "screen_contents_formatted": _TEXT,
    "screen_state": _TEXT,
    "screen_mark": [],
    "screen_difference": _TEXT,
    "screen_tell": [ctypes.c_uint8, ctypes.c_uint8],
    "screen_clone": [_WORD],
    "screen_clone_visible": [_WORD],
    "screen_clear_scrollback": [],
    "screen_drawing": [ctypes.POINTER(RawDrawing)],
    "screen_contents_formatted_basic": _TEXT,
    "screen_input_mode_formatted": _TEXT,
    "screen_attributes_formatted": _TEXT,
    "screen_cursor_state_formatted": _TEXT,
    "screen_rows_formatted": _ROWS,
    "screen_contents_diff": [_WORD, *_TEXT],
    "screen_state_diff": [_WORD, *_TEXT],
    "screen_input_mode_diff": [_WORD, *_TEXT],
    "screen_rows_diff": [_WORD, *_ROWS],
    "screen_request": [ctypes.c_void_p, _SIZE, ctypes.POINTER(RawRequest)],
    "filter_new": [],
    "filter_pass": _BYTES,
    "filter_given": _TEXT,
    "recording_open": _BYTES,
    "recording_open_script": [*_BYTES, *_BYTES],
    "recording_look": [ctypes.POINTER(RawRecorded)],
    "recording_event": [_SIZE, ctypes.POINTER(RawEvent)],
    "recording_event_text": [_SIZE, *_TEXT],
    "recording_colors": [ctypes.c_void_p, _SIZE, _OUT_SIZE],
    "recording_screen": [_WORD, _U16, _U16, _SIZE, ctypes.c_uint64],
}
CLOSES = ("hub_close", "view_close", "screen_close", "recording_close", "filter_close")


def _found() -> str:
    """Where the library lies: as JEIHPAL_LIBRARY says, beside this module, or in the checkout."""
    told = os.environ.get("JEIHPAL_LIBRARY")
    places = (told,) if told else _PLACES
    for place in places:
        if os.path.isfile(place):
            return place
    how = "./build --unproved --library makes one in some three minutes, and ./build --library a proved one"
    raise ImportError(f"there is no libjeihpal.so at {' or '.join(places)}: {how}; both need rt, the Rattle toolchain")


def _check_processor() -> None:
    """Refuses a processor that lacks what the library's code needs."""
    try:
        with open("/proc/cpuinfo", encoding="ascii", errors="replace") as file:
            flags = next((line for line in file if line.startswith("flags")), "")
    except OSError:
        return
    if flags and not {"sse4_2", "popcnt"} <= set(flags.split()):
        raise ImportError("the library is for processors with SSE4.2 (x86-64-v2), which this one isn't")


def _loaded() -> ctypes.CDLL:
    """The library with its functions' types set."""
    path = _found()
    _check_processor()
    library = ctypes.CDLL(path)
    library.jeihpal_abi.restype, library.jeihpal_abi.argtypes = ctypes.c_uint32, []
    if library.jeihpal_abi() != ABI:
        raise ImportError(f"{path} has interface {library.jeihpal_abi()}, and this module is for {ABI}")
    for name, parameters in PARAMETERS.items():
        function = getattr(library, f"jeihpal_{name}")
        function.restype, function.argtypes = ctypes.c_int32, [_WORD, *parameters]
    for name in CLOSES:
        function = getattr(library, f"jeihpal_{name}")
        function.restype, function.argtypes = None, [_WORD]
    return library


library = _loaded()
