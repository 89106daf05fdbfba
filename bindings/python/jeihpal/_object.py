"""What hubs, views, screens and recordings share."""

from __future__ import annotations

import contextlib
import ctypes
import threading
from typing import Any, Callable, ClassVar, Iterator, Optional, TypeVar, overload

from ._cells import CELL_SIZE, Cell, Cursor, Look, Modes, Row, Size, cell_of, look_of, row_of
from ._errors import refusal
from ._library import RawCell, RawLook, Word, library

Self = TypeVar("Self", bound="Object")
_FIRST_ROOM = 4096


def checked_size(number: int) -> int:
    """A number of rows or columns that fits into the library's 16 bits. The library itself refuses 0."""
    if not 0 <= number < 1 << 16:
        raise ValueError("a size is 1 to 65,535 rows and columns")
    return number


def checked_place(number: int) -> int:
    """A row or column from 0."""
    if not 0 <= number < 1 << 16:
        raise IndexError("the place is outside the screen")
    return number


def checked_count(number: int) -> int:
    """A number that fits into a size_t."""
    if not 0 <= number < 1 << (8 * ctypes.sizeof(ctypes.c_size_t)):
        raise ValueError("a count is 0 or more, and fits into a machine word")
    return number


@contextlib.contextmanager
def locked(*objects: Object) -> Iterator[None]:
    """Keeps other threads from these objects. All callers take the locks of the same objects in the same order."""
    with contextlib.ExitStack() as stack:
        for it in sorted(objects, key=id):
            stack.enter_context(it._lock)
        yield


class Object:
    """A word of the library's, closed with this object.

    It may be used on any thread. Each call takes its lock.
    """

    _kind: ClassVar[str] = ""
    _most_cells: int | None = None

    def __init__(self, *arguments: Any, most_cells: int | None = None) -> None:
        self._begin()
        self._most_cells = None if most_cells is None else checked_count(most_cells)
        self._size("new", *arguments)

    def _begin(self) -> None:
        """What all objects have, before the library fills the word."""
        # A signal handler may make a call during another call on its thread, so the lock is reentrant.
        self._lock = threading.RLock()
        self._word = ctypes.pointer(Word())

    @classmethod
    def _function(cls, name: str) -> Callable[..., Any]:
        return getattr(library, f"jeihpal_{cls._kind}_{name}")  # type: ignore[no-any-return]

    def _call(self, name: str, *arguments: Any) -> int:
        """Calls one of the library's functions on this word. Raises an exception if it refuses."""
        with self._lock:
            code: int = self._function(name)(self._word, *arguments)
        if code < 0:
            raise refusal(code)
        return code

    def _size(self, name: str, *arguments: Any) -> None:
        """Calls a function that gives the object a size, with the object's limit of cells if it has one."""
        if self._most_cells is None:
            self._call(name, *arguments)
        else:
            self._call(f"{name}_within", *arguments, self._most_cells)

    def _give(self, name: str, data: bytes) -> None:
        """Calls a function that reads bytes."""
        data = data if isinstance(data, bytes) else bytes(memoryview(data))
        self._call(name, data, len(data))

    def _text(
        self,
        name: str,
        *arguments: Any,
        most: int | None = None,
        after: tuple[Any, ...] = (),
        first: int = _FIRST_ROOM,
    ) -> bytes:
        """The bytes that a function copies: all, or at most the first `most` of them. The room for them belongs to this
        call alone. At first it has `first` bytes."""
        return self._answered(name, *arguments, most=most, after=after, first=first)[1]

    def _answered(
        self,
        name: str,
        *arguments: Any,
        most: int | None = None,
        after: tuple[Any, ...] = (),
        first: int = _FIRST_ROOM,
    ) -> tuple[int, bytes]:
        """The function's result, and after it the bytes of `_text`."""
        room, count = ctypes.create_string_buffer(first), ctypes.c_size_t()
        while True:
            answer = self._call(name, *arguments, room, len(room), count, *after)
            wanted = count.value if most is None else min(most, count.value)
            if wanted <= len(room):
                return answer, ctypes.string_at(room, wanted)
            room = ctypes.create_string_buffer(2 * wanted)

    def close(self) -> None:
        """Frees the object. A later call raises ValueError, and another close does nothing."""
        with self._lock:
            self._function("close")(self._word)

    def __enter__(self: Self) -> Self:
        return self

    def __exit__(self, *_: object) -> None:
        self.close()

    def __del__(self) -> None:
        word: Optional[Any] = getattr(self, "_word", None)
        if word is not None:
            self._function("close")(word)

    def __copy__(self) -> Object:
        raise TypeError(f"a {type(self).__name__} can't be copied")

    def __reduce__(self) -> str:
        raise TypeError(f"a {type(self).__name__} can't be pickled")


class Shown(Object):
    """An object with a screen that is read."""

    def _begin(self) -> None:
        super()._begin()
        self._known_rows: dict[bytes, Row] = {}

    def look(self) -> Look:
        """The size, the cursor and the modes."""
        raw = RawLook()
        self._call("look", raw)
        return look_of(raw)

    @property
    def size(self) -> Size:
        """How many rows and columns there are."""
        look = self.look()
        return Size(look.rows, look.cols)

    @property
    def cursor(self) -> Cursor:
        """The cursor."""
        look = self.look()
        return Cursor(look.row, look.col, look.hidden, look.style)

    @property
    def modes(self) -> Modes:
        """The modes that the program has set."""
        look = self.look()
        return Modes(
            *(look.mouse, look.encoding, look.keypad, look.cursor_keys, look.paste, look.alternate, look.updating)
        )

    def cell(self, row: int, col: int) -> Cell:
        """The cell at a place. Raises IndexError outside of the screen."""
        raw = RawCell()
        self._call("cell", checked_place(row), checked_place(col), raw)
        return cell_of(raw)

    def _data(self, rows: range, cols: int) -> list[bytes]:
        """For each of these rows the library's structs, and after them whether it continues in the next row. The caller
        holds the lock."""
        size, count = cols * CELL_SIZE, ctypes.c_size_t()
        room = ctypes.create_string_buffer(size + 1)
        function, word, told, found = self._function("row_cells"), self._word, ctypes.byref(count), []
        wrapped = ctypes.cast(ctypes.addressof(room) + size, ctypes.POINTER(ctypes.c_uint8))
        for row in rows:
            code = function(word, row, room, cols, told, wrapped)
            if code < 0:
                raise refusal(code)
            found.append(room.raw)
        return found

    def _rows_of(self, rows: range, cols: int) -> list[Row]:
        known, made = self._known_rows, []
        seen: dict[bytes, Row] = {}
        for data in self._data(rows, cols):
            row = seen.get(data) or known.get(data)
            if row is None:
                row = row_of(data)
            seen[data] = row
            made.append(row)
        if len(rows) > 1:
            self._known_rows = seen  # those that stay are not made again
        return made

    def row(self, row: int) -> Row:
        """A row: its cells, from the first column to the last, and whether it continues in the next row. Raises
        IndexError outside of the screen."""
        with self._lock:
            return self._rows_of(range(checked_place(row), row + 1), self.look().cols)[0]

    @overload
    def cells(self) -> list[Row]: ...

    @overload
    def cells(self, row: int) -> list[Cell]: ...

    def cells(self, row: int | None = None) -> list[Cell] | list[Row]:
        """The cells of a row, from the first column to the last; or without a number the rows, each with its cells.

        A row's cells are a list, and all rows are a list of `Row`. Raises IndexError outside of the screen.
        """
        if row is not None:
            return list(self.row(row).cells)
        with self._lock:
            rows, cols = self.size
            return self._rows_of(range(rows), cols)

    @property
    def display(self) -> list[str]:
        """The text of each row, with a space for each empty column."""
        return [row.text for row in self.cells()]

    def row_text(self, row: int) -> str:
        """The text of a row without the empty columns at its end; nothing past the last row."""
        return self._text("row_text", checked_place(row)).decode()
