"""Screens."""

from __future__ import annotations

import ctypes
from collections import deque
from typing import Any, Callable, Iterator, NamedTuple, TypeVar

from ._cells import Drawing, OpenEnum, Row, drawing_of
from ._filter import Filter
from ._library import RawDrawing, RawRequest
from ._object import Shown, checked_count, checked_place, checked_size, locked

_MOST_REQUESTS = 256
_FIRST_ROOM = 4096
Made = TypeVar("Made")


class RequestKind(OpenEnum):
    """What a program asks of its terminal beyond drawing."""

    BELL = 1
    VISUAL_BELL = 2
    RESIZE = 3
    ICON_NAME = 4
    TITLE = 5
    COPY = 6
    PASTE = 7
    UNHANDLED_CHAR = 8
    """U+FFFD, which malformed bytes give too. It and the kinds below are queued only if `Screen.tell` asks for them."""
    UNHANDLED_CONTROL = 9
    UNHANDLED_ESCAPE = 10
    UNHANDLED_CSI = 11
    UNHANDLED_OSC = 12
    ROW = 13
    """A row left the screen for good: it isn't kept, or was pushed out of the rows that are."""
    ALTERNATE_ROW = 14


_ROWS = (RequestKind.ROW, RequestKind.ALTERNATE_ROW)


class Request(NamedTuple):
    """A program's request. Its bytes are as the program wrote them, and needn't be UTF-8."""

    kind: RequestKind
    text: bytes
    """A name, a title, or data in base64; of a sequence all but its intermediates; a row with its attributes, and a
    newline if it doesn't go on in the next one."""
    clipboards: bytes
    """Letters of clipboards, of COPY and PASTE; intermediates, of UNHANDLED_ESCAPE and UNHANDLED_CSI."""
    rows: int
    cols: int


class Screen(Shown):
    """A terminal's screen made of a program's bytes, with rows that scroll off, and escape sequences that redraw it."""

    _kind = "screen"

    dropped_requests: int
    """How many requests had been dropped when `requests` last read the queue."""

    def __init__(
        self, rows: int, cols: int, scrollback: int = 0, *, draws_lines: bool = False, most_cells: int | None = None
    ) -> None:
        """A blank screen of this size that keeps at most `scrollback` rows that scroll off.

        If it draws lines, what the program writes passes through a `Filter` first. A size of more than `most_cells`
        cells raises TooLarge, here and in `resize`, also of a clone. Kept rows don't count.
        """
        self._prepare(draws_lines)
        size = checked_size(rows), checked_size(cols)
        super().__init__(*size, checked_count(scrollback), most_cells=most_cells)

    def _prepare(self, draws_lines: bool = False) -> None:
        self._filter = Filter() if draws_lines else None
        self.dropped_requests = self._overfull = 0
        self._waiting: deque[Request] = deque()
        self._names = {RequestKind.TITLE: "", RequestKind.ICON_NAME: ""}
        self._clean: tuple[list[bytes], int] = ([], 0)
        self._scanner: Any = None

    def clone(self) -> Screen:
        """A copy of the screen, without its mark, its requests, and what it has read of a character or a sequence.

        If it draws lines, so does the copy, starting with the usual character sets.
        """
        return self._copied("clone")

    __copy__ = clone

    def __deepcopy__(self, _: object) -> Screen:
        return self.clone()

    def clone_visible(self) -> Screen:
        """As `clone`, but the copy draws on copies of the rows that are shown, kept ones too, and keeps none.

        So its redraws and differences lead a terminal to what is shown, whether kept rows are shown or not. If a kept
        row is wider than the screen, a wide character that the right edge cuts is blank.
        """
        return self._copied("clone_visible")

    def _copied(self, name: str) -> Screen:
        copy = type(self).__new__(type(self))
        copy._prepare(self._filter is not None)
        copy._begin()
        copy._most_cells = self._most_cells
        with self._lock:
            copy._call(name, self._word)
            self._take_requests()  # a title may wait there
            copy._names, copy._clean = dict(self._names), self._clean
        return copy

    # ---- what changes it

    def process(self, data: bytes) -> None:
        """Reads the program's next bytes. They may be cut anywhere.

        After a MemoryError the screen has failed: it can still be read, but no bytes change it any more.
        """
        with self._lock:
            self._give("process", self._filter.drawn(data) if self._filter else data)

    def answer(self, data: bytes) -> bytes:
        """Reads the program's next bytes, as `process` does, and returns what a terminal sends back for them.

        Programs ask for the cursor's place (DSR), what the terminal is (DA), its size, modes and colours, and some
        wait for the answer. Each answer is for the screen as it was when the question was read.
        """
        from .testing._answers import Scanner, answer, is_update

        data = data if isinstance(data, bytes) else bytes(memoryview(data))
        said = b""
        with self._lock:
            if self._scanner is None:
                self._scanner = Scanner()
            for piece in self._scanner.pieces(data):
                self.process(piece.data)
                if piece.asked is not None and not is_update(piece.asked):
                    said += answer(piece.asked, self.look())
        return said

    def resize(self, rows: int, cols: int) -> None:
        """Gives the screen another size, or the same, ends the program's synchronized update, and drops the mark."""
        self._size("resize", checked_size(rows), checked_size(cols))

    def scroll(self, rows: int) -> None:
        """Shows the newest `rows` kept rows above the others, or all if there are fewer.

        Redraws and differences lead a terminal to the picture only if no kept row is shown, or from copies that
        `clone_visible` makes.
        """
        self._call("scroll", checked_count(rows))

    def clear_scrollback(self) -> None:
        """Removes the kept rows."""
        self._call("clear_scrollback")

    # ---- what it shows

    def contents(self) -> str:
        """The text of the rows that are shown."""
        return self._text("contents").decode()

    def contents_between(self, start: tuple[int, int], end: tuple[int, int]) -> str:
        """The text from one place up to another, each a row and a column."""
        places = [checked_size(number) for number in (*start, *end)]
        return self._text("contents_between", *places).decode()

    @property
    def drawing(self) -> Drawing:
        """How the next character is drawn."""
        raw = RawDrawing()
        self._call("drawing", raw)
        return drawing_of(raw)

    @property
    def history(self) -> History:
        """The rows that have scrolled off and are kept, the oldest first. Reading them moves nothing."""
        return History(self)

    # ---- what has changed

    def clean(self) -> None:
        """From now on `dirty` compares with the screen as it is now."""
        with self._lock:
            rows, cols = self.size
            self._clean = self._data(range(rows), cols), cols

    @property
    def dirty(self) -> set[int]:
        """The numbers of the rows that differ from what they were at the last `clean`: all rows if there was none, or
        if the number of columns has changed since."""
        with self._lock:
            rows, cols = self.size
            before, cols_before = self._clean
            if cols_before != cols:
                return set(range(rows))
            now = self._data(range(rows), cols)
        return {row for row, data in enumerate(now) if row >= len(before) or data != before[row]}

    # ---- what redraws it

    def contents_formatted(self) -> bytes:
        """The escape sequences that take a terminal of this size to the screen's picture, whatever it showed before. If
        a kept row is shown, they may lead to another picture (`scroll`)."""
        return self._text("contents_formatted")

    def contents_formatted_basic(self) -> bytes:
        """The rows as text with its attributes alone: nothing but SGR and newlines between the characters."""
        return self._text("contents_formatted_basic")

    def state(self) -> bytes:
        """The escape sequences that take a fresh terminal of this size to the screen's picture, modes and cursor style.
        For kept rows see `contents_formatted`."""
        return self._text("state")

    def input_mode_formatted(self) -> bytes:
        """The escape sequences that set the modes and the cursor's style."""
        return self._text("input_mode_formatted")

    def attributes_formatted(self) -> bytes:
        """The escape sequences that set how the next character is drawn."""
        return self._text("attributes_formatted")

    def cursor_state_formatted(self) -> bytes:
        """The escape sequences that bring a terminal's cursor to the screen's, and hide or show it. If a kept row is
        shown, they may print a character over another one."""
        return self._text("cursor_state_formatted")

    def rows_formatted(self, start: int = 0, width: int | None = None) -> list[bytes]:
        """The escape sequences that draw each row on a row of default cells: `width` columns from `start`, or all."""
        return self._texts("rows_formatted", [], start, width)

    def mark(self) -> None:
        """Marks the screen as it is now: keeps a copy of it, in place of an earlier mark."""
        self._call("mark")

    def difference(self, earlier: Screen | None = None) -> bytes:
        """The escape sequences that take a terminal from what an earlier screen shows to what this one shows.

        Without an earlier screen they lead from what the mark shows, and without a mark they are those of `state`. If
        either screen shows a kept row, they may lead to another picture.
        """
        return self._text("difference") if earlier is None else self._from(earlier, "state_diff")

    def contents_difference(self, earlier: Screen) -> bytes:
        """As `difference`, for the pictures alone."""
        return self._from(earlier, "contents_diff")

    def input_mode_difference(self, earlier: Screen) -> bytes:
        """As `difference`, for the modes and the cursor's style alone."""
        return self._from(earlier, "input_mode_diff")

    def rows_difference(self, earlier: Screen, start: int = 0, width: int | None = None) -> list[bytes]:
        """The escape sequences that draw each row over the one that an earlier screen shows there."""
        if earlier is self:
            return [b""] * self.size.rows
        with locked(self, earlier):
            return self._texts("rows_diff", [earlier._word], start, width)

    def _from(self, earlier: Screen, name: str) -> bytes:
        if earlier is self:
            return b""
        with locked(self, earlier):
            return self._text(name, earlier._word)

    def _texts(self, name: str, words: list[Any], start: int, width: int | None) -> list[bytes]:
        """The bytes that a function copies for each row."""
        with self._lock:
            rows, cols = self.size
            columns = checked_place(start), cols if width is None else checked_size(width)
            lengths, count = (ctypes.c_size_t * rows)(), ctypes.c_size_t()
            data = self._text(name, *words, *columns, after=(lengths, rows, count))
        made, at = [], 0
        for length in lengths[: count.value]:
            made.append(data[at : at + length])
            at += length
        return made

    # ---- what the program asks for

    def tell(self, *, unhandled: bool = False, rows: bool = False) -> None:
        """Sets whether `requests` from now on gives what the screen does nothing for, and whether it gives rows that
        leave the screen for good. For a new screen and a clone it gives neither."""
        self._call("tell", unhandled, rows)

    def requests(self) -> Iterator[Request]:
        """Takes what the program has asked for out of the screen's queue, oldest first.

        The queue holds up to 256 requests, each with a text of up to 1,021 bytes. Others are dropped. No text is cut.
        Rows wait as long as there is memory, and count among the 256.
        """
        while True:
            self._take_requests()
            if not self._waiting:
                return
            yield self._waiting.popleft()

    @property
    def title(self) -> str:
        """The window's title, as the program set it last."""
        self._take_requests()
        return self._names[RequestKind.TITLE]

    @property
    def icon_name(self) -> str:
        """The name of the window's icon, as the program set it last."""
        self._take_requests()
        return self._names[RequestKind.ICON_NAME]

    def _take_requests(self) -> None:
        """Takes all requests out of the library's queue. At most as many wait here as can wait there."""
        raw, room = RawRequest(), ctypes.create_string_buffer(_FIRST_ROOM)
        with self._lock:
            while kind := self._call("request", room, len(room), raw):
                if raw.length > len(room):
                    room = ctypes.create_string_buffer(raw.length)  # the request is still the oldest
                    continue
                text = ctypes.string_at(room, raw.length)
                request = Request(RequestKind(kind), text[raw.letters :], text[: raw.letters], raw.rows, raw.cols)
                if request.kind in self._names:
                    self._names[request.kind] = request.text.decode(errors="replace")
                if len(self._waiting) < _MOST_REQUESTS or request.kind in _ROWS:
                    self._waiting.append(request)
                else:
                    self._overfull += 1
            self.dropped_requests = raw.dropped + self._overfull


class History:
    """The rows that a screen keeps, the oldest first."""

    def __init__(self, screen: Screen) -> None:
        self._screen = screen

    def __len__(self) -> int:
        return self._screen.look().kept

    def __getitem__(self, number: int) -> Row:
        """The row of this number; a negative one counts from the newest, which is -1."""
        return self._read(number, lambda screen: screen.row(0))

    def __iter__(self) -> Iterator[Row]:
        return (self[number] for number in range(len(self)))

    def text(self, number: int) -> str:
        """The text of the row of this number, without the empty columns at its end."""
        return self._read(number, lambda screen: screen.row_text(0))

    def _read(self, number: int, read: Callable[[Screen], Made]) -> Made:
        """What `read` returns while this row is shown at the top. After that, the rows of before are shown again."""
        screen = self._screen
        with locked(screen):
            look = screen.look()
            place = number + look.kept if number < 0 else number
            if not 0 <= place < look.kept:
                raise IndexError("there is no such row")
            screen.scroll(look.kept - place)
            try:
                return read(screen)
            finally:
                screen.scroll(look.scrolled)
