"""A program in a terminal, for tests."""

from __future__ import annotations

import os
import re
import shlex
import signal as signals
import time
import warnings
from typing import Callable, Mapping, NoReturn, Optional, Pattern, Sequence, Union

from jeihpal import Look

from ._failures import WaitFailed
from ._keys import click_bytes, key_bytes, pasted_bytes, typed_bytes
from ._picture import Picture, Place, Sought, framed
from ._process import Process, environment, status_words
from ._recording import Recording
from ._session import Session

Condition = Union[str, Pattern[str], Callable[[Picture], object]]
TIMEOUT = 10.0
_MOST_NAME = 100  # characters of the command in messages
_MOST_TOLD = 400  # bytes of what was written last, in what a failed wait says


class Terminal:
    """A program in a terminal. It is ended with this object, best by a `with`.

    >>> with Terminal("bash --norc", rows=5, cols=40) as terminal:
    ...     terminal.type("echo $((6 * 7))\\n")
    ...     screen = terminal.wait_for("42")
    ...     screen.find("42")
    Place(row=1, col=0)

    A thread of its own reads what the program writes, answers what it asks of its terminal, and reads the screen only
    at whole moments: when the program is silent for 10 ms and waits for something, and when it ends an update that it
    has marked as such (private mode 2026). A program that draws without a pause is looked at after each 0.2 s of
    processor time, or 2 s. A screen is a `Picture`, and never changes.
    """

    def __init__(
        self,
        command: Union[str, Sequence[str]],
        rows: int = 24,
        cols: int = 80,
        env: Optional[Mapping[str, Optional[str]]] = None,
        cwd: Union[None, str, os.PathLike[str]] = None,
        timeout: float = TIMEOUT,
    ) -> None:
        """Runs a command: words, or a text that is split as a shell does. There is no shell.

        `env` changes the environment: a name with None is removed. `timeout` is how many seconds a wait lasts if the
        call doesn't say. Raises ProgramNotFound.
        """
        self.command = shlex.split(command) if isinstance(command, str) else [str(word) for word in command]
        if not self.command:
            raise ValueError("there is no command")
        if not (0 < rows < 1 << 16 and 0 < cols < 1 << 16):
            raise ValueError("a size is 1 to 65,535 rows and columns")
        self.timeout = timeout
        self._sent: list[str] = []
        folder = None if cwd is None else os.fspath(cwd)
        process = Process(self.command, (rows, cols), environment(env), folder)
        self._recording = Recording(self.command, rows, cols)
        self._session = Session(process, self._recording, (rows, cols))
        self._raise_fault()

    # -- what it shows

    @property
    def screen(self) -> Picture:
        """The screen now: at the newest whole moment, once all bytes that have come are drawn."""
        session = self._session
        end = time.monotonic() + 1
        with session.changed:
            while not (session.is_fresh or session.is_done) and (left := end - time.monotonic()) > 0:
                session.changed.wait(left)
        self._raise_fault()
        return session.moments[-1]

    @property
    def modes(self) -> Look:
        """The modes that the program has set, with the size and the cursor."""
        return self._session.live.look

    @property
    def title(self) -> str:
        """The window's title, if the program has set one."""
        return self._session.live.title

    @property
    def bells(self) -> int:
        """How often the program has rung the bell."""
        return self._session.live.bells

    @property
    def clipboard(self) -> Optional[str]:
        """What the program has last put into the clipboard."""
        return self._session.live.clipboard

    @property
    def output(self) -> bytes:
        """The last 2,000 bytes that the program has written."""
        return self._session.last

    # -- what is sent

    def type(self, text: str) -> None:
        """Types a text. A line end is the Enter key."""
        self._send(typed_bytes(text), f"type {text!r}")

    def press(self, *keys: str) -> None:
        """Presses keys, each by its name or character: `Enter`, `Ctrl-C`, `Alt-x`, `Shift-Tab`, `Down`, `F5`, `q`."""
        sent = b"".join(key_bytes(key, self.modes) for key in keys)
        self._send(sent, f"press {' '.join(keys)}")

    def paste(self, text: str) -> None:
        """Pastes a text: marked as pasted if the program asks for that, else as if it were typed."""
        self._send(pasted_bytes(text, self.modes), f"paste {text!r}")

    def click(self, where: Union[Sought, tuple[int, int]], button: str = "left", modifiers: str = "") -> None:
        """Clicks at a row and a column, or at the first character of a text or of what a pattern finds.

        The button is `left`, `middle`, `right`, `wheel-up` or `wheel-down`. Modifiers are such as `Ctrl-Shift`. Raises
        ValueError if the program hasn't asked for mouse events, or the text isn't on the screen.
        """
        place = Place(*where) if isinstance(where, tuple) else self.screen.find(where)
        if place is None:
            raise ValueError(f"{_words_of(where)} isn't on the screen, so it can't be clicked at\n{self.screen}")
        sent = click_bytes(place.row, place.col, button, modifiers, self.modes)
        self._send(sent, f"click {place.row} {place.col}")

    def send(self, data: bytes) -> None:
        """Sends bytes as they are."""
        self._send(data, f"send {data!r}")

    def resize(self, rows: int, cols: int) -> None:
        """Gives the terminal another size, and notifies the program."""
        session = self._session

        def work(live: object) -> None:
            session.live.resize(rows, cols)
            session.process.resize(rows, cols)
            with session.changed:
                session.recording.resized(rows, cols)
                session.forget()
            session.publish()

        self._sent.append(f"resize {rows} {cols}")
        session.on_thread(work)

    def signal(self, which: Union[int, str]) -> None:
        """Sends a signal to the program that has the terminal: a number, or a name such as `INT`."""
        if isinstance(which, str):
            name = which.upper() if which.upper().startswith("SIG") else f"SIG{which.upper()}"
            if name not in signals.Signals.__members__:
                raise ValueError(f"there is no signal {which!r}")
            which = signals.Signals[name]
        self._sent.append(f"signal {signals.Signals(which).name}")
        self._session.process.signal(which)

    def _send(self, data: bytes, words: str) -> None:
        self._raise_fault()
        self._sent.append(words)
        self._session.send(data)

    # -- waiting

    def wait_for(self, what: Condition, timeout: Optional[float] = None) -> Picture:
        """Waits until a text is on the screen, a pattern finds something, or a function of the screen returns true.

        Returns the screen for which this is so. It checks every whole moment since something was last sent or the last
        wait found something, so it also finds a screen that came and went. Raises WaitFailed once the time is over, and
        immediately if the program has ended without it.
        """
        return self._waited(_test_of(what), _words_of(what), timeout)

    def wait_for_test(self, test: Callable[[Picture], object], words: str, timeout: Optional[float] = None) -> Picture:
        """As `wait_for`, with a function, and words for what it waits for."""
        __tracebackhide__ = True
        return self._waited(test, words, timeout)

    def wait_until_gone(self, what: Condition, timeout: Optional[float] = None) -> Picture:
        """Waits until a text, or what a pattern or a function finds, isn't on the screen now."""
        __tracebackhide__ = True
        test = _test_of(what)
        with self._session.changed:
            self._session.forget()
        return self._waited(lambda screen: not test(screen), f"{_words_of(what)} to be gone", timeout)

    def wait_until_quiet(self, seconds: float = 0.1, timeout: Optional[float] = None) -> Picture:
        """Waits until the program has written nothing for this many seconds, and hasn't run. Returns the screen.

        The seconds start again when something is sent.
        """
        __tracebackhide__ = True
        session, end = self._session, self._end(timeout)
        before, ran_at = session.process.activity(), 0.0
        while True:
            activity, now = session.process.activity(), time.monotonic()
            if activity.is_busy or activity != before:
                before, ran_at = activity, now
            with session.changed:
                self._raise_fault()
                silent = now - max(session.written_at, session.sent_at, ran_at)
                is_shown = session.is_fresh and not session.live.look.updating
                if session.is_done or (is_shown and silent >= seconds):
                    session.forget()
                    return session.moments[-1]
                if now >= end:
                    self._fail(f"{seconds} s without a byte", timeout)
            time.sleep(0.005)

    def wait_for_exit(self, timeout: Optional[float] = None) -> int:
        """Waits until the program has ended. Returns its status; less than 0 is a signal's number."""
        __tracebackhide__ = True
        session, end = self._session, self._end(timeout)
        with session.changed:
            while not session.is_done:
                left = end - time.monotonic()
                if left <= 0:
                    self._fail("the program's end", timeout)
                session.changed.wait(left)
        self._raise_fault()
        assert session.process.status is not None
        return session.process.status

    @property
    def status(self) -> Optional[int]:
        """The program's status, as `wait_for_exit` returns it; None while it runs."""
        return self._session.process.status if self._session.is_done else None

    def _end(self, timeout: Optional[float]) -> float:
        return time.monotonic() + (self.timeout if timeout is None else timeout)

    def _waited(self, test: Callable[[Picture], object], words: str, timeout: Optional[float]) -> Picture:
        """Waits for a moment for which a test returns true."""
        __tracebackhide__ = True
        session, end = self._session, self._end(timeout)
        seen = 0
        while True:
            with session.changed:
                self._raise_fault()
                unseen = min(session.count - seen, len(session.moments))
                moments = [session.moments[at] for at in range(-unseen, 0)]
                seen, is_done = session.count, session.is_done
            for number, screen in enumerate(moments, seen - len(moments) + 1):
                if test(screen):
                    self._forget_before(number)
                    return screen
            if is_done:
                self._fail(words, timeout)
            with session.changed:
                left = end - time.monotonic()
                if left <= 0:
                    self._fail(words, timeout)
                if session.count == seen and not session.is_done:
                    session.changed.wait(left)

    def _forget_before(self, number: int) -> None:
        """Makes the next wait begin with the moment of this number."""
        session = self._session
        with session.changed:
            while len(session.moments) > max(1, session.count - number + 1):
                session.moments.popleft()

    def _raise_fault(self) -> None:
        if self._session.fault:
            raise RuntimeError("the terminal has failed") from self._session.fault

    def _fail(self, words: str, timeout: Optional[float]) -> NoReturn:
        """Raises the error of a wait that has failed."""
        __tracebackhide__ = True
        seconds = self.timeout if timeout is None else timeout
        session = self._session
        with session.changed:
            screen = session.moments[-1]
            told = [f"waited in vain for {words}, {seconds:g} s"]
            if session.is_done:
                told = [f"waited in vain for {words}: the program has ended"]
            told += self._state()
            session.recording.marker(told[0])
        raise WaitFailed("\n".join(told), screen)

    def _state(self) -> list[str]:
        """Describes the program and its screen, for the message of a failed test."""
        session = self._session
        ago = time.monotonic() - session.written_at
        if session.is_done:
            assert session.process.status is not None
            said = f"{self._name} has ended {status_words(session.process.status)}"
        else:
            how = "runs" if session.process.activity().is_busy else "waits for something"
            when = f"wrote last {ago:.1f} s ago" if session.written else "has written nothing"
            said = f"{self._name} {how}, and {when}"
        told = [said, framed(session.moments[-1])]
        if session.live.look.updating:
            told.append("it is in a synchronized update, which isn't shown before its end")
        told.append(f"written last, of {session.written} bytes: {session.last[-_MOST_TOLD:]!r}")
        told.append(f"sent last: {'; '.join(self._sent[-3:]) or 'nothing'}")
        return told

    # -- what is left of it

    def recording(self) -> str:
        """The session as an asciicast of version 3: what was written, sent and resized, with times."""
        with self._session.changed:
            return self._recording.text()

    def mark(self, name: str) -> None:
        """Puts a marker into the recording."""
        with self._session.changed:
            self._recording.marker(name)

    def close(self) -> None:
        """Ends the program if it runs: it is hung up, and killed after two seconds. The screen can still be read."""
        self._session.close()

    def __enter__(self) -> Terminal:
        return self

    def __exit__(self, *_: object) -> None:
        self.close()

    def __del__(self) -> None:
        session = getattr(self, "_session", None)
        if session and not session.is_closed:
            warnings.warn(f"the terminal of {self.command[0]} wasn't closed", ResourceWarning, source=self)
            session.close()

    @property
    def _name(self) -> str:
        """The command in one short line."""
        line = shlex.join(self.command).replace("\n", "\\n")
        return line if len(line) <= _MOST_NAME else line[: _MOST_NAME - 3] + "..."

    def __repr__(self) -> str:
        state = "runs" if self.status is None else f"has ended {status_words(self.status)}"
        return f"<Terminal {self._name!r} {state}>"


def _test_of(what: Condition) -> Callable[[Picture], object]:
    """A function that says whether a screen is as wanted."""
    if isinstance(what, (str, re.Pattern)):
        sought = what
        return lambda screen: sought in screen
    if callable(what):
        return what
    raise TypeError("wait for a text, a pattern or a function of a screen")


def _words_of(what: object) -> str:
    """What is waited for, in words."""
    if isinstance(what, str):
        return repr(what)
    if isinstance(what, re.Pattern):
        return f"what {what.pattern!r} finds"
    name, code = getattr(what, "__name__", repr(what)), getattr(what, "__code__", None)
    if name == "<lambda>" and code:
        return f"what the function of {os.path.basename(code.co_filename)}:{code.co_firstlineno} wants"
    return f"what {name} wants"
