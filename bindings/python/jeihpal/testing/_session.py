"""A program and its screen, read on a thread of their own."""

from __future__ import annotations

import collections
import concurrent.futures
import contextlib
import os
import select
import signal
import threading
import time
from typing import Any, Callable, Deque, NamedTuple, Optional, Tuple, TypeVar

from ._live import LiveScreen
from ._picture import Picture
from ._process import Process
from ._recording import Recording

Made = TypeVar("Made")
_Job = Tuple["concurrent.futures.Future[Any]", Callable[[LiveScreen], Any]]
PAUSE = 0.01  # seconds; a program that writes nothing for this long, and waits, has finished drawing
_RESTLESS = 0.2  # seconds of processor time; a program that draws this long without a pause is looked at in between
_LATEST = 2.0  # seconds; the same for one that draws this long
_DRAIN = 0.3  # seconds that what the program has started may write on after its end
_MOST_LAST = 2000  # bytes of what was written last
_MOST_MOMENTS = 1000
_HANG_UP = 2.0  # seconds that a program may take to end after it was hung up


class _Begun(NamedTuple):
    """When the program began to draw what isn't in a moment yet."""

    at: float
    ticks: int
    """The program's processor time then, in hundredths of a second."""
    reading: float
    """The reader's processor time then, in seconds."""


class Session:
    """What a terminal reads and sends, on its thread. Its fields are read under its lock, `changed`."""

    def __init__(self, process: Process, recording: Recording, size: tuple[int, int]) -> None:
        self.process, self.recording = process, recording
        self.changed = threading.Condition()
        self.moments: Deque[Picture] = collections.deque(maxlen=_MOST_MOMENTS)
        """The moments since the last thing that was sent, or the last wait that found something; the newest always."""
        self.count = 0
        """How many moments there were."""
        self.last = b""
        """What was written last."""
        self.written = 0
        """How many bytes were written."""
        self.written_at = time.monotonic()
        """When the last of them came."""
        self.sent_at = self.written_at
        """When something was sent last."""
        self.is_fresh = False
        """Whether nothing has been written since the newest moment."""
        self.is_done = False
        """Whether the program has ended, and all was read."""
        self.fault: Optional[BaseException] = None
        self._outgoing = bytearray()
        self._jobs: Deque[_Job] = collections.deque()
        self._first_unseen: Optional[_Begun] = None
        self._look_again_at = 0.0  # before this time the program's activity isn't checked
        self._wake_read, self._wake_write = os.pipe()
        for fd in (self._wake_read, self._wake_write):
            os.set_blocking(fd, False)
        self._is_closing = False
        self._size = size
        self._ended_at: Optional[float] = None
        self._started = threading.Event()
        self._thread = threading.Thread(target=self._run, name=f"jeihpal {process.pid}", daemon=True)
        self._thread.start()
        self._started.wait()

    # -- on other threads

    def send(self, data: bytes) -> None:
        """Sends bytes to the program. Earlier moments are forgotten, except the newest."""
        with self.changed:
            self.recording.input(data)
            self._outgoing += data
            self.sent_at = time.monotonic()
            self.forget()
        self._wake()

    def forget(self) -> None:
        """Forgets all moments except the newest. The caller holds the lock."""
        while len(self.moments) > 1:
            self.moments.popleft()

    def on_thread(self, work: Callable[[LiveScreen], Made], seconds: float = 30.0) -> Made:
        """Does some work on the thread, and returns its result."""
        made: concurrent.futures.Future[Made] = concurrent.futures.Future()
        with self.changed:
            if self._is_closing or self.fault:
                raise RuntimeError("the terminal is closed") from self.fault
            self._jobs.append((made, work))
        self._wake()
        return made.result(seconds)

    def close(self) -> None:
        """Ends the program if it runs, and the thread."""
        with self.changed:
            self._is_closing = True
        self._wake()
        if threading.current_thread() is not self._thread:
            self._thread.join()
        with self.changed:
            for fd in (self._wake_read, self._wake_write):
                if fd >= 0:
                    os.close(fd)
            self._wake_read = self._wake_write = -1

    @property
    def is_closed(self) -> bool:
        """Whether it was closed."""
        return self._wake_write < 0

    def _wake(self) -> None:
        with self.changed:
            if self._wake_write >= 0:
                with contextlib.suppress(BlockingIOError):  # it is woken already
                    os.write(self._wake_write, b"!")

    # -- on the thread

    def _run(self) -> None:
        try:
            with contextlib.closing(LiveScreen(*self._size)) as self.live:
                self._publish(self.live.picture())
                self._started.set()
                while not self._is_closing:
                    self._turn()
        except BaseException as error:  # it is raised for a caller that waits
            self.fault = error
        finally:
            self._end()
            self._started.set()

    def _turn(self) -> None:
        """Waits until there is something to do, and does it."""
        poll = select.poll()
        poll.register(self._wake_read, select.POLLIN)
        if not self.is_done:
            poll.register(self.process.fd, select.POLLIN | (select.POLLOUT if self._outgoing else 0))
        if self.process.status is None and self.process.ended_fd is not None:
            poll.register(self.process.ended_fd, select.POLLIN)
        found = dict(poll.poll(self._patience()))
        if self._wake_read in found:
            os.read(self._wake_read, 4096)
        if found.get(self.process.fd, 0) & select.POLLOUT:
            self._send_waiting()
        if found.get(self.process.fd, 0) & ~select.POLLOUT:
            self._take()
        self._notice_end()
        self._notice_moment()
        while self._jobs:
            self._do(*self._jobs.popleft())

    def _do(self, made: concurrent.futures.Future[Any], work: Callable[[LiveScreen], Any]) -> None:
        try:
            made.set_result(work(self.live))
        except BaseException as error:  # it is raised when the result is asked for
            made.set_exception(error)

    def _patience(self) -> Optional[float]:
        """How many milliseconds it may wait for more."""
        if self._first_unseen is not None:
            return 1000 * PAUSE / 2
        if self.is_done or (self.process.status is None and self.process.ended_fd is not None):
            return None
        return 20

    def _send_waiting(self) -> None:
        with self.changed:
            data = bytes(self._outgoing[:4096])
        sent = self.process.write(data)
        with self.changed:
            del self._outgoing[:sent]

    def _take(self) -> None:
        """The program's next bytes."""
        data = self.process.read()
        if data:
            with self.changed:
                self.recording.output(data)
                self.last = (self.last + data)[-_MOST_LAST:]
                self.written += len(data)
                self.written_at = time.monotonic()
            answers = self.live.feed(data, self._publish)
            with self.changed:
                self._outgoing += answers
                self.is_fresh = False
                if self.recording.is_full:
                    self.recording.begin_anew(self.live.state(), self.live.look.rows, self.live.look.cols)
            if self._first_unseen is None:
                self._first_unseen = _Begun(time.monotonic(), self.process.activity().ticks, time.thread_time())
        elif data is not None and self.process.has_ended():
            self._finish()
        elif data is not None:
            time.sleep(0.005)  # it has closed its terminal, but runs

    def _notice_end(self) -> None:
        """Finishes once the program has ended and is silent, even if other processes still have its terminal."""
        if self.is_done or not self.process.has_ended():
            return
        now = time.monotonic()
        self._ended_at = self._ended_at or now
        if now - max(self._ended_at, self.written_at) > _DRAIN:
            self._finish()

    def _finish(self) -> None:
        """All was read."""
        self.live.end_update()
        self._publish(self.live.picture())
        assert self.process.status is not None
        with self.changed:
            self._first_unseen = None
            self.recording.ended(self.process.status)
            self.is_done = True
            self.changed.notify_all()

    def _notice_moment(self) -> None:
        """Checks whether the program has finished drawing."""
        if self._first_unseen is None or not self._has_drawn(self._first_unseen):
            return
        if self.live.look.updating:
            with self.changed:
                self.is_fresh = True  # the newest moment is the one before the update
                self.changed.notify_all()
        else:
            self.publish()
        self._first_unseen = None

    def _has_drawn(self, begun: _Begun) -> bool:
        """Whether it is silent and waits, or has drawn for so long without a pause that it is looked at in between."""
        now = time.monotonic()
        is_silent, is_restless = now - self.written_at >= PAUSE, now - begun.at > _RESTLESS
        if not (is_silent or is_restless) or now < self._look_again_at:
            return False
        self._look_again_at = now + PAUSE / 2
        activity = self.process.activity()
        if activity.is_busy or self._has_more():
            taken = (activity.ticks - begun.ticks) / 100 + time.thread_time() - begun.reading
            return taken > _RESTLESS or now - begun.at > _LATEST
        return True

    def _has_more(self) -> bool:
        """Whether more can be read immediately."""
        poll = select.poll()
        poll.register(self.process.fd, select.POLLIN)
        return any(event & select.POLLIN for _, event in poll.poll(0))

    def publish(self) -> None:
        """Keeps the screen as it is now as a moment. Called on the thread."""
        self._publish(self.live.picture())
        self._first_unseen = None

    def _publish(self, picture: Picture) -> None:
        """Adds a moment of the screen, unless it is the newest one already."""
        with self.changed:
            if not self.moments or picture is not self.moments[-1]:
                self.moments.append(picture)
                self.count += 1
            self.is_fresh = True
            self.changed.notify_all()

    def _end(self) -> None:
        """Ends the program, and wakes all that wait."""
        process = self.process
        for number in (signal.SIGHUP, signal.SIGCONT):
            process.kill(number)
        end = time.monotonic() + _HANG_UP
        while not process.has_ended():
            process.read()
            if time.monotonic() > end:
                process.kill(signal.SIGKILL)
            time.sleep(0.005)
        process.close()
        with self.changed:
            self._is_closing = self.is_done = True
            while self._jobs:
                self._jobs.popleft()[0].set_exception(RuntimeError("the terminal is closed"))
            self.changed.notify_all()
