"""Firefox, driven over Marionette: a page, values of scripts, and a picture."""

from __future__ import annotations

import base64
import json
import os
import shutil
import signal
import socket
import subprocess
import tempfile
import time
from typing import Any

PROGRAM = shutil.which("firefox-esr") or shutil.which("firefox")
_PREFERENCES = """user_pref("marionette.port", 0);
user_pref("browser.shell.checkDefaultBrowser", false);
user_pref("datareporting.policy.dataSubmissionEnabled", false);
user_pref("toolkit.telemetry.enabled", false);
user_pref("app.update.enabled", false);
"""
_SECONDS = 120.0


class Firefox:
    """A browser with one page. It has a window if an X display is given, and else none."""

    def __init__(self, url: str, display: str | None = None) -> None:
        self._folder = tempfile.mkdtemp(prefix="firefox-")
        with open(os.path.join(self._folder, "user.js"), "w", encoding="utf-8") as file:
            file.write(_PREFERENCES)
        words = [str(PROGRAM), "--marionette", "--no-remote", "--profile", self._folder]
        words += [] if display else ["--headless"]
        env = {**os.environ, "MOZ_HEADLESS_WIDTH": "900", "MOZ_HEADLESS_HEIGHT": "640", "HOME": self._folder}
        env.update({"DISPLAY": display} if display else {})
        quiet = subprocess.DEVNULL
        self._run = subprocess.Popen(words, env=env, stdin=quiet, stdout=quiet, stderr=quiet, start_new_session=True)
        self._number, self._said = 0, b""
        self._sock = self._connected()
        self._next()  # it says who it is
        self.ask("WebDriver:NewSession", capabilities={})
        self.ask("WebDriver:Navigate", url=url)

    def _connected(self) -> socket.socket:
        """A connection, once it says where it listens."""
        path, end = os.path.join(self._folder, "MarionetteActivePort"), time.monotonic() + _SECONDS
        while time.monotonic() < end:
            try:
                with open(path, encoding="ascii") as file:
                    return socket.create_connection(("127.0.0.1", int(file.read())), timeout=_SECONDS)
            except (OSError, ValueError):
                time.sleep(0.1)
        raise TimeoutError("the browser doesn't listen")

    def ask(self, name: str, **params: Any) -> Any:
        """Calls a command, and returns its result."""
        self._number += 1
        message = json.dumps([0, self._number, name, params]).encode()
        self._sock.sendall(b"%d:%s" % (len(message), message))
        while True:
            kind, number, error, result = json.loads(self._next())
            if (kind, number) == (1, self._number):
                if error:
                    raise RuntimeError(error["message"])
                return result

    def _next(self) -> bytes:
        while b":" not in self._said:
            self._more()
        length, _, self._said = self._said.partition(b":")
        while len(self._said) < int(length):
            self._more()
        said, self._said = self._said[: int(length)], self._said[int(length) :]
        return said

    def _more(self) -> None:
        data = self._sock.recv(1 << 20)
        if not data:
            raise ConnectionError("the browser has ended")
        self._said += data

    def value(self, expression: str) -> Any:
        """The value of a script's expression in the page."""
        return self.ask("WebDriver:ExecuteScript", script=f"return {expression}", args=[])["value"]

    def picture(self) -> bytes:
        """What the page looks like, as PNG."""
        return base64.b64decode(self.ask("WebDriver:TakeScreenshot", full=False)["value"])

    def __enter__(self) -> Firefox:
        return self

    def __exit__(self, *_: object) -> None:
        self._sock.close()
        os.killpg(self._run.pid, signal.SIGKILL)
        self._run.wait()
        shutil.rmtree(self._folder, ignore_errors=True)
