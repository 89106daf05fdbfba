"""Chromium, driven by a pipe: pages, values of scripts, pictures, and what a screen reader gets."""

from __future__ import annotations

import base64
import json
import os
import select
import shutil
import subprocess
import tempfile
from typing import Any

PROGRAM = shutil.which("chromium") or shutil.which("chromium-browser") or shutil.which("google-chrome")
_WORDS = ["--no-sandbox", "--disable-gpu", "--no-first-run", "--window-size=900,560"]


class Chromium:
    """A browser with one page. It has a window if an X display is given, and else none."""

    def __init__(self, url: str, *more: str, display: str | None = None) -> None:
        self._folder = tempfile.mkdtemp(prefix="chromium-")
        env = {**os.environ, "DISPLAY": display} if display else None
        more = (*more, *(() if display else ("--headless=new",)), "--remote-debugging-pipe", f"--user-data-dir={self._folder}")
        words = [str(PROGRAM), *_WORDS, *more, "about:blank"]
        there, self._write = os.pipe()
        self._read, back = os.pipe()
        # It reads commands at 3 and writes answers at 4.
        line = 'exec "$@" 3<&"$IN" 4>&"$OUT"'
        self._run = subprocess.Popen(
            ["bash", "-c", line.replace('"$IN"', str(there)).replace('"$OUT"', str(back)), "", *words],
            pass_fds=(there, back),
            env=env,
            stdin=subprocess.DEVNULL,
            stdout=subprocess.DEVNULL,
            stderr=subprocess.DEVNULL,
            start_new_session=True,
        )
        os.close(there)
        os.close(back)
        self._number, self._said = 0, b""
        self._page: dict[str, str] = {}
        target = self.ask("Target.createTarget", url=url)["targetId"]
        self._page = {"sessionId": self.ask("Target.attachToTarget", targetId=target, flatten=True)["sessionId"]}

    def ask(self, method: str, **params: Any) -> dict[str, Any]:
        """Calls a method, and returns its result."""
        self._number += 1
        message = {"id": self._number, "method": method, "params": params, **self._page}
        os.write(self._write, json.dumps(message).encode() + b"\0")
        while True:
            answer = json.loads(self._next())
            if answer.get("id") == self._number:
                return answer["result"]

    def _next(self) -> bytes:
        while b"\0" not in self._said:
            if not select.select([self._read], [], [], 20)[0]:
                raise TimeoutError
            data = os.read(self._read, 1 << 20)
            if not data:
                raise ConnectionError("the browser has ended")
            self._said += data
        first, _, self._said = self._said.partition(b"\0")
        return first

    def value(self, expression: str) -> Any:
        """The value of a script's expression in the page."""
        return self.ask("Runtime.evaluate", expression=expression, returnByValue=True)["result"].get("value")

    def picture(self) -> bytes:
        """What the page looks like, as PNG."""
        return base64.b64decode(self.ask("Page.captureScreenshot", format="png")["data"])

    def told(self) -> list[tuple[str, str]]:
        """What a screen reader gets: roles and names."""
        self.ask("Accessibility.enable")
        nodes = self.ask("Accessibility.getFullAXTree")["nodes"]
        seen = [node for node in nodes if not node.get("ignored")]
        return [(node["role"]["value"], node.get("name", {}).get("value", "")) for node in seen]

    def __enter__(self) -> Chromium:
        return self

    def __exit__(self, *_: object) -> None:
        os.killpg(self._run.pid, 9)
        self._run.wait()
        os.close(self._read)
        os.close(self._write)
        shutil.rmtree(self._folder, ignore_errors=True)
