"""A server of share's page whose messages a test writes."""

from __future__ import annotations

import http.server
import json
import os
import queue
import threading
from typing import Any

from .sharing import PYTHON


class Scripted:
    """Serves the page, with times of its own, and the events to each connection that asks for them."""

    def __init__(self, **times: int) -> None:
        with open(os.path.join(PYTHON, "jeihpal_share", "page.html"), encoding="utf-8") as file:
            page = file.read()
        for name, milliseconds in times.items():
            before, _, after = page.partition(f"const {name} = ")
            page = f"{before}const {name} = {milliseconds};{after.partition(';')[2]}"
        self.page, self.asked = page.encode(), 0
        self._lock = threading.Lock()
        self._connections: list[queue.Queue[bytes | None]] = []  # the oldest first
        self._waiting: list[bytes] = []  # what is sent while there is no connection
        handler = type("Handler", (_Handler,), {"scripted": self})
        self._server = http.server.ThreadingHTTPServer(("127.0.0.1", 0), handler)
        self._server.daemon_threads = True
        self.url = "http://127.0.0.1:%d/" % self._server.server_address[1]
        threading.Thread(target=self._server.serve_forever, daemon=True).start()

    def send(self, message: dict[str, Any]) -> None:
        """Sends a message."""
        self._send(b"data: %s\n\n" % json.dumps(message).encode())

    def send_ended(self, status: int) -> None:
        """Sends the end."""
        self._send(b"event: ended\ndata: %d\n\n" % status)

    def _send(self, data: bytes) -> None:
        """Sends it on the newest connection, or else on the next one."""
        with self._lock:
            if self._connections:
                self._connections[-1].put(data)
            else:
                self._waiting.append(data)

    def cut(self) -> None:
        """Ends the oldest connection."""
        with self._lock:
            if self._connections:
                self._connections.pop(0).put(None)

    def connect(self) -> queue.Queue[bytes | None]:
        """A new connection: what is sent on it, and nothing more where it ends."""
        events: queue.Queue[bytes | None] = queue.Queue()
        with self._lock:
            for data in self._waiting:
                events.put(data)
            self._waiting.clear()
            self._connections.append(events)
            self.asked += 1
        return events

    def __enter__(self) -> Scripted:
        return self

    def __exit__(self, *_: object) -> None:
        while self._connections:
            self.cut()
        self._server.shutdown()
        self._server.server_close()


class _Handler(http.server.BaseHTTPRequestHandler):
    scripted: Scripted

    def do_GET(self) -> None:
        """The page, or its events."""
        is_page = self.path == "/"
        self.send_response(200)
        self.send_header("Content-Type", "text/html" if is_page else "text/event-stream")
        self.end_headers()
        if is_page:
            self.wfile.write(self.scripted.page)
            return
        events = self.scripted.connect()
        self.wfile.write(b"retry: 100\n\n")
        while (data := events.get()) is not None:
            self.wfile.write(data)

    def log_message(self, *_: Any) -> None:
        """Says nothing."""
