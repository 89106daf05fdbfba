"""Requests that no browser makes, and the answer to each."""

from __future__ import annotations

HOST = b"Host: localhost\r\n"


def request(line: bytes, fields: bytes = HOST) -> bytes:
    """A request of a first line and fields."""
    return line + b"\r\n" + fields + b"\r\n"


_LINES = (
    (b"GET  / HTTP/1.1", b"400"),
    (b" GET / HTTP/1.1", b"400"),
    (b"GET / HTTP/1.1 ", b"400"),
    (b"GET\t/\tHTTP/1.1", b"400"),
    (b"GET /", b"400"),
    (b"GET / HTTP/0.9", b"400"),
    (b"GET / HTTP/1.2", b"400"),
    (b"GET / HTTP/2", b"400"),
    (b"GET / http/1.1", b"400"),
    (b"GET / HTTP/1.1x", b"400"),
    (b"get / HTTP/1.1", b"400"),
    (b"G\x00T / HTTP/1.1", b"400"),
    (b"GET /\x00 HTTP/1.1", b"400"),
    (b"GET /\x7f HTTP/1.1", b"400"),
    (b"GET /\xc3\xa9 HTTP/1.1", b"400"),
    (b"GET /a b HTTP/1.1", b"400"),
    (b"GET events HTTP/1.1", b"400"),
    (b"GET * HTTP/1.1", b"400"),
    (b"GET http://localhost/ HTTP/1.1", b"400"),
    (b"GET http://evil.example/ HTTP/1.1", b"400"),
    (b"PRI * HTTP/2.0", b"400"),
    (b"CONNECT localhost:80 HTTP/1.1", b"400"),
    (b"OPTIONS * HTTP/1.1", b"400"),
    (b"OPTIONS / HTTP/1.1", b"405"),
    (b"PUT /events HTTP/1.1", b"405"),
    (b"DELETE / HTTP/1.1", b"405"),
    (b"TRACE / HTTP/1.1", b"405"),
    (b"PATCH / HTTP/1.1", b"405"),
    (b"POST /events HTTP/1.1", b"405"),
    (b"GETGET / HTTP/1.1", b"405"),
    (b"GET // HTTP/1.1", b"404"),
    (b"GET /. HTTP/1.1", b"404"),
    (b"GET /./ HTTP/1.1", b"404"),
    (b"GET /%2e%2e/ HTTP/1.1", b"404"),
    (b"GET /%65vents HTTP/1.1", b"404"),
    (b"GET /events/ HTTP/1.1", b"404"),
    (b"GET /Events HTTP/1.1", b"404"),
    (b"GET /events# HTTP/1.1", b"404"),
    (b"GET /events;x HTTP/1.1", b"404"),
    (b"GET /page.html HTTP/1.1", b"404"),
    (b"GET /favicon.ico HTTP/1.1", b"404"),
    (b"GET /../jeihpal_share/page.py HTTP/1.1", b"404"),
    (b"GET /\\..\\ HTTP/1.1", b"404"),
    (b"GET /<script> HTTP/1.1", b"404"),
    (b"GET /?" + b"a" * 4000 + b" HTTP/1.1", b"200"),
    (b"GET /?token=%00%ff&token=2 HTTP/1.1", b"200"),
    (b"GET / HTTP/1.0", b"200"),
    (b"HEAD / HTTP/1.0", b"200"),
)

_FIELDS = (
    (b"", b"400"),
    (b"Host:\r\n", b"421"),
    (b"Host: \r\n", b"421"),
    (b"Host: localhost, evil.example\r\n", b"421"),
    (b"Host: localhost evil.example\r\n", b"421"),
    (b"Host: localhost@evil.example\r\n", b"421"),
    (b"Host: evil.example#localhost\r\n", b"421"),
    (b"Host: localhost:80:80\r\n", b"421"),
    (b"Host: 127.0.0.1.\xff\r\n", b"421"),
    (b"Host: 2130706433\r\n", b"421"),
    (b"Host: 0x7f000001\r\n", b"421"),
    (b"Host: 127.1\r\n", b"421"),
    (b"Host: 0.0.0.0\r\n", b"421"),
    (b"Host: [::ffff:192.0.2.1]\r\n", b"421"),
    (HOST + b"Host: localhost\r\n", b"400"),
    (HOST + b"HOST: evil.example\r\n", b"400"),
    (b"Host : localhost\r\n", b"400"),
    (b" Host: localhost\r\n", b"400"),
    (HOST + b" folded: yes\r\n", b"400"),
    (HOST + b"X\r\n", b"400"),
    (HOST + b": x\r\n", b"400"),
    (HOST + b"X Y: z\r\n", b"400"),
    (HOST + b"X\x00: z\r\n", b"400"),
    (HOST + b"X: a\nHost: evil.example\r\n", b"400"),
    (HOST + b"X: " + b"y" * 9000 + b"\r\n", b"431"),
    (HOST + b"X: y\r\n" * 2000, b"431"),
    (HOST + b"X: \x01\x02\xff\r\n", b"200"),
    (HOST + b"Content-Length: 99\r\nTransfer-Encoding: chunked\r\n", b"200"),
    (HOST + b"Upgrade: websocket\r\nConnection: Upgrade\r\n", b"200"),
    (HOST + b"Expect: 100-continue\r\n", b"200"),
    (HOST + b"Origin: https://evil.example\r\n", b"200"),
    (HOST + b"Range: bytes=0-1\r\n", b"200"),
)

_WHOLE = (
    (b"\x16\x03\x01\x02\x00\x01\x00\x01\xfc\x03\x03" + bytes(range(14, 255)) + b"\r\n\r\n", b"400"),  # TLS
    (b"\x00" * 100 + b"\r\n\r\n", b"400"),
    (b"\r\n\r\nGET / HTTP/1.1\r\n" + HOST + b"\r\n", b"400"),
    (b"a" * 20000, b"431"),
    (b"\xff" * 20000, b"431"),
    (b"SSH-2.0-OpenSSH_9\r\n\r\n", b"400"),
    (request(b"GET / HTTP/1.1") * 50, b"200"),  # one answer, and the end
)

REQUESTS = [
    *((request(line), status) for line, status in _LINES),
    *((request(b"GET / HTTP/1.1", fields), status) for fields, status in _FIELDS),
    *_WHOLE,
]
