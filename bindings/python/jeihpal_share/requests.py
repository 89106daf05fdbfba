"""Requests of browsers, and the heads of their answers."""

from __future__ import annotations

import asyncio
import contextlib
import ipaddress
import re
import socket
from typing import NamedTuple

MOST_HEADER = 8192  # bytes
HEADER_SECONDS = 5.0
_FAREWELL_SECONDS = 1.0
_SAFE_FIELDS = """Cache-Control: no-store
Connection: close
Cross-Origin-Resource-Policy: same-origin
Referrer-Policy: no-referrer
X-Content-Type-Options: nosniff
"""
_FIELD = re.compile(r"([!#$%&'*+.^_`|~0-9A-Za-z-]+):[ \t]*(.*?)[ \t]*")


class Refused(Exception):
    """A request that isn't answered as it wishes: with a status instead."""


class Request(NamedTuple):
    """What is asked for."""

    path: str
    query: str
    is_head: bool
    """Only the head of the answer is wanted."""


def head_of(status: str, fields: str) -> bytes:
    """The head of an answer."""
    return f"HTTP/1.1 {status}\n{fields}{_SAFE_FIELDS}\n".replace("\n", "\r\n").encode()


def is_loopback(host: str) -> bool:
    """Whether a name or address is this machine's own. Others may lead here by a name server that lies."""
    name = host.lower().removesuffix(".")
    if name == "localhost":
        return True
    try:
        return ipaddress.ip_address(name.strip("[]")).is_loopback
    except ValueError:
        return False


def parsed_request(head: bytes, is_local: bool) -> Request:
    """The request that a head makes. Raises Refused if it isn't one that is answered."""
    lines = head.decode("latin-1").split("\r\n")
    asked = re.fullmatch(r"([A-Z]+) (/[!-~]*) HTTP/1\.[01]", lines[0])
    fields = [_FIELD.fullmatch(line) for line in lines[1:] if line]
    if not asked or not all(fields):
        raise Refused("400 Bad Request")
    hosts = [field[2] for field in fields if field and field[1].lower() == "host"]
    if len(hosts) > 1 or (not hosts and lines[0].endswith("1.1")):
        raise Refused("400 Bad Request")
    if is_local and not all(is_loopback(re.sub(r":\d*$", "", host)) for host in hosts):
        raise Refused("421 Misdirected Request")
    if asked[1] not in ("GET", "HEAD"):
        raise Refused("405 Method Not Allowed")
    path, _, query = asked[2].partition("?")
    return Request(path, query, asked[1] == "HEAD")


async def read_head(loop: asyncio.AbstractEventLoop, sock: socket.socket) -> tuple[bytes, bytes]:
    """The head of a request, and what came after it. Raises Refused if it is too long, or takes too long."""
    try:
        return await asyncio.wait_for(_read_head(loop, sock), HEADER_SECONDS)
    except asyncio.TimeoutError:
        raise Refused("408 Request Timeout") from None


async def _read_head(loop: asyncio.AbstractEventLoop, sock: socket.socket) -> tuple[bytes, bytes]:
    data = b""
    while b"\r\n\r\n" not in data:
        if len(data) > MOST_HEADER:
            raise Refused("431 Request Header Fields Too Large")
        more = await loop.sock_recv(sock, MOST_HEADER)
        if not more:
            raise Refused("400 Bad Request") if data else ConnectionResetError()
        data += more
    head, _, rest = data.partition(b"\r\n\r\n")
    if len(head) > MOST_HEADER:
        raise Refused("431 Request Header Fields Too Large")
    return head, rest


async def refuse(loop: asyncio.AbstractEventLoop, sock: socket.socket, status: str) -> None:
    """Answers with a status, and reads on for a moment, without which the answer may be lost."""
    text = f"share: {status}\n"
    fields = f"Content-Length: {len(text)}\nContent-Type: text/plain\n"
    with contextlib.suppress(OSError, asyncio.TimeoutError):
        await asyncio.wait_for(_answer_last(loop, sock, head_of(status, fields) + text.encode()), _FAREWELL_SECONDS)


async def _answer_last(loop: asyncio.AbstractEventLoop, sock: socket.socket, answer: bytes) -> None:
    await loop.sock_sendall(sock, answer)
    sock.shutdown(socket.SHUT_WR)
    while await loop.sock_recv(sock, MOST_HEADER):
        pass
