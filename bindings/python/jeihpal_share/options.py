"""The command line of share."""

from __future__ import annotations

import argparse
import re
from dataclasses import dataclass

USAGE = """share [--listen ADDRESS:PORT | --unix PATH] [--terminals N] [--http ADDRESS:PORT] [--browsers N]
             [--publish SOCKET --as NAME] [--token FILE] [--record FILE] [--size RxC] [--rate N]
             [--no-line-drawing] [--] COMMAND [WORD ..]"""
ABOUT = """Runs a command in a pseudo-terminal and shows its screen to whoever connects.

Watch with a terminal of the same size:  socat -,raw,echo=0 tcp:ADDRESS:PORT   (or nc ADDRESS PORT)
Ctrl-C ends the watching. Watchers can't type. Without --listen, --unix, --http and --publish a free port of 127.0.0.1
is taken."""


MOST_CELLS = 250_000  # of a screen
MOST = 1000  # terminals, and as many browsers, unless the command line says otherwise


@dataclass(frozen=True)
class Options:
    """What the command line says."""

    command: list[str]
    listen: tuple[str, int] | None = None
    unix: str | None = None
    http: tuple[str, int] | None = None
    size: tuple[int, int] | None = None
    rate: float = 30.0
    terminals: int = MOST
    browsers: int = MOST
    publish: str | None = None
    name: str | None = None
    token: str | None = None
    record: str | None = None
    draws_lines: bool = True


def address(text: str) -> tuple[str, int]:
    """An address and a port: HOST:PORT, [IPV6]:PORT, or a port of 127.0.0.1."""
    host, _, port = text.rpartition(":")
    host = host.strip("[]") if host.startswith("[") else host
    if not re.fullmatch(r"\d{1,5}", port) or int(port) > 65535 or (not host and ":" in text):
        raise argparse.ArgumentTypeError(f"{text!r} is not ADDRESS:PORT")
    return host or "127.0.0.1", int(port)


def size(text: str) -> tuple[int, int]:
    """Rows and columns, as 24x80."""
    found = re.fullmatch(r"(\d{1,5})x(\d{1,5})", text)
    rows, cols = map(int, found.groups()) if found else (0, 0)
    if not (0 < rows < 1 << 16 and 0 < cols < 1 << 16):
        raise argparse.ArgumentTypeError(f"{text!r} is not ROWSxCOLUMNS")
    if rows * cols > MOST_CELLS:
        raise argparse.ArgumentTypeError(f"{text!r} has more than {MOST_CELLS} cells")
    return rows, cols


def rate(text: str) -> float:
    """Frames a second."""
    try:
        number = float(text)
    except ValueError:
        number = 0.0
    if not 0.1 <= number <= 1000:
        raise argparse.ArgumentTypeError(f"{text!r} is not 0.1 to 1000 frames a second")
    return number


def count(text: str) -> int:
    """A number of connections."""
    if not re.fullmatch(r"\d{1,6}", text) or not int(text):
        raise argparse.ArgumentTypeError(f"{text!r} is not 1 to 999999")
    return int(text)


def name(text: str) -> str:
    """A screen's name in addresses."""
    if not re.fullmatch(r"[A-Za-z0-9_-]{1,64}", text):
        raise argparse.ArgumentTypeError(f"{text!r} has other characters than A-Z a-z 0-9 _ -, or more than 64")
    return text


def _parser() -> argparse.ArgumentParser:
    parser = argparse.ArgumentParser(
        prog="share",
        usage=USAGE,
        description=ABOUT,
        formatter_class=argparse.RawDescriptionHelpFormatter,
        allow_abbrev=False,
    )
    where = parser.add_mutually_exclusive_group()
    where.add_argument("--listen", type=address, metavar="ADDRESS:PORT", help="where terminals may connect")
    where.add_argument("--unix", metavar="PATH", help="the same, as a socket in the file system, of this user alone")
    parser.add_argument("--http", type=address, metavar="ADDRESS:PORT", help="where browsers may watch")
    parser.add_argument("--terminals", type=count, default=MOST, metavar="N", help=f"at most N terminals ({MOST})")
    parser.add_argument("--browsers", type=count, default=MOST, metavar="N", help=f"at most N browsers ({MOST})")
    parser.add_argument("--publish", metavar="SOCKET", help="the socket of an nginx with nchan, which hands it on")
    parser.add_argument("--as", type=name, dest="name", metavar="NAME", help="its name there")
    parser.add_argument("--token", metavar="FILE", help="who watches must know its first line; made if missing")
    parser.add_argument("--record", metavar="FILE", help="write what is shown as an asciicast of version 3")
    parser.add_argument("--size", type=size, metavar="RxC", help="rows and columns (as the terminal here, else 24x80)")
    parser.add_argument("--rate", type=rate, default=30.0, metavar="N", help="at most N frames a second (30)")
    letters = "letters stay where a program draws lines with DEC's special graphics"
    parser.add_argument("--no-line-drawing", action="store_false", dest="draws_lines", help=letters)
    parser.add_argument("--version", action="version", version="share 0.1", help="print the version")
    parser.add_argument("command", nargs=argparse.REMAINDER, metavar="COMMAND")
    return parser


def parsed(words: list[str]) -> Options:
    """The options that the arguments give. Ends the program, with status 2, if they are wrong."""
    parser = _parser()
    given = vars(parser.parse_args(words))
    if given["command"][:1] == ["--"]:
        del given["command"][0]
    if not given["command"]:
        parser.error("there is no command")
    if bool(given["publish"]) != bool(given["name"]):
        parser.error("--publish and --as need one another")
    if not any(given[it] for it in ("listen", "unix", "http", "publish")):
        given["listen"] = ("127.0.0.1", 0)
    return Options(**given)
