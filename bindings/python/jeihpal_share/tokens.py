"""The token that a watcher must know."""

from __future__ import annotations

import contextlib
import hmac
import os
import re
import secrets


def kept_token(path: str) -> str:
    """The first line of a file. If there is no such file, a new token is made and kept there, for this user alone."""
    with contextlib.suppress(FileExistsError):
        with open(os.open(path, os.O_WRONLY | os.O_CREAT | os.O_EXCL, 0o600), "w", encoding="ascii") as file:
            file.write(f"{secrets.token_urlsafe(24)}\n")
    with open(path, encoding="utf-8", errors="replace") as kept:
        token = kept.readline(4096).strip()
    if not re.fullmatch(r"[A-Za-z0-9._~-]{8,128}", token):
        raise OSError(f"{path}: a token has 8 to 128 of the characters A-Z a-z 0-9 . _ ~ -")
    return token


class Token:
    """What must be known, or nothing, where everybody may watch."""

    def __init__(self, text: str | None) -> None:
        self._text = text

    @property
    def is_wanted(self) -> bool:
        """Whether there is one."""
        return self._text is not None

    def is_known(self, said: bytes) -> bool:
        """Whether a watcher who says this may watch. How long the check takes reveals nothing of the token."""
        return self._text is None or hmac.compare_digest(said, self._text.encode())

    def is_in(self, query: str) -> bool:
        """Whether the token is in an address, after its question mark."""
        said = re.search(r"(?:^|&)token=([^&]*)", query)
        return self.is_known(said[1].encode() if said else b"")
