"""Moments as numbered messages, each of which takes a page from one moment to the next."""

from __future__ import annotations

import json
import secrets
import time
from collections import OrderedDict
from typing import Any

from .moments import Moment

MOST_KEPT = 20  # messages from which a difference leads on; a page with an older one gets the whole screen


class Messages:
    """The messages of one run, numbered from 1. A text that several are sent is made once.

    A message is a JSON object. `run` is a random name of the run, `n` its number and `t` when it was made, in
    microseconds since 1970. A whole one has `k`, `name`, `size` and all rows. Any other one has `from`, the number of
    the message that it leads on from, and the rows that have changed since.
    """

    def __init__(self, name: str) -> None:
        self._name, self._run = name, secrets.token_hex(4)
        self._kept: OrderedDict[int, Moment] = OrderedDict()
        self._texts: dict[int, bytes] = {}  # of the newest message, by the number that they lead on from; 0: whole
        self._made = 0
        self.number = 0

    @property
    def newest(self) -> Moment | None:
        """The moment of the newest message."""
        return self._kept.get(self.number)

    def add(self, moment: Moment) -> None:
        """Makes the next message, of a moment."""
        self.number += 1
        self._kept[self.number] = moment
        if len(self._kept) > MOST_KEPT:
            self._kept.popitem(last=False)
        self._texts.clear()
        self._made = time.time_ns() // 1000

    def leads_from(self, since: int) -> int:
        """The number from which the newest message leads on, for one that has a message; 0 where it is whole."""
        before = self._kept.get(since)
        return since if before and before.size == self._kept[self.number].size else 0

    def text(self, since: int) -> bytes:
        """The newest message, for one that has a message's number, or 0 for none."""
        since = self.leads_from(since)
        if since not in self._texts:
            self._texts[since] = self._made_text(self._kept[self.number], since, self._kept.get(since))
        return self._texts[since]

    def _made_text(self, moment: Moment, since: int, before: Moment | None) -> bytes:
        """A message's JSON."""
        start: dict[str, Any] = {"from": since} if before else {"k": 1, "name": self._name, "size": moment.size}
        head = {"n": self.number, "run": self._run, "t": self._made, **start, "cursor": moment.cursor}
        shown = before.rows if before else [""] * len(moment.rows)
        rows = ",".join(f'"{at}":{row}' for at, row in enumerate(moment.rows) if row != shown[at])
        text = json.dumps(head, ensure_ascii=False, separators=(",", ":"))
        return f'{text[:-1]},"rows":{{{rows}}}}}'.encode("utf-8", "replace")
