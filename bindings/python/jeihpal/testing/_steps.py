"""The lines of a script: their words, texts and patterns, and the steps that exist."""

from __future__ import annotations

import codecs
import difflib
import re
import shlex
from typing import NamedTuple, Pattern, Union

Word = Union[str, Pattern[str]]
_WORD = re.compile(r'"(?:[^"\\]|\\.)*"|/(?:[^/\\]|\\.)+/(?=\s|$)|[^\s"]\S*')
_ESCAPES = {"n": "\n", "t": "\t", "r": "\r", "e": "\x1b", "0": "\0", '"': '"', "\\": "\\"}

# Each step, and the rest of its line.
FORMS = {
    "needs": "PROGRAM ..",
    "size": "ROWS COLUMNS",
    "env": "NAME=TEXT",
    "timeout": "SECONDS",
    "run": "COMMAND WORD ..",
    "type": "TEXT",
    "press": "KEY ..",
    "paste": "TEXT",
    "click": "ROW COLUMN | TEXT",
    "resize": "ROWS COLUMNS",
    "signal": "NAME",
    "wait": "TEXT | /PATTERN/",
    "gone": "TEXT | /PATTERN/",
    "quiet": "[SECONDS]",
    "mask": "TEXT | /PATTERN/ ..",
    "expect": "TEXT | /PATTERN/, or one of: no, row, cursor, title, screen, exit",
}
EXPECTATIONS = {
    "no": "no TEXT | /PATTERN/",
    "row": "row ROW TEXT",
    "cursor": "cursor ROW COLUMN",
    "title": "title TEXT",
    "screen": "screen [NAME]",
    "exit": "exit STATUS | SIGNAL",
}


class ScriptError(ValueError):
    """A line isn't a step."""

    def __init__(self, line: int, words: str) -> None:
        super().__init__(words)
        self.line = line


class Step(NamedTuple):
    """A line of a script."""

    line: int
    name: str
    words: list[Word]
    """Its words: texts and patterns."""
    rest: str
    """The line after the step's name, as it is written."""
    rows: list[str]
    """The rows of a screen that follow it, each after a bar."""

    @property
    def form(self) -> str:
        """How such a line is written."""
        return f"{self.name} {FORMS[self.name]}"


def steps_of(text: str) -> list[Step]:
    """The steps of a script. Raises ScriptError."""
    steps: list[Step] = []
    for number, line in enumerate(text.split("\n"), 1):
        stripped = line.strip()
        if stripped.startswith("|"):
            if not steps or steps[-1].name != "expect" or steps[-1].rest != "screen":
                raise ScriptError(number, "a row of a screen stands behind `expect screen`")
            steps[-1].rows.append(stripped[1:].rstrip())
        elif stripped and not stripped.startswith("#"):
            steps.append(_step(number, stripped))
    for step in steps:
        if step.rest == "screen" and step.name == "expect" and not step.rows:
            raise ScriptError(step.line, "`expect screen` has a name, or rows behind it that begin with |")
    return steps


def _step(number: int, line: str) -> Step:
    name, _, rest = line.partition(" ")
    if name not in FORMS:
        near = difflib.get_close_matches(name, FORMS, 1)
        hint = f"is it {near[0]}?" if near else f"there are {', '.join(FORMS)}"
        raise ScriptError(number, f"there is no step {name!r}: {hint}")
    rest = rest.strip()
    step = Step(number, name, [], rest, [])
    try:
        step.words.extend(shlex.split(rest) if name == "run" else map(_word, _words(rest)))
    except (ValueError, re.error) as error:
        raise ScriptError(number, f"{error}, in `{step.form}`") from None
    if not _fits(step):
        raise ScriptError(number, f"a line of this step is `{step.form}`")
    return step


def _words(rest: str) -> list[str]:
    """The words of a line, as they are written."""
    words, at = [], 0
    while at < len(rest):
        if rest[at].isspace():
            at += 1
            continue
        found = _WORD.match(rest, at)
        if not found:
            raise ValueError("a text has no end")
        words.append(found[0])
        at = found.end()
    return words


def _word(text: str) -> Word:
    """A text without its quotes, a pattern without its strokes, or the word itself."""
    if text.startswith('"'):
        return re.sub(r"\\(x[0-9a-fA-F]{2}|u[0-9a-fA-F]{4}|.)", _escaped, text[1:-1])
    if len(text) > 2 and text.startswith("/") and text.endswith("/"):
        return re.compile(text[1:-1].replace("\\/", "/"))
    return text


def _escaped(found: re.Match[str]) -> str:
    escape = found[1]
    if len(escape) > 1:
        return codecs.decode(f"\\{escape}", "unicode_escape")
    if escape not in _ESCAPES:
        raise ValueError(f"there is no escape \\{escape}")
    return _ESCAPES[escape]


def _are_numbers(words: list[Word], count: int) -> bool:
    return len(words) == count and all(isinstance(word, str) and word.isdigit() for word in words)


def _is_number(word: Word) -> bool:
    return isinstance(word, str) and bool(re.fullmatch(r"\d+(\.\d+)?", word))


def _fits(step: Step) -> bool:
    """Whether the step has the words that it needs."""
    words, count = step.words, len(step.words)
    if step.name in ("size", "resize"):
        return _are_numbers(words, 2)
    if step.name == "timeout":
        return count == 1 and _is_number(words[0])
    if step.name == "quiet":
        return count == 0 or (count == 1 and _is_number(words[0]))
    if step.name == "env":
        return count == 1 and isinstance(words[0], str) and bool(re.match(r"\w+=", words[0]))
    if step.name == "click":
        return count == 1 or _are_numbers(words, 2)
    if step.name in ("type", "paste", "signal"):
        return count == 1 and isinstance(words[0], str)
    if step.name in ("wait", "gone"):
        return count == 1
    if step.name == "expect":
        return _fits_expectation(words)
    return count > 0


def _fits_expectation(words: list[Word]) -> bool:
    if not words:
        return False
    kind, rest = words[0], words[1:]
    if len(words) == 1:
        return kind not in EXPECTATIONS or kind == "screen"
    if kind == "row":
        return len(rest) == 2 and _are_numbers(rest[:1], 1)
    if kind == "cursor":
        return _are_numbers(rest, 2)
    return kind in EXPECTATIONS and len(rest) == 1
