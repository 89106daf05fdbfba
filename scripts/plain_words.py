"""Lines, sentences and words of a page, for check_docs.

A line has at most 120 columns; a row of a table may have more, since it can't be wrapped. A sentence has at most 30
words. A span in backticks counts as one word. A word of the list below has a plainer one.

A sentence ends at a full stop, a question mark or an exclamation mark, and where its paragraph, list item or cell ends.
Blocks between lines of ``` are read for the length of their lines alone.
"""
import re

COLUMNS, WORDS = 120, 30

# What is looked for, in text without code, and what to write in its place.
DIALECT = [
    (r"(?<!bytes )\bbehind (?:it|them|each|the|a|an|one|what|which|whose|all|this|that|every)\b", "after"),
    (r"\bstands?\b(?! (?:for|alone|out|by itself)\b)", "is, or stays"),
    (r"\bstood\b", "was"),
    (r"\b(?:is|are|was|were|be|been|isn't|aren't) told\b(?! apart)", "gets, is given, or is reported"),
    (r"\bow(?:es|ed)\b", "is due, or waits"),
    (r"\b[Ss]uch (?:are|is)\b|\b(?:is|are) such(?=[.,;:]|$)", "the noun"),
    (r"\b(?:is|are|has|have|gives?|there is|with) none\b|\bnone is\b(?! (?:left|missing))", "no, and the noun"),
    (r"\bthe words (?:ask|say|are none)\b", "the arguments"),
    (r"^Wh(?:at|o|oever|atever) [^.,:;?]* (?:is|are|has|have|goes|stays|stands|comes)\b(?![^.]*\?)", "begin with a noun"),
    (r"^Where [^.,:;?]* (?:is|are|has|have|isn't|aren't)\b[^.:;?]*,", "begin with if"),
]


def without_code(text):
    """Text whose spans in backticks are one word, and whose links are their texts."""
    text = re.sub(r"``.+?``|`[^`]*`", "CODE", text)
    text = re.sub(r"!?\[([^\]]*)\]\([^)]*\)", r"\1", text)
    return re.sub(r"<[^>]*>|\*", "", text)


class Reader:
    """The parts of a page, each with the number of its first line: paragraphs, list items, cells."""

    def __init__(self, text):
        self.parts, self._open, self._line = [], [], 0
        fenced = False
        for number, line in enumerate(text.split("\n"), 1):
            if line.lstrip().startswith("```"):
                fenced = not fenced
                self._end()
            elif not fenced:
                self._read(number, line)
        self._end()

    def _read(self, number, line):
        if line.lstrip().startswith("|"):
            self._end()
            self._cells(number, line)
        elif not line.strip() or line.startswith("#"):
            self._end()
        else:
            if re.match(r"\s*(?:[-*>]|\d+\.) ", line):
                self._end()
            self._line = self._line or number
            self._open.append(re.sub(r"^\s*(?:[-*>]|\d+\.) ", "", line).strip())

    def _cells(self, number, line):
        for cell in re.split(r"(?<!\\)\|", line.strip().strip("|")):
            if not re.fullmatch(r"\s*:?-*:?\s*", cell):
                self.parts.append((number, [cell.strip()]))

    def _end(self):
        if self._open:
            self.parts.append((self._line, self._open))
        self._open, self._line = [], 0


def sentences(text):
    """The sentences of a part, each with the place where it begins. A line's end in one is a space."""
    begin = 0
    for end in [m.end() for m in re.finditer(r"[.!?][)\"*]*(?=\s+[\"(*]*(?:[A-Z0-9]|CODE))|\Z", text)]:
        sentence = text[begin:end]
        if sentence.strip():
            begin += len(sentence) - len(sentence.lstrip())
            yield begin, text[begin:end].replace("\n", " ")
        begin = end


def words_in(sentence):
    return len(re.findall(r"[\w'’./-]*\w[\w'’./-]*", sentence))


def long_lines(path, text):
    return [
        f"{path}:{number}: {len(line)} columns, and {COLUMNS} at most"
        for number, line in enumerate(text.split("\n"), 1)
        if len(line) > COLUMNS and not line.lstrip().startswith("|")
    ]


def joined_code(lines):
    """The lines without code. A span that goes on in the next line is one word too, and the lines stay as many."""
    whole = re.sub(r"`[^`]*`", lambda m: "CODE" + "\n" * m.group().count("\n"), "\n".join(lines))
    return without_code(whole)


def line_at(number, text, place):
    """The line of a place in a part that begins in this line."""
    return number + text.count("\n", 0, place)


def long_sentences(path, number, text):
    for begin, sentence in sentences(text):
        if words_in(sentence) > WORDS:
            line = line_at(number, text, begin)
            yield f"{path}:{line}: {words_in(sentence)} words, and {WORDS} at most: {sentence[:50]}.."


def dialect(path, number, text):
    for begin, sentence in sentences(text):
        for pattern, plainer in DIALECT:
            for match in re.finditer(pattern, sentence):
                line = line_at(number, text, begin + match.start())
                yield f"{path}:{line}: \"{match.group()[:30]}\": rather {plainer}: {sentence[:50]}.."


def faults(path, text):
    """What a page has of long lines, long sentences and words with a plainer one."""
    found = long_lines(path, text)
    for number, lines in Reader(text).parts:
        part = joined_code(lines)
        found += long_sentences(path, number, part)
        found += dialect(path, number, part)
    return found
