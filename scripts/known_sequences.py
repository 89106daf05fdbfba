#!/usr/bin/env python3
"""The tables of docs/KNOWN.md: what a screen knows, and what other terminals know.

known.tsv has a line for each row of a table. Its columns are the kind of the row, which chooses the table, the key by
which the code has it, or `-`, the sequence, what it does, and a mark for each of seven readers. Three of these are code
of this tree: `screen` (a screen of vt100), `view` (termview) and `vte`. For them the marks are compared with the tables
in the specs of the crates. For `filter`, a screen behind charset_filter, it is compared where it is said to know more.

Three files named known.cases play the rows: each row on a screen and on a view, and with the filter a row whose mark
isn't the screen's. The titles of their cases begin with `known` or with `unknown`. If the mark is `no`, a step of an
`unknown` case has to give each sequence of the row, and else a step of a `known` case. In a sequence a small letter
is any number or no number, and `..` are any numbers. Of a range the first and the last number are looked for. A mode
has to be set and to be reset. Modes and attributes count only if they are alone in their sequence. What a case has to
answer is in its file, and isn't compared with the row.

    scripts/known_sequences.py --write

writes the tables of the page anew.
"""
import os
import re
import sys

ROOT = os.path.dirname(os.path.dirname(os.path.abspath(__file__)))
TABLE, PAGE = "scripts/known.tsv", "docs/KNOWN.md"
READERS = ("screen", "filter", "view", "vte", "xterm", "alacritty", "vt100")
HEADS = {"alacritty": "Alacritty"}
FIRST = {
    "control": "Control", "escape": "Escape sequence", "csi": "Control sequence", "mode": "Mode",
    "private": "Private mode", "osc": "OSC", "string": "String", "sgr": "SGR",
}
MARKS = {"yes", "part", "call", "other", "no", ""}
# The files of cases that play the rows, and the steps there that give bytes to the reader.
PLAYED = {
    "screen": ("crates/cases/data/screens/known.cases", "feed"),
    "filter": ("crates/cases/data/commands/known.cases", "input|more 1"),
    "view": ("crates/cases/data/relays/known.cases", "advance"),
}
STARTS = {"ESC": "\x1b", "CSI": "\x1b[", "DCS": "\x1bP", "APC": "\x1b_"}
CONTROLS = {"CAN": "\x18", "SUB": "\x1a"}
ESCAPES = {"e": "\x1b", "n": "\n", "r": "\r", "t": "\t"}
NUMBER = r"(0x[0-9A-F]+|\d+)"


def text_of(path):
    with open(os.path.join(ROOT, path), encoding="utf-8") as file:
        return file.read()


def rows():
    """The lines of the table, each as a dict, with its number."""
    lines = text_of(TABLE).rstrip("\n").split("\n")
    names = lines[0].split("\t")
    return [dict(zip(names, line.split("\t")), line=number) for number, line in enumerate(lines[1:], 2)]


# ---- the page

def head_of(kind):
    """The first two lines of a table."""
    names = [FIRST[kind], "is", *(HEADS.get(reader, reader) for reader in READERS)]
    return ["| " + " | ".join(names) + " |", "|" + "---|" * len(names)]


def table_of(kind, known):
    """The lines of the table of a kind."""
    return head_of(kind) + [
        "| " + " | ".join([row["sequence"], row["name"], *(row[reader] for reader in READERS)]).rstrip() + " |"
        for row in known
        if row["kind"] == kind
    ]


def pages_table(kind, lines):
    """Where the page has the table of a kind: its first line, and the line after it."""
    head = head_of(kind)[0]
    if head not in lines:
        return None
    begin = end = lines.index(head)
    while end < len(lines) and lines[end].startswith("|"):
        end += 1
    return begin, end


def page_faults(known):
    """Where the page isn't as the table."""
    lines, faults = text_of(PAGE).split("\n"), []
    for kind in FIRST:
        place = pages_table(kind, lines)
        if not place or lines[slice(*place)] != table_of(kind, known):
            line = place[0] + 1 if place else 1
            faults.append(f"{PAGE}:{line}: not as {TABLE}: {FIRST[kind]}: scripts/known_sequences.py --write")
    return faults


def write():
    """Writes the tables into the page."""
    lines, known = text_of(PAGE).split("\n"), rows()
    for kind in FIRST:
        place = pages_table(kind, lines)
        if place:
            lines[slice(*place)] = table_of(kind, known)
    with open(os.path.join(ROOT, PAGE), "w", encoding="utf-8") as file:
        file.write("\n".join(lines))


# ---- the code

def block(path, name):
    """The definition of a name in a spec: up to the next empty line."""
    found = re.search(rf"^{name} =(.*?)(?=\n\n|\Z)", text_of(path), re.M | re.S)
    if not found:
        raise SystemExit(f"{path}: no {name}")
    return found.group(1)


def numbers_in(path, name):
    """The keys of a table in a spec."""
    return {int(number, 0) for number in re.findall(rf"\(\s*{NUMBER},\s", block(path, name))}


def finals(path, name, marks=""):
    """The keys of a table of final bytes, after these intermediates."""
    return {marks + chr(number) for number in numbers_in(path, name)}


def ranges_in(path, name):
    """The numbers of all ranges in a definition."""
    ranges = re.findall(r"is_in_range (\d+) (\d+)", block(path, name))
    return {str(number) for first, last in ranges for number in range(int(first), int(last) + 1)}


def screens():
    """What a screen knows, by kind. SO and SI are read, and do nothing."""
    folder = "crates/screen_model/specs"
    path, modes, sgr = f"{folder}/Effect.antt", f"{folder}/PrivateModes.antt", f"{folder}/Sgr.antt"
    return {
        "control": {str(n) for n in numbers_in(path, "control_rows") - {14, 15}},
        "escape": finals(path, "escape_rows"),
        "csi": finals(path, "plain_rows") | finals(path, "other_rows") | finals(path, "private_rows", "?") | {"SPq"},
        "private": {str(n) for n in numbers_in(modes, "set_rows") & numbers_in(modes, "reset_rows")},
        "osc": {chr(n) for n in numbers_in(path, "title_rows")} | {"52"},
        "sgr": {str(n) for n in numbers_in(sgr, "flag_rows")} | ranges_in(sgr, "code_row n"),
    }


def views():
    """Which private modes a view knows."""
    path = "crates/termview/specs/Step.antt"
    held = {"2026"} if "opens_group g = nat_eq (first g) 2026" in text_of("crates/vte/specs/Csi.antt") else set()
    return {"private": {str(n) for n in numbers_in(path, "set_rows") & numbers_in(path, "reset_rows")} | held}


def handlers():
    """What `vte` has a call for, by kind. SUB ends a sequence and is a call too."""
    escapes, path, sgr = "crates/vte/specs/Escape.antt", "crates/vte/specs/Csi.antt", "crates/vte/specs/Sgr.antt"
    csi = {"c"} | finals(path, "counted_rows") | finals(path, "uncounted_rows") | finals(path, "placing_rows")
    for name, marks in (
        ("question", "?"), ("greater", ">"), ("equals", "="), ("less", "<"), ("space", "SP"), ("dollar", "$"),
        ("question_dollar", "?$"),
    ):
        csi |= finals(path, f"{name}_rows", marks)
    return {
        "control": {str(n) for n in numbers_in(escapes, "execute_rows") - {26}},
        "escape": finals(escapes, "unmarked_escape_rows") | finals(escapes, "hash_escape_rows", "#"),
        "csi": csi,
        "mode": named_modes("NamedMode"),
        "private": named_modes("NamedPrivateMode"),
        "osc": set(re.findall(r'\(codes "(\d+)"', block("crates/vte/specs/Osc.antt", "osc_rows"))),
        "sgr": {str(n) for n in numbers_in(sgr, "singles")},
    }


def named_modes(name):
    body = re.search(rf"pub enum {name} \{{(.*?)\n\}}", text_of("crates/vte_types/src/mode.rt"), re.S).group(1)
    return set(re.findall(r"^    \w+ = (\d+),", body, re.M))


def keys_of(row):
    """The keys that a row is about: of 16 colours, each number."""
    if row["kind"] == "sgr" and row["key"] in ("30", "40"):
        return {str(int(row["key"]) + n + more) for n in range(8) for more in (0, 60)}
    return {row["key"]} - {"-"}


def kind_faults(kind, reader, known, keys):
    """Where the marks of a reader aren't as its code, in either direction, for the rows of a kind."""
    kinds = [row for row in known if row["kind"] == kind]
    named = {key for row in kinds for key in keys_of(row)}
    marked = {key for row in kinds if row[reader] != "no" for key in keys_of(row)}
    place = f"{TABLE}: {kind}"
    return (
        [f"{place} {key}: {reader} knows it, and there is no row" for key in sorted(keys - named)]
        + [f"{place} {key}: no, but {reader} knows it" for key in sorted((keys & named) - marked)]
        + [f"{place} {key}: {reader} doesn't know it" for key in sorted(marked - keys)]
    )


def code_faults(known):
    """Where the marks of the screen, the view or `vte` aren't as their code."""
    return [
        fault
        for reader, knows in (("screen", screens()), ("view", views()), ("vte", handlers()))
        for kind, keys in knows.items()
        for fault in kind_faults(kind, reader, known, keys)
    ]


def peer_faults(known):
    """Where `vt100` 0.18.1 isn't as the screen, and DIFFERENCES doesn't say so; where Alacritty knows more than `vte`."""
    differences = text_of("docs/DIFFERENCES.md")
    unsaid = [row for row in known if row["vt100"] != row["screen"] and row["key"] not in differences]
    unread = [row for row in known if row["vte"] == "no" and row["alacritty"] not in ("no", "")]
    return (
        [f"{TABLE}:{row['line']}: vt100 isn't as screen, and docs/DIFFERENCES.md doesn't say so" for row in unsaid]
        + [f"{TABLE}:{row['line']}: Alacritty reads by vte, which doesn't know it" for row in unread]
    )


def filter_faults(known):
    """Where the filter is said to know more than the screen, and its specs don't name the key."""
    folder = "crates/charset_filter/specs"
    specs = text_of(f"{folder}/Behind.antt") + text_of(f"{folder}/Sets.antt")
    named = {int(number, 0) for number in re.findall(r"== (0x[0-9A-F]+|\d+)", specs)}
    faults = []
    for row in known:
        if row["key"] == "-" or row["filter"] == row["screen"]:
            continue
        number = int(row["key"]) if row["key"].isdigit() and row["kind"] != "escape" else ord(row["key"][-1])
        if number not in named:
            faults.append(f"{TABLE}:{row['line']}: the filter's specs don't name {row['key']}")
    return faults


# ---- the cases

def unquoted(word):
    """The characters of a quoted word of a case. A byte becomes the character of its number."""

    def character(match):
        byte, scalar, letter = match.groups()
        return ESCAPES.get(letter, letter) if letter else chr(int(byte or scalar, 16))

    return re.sub(r"\\(?:x([0-9A-F]{2})|u\{([0-9A-F]+)\}|(.))", character, word)


def bytes_given(path, steps, title):
    """What these steps give in the cases of a file whose titles begin so, with a NUL between two words."""
    cases = [case for case in re.split("^case ", text_of(path), flags=re.M) if case.startswith(title)]
    lines = [line for case in cases for line in re.findall(rf'^(?:{steps}) (".*)$', case, re.M)]
    words = [word for line in lines for word in re.findall(r'"((?:[^"\\]|\\.)*)"', line)]
    return "\0".join(unquoted(word) for word in words)


def part_pattern(part):
    """What a part between the first and the last one of a sequence looks like."""
    if part == "..":
        return "[0-9;:]*"
    return "[0-9]*" if re.fullmatch("[a-z]", part) else re.escape({"SP": " "}.get(part, part))


def sequence_patterns(row):
    """What the sequences in backticks look like, or the one of the key if there are none."""
    spans = re.findall(r"`([^`]+)`", row["sequence"].replace("\\|", "|")) or [f"CSI n {row['key']}"]
    parts = [span.split() for span in spans]
    return [
        re.escape(STARTS[first]) + "".join(map(part_pattern, middle)) + re.escape(last)
        for first, *middle, last in (them for them in parts if them[0] in STARTS)
    ]


def control_patterns(row):
    """The control of the key, or those that the column names."""
    if row["key"] != "-":
        return [re.escape(chr(int(row["key"])))]
    scalars = re.findall(r"U\+([0-9A-F]{4})", row["sequence"])
    return [chr(int(scalar, 16)) for scalar in scalars] + [
        control for name, control in CONTROLS.items() if name in row["sequence"]
    ]


def numbered_patterns(row):
    """What a sequence with each number of the column looks like, for modes, OSC and SGR."""
    items = [item for item in re.split(", | to ", row["sequence"]) if item[0].isdigit()]
    numbers = [re.sub("[a-z]", "[0-9]*", item) for item in items]
    forms = {
        "mode": (r"\x1b\[%sh", r"\x1b\[%sl"),
        "private": (r"\x1b\[\?%sh", r"\x1b\[\?%sl"),
        "osc": (r"\x1b\]%s[;\x07\x1b]",),
        "sgr": (r"\x1b\[%sm",),
    }
    return [form % number for number in numbers for form in forms[row["kind"]]]


def patterns_of(row):
    """What the sequences of a row look like in a case."""
    kinds = {"control": control_patterns, **dict.fromkeys(("escape", "csi", "string"), sequence_patterns)}
    return kinds.get(row["kind"], numbered_patterns)(row)


def is_played(row, mark, given):
    """Whether what the cases give has each sequence of a row with this mark."""
    title = "unknown" if mark == "no" else "known"
    return all(re.search(pattern, given[title]) for pattern in patterns_of(row))


def played_faults(known):
    """Rows that no case plays, or only one that takes a known sequence for unknown, or the other way round."""
    faults = []
    for reader, (path, steps) in PLAYED.items():
        given = {title: bytes_given(path, steps, title) for title in ("known", "unknown")}
        rows_there = [row for row in known if reader != "filter" or row["filter"] != row["screen"]]
        unplayed = [row for row in rows_there if not is_played(row, row[reader], given)]
        faults += [f"{TABLE}:{row['line']}: not played by {path}: {row['sequence']}" for row in unplayed]
    return faults


def mark_faults(known):
    return [
        f"{TABLE}:{row['line']}: no such mark: {row[reader]}"
        for row in known
        for reader in READERS
        if row[reader] not in MARKS
    ]


def faults():
    """All faults of the table and of the page."""
    known = rows()
    checks = (mark_faults, page_faults, code_faults, filter_faults, peer_faults, played_faults)
    return [fault for check in checks for fault in check(known)]


if __name__ == "__main__":
    if sys.argv[1:] == ["--write"]:
        write()
    else:
        sys.exit("usage: scripts/known_sequences.py --write")
