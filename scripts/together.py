"""Finds which wrong bodies of a crate may be tried in one check, and which of them it refuses.

Each function is checked against the contracts of those that it calls. So a check of a crate with one wrong body in each
of some functions says of each of them what a check with it alone says. What such a check leaves open is tried alone.
"""
import re

MOST = 16  # wrong bodies in a check, at most: a function that isn't proved takes longer than one that is
FUNCTION = re.compile(r'( *)(?:pub(?:\([a-z ]+\))? )?(?:const )?(?:unsafe )?(?:extern "C" )?fn (\w+)')
# What says that a proof file uses a name that is gone, which says little of the contract.
GONE = re.compile(r"has no field|is not in scope|has no `|was not admitted")


def bodies_of(text):
    """The functions of a source file: for each its name, and where it begins, and its body begins and ends."""
    found, opened, at = [], None, 0
    for line in text.splitlines(keepends=True):
        plain, begins = line.rstrip("\n"), FUNCTION.match(line)
        if begins and not opened:
            opened = [begins[1], begins[2], at, None]
        if opened and opened[3] is None:
            indent = opened[0]
            is_head = begins or plain.startswith(f"{indent})") or plain == f"{indent}{{"
            if is_head and plain.endswith("{"):
                opened[3] = at + len(line)
            elif is_head and plain.endswith(("}", ";")):
                opened = None
        elif opened and plain == f"{opened[0]}}}":
            found.append((*opened[1:], at))
            opened = None
        at += len(line)
    return found


def module_of(path):
    """The names of a source file's module, from its path in the crate."""
    parts = path.removeprefix("src/").removesuffix(".rt").split("/")
    return [] if parts in (["lib"], ["main"]) else [it for it in parts if it != "mod"]


def function_of(edit, texts):
    """The one function whose body an edit changes, as the file and the name; None if it changes anything else.

    `edit` is pairs of a file and the old text in it, and `texts` are the files."""
    found = set()
    for path, old in edit:
        if not path.startswith("src/") or texts[path].count(old) != 1:
            return None
        begin = texts[path].index(old)
        bodies = bodies_of(texts[path])
        names = [name for name, *_ in bodies]
        within = [name for name, _, first, last in bodies if first <= begin and begin + len(old) <= last]
        found |= {(path, name) if names.count(name) == 1 else None for name in within or [""]}
    return found.pop() if len(found) == 1 else None


def groups_of(functions):
    """Groups of edits with at most one in each function. `functions` gives that of each edit, or None."""
    groups = []
    for edit, function in functions.items():
        if function is None:
            continue
        for group in groups:
            if len(group) < MOST and function not in (functions[it] for it in group):
                group.append(edit)
                break
        else:
            groups.append([edit])
    return groups


def lines_of(name, text):
    """The numbers of a function's lines, from 1."""
    begin, end = next((begin, end) for it, begin, _, end in bodies_of(text) if it == name)
    return range(text.count("\n", 0, begin) + 1, text.count("\n", 0, end) + 2)


def refusal_of(function, crate, said, text):
    """What a check says against a function itself, and not against one that it calls; None if it says nothing.

    `text` is the function's file, as it was checked."""
    path, name = function
    module, lines = module_of(path), lines_of(name, text)
    whole = "::".join([crate, *module, ""])
    for line in said.split("\n"):
        place = re.match(r"note: (\S+\.rt):(\d+):\d+: it is not proved", line)
        if place and place[1] == path and int(place[2]) in lines:
            return line
        proof = re.match(r"\./proofs/(\S+)/\w+\.antt:\d+:\d+: error: ", line)
        if proof and proof[1].split("/")[: len(module)] == module and name in proof[1].split("/")[len(module) :]:
            if not GONE.search(line):
                return line
        verdict = re.match(r"fn (\S+): (no proof|not proved).*did not prove", line)
        if verdict and verdict[1].startswith(whole) and name in verdict[1][len(whole) :].split("::"):
            return line
    return None
