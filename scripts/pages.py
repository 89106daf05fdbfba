#!/usr/bin/env python3
"""Writes the manual pages of the programs, and their completions for bash, zsh and fish, from one table.

They lie below the folder that is named: man/man1, bash-completion/completions,
zsh/site-functions and fish/vendor_completions.d.
"""
import importlib.util
import os
import sys

sys.path.insert(0, os.path.dirname(os.path.dirname(os.path.realpath(__file__))))
from scripts import asked  # noqa: E402

SIZE = [("[ROWS", "The rows of the screen, by default those of the terminal"), ("COLS]", "Its columns")]
FILES = "files"
NO_LINE_DRAWING = (
    "no-line-drawing", None, None, "Letters stay where a program draws lines with DEC's special graphics",
)
NEWLINES = ("newlines", None, None, "A line feed begins the next row at its left, as after a carriage return")
HELP = ("help", None, None, "Print the help")
VERSION = ("version", None, None, "Print the version")
THEMES = "xterm light asciinema dracula gruvbox-dark monokai nord solarized-dark solarized-light tango"


def share_options():
    """The options of share, as its own command line has them. No library is wanted for that."""
    top = os.path.dirname(os.path.dirname(os.path.realpath(__file__)))
    spec = importlib.util.spec_from_file_location("share_options", f"{top}/bindings/python/jeihpal_share/options.py")
    module = importlib.util.module_from_spec(spec)
    sys.modules[spec.name] = module
    spec.loader.exec_module(module)
    options = []
    for action in module._parser()._actions:
        if action.option_strings:
            name = action.option_strings[-1].removeprefix("--")
            completes = FILES if action.metavar in ("FILE", "PATH", "SOCKET") else None
            options.append((name, action.metavar, completes, action.help[:1].upper() + action.help[1:]))
    return options


# Each program: what it does, its words in order, its options (name, value, what completes the value, help), and notes.
PROGRAMS = {
    "screenrelay": (
        "relay a program's output as frames, or show frames",
        [("relay|show", "What is done")] + SIZE,
        [NEWLINES, HELP, VERSION],
        "Reads its input to its end. relay writes frames to standard output; show prints the rows that they leave.",
    ),
    "screenlive": (
        "relay a program's output as it comes, in whole frames",
        SIZE,
        [NO_LINE_DRAWING, NEWLINES, HELP, VERSION],
        "Reads its input, and writes a frame after each read.",
    ),
    "screencat": (
        "print the screen that a program's output leaves",
        SIZE,
        [NO_LINE_DRAWING, NEWLINES, HELP, VERSION],
        "Reads its input to its end, and prints the rows of the screen.",
    ),
    "screentext": (
        "print what a recorded terminal stream shows, at its end or at a moment",
        [("[ROWS", "The rows of the screen at first"), ("COLS]", "Its columns")],
        [
            ("at", "TIME", None, "The screen at this second of the recording, or at this marker"),
            ("diff", "TIME", None, "The rows that changed from this second or marker on"),
            ("history", "N", None, "The newest N rows that left at the top come first"),
            ("joined", None, None, "A row that goes on in the next is one line with it"),
            ("colours", None, None, "Colours and other attributes, as escape sequences (SGR)"),
            ("html", None, None, "A page in HTML that shows the screen"),
            ("html-block", None, None, "The block alone of such a page, to be pasted into another"),
            ("svg", None, None, "A picture in SVG of the screen"),
            ("animate", None, None, "With --svg: a picture that plays the recording, 8 MiB at most"),
            ("frames", "DIR", FILES, "A PNG of each screen of such a film, into this folder; rsvg-convert makes them"),
            ("player", None, None, "A page in HTML that plays the recording, 32 MiB at most; --at comes first"),
            ("speed", "N", None, "It plays N times as fast as it was recorded"),
            ("idle", "SECONDS", None, "No screen stands longer than this time, in place of an asciicast's own limit"),
            ("fps", "N", None, "A film shows N screens a second at most, 1 to 1000: 30 without this option"),
            ("loop", "N", None, "A film plays N times, and then its last screen stays: over and over without it"),
            ("from", "TIME", None, "A film begins with the screen at this second of the recording, or at this marker"),
            ("poster", "TIME", None, "Where nothing plays, a film shows its screen at this second or marker"),
            ("theme", "NAME", THEMES, "The colours of pictures"),
            ("font", "NAME", None, "The font of pictures, where it is installed"),
            ("bold-is-bright", None, None, "Bold texts in the first eight colours have the bright ones, as in xterm"),
            ("no-cursor", None, None, "Pictures don't show the cursor"),
            ("padding", "N", None, "N pixels between a picture in SVG and each edge, 0 to 255"),
            ("font-size", "N", None, "Letters of a picture in SVG are N pixels high, 1 to 255: 15 without this option"),
            ("window", "TITLE", None, "A picture in SVG is in a window, with this title in its bar"),
            ("bold-is-plain", None, None, "Bold texts keep their colour; not with --bold-is-bright"),
            ("list", None, None, "The kind, size, length and markers, and no screen"),
            ("kind", "NAME", "asciicast script ttyrec raw", "What the recording is"),
            ("timing", "FILE", FILES, "The timing file of a typescript"),
            NO_LINE_DRAWING,
            NEWLINES,
            ("strict", None, None, "A recording that was cut, or stops making sense, is a fault"),
            ("max-cells", "N", None, "A size in the recording has N cells at most: 4,000,000 without this option"),
            HELP,
            VERSION,
        ],
        "Reads its input to its end: an asciicast, a typescript, a ttyrec, or raw bytes. "
        "A recording that was cut, or is malformed, is shown up to there, and a line on standard error says where. "
        "With -o FILE it writes to a file, which is replaced once all is written.",
    ),
}
# Scripts over the library for C, which take other words. Those of share are looked up where they are wanted.
SCRIPTS = {
    "share": (
        "show a program's terminal to other terminals and browsers",
        [("COMMAND", "The command, with its words, after --")],
        share_options,
        "Runs a command in a pseudo-terminal, and sends its screen in whole frames to those who watch.",
    ),
    "jeihpal-test": (
        "play scripts of tests of programs in a terminal",
        [("SCRIPT", "A script, or a folder of them")],
        [
            ("update-screens", None, None, "Write the screens that the tests leave"),
            ("failed-screens", "FOLDER", FILES, "Where the screens of failed tests go"),
            HELP,
            VERSION,
        ],
        "Plays each script, and prints TAP.",
    ),
    "screenplay": (
        "play a recording of a terminal session in a terminal, forward and back",
        [("FILE", "An asciicast v1, v2 or v3, a ttyrec, or a typescript")],
        [
            ("at", "TIME", None, "Begin, paused, at this second of the recording or at this marker"),
            ("idle", "SECONDS", None, "No screen stands longer than this time of the recording"),
            ("speed", "N", None, "Play N times as fast as it was recorded"),
            ("size", "RxC", None, "Rows and columns at first, in place of those of the recording"),
            ("timing", "FILE", FILES, "The timing file of a typescript"),
            NO_LINE_DRAWING,
            ("find", "TEXT", None, "Print the seconds at which a text comes to the screen, and end"),
            ("print", None, None, "Print the text of the last screen, or that of --at, and end"),
            HELP,
            VERSION,
        ],
        "Plays in the terminal until q is pressed, and leaves the terminal as it was. Its help lists the keys.",
    ),
}
ALL = {**PROGRAMS, **SCRIPTS}


def entry(name):
    """What the tables say of a program: what it does, its words, its options, and notes."""
    about, words, options, notes = ALL[name]
    return about, words, options() if callable(options) else options, notes


STATUS = "0 at success, 1 at a fault, 2 for words that aren't understood"
IN_PART = STATUS + ", 3 for a recording of which only a part was read."
OF_FILE = "Without FILE, and with -, standard input is read."
OF_SIZE = "Without ROWS and COLS the size is that of the terminal."
STATUSES = {"screentext": IN_PART, "screenplay": IN_PART}
SHORT = {"help": "h", "version": "V"}
EXAMPLES = {
    "screenrelay": [
        ("screenrelay relay 24 80 session > frames", "Frames of a recorded session"),
        ("screenrelay show 24 80 frames", "The rows that they leave"),
    ],
    "screenlive": [
        ("script -qfc top /dev/null | screenlive 24 80 > /dev/pts/3", "A program that runs, on another terminal"),
    ],
    "screencat": [
        ("screencat 24 80 session", "The last screen of a recorded session"),
    ],
    "screentext": [
        ("screentext demo.cast", "The last screen, as text"),
        ("screentext --at 12.5 --svg demo.cast > screen.svg", "A picture of the screen after 12.5 seconds"),
        ("screentext --svg --animate --idle 2 demo.cast > demo.svg", "A film for a README"),
        ("screentext --svg --window demo --padding 12 demo.cast > demo.svg", "The last screen, in a window"),
        ("screentext --frames pictures --idle 2 demo.cast", "A PNG of each screen, and a list of them for ffmpeg"),
        ("screentext --player --idle 2 demo.cast > demo.html", "A page that plays it"),
        ("screentext --timing times 24 80 typescript", "A session that script(1) recorded"),
        ("screentext --list game.ttyrec", "Its kind, length and markers"),
    ],
    "screenplay": [
        ("screenplay --idle 2 demo.cast", "Plays it, without long pauses"),
        ("screenplay --find error demo.cast", "When an error came to the screen"),
        ("screenplay --timing times typescript", "A session that script(1) recorded"),
    ],
}


def usage(name):
    """How the program is called."""
    return f"{name} {synopsis(name)}"


def synopsis(name):
    """The words that it takes."""
    _, words, options, _ = entry(name)
    file = " [FILE]" if name in PROGRAMS else ""
    return " ".join(word for word, _ in words) + (" [OPTIONS]" if options else "") + file


def plain(name):
    """The help, as text."""
    about, words, options, notes = entry(name)
    lines = [about[0].upper() + about[1:] + ".", "", f"Usage: {usage(name)}", ""]
    lines += [OF_FILE, *[OF_SIZE] * (words[-2:] == SIZE), ""] * (name in PROGRAMS)
    lines += [notes, "", *["Options:"] * bool(options)]
    for option, value, completes, text in options:
        shown = f"--{option}" + (f" {value}" if value else "")
        lines.append(f"  {shown:<22} {text}" + (f": {completes}" if completes and completes != FILES else ""))
    lines += ["", *["Examples:"] * bool(EXAMPLES.get(name))]
    lines += [f"  {command}\n      {text}" for command, text in EXAMPLES.get(name, [])]
    return "\n".join(lines + ["", f"The status is {STATUSES.get(name, STATUS + '.')}", ""])


def man(name):
    about, words, options, notes = entry(name)
    roff = [f'.TH {name.upper()} 1 "" "Jeihpal 0.1"', ".SH NAME", f"{name} \\- {about}", ".SH SYNOPSIS"]
    roff.append(f".B {name}\n{synopsis(name)}")
    roff += [".SH DESCRIPTION", notes]
    roff += [*[".PP", OF_FILE] * (name in PROGRAMS), *[OF_SIZE] * (words[-2:] == SIZE)]
    roff += [".SH OPTIONS"] * bool(options)
    for option, value, _, text in options:
        short = f"\\fB\\-{SHORT[option]}\\fR, " if option in SHORT else ""
        shown = f"{short}\\fB\\-\\-{option}\\fR" + (f" \\fI{value}\\fR" if value else "")
        roff += [".TP", shown, text + "."]
    roff += [".SH EXAMPLES"] * bool(EXAMPLES.get(name))
    for command, text in EXAMPLES.get(name, []):
        roff += [".TP", "\\fB" + command.replace("-", "\\-").replace(" ", "\\ ") + "\\fR", text + "."]
    return "\n".join(roff + [".SH EXIT STATUS", STATUSES.get(name, STATUS + "."), ""])


# An option and its value are one word for the shell, or with a = between them three.
BASH_VALUE = """\
    local word=$2 option=$3
    if [[ $option == = ]]; then option=${COMP_WORDS[COMP_CWORD - 2]}; fi
    if [[ $word == = ]]; then word=; fi"""


def bash(name):
    _, words, options, _ = entry(name)
    known = " ".join(f"--{option}" for option, *_ in options) or words[0][0].replace("|", " ")
    cases = []
    for option, value, completes, _ in options:
        if value:
            reply = "compgen -f" if completes == FILES else f'compgen -W "{completes or ""}"'
            cases.append(f'        --{option}) mapfile -t COMPREPLY < <({reply} -- "$word"); return ;;')
    chosen = [BASH_VALUE, "    case $option in", *cases, "    esac"] if cases else []
    body = [f"_{name}() {{", *chosen, f'    mapfile -t COMPREPLY < <(compgen -W "{known}" -- "$2")', "}"]
    return "\n".join(body + [f"complete -o default -F _{name} {name}", ""])


def quoted(text):
    return text.replace("'", "'\\''").replace("[", "\\[").replace("]", "\\]").replace(":", "\\:")


def zsh(name):
    _, words, options, _ = entry(name)
    lines = [f"#compdef {name}", "_arguments \\"]
    for option, value, completes, text in options:
        action = "_files" if completes == FILES else f"({completes})" if completes else " "
        short = SHORT.get(option)
        shown = f"'(-{short} --{option})'{{-{short},--{option}}}'" if short else f"'--{option}{'=' if value else ''}"
        lines.append(f"    {shown}[{quoted(text)}]{f':{value}:{action}' if value else ''}' \\")
    if name in SCRIPTS:
        lines.append(f"    '*:{quoted(words[0][1])}:_files' \\")
        return "\n".join(lines)[:-2] + "\n"
    for place, (word, text) in enumerate(words, 1):
        choices = f"({word.replace('|', ' ')})" if "|" in word else " "
        lines.append(f"    '{place}:{quoted(text)}:{choices}' \\")
    lines.append("    '*:file:_files' \\")
    return "\n".join(lines)[:-2] + "\n"


def fish(name):
    _, words, options, _ = entry(name)
    lines = [f"complete -c {name}"]
    for option, value, completes, text in options:
        kind = "" if not value else " -r -F" if completes == FILES else f" -x -a '{completes or ''}'"
        short = f" -s {SHORT[option]}" if option in SHORT else ""
        lines.append(f"complete -c {name}{short} -l {option}{kind} -d \"{text}\"")
    if "|" in words[0][0]:
        lines.append(f"complete -c {name} -n __fish_is_first_arg -a '{words[0][0].replace('|', ' ')}' -d \"{words[0][1]}\"")
    return "\n".join(lines) + "\n"


PLACES = {
    "man/man1/{}.1": man,
    "bash-completion/completions/{}": bash,
    "zsh/site-functions/_{}": zsh,
    "fish/vendor_completions.d/{}.fish": fish,
}


def write_pages(top, names):
    """Writes the pages and completions of these programs below a folder. Answers their paths."""
    paths = []
    for name in names:
        for place, write in PLACES.items():
            path = os.path.join(top, place.format(name))
            os.makedirs(os.path.dirname(path), exist_ok=True)
            with open(path, "w", encoding="utf-8") as file:
                file.write(write(name))
            paths.append(path)
    return paths


def main():
    words = sys.argv[1:]
    if asked.for_help(words, f"{__doc__}\nusage: pages.py FOLDER"):
        return 0
    if len(words) != 1 or words[0].startswith("-"):
        print("usage: pages.py FOLDER; try --help", file=sys.stderr)
        return 2
    print(*write_pages(words[0], ALL), sep="\n")
    return 0


if __name__ == "__main__":
    sys.exit(main())
