"""The command lines that pages show, for check_docs.

Read are the blocks between ```sh and ```, and of README also the spans in backticks that begin with `./`. Of each
command the program has to be there: `./NAME` as a file that can be run, another one in the list below. Each of its
options has to be one that its table or its source has, and each file below examples/ has to exist.

With `--run` those lines of README are run that need a few seconds: those of programs that are built and read a file to
its end. They run in a folder of their own, and their status has to be 0.
"""
import os
import re
import shlex
import subprocess
import sys
import tempfile

ROOT = os.path.dirname(os.path.dirname(os.path.abspath(__file__)))
sys.path.insert(0, ROOT)
from scripts import pages  # noqa: E402

# Programs of others. What they are passed isn't looked at.
OTHERS = {
    "rt", "cc", "cargo", "pip", "pytest", "python3", "script", "socat", "ssh", "docker", "vim", "top", "make", "git",
    "rsvg-convert", "seq", "cat", "head", "echo", "printf", "curl", "nc", "stty", "cd", "mkdir", "for", "while", "do",
    "done", "sleep", "apt", "apt-get", "sudo", "install", "diff", "systemctl", "nginx", "tmux", "umask", "openssl",
    "ffmpeg", "convert", "go", "ls", "telnet", "pkg-config", "journalctl", "kubectl", "export", "rm", "base64", "sh", "gifski",
}
INSTALLED = {*pages.PROGRAMS, *pages.SCRIPTS}
READ_A_FILE = ("screencat", "screenrelay", "screentext")
OPTION = re.compile(r"--?[A-Za-z][\w-]*")


def text_of(path):
    with open(os.path.join(ROOT, path), encoding="utf-8") as file:
        return file.read()


def options_of(program):
    """The options that a program has: by its table, or named in its source."""
    options = {"--help", "--version", "-h", "-V"}
    if program in pages.PROGRAMS:
        options |= {f"--{option[0]}" for option in pages.PROGRAMS[program][2]} | {"-o", "--colors"}
    else:
        options |= set(re.findall(r"--[a-z][\w-]*", text_of(program)))
    if program == "share":
        options |= {f"--{option[0]}" for option in pages.share_options()}
    elif program in pages.SCRIPTS:
        listed = pages.SCRIPTS[program][2]
        options |= {f"--{option[0]}" for option in (listed() if callable(listed) else listed)}
    elif program == "build":
        options |= {"--install"}
    return options


def lines_of(path, text):
    """The command lines of a page, each with its number."""
    fence = None
    for number, line in enumerate(text.split("\n"), 1):
        if line.lstrip().startswith("```"):
            fence = line.strip()[3:] if fence is None else None
        elif fence == "sh":
            yield number, line
        elif fence is None and path == "README.md":
            yield from ((number, span) for span in re.findall(r"`(\./[^`]+)`", line))


def commands_in(line):
    """The words of each command of a line: of a pipeline, or of several after another."""
    try:
        lexer = shlex.shlex(line, posix=True, punctuation_chars=True)
        lexer.whitespace_split, lexer.commenters = True, "#"
        words = list(lexer)
    except ValueError:
        return
    command = []
    for word in [*words, ";"]:
        if word in ("|", "&&", "||", ";", "&", "(", ")"):
            if command:
                yield command
            command = []
        else:
            command.append(word)


def command_faults(words):
    """What a command names that isn't there."""
    while words and re.fullmatch(r"\w+=.*", words[0]):
        words = words[1:]
    if not words:
        return
    name = words[0].removeprefix("./")
    ours = os.path.isfile(os.path.join(ROOT, name)) and os.access(os.path.join(ROOT, name), os.X_OK)
    if words[0].startswith("./") and not ours:
        yield f"no program {words[0]}"
    elif not ours and name not in OTHERS | INSTALLED:
        yield f"no program {name}"
    if ours:
        yield from word_faults(name, words[1:])


def word_faults(name, words):
    """The options that a program of ours doesn't have, and files that aren't there. What follows -- is another's."""
    words = words[: words.index("--")] if "--" in words else words
    for word in words:
        option = OPTION.match(word)
        if option and option.group() not in options_of(name):
            yield f"{name} has no option {option.group()}"
        if word.startswith("examples/") and not os.path.exists(os.path.join(ROOT, word)):
            yield f"no file {word}"


def faults(path, text):
    """What the command lines of a page name that isn't there."""
    return [
        f"{path}:{number}: {fault}"
        for number, line in lines_of(path, text)
        for words in commands_in(line)
        for fault in command_faults(words)
    ]


# ---- run

def is_built(program):
    """Whether the program is there, proved or not."""
    from scripts import unproved
    return os.path.exists(os.path.join(ROOT, "crates", program, "out", program)) or unproved.is_kept(program)


def can_be_run(line):
    names = [words[0].removeprefix("./") for words in commands_in(line)]
    return bool(names) and all(name in READ_A_FILE and is_built(name) for name in names)


def run_faults():
    """The command lines of README that can be run here, and end with a status other than 0; and how many were run."""
    found, count = [], 0
    with tempfile.TemporaryDirectory() as folder:
        for name in os.listdir(ROOT):
            os.symlink(os.path.join(ROOT, name), os.path.join(folder, name))
        for number, line in lines_of("README.md", text_of("README.md")):
            if can_be_run(line):
                count += 1
                done = subprocess.run(["sh", "-c", line], cwd=folder, capture_output=True, timeout=60, check=False)
                if done.returncode:
                    found.append(f"README.md:{number}: status {done.returncode}: {done.stderr.decode().strip()}")
    return found, count
