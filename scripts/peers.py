"""Other terminal libraries that are installed, as programs that take the words of crates/speed: WORK ROWS COLS TIMES."""
import os
import re
import shutil
import subprocess
import tempfile

HERE = os.path.dirname(os.path.realpath(__file__))
MADE = f"{os.path.dirname(HERE)}/crates/speed/out/peers"
# Where Debian's packages of Rust crates lie.
CRATES = "/usr/share/cargo/registry"
C_FLAGS = ["-O3", "-flto"]


def said_by(*words):
    """What a command prints, or None if there is none or it fails."""
    if not shutil.which(words[0]):
        return None
    done = subprocess.run(words, stdout=subprocess.PIPE, stderr=subprocess.DEVNULL, stdin=subprocess.DEVNULL, text=True)
    return None if done.returncode else done.stdout.strip()


def of_c_library(name, package):
    """A program over a C library that `pkg-config` knows."""
    version = said_by("pkg-config", "--modversion", package)
    flags = said_by("pkg-config", "--cflags", "--libs", package)
    if version is None or flags is None:
        return None
    program = f"{MADE}/{name}"
    if said_by("cc", *C_FLAGS, f"{HERE}/peers/{name}.c", "-o", program, *flags.split()) is None:
        return None
    return f"{name} {version}", [program], f"the program cc {' '.join(C_FLAGS)}, the library as Debian builds it"


def alacritty():
    """A program over alacritty_terminal, where Debian's package of the crate is installed."""
    found = [it for it in os.listdir(CRATES) if it.startswith("alacritty_terminal-")] if os.path.isdir(CRATES) else []
    if not found:
        return None
    source = ['source.crates-io.replace-with="debian"', f'source.debian.directory="{CRATES}"']
    words = ["cargo", "build", "--release", "--offline", "--target-dir", f"{MADE}/alacritty"]
    folder = f"{MADE}/alacritty_source"
    shutil.copytree(f"{HERE}/peers/alacritty", folder, dirs_exist_ok=True)
    words += ["--manifest-path", f"{folder}/Cargo.toml", *(word for it in source for word in ("--config", it))]
    if said_by(*words) is None:
        return None
    version = found[0].removeprefix("alacritty_terminal-")
    program = f"{MADE}/alacritty/release/peer_alacritty"
    return f"alacritty_terminal {version}", [program], "opt-level 3, one unit of code, lto fat"


def pyte():
    """A program over pyte, in whichever Python has it."""
    for python in ("python3", "/usr/bin/python3"):
        version = said_by(python, "-c", "import importlib.metadata as it, pyte; print(it.version('pyte'))")
        if version:
            python_version = said_by(python, "-c", "import platform; print(platform.python_version())")
            return f"pyte {version}", [shutil.which(python), f"{HERE}/peers/pyte_screen.py"], f"Python {python_version}"
    return None


def peers():
    """The name with its version, the words that begin a run, and how it is built, of each that is installed."""
    os.makedirs(MADE, exist_ok=True)
    found = [alacritty(), of_c_library("libvterm", "vterm"), of_c_library("libtsm", "libtsm"), pyte()]
    return [it for it in found if it]


def instructions(words, file):
    """How many instructions a run takes, as callgrind counts them, and how many of them clear or move memory."""
    with tempfile.TemporaryDirectory() as folder:
        profile = f"{folder}/profile"
        with open(file, "rb") as stream:
            done = subprocess.run(
                ["valgrind", "--tool=callgrind", f"--callgrind-out-file={profile}", *words],
                stdin=stream,
                stdout=subprocess.DEVNULL,
                stderr=subprocess.PIPE,
                env={**os.environ, "PYTHONHASHSEED": "0"},
                check=True,
                text=True,
            )
        total = int(re.search(r"Collected : (\d+)", done.stderr).group(1))
        with open(profile) as lines:
            return total, clearing(lines)


def clearing(lines):
    """How many instructions of a profile are in `memset`, `memcpy` and `memmove`. A name is written once, with a number."""
    names, total, is_clearing, is_call = {}, 0, False, False
    for line in lines:
        if found := re.match(r"(c?fn)=\((\d+)\)(?: (.*))?", line):
            kind, number, name = found.groups()
            if name:
                names[number] = name
            if kind == "fn":
                is_clearing = re.search(r"mem(set|cpy|move)", names[number]) is not None
        elif line.startswith("calls="):
            is_call = True
        elif line[0] in "+-*0123456789":
            # The line behind a call has what the called function took.
            if is_clearing and not is_call:
                total += int(line.split()[-1])
            is_call = False
    return total


def instructions_a_byte(words, work, size, file):
    """The instructions by the byte of a run that does the work three times, less those of one that does it once; and
    those of them that clear or move memory."""
    once, thrice = (instructions([*words, work, *size, times], file) for times in ("1", "3"))
    return [(high - low) / 2 / os.path.getsize(file) for low, high in zip(once, thrice)]


def instructions_a_call(words, work, size, file):
    """The same by the call, of work that reads the stream once, before: of a run with 40 calls more."""
    (few, few_clearing), (many, many_clearing) = (instructions([*words, work, *size, it], file) for it in ("1", "41"))
    return (many - few) / 40, (many_clearing - few_clearing) / 40
