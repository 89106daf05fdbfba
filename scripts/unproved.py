"""Makes the programs, or the library for C, without proofs, with the optimisation of proved ones.

The programs are kept in a folder of the user's cache, which is named by a sum of their sources. The library goes to
bindings/out, beside a file `unproved` that tells it from a proved one. One process makes them, ./build --unproved. The
commands start it where nothing is built, and show how far it is.
"""
import contextlib
import fcntl
import glob
import hashlib
import json
import os
import re
import shutil
import subprocess
import sys
import tempfile
import threading
import time
from concurrent.futures import ThreadPoolExecutor

from scripts import library, lowered, processes

HERE = os.path.dirname(os.path.dirname(os.path.realpath(__file__)))
CRATES = f"{HERE}/crates"
RELAYS = ("screencat", "screenlive", "screenrelay")
PROGRAMS = (*RELAYS, "screentext")
KEPT = 4  # folders of programs that are kept, the newest
LOOK = 0.2  # seconds between two looks at what is made
SAY = 15  # seconds between two lines where no terminal is written to
# The processor's seconds that each crate takes to be lowered and to be compiled, by which it is said how long it takes.
SECONDS = {"relays": (22, 22), "screentext": (38, 45), "jeihpal_c": (30, 32)}
LONG = {False: "a minute or two", True: "some two to three minutes"}

# One program for three: the name that it is run by says which.
RELAY_MAIN = """\
#![tactic(auto)]

{modules}

use std::env;
use std::process::ExitCode;

fn main(rt: HostRuntime) -> ExitCode {{
    let name = match env::args(&rt) {{
        Ok(mut words) => words.next(),
        Err(_) => None,
    }};
    match name {{
        {arms}
        _ => {last}::main(rt),
    }}
}}
"""
RELAY_ARM = 'Some(name) if name.as_str().ends_with("{name}") => {name}::main(rt),'
# The crate of the library as a program that has its functions.
LIBRARY_MAIN = """
fn any<T>() -> T {{
    unreachable!()
}}

fn main() {{
    {calls}
}}
"""
EXPORTED = re.compile(
    r'#\[unsafe\(no_mangle\)\]\s*(?:#\[[^\]]*\]\s*)*pub (?:unsafe )?extern "C" fn (\w+)\(([^)]*)\)\s*(->)?'
)


class Failed(Exception):
    """It can't be made: why."""


def uses_of_crates():
    """What crates.txt says: for each crate the libraries that it uses."""
    uses = {}
    with open(f"{HERE}/crates.txt", encoding="utf-8") as file:
        for line in file:
            head, colon, words = line.split("#")[0].partition(":")
            if colon:
                uses[head.split()[0]] = words.split()
    return uses


def crates_below(uses, names):
    """These crates, and those of the repository that they stand on."""
    found, left = set(), list(names)
    while left:
        name = left.pop()
        if name in uses and name not in found:
            found.add(name)
            left += uses[name]
    return found


def sources_of(*names):
    """The sources of crates, and of those of the repository that they stand on."""
    sources = [f"{HERE}/crates.txt"]
    for crate in sorted(crates_below(uses_of_crates(), names)):
        sources += sorted(glob.glob(f"{CRATES}/{crate}/src/**/*.rt", recursive=True))
    return sources


def kept_folder():
    """Where the programs are kept that were made of the present sources."""
    digest = hashlib.sha256(os.path.realpath(shutil.which("rt") or "rt").encode())
    for source in (*sources_of(*PROGRAMS), f"{HERE}/scripts/lowered.py", f"{HERE}/scripts/unproved.py"):
        with open(source, "rb") as file:
            digest.update(source.removeprefix(HERE).encode() + b"\0" + file.read())
    cache = os.environ.get("XDG_CACHE_HOME") or os.path.expanduser("~/.cache")
    return os.path.join(cache, "jeihpal", f"unproved-{digest.hexdigest()[:24]}")


def write_repository(folder, uses, name, below, files):
    """Writes a repository of a crate with these files, and of the crates that it stands on."""
    lowered.copy_sources(CRATES, below, f"{folder}/crates")
    os.makedirs(f"{folder}/crates/{name}/src")
    for path, text in files.items():
        with open(f"{folder}/crates/{name}/src/{path}", "w", encoding="utf-8") as file:
            file.write(text)
    with open(f"{folder}/crates.txt", "w", encoding="utf-8") as file:
        for crate in sorted(below):
            file.write(f"{crate}: {' '.join(uses[crate])}\n")
        file.write(f"{name}: {' '.join(uses[name])}\n")
    return f"{folder}/crates/{name}"


def text_of(path):
    """What is in a file of text."""
    with open(path, encoding="utf-8") as file:
        return file.read()


def relays(folder):
    """A crate of the three programs that relay."""
    uses = uses_of_crates()
    uses["relays"] = sorted({it for name in RELAYS for it in uses[name]})
    files = {}
    for name in RELAYS:
        text = text_of(f"{CRATES}/{name}/src/main.rt").replace("#![tactic(auto)]\n", "", 1)
        files[f"{name}.rt"] = text.replace("\nfn main(", "\npub fn main(", 1)
    modules = "\n".join(f"mod {name};" for name in RELAYS)
    arms = "\n        ".join(RELAY_ARM.format(name=name) for name in RELAYS[1:])
    files["main.rt"] = RELAY_MAIN.format(modules=modules, arms=arms, last=RELAYS[0])
    below = crates_below(uses, uses["relays"])
    return write_repository(folder, uses, "relays", below, files)


def library_program(folder):
    """A crate of a program that has each function of the library."""
    source, files, calls = f"{CRATES}/{library.CRATE}/src", {}, []
    for path in sorted(glob.glob(f"{source}/*.rt")):
        name, text = os.path.basename(path), text_of(path)
        for function, parameters, result in EXPORTED.findall(text):
            module = "" if name == "lib.rt" else f"{name[:-len('.rt')]}::"
            words = ", ".join("any()" for it in parameters.split(",") if it.strip())
            calls.append(f"{'let _ = ' if result else ''}{module}{function}({words});")
        if name != "tests.rt":
            files[name] = text
    main = files.pop("lib.rt").replace("#[cfg(test)]\nmod tests;\n", "")
    files["main.rt"] = main + LIBRARY_MAIN.format(calls="\n    ".join(calls))
    uses = uses_of_crates()
    return write_repository(folder, uses, library.CRATE, crates_below(uses, uses[library.CRATE]), files)


class Work:
    """What is made at the same time, and how far it is."""

    def __init__(self, names, state):
        self.names, self.state, self.begun = names, state, time.monotonic()
        self.done = dict.fromkeys(names, 0)
        self.running = {}

    def watch(self, name):
        """Has the time of a process count for this crate."""
        return lambda run: self.running.__setitem__(name, run.pid)

    def has_done(self, name, stage):
        """Notes that a stage is done: 1 or 2."""
        self.running.pop(name, None)
        self.done[name] = stage

    def part_of(self, name):
        """How much of the work on a crate is done, from 0 to 1."""
        costs, done = SECONDS[name], self.done[name]
        part = sum(costs[:done])
        if name in self.running and done < len(costs):
            part += min(processes.processor_seconds(self.running[name]), 0.95 * costs[done])
        return part / sum(costs)

    def left(self):
        """How much is done, from 0 to 1, and how many seconds are left; None while that isn't known."""
        part = min(map(self.part_of, self.names))
        passed = time.monotonic() - self.begun
        return part, passed * (1 - part) / part if part > 0.05 else None

    def report(self, ended):
        """Says how far it is, until it has ended: in a file for those who wait, and here."""
        line = Line("build")
        while not ended.wait(LOOK):
            part, left = self.left()
            with contextlib.suppress(OSError):
                with open(f"{self.state}.new", "w", encoding="utf-8") as file:
                    json.dump([part, left], file)
                os.replace(f"{self.state}.new", self.state)
            line.show(part, left)
        line.end()


class Line:
    """Progress on standard error: a line that is rewritten on a terminal, or else a line now and then."""

    def __init__(self, name):
        self.name, self.said, self.is_terminal, self.width = name, time.monotonic(), sys.stderr.isatty(), 0

    def show(self, part, left):
        """Shows how much is done, from 0 to 1, and the seconds that are left, if they are known."""
        if not self.is_terminal and time.monotonic() - self.said < SAY:
            return
        self.said = time.monotonic()
        text = f"{self.name}: {100 * part:.0f} %" + (f", some {left:.0f} s left" if left is not None else "")
        if self.is_terminal:
            print(f"\r{text.ljust(self.width)}", end="", file=sys.stderr, flush=True)
            self.width = len(text)
        else:
            print(text, file=sys.stderr, flush=True)

    def end(self):
        """Removes the line that is written again."""
        if self.width:
            print(f"\r{' ' * self.width}\r", end="", file=sys.stderr, flush=True)
            self.width = 0


def check_toolchain():
    """The folder of the toolchain. Refused where what is called of it isn't there."""
    kit = lowered.toolchain()
    for path in ("toolchain/bin/clang", "toolchain/bin/llvm-ar", "bin/rattle-link", "c/libos_c.a", "c/liblibc_c.a"):
        if not os.path.isfile(f"{kit}/{path}"):
            raise lowered.Unlike(f"the toolchain has no {path}")
    return kit


PROBE = """\
#![tactic(auto)]

use std::env;
use std::process::ExitCode;

#[inline(never)]
fn next(count: u8) -> u8 {
    count + 1
}

fn main(rt: HostRuntime) -> ExitCode {
    match env::args(&rt) {
        Ok(words) => {
            let mut count = 40;
            for _word in words {
                count = next(count);
            }
            ExitCode::from(count)
        }
        Err(_) => ExitCode::from(1),
    }
}
"""


def probe(kit):
    """Makes and runs a small program. Fails if the toolchain isn't as expected."""
    with tempfile.TemporaryDirectory(prefix="probe-") as folder:
        crate = write_repository(folder, {"probe": []}, "probe", [], {"main.rt": PROBE})
        lowered.lower(crate, f"{folder}/probe.bc")
        lowered.compiled(f"{folder}/probe.bc", f"{folder}/probe.o", f"{folder}/crates", kit)
        lowered.linked(f"{folder}/probe.o", f"{folder}/probe", kit)
        how = {"stdin": subprocess.DEVNULL, "stdout": subprocess.DEVNULL, "check": False}
        status = subprocess.run([f"{folder}/probe", "a"], **how)
        if status.returncode != 42:
            raise lowered.Unlike(f"a small program that is made so ends with status {status.returncode}, not 42")


def make_crate(work, name, crate, folder, kit, of_library=None):
    """Lowers a crate, and compiles it. Answers the object file."""
    lowered.lower(crate, f"{folder}/{name}.bc", while_it_runs=work.watch(name))
    work.has_done(name, 1)
    made, bytecode = f"{folder}/{name}.o", f"{folder}/{name}.bc"
    lowered.compiled(bytecode, made, CRATES, kit, library=of_library, while_it_runs=work.watch(name))
    work.has_done(name, 2)
    return made


def make_relays(work, room, folder, kit):
    """Makes the three programs that relay, and puts them into the folder."""
    made = make_crate(work, "relays", relays(f"{room}/relays"), room, kit)
    for name in RELAYS:
        lowered.linked(made, f"{room}/{name}", kit)
        os.replace(f"{room}/{name}", f"{folder}/{name}")


def make_screentext(work, room, folder, kit):
    """Makes screentext, and puts it into the folder."""
    made = make_crate(work, "screentext", f"{CRATES}/screentext", room, kit)
    lowered.linked(made, f"{room}/screentext", kit)
    os.replace(f"{room}/screentext", f"{folder}/screentext")


def make_library(work, room, kit):
    """Makes the library for C. Answers the files' names."""
    crate = library_program(f"{room}/library")
    made = make_crate(work, library.CRATE, crate, room, kit, (library.CRATE, "jeihpal_"))
    archive = f"{room}/lib{library.CRATE}.a"
    subprocess.run([f"{kit}/toolchain/bin/llvm-ar", "rcsD", archive, made], check=True)
    return library.make(archive, is_proved=False)


def all_of(calls):
    """Makes several things at once. The first that fails is raised, once all have ended."""
    with ThreadPoolExecutor(len(calls)) as pool:
        for ended in [pool.submit(*it) for it in calls]:
            ended.result()


def shown(work, make):
    """Does some work, and says meanwhile how far it is."""
    ended = threading.Event()
    forget(work.state)
    telling = threading.Thread(target=work.report, args=(ended,))
    telling.start()
    try:
        return make()
    finally:
        ended.set()
        telling.join()
        forget(work.state)


def forget(path):
    """Removes a file, if it is there."""
    with contextlib.suppress(FileNotFoundError):
        os.remove(path)


def make_programs():
    """Makes the programs that aren't kept. Answers the folder."""
    folder = kept_folder()
    try:
        os.makedirs(folder, exist_ok=True)
        lock = open(f"{folder}/lock", "w", encoding="utf-8")
    except OSError as error:
        said = f"{folder}: {error.strerror}; XDG_CACHE_HOME names another folder"
        raise Failed(f"the programs can't be kept in {said}") from error
    with lock, tempfile.TemporaryDirectory(prefix="made-", dir=folder) as room:
        fcntl.flock(lock, fcntl.LOCK_EX)
        try:
            make_lacking(room, folder)
        except lowered.Refused as error:
            raise Failed(str(error)) from error
        except (lowered.Unlike, subprocess.CalledProcessError, OSError) as error:
            print(f"build: {error}", file=sys.stderr)
            make_slowly(folder)
    forget_old(folder)
    return folder


def make_lacking(room, folder):
    """Makes the programs that aren't in the folder."""
    lacking = {name for name in PROGRAMS if not os.access(f"{folder}/{name}", os.X_OK)}
    makes = {"relays": make_relays} if lacking & {*RELAYS} else {}
    makes.update({"screentext": make_screentext} if "screentext" in lacking else {})
    if makes:
        kit, work = check_toolchain(), Work(list(makes), f"{folder}/state")
        calls = [(probe, kit), *((make, work, room, folder, kit) for make in makes.values())]
        shown(work, lambda: all_of(calls))


def forget_old(folder):
    """Removes the folders of programs that are kept of other sources, but the newest."""
    kept = sorted(glob.glob(f"{os.path.dirname(folder)}/unproved-*"), key=os.path.getmtime)
    for old in kept[:-KEPT]:
        if old != folder:
            shutil.rmtree(old, ignore_errors=True)


def make_slowly(folder):
    """Keeps the programs that `rt try` itself makes, which are slower by far: they have checks, and no optimisation."""
    print("build: so the programs are made as rt try makes them, one after the other: slower by far", file=sys.stderr)
    for name in PROGRAMS:
        if not os.access(f"{folder}/{name}", os.X_OK):
            said = lowered.take_checked(f"{CRATES}/{name}", f"{folder}/{name}", name == "screenrelay")
            if said is not None:
                raise Failed(f"{name} wasn't compiled, or rt kept nothing:\n{said}")


def make_the_library():
    """Makes the library for C without proofs, in place of one that may be there. Answers the files' names."""
    try:
        os.makedirs(library.OUT, exist_ok=True)
        lock = open(f"{library.OUT}/lock", "w", encoding="utf-8")
    except OSError as error:
        raise Failed(f"the library can't be made in {library.OUT}: {error.strerror}") from error
    with lock, tempfile.TemporaryDirectory(prefix="library-") as room:
        fcntl.flock(lock, fcntl.LOCK_EX)
        try:
            kit = check_toolchain()
            work, made = Work([library.CRATE], f"{library.OUT}/state"), []
            shown(work, lambda: all_of([(probe, kit), (lambda: made.extend(make_library(work, room, kit)),)]))
            return made
        except lowered.Refused as error:
            raise Failed(str(error)) from error
        except (lowered.Unlike, library.Missing, subprocess.CalledProcessError, OSError) as error:
            raise Failed(f"{error}\nbuild: the library is then made by ./build --library alone, with proofs") from error


def wait_for(name, path, state, words):
    """Starts ./build --unproved, and waits until a program or the library is there. It goes on with the rest."""
    log = tempfile.TemporaryFile("w+", errors="replace")
    run = subprocess.Popen(
        [sys.executable, f"{HERE}/build", "--unproved", *words],
        stdin=subprocess.DEVNULL,
        stdout=log,
        stderr=log,
        start_new_session=True,
    )
    line = Line(name)
    try:
        while run.poll() is None and not os.path.exists(path):
            time.sleep(LOOK)
            with contextlib.suppress(OSError, ValueError), open(state, encoding="utf-8") as file:
                line.show(*json.load(file))
        line.end()
    except BaseException:
        line.end()
        run.terminate()
        run.wait()
        raise
    if not os.path.exists(path):
        log.seek(0)
        raise Failed(log.read().strip())


def program(name, why):
    """The program, unproved: as it is kept, or else made now."""
    folder = kept_folder()
    path = f"{folder}/{name}"
    if not os.access(path, os.X_OK):
        check_rt(why)
        said = f"{why}: compiling it unproved, once, {LONG[False]}; ./build proves it"
        print(f"{name}: {said}", file=sys.stderr, flush=True)
        wait_for(name, path, f"{folder}/state", [])
    return path


def is_kept(name):
    """Whether the program is kept that was made of the present sources."""
    return os.access(f"{kept_folder()}/{name}", os.X_OK)


def check_rt(why):
    """Refused where there is no toolchain."""
    if not shutil.which("rt"):
        raise Failed(
            f"{why}, and rt, the command of the Rattle toolchain, isn't on the path; it makes it (README, \"Run it\"); "
            "what ./build --install copies runs without"
        )


def make_library_for(name, why):
    """Has the library made that a script needs."""
    check_rt(why)
    long = f"compiling the library unproved, once, {LONG[True]}; ./build --library proves it"
    print(f"{name}: {why}: {long}", file=sys.stderr, flush=True)
    wait_for(name, f"{library.OUT}/libjeihpal.so", f"{library.OUT}/state", ["--library"])
