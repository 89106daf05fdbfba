"""Ends what a script has started when the script is ended."""
import contextlib
import glob
import os
import signal
import sys
import time

PATIENCE = 3  # seconds that a process may take to end when it is told to


def started_by():
    """For each process here those that it has started."""
    children = {}
    for name in os.listdir("/proc"):
        if name.isdigit():
            with contextlib.suppress(OSError), open(f"/proc/{name}/stat", encoding="utf-8", errors="replace") as file:
                parent = int(file.read().rpartition(")")[2].split()[1])
                children.setdefault(parent, []).append(int(name))
    return children


def children_of(process):
    """Those that a process has started, where the system has a list of them."""
    found = []
    for path in glob.glob(f"/proc/{process}/task/*/children"):
        with contextlib.suppress(OSError), open(path, encoding="ascii") as file:
            found += map(int, file.read().split())
    return found


def descendants(top):
    """The processes that a process has started, and those that these have."""
    all_children = None if glob.glob("/proc/self/task/*/children") else started_by()
    found, left = [], [top]
    while left:
        process = left.pop()
        more = children_of(process) if all_children is None else all_children.get(process, [])
        found += more
        left += more
    return found


def tell(processes, number):
    """Sends a signal to those that are there."""
    for process in processes:
        with contextlib.suppress(ProcessLookupError):
            os.kill(process, number)


def end(number, _frame):
    """Ends what was started, and then this script, which may still put away what it has made."""
    started = descendants(os.getpid())
    tell(started, signal.SIGTERM)
    before = time.monotonic()
    while time.monotonic() - before < PATIENCE and any(os.path.exists(f"/proc/{it}") for it in started):
        time.sleep(0.1)
    tell(started, signal.SIGKILL)
    sys.exit(128 + number)


def end_with_this():
    """From here on a signal that ends this script ends what it has started."""
    for number in (signal.SIGTERM, signal.SIGHUP, signal.SIGINT):
        signal.signal(number, end)


def processor_seconds(top):
    """The most processor time that a process has taken, or one that it has started, in seconds."""
    most = 0
    for process in (top, *descendants(top)):
        with contextlib.suppress(OSError, ValueError, IndexError):
            with open(f"/proc/{process}/stat", encoding="utf-8", errors="replace") as file:
                words = file.read().rpartition(")")[2].split()
            most = max(most, int(words[11]) + int(words[12]))
    return most / os.sysconf("SC_CLK_TCK")
