"""The examples of jeihpal.testing with real programs, each a hundred times: as the machine is, and with all processors
busy.

python3 -m tests.often [--times N] [--calm | --busy] prints how many tests ran, how many failed, and how busy the
processors were. It fails where one of them fails. pytest is wanted. Where others work on the machine,
`chrt -r 1 python3 -m tests.often --calm` is nearly as on an idle one: the tests, and what they start, come first.
"""

from __future__ import annotations

import argparse
import contextlib
import os
import re
import subprocess
import sys
import tempfile
import time
import xml.etree.ElementTree
from typing import Iterator, NamedTuple

from .sharing import PYTHON
from .test_harness import with_pytest

EXAMPLES = os.path.join(os.path.dirname(os.path.dirname(PYTHON)), "examples", "testing")
WORK = "while True: pass"  # what makes a processor busy
ENV = {**os.environ, "PYTHONPATH": PYTHON, "PYTHONDONTWRITEBYTECODE": "1"}


class Result(NamedTuple):
    """What became of the tests."""

    ran: int
    skipped: int
    failed: list[str]
    """The names of those that failed, with what they say."""


def _processors() -> tuple[int, int]:
    """Hundredths of a second that all processors were idle, and those that there were."""
    with open("/proc/stat", encoding="ascii") as file:
        numbers = [int(word) for word in file.readline().split()[1:9]]
    return numbers[3], sum(numbers)


@contextlib.contextmanager
def busy_processors(count: int) -> Iterator[None]:
    """Keeps this many programs running all the time."""
    programs = [subprocess.Popen([sys.executable, "-c", WORK]) for _ in range(count)]
    try:
        yield
    finally:
        for program in programs:
            program.kill()
            program.wait()


def _started(folder: str, number: int, times: int) -> subprocess.Popen[bytes]:
    """Starts pytest on the examples, each test this many times."""
    words = [with_pytest(), "-m", "pytest", "-q", "-p", "jeihpal.testing.pytest_plugin", "-p", "no:cacheprovider"]
    words += [f"--times={times}", "--failed-screens", f"{folder}/failed{number}"]
    words += [f"--basetemp={folder}/made{number}", f"--junitxml={folder}/result{number}.xml", EXAMPLES]
    with open(f"{folder}/said{number}", "wb") as said:
        return subprocess.Popen(words, env=ENV, cwd=folder, stdin=subprocess.DEVNULL, stdout=said, stderr=said)


def _result(folder: str, number: int) -> Result:
    """What a run of pytest has written."""
    if not os.path.exists(f"{folder}/result{number}.xml"):
        with open(f"{folder}/said{number}", encoding="utf-8") as said:
            raise RuntimeError(f"pytest ran no tests: {said.read()}")
    cases = xml.etree.ElementTree.parse(f"{folder}/result{number}.xml").getroot().findall(".//testcase")
    skipped = sum(case.find("skipped") is not None for case in cases)
    failed = []
    for case in cases:
        for fault in (*case.findall("failure"), *case.findall("error")):
            failed.append(f"{case.get('name')}: {fault.get('message')}")
    return Result(len(cases) - skipped, skipped, failed)


def _scripts(folder: str, times: int) -> Result:
    """The scripts of the examples, one run after another."""
    ran, failed = 0, []
    for number in range(times):
        words = [sys.executable, "-m", "jeihpal.testing", "--failed-screens", f"{folder}/scripts{number}", EXAMPLES]
        said = subprocess.run(words, env=ENV, stdout=subprocess.PIPE, check=False).stdout.decode()
        ran += len(re.findall(r"^(?:not )?ok \d+ - \w+$", said, re.M))
        failed += re.findall(r"^not ok .*\n(?:#.*\n)*", said, re.M)
    return Result(ran, 0, failed)


def play(times: int, workers: int) -> Result:
    """Runs each test this many times, by this many processes of pytest at once, and then the scripts."""
    shares = [share for number in range(workers) if (share := (times + number) // workers)]
    with tempfile.TemporaryDirectory(prefix="often-") as folder:
        runs = [_started(folder, number, share) for number, share in enumerate(shares)]
        for run in runs:
            run.wait()
        results = [_result(folder, number) for number in range(len(shares))]
        results.append(_scripts(folder, times))
    failed = [name for result in results for name in result.failed]
    return Result(sum(it.ran for it in results), sum(it.skipped for it in results), failed)


def told(how: str, times: int, workers: int) -> bool:
    """Runs them, and prints figures. Returns whether none has failed."""
    begun, (idle, whole) = time.monotonic(), _processors()
    result = play(times, workers)
    still, now = _processors()
    share = 100 * (still - idle) / max(now - whole, 1)
    print(f"{how}: {result.ran} runs, {times} of each, {result.skipped} skipped, {len(result.failed)} failed;", end=" ")
    print(f"{time.monotonic() - begun:.0f} s, processors {share:.0f} % idle, load {os.getloadavg()[0]:.1f}", flush=True)
    for name in result.failed:
        print(f"  {name}", flush=True)
    return not result.failed


def main() -> int:
    parser = argparse.ArgumentParser(prog="often", description=__doc__)
    parser.add_argument("--times", type=int, default=100, metavar="N", help="how often each is run (100)")
    ways = parser.add_mutually_exclusive_group()
    ways.add_argument("--calm", action="store_true", help="only as the machine is, one test at a time")
    ways.add_argument("--busy", action="store_true", help="only with all processors busy")
    given = parser.parse_args()
    count, is_well = os.cpu_count() or 1, True
    if not given.busy:
        is_well = told("as the machine is", given.times, 1)
    if not given.calm:
        with busy_processors(2 * count):
            is_well = told("with all processors busy", given.times, count) and is_well
    return 0 if is_well else 1


if __name__ == "__main__":
    sys.exit(main())
