#!/usr/bin/env python3
"""Runs two programs that take the words of crates/speed in turn, and compares counts and times.

beside.py [--seconds N] OURS OTHER: in some N seconds (240).

A figure is the least processor time of several runs, less that of a run that does the work once. It fails where the
other program counts something else, or takes more than 1.05 times the time for a work of feeding, frames or
processing. What is above that is measured again in the time that is left.
"""
import argparse
import resource
import subprocess
import sys
import tempfile
import time

# Works of which each stream makes another one, and works of the screen that one stream leaves.
WORKS = {
    "plain": ("screen", "hub", "view", "redraw", "unchanged", "frame", "client"),
    "coloured": ("screen", "hub", "view"),
    "motion": ("screen", "hub", "view"),
}
MARKED = {"screen", "hub", "unchanged", "frame", "client"}
MARK = 1.05
SPAN = 0.25  # seconds that a run takes
LEAST_ROUNDS = 3


def streams():
    """Plain text, coloured words, and text that is put here and there."""
    plain = b"The quick brown fox jumps over the lazy dog; pack my box with five dozen jugs of liquor.\r\n"
    words = (f"\x1b[{30 + i % 8}mword{i} \x1b[1;38;5;{i * 3}mbold\x1b[m " + "\r\n" * (i % 4 == 3) for i in range(64))
    places = (f"\x1b[{1 + i * 7 % 24};{1 + i * 13 % 80}H{i % 10}\x1b[K\x1b[{i % 5}C*\x1b[A\x1b[2D#" for i in range(200))
    units = {"plain": plain, "coloured": "".join(words).encode(), "motion": "".join(places).encode()}
    return {name: unit * ((1 << 20) // len(unit)) for name, unit in units.items()}


def taken(program, work, times, file):
    """What a run prints, and its processor time."""
    before = resource.getrusage(resource.RUSAGE_CHILDREN)
    with open(file, "rb") as stream:
        said = subprocess.run([program, work, "24", "80", str(times)], stdin=stream, stdout=subprocess.PIPE, check=True)
    after = resource.getrusage(resource.RUSAGE_CHILDREN)
    return said.stdout, after.ru_utime + after.ru_stime - before.ru_utime - before.ru_stime


def times_for(program, work, file):
    """How often the work has to be done for a run to take some time."""
    times = 1
    while times < 1 << 22:
        spent = taken(program, work, times + 1, file)[1] - taken(program, work, 1, file)[1]
        if spent > SPAN / 4:
            return max(1, round(times * SPAN / spent))
        times *= 4
    return times


class Compared:
    """A work on a stream, and the least times of both programs for doing it once, and for `times` times more."""

    def __init__(self, programs, name, work, file):
        self.programs, self.name, self.work, self.file = programs, name, work, file
        self.times = times_for(programs[0], work, file)
        self.least = [[9e9, 9e9] for _ in programs]

    def go_round(self):
        """Runs both programs once more. They must print the same."""
        for slot, count in enumerate((1, self.times + 1)):
            said = []
            for least, program in zip(self.least, self.programs):
                text, spent = taken(program, self.work, count, self.file)
                said.append(text)
                least[slot] = min(least[slot], spent)
            if said[0] != said[1]:
                sys.exit(f"beside: {self.name} {self.work}: they print {said}")

    def seconds(self):
        """How long each program takes to do the work once."""
        return [(often - once) / self.times for once, often in self.least]

    def is_slow(self):
        """Whether the other program takes too long, as far as is known."""
        ours, other = self.seconds()
        return self.work in MARKED and other > MARK * ours

    def __str__(self):
        ours, other = self.seconds()
        figures = f"{ours * 1e6:10.1f} us {other * 1e6:10.1f} us {other / ours:6.3f} times"
        return f"{self.name:9} {self.work:10} {figures}{'  ABOVE' * self.is_slow()}"


def measured(programs, folder, seconds):
    """All works, each measured in its share of the time, and the slow ones again in what is left."""
    end = time.monotonic() + seconds
    works = [(name, work) for name, all_works in WORKS.items() for work in all_works]
    found = []
    for at, (name, work) in enumerate(works):
        # A fifth of the time is kept for the slow ones.
        share = time.monotonic() + (end - seconds / 5 - time.monotonic()) / (len(works) - at)
        found.append(Compared(programs, name, work, f"{folder}/{name}"))
        rounds = 0
        while rounds < LEAST_ROUNDS or time.monotonic() < share:
            found[-1].go_round()
            rounds += 1
    while time.monotonic() < end and (slow := [it for it in found if it.is_slow()]):
        for it in slow:
            it.go_round()
    return found


def main():
    parser = argparse.ArgumentParser(description=__doc__, formatter_class=argparse.RawDescriptionHelpFormatter)
    parser.add_argument("--seconds", type=float, default=240)
    parser.add_argument("programs", nargs=2, metavar="PROGRAM")
    words = parser.parse_args()
    with tempfile.TemporaryDirectory() as folder:
        for name, stream in streams().items():
            with open(f"{folder}/{name}", "wb") as file:
                file.write(stream)
        found = measured(words.programs, folder, words.seconds)
    print(*found, sep="\n")
    slow = [it for it in found if it.is_slow()]
    print(f"{len(slow)} of {len(found)} above {MARK} times")
    return 1 if slow else 0


if __name__ == "__main__":
    sys.exit(main())
