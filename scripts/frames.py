"""Makes PNG pictures of a film in SVG, one for each screen that it shows, by way of rsvg-convert.

The film of screentext has each row once, and says by key frames which of them is where. So each screen is a picture of
the rows that it shows, without the times.
"""
import bisect
import os
import re
import shutil
import subprocess
from concurrent.futures import ThreadPoolExecutor

OPTION = "--frames"
CONVERTER = "rsvg-convert"
LIST = "frames.txt"
MOST_AT_ONCE = 4

STYLE = re.compile(rb"<style>\.film\{animation:([0-9.]+)s .*?</style>\n", re.DOTALL)
KEYFRAMES = re.compile(rb"@keyframes t([0-9]+)\{((?:[0-9.]+%\{transform:translate\(-[0-9]+px\)\})*)\}")
KEYFRAME = re.compile(rb"([0-9.]+)%\{transform:translate\(-([0-9]+)px\)\}")
TRACK = re.compile(rb'^<g class="film t([0-9]+)" transform="translate\(-([0-9]+)\)">(.*)</g>$', re.MULTILINE)
USE = re.compile(rb'<use href="#r([0-9]+)" x="([0-9]+)" y="([0-9]+)"/>')
ROW = re.compile(rb'^(<g id="r([0-9]+)">.*\n)', re.MULTILINE)


class Failed(Exception):
    """The pictures can't be made: why."""


def parted(options):
    """The folder that the options ask for, or None, and the options that make the film of it."""
    asked = [it.partition("=")[2] for it in options if it.startswith(f"{OPTION}=")]
    others = [it for it in options if not it.startswith(f"{OPTION}=")]
    if not asked:
        return None, others
    return asked[-1], others + [it for it in ("--svg", "--animate") if it not in others]


def check(folder):
    """Says why no pictures can be made in the folder, if that is so."""
    if not shutil.which(CONVERTER):
        raise Failed(f"{OPTION} needs {CONVERTER}, which isn't installed; Debian's package of it is librsvg2-bin")
    try:
        is_empty = not os.path.lexists(folder) or not os.listdir(folder)
    except OSError as error:
        raise Failed(f"{folder}: {error.strerror}") from error
    if not is_empty:
        raise Failed(f"{folder}: the folder isn't empty")


class Track:
    """A row of the screen: the rows that it shows, by their places, and when it moves to which place."""

    def __init__(self, place, uses, moves):
        self.place, self.times, self.places = place, [at for at, _ in moves], [x for _, x in moves]
        self.uses = {int(x): (row, y) for row, x, y in uses}

    def shown(self, time):
        """The number of the row that is shown from a time on, and how far down."""
        count = bisect.bisect_right(self.times, time)
        return self.uses[self.places[count - 1] if count else self.place]


class Film:
    """A film, and when it shows what. Times are parts of its length, in percent."""

    def __init__(self, data):
        style = STYLE.search(data)
        rows = {number: line for line, number in ROW.findall(data)}
        found = list(TRACK.finditer(data))
        if not style or not found:
            raise Failed("what was made isn't a film")
        self.length, self.rows = float(style[1]), rows
        self.head, self.foot = data[: style.start()], data[found[-1].end() :]
        moves = {}
        for track, frames in KEYFRAMES.findall(style[0]):
            moves[track] = [(float(at), int(x)) for at, x in KEYFRAME.findall(frames) if float(at) < 100]
        self.tracks = [Track(int(it[2]), USE.findall(it[3]), moves.get(it[1], [])) for it in found]

    def times(self):
        """The times at which the picture changes."""
        return sorted({0.0, *(at for track in self.tracks for at in track.times)})

    def picture(self, time):
        """The picture that is shown from a time on."""
        shown = [track.shown(time) for track in self.tracks]
        rows = b"".join(self.rows[number] for number in {number: None for number, _ in shown})
        uses = b"".join(b'<use href="#r%s" y="%s"/>\n' % it for it in shown)
        return b"%s<defs>\n%s</defs>\n%s%s" % (self.head, rows, uses, self.foot.lstrip(b"\n"))


def convert(picture, path):
    """Makes a PNG of a picture in SVG."""
    words = [CONVERTER, "--format=png", f"--output={path}"]
    run = subprocess.run(words, input=picture, stdout=subprocess.DEVNULL, stderr=subprocess.PIPE, check=False)
    if run.returncode:
        said = run.stderr.decode("utf-8", "replace").strip().split("\n")[-1]
        raise Failed(f"{CONVERTER}: {said or run.returncode}")


def write(data, folder):
    """Writes the pictures of a film, and a list of them with their times, as ffmpeg reads it."""
    film = Film(data)
    times = film.times()
    os.makedirs(folder, exist_ok=True)
    names = [f"frame-{number:06}.png" for number in range(1, len(times) + 1)]
    with ThreadPoolExecutor(min(MOST_AT_ONCE, os.cpu_count() or 1)) as pool:
        for _ in pool.map(lambda at, name: convert(film.picture(at), f"{folder}/{name}"), times, names):
            pass
    lines = ["ffconcat version 1.0"]
    for name, at, end in zip(names, times, [*times[1:], 100.0]):
        lines += [f"file {name}", f"duration {film.length * (end - at) / 100:.6f}"]
    lines.append(f"file {names[-1]}")  # without it ffmpeg leaves out the last time
    with open(f"{folder}/{LIST}", "w", encoding="ascii") as file:
        file.write("\n".join(lines) + "\n")
