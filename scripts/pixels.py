"""What a real xterm shows of a session, as pixels: xterm in an X server without a screen (Xvfb), read by xwd."""
import contextlib
import os
import re
import shutil
import struct
import subprocess
import sys
import tempfile
import time

# How one knows that xterm has read all: CAN ends what is unfinished, and a mode that no terminal has is asked for (DECRQM).
QUESTION = b"\x18\x1b[?7654$p"
ANSWER = b"\x1b[?7654;"
TRIES = 400
# Nothing blinks, and no session changes the window.
RESOURCES = ["cursorBlink: never", "showBlinkAsBold: true", "allowWindowOps: false", "c132: false", "visualBell: false"]

# The attributes that a screen of ours doesn't keep, by their numbers in SGR (ECMA-48, 8.3.117, and xterm's ctlseqs).
ATTRIBUTES = {
    5: "blinking",
    6: "blinking",
    8: "hidden text",
    9: "crossed-out text",
    21: "double underlines",
    53: "overlines",
    58: "colours of underlines",
}
# Sequences that a screen of ours doesn't know, and that change what is shown (ECMA-48, DEC STD 070, xterm's ctlseqs).
UNKNOWN = {
    "ESC D, E or H": rb"\x1b[DEH]",
    "ESC # 3 to 6": rb"\x1b#[3-6]",
    "ESC # 8": rb"\x1b#8",
    "CSI a, e, g, s, u, I or Z": rb"\x1b\[[0-9;]*[aegsuIZ]",
    "CSI 4 h or 20 h": rb"\x1b\[(?:4|20)[hl]",
    "CSI ? 3, 5 or 7 h": rb"\x1b\[\?[357][hl]",
    "CSI ! p": rb"\x1b\[!p",
}


# What the filter gives otherwise, or gives something behind: DEC's special graphics, and what a screen doesn't know.
DRAWN = rb"\x1b(?:[()*+]0|[DE]|\[[0-9;]*:[0-9;:]*m|\[[su]|\[!p|\[[0-9;]*r|\[\?[0-9;]*104[78][hl])"


def is_there():
    """Whether all programs that this takes are installed."""
    return all(shutil.which(name) for name in ("xterm", "Xvfb", "xwd"))


@contextlib.contextmanager
def x_server():
    """An X server without a screen, on a display that is free. Answers its name."""
    reader, writer = os.pipe()
    words = ["Xvfb", "-displayfd", str(writer), "-screen", "0", "1280x1024x24", "-nolisten", "tcp", "-noreset"]
    server = subprocess.Popen(words, pass_fds=[writer], stderr=subprocess.DEVNULL)
    os.close(writer)
    try:
        with os.fdopen(reader, "rb") as numbers:
            yield ":" + numbers.readline().decode().strip()
    finally:
        server.terminate()
        server.wait()


def feed(name, done):
    """Writes a file to the terminal that this runs in, and makes the other file once the terminal has read all of it."""
    import tty

    tty.setraw(0)
    with open(name, "rb") as file:
        left = file.read() + QUESTION
    while left:
        left = left[os.write(1, left[:4096]) :]
    answer = b""
    while ANSWER not in answer:
        answer += os.read(0, 4096)
    with open(done, "wb"):
        pass
    time.sleep(60)


def picture(display, session, rows, cols):
    """The lines of pixels that xterm shows once it has read the session, each a list of numbers."""
    with tempfile.TemporaryDirectory(prefix="interop-") as folder:
        with open(f"{folder}/session", "wb") as file:
            file.write(session)
        words = ["xterm", "-display", display, "-geometry", f"{cols}x{rows}+0+0", "-u8", "-b", "0", "-bw", "0", "+sb"]
        words += ["-fn", "-misc-fixed-medium-r-semicondensed--13-120-75-75-c-60-iso10646-1"]
        for resource in RESOURCES:
            words += ["-xrm", f"*{resource}"]
        words += ["-e", sys.executable, os.path.realpath(__file__), f"{folder}/session", f"{folder}/done"]
        terminal = subprocess.Popen(words, env={**os.environ, "LC_ALL": "C.UTF-8"}, stderr=subprocess.DEVNULL)
        try:
            for _ in range(TRIES):
                if os.path.exists(f"{folder}/done"):
                    break
                time.sleep(0.05)
            else:
                raise TimeoutError("xterm hasn't read all of a session")
            return settled(display)
        finally:
            terminal.terminate()
            terminal.wait()


def settled(display):
    """The pixels of the display once two looks at it are the same."""
    last = None
    for _ in range(TRIES):
        time.sleep(0.15)
        words = ["xwd", "-display", display, "-root", "-silent"]
        dump = subprocess.run(words, stdout=subprocess.PIPE, check=True).stdout
        if dump == last:
            break
        last = dump
    return pixels(last)


def pixels(dump):
    """The pixels of what xwd writes: a header of numbers, big end first, a table of colours, lines of 32 bits a pixel."""
    head = struct.unpack(">25I", dump[:100])
    length, width, height, line, colours = head[0], head[4], head[5], head[12], head[19]
    at = length + 12 * colours
    return [struct.unpack(f"<{width}I", dump[at + y * line : at + y * line + 4 * width]) for y in range(height)]


def cell_of(picture, row, col, width=6, height=13):
    """The pixels of a cell, line by line."""
    span = slice(col * width, (col + 1) * width)
    return [line[span] for line in picture[row * height : (row + 1) * height]]


def different_cells(one, other, rows, cols):
    """The cells in which two pictures differ."""
    places = [(row, col) for row in range(rows) for col in range(cols)]
    return {place for place in places if cell_of(one, *place) != cell_of(other, *place)}


def is_blank(cell):
    """Whether all pixels of a cell have one colour, or all but those of the cursor's frame, which have another."""
    inside = {pixel for line in cell[1:-1] for pixel in line[1:-1]}
    frame = {*cell[0], *cell[-1], *(pixel for line in cell for pixel in (line[0], line[-1]))}
    return len(inside) == len(frame) == 1


def unkept(session):
    """The session without the attributes that a screen of ours doesn't keep, and the names of those that it sets."""
    names = set()

    def kept(match):
        groups, left = match[1].split(b";"), []
        while groups:
            group = groups.pop(0)
            number = int(group.split(b":")[0] or 0)
            if group in (b"38", b"48", b"58"):
                more = {b"5": 2, b"2": 4}.get(groups[0] if groups else b"", 0)
                taken, groups = groups[:more], groups[more:]
            else:
                taken = []
            if number in ATTRIBUTES:
                names.add(ATTRIBUTES[number])
            elif group in (b"4:0", b"4:1", b"4:2", b"4:3", b"4:4", b"4:5"):
                names.add("kinds of underlines")
                left.append(b"24" if group == b"4:0" else b"4")
            else:
                left += [group, *taken]
        return b"\x1b[%sm" % b";".join(left) if left else b""

    return re.sub(rb"\x1b\[([0-9;:]*)m", kept, session), sorted(names)


def undropped(session):
    """The session without what a screen of ours drops: U+FFFD, malformed UTF-8, and controls as characters."""
    return re.sub("[\ufffd\x80-\x9f]", "", session.decode(errors="replace")).encode()


def unknown(session):
    """The session without the sequences that a screen of ours doesn't know, and the names of those that it has."""
    names = [name for name, sequence in UNKNOWN.items() if re.search(sequence, session)]
    return re.sub(b"|".join(UNKNOWN.values()), b"", session), names


def without(session):
    """The session, each time without one more thing that a screen of ours doesn't show, and the name of that."""
    kept, names = unkept(session)
    if names:
        yield kept, f"attributes that aren't kept: {', '.join(names)}"
    shown = undropped(kept)
    if shown != kept:
        yield shown, "characters that are dropped: U+FFFD, malformed UTF-8, or U+0080 to U+009F"
    known, names = unknown(shown)
    if names:
        yield known, f"sequences that aren't known: {', '.join(names)}"


def reasons(display, session, shown, drawn, rows, cols):
    """Why two pictures of a session differ, and whether that explains each cell."""
    left, why = different_cells(shown, drawn, rows, cols), []
    for less, reason in without(session):
        shown = picture(display, less, rows, cols)
        fewer = different_cells(shown, drawn, rows, cols)
        why += [(len(left) - len(fewer), reason)]
        left = fewer
    blank = {it for it in left if is_blank(cell_of(shown, *it)) and is_blank(cell_of(drawn, *it))}
    why += [(len(blank), "the background of blank cells"), (len(left - blank), "something else")]
    return "; ".join(f"{count} by {reason}" for count, reason in why if count), left == blank


def compared(display, session, relayed, filtered, rows, cols):
    """How xterm shows a session, frames of it, and frames of it with its lines drawn, and whether that is explained."""
    shown, plain, drawn = (picture(display, it, rows, cols) for it in (session, relayed, filtered))
    cells, left = (different_cells(shown, it, rows, cols) for it in (plain, drawn))
    if plain != drawn and not re.search(DRAWN, session):
        return f"in xterm {len(cells)} cells differ, and with lines drawn {len(left)}, though it draws none", False
    if not cells and not left:
        return "xterm shows the same pixels", True
    said = f"in xterm {len(cells)} cells differ"
    if not left:
        return f"{said} by line drawing, and with lines drawn none", True
    why, is_explained = reasons(display, session, shown, drawn, rows, cols)
    return f"{said}, and with lines drawn {len(left)}: {why}", is_explained


if __name__ == "__main__":
    feed(sys.argv[1], sys.argv[2])
