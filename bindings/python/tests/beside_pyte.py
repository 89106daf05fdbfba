"""What is read of a screen here, and with pyte, in one run: milliseconds of the processor, the best of some rounds.

cells is the whole screen, each row made anew. unseen is the same of random words, which were not read before. again is
a screen whose rows have stayed. times is how many times as long as cells pyte takes for each cell of its buffer."""

import random
import string
import time

import pyte

import jeihpal

SIZES = ((24, 80), (50, 200), (100, 400))
ROUNDS = 25


def best(work, prepare=lambda: None):
    """The least time that the work takes, in milliseconds."""
    times = []
    for _ in range(ROUNDS):
        prepare()
        begun = time.process_time()
        work()
        times.append(time.process_time() - begun)
    return 1000 * min(times)


def drawn(rows, cols):
    """A screen full of words in colours, as bytes."""
    lines = []
    for row in range(rows):
        words = [f"\x1b[3{(row + number) % 8}mword{number:<4d}" for number in range(cols // 9)]
        lines.append(f"\x1b[{row + 1};1H" + "".join(words))
    return "".join(lines).encode()


def written(rows, cols):
    """A screen of random words, as bytes."""
    letters = string.ascii_letters + string.digits + "    "
    lines = ("".join(random.choices(letters, k=random.randrange(cols))) for _ in range(rows))
    return b"\x1b[m\x1b[H\x1b[J" + "\r\n".join(lines).encode()


def read_pyte(screen):
    """Each cell of pyte's buffer."""
    buffer = screen.buffer
    return [[buffer[row][col] for col in range(screen.columns)] for row in range(screen.lines)]


def compared(ours, theirs):
    """The texts of all cells are the same; an empty cell of pyte's is a space."""
    for row, cells in zip(ours.cells(), read_pyte(theirs)):
        assert [cell.text or " " for cell in row.cells] == [cell.data for cell in cells]


def main():
    names = ("cells", "unseen", "again", "pyte", "display", "pyte", "dirty")
    print(f"{'size':>9} " + " ".join(f"{name:>8}" for name in (*names, "times")))
    for rows, cols in SIZES:
        data = drawn(rows, cols)
        theirs = pyte.Screen(cols, rows)
        pyte.ByteStream(theirs).feed(data)
        with jeihpal.Screen(rows, cols) as ours, jeihpal.Screen(rows, cols) as other:
            ours.process(data)
            compared(ours, theirs)

            def anew():
                ours._known_rows = {}
                ours.cells()

            ours.clean()
            times = [best(anew), best(other.cells, lambda: other.process(written(rows, cols))), best(ours.cells)]
            times += [best(lambda: read_pyte(theirs)), best(lambda: ours.display), best(lambda: theirs.display)]
            times += [best(lambda: ours.dirty)]
        print(f"{rows:>4}x{cols:<4} " + " ".join(f"{it:8.3f}" for it in times) + f" {times[3] / times[0]:8.2f}")


if __name__ == "__main__":
    main()
