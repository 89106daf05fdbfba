"""Reads a stream into a screen of pyte again and again: pyte_screen.py screen|kept ROWS COLS TIMES < STREAM."""
import sys

import pyte

PIECE_LEN = 4096
KEPT_ROWS = 10000


def main():
    work, rows, cols, times = sys.argv[1:]
    if work not in ("screen", "kept"):
        sys.exit(2)
    stream = sys.stdin.buffer.read()
    for _ in range(int(times)):
        size = int(cols), int(rows)
        screen = pyte.Screen(*size) if work == "screen" else pyte.HistoryScreen(*size, history=KEPT_ROWS)
        reader = pyte.ByteStream(screen)
        for at in range(0, len(stream), PIECE_LEN):
            reader.feed(stream[at : at + PIECE_LEN])
        print(work, screen.cursor.x + screen.cursor.y)


main()
