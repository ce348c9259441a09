#!/usr/bin/env python3
"""Times the program on a trace that turns a small drive over many times, to see whether a call's time grows with the run.

The drive has one channel of 4 dies and 12 superblocks, pages of 256 cells and as many rows as fill half of it. Pages are
written by chance, so that nearly each superblock that is collected has pages to copy. What is printed counts too. Traces of
one, two, three and four quarters of the calls take turns, and the best of three turns counts; what a quarter takes is the
difference of two.

usage: turning.py PROGRAM [CALLS]        (200,000 calls without a number; prints microseconds a call, quarter by quarter)
"""
import random
import struct
import sys

from decoding import seconds

DIES, SUPERBLOCKS, PAGES, LIFTING, ROWS, COLUMNS, TURNS = 4, 12, 8, 32, 3, 8, 3


def image():
    """A blank drive without noise."""
    rows = SUPERBLOCKS * (DIES - 1) * PAGES // 2
    message = COLUMNS - ROWS
    entries = [[(7 * i + 3 * j) % LIFTING if (i + j) % 2 else -1 for j in range(message)] for i in range(ROWS)]
    parity = [[5, 0, -1], [0, 0, 0], [5, -1, 0]]
    numbers = [entry for i in range(ROWS) for entry in entries[i] + parity[i]]
    head = struct.pack(
        "<8sBBHHHBBBBIIQIhhHH", b"SSDIMG01", 1, DIES, SUPERBLOCKS, PAGES, LIFTING, ROWS, COLUMNS, 1, 8, 4, rows, 7, 0,
        -100, 100, 0, 10)
    return head + struct.pack(f"<h{len(numbers)}h", 0, *numbers) + struct.pack("<HHB", 0, 0, 0), rows


def main(program, calls):
    drive, rows = image()
    rng = random.Random(11)
    lines = [f"0 write {rng.randrange(rows)} g{n}\n" for n in range(calls)]
    inputs = [drive + ("trace 1 1\n" + "".join(lines[: calls * part // 4])).encode() for part in range(5)]
    best = [min(seconds(program, ["run"], given)[0] for _ in range(TURNS)) for given in inputs]
    for part in range(4):
        print(f"quarter {part + 1}: {(best[part + 1] - best[part]) * 4e6 / calls:.2f} microseconds a call")


if __name__ == "__main__":
    if len(sys.argv) not in (2, 3):
        sys.exit(__doc__)
    main(sys.argv[1], int(sys.argv[2]) if len(sys.argv) == 3 else 200000)
