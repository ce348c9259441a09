#!/usr/bin/env python3
"""Times the program on an input in which nearly all the time goes into decoding, and a plain loop beside it.

The drive has 8 x 73 blocks of lifting size 512, and so much noise that each word is decoded to the iteration limit,
twice a read: by hard values and by soft ones. A run with few reads is taken off one with many, so that what comes
before counts for nothing. Each PROGRAM is a build of crates/ssd; they and the plain loop take turns, and the best of
five turns counts, so that only ratios mean something on a busy machine.

usage: decoding.py PROGRAM..        (prints the nanoseconds of an edge in one iteration, and the plain loop's beside it)
"""
import pathlib
import random
import struct
import subprocess
import sys
import tempfile
import time

ROWS, COLUMNS, LIFTING, ITERATIONS = 8, 73, 512, 64
FEW, MANY, TURNS = 2, 12, 5


def base_matrix(rng):
    """A base matrix with a dual-diagonal parity part and three blocks in each message column."""
    message, first = COLUMNS - ROWS, rng.randrange(1, LIFTING)
    rows = [[-1] * COLUMNS for _ in range(ROWS)]
    for column in range(message):
        for i in rng.sample(range(ROWS), 3):
            rows[i][column] = rng.randrange(LIFTING)
    for i in (0, ROWS - 1):
        rows[i][message] = first
    rows[ROWS // 2][message] = 0
    for t in range(1, ROWS):
        rows[t - 1][message + t] = rows[t][message + t] = 0
    return [entry for row in rows for entry in row]


def given(entries, reads):
    """The image of a blank drive with noise, and a trace that writes a page and reads it often."""
    head = struct.pack(
        "<8sBBHHHBBBBIIQIhhHH", b"SSDIMG01", 1, 3, 4, 2, LIFTING, ROWS, COLUMNS, 1, ITERATIONS, 16, 1, 7, 0, -100, 100, 400, 40)
    image = head + struct.pack("<h", 0) + struct.pack(f"<{len(entries)}h", *entries) + struct.pack("<HHB", 0, 0, 0)
    return image + ("trace 1 1\n0 write 0 g1\n" + "0 read 0\n" * reads).encode()


def seconds(program, words, data):
    start = time.perf_counter()
    run = subprocess.run([program, *words], input=data, capture_output=True, check=False)
    if run.returncode != 0:
        sys.exit(f"{program}: status {run.returncode}: {run.stderr.decode()}{run.stdout[:200].decode()}")
    return time.perf_counter() - start, run.stdout


def main(programs):
    entries = base_matrix(random.Random(7))
    edges = sum(entry >= 0 for entry in entries) * LIFTING
    few, many = given(entries, FEW), given(entries, MANY)
    plain_input = " ".join(map(str, [ROWS, COLUMNS, LIFTING, 8, 5, *entries])).encode()
    best = {}
    with tempfile.TemporaryDirectory() as folder:
        plain = pathlib.Path(folder) / "plain"
        source = pathlib.Path(__file__).with_name("plain_decoder.c")
        subprocess.run(["gcc", "-O2", "-o", plain, source], check=True)
        for _ in range(TURNS):
            own = float(seconds(plain, [], plain_input)[1].split()[0])
            best["a plain loop"] = min(own, best.get("a plain loop", own))
            for program in programs:
                took = seconds(program, ["run"], many)[0] - seconds(program, ["run"], few)[0]
                edge = took * 1e9 / (MANY - FEW) / 2 / ITERATIONS / edges
                best[program] = min(edge, best.get(program, edge))
    for name, edge in best.items():
        print(f"{name}: {edge:.3f} ns an edge, {edge / best['a plain loop']:.4f} of a plain loop's")


if __name__ == "__main__":
    if len(sys.argv) < 2:
        sys.exit(__doc__)
    main(sys.argv[1:])
