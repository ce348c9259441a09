#!/usr/bin/env python3
"""Decodes the noisy words of the decoder's table test by the simulation's plain decoder, and compares
its answers with the table's.

usage: plain_decoder.py        (prints what differs; exits 0 where nothing does, 1 otherwise)
"""
import pathlib
import re
import sys

from simulation.code import Code

top = pathlib.Path(__file__).resolve().parent.parent
TABLE = top / "crates/ldpc_decode/src/decoder/tests.rt"
BASE_ROWS, BASE_COLUMNS, ITERATIONS, COPIES = 3, 6, 8, 64
WORD = 2 ** 64


def sum_of(code, codeword):
    """The sum of the answers on the noisy copies of a codeword, as the test makes them."""
    noise, total = code.lifting, 0
    own = int.from_bytes(bytes(codeword), "little")
    if code.failed_checks(own):
        return "no codeword"
    for _ in range(COPIES):
        values = []
        for i in range(code.bits):
            noise = (noise * 6364136223846793005 + 1442695040888963407) % WORD
            level = (noise >> 33) % 64 - 10
            values.append(-level if own >> i & 1 else level)
        answer = code.decode(values, ITERATIONS)
        for number in [255] if answer is None else [answer[0], *packed(code, answer[1])]:
            total = (total * 31 + number) % WORD
    return total


def packed(code, word):
    return word.to_bytes(-(-code.bits // 8), "little")


def numbers(text):
    return [int(n) for n in re.findall(r"-?\d+", text)]


CASE = r"z: (\d+),\s*entries: \[([^\]]*)\],\s*codeword: &\[([^\]]*)\],\s*sum: (\d+),"
cases = re.findall(CASE, TABLE.read_text())
wrong = [] if len(cases) == 4 else [f"the table has {len(cases)} codes, and not 4"]
for z, entries, codeword, want in cases:
    flat = numbers(entries)
    base_rows = [flat[i * BASE_COLUMNS:(i + 1) * BASE_COLUMNS] for i in range(BASE_ROWS)]
    found = sum_of(Code(int(z), base_rows), numbers(codeword))
    if found != int(want):
        wrong.append(f"lifting size {z}: the plain decoder gives {found}, and the table has {want}")
for line in wrong:
    print(line)
sys.exit(1 if wrong else 0)
