#!/usr/bin/env python3
"""Runs the program on the largest inputs of the limits, and one step beyond, and measures time and memory.

Status and standard error are compared with those of the plain simulation, and so is the output, but where a case is said to
be compared by its summary: there the simulation takes too long, and serves a small part of the calls, of which the summary
goes on evenly. No run may take more memory than 1.05 times the cells' levels, 64 bytes for each entry of a history, and
what is allowed for each call of the trace and for the program itself.

usage: largest.py PROGRAM [WORD..]        (the cases whose names hold a word; exits 0 where nothing differs, 1 otherwise;
                                          some minutes, 3 GB of memory and 2 GB of temporary files)
"""
import filecmp
import multiprocessing
import os
import pathlib
import random
import subprocess
import sys
import tempfile
import time
from collections import Counter

from simulation.inputs import Head
from simulation.made_inputs import Drive
from simulation.run import simulated
from simulation.worked_rows import IMAGE

MEGABYTE = 10 ** 6
# What the program may take beside cells and histories: for itself, and for each call and its reply.
ITSELF, FOR_EACH_CALL = 32 * MEGABYTE, 96


def trace_of(actors, lines):
    return "".join(line + "\n" for line in [f"trace 1 {actors}", *lines]).encode()


def calls(count):
    """So many calls, dealt to the most actors in turn."""
    return IMAGE + trace_of(32, (f"{n % 32} trim {n % 8}" for n in range(count)))


def long_trace(size):
    """A trace of so many bytes: two calls, and remarks as long as a line may be."""
    first = trace_of(1, ["0 write 5 x0102"])
    last = b"0 read 5\n"
    remark = b"#".ljust(40000, b"x") + b"\n"
    count, rest = divmod(size - len(first) - len(last), len(remark))
    return IMAGE + first + remark * count + b"\n" * rest + last


def wide_drive(iterations):
    """A drive whose pages are the longest that there are, of four codewords and without noise."""
    drive = Drive(4)
    drive.lifting, drive.base_rows, drive.message_columns, drive.iterations = 1024, 3, 125, iterations
    drive.data_bytes, drive.superblocks, drive.pages, drive.dies = 4 * 125 * 1024 // 8 - 16, 4, 32, 4
    drive.rows, drive.zero_blocks = 4, 0.9
    return drive


def reads(beyond):
    """As many reads as give the most bytes, or so many more, of empty pages."""
    drive = wide_drive(1)
    lines = ["0 read 3"] * (2 ** 30 // drive.data_bytes + beyond)
    return drive.image(random.Random(1)) + trace_of(1, lines)


def most_cells(words):
    """A drive of the most cells and the most dies, with writes and reads all over it."""
    drive, rng = Drive(words), random.Random(2)
    drive.channels, drive.dies, drive.superblocks, drive.pages = 8, 8, 256, 64
    drive.lifting, drive.base_rows, drive.message_columns = 16 // words, 4, 12
    drive.data_bytes, drive.rows, drive.spread = 8, 254 * 7 * 64, 60
    lines = []
    for n in range(3000):
        page = rng.randrange(8 * drive.rows)
        lines += [f"0 write {page} g{n}", f"1 read {page}"]
    return drive.image(rng) + trace_of(2, lines)


def longest_pages():
    """A drive of the most cells, in the longest pages."""
    lines = [f"0 write {n} g{n}" for n in range(4)] + ["0 age 0 1 0 90", "0 read 0", "0 read 3", "0 refresh 1", "0 drain 16"]
    drive = wide_drive(2)
    drive.read_levels = (0, -60)
    return drive.image(random.Random(3)) + trace_of(1, lines)


def longest_lists():
    """A drive each of whose blocks is weak, and that has as many factory bad superblocks as it may."""
    drive = Drive()
    drive.channels, drive.dies, drive.superblocks = 8, 8, 256
    drive.weak = [(channel, die, sb, sb % 2 + 1)
                  for channel in range(8) for die in range(8) for sb in range(256)]
    drive.bad = [(channel, sb) for channel in range(8) for sb in range(2, 255)]
    drive.rows = 14
    lines = [f"{n % 2} write {n * 5 % 112} g{n}" for n in range(4000)] + [f"1 read {page}" for page in range(112)]
    return drive.image(random.Random(4)) + trace_of(2, lines)


def long_histories(count):
    """So many reads on each channel, each of which makes thirty entries: its page is recovered by the stripe alone."""
    drive = Drive()
    drive.channels, drive.dies, drive.rows = 8, 8, 28
    drive.read_levels = [0, *range(-101, -116, -1)]
    lines = [f"1 write {page} g{page}" for page in range(7 * 8)]
    lines += [f"1 age {channel} 1 0 200" for channel in range(8)]
    lines += [f"0 read {n % 8}" for n in range(8 * count)]
    return drive.image(random.Random(16)) + trace_of(2, lines)


READS_OF_A_CHANNEL = 131000

# The name of each case, its input, and a part of it by which the summary is told.
CASES = [
    ("the most calls", lambda: calls(2 ** 20), None),
    ("a call too many", lambda: calls(2 ** 20 + 1), None),
    ("the longest trace", lambda: long_trace(2 ** 26), None),
    ("a byte too many", lambda: long_trace(2 ** 26 + 1), None),
    ("the most bytes read", lambda: reads(0), None),
    ("a read too many", lambda: reads(1), None),
    ("the most cells, one codeword a page", lambda: most_cells(1), None),
    ("the most cells, four codewords a page", lambda: most_cells(4), None),
    ("the longest pages", longest_pages, None),
    ("the longest lists", longest_lists, None),
    ("eight long histories", lambda: long_histories(READS_OF_A_CHANNEL), long_histories),
]


def numbers_of(summary):
    return [[int(word) if word.isdigit() else word for word in line.split()] for line in summary.splitlines()]


def grown(first, second, steps):
    """A summary so many steps behind the first of two that are one step apart."""
    pairs = zip(numbers_of(first), numbers_of(second))
    lines = [[a if isinstance(a, str) else a + (b - a) * steps for a, b in zip(*pair)] for pair in pairs]
    return "".join(" ".join(map(str, line)) + "\n" for line in lines)


def made(folder, number):
    """Writes the input of a case, and what is due: status, text and output, or the summary alone. This is done in a process of
    its own, since the memory of the one that runs the program is counted to it."""
    _, make, part = CASES[number]
    given = make()
    (folder / "given").write_bytes(given)
    if part is None:
        status, output, message = simulated(given, Counter())
    else:
        # By then the queue of hints is full.
        few = 40
        first, second = [simulated(part(count), Counter())[1] for count in (few, few + 1)]
        output = grown(*[text[text.index("summary\n"):] for text in (first, second)], READS_OF_A_CHANNEL - few)
        status, message = 0, ""
    (folder / "due").write_text(output)
    (folder / "message").write_text(message)
    return status, allowed(given, output)


def allowed(given, output):
    """How many bytes of memory a run may take."""
    head = Head(given)
    cells = head.channels * head.dies * head.superblocks * head.pages * head.words * head.lifting * head.column_count
    # A read of the long histories makes thirty entries.
    entries = 30 * 8 * READS_OF_A_CHANNEL if output.startswith("summary") else output.count("\n")
    lines = sum([not line.startswith(b"#") for line in given[head.size:].splitlines()])
    return int(1.05 * 2 * cells) + 64 * entries + FOR_EACH_CALL * lines + ITSELF


def measured(program, folder):
    """The status of a run, its seconds and the most memory that it took."""
    started = time.monotonic()
    with open(folder / "given", "rb") as given, open(folder / "output", "wb") as output, \
            open(folder / "error", "wb") as error:
        run = subprocess.Popen([program, "run"], stdin=given, stdout=output, stderr=error)
        _, status, used = os.wait4(run.pid, 0)
        run.returncode = os.waitstatus_to_exitcode(status)
    return run.returncode, time.monotonic() - started, used.ru_maxrss * 1024


def is_due(folder, part):
    """Whether the output and the text on standard error are those that are due."""
    if (folder / "error").read_bytes() != (folder / "message").read_bytes():
        return False
    if part is None:
        return filecmp.cmp(folder / "output", folder / "due", shallow=False)
    due = (folder / "due").read_bytes()
    with open(folder / "output", "rb") as output:
        output.seek(-len(due), os.SEEK_END)
        return output.read() == due


def tried(program, number):
    """Runs a case, prints how it went, and answers whether all was as it is due."""
    what, _, part = CASES[number]
    with tempfile.TemporaryDirectory() as name, multiprocessing.get_context("fork").Pool(1) as pool:
        folder = pathlib.Path(name)
        due, limit = pool.apply(made, (folder, number))
        status, seconds, memory = measured(program, folder)
        right = status == due and is_due(folder, part) and memory <= limit
        size = (folder / "given").stat().st_size, (folder / "output").stat().st_size
    told = "as due" if right else f"WRONG, {due} is due"
    print(f"{what}: {told}{'' if part is None else ' by its summary'}, status {status}; {size[0]} bytes give {size[1]}; "
          f"{seconds:.1f} s; {memory / MEGABYTE:.0f} of {limit / MEGABYTE:.0f} MB", flush=True)
    return right


program, words = os.path.abspath(sys.argv[1]), sys.argv[2:]
chosen = [n for n, (what, *_) in enumerate(CASES) if all(word in what for word in words)]
wrong = [n for n in chosen if not tried(program, n)]
sys.exit(1 if wrong else 0)
