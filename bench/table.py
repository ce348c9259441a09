#!/usr/bin/env python3
"""Prints a table of speed: the proved program, and beside it a plain drive in simple loops of C (`plain_drive.c`, cc -O3).

Both serve the same inputs, turn by turn, and the best of five turns counts. What is compared is the processor time that a run
spends in itself (user time), so that only ratios mean something on a busy machine; for the contents of an image the system's
time counts too, since copying them in is its work. What is to be measured doesn't stand alone in either program, so each row
is the difference of two runs, of which one does more of one thing; both programs set all cells of a blank drive first, so what
the memory itself costs is in neither difference. Before anything is timed, the replies of both are compared, and the numbers of
pages that were moved and of superblocks that were collected.

The plain drive keeps no history and no looks, and does no more than these inputs ask for: the decoder works row by row and
tests the word after each iteration, a page is programmed and sensed cell by cell, and the levels of an image are read page by
page through a buffered stream, and each is tested.

usage: table.py PROGRAM [PROGRAM-of-another-build]        (two minutes; 1 GB of memory, 200 MB of temporary files)
"""
import math
import os
import pathlib
import random
import struct
import subprocess
import sys
import tempfile
from dataclasses import dataclass

TURNS, CALLS = 5, 200_000
ERASED, PROGRAMMED = -4000, 4000
# With this noise the one page of the decoding's drive is found after just eight iterations, which is looked at.
EIGHT_ITERATIONS = 4047
# With this noise some bits of each page read wrong, and the few of them in the parity are found.
SOME_WRONG_BITS = 4001


@dataclass
class Drive:
    """A drive of one channel, all of which is read at one level."""
    dies: int
    superblocks: int
    pages: int
    lifting: int
    base_rows: int
    columns: int
    blocks: int  # of each message column; without any the parity is zero, whatever the data
    data_bytes: int
    rows: int = 1
    spread: int = 0

    def cells(self):
        return self.columns * self.lifting

    def slots(self):
        return (self.dies - 1) * self.pages

    def all_cells(self):
        return self.cells() * self.dies * self.pages * self.superblocks

    def matrix(self):
        rng, message = random.Random(7), self.columns - self.base_rows
        rows = [[-1] * self.columns for _ in range(self.base_rows)]
        for column in range(message):
            for i in rng.sample(range(self.base_rows), self.blocks):
                rows[i][column] = rng.randrange(self.lifting)
        rows[0][message] = rows[-1][message] = 1
        rows[self.base_rows // 2][message] = 0
        for t in range(1, self.base_rows):
            rows[t - 1][message + t] = rows[t][message + t] = 0
        return [entry for row in rows for entry in row]

    def image(self, contents=0):
        entries = self.matrix()
        head = struct.pack(
            "<8sBBHHHBBBBIIQIhhHH", b"SSDIMG01", 1, self.dies, self.superblocks, self.pages, self.lifting, self.base_rows,
            self.columns, 1, 8, self.data_bytes, self.rows, 7, 0, ERASED, PROGRAMMED, self.spread, 40)
        return head + struct.pack(f"<h{len(entries)}h", 0, *entries) + struct.pack("<HHB", 0, 0, contents)

    def full(self, block_of, kinds):
        """The image of the drive with all superblocks but the first two sealed, their levels by die, and the rows' records."""
        free = struct.pack("<BII", 0, 0, 0) + bytes(2 * self.dies)
        head = struct.pack("<BII", 2, 0, self.slots()) + struct.pack("<H", self.pages) * self.dies
        sealed = [head + b"".join(block_of(sb, die) for die in range(self.dies)) for sb in range(2, self.superblocks)]
        return self.image(1) + free * 2 + b"".join(sealed) + kinds

    def levels_by_chance(self, rng, word):
        """Levels that are read as the word, and so 0 where it ends."""
        bits = int.from_bytes(word, "little")
        signs = (bits >> i & 1 for i in range(self.cells()))
        return struct.pack(f"<{self.cells()}h", *(rng.randrange(-16384, 0) if sign else rng.randrange(16384) for sign in signs))

    def full_without_rows(self):
        block = self.levels_by_chance(random.Random(3), random.Random(4).randbytes(self.cells() // 8)) * self.pages
        return self.full(lambda sb, die: block, bytes(self.rows))

    def full_with_rows(self):
        """Each slot of a sealed superblock has a row, in order."""
        rng = random.Random(5)

        def block_of(sb, die):
            pages = []
            for stripe in range(self.pages):
                parity = (sb + stripe) % self.dies
                row = (sb - 2) * self.slots() + stripe * (self.dies - 1) + (die if die < parity else die - 1)
                word = struct.pack("<QI4s", row, row, b"PGE1") + random.Random(row).randbytes(self.data_bytes)
                pages.append(self.levels_by_chance(rng, b"" if die == parity else word))
            return b"".join(pages)

        records = (struct.pack("<BHIQ", 1, 2 + row // self.slots(), row % self.slots(), row) for row in range(self.rows))
        return self.full(block_of, b"".join(records))


def trace(lines):
    return ("trace 1 1\n" + "".join(f"0 {line}\n" for line in lines)).encode()


def writes(count, rows):
    return [f"write {n % rows} g{n}" for n in range(count)]


def reads(count, rows):
    return [f"read {n % rows}" for n in range(count)]


@dataclass
class Work:
    """A row of the table: an input, and two with more of one thing, by how much; the shorter one is for the plain drive."""
    name: str
    unit: str
    less: bytes
    more: bytes
    amount: int
    shorter: bytes
    shorter_amount: int
    same: bytes  # an input of which the replies are compared
    with_system: bool = False  # the system's time counts too


def decoding(count, shorter):
    drive = Drive(3, 4, 2, 512, 8, 73, 3, 4096, 1, EIGHT_ITERATIONS)
    edges = 8 * drive.lifting * sum(entry >= 0 for entry in drive.matrix())
    less, more, some = (drive.image() + trace(["write 0 g1"] + reads(1 + n, 1)) for n in (0, count, shorter))
    name = "decoding, 8 iterations a page"
    return Work(name, "an edge, an iteration", less, more, count * edges, some, shorter * edges, less)


def wide(superblocks, pages, data_bytes=8, spread=0):
    """A drive of the longest pages, with no checks on the data, so that encoding and decoding are next to nothing."""
    drive = Drive(4, superblocks, pages, 1024, 3, 128, 0, data_bytes, 1, spread)
    drive.rows = (superblocks - 2) * drive.slots()
    return drive


def programming(count, shorter):
    drive, noisy = wide(8, 16, 8, 3000), wide(4, 8, 125 * 128 - 16, SOME_WRONG_BITS)
    turn = drive.superblocks * drive.slots()
    less, more, some = (drive.image() + trace(writes(turn + 3 * n, drive.rows)) for n in (0, count, shorter))
    same = noisy.image() + trace(writes(noisy.rows, noisy.rows) + reads(noisy.rows, noisy.rows))
    page = 4 * drive.cells()
    return Work("programming large pages", "a cell", less, more, count * page, some, shorter * page, same)


def sensing(count, shorter):
    drive = wide(8, 16)
    first = writes(drive.rows, drive.rows)
    less, more, some = (drive.image() + trace(first + reads(n, drive.rows)) for n in (0, count, shorter))
    return Work("sensing large pages", "a cell", less, more, count * drive.cells(), some, shorter * drive.cells(), some)


def page_map(superblocks, pages, calls):
    """Writes that go round the rows, and reads and trims by chance, on small pages; half of the slots have rows."""
    drive, rng = Drive(3, superblocks, pages, 8, 3, 20, 1, 1), random.Random(11)
    drive.rows = (superblocks - 2) * drive.slots() // 2
    first = writes(drive.rows, drive.rows)
    verbs = [rng.choice(["write", "write", "read", "trim"]) for _ in range(calls)]
    lines = first + [
        f"write {n // 2 % drive.rows} g{n}" if verb == "write" else f"{verb} {rng.randrange(drive.rows)}"
        for n, verb in enumerate(verbs)]
    less, more = drive.image() + trace(first), drive.image() + trace(lines)
    name = f"page map, {superblocks} superblocks, {drive.rows} rows"
    return Work(name, "a call", less, more, calls, more, calls, more)


def contents(superblocks, pages):
    drive, some = wide(superblocks, pages), wide(4, 2)
    less, more = drive.image() + trace([]), drive.full_without_rows() + trace([])
    levels = drive.all_cells() // superblocks * (superblocks - 2)
    same = some.full_with_rows() + trace(reads(some.rows, some.rows))
    name = "reading an image's contents, with the system's time"
    return Work(name, "a level", less, more, levels, more, levels, same, True)


def finished(command, path, output):
    """Runs to the end and gives its own time, the system's, and the most memory, or None where this isn't served."""
    with open(path, "rb") as given, tempfile.TemporaryFile() as errors:
        run = subprocess.Popen(command, stdin=given, stdout=output, stderr=errors)
        _, status, used = os.wait4(run.pid, 0)
        run.returncode = os.waitstatus_to_exitcode(status)
        errors.seek(0)
        said = errors.read().decode().strip()
    if run.returncode == 10:
        return None
    if run.returncode != 0:
        sys.exit(f"{command[0]}: status {run.returncode}: {said}")
    return used.ru_utime, used.ru_stime, used.ru_maxrss * 1024


def text_of(command, path):
    with tempfile.TemporaryFile() as output:
        served = finished(command, path, output)
        output.seek(0)
        return output.read() if served else None


def told_by_program(program, path):
    """The replies, pages moved and superblocks picked, of the whole output; None where this isn't served."""
    text = text_of([program, "run"], path)
    if text is None:
        return None
    replies, counts = text[text.index(b"actor 0"):].split(b"summary\n")
    words = counts.split()
    return replies, *(int(words[words.index(word) + 1]) for word in (b"move", b"pick"))


def told_by_plain(plain, path):
    replies, _, last = text_of([plain, "all"], path)[:-1].rpartition(b"\n")
    iterations, moves, picks, _ = map(int, last.split())
    return (replies + b"\n", moves, picks), iterations


class Bench:
    def __init__(self, folder, programs):
        self.folder, self.plain = pathlib.Path(folder), str(pathlib.Path(folder) / "plain_drive")
        source = pathlib.Path(__file__).with_name("plain_drive.c")
        subprocess.run(["cc", "-O3", "-o", self.plain, source], check=True)
        self.programs = programs

    def kept(self, name, data):
        path = self.folder / name
        path.write_bytes(data)
        return path

    def compared(self, work):
        path = self.kept("same", work.same)
        due, iterations = told_by_plain(self.plain, path)
        if work.name.startswith("decoding") and iterations != 8:
            sys.exit(f"{work.name}: {iterations} iterations")
        for program in self.programs:
            if told_by_program(program, path) not in (due, None):
                sys.exit(f"{work.name}: {program} and the plain drive differ")

    def timed(self, work):
        """Nanoseconds by the plain drive and by each program, None where it doesn't serve this."""
        less, more, shorter = (self.kept(name, getattr(work, name)) for name in ("less", "more", "shorter"))
        runs = [([self.plain, "summary"], shorter, work.shorter_amount)]
        runs += [([program, "run", "--show=summary"], more, work.amount) for program in self.programs]
        best = [[math.inf] * 2 for _ in runs]
        for _ in range(TURNS):
            for (command, longer, _), least in zip(runs, best):
                for n, path in enumerate((less, longer)):
                    done = finished(command, path, subprocess.DEVNULL)
                    took = sum(done[: 2 if work.with_system else 1]) if done else math.nan
                    least[n] = min(least[n], took) if done else math.nan
        return [(long - short) * 1e9 / amount for (_, _, amount), (short, long) in zip(runs, best)]

    def memory(self):
        """The most memory of each when all cells of the largest drive were programmed, beside two bytes a cell. It is asked for
        first, since a run is said to have had at least the memory that this script has when it starts it."""
        drive = wide(16, 32)
        path = self.kept("less", drive.image() + trace(writes(drive.superblocks * drive.slots(), drive.rows)))
        commands = [[self.plain, "summary"]] + [[program, "run", "--show=summary"] for program in self.programs]
        return [finished(command, path, subprocess.DEVNULL)[2] / 2 / drive.all_cells() for command in commands]


def print_line(name, plain, own, digits):
    """A line of the table; a program that doesn't serve the input has dashes."""
    cells = [name, f"{plain:.{digits}f}"]
    for value in own:
        cells += ["-", "-"] if math.isnan(value) else [f"{value:.{digits}f}", f"{value / plain:.2f}"]
    print("| " + " | ".join(cells) + " |", flush=True)


def machine():
    lines = pathlib.Path("/proc/cpuinfo").read_text().splitlines()
    name = next((line.split(":")[1].strip() for line in lines if line.startswith("model name")), "an unnamed processor")
    return f"{name}, {os.cpu_count()} of them, load {os.getloadavg()[0]:.1f}"


def main(programs):
    with tempfile.TemporaryDirectory() as folder:
        bench = Bench(folder, programs)
        print(f"{machine()}; differences of two runs, least of {TURNS} turns\n")
        names = ["program"] + ["other build"] * (len(programs) - 1)
        print("| Work, in nanoseconds | plain loops |" + "".join(f" {name} | ratio |" for name in names))
        print("|---|---|" + "---|---|" * len(programs))
        works = [(decoding, 600, 60), (programming, 1000, 250), (sensing, 6000, 2000)]
        works += [(page_map, superblocks, pages, CALLS) for superblocks in (16, 256) for pages in (4, 64)]
        plain_memory, *own_memory = bench.memory()
        for make, *sizes in [*works, (contents, 8, 32)]:
            work = make(*sizes)
            bench.compared(work)
            plain, *own = bench.timed(work)
            print_line(f"{work.name}: {work.unit}", plain, own, 2 if plain < 100 else 0)
        print_line("not in nanoseconds: most memory, in parts of two bytes a cell", plain_memory, own_memory, 3)


if __name__ == "__main__":
    if len(sys.argv) not in (2, 3):
        sys.exit(__doc__)
    main(sys.argv[1:])
