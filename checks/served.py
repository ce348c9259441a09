#!/usr/bin/env python3
"""Runs the proved program on many inputs, and compares output, status and standard error with those of a
plain simulation.

The simulation (`checks/simulation`) is written from the formats and rules of docs/, and shares nothing with
the program: it reads images of both versions and traces with their first faults, and serves every call on a
drive, with the noise of its cells, its weak blocks, the decoder of each codeword of a page, read retry,
rounds of collection, the policies, the queue of hints and the limit of a history, and saves what became of the drive. It is
itself compared with worked examples.

usage: served.py PROGRAM        (prints what differs; exits 0 where nothing does, 1 otherwise)
"""
import pathlib
import random
import subprocess
import sys
from collections import Counter

from simulation import faulty_heads, made_inputs
from simulation.policies import POLICIES
from simulation.run import saved_by, simulated
from simulation.worked_rows import IMAGE, ROWS, TWO_CODEWORDS, changed, trace, weakened, wrong_parts

top = pathlib.Path(__file__).resolve().parent.parent

CODEWORDS = (1, 2, 4)

# What the inputs have to bring up for each number of codewords a page, by the simulation's own count.
NEEDED = [
    "recovered by the first read level",
    "recovered by a read level",
    "recovered by soft senses",
    "recovered by the stripe",
    "a word is found after iterations",
    "codewords aren't of the page",
    "a page is wrong in its serial alone",
    "a page is wrong in its row alone",
    "a page is wrong in its text alone",
    "a page is wrong in its end alone",
    "hard senses find all codewords of another page",
    "a page is found after all its kept words were dropped",
    "soft senses find all codewords of another page",
    "a later level has the fewest failed checks",
    "a page of the stripe needed more than one level",
    "uncorrectable in an open stripe",
    "uncorrectable in a closed stripe: a page has no codewords",
    "uncorrectable in a closed stripe: the sum isn't the page",
]

# The same, where a page has several codewords.
NEEDED_OF_SEVERAL = [
    "the page is found codeword by codeword",
    "another page of the stripe is found codeword by codeword",
    "a word is kept that the last sense doesn't give",
    "codewords that different senses found aren't of the page",
    "the codewords that aren't kept failed the fewest checks at another level",
    "soft senses go on with what is kept",
    "soft senses find the rest of a page",
    "codewords are kept of a page that isn't found",
]

# The same, at any number of codewords.
NEEDED_ONCE = [
    "hints pushed", "hints dropped", "history limit", "a program of a page answers FAIL",
    "a program of a parity answers FAIL", "a write is tried three times", "a page of a bad superblock is read",
    "a write is refused as full", "a write is refused as readonly", "a write has to make room",
    "a page is copied", "a page is condemned", "a copy answers FAIL", "a page of a worn channel stays",
    "a collect is idle", "a lost row is read",
    "hints taken", "a hint is pushed after one was taken", "a hint is pushed after one was dropped",
    "a drain takes all hints that it may, and leaves some", "a drain finds fewer hints than it may take",
    "a drain finds no hint", "a drain meets the limit at its first refresh",
    "a drain meets the limit after a refresh", "an empty row is refreshed", "a lost row is refreshed",
    "a page is refreshed: moved", "a page is refreshed: uncorrectable", "a page is refreshed: noroom",
    "a page is refreshed: readonly", "a page is refreshed: failed",
    "a drive is saved", "a saved drive is saved again", "a run that isn't saved meets the limit",
]

# Whole traces, wrong or at the edge of being so.
TRACES = [
    "trace 1 1", "trace 1 33\n", "trace 1 0\n", "trace 1 01\n", "trace 1 " + "1" * 9999, "0 read 1\n",
    "trace 1 32\n31 read 7\n", "\n#\n\ntrace 1 1\r\n\n0 read 1\r\n0 read 2\r",
]

# What follows the first line of a trace.
LINES = [
    "0 write 8 x00\n", "0  read 1\n", "0 read\n", "00 read 1\n", "1 read 1\n", "0 fly 1\n", "0\n",
    "0 read 1 \n", "\t0 read 1\n",
    "0 write 1 x0\n", "0 write 1 x112233445566778899\n", "0 write 1 xAB\n", "0 write 1 x\n0 read 1\n",
    "0 write 1 g\n", "0 write 1 g18446744073709551616\n", "0 write 1 g18446744073709551615\n0 read 1\n",
    "0 write 1 g" + "9" * 9999,
    "0 drain 4\n", "0 drain 17\n", "0 collect 0\n", "0 refresh 3\n", "0 collect 0\n0 read 8\n",
    "0 age 0 1 0 150\n", "0 age 0 3 0 150\n", "0 age 1 1 0 150\n", "0 age 0 1 4 150\n", "0 age 0 1 0 0\n",
    "0 age 0 1 0 16384\n", "0 age 0 1 3 16383\n", "0 age 0 1 0\n",
    "0 read " + "9" * 26 + "\n", "0 read " + "9" * 9999, "9" * 26 + " read 1\n", "9" * 9999 + " read 1",
    "0 write 1 x\n" * 12, "0 write 1 x\n" * 13,
    "#" + "x" * 39999 + "\n0 read 1\n", "#" + "x" * 40000 + "\n0 read 1\n",
    # More hints than the queue holds; and as it is taken from and filled again.
    "0 write 0 x09\n0 age 0 1 0 150\n" + "0 read 0\n" * 259,
    "0 write 0 x09\n0 write 1 x08\n0 age 0 1 0 150\n0 age 0 2 0 150\n" + "0 read 0\n" * 255 + "0 read 1\n" * 3
    + "0 drain 1\n" + "0 read 1\n" * 2 + "0 drain 16\n" * 17,
]


def words_of(options):
    """The words of a command's options."""
    return [f"--{name}={value}" for name, value in options.items()]


class Check:
    """What differed so far, and what came up."""

    def __init__(self, program):
        self.program, self.wrong, self.events = program, [], Counter()

    def expect(self, what, words, given, status, output, message):
        """Compares the end of a run, of which the due output and the due text are given in bytes or as text."""
        run = subprocess.run([self.program, *words], input=given, capture_output=True, timeout=600)
        due = (status, *[piece if isinstance(piece, bytes) else piece.encode() for piece in (output, message)])
        if (run.returncode, run.stdout, run.stderr) == due:
            return
        at = next((n for n, (a, b) in enumerate(zip(run.stdout, due[1])) if a != b), 0)
        shown = slice(max(0, at - 100), at + 100)
        self.wrong.append(
            f"{what}: status {run.returncode}, wrote {run.stderr!r} and, around byte {at}, "
            f"{run.stdout[shown]!r}; due were {status}, {due[2]!r} and {due[1][shown]!r}")

    def expect_simulated(self, what, given, **options):
        self.expect(what, ["run", *words_of(options)], given, *simulated(given, self.events, **options))

    def expect_saved(self, what, given, **options):
        """The same of `save`. Answers the image that is due, which is empty where none is."""
        due = saved_by(given, self.events, **options)
        self.events["a drive is saved"] += due[0] == 0
        self.events["a run that isn't saved meets the limit"] += due[0] == 7
        self.expect(f"{what}, saved", ["save", *words_of(options)], given, *due)
        return due[1]

    def rows(self):
        self.wrong += wrong_parts()
        for what, given, *due in ROWS + faulty_heads.ROWS:
            if simulated(given, Counter()) != tuple(due):
                self.wrong.append(f"the simulation differs from the worked example: {what}")
            self.expect(what, ["run"], given, *due)
            self.expect_saved(what, given)

    def example(self):
        """The stored example, its fronts, and what it is with one bit changed."""
        script = [sys.executable, top / "examples/one_page.py"]
        made = subprocess.run(script, capture_output=True, check=True).stdout
        if (top / "crates/ssd/stdin").read_bytes() != made:
            self.wrong.append("examples/one_page.py no longer makes crates/ssd/stdin")
        if simulated(made, Counter()) != (0, (top / "crates/ssd/stdout").read_text(), ""):
            self.wrong.append("the simulation doesn't give crates/ssd/stdout")
        for end in range(len(made)):
            self.expect_simulated(f"the first {end} bytes", made[:end])
        for at in range(len(made)):
            for bit in (0x01, 0x80):
                other = made[:at] + bytes([made[at] ^ bit]) + made[at + 1:]
                self.expect_simulated(f"byte {at} changed by {bit:#x}", other)

    def two_codewords(self):
        """The example on pages of two codewords, with one bit of its image changed."""
        calls = trace("0 write 5 x0102", "0 read 5")
        for at in range(len(TWO_CODEWORDS)):
            image = changed(at, bytes([TWO_CODEWORDS[at] ^ 1]), TWO_CODEWORDS)
            self.expect_simulated(f"byte {at} of two codewords changed", image + calls)

    def tables(self):
        for text in TRACES + ["trace 1 1\n" + lines for lines in LINES]:
            self.expect_simulated(f"the trace {text[:60]!r}", IMAGE + text.encode())
        weak = weakened(IMAGE, (0, 1, 2, 5))
        self.expect_simulated("a weak block", weak + b"trace 1 1\n0 read 1\n")
        self.expect_simulated("a weak block and a wrong trace", weak + b"trace 1 1\n0 read 8\n")
        bad = changed(10, b"\5")[:90] + b"\1\0" + bytes([0, 0, 1, 0]) + IMAGE[92:]
        for count in (12, 13):
            lines = "trace 1 1\n" + "0 write 1 x\n" * count
            self.expect_simulated(f"{count} writes beside a bad superblock", bad + lines.encode())

    def random_drives(self):
        rng = random.Random(20261201)
        plain = ["write"] * 4 + ["read"] * 3 + ["trim", "collect"]
        aging = ["write"] * 6 + ["read"] * 6 + ["trim", "age", "age", "collect"]
        losing = ["write"] + ["read"] * 6 + ["age"] * 2
        tearing = ["write"] * 2 + ["read"] * 3 + ["age"]
        kinds = [
            ("quiet", made_inputs.quiet_image, plain, [0, 3, 12, 30], 200),
            ("noisy", made_inputs.noisy_image, aging, [10, 20, 30], 225),
            ("unchecked", made_inputs.unchecked_image, aging, [10, 20], 105),
            ("lossy", made_inputs.lossy_image, losing, [15, 25], 75),
            ("torn", made_inputs.torn_image, tearing, [10, 20], 105),
            ("wide", made_inputs.wide_image, aging, [10, 20, 30], 45),
        ]
        for kind, image_of, verbs, lengths, count in kinds:
            for n in range(count):
                image = image_of(rng, CODEWORDS[n % len(CODEWORDS)])
                given = image + made_inputs.trace(rng, image, rng.choice(lengths), verbs)
                if n % 4 == 3:
                    given = made_inputs.damaged(rng, given)
                self.expect_simulated(f"{kind} input {n}", given)

    def weak_drives(self):
        rng = random.Random(20261202)
        for n in range(150):
            image = made_inputs.weak_image(rng, CODEWORDS[n % len(CODEWORDS)])
            given = image + made_inputs.filling_trace(rng, image)
            if n % 5 == 4:
                given = made_inputs.damaged(rng, given)
            self.expect_simulated(f"weak input {n}", given)

    def collections(self):
        rng = random.Random(20261203)
        images = [made_inputs.quiet_image, made_inputs.weak_image, made_inputs.unchecked_image]
        for n in range(60):
            image = images[n % len(images)](rng, CODEWORDS[n // len(images) % len(CODEWORDS)])
            self.expect_simulated(f"collected input {n}", image + made_inputs.collecting_trace(rng, image))

    def refreshes(self):
        """Drives on which reads ask for refreshes, with drains between them and refreshes that a trace asks for."""
        rng = random.Random(20261204)
        aging = ["write"] * 4 + ["read"] * 6 + ["age"] * 2 + ["drain"] * 2 + ["refresh", "trim"]
        for n in range(150):
            image_of = rng.choice([made_inputs.noisy_image, made_inputs.lossy_image, made_inputs.torn_image])
            image = image_of(rng, CODEWORDS[n % len(CODEWORDS)])
            given = image + made_inputs.trace(rng, image, rng.choice([15, 30]), aging)
            if n % 5 == 4:
                given = made_inputs.damaged(rng, given)
            self.expect_simulated(f"refreshed input {n}", given)
        for n in range(60):
            image_of = rng.choice([made_inputs.weak_image, made_inputs.unchecked_image])
            image = image_of(rng, CODEWORDS[n % len(CODEWORDS)])
            lines = made_inputs.refreshing_trace(rng, image)
            self.expect_simulated(f"input {n} refreshed while room is made", image + lines)

    def saved_drives(self):
        """Drives that are saved, saved again after a further trace, and served as that left them."""
        rng = random.Random(20261207)
        images = [made_inputs.quiet_image, made_inputs.weak_image, made_inputs.noisy_image, made_inputs.lossy_image]
        traces = [made_inputs.collecting_trace, made_inputs.refreshing_trace, made_inputs.filling_trace]
        for n in range(60):
            image = images[n % len(images)](rng, CODEWORDS[n // len(images) % len(CODEWORDS)])
            full = self.expect_saved(f"drive {n}", image + rng.choice(traces)(rng, image))
            given = full + rng.choice(traces)(rng, image)
            if n % 5 == 4:
                given = made_inputs.damaged(rng, given)
            again = self.expect_saved(f"full drive {n}", given)
            self.expect_simulated(f"full drive {n}", given)
            if again:
                self.events["a saved drive is saved again"] += 1
                self.expect_simulated(f"drive {n} that was saved twice", again + rng.choice(traces)(rng, image))

    def options(self):
        """Drives that are full of garbage, served and saved by each policy, some of them with a
        history that is too short."""
        rng = random.Random(20261209)
        for n in range(12):
            image_of = [made_inputs.quiet_image, made_inputs.weak_image][n % 2]
            image = image_of(rng, CODEWORDS[n // 2 % len(CODEWORDS)])
            given = image + made_inputs.collecting_trace(rng, image)
            for policy in POLICIES:
                options = dict(policy=policy, history=rng.choice([2 ** 22, 2 ** 22, 256, 300, rng.randint(256, 1000)]))
                self.expect_simulated(f"input {n} with {options}", given, **options)
                full = self.expect_saved(f"input {n} with {options}", given, **options)
                if full:
                    more = full + made_inputs.collecting_trace(rng, image)
                    self.expect_saved(f"input {n} with {options}, once more", more, **options)
        words = [("--lanes=1", "--policy=oldest"), ("--policy=oldest", "--lanes=32"), ("--history=4194304", "--policy=oldest")]
        for listed in words:
            self.expect(f"the words save {listed}", ["save", *listed], given, *saved_by(given, self.events, policy="oldest"))

    def long_histories(self):
        """A history that fills up to its last entry, one whose last look is one entry too late, and two that end in a
        drain: before its first refresh, and after that."""
        empty, lost = ["1 read 9"], ["0 read 0"]
        others = ["1 trim 3"] * 224 + ["1 write 3 x", "1 age 0 2 0 7", "1 write 4 x", "1 trim 3"]
        full = made_inputs.long_history(empty * 10 + lost + others)
        self.expect_simulated("a full history", full)
        self.expect_saved("a full history", full)
        late = made_inputs.long_history(empty * 12 + others)
        self.expect_simulated("a look too late", late)
        self.expect_saved("a look too late", late)
        self.expect_simulated("a drain too late", made_inputs.long_history(empty * 11 + ["1 drain 2"]))
        self.expect_simulated("a drain that is cut", made_inputs.long_history(empty * 10 + ["1 drain 2"] + others))

    def words_and_devices(self):
        example = (top / "crates/ssd/stdin").read_bytes()
        for words in ([], ["race"], ["run", "run"], ["run", "--lanes=3"], ["format", "--lanes=4"], ["gen"], [""],
                      ["save", "--show=all"], ["save", "--show=summary"], ["save", "--history=255"], ["save", "--policy"],
                      ["save", "--policy=oldest", "--policy=oldest"], ["save", "save"]):
            self.expect(f"the words {words}", words, example, 2, "", "words refused\n")
        for command in ("run", "save", "format"):
            with open("/dev/full", "wb") as full:
                run = subprocess.run(
                    [self.program, command], input=example, stdout=full, stderr=subprocess.PIPE, timeout=60)
                if (run.returncode, run.stderr) != (6, b"write fault\n"):
                    self.wrong.append(f"{command} to a full device: status {run.returncode}, wrote {run.stderr!r}")


check = Check(sys.argv[1])
check.rows()
check.example()
check.two_codewords()
check.tables()
check.random_drives()
check.weak_drives()
check.collections()
check.refreshes()
check.saved_drives()
check.options()
check.long_histories()
check.words_and_devices()
check.wrong += [f"never came up: {what}" for what in NEEDED_ONCE if not check.events[what]]
for words in CODEWORDS:
    needed = NEEDED + (NEEDED_OF_SEVERAL if words > 1 else [])
    check.wrong += [f"never came up with {words} codewords a page: {what}"
                    for what in needed if not check.events[what, words]]
for line in check.wrong[:40]:
    print(line)
sys.exit(1 if check.wrong else 0)
