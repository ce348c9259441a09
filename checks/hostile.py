#!/usr/bin/env python3
"""Runs the proved program on damaged inputs and on streams that fail, and compares status, output and standard error
with those of the plain simulation.

Good inputs of both versions, whose traces have all verbs, are damaged in each way of `simulation/hostile_inputs.py`. The
simulation serves each of them whole, and all that the program gives must be the same: so it ends with a status of the
table, within the time and the memory that are allowed. Some of them are saved and formatted, too. The good inputs also come
in pieces, streams are closed or full, each read and many a write fails in the middle, and memory is refused.

usage: hostile.py PROGRAM [any-memory] [one-in=N]        (prints the numbers of cases, and what differs; exits 0 where
                                                         nothing does, 1 otherwise)

A build without proofs has a sanitizer, which is slow and takes any amount of memory: with `any-memory` that isn't
limited, and with `one-in=N` one in N of the damaged inputs is tried.
"""
import fcntl
import multiprocessing
import os
import random
import resource
import socket
import struct
import subprocess
import sys
import tempfile
import termios
import time
from collections import Counter

from simulation import faulty_contents
from simulation.hostile_inputs import damaged_inputs, full_inputs, good_inputs
from simulation.made_inputs import Drive
from simulation.run import formatted, saved_by, simulated

SECONDS = 60
# Each drive of these inputs takes a few megabytes.
MEMORY = 2 ** 30

# What has to come up among the damaged inputs, each at least this often.
NEEDED = {
    "run: served": 1000, "save: served": 1000, "format: served": 1000,
    "image fault: short": 500, "image fault: magic": 50, "image fault: range": 500, "image fault: entry": 50,
    "image fault: parity": 10, "image fault: diagonal": 10, "image fault: order": 5,
    "trace fault: first": 100, "trace fault: long": 30, "trace fault: form": 500, "trace fault: number": 100,
    "trace fault: actor": 20, "trace fault: verb": 500, "trace fault: range": 50, "trace fault: data": 100,
    "image fault: state": 10, "image fault: count": 50, "image fault: sum": 50, "image fault: row": 20,
}


def ended(program, given, words=("run",)):
    """Status, output and text on standard error of a run of the program."""
    try:
        run = subprocess.run([program, *words], input=given, capture_output=True, timeout=SECONDS)
    except subprocess.TimeoutExpired:
        return "no status in time", b"", b""
    return run.returncode, run.stdout, run.stderr


def due_of(given, command="run"):
    """What is due of a command: status, output and text on standard error."""
    if command == "format":
        return formatted(given)
    if command == "save":
        return saved_by(given, Counter())
    status, output, message = simulated(given, Counter())
    return status, output.encode(), message.encode()


def difference(what, got, due):
    """What is wrong with the end of a run, in a line, or None."""
    if got == due:
        return None
    at = next((n for n, (a, b) in enumerate(zip(got[1], due[1])) if a != b), min(len(got[1]), len(due[1])))
    shown = slice(max(0, at - 60), at + 60)
    return (f"status {got[0]}, wrote {got[2][:200]!r} and, around byte {at}, {got[1][shown]!r}; "
            f"due were {due[0]}, {due[2]!r} and {due[1][shown]!r}: {what}")


def outcome_of(command, due):
    """What came up: that the input was served by a command, or its fault without the place."""
    status, _, message = due
    if status not in (3, 4):
        return f"{command}: {message.decode().strip() or 'served'}"
    words = message.decode().split()
    return f"{words[0]} fault: {words[-1]}"


def prepared(program, memory):
    """Keeps for this process which program is run, and how much memory it may take."""
    global tried_program
    tried_program = program
    if memory is not None:
        resource.setrlimit(resource.RLIMIT_AS, (memory, resource.getrlimit(resource.RLIMIT_AS)[1]))


def tried(case):
    """What came up with a damaged input, and what is wrong."""
    command, kind, given = case
    due = due_of(given, command)
    what = f"{command}, {kind}: {given[:9000].hex()}"
    return outcome_of(command, due), difference(what, ended(tried_program, given, (command,)), due)


def with_commands(cases):
    """The cases for `run`; one in five of them for `save`; and one in six of those whose image is damaged for `format`."""
    images = [case for case in cases if "image" in case[0] or "cut" in case[0] or "contents" in case[0] or "edges" in case[0]]
    chosen = [("run", cases), ("save", cases[::5]), ("format", images[::6])]
    return [(command, *case) for command, listed in chosen for case in listed]


class Check:
    """What differed so far, and how many cases there were of each kind."""

    def __init__(self, program, memory, one_in):
        self.program, self.memory, self.one_in, self.wrong = program, memory, one_in, []
        self.kinds, self.outcomes = Counter(), Counter()

    def note(self, kind, wrong):
        self.kinds[kind] += 1
        if wrong is not None:
            self.wrong.append(wrong)

    def expect(self, kind, what, got, due):
        self.note(kind, difference(what, got, due))

    def damaged(self):
        cases = with_commands(damaged_inputs())[::self.one_in]
        with multiprocessing.get_context("fork").Pool(4, prepared, (self.program, self.memory)) as pool:
            for (command, kind, _), (outcome, wrong) in zip(cases, pool.imap(tried, cases, chunksize=16)):
                self.outcomes[outcome] += 1
                self.note(kind if command == "run" else f"{command}, {kind}", wrong)
        if self.one_in == 1:
            self.wrong += [f"{outcome} came up {self.outcomes[outcome]} times, and {least} are due"
                           for outcome, least in NEEDED.items() if self.outcomes[outcome] < least]

    def contents(self):
        """Worked examples of contents, in the simulation and in the program; each is saved, too."""
        self.wrong += faulty_contents.wrong_contents()
        for what, given, *due in faulty_contents.rows():
            status, output, message = due
            self.expect("an example of contents", what, ended(self.program, given),
                        (status, output.encode(), message.encode()))
            self.expect("save, an example of contents", what, ended(self.program, given, ("save",)), due_of(given, "save"))

    def pieces(self):
        """Good inputs, and their fronts that end in the image and in the trace, that come a few bytes at a time."""
        for command, what, image, trace in [("run", *good) for good in good_inputs()] + [("save", *full_inputs()[1])]:
            for given in (image + trace, image[:-1], image + trace[:-3]):
                for size in (1, 7):
                    got = in_pieces(self.program, command, given, size)
                    self.expect("an input in pieces", f"{command}, {what}, {size} bytes at a time", got, due_of(given, command))

    def words(self):
        """Words that are nearly the one that is served, or no text, or very long."""
        given = b"".join(good_inputs()[0][1:])
        refused = 2, b"", b"words refused\n"
        lists = [(word,) for word in (b"", b"r", b"ru", b"runn", b"Run", b"RUN", b" run", b"run ", b"run\n", b"run=", b"=run",
                                      b"-run", b"--run", b"--", b"run\xff", b"\xff", b"\xc3\xbcn", b"r" * 131000)]
        lists += [(b"run", word) for word in (b"", b"=", b"-", b"--", b"--=", b"run", b"\xff", b"--\xff=1", b"x" * 131000)]
        lists += [(word,) for word in (b"Save", b"sav", b"saved", b"save=", b"--save")]
        lists += [(b"save", word) for word in (b"", b"save", b"--show=all", b"--show=summary", b"--history=255", b"--lanes=2",
                                               b"--policy=", b"--policy=Oldest")]
        lists += [(b"run", *[b"run"] * 9999), ()]
        for words in lists:
            shown = [word[:20] for word in words[:3]]
            self.expect("words", f"the words {shown}", ended(self.program, given, words), refused)

    def streams(self):
        """A standard stream that is closed, or that can't be read or written."""
        given = b"".join(good_inputs()[0][1:])
        wrong = good_inputs()[0][1] + b"trace 1 0\n"
        read_fault, write_fault = (5, b"", b"read fault\n"), (6, b"", b"write fault\n")
        mark = (4, b"", b"")
        for what, redirection, fed, due in [
                ("standard input is a folder", "< /", b"", read_fault),
                ("standard input can only be written", "0> /dev/null", b"", read_fault),
                ("standard input is closed", "<&-", b"", read_fault),
                ("standard output is full", "> /dev/full", given, write_fault),
                ("standard output is closed", ">&-", given, write_fault),
                ("standard output can only be read", "1< /dev/null", given, write_fault),
                ("standard output is full, and the input is wrong", "> /dev/full", wrong, due_of(wrong)),
                ("standard output is closed, and the input is wrong", ">&-", wrong, due_of(wrong)),
                ("standard error is full", "2> /dev/full", wrong, mark),
                ("standard error is closed", "2>&-", wrong, mark),
                ("standard error is full, and the input is good", "2> /dev/full", given, due_of(given)),
                ("all are closed but standard input", ">&- 2>&-", given, (6, b"", b""))]:
            for command in ("run", "save"):
                if due[0] == 0:
                    due = due_of(fed, command)
                run = subprocess.run(["/bin/sh", "-c", f'exec "$0" {command} {redirection}', self.program], input=fed,
                                     capture_output=True, timeout=SECONDS)
                self.expect("a stream that fails", f"{command}, {what}", (run.returncode, run.stdout, run.stderr), due)

    def failing_reads(self):
        """Good inputs of which the first bytes come, and then a read fails."""
        # The last of them is long, and its levels are read one like the other.
        chosen = [("run", good_inputs()[0], 1), ("run", good_inputs()[-1], 1), ("save", good_inputs()[1], 1),
                  ("save", full_inputs()[1], 5)]
        for command, (what, image, trace), step in chosen:
            given = image + trace
            for end in range(0, len(given) + 1, step):
                got = with_a_failing_read(self.program, command, given[:end])
                self.expect("a read that fails", f"{command}, {what}, after {end} bytes", got, (5, b"", b"read fault\n"))

    def failing_writes(self):
        """Long outputs of which the first bytes find room, and then a write fails."""
        for command, given, step in [("run", megabytes(), 4096), ("save", saved_megabytes(), 65536)]:
            whole = due_of(given, command)[1]
            ends = {end for at in range(0, len(whole), step) for end in (at, at + 1, at + 2000, at + 4095) if end < len(whole)}
            for end in sorted(ends | {len(whole) - 1}):
                got = with_room_for(self.program, command, given, end)
                self.expect("a write that fails", f"{command}, after {end} bytes", got, (6, whole[:end], b"write fault\n"))
            got = with_room_for(self.program, command, given, len(whole))
            self.expect("a write that fails", f"{command}, room for all", got, (0, whole, b""))
            reader, writer = os.pipe()
            os.close(reader)
            run = subprocess.run([self.program, command], input=given, stdout=writer, stderr=subprocess.PIPE, timeout=SECONDS)
            os.close(writer)
            self.expect("a write that fails", f"{command}, a pipe that no one reads", (run.returncode, b"", run.stderr),
                        (6, b"", b"write fault\n"))
        self.fronts_of_an_image()

    def fronts_of_an_image(self):
        """A small drive that is saved where each fifth number of bytes finds room, and where one byte doesn't."""
        what, image, trace = good_inputs()[1]
        whole = due_of(image + trace, "save")[1]
        for end in [*range(0, len(whole), 5), len(whole) - 1]:
            got = with_room_for(self.program, "save", image + trace, end)
            self.expect("a write that fails", f"save, {what}, after {end} bytes", got, (6, whole[:end], b"write fault\n"))

    def refused_memory(self):
        """Drives of some megabytes, where the program may take less and less: each run ends for want of memory with nothing
        written, or is whole."""
        for command, given in [("run", megabytes()), ("save", saved_megabytes())]:
            due, ends = due_of(given, command), Counter()
            for kilobytes in range(16000, 0, -200):
                limited = f'ulimit -v {kilobytes}; exec "$0" {command}'
                got = ended("/bin/sh", given, ("-c", limited, self.program))
                # With still less the program can't be loaded.
                if ends[8] and got[0] not in (0, 8):
                    break
                ends[got[0]] += 1
                # Memory may be refused to the text of the status, too.
                text = b"out of memory\n" if got[2] else b""
                self.expect("memory refused", f"{command}, {kilobytes} kB", got, due if got[0] == 0 else (8, b"", text))
            self.wrong += [f"no {command} with little memory ended in status {status}"
                           for status in (0, 8) if not ends[status]]

    def printed(self, seconds):
        for numbers in (self.kinds, self.outcomes):
            print("; ".join(f"{what}: {count}" for what, count in sorted(numbers.items())))
        served = sum(count for outcome, count in self.outcomes.items() if outcome.endswith(": served"))
        print(f"hostile inputs: {self.kinds.total()} cases, all compared whole, {served} of them served; "
              f"{len(self.wrong)} differ; {seconds:.0f} s")


def with_a_failing_read(program, command, given):
    """How the program ends where standard input gives these bytes, and then a read fails: the other end of a connection was
    closed before it had read what was sent to it."""
    near, far = socket.socketpair()
    near.send(b"unread")
    far.sendall(given)
    far.close()
    with near:
        run = subprocess.run([program, command], stdin=near, capture_output=True, timeout=SECONDS)
    return run.returncode, run.stdout, run.stderr


def with_room_for(program, command, given, size):
    """How the program ends where standard output is a file that may have so many bytes. The write that passes them is cut
    short, and the next one fails."""
    def limited():
        resource.setrlimit(resource.RLIMIT_FSIZE, (size, size))

    with tempfile.TemporaryFile() as output:
        # The signal of the limit stays ignored, as it is here.
        run = subprocess.run([program, command], input=given, stdout=output, stderr=subprocess.PIPE, timeout=SECONDS,
                             preexec_fn=limited, restore_signals=False)
        output.seek(0)
        return run.returncode, output.read(), run.stderr


def megabytes():
    """An input whose drive takes some megabytes, with a few thousand calls."""
    drive = Drive()
    drive.channels, drive.superblocks, drive.pages, drive.rows = 4, 64, 16, 1900
    lines = ["trace 1 2"]
    for n in range(2000):
        lines += [f"0 write {n * 7 % 7600} g{n}", f"1 trim {n * 5 % 7600}"]
    return drive.image(random.Random(20261208)) + "\n".join(lines).encode()


def saved_megabytes():
    """The same where an image of some hundred kilobytes is saved: fewer calls, each of which programs a page."""
    drive = Drive()
    drive.channels, drive.superblocks, drive.pages, drive.rows = 4, 64, 16, 1900
    lines = ["trace 1 2", *(f"{n % 2} write {n * 7 % 7600} g{n}" for n in range(600))]
    return drive.image(random.Random(20261210)) + "\n".join(lines).encode()


def in_pieces(program, command, given, size):
    """How the program ends where each of its reads finds at most so many bytes: the next ones come once none wait."""
    run = subprocess.Popen([program, command], stdin=subprocess.PIPE, stdout=subprocess.PIPE, stderr=subprocess.PIPE)
    late = time.monotonic() + SECONDS
    for at in range(0, len(given), size):
        try:
            os.write(run.stdin.fileno(), given[at:at + size])
        except BrokenPipeError:
            break
        while waiting(run.stdin) and run.poll() is None and time.monotonic() < late:
            os.sched_yield()
    output, message = run.communicate(timeout=SECONDS)
    return run.returncode, output, message


def waiting(pipe):
    """How many bytes wait in a pipe."""
    return struct.unpack("i", fcntl.ioctl(pipe, termios.FIONREAD, bytes(4)))[0]


started, options = time.monotonic(), dict(word.partition("=")[::2] for word in sys.argv[2:])
check = Check(os.path.abspath(sys.argv[1]), None if "any-memory" in options else MEMORY, int(options.get("one-in", 1)))
check.damaged()
check.contents()
check.pieces()
check.words()
check.streams()
check.failing_reads()
check.failing_writes()
if check.memory is not None:
    check.refused_memory()
for line in check.wrong[:40]:
    print(line)
check.printed(time.monotonic() - started)
sys.exit(1 if check.wrong else 0)
