"""Good inputs with traces of all verbs, and each of them damaged: bytes changed, left out, doubled and exchanged, the
input cut, lines moved, and fields of the head at the edges of their ranges."""
import random
import struct

from .made_inputs import Drive
from .run import saved_after
from .worked_rows import IMAGE, TWO_CODEWORDS, versions

# A page is recovered at the second level, and a drain copies it; another is recovered by its stripe, and a refresh copies it;
# a superblock fills up, and a collect erases it.
TRACE = b"""# all verbs

trace 1 3
0 write 5 x0102
1 write 0 x09
2 read 5\r
1 write 1 g18446744073709551615
0 age 0 1 0 150
2 read 0
2 read 5
# more
1 drain 2
0 age 0 2 0 200
0 read 1
2 refresh 1
0 trim 5
0 read 5
1 collect 0
1 drain 16
0 read 0
2 write 7 x
"""

# The same on two channels with weak and bad blocks, so that programs answer FAIL.
LISTED_TRACE = b"""trace 1 2
0 write 0 x0a0b
0 write 1 g7
1 write 2 xff
0 write 3 x
0 write 2 x01
1 read 2
0 age 0 0 1 90
0 age 1 2 4 200
1 read 0
1 read 1
0 drain 3
1 refresh 3
1 trim 2
0 collect 1
0 collect 0
1 read 0
0 write 0 g0"""


def listed_image(words):
    """A drive of two channels with some noise, two weak blocks and three factory bad superblocks, whose pages have this
    many codewords."""
    drive = Drive(words)
    drive.channels, drive.dies, drive.superblocks, drive.pages = 2, 4, 6, 2
    drive.lifting, drive.base_rows, drive.message_columns, drive.iterations = 64 // words, 3, 4, 6
    drive.data_bytes, drive.rows, drive.seed, drive.session = 6, 12, 2 ** 64 - 3, 2 ** 24 - 1
    drive.spread, drive.soft_step, drive.read_levels = 40, 20, (0, -40, 35)
    drive.weak = [(0, 2, 1, 0), (1, 0, 0, 0), (1, 3, 2, 1)]
    drive.bad = [(0, 0), (0, 4), (1, 5)]
    return drive.image(random.Random(20261205 + words))


def good_inputs():
    """What each input is, its image and its trace."""
    first, second = versions(IMAGE)
    return [
        ("the first version", first, TRACE),
        ("one codeword a page", second, TRACE),
        ("two codewords a page", TWO_CODEWORDS, TRACE),
        ("lists and one codeword a page", listed_image(1), LISTED_TRACE),
        ("lists and four codewords a page", listed_image(4), LISTED_TRACE),
    ]


# On full images: reads of saved pages, of a lost row and of one whose page is aged; a collect of the victim, whose erase
# answers FAIL, and of what has no garbage.
FULL_TRACE = b"""trace 1 2
0 read 0
1 read 5
0 age 0 1 1 90
0 age 0 0 1 90
1 read 4
0 read 0
0 drain 2
0 write 2 x07
1 collect 0
0 refresh 3
1 trim 1
0 read 2
1 collect 0
1 write 5 g5
"""


def full_drive(words):
    """A small drive, whose pages have this many codewords, with a factory bad superblock and a weak block."""
    drive = Drive(words)
    drive.superblocks, drive.rows, drive.iterations, drive.spread, drive.read_levels = 5, 6, 3, 30, (0, -50)
    drive.seed, drive.bad = 7, [(0, 4)]
    return drive


def picked(run):
    """Makes the first superblock a victim that was erased three times, and loses a row."""
    channel = run.channels[0]
    channel.sealed.remove(0)
    channel.victim, channel.cells.erases[0], channel.rows[5] = 0, 3, None


def first_full_image():
    """A full image of the first version, on which superblocks of all states stand, and rows of all kinds."""
    drive = full_drive(1)
    drive.weak = [(0, 2, 0, 3)]
    lines = ["trace 1 1", *(f"0 write {row} x0{row}" for row in (0, 1, 2, 3, 0, 4, 5))]
    full = saved_after(drive.image(random.Random(2)) + as_text(lines), picked)
    return b"SSDIMG01" + full[9:]


def second_full_image():
    """A full image of the second version, of two channels and pages of two codewords, where a parity answered FAIL."""
    drive = full_drive(2)
    drive.channels, drive.weak = 2, [(0, 0, 0, 0)]
    drive.lifting, drive.base_rows, drive.message_columns = 4, 4, 18
    lines = ["trace 1 1", *(f"0 write {page} x0{page}" for page in (0, 2, 4, 1))]
    return saved_after(drive.image(random.Random(3)) + as_text(lines))


def as_text(lines):
    return "".join(line + "\n" for line in lines).encode()


def full_inputs():
    """The same of images with contents."""
    return [
        ("a full image of the first version", first_full_image(), FULL_TRACE),
        ("a full image of two codewords a page", second_full_image(), FULL_TRACE),
    ]


# Where in the second version each field of fixed place stands, its form, and values at and beyond its edges.
EDGES = [
    (8, "B", [3, 4, 5]),
    (9, "B", [2, 8, 9]),
    (10, "B", [2, 3, 4, 8, 9]),
    (11, "H", [3, 4, 5, 255, 256, 257, 65535]),
    (13, "H", [1, 2, 3, 256, 257, 65535]),
    (15, "H", [3, 4, 5, 8, 16, 1024, 1025, 65535]),
    (17, "B", [2, 3, 4, 16, 17]),
    (18, "B", [3, 4, 5, 7, 8, 127, 128, 129]),
    (19, "B", [1, 2, 3, 4, 16, 17]),
    (20, "B", [1, 2, 64, 65]),
    (21, "I", [1, 2, 7, 8, 9, 15, 16, 17, 2 ** 31, 2 ** 32 - 1]),
    (25, "I", [1, 2, 7, 8, 9, 11, 12, 13, 17, 18, 24, 25, 2 ** 31, 2 ** 32 - 1]),
    (29, "Q", [2 ** 32, 2 ** 63, 2 ** 64 - 1]),
    (37, "I", [2 ** 23, 2 ** 24 - 1, 2 ** 24, 2 ** 32 - 1]),
    (41, "h", [-32768, -8193, -8192, -101, 99, 100, 8190, 8191, 32767]),
    (43, "h", [-32768, -8193, -100, -99, 0, 8190, 8191, 8192, 32767]),
    (45, "H", [1, 99, 100, 4094, 4095, 4096, 65535]),
    (47, "H", [1, 2, 2046, 2047, 2048, 65535]),
    (49, "h", [-32768, -16385, -16384, -100, -99, 100, 101, 16383, 16384, 32767]),
]


def with_edges(image):
    """The image with each field of fixed place at the edges of its range, and with two such fields at their edges."""
    # The first version has no field for the codewords of a page, and all others stand one place earlier.
    earlier = 1 if image[7:8] == b"1" else 0
    fields = [(at - earlier, [struct.pack("<" + form, n) for n in numbers])
              for at, form, numbers in EDGES if at - earlier >= 8]
    for n, (at, values) in enumerate(fields):
        for value in values:
            other = image[:at] + value + image[at + len(value):]
            yield other
            # The sizes of a drive stand beside each other, and their product is tested.
            if n + 1 < len(fields):
                next_at, next_values = fields[n + 1]
                for next_value in next_values:
                    yield other[:next_at] + next_value + other[next_at + len(next_value):]


def told_values(byte, further):
    """What a byte is changed to: values at the edges of a byte, its neighbours, and further ones that tell."""
    values = [0, 1, 0xff, (byte + 1) % 256, (byte - 1) % 256, *further]
    return sorted({value for value in values if value != byte})


# Further values that tell in a head: the edges of a signed byte.
IN_A_HEAD = b"\x7f\x80"

# The same in a trace: ends of lines, the space, the mark of a remark, digits and letters.
IN_A_TRACE = b"\n\r #0129afgx\x1f\x7f\x80~"


def changed_bytes(given, further=b""):
    for at, byte in enumerate(given):
        for value in told_values(byte, further):
            yield given[:at] + bytes([value]) + given[at + 1:]


def cuts(given):
    for end in range(len(given)):
        yield given[:end]


def left_out(given):
    for at in range(len(given)):
        yield given[:at] + given[at + 1:]


def doubled(given):
    for at in range(len(given)):
        yield given[:at + 1] + given[at:]


def exchanged(given):
    for at in range(len(given) - 1):
        yield given[:at] + given[at + 1:at + 2] + given[at:at + 1] + given[at + 2:]


def moved_lines(trace):
    """The trace with each line left out, doubled, exchanged with the next one, and joined with it."""
    lines = trace.splitlines(keepends=True)
    for n, line in enumerate(lines):
        yield b"".join(lines[:n] + lines[n + 1:])
        yield b"".join(lines[:n] + [line, b"" if line.endswith(b"\n") else b"\n", line] + lines[n + 1:])
        yield b"".join(lines[:n] + lines[n + 1:n + 2] + [line] + lines[n + 2:])
        yield b"".join(lines[:n] + [line.rstrip(b"\r\n")] + lines[n + 1:])


def long_lines(trace):
    """The trace with a skipped line of the most bytes behind its first one, and of one more; ended by LF, and by CR LF;
    and with a call of the most bytes, and of one more."""
    first = trace.index(b"trace 1")
    for count in (39999, 40000, 40001):
        for end in (b"\n", b"\r\n", b"\r\r\n"):
            yield trace[:first] + b"#".ljust(count, b"y") + end + trace[first:]
        yield trace[:first] + b"#".ljust(count, b"y")
        yield trace + b"\n0 write 1 x".ljust(count + 1, b"0") + b"\n"
        yield trace + b"\n0 read ".ljust(count + 1, b"1") + b"\n"
        yield trace + b"\n0 read ".ljust(count + 1, b" ")


def drawn_bytes(given, rng):
    """The input with a few bytes drawn anew."""
    for _ in range(300):
        other = bytearray(given)
        for _ in range(rng.randint(2, 5)):
            other[rng.randrange(len(given))] = rng.choice([rng.randrange(256), *IN_A_TRACE])
        yield bytes(other)


class Cases:
    """Inputs by the kind of their damage, each once."""

    def __init__(self):
        self.kinds = {}

    def add(self, kind, inputs):
        self.kinds.setdefault(kind, {}).update(dict.fromkeys(inputs))

    def add_shifted(self, of, given, whole):
        """Adds what is given with a byte left out, doubled and exchanged with the next, each made a whole input."""
        for kind, damage in [("left out", left_out), ("doubled", doubled), ("exchanged with the next", exchanged)]:
            self.add(f"a byte of the {of} {kind}", (whole(other) for other in damage(given)))

    def add_heads(self, image, trace, rng):
        given = image + trace
        self.add("whole", [given])
        self.add("cut", cuts(given))
        self.add("a byte of the image changed", (other + trace for other in changed_bytes(image, IN_A_HEAD)))
        self.add("fields at their edges", (other + trace for other in with_edges(image)))
        self.add("a long line", (image + other for other in long_lines(trace)))
        self.add("a few bytes changed", drawn_bytes(given, rng))
        self.add_shifted("image", image, lambda other: other + trace)

    def add_traces(self, image, trace):
        self.add("a byte of the trace changed", (image + other for other in changed_bytes(trace, IN_A_TRACE)))
        self.add("a line moved", (image + other for other in moved_lines(trace)))
        self.add_shifted("trace", trace, lambda other: image + other)

    def add_contents(self, image, trace, rng):
        self.add("whole, with contents", [image + trace])
        self.add("cut, with contents", cuts(image + trace))
        self.add("a byte of a full image changed", (other + trace for other in changed_bytes(image)))
        self.add("a few bytes of contents changed", drawn_bytes(image + trace, rng))


def damaged_inputs():
    """Each kind of damage with each input that it makes."""
    cases, rng = Cases(), random.Random(20261206)
    for _, image, trace in good_inputs():
        cases.add_heads(image, trace, rng)
    # What is wrong in a trace doesn't hang on the image, but for its sizes.
    for _, image, trace in [good_inputs()[0], good_inputs()[-1]]:
        cases.add_traces(image, trace)
    for _, image, trace in full_inputs():
        cases.add_contents(image, trace, rng)
    return [(kind, given) for kind, inputs in cases.kinds.items() for given in inputs]
