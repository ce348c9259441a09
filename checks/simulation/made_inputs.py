"""Inputs made by chance from a seeded generator: small blank drives, and traces for them."""
import random
import struct

from .inputs import Head


class Drive:
    """What an image of a blank drive says, written by `image`."""

    words, channels, dies, superblocks, pages = 1, 1, 3, 4, 2
    lifting, base_rows, message_columns, iterations = 8, 3, 17, 1
    data_bytes, rows, seed, session = 1, 1, 0, 0
    erased, programmed, spread, soft_step = -100, 100, 0, 10
    read_levels, bad, weak = (0,), (), ()
    # The share of zero blocks among the message columns, and the columns that have nothing else.
    zero_blocks, unchecked = 0.5, ()

    def __init__(self, words=1):
        """A drive whose pages have this many codewords."""
        self.words = words

    def choose_sizes(self, rng, liftings, most_dies=5):
        self.channels, self.dies = rng.randint(1, 3), rng.randint(3, most_dies)
        self.superblocks, self.pages = rng.randint(4, 6), rng.randint(2, 4)
        self.lifting, self.base_rows = rng.choice(liftings), rng.choice([3, 4, 5])
        least = -(-17 * 8 // (self.words * self.lifting))
        while True:
            self.message_columns = rng.randint(least, least + 1 + 4 // self.words)
            columns = self.base_rows + self.message_columns
            if self.message_columns * self.lifting % 8 == 0 and columns * self.lifting % 8 == 0:
                break
            self.base_rows = rng.choice([3, 4, 5])
        self.data_bytes = rng.randint(1, self.words * self.message_columns * self.lifting // 8 - 16)
        if self.superblocks > 4 and rng.random() < 0.3:
            self.bad = [(rng.randrange(self.channels), rng.randrange(self.superblocks))]
        fewest = self.superblocks - 2 - len(self.bad)
        self.rows = rng.randint(1, fewest * (self.dies - 1) * self.pages)
        self.seed, self.session = rng.randrange(2 ** 64), rng.randrange(2 ** 24)

    def base_matrix(self, rng):
        """A random base matrix with a dual-diagonal parity part."""
        rows = self.base_rows
        first, middle = rng.randrange(self.lifting), rng.randrange(1, rows - 1)
        entries = []
        for i in range(rows):
            for j in range(self.message_columns):
                zero = j in self.unchecked or rng.random() < self.zero_blocks
                entries.append(-1 if zero else rng.randrange(self.lifting))
            entries.append(first if i in (0, rows - 1) else 0 if i == middle else -1)
            entries += [0 if i in (t - 1, t) else -1 for t in range(1, rows)]
        return entries

    def image(self, rng):
        numbers = [*self.read_levels, *self.base_matrix(rng)]
        # The first version has no field for the codewords of a page.
        first = self.words == 1 and rng.random() < 0.5
        head = (b"SSDIMG01" if first else struct.pack("<8sB", b"SSDIMG02", self.words)) + struct.pack(
            "<BBHHHBBBBIIQIhhHH", self.channels, self.dies, self.superblocks, self.pages,
            self.lifting, self.base_rows, self.base_rows + self.message_columns,
            len(self.read_levels), self.iterations, self.data_bytes, self.rows,
            self.seed, self.session, self.erased, self.programmed, self.spread, self.soft_step)
        bad = b"".join(struct.pack("<BBH", channel, 0, sb) for channel, sb in self.bad)
        weak = b"".join(struct.pack("<BBHI", *record) for record in self.weak)
        lists = struct.pack("<H", len(self.weak)) + weak + struct.pack("<H", len(self.bad)) + bad
        return head + struct.pack(f"<{len(numbers)}h", *numbers) + lists + b"\0"


def quiet_image(rng, words):
    """A drive without noise, whose first read level tells the bits apart."""
    drive = Drive(words)
    drive.choose_sizes(rng, [8, 16, 20, 40, 64])
    drive.iterations, drive.soft_step = rng.randint(1, 64), rng.randint(1, 2047)
    drive.erased = rng.randint(-300, 0)
    drive.programmed = drive.erased + rng.randint(1, 300)
    others = [rng.randint(-400, 400) for _ in range(rng.randrange(3))]
    drive.read_levels = [rng.randint(drive.erased + 1, drive.programmed), *others]
    return drive.image(rng)


def noisy_image(rng, words):
    """A drive whose noise comes near the middle of its two levels or passes it, with read levels around it
    and some near the erased level."""
    drive = Drive(words)
    liftings = [4, 8, 12, 12, 16, 16, 20, 24, 32, 36, 64]
    drive.choose_sizes(rng, [z for z in liftings if z * words <= 80], most_dies=4)
    drive.zero_blocks = rng.choice([0.0, 0.1, 0.2, 0.7])
    drive.iterations = rng.randint(1, 10)
    half = rng.randint(20, 300)
    drive.erased = rng.randint(-400, 0)
    drive.programmed = drive.erased + 2 * half
    shares = [0.1, 0.3, rng.uniform(0.3, 0.95), rng.uniform(0.95, 1.25)]
    drive.spread = int(half * rng.choice(shares))
    drive.soft_step = max(1, int(half * rng.uniform(0.02, 0.4)))
    drive.read_levels = []
    for _ in range(rng.randint(1, 4)):
        level = drive.erased + half + rng.randint(-half, half) // rng.choice([1, 2, 4, 8])
        if rng.random() < 0.25:
            level = drive.erased + rng.randint(-drive.spread, drive.spread) // rng.choice([1, 8])
        drive.read_levels.append(level)
    return drive.image(rng)


def unchecked_image(rng, words):
    """A drive some of whose bits stand in no check, so that codewords come up which have a wrong serial,
    row or text, or something after the data."""
    drive = Drive(words)
    drive.choose_sizes(rng, [8], most_dies=3)
    drive.base_rows, drive.message_columns, drive.data_bytes, drive.iterations = 5, 32 // words + 1, 1, 4
    unchecked = rng.choice([range(0, 8), range(8, 12), range(12, 16), range(27, 33)])
    drive.unchecked = {byte % drive.message_columns for byte in unchecked}
    drive.zero_blocks, drive.spread = 0.1, rng.randint(100, 108)
    drive.read_levels = [rng.randint(-3, 3) for _ in range(rng.randint(1, 4))]
    return drive.image(rng)


def lossy_image(rng, words):
    """A drive with little noise, whose pages are lost by ageing alone."""
    drive = Drive(words)
    drive.choose_sizes(rng, [8, 12, 16, 32], most_dies=6)
    drive.channels, drive.rows = 1, 2 * (drive.dies - 1) * drive.pages
    drive.bad, drive.iterations = [], 3
    drive.erased, drive.programmed, drive.soft_step = -200, 200, 20
    drive.spread = rng.randint(0, 150)
    drive.read_levels = [rng.randint(-20, 60) for _ in range(rng.randint(1, 3))]
    return drive.image(rng)


def torn_image(rng, words):
    """A drive whose read levels lie to both sides of the middle in turn, each so far that a codeword is found
    there or isn't, as its noise falls: one codeword of a page is found at one level, and one at another."""
    drive = Drive(words)
    drive.choose_sizes(rng, [12, 16, 20], most_dies=3)
    drive.channels, drive.bad, drive.zero_blocks, drive.iterations = 1, [], 0.1, 6
    drive.spread, drive.soft_step = 60, rng.randint(5, 60)
    bits = drive.lifting * (drive.base_rows + drive.message_columns)
    drive.read_levels, side = [], rng.choice([-1, 1])
    for _ in range(rng.randint(2, 5)):
        share = rng.uniform(12, 22) / bits
        drive.read_levels.append(side * (40 + int(2 * drive.spread * share)))
        side = -side
    return drive.image(rng)


def wide_image(rng, words):
    """A drive with the widest levels, noise and soft step, and many dies and read levels."""
    drive = Drive(words)
    drive.choose_sizes(rng, [8, 12, 16], most_dies=8)
    drive.zero_blocks, drive.iterations = 0.2, 2
    cells = [(-8192, 8191), (-8192, -8191), (8190, 8191), (-4096, 8191)]
    drive.erased, drive.programmed = rng.choice(cells)
    drive.spread, drive.soft_step = rng.choice([0, 4095]), 2047
    levels = [-16384, 16383, -8192, -8191, 0, 8190, 8191]
    drive.read_levels = rng.choices(levels, k=rng.randint(1, 16))
    return drive.image(rng)


def weak_image(rng, words):
    """A drive with weak blocks and without noise, that has as many rows as its superblocks allow."""
    drive = Drive(words)
    drive.choose_sizes(rng, [8, 16, 20], most_dies=4)
    drive.channels = rng.randint(1, 2)
    drive.bad = [one for one in drive.bad if one[0] < drive.channels]
    drive.rows = (drive.superblocks - 2 - len(drive.bad)) * (drive.dies - 1) * drive.pages
    blocks = [(channel, die, sb) for channel in range(drive.channels) for die in range(drive.dies)
              for sb in range(drive.superblocks)]
    weak = rng.sample(blocks, rng.randint(1, 3 * drive.channels))
    drive.weak = [(*block, rng.choice([0, 0, 0, 1, 2 ** 32 - 1])) for block in sorted(weak)]
    return drive.image(rng)


def written(rng, head):
    if rng.random() < 0.3:
        return f"g{rng.randrange(2 ** 64)}"
    return f"x{rng.randbytes(rng.randint(0, head.data_bytes)).hex()}"


def amount(rng, head):
    """How far a block is aged: a little, or nearly all of what its cells hold."""
    share = rng.choice([rng.uniform(0.01, 0.3), rng.uniform(0.7, 1.1)])
    return min(16383, 1 + int((head.programmed - head.erased) * share))


def text_of(rng, lines):
    """A trace of these lines, some with a remark before them, with ends of either kind."""
    out = ""
    for line in lines:
        if rng.random() < 0.05:
            out += rng.choice(["\n", "# a remark\n", "#\n"])
        out += line + rng.choice(["\n", "\n", "\n", "\r\n"])
    return (out if rng.random() < 0.7 else out.rstrip("\r\n")).encode()


def trace(rng, image, calls, verbs):
    """A trace for an image: a few pages are written, read and trimmed, and blocks are aged, mostly those of
    one die. Where blocks are aged it may begin with a write of each page, which closes stripes."""
    head = Head(image)
    actors = rng.randint(1, 5)
    lines = [f"trace 1 {actors}"]
    count = head.channels * head.rows
    pages = rng.sample(range(count), min(count, rng.randint(4, 10)))
    aged = rng.randrange(head.dies)
    begun = rng.choice([[], pages]) if "age" in verbs else []
    for n in range(len(begun) + calls):
        verb = rng.choice(verbs) if n >= len(begun) else "write"
        page = rng.choice(pages) if n >= len(begun) else begun[n]
        if verb == "age":
            sb = rng.choice([*head.good(0)[:1] * 3, *head.good(0)[1:3], head.superblocks - 1])
            die = aged if rng.random() < 0.95 else rng.randrange(head.dies)
            words = f"{rng.randrange(head.channels)} {die} {sb} {amount(rng, head)}"
        elif verb == "write":
            words = f"{page} {written(rng, head)}"
        elif verb == "collect":
            words = rng.randrange(head.channels)
        elif verb == "drain":
            words = rng.choice([1, 2, 4, 16])
        else:
            words = page
        lines.append(f"{rng.randrange(actors)} {verb} {words}")
    return text_of(rng, lines)


def filling_trace(rng, image):
    """A trace that writes each page of an image once, some of them again, and reads and trims a few between."""
    head = Head(image)
    pages = list(range(head.channels * head.rows))
    rng.shuffle(pages)
    again = rng.choices(pages, k=rng.choice([0, 0, 1, 4]))
    lines = ["trace 1 2"]
    for page in pages + again:
        lines.append(f"0 write {page} {written(rng, head)}")
        lines += [f"1 read {rng.choice(pages)}" for _ in range(rng.choice([0, 0, 1]))]
        lines += [f"1 trim {rng.choice(pages)}" for _ in range(rng.random() < 0.01)]
    lines += [f"1 read {page}" for page in rng.sample(pages, min(len(pages), 3))]
    return text_of(rng, lines)


def collecting_trace(rng, image):
    """A trace that writes the pages of an image again and again, so that writes have to make room, with a few reads,
    trims, ageings and collects between."""
    head = Head(image)
    pages = list(range(head.channels * head.rows))
    lines = ["trace 1 2"]
    for page in rng.choices(pages, k=rng.randint(1, 4) * head.channels * head.superblocks * head.slots // 2):
        lines.append(f"0 write {page} {written(rng, head)}")
        lines += [f"1 read {rng.choice(pages)}" for _ in range(rng.random() < 0.1)]
        lines += [f"1 trim {rng.choice(pages)}" for _ in range(rng.random() < 0.1)]
        lines += [f"1 collect {rng.randrange(head.channels)}" for _ in range(rng.random() < 0.05)]
        lines += [f"1 age {rng.randrange(head.channels)} {rng.randrange(head.dies)} {rng.randrange(head.superblocks)}"
                  f" {amount(rng, head)}" for _ in range(rng.random() < 0.05)]
    lines += [f"1 read {page}" for page in rng.sample(pages, min(len(pages), 4))]
    return text_of(rng, lines)


def refreshing_trace(rng, image):
    """A trace that writes the pages of an image again and again, with refreshes, reads of aged pages and drains
    between."""
    head = Head(image)
    pages = list(range(head.channels * head.rows))
    lines = ["trace 1 2"]
    for page in pages + rng.choices(pages, k=rng.randint(0, head.channels * head.superblocks * head.slots)):
        lines.append(f"0 write {page} {written(rng, head)}")
        lines += [f"1 refresh {rng.choice(pages)}" for _ in range(rng.random() < 0.3)]
        lines += [f"1 trim {rng.choice(pages)}" for _ in range(rng.random() < 0.02)]
        if rng.random() < 0.1:
            die, sb = rng.randrange(head.dies), rng.randrange(head.superblocks)
            lines.append(f"1 age {rng.randrange(head.channels)} {die} {sb} {amount(rng, head)}")
            lines += [f"1 read {page}" for page in rng.choices(pages, k=3)] + [f"1 drain {rng.randint(1, 4)}"]
    lines += [f"1 refresh {page}" for page in rng.sample(pages, min(len(pages), 4))]
    lines += [f"1 read {page}" for page in rng.sample(pages, min(len(pages), 4))]
    return text_of(rng, lines)


def damaged(rng, given):
    """The input with one byte drawn anew."""
    at = rng.randrange(len(given))
    return given[:at] + bytes([rng.randrange(256)]) + given[at + 1:]


def long_history(last_calls):
    """A drive of eight dies and sixteen read levels, and a trace with 139,801 reads of a page that its
    stripe alone recovers. Each adds 30 entries, and eight calls before them one each, so that ten more can
    be added before the last look that finds room. Then come the calls that are given.

    The page's block has lost all its charge, so it reads as ones at the first level, and at all others as
    zeros, which are a codeword: hardly anything is to be decoded. The other pages of the stripe are read at
    the first level."""
    drive = Drive()
    drive.dies, drive.rows = 8, 28
    drive.read_levels = [0, *range(-101, -116, -1)]
    lines = ["trace 1 2", *(f"1 write {page} g{page}" for page in range(7)), "1 age 0 1 0 200"]
    lines += ["0 read 0"] * 139801 + last_calls
    return drive.image(random.Random(16)) + "".join(line + "\n" for line in lines).encode()
