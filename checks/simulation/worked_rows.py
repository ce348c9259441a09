"""Worked examples of runs, with their output written out, and of single rules."""
import struct
from collections import Counter

from .code import Code, Pages, told
from .drive import Ladder, hard_values, soft_values
from .inputs import Head
from .random_words import words_of

# One channel of three dies and four superblocks of two pages; two read levels, no noise; eight rows, of
# eight data bytes each.
IMAGE = bytes.fromhex(
    "53534449 4d473031 01 03 0400 0200 4000 03 06 02 08"
    "08000000 08000000 0100000000000000 00000000"
    "9cff 6400 0000 0a00"
    "0000 c4ff"
    "0000 0100 ffff 0100 0000 ffff"
    "0500 ffff 0700 0000 0000 0000"
    "ffff 0b00 0300 0100 ffff 0000"
    "0000 0000 00"
)


# The same drive in the second version, whose pages have two codewords of half the size.
TWO_CODEWORDS = b"SSDIMG02\2" + IMAGE[8:14] + b"\x20\0" + IMAGE[16:]


def changed(at, new, image=IMAGE):
    return image[:at] + new + image[at + len(new):]


def versions(image):
    """An image of the first version, and the same drive in the second."""
    return image, b"SSDIMG02\1" + image[8:]


def weakened(image, *weak):
    """An image of the same drive with these weak blocks: channel, die, superblock, and erases from."""
    records = b"".join(struct.pack("<BBHI", *record) for record in weak)
    return image[:-5] + struct.pack("<H", len(weak)) + records + image[-3:]


def trace(*lines):
    return "".join(line + "\n" for line in ("trace 1 1", *lines)).encode()


def numbered(name, lines):
    return [f"{name} {len(lines)}", *(f"{n} {line}" for n, line in enumerate(lines))]


def text(entries, replies, writes="0 0 0 0", reads="0 0 0 0", trims=0, senses=0, rungs="0 0 0 0",
         hints="0 0 0", bad=0, moves="0 0 0", picks=0, erases=0):
    """The output of a run with one actor; `entries` has a list for each channel, and `moves` the counts of moves,
    condemned pages and stays."""
    lines = []
    for channel, listed in enumerate(entries):
        lines += numbered(f"channel {channel}", listed)
    lines += numbered("actor 0", replies)
    lines += ["summary", f"write {writes}", f"read {reads}", f"trim {trims}"]
    moved, condemned, stays = moves.split()
    lines += [f"move {moved} condemn {condemned} changed 0 stay {stays}", f"pick {picks} erase {erases} bad {bad} fault 0"]
    lines += [f"sense {senses}", f"rung {rungs}", f"hint {hints}", "end"]
    return "".join(line + "\n" for line in lines)


def senses(tag, look, place, *levels):
    return [f"{tag} sense {look} {place} {level}" for level in levels]


# What each row shows, its trace, its status, its output, and its text on standard error. The sizes are those
# of each of the images, so the rows hold on all three.
TRACES = [
    ("one page is written and read", trace("0 write 5 x0102", "0 read 5"), 0, text(
        [["0.0 write 5 0.0", "0.1 look 5 page 0.0 0 open", "0.1 sense 1 1.0.0 0", "0.1 leave 1"]],
        ["ok", "data 0 0102000000000000"],
        writes="1 0 0 0", reads="1 0 0 0", senses=1, rungs="1 0 0 0"), ""),
    ("no calls", trace(), 0, text([[]], []), ""),
    ("a trimmed page is empty",
     trace("0 read 3", "0 write 3 x07", "0 trim 3", "0 read 3"), 0, text(
        [["0.0 look 3 empty", "0.1 write 3 0.0", "0.2 trim 3", "0.3 look 3 empty"]],
        ["empty", "ok", "ok", "empty"],
        writes="1 0 0 0", reads="0 2 0 0", trims=1), ""),
    ("the last of two writes is read",
     trace("0 write 3 x01", "0 write 3 x02", "0 read 3"), 0, text(
        [["0.0 write 3 0.0", "0.1 write 3 0.1",
          "0.2 look 3 page 0.1 1 closed", "0.2 sense 2 2.0.0 0", "0.2 leave 2"]],
        ["ok", "ok", "data 0 0200000000000000"],
        writes="2 0 0 0", reads="1 0 0 0", senses=1, rungs="1 0 0 0"), ""),
    ("an aged page is read at the second level",
     trace("0 write 0 x09", "0 age 0 1 0 150", "0 read 0"), 0, text(
        [["0.0 write 0 0.0", "0.1 age 1.0 150", "0.2 look 0 page 0.0 0 open",
          *senses("0.2", 2, "1.0.0", 0, -60), "0.2 leave 2"]],
        ["ok", "ok", "data 1 0900000000000000"],
        writes="1 0 0 0", reads="1 0 0 0", senses=2, rungs="0 1 0 0", hints="1 0 0"), ""),
    ("a lost page is recovered by its stripe",
     trace("0 write 0 x01", "0 write 1 x02", "0 age 0 1 0 200", "0 read 0"), 0, text(
        [["0.0 write 0 0.0", "0.1 write 1 0.1", "0.2 age 1.0 200", "0.3 look 0 page 0.0 0 closed",
          *senses("0.3", 3, "1.0.0", 0, -60, -20, -10, 0, 10, 20),
          *senses("0.3", 3, "0.0.0", 0), *senses("0.3", 3, "2.0.0", 0), "0.3 leave 3"]],
        ["ok", "ok", "ok", "data 3 0100000000000000"],
        writes="2 0 0 0", reads="1 0 0 0", senses=9, rungs="0 0 0 1", hints="1 0 0"), ""),
    ("a lost page of an open stripe is uncorrectable",
     trace("0 write 0 x01", "0 age 0 1 0 200", "0 read 0"), 0, text(
        [["0.0 write 0 0.0", "0.1 age 1.0 200", "0.2 look 0 page 0.0 0 open",
          *senses("0.2", 2, "1.0.0", 0, -60, -20, -10, 0, 10, 20), "0.2 leave 2"]],
        ["ok", "ok", "uncorrectable"],
        writes="1 0 0 0", reads="0 0 1 0", senses=7), ""),
    ("a page out of range", trace("0 write 8 x00"), 4, "",
     "trace fault in line 2: range\n"),
    ("a write makes room by a round",
     trace(*[f"0 write {page} x00" for page in (0, 1, 2, 3, 4, 5, 6, 7, 0, 1, 2, 4, 5)]), 0, text(
        [[*[f"0.{n} write {page} {n // 4}.{n % 4}" for n, page in enumerate((0, 1, 2, 3, 4, 5, 6, 7, 0, 1, 2, 4))],
          "0.12 pick 0", "0.12 look 3 page 0.3 3 closed", *senses("0.12", 13, "2.0.1", 0), "0.12 move 13 3.0",
          "0.12 leave 13", "0.12 erase 0", "0.12 write 5 3.1"]],
        ["ok"] * 13, writes="13 0 0 0", senses=1, moves="1 0 0", picks=1, erases=1), ""),
    ("a collect of a blank drive is idle", trace("0 collect 0"), 0, text(
        [["0.0 note 4 - 0 0 0"]], ["idle"]), ""),
    ("a collect erases the one superblock that has garbage",
     trace(*["0 write 0 x00"] * 4, "0 write 1 x00", "0 collect 0"), 0, text(
        [[*[f"0.{n} write 0 0.{n}" for n in range(4)], "0.4 write 1 1.0", "0.5 pick 0",
          "0.5 look 0 page 0.3 3 closed", *senses("0.5", 6, "2.0.1", 0), "0.5 move 6 1.1", "0.5 leave 6",
          "0.5 erase 0"]],
        ["ok"] * 5 + ["collected 0"], writes="5 0 0 0", senses=1, moves="1 0 0", picks=1, erases=1), ""),
    ("a drain refreshes the page that needed a second level",
     trace("0 write 0 x09", "0 age 0 1 0 150", "0 read 0", "0 drain 4", "0 read 0"), 0, text(
        [["0.0 write 0 0.0", "0.1 age 1.0 150",
          "0.2 look 0 page 0.0 0 open", *senses("0.2", 2, "1.0.0", 0, -60), "0.2 leave 2",
          "0.3 look 0 page 0.0 0 open", *senses("0.3", 6, "1.0.0", 0, -60), "0.3 move 6 0.1", "0.3 leave 6",
          "0.4 look 0 page 0.1 0 closed", *senses("0.4", 11, "2.0.0", 0), "0.4 leave 11"]],
        ["ok", "ok", "data 1 0900000000000000", "drained 1 0=moved", "data 0 0900000000000000"],
        writes="1 0 0 0", reads="2 0 0 0", senses=5, rungs="1 1 0 0", hints="1 0 1", moves="1 0 0"), ""),
    ("a drain takes no more hints than it may, the earliest first",
     trace("0 write 0 x09", "0 write 1 x08", "0 age 0 1 0 150", "0 age 0 2 0 150",
           "0 read 1", "0 read 0", "0 read 1", "0 drain 2", "0 drain 16", "0 drain 1"), 0, text(
        [["0.0 write 0 0.0", "0.1 write 1 0.1", "0.2 age 1.0 150", "0.3 age 2.0 150",
          "0.4 look 1 page 0.1 1 closed", *senses("0.4", 4, "2.0.0", 0, -60), "0.4 leave 4",
          "0.5 look 0 page 0.0 0 closed", *senses("0.5", 8, "1.0.0", 0, -60), "0.5 leave 8",
          "0.6 look 1 page 0.1 1 closed", *senses("0.6", 12, "2.0.0", 0, -60), "0.6 leave 12",
          "0.7 look 1 page 0.1 1 closed", *senses("0.7", 16, "2.0.0", 0, -60), "0.7 move 16 0.2", "0.7 leave 16",
          "0.7 look 0 page 0.0 0 closed", *senses("0.7", 21, "1.0.0", 0, -60), "0.7 move 21 0.3", "0.7 leave 21",
          "0.8 look 1 page 0.2 1 closed", *senses("0.8", 26, "0.0.1", 0), "0.8 move 26 1.0", "0.8 leave 26"]],
        ["ok"] * 4 + ["data 1 0800000000000000", "data 1 0900000000000000", "data 1 0800000000000000",
                      "drained 2 1=moved 0=moved", "drained 1 1=moved", "drained 0"],
        writes="2 0 0 0", reads="3 0 0 0", senses=11, rungs="0 3 0 0", hints="3 0 3", moves="3 0 0"), ""),
    ("a page is refreshed, and so is a row without a page",
     trace("0 write 5 x0102", "0 refresh 5", "0 refresh 4", "0 read 5"), 0, text(
        [["0.0 write 5 0.0", "0.1 look 5 page 0.0 0 open", *senses("0.1", 1, "1.0.0", 0), "0.1 move 1 0.1",
          "0.1 leave 1", "0.2 look 4 empty",
          "0.3 look 5 page 0.1 0 closed", *senses("0.3", 6, "2.0.0", 0), "0.3 leave 6"]],
        ["ok", "moved", "empty", "data 0 0102000000000000"],
        writes="1 0 0 0", reads="1 0 0 0", senses=2, rungs="1 0 0 0", moves="1 0 0"), ""),
    ("a page that isn't recovered stays where it is, and its refresh is no hint",
     trace("0 write 0 x01", "0 age 0 1 0 200", "0 refresh 0", "0 drain 1"), 0, text(
        [["0.0 write 0 0.0", "0.1 age 1.0 200", "0.2 look 0 page 0.0 0 open",
          *senses("0.2", 2, "1.0.0", 0, -60, -20, -10, 0, 10, 20), "0.2 leave 2"]],
        ["ok", "ok", "uncorrectable", "drained 0"], writes="1 0 0 0", senses=7), ""),
    ("the last page", trace("0 write 7 x00"), 0, text(
        [["0.0 write 7 0.0"]], ["ok"], writes="1 0 0 0"), ""),
]

# The same on drives with weak blocks, which are listed behind what each row shows.
EIGHT_WRITES = [f"0 write {page} x00" for page in range(8)]
EIGHT_WRITTEN = [f"0.{page} write {page} {page // 4}.{page % 4}" for page in range(8)]
WEAK_TRACES = [
    ("a write finds a weak block and then a full channel", [(0, 0, 2, 0), (0, 0, 3, 0)],
     trace(*EIGHT_WRITES, "0 write 0 x01", "0 read 3"), 0, text(
        [[*EIGHT_WRITTEN, "0.8 bad write 0 2.0 0 fail", "0.8 refused 0 full",
          "0.9 look 3 page 0.3 3 closed", *senses("0.9", 10, "2.0.1", 0), "0.9 leave 10"]],
        ["ok"] * 8 + ["full", "data 0 0000000000000000"],
        writes="8 1 0 0", reads="1 0 0 0", senses=1, rungs="1 0 0 0", bad=1), ""),
    ("a write finds a worn channel after copies", [(0, 0, 2, 0), (0, 0, 3, 0)],
     trace(*EIGHT_WRITES, "0 write 0 x01", "0 trim 1", "0 write 0 x01", "0 read 3"), 0, text(
        [[*EIGHT_WRITTEN, "0.8 bad write 0 2.0 0 fail", "0.8 refused 0 full", "0.9 trim 1", "0.10 pick 0",
          "0.10 look 0 page 0.0 0 closed", *senses("0.10", 12, "1.0.0", 0), "0.10 move 12 3.0", "0.10 leave 12",
          "0.10 look 2 page 0.2 2 closed", *senses("0.10", 16, "0.0.1", 0), "0.10 bad copy 16 3.1 0 fail",
          "0.10 leave 16",
          "0.10 look 2 page 0.2 2 closed", *senses("0.10", 20, "0.0.1", 0), "0.10 stay 20 readonly", "0.10 leave 20",
          "0.10 refused 0 readonly",
          "0.11 look 3 page 0.3 3 closed", *senses("0.11", 25, "2.0.1", 0), "0.11 leave 25"]],
        ["ok"] * 8 + ["full", "ok", "readonly", "data 0 0000000000000000"],
        writes="8 1 1 0", reads="1 0 0 0", trims=1, senses=4, rungs="1 0 0 0", bad=2, moves="1 0 1", picks=1), ""),
    ("a refresh finds a weak block, and then no room", [(0, 0, 2, 0), (0, 0, 3, 0)],
     trace(*EIGHT_WRITES, "0 refresh 0", "0 refresh 0", "0 read 0"), 0, text(
        [[*EIGHT_WRITTEN, "0.8 look 0 page 0.0 0 closed", *senses("0.8", 8, "1.0.0", 0), "0.8 bad copy 8 2.0 0 fail",
          "0.8 leave 8",
          "0.9 look 0 page 0.0 0 closed", *senses("0.9", 12, "1.0.0", 0), "0.9 stay 12 noroom", "0.9 leave 12",
          "0.10 look 0 page 0.0 0 closed", *senses("0.10", 16, "1.0.0", 0), "0.10 leave 16"]],
        ["ok"] * 8 + ["failed", "noroom", "data 0 0000000000000000"],
        writes="8 0 0 0", reads="1 0 0 0", senses=3, rungs="1 0 0 0", bad=1, moves="0 0 1"), ""),
    ("a parity's block is weak", [(0, 0, 0, 0)],
     trace("0 write 0 x01", "0 write 1 x02", "0 read 0", "0 read 1"), 0, text(
        [["0.0 write 0 0.0", "0.1 bad write 1 0.1 0 fail", "0.1 write 1 1.0",
          "0.2 look 0 page 0.0 0 open", *senses("0.2", 3, "1.0.0", 0), "0.2 leave 3",
          "0.3 look 1 page 1.0 1 open", *senses("0.3", 6, "0.1.0", 0), "0.3 leave 6"]],
        ["ok", "ok", "data 0 0100000000000000", "data 0 0200000000000000"],
        writes="2 0 0 0", reads="2 0 0 0", senses=2, rungs="2 0 0 0", bad=1), ""),
    ("a page's block is weak", [(0, 1, 0, 0)], trace("0 write 5 x0102", "0 read 5"), 0, text(
        [["0.0 bad write 5 0.0 1 fail", "0.0 write 5 1.0",
          "0.1 look 5 page 1.0 0 open", *senses("0.1", 2, "0.1.0", 0), "0.1 leave 2"]],
        ["ok", "data 0 0102000000000000"],
        writes="1 0 0 0", reads="1 0 0 0", senses=1, rungs="1 0 0 0", bad=1), ""),
    ("a write is tried three times", [(0, 0, 1, 0), (0, 1, 0, 0)],
     trace("0 write 5 x03", "0 read 5"), 0, text(
        [["0.0 bad write 5 0.0 1 fail", "0.0 bad write 5 1.0 0 fail", "0.0 write 5 2.0",
          "0.1 look 5 page 2.0 0 open", *senses("0.1", 3, "0.2.0", 0), "0.1 leave 3"]],
        ["ok", "data 0 0300000000000000"],
        writes="1 0 0 0", reads="1 0 0 0", senses=1, rungs="1 0 0 0", bad=2), ""),
    ("all superblocks but one have a weak block", [(0, 0, 1, 0), (0, 0, 2, 0), (0, 1, 0, 0)],
     trace("0 write 5 x03", "0 read 5"), 0, text(
        [["0.0 bad write 5 0.0 1 fail", "0.0 bad write 5 1.0 0 fail", "0.0 bad write 5 2.0 0 fail",
          "0.0 refused 5 full", "0.1 look 5 empty"]],
        ["full", "empty"], writes="0 1 0 0", reads="0 1 0 0", bad=3), ""),
    ("a block is weak from its first erase on", [(0, 1, 0, 1)], trace("0 write 5 x03"), 0, text(
        [["0.0 write 5 0.0"]], ["ok"], writes="1 0 0 0"), ""),
]

IMAGES = list(zip(["the first version", "one codeword a page", "two codewords a page"],
                  [*versions(IMAGE), TWO_CODEWORDS]))

ROWS = [
    (f"{what} ({kind})", image + lines, *due)
    for kind, image in IMAGES
    for what, lines, *due in TRACES
]
ROWS += [
    (f"{what} ({kind})", weakened(image, *weak) + lines, *due)
    for kind, image in IMAGES
    for what, weak, lines, *due in WEAK_TRACES
]
ROWS += [
    ("an odd page belongs to the second of two channels",
     changed(8, b"\2") + trace("0 write 3 x00"), 0, text(
        [[], ["0.0 write 1 0.0"]], ["ok"], writes="1 0 0 0"), ""),
    ("an image that ends early", IMAGE[:20], 3, "", "image fault at 20: short\n"),
    ("no input", b"", 3, "", "image fault at 0: short\n"),
    ("a base matrix without the dual diagonal", changed(60, b"\1\0") + trace(), 3, "",
     "image fault at 60: diagonal\n"),
    ("as much data as four codewords hold",
     changed(21, b"\x20", changed(8, b"\4", TWO_CODEWORDS)) + trace(), 0, text([[]], []), ""),
    ("no trace after two codewords", TWO_CODEWORDS, 4, "", "trace fault in line 1: first\n"),
]


class ListedSenses:
    """A page whose senses are listed by their level."""

    def __init__(self, senses):
        self.senses = senses

    def sense(self, place, level):
        return self.senses[level]


def wrong_ladder():
    """What differs from the worked example of a page whose codewords are found by different senses."""
    head = Head(TWO_CODEWORDS)
    code = Code(head.lifting, head.base_rows)
    pages, ones = Pages(code, head.words), (1 << code.bits) - 1
    payload = "0000000000000000 05000000 50474531 0102000000000000"
    page = pages.word_of(int.from_bytes(bytes.fromhex(payload), "little"))
    first, second = pages.codewords(page)
    senses = {0: pages.page_of([first, ones]), -60: pages.page_of([ones, second])}
    ladder = Ladder(head, pages, ListedSenses(senses), Counter())
    found = ladder.recovered((1, 0, 0), lambda word: word == page, False)
    # The numbers of a page of ones by base column, after each iteration. The last two come in turn.
    third, fourth = (-9, -39, -10, -13, -9, -10), (-9, -39, -8, -12, -9, -8)
    due = [(-32, -62, -14, -38, -32, -14), (-10, -41, -7, -13, -10, -7), *[third, fourth] * 3]
    rounds = code.rounds(hard_values(ones, code.bits))
    next(rounds)
    got = []
    for _, numbers in zip(due, rounds):
        columns = [set(numbers[j:j + head.lifting]) for j in range(0, code.bits, head.lifting)]
        got.append(tuple(column.pop() if len(column) == 1 else None for column in columns))
    return [
        ("a page whose codewords two senses give", found, (1, page)),
        ("the senses of that page", ladder.asks, [((1, 0, 0), 0), ((1, 0, 0), -60)]),
        ("ones, iteration by iteration", got, due),
        ("ones", code.decode(hard_values(ones, code.bits), head.iterations), None),
    ]


def wrong_parts():
    """What differs from worked examples of single rules."""
    code = Code(4, [(0, -1, 1, 0, -1), (-1, 2, 0, 0, 0), (3, 0, 1, -1, 0)])
    word, flipped = 0x0b8301, 0x0b8300
    two = Pages(code, 2)
    first = next(words_of(0))
    cells = (-100, 5, 20)
    sensed = lambda level: sum((cell < level) << i for i, cell in enumerate(cells))
    five = [sensed(level) for level in (-20, -10, 0, 10, 20)]
    noise = [(first >> 16 * cell & 0xffff) % 7 - 3 for cell in range(4)]
    cases = [
        ("the word of a message", code.word_of(1), word),
        ("a row of three edges", told([10, -4, 7]), [-3, 5, -3]),
        ("a row with a zero", told([0, -5]), [-3, 0]),
        ("a row of the greatest values", told([127, 127]), [95, 95]),
        ("the failed checks of one wrong bit", code.failed_checks(flipped), 2),
        ("one wrong bit", code.decode(hard_values(flipped, 20), 1), (1, word)),
        ("no wrong bit", code.decode(hard_values(word, 20), 8), (0, word)),
        ("the first word of noise", first, 0xe220a8397b1dcdaf),
        ("the noise of four cells", noise, [-2, 0, -2, 2]),
        ("soft values", soft_values(five, len(cells)), [-96, 16, 96]),
        ("a page whose first part has a one", two.word_of(0x0001), 0x000_b83_00_01),
        ("a page whose second part has a one", two.word_of(0x0100), 0xb83_000_01_00),
        ("the codewords of that page", two.codewords(0xb83_000_01_00), [0, word]),
        ("the payload of that page", two.payload_of(0xb83_000_01_00), b"\0\1"),
        *wrong_ladder(),
    ]
    return [f"{what}: {got}, and {due} is due" for what, got, due in cases if got != due]
