"""The head of an image: its fields, their ranges and their bytes. It knows no text form."""
import struct
from dataclasses import dataclass, field

from ..faults import InputFault
from .base_matrix import check_matrix

MAGICS = {1: b"SSDIMG01", 2: b"SSDIMG02"}
# The version of an image with one codeword a page whose description names none.
DEFAULT_VERSION = 2
# How many codewords a page can have.
WORDS = (1, 2, 4)
MOST_CELLS = 2 ** 28

# The numbers of the head in the order of the file, each with the form of its bytes.
NUMBERS = (
    ("channels", "B"), ("dies", "B"), ("superblocks", "H"), ("pages", "H"), ("lifting", "H"), ("base_rows", "B"),
    ("base_columns", "B"), ("level_count", "B"), ("iterations", "B"), ("data_bytes", "I"), ("rows", "I"),
    ("seed", "Q"), ("session", "I"), ("erased", "h"), ("programmed", "h"), ("spread", "H"), ("soft_step", "H"))

RANGES = {
    "channels": (1, 8), "dies": (3, 8), "superblocks": (4, 256), "pages": (2, 256), "lifting": (4, 1024),
    "base_rows": (3, 16), "level_count": (1, 16), "iterations": (1, 64), "seed": (0, 2 ** 64 - 1),
    "session": (0, 2 ** 24 - 1), "erased": (-8192, 8190), "spread": (0, 4095), "soft_step": (1, 2047),
    "level": (-16384, 16383), "from": (0, 2 ** 32 - 1)}


@dataclass
class Head:
    """What the head of an image says."""

    version: int = DEFAULT_VERSION
    words: int = 1
    channels: int = 1
    dies: int = 3
    superblocks: int = 4
    pages: int = 2
    lifting: int = 64
    base_rows: int = 3
    base_columns: int = 6
    level_count: int = 1
    iterations: int = 8
    data_bytes: int = 8
    rows: int = 8
    seed: int = 0
    session: int = 0
    erased: int = -100
    programmed: int = 100
    spread: int = 0
    soft_step: int = 10
    levels: list = field(default_factory=lambda: [0])
    matrix: list = field(default_factory=list)
    weak: list = field(default_factory=list)
    bad: list = field(default_factory=list)
    contents: int = 0

    @property
    def slots(self):
        """The data slots of a superblock."""
        return self.pages * (self.dies - 1)

    @property
    def cells_per_page(self):
        """The cells of a page, one for each bit of its codewords."""
        return self.words * self.base_columns * self.lifting

    @property
    def payload_bytes(self):
        """The bytes of a page's payload: its head, its data and the zeros after them."""
        return self.words * (self.base_columns - self.base_rows) * self.lifting // 8

    @property
    def cells(self):
        """The cells of the whole drive."""
        return self.channels * self.dies * self.superblocks * self.pages * self.cells_per_page

    @property
    def host_pages(self):
        """The pages that a host can name."""
        return self.channels * self.rows

    def bad_of(self, channel):
        """The factory bad superblocks of a channel."""
        return [sb for c, sb in self.bad if c == channel]


def most_rows(head):
    """The most rows that each channel can have, with the factory bad superblocks that the head lists."""
    fewest = min(head.superblocks - 2 - len(head.bad_of(channel)) for channel in range(head.channels))
    return fewest * head.slots


def range_of(name, head):
    """The least and the greatest value of a number, by the numbers before it."""
    if name == "base_columns":
        return head.base_rows + 1, 128
    if name == "data_bytes":
        return 1, head.payload_bytes - 16
    if name == "rows":
        return 1, (head.superblocks - 2) * head.slots
    if name == "programmed":
        return head.erased + 1, 8191
    return RANGES[name]


def fault_of_words(words):
    """What is wrong with a number of codewords that a page can't have."""
    return f"{words} codewords a page are none of {', '.join(map(str, WORDS))}"


def fault_of_columns(head):
    """What is wrong with the number of base columns beside its range, or None."""
    message = (head.base_columns - head.base_rows) * head.lifting
    word = head.base_columns * head.lifting
    if message % 8:
        return f"(base_columns - base_rows) * lifting is {message}, which is no multiple of 8"
    if word % 8:
        return f"base_columns * lifting is {word}, which is no multiple of 8"
    if head.cells > MOST_CELLS:
        return f"the drive has {head.cells} cells, more than {MOST_CELLS}"
    return None


def fault_of(name, value, head):
    """What is wrong with the value of a number, by the numbers before it, or None."""
    low, high = range_of(name, head)
    if high < low:
        return f"no value fits: the range is {low} to {high}"
    if not low <= value <= high:
        return f"{value} isn't in {low} to {high}"
    return fault_of_columns(head) if name == "base_columns" else None


def fault_of_bad(head):
    """What is wrong with the rows beside the factory bad superblocks, or None."""
    if head.rows > most_rows(head):
        return f"{head.rows} isn't in 1 to {most_rows(head)}, with the factory bad superblocks of the fullest channel"
    return None


def head_bytes(head):
    """The bytes of a blank image with this head, which has to be in range."""
    pieces = [MAGICS[head.version]]
    if head.version == 2:
        pieces.append(bytes([head.words]))
    pieces += [struct.pack("<" + form, getattr(head, name)) for name, form in NUMBERS]
    pieces.append(struct.pack(f"<{len(head.levels)}h", *head.levels))
    pieces += [struct.pack(f"<{len(base_row)}h", *base_row) for base_row in head.matrix]
    pieces.append(struct.pack("<H", len(head.weak)))
    pieces += [struct.pack("<BBHI", *record) for record in head.weak]
    pieces.append(struct.pack("<H", len(head.bad)))
    pieces += [struct.pack("<BBH", channel, 0, sb) for channel, sb in head.bad]
    return b"".join(pieces) + bytes([head.contents])


class HeadReader:
    """Reads the head of an image from a file of bytes, and names the field at which it can't go on."""

    def __init__(self, source, name):
        self.source, self.name, self.at = source, name, 0

    def fault(self, text, field_name, at):
        """The fault of a field at a byte."""
        return InputFault(text, file=self.name, byte=at, field=field_name)

    def whole(self, size, field_name):
        """The next bytes, all of them."""
        data = self.source.read(size)
        if len(data) < size:
            raise self.fault("the image ends too early", field_name, self.at + len(data))
        self.at += size
        return data

    def numbers(self, form, field_name):
        """The next numbers of this form."""
        return struct.unpack("<" + form, self.whole(struct.calcsize("<" + form), field_name))

    def limited(self, form, field_name, low, high):
        """The next number, which has to be in range."""
        at, (value,) = self.at, self.numbers(form, field_name)
        if not low <= value <= high:
            raise self.fault(f"{value} isn't in {low} to {high}", field_name, at)
        return value

    def head(self):
        """The whole head."""
        head = Head(levels=[], matrix=[])
        magic = self.whole(8, "the text at its beginning")
        version = [v for v, text in MAGICS.items() if text == magic]
        if not version:
            raise self.fault(f"{magic!r} is neither SSDIMG01 nor SSDIMG02", "the text at its beginning", 0)
        head.version = version[0]
        if head.version == 2:
            head.words = self.numbers("B", "words")[0]
            if head.words not in WORDS:
                raise self.fault(fault_of_words(head.words), "words", 8)
        for name, form in NUMBERS:
            at, (value,) = self.at, self.numbers(form, name)
            setattr(head, name, value)
            text = fault_of(name, value, head)
            if text:
                raise self.fault(text, name, at)
        self.lists_of(head)
        head.contents = self.limited("B", "contents", 0, 1)
        return head

    def lists_of(self, head):
        """The read levels, the base matrix and the two lists of blocks."""
        head.levels = [self.limited("h", f"read level {n}", *RANGES["level"]) for n in range(head.level_count)]
        self.matrix_of(head)
        head.weak = self.records("weak block", (
            ("B", "channel", head.channels - 1), ("B", "die", head.dies - 1), ("H", "superblock", head.superblocks - 1),
            ("I", "from", RANGES["from"][1])))
        at = self.at
        head.bad = [(channel, sb) for channel, _, sb in self.records("factory bad superblock", (
            ("B", "channel", head.channels - 1), ("B", "zero byte", 0), ("H", "superblock", head.superblocks - 1)))]
        if fault_of_bad(head):
            raise self.fault(fault_of_bad(head), "rows beside the factory bad superblocks", at)

    def records(self, name, parts):
        """A list of records in rising order of their first three parts, each with its form, name and greatest value."""
        found = []
        for n in range(self.numbers("H", f"number of {name}s")[0]):
            at = self.at
            found.append(tuple(self.limited(form, f"{name} {n}, {part}", 0, most) for form, part, most in parts))
            if n and found[-1][:3] <= found[-2][:3]:
                raise self.fault("doesn't come after the one before it", f"{name} {n}", at)
        return found

    def matrix_of(self, head):
        """The base matrix."""
        at, columns = self.at, head.base_columns
        flat = self.numbers(f"{head.base_rows * columns}h", "base matrix")
        head.matrix = [list(flat[i * columns:(i + 1) * columns]) for i in range(head.base_rows)]
        try:
            check_matrix(head.matrix, head.lifting)
        except InputFault as fault:
            raise self.fault(fault.text, "base matrix", at) from None
