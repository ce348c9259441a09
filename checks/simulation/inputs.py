"""The head of an image and the lines of a trace, with their first faults."""
import struct

from .random_words import bytes_of

MASK = 2 ** 64 - 1


class Stop(Exception):
    """A run that ends with this status and text before any call is served."""

    def __init__(self, status, text):
        super().__init__(status, text)
        self.status, self.text = status, text


def image_fault(at, fault):
    raise Stop(3, f"image fault at {at}: {fault}\n")


def trace_fault(line, fault):
    raise Stop(4, f"trace fault in line {line}: {fault}\n")


class Reader:
    """The fields of an image, each tested as soon as it is read."""

    def __init__(self, data):
        self.data, self.at = data, 0

    def whole(self, size):
        if len(self.data) - self.at < size:
            image_fault(len(self.data), "short")
        piece = self.data[self.at:self.at + size]
        self.at += size
        return piece

    def number(self, form, low, high, test=lambda n: True):
        at = self.at
        n = struct.unpack("<" + form, self.whole(struct.calcsize("<" + form)))[0]
        if not (low <= n <= high and test(n)):
            image_fault(at, "range")
        return n


def read_base_rows(r, lifting, rows, columns):
    """The base matrix, read whole and then tested: entries, first parity column, dual diagonal."""
    at = r.at
    flat = struct.unpack(f"<{rows * columns}h", r.whole(2 * rows * columns))
    base_rows = [flat[i * columns:(i + 1) * columns] for i in range(rows)]

    def fault(i, j, name):
        image_fault(at + 2 * (i * columns + j), name)

    for i, base_row in enumerate(base_rows):
        for j, entry in enumerate(base_row):
            if not -1 <= entry < lifting:
                fault(i, j, "entry")
    first = columns - rows
    column = [base_row[first] for base_row in base_rows]
    if column[0] == -1:
        fault(0, first, "parity")
    for i in range(1, rows - 1):
        if column[i] not in (-1, 0) or column[i] == 0 and 0 in column[1:i]:
            fault(i, first, "parity")
    if column[-1] != column[0] or 0 not in column[1:-1]:
        fault(rows - 1, first, "parity")
    for i, base_row in enumerate(base_rows):
        for t in range(1, rows):
            if base_row[first + t] != (0 if i in (t - 1, t) else -1):
                fault(i, first + t, "diagonal")
    return base_rows


class Head:
    """The head of an image, with its faults in the order of the file."""

    def __init__(self, data):
        r = Reader(data)
        text = r.whole(8)
        if text not in (b"SSDIMG01", b"SSDIMG02"):
            image_fault(0, "magic")
        # The codewords of a page. The first version has no field for them.
        self.words = r.number("B", 1, 4, lambda n: n != 3) if text == b"SSDIMG02" else 1
        self.channels, self.dies = r.number("B", 1, 8), r.number("B", 3, 8)
        self.superblocks, self.pages = r.number("H", 4, 256), r.number("H", 2, 256)
        self.read_sizes(r)
        self.seed = r.number("Q", 0, MASK)
        self.session = r.number("I", 0, 2 ** 24 - 1)
        self.erased = r.number("h", -8192, 8190)
        self.programmed = r.number("h", self.erased + 1, 8191)
        self.spread = r.number("H", 0, 4095)
        self.soft_step = r.number("H", 1, 2047)
        self.read_levels = [r.number("h", -16384, 16383) for _ in range(self.level_count)]
        self.base_rows = read_base_rows(r, self.lifting, self.row_count, self.column_count)
        self.read_weak(r)
        self.read_bad(r)
        self.full = r.number("B", 0, 1)
        self.size = r.at

    def read_sizes(self, r):
        lifting, rows = r.number("H", 4, 1024), r.number("B", 3, 16)
        cells = self.channels * self.dies * self.superblocks * self.pages * self.words * lifting

        def fits(columns):
            whole_bytes = (columns - rows) * lifting % 8 == 0 and columns * lifting % 8 == 0
            return whole_bytes and cells * columns <= 2 ** 28

        columns = r.number("B", rows + 1, 128, fits)
        self.lifting, self.row_count, self.column_count = lifting, rows, columns
        self.level_count = r.number("B", 1, 16)
        self.iterations = r.number("B", 1, 64)
        self.data_bytes = r.number("I", 1, self.words * ((columns - rows) * lifting // 8) - 16)
        self.rows = r.number("I", 1, (self.superblocks - 2) * self.slots)

    def read_weak(self, r):
        self.weak = []
        for _ in range(r.number("H", 0, 65535)):
            at = r.at
            record = (r.number("B", 0, self.channels - 1), r.number("B", 0, self.dies - 1),
                      r.number("H", 0, self.superblocks - 1))
            erases = r.number("I", 0, 2 ** 32 - 1)
            if self.weak and record <= self.weak[-1][:3]:
                image_fault(at, "order")
            self.weak.append((*record, erases))

    def read_bad(self, r):
        self.bad = []
        for _ in range(r.number("H", 0, 65535)):
            at = r.at
            channel = r.number("B", 0, self.channels - 1)
            r.number("B", 0, 0)
            record = (channel, r.number("H", 0, self.superblocks - 1))
            if self.bad and record <= self.bad[-1]:
                image_fault(at, "order")
            self.bad.append(record)
            left = self.superblocks - 2 - sum([owner == channel for owner, _ in self.bad])
            if self.rows > max(left, 0) * self.slots:
                image_fault(at, "range")

    @property
    def slots(self):
        """The data slots of a superblock."""
        return (self.dies - 1) * self.pages

    def good(self, channel):
        """The superblocks of a channel that aren't factory bad."""
        return [sb for sb in range(self.superblocks) if (channel, sb) not in self.bad]


class Call:
    """A call of a trace. What a verb has no use for is None."""

    def __init__(self, actor, verb):
        self.actor, self.verb = actor, verb
        self.page = self.data = self.channel = self.die = self.superblock = self.amount = self.count = None


def is_number(text):
    return text.isdigit() and text.isascii() and (text == "0" or text[0] != "0")


def value_of(text):
    """The value of a number, or one beyond every range: Python refuses thousands of digits."""
    return int(text) if len(text) <= 20 else 10 ** 20


def number_of(word, line):
    text = word.decode()
    if not is_number(text):
        trace_fault(line, "number")
    return value_of(text)


def in_range(word, line, low, high):
    n = number_of(word, line)
    if not low <= n <= high:
        trace_fault(line, "range")
    return n


def data_of(word, line, count):
    kind, text = word[:1], word[1:].decode()
    if kind == b"x":
        if len(text) % 2 or len(text) > 2 * count or any(c not in "0123456789abcdef" for c in text):
            trace_fault(line, "data")
        return bytes.fromhex(text).ljust(count, b"\0")
    if kind != b"g" or not is_number(text) or value_of(text) > MASK:
        trace_fault(line, "data")
    return bytes_of(int(text), count)


ARGUMENTS = {
    b"write": 2, b"read": 1, b"trim": 1, b"refresh": 1, b"collect": 1, b"drain": 1, b"age": 4,
}


def call_of(head, actor, words, line):
    verb = words[0] if words else None
    if verb not in ARGUMENTS:
        trace_fault(line, "verb")
    call, arguments = Call(actor, verb), words[1:]
    if len(arguments) != ARGUMENTS[verb]:
        trace_fault(line, "form")
    if verb in (b"write", b"read", b"trim", b"refresh"):
        call.page = in_range(arguments[0], line, 0, head.channels * head.rows - 1)
    if verb == b"write":
        call.data = data_of(arguments[1], line, head.data_bytes)
    if verb == b"drain":
        call.count = in_range(arguments[0], line, 1, 16)
    if verb in (b"collect", b"age"):
        call.channel = in_range(arguments[0], line, 0, head.channels - 1)
    if verb == b"age":
        call.die = in_range(arguments[1], line, 0, head.dies - 1)
        call.superblock = in_range(arguments[2], line, 0, head.superblocks - 1)
        call.amount = in_range(arguments[3], line, 1, 16383)
    return call


def lines_of(text):
    """The number of each line, its bytes without its end, and whether it or the trace is too long."""
    parts, taken = text.split(b"\n"), 0
    for line, part in enumerate(parts, 1):
        last = line == len(parts)
        if last and not part:
            return
        taken += len(part) + (0 if last else 1)
        content = part[:-1] if part.endswith(b"\r") and not last else part
        yield line, content, len(content) > 40000 or taken > 2 ** 26


def actors_of(words, line):
    form = len(words) == 3 and words[:2] == [b"trace", b"1"] and is_number(words[2].decode())
    if not form or not 1 <= value_of(words[2].decode()) <= 32:
        trace_fault(line, "first")
    return value_of(words[2].decode())


def read_trace(head, text):
    """The number of actors, and the calls in order."""
    actors, calls, reads, line = None, [], 0, 0
    for line, content, long in lines_of(text):
        if long:
            trace_fault(line, "long")
        if not content or content[:1] == b"#":
            continue
        words = content.split(b" ")
        if b"" in words or not (content.isascii() and content.decode().isprintable()):
            trace_fault(line, "form")
        if actors is None:
            actors = actors_of(words, line)
            continue
        actor = number_of(words[0], line)
        if actor >= actors:
            trace_fault(line, "actor")
        call = call_of(head, actor, words[1:], line)
        calls.append(call)
        reads += call.verb == b"read"
        if len(calls) > 2 ** 20 or reads * head.data_bytes > 2 ** 30:
            trace_fault(line, "long")
    if actors is None:
        trace_fault(line + 1, "first")
    return actors, calls
