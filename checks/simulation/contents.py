"""The contents of a full image: read with their first fault, put into the channels of a run, and written as they are at
its end."""
import struct
from collections import Counter

from .code import Code, Pages
from .inputs import Reader, image_fault

FREE, FRONTIER, SEALED, BAD, VICTIM = range(5)
EMPTY, PAGE, LOST = range(3)


def may_have(state, before, is_factory_bad):
    """Whether a superblock may have this state, those before it having theirs: one is the frontier at most, and one the
    victim."""
    if state > VICTIM or state in (FRONTIER, VICTIM) and state in before:
        return False
    return state == BAD or not is_factory_bad


def used_range(state, slots):
    """The least and the greatest number of used slots."""
    return {FREE: (0, 0), FRONTIER: (1, slots - 1), SEALED: (slots, slots), BAD: (0, slots), VICTIM: (slots, slots)}[state]


class Contents:
    """What a full image tells of a channel."""

    def __init__(self, r, head, pages, channel):
        self.head, self.pages, self.channel = head, pages, channel
        self.states, self.erases, self.used, self.levels, self.stripe_sum = [], Counter(), Counter(), {}, 0
        for sb in range(head.superblocks):
            self.read_superblock(r, sb)
        self.rows, self.named = {}, set()
        for row in range(head.rows):
            self.read_row(r, row)

    def read_superblock(self, r, sb):
        head = self.head
        at, state = r.at, r.number("B", 0, 255)
        if not may_have(state, self.states, (self.channel, sb) in head.bad):
            image_fault(at, "state")
        self.states.append(state)
        self.erases[sb] = r.number("I", 0, 2 ** 31)
        at, used = r.at, r.number("I", 0, 2 ** 32 - 1)
        least, greatest = used_range(state, head.slots)
        if not least <= used <= greatest:
            image_fault(at, "count")
        self.used[sb] = used
        counts = [self.read_count(r, sb, die) for die in range(head.dies)]
        for die, count in enumerate(counts):
            for page in range(count):
                self.levels[die, sb, page] = self.read_levels(r)
        if state == FRONTIER and used % (head.dies - 1):
            self.read_sum(r)

    def read_count(self, r, sb, die):
        """The number of programmed pages of a block: the due one, or in a bad superblock that or more."""
        at, count = r.at, r.number("H", 0, 65535)
        due = due_count(self.head, sb, self.used[sb], die)
        if not due <= count <= (self.head.pages if self.states[sb] == BAD else due):
            image_fault(at, "count")
        return count

    def read_levels(self, r):
        """The levels of a page, each tested before the next is read."""
        at, size = r.at, 2 * self.pages.bits
        whole = min(size, len(r.data) - at) // 2
        levels = list(struct.unpack_from(f"<{whole}h", r.data, at))
        for n, level in enumerate(levels):
            if not -16384 <= level <= 16383:
                image_fault(at + 2 * n, "range")
        r.whole(size)
        return levels

    def read_sum(self, r):
        at = r.at
        self.stripe_sum = int.from_bytes(r.whole(self.pages.bits // 8), "little")
        if any(self.pages.code.failed_checks(word) for word in self.pages.codewords(self.stripe_sum)):
            image_fault(at, "sum")

    def read_row(self, r, row):
        at, kind = r.at, r.number("B", 0, 255)
        if kind > LOST:
            image_fault(at, "row")
        if kind == LOST:
            self.rows[row] = None
        if kind != PAGE:
            return
        sb = r.number("H", 0, 65535)
        if sb >= self.head.superblocks:
            image_fault(at, "row")
        index = r.number("I", 0, 2 ** 32 - 1)
        if index >= self.used[sb] or (sb, index) in self.named:
            image_fault(at, "row")
        self.named.add((sb, index))
        self.rows[row] = sb, index, r.number("Q", 0, 2 ** 64 - 1)


def due_count(head, sb, used, die):
    """How many pages of a block are programmed where so many slots of its superblock are used."""
    stripe, rest = divmod(used, head.dies - 1)
    data_dies = [die for die in range(head.dies) if die != (sb + stripe) % head.dies]
    return stripe + (die in data_dies[:rest])


def read_contents(data, head):
    """The contents of each channel, and the place behind them."""
    r, pages = Reader(data), Pages(Code(head.lifting, head.base_rows), head.words)
    r.at = head.size
    contents = [Contents(r, head, pages, channel) for channel in range(head.channels)]
    return contents, r.at


def fill(channel, contents):
    """Gives a channel what a full image tells of it."""
    states = list(enumerate(contents.states))
    channel.free = [sb for sb, state in states if state == FREE]
    channel.sealed = [sb for sb, state in states if state == SEALED]
    channel.frontier = next((sb for sb, state in states if state == FRONTIER), None)
    channel.victim = next((sb for sb, state in states if state == VICTIM), None)
    channel.used, channel.stripe_sum = contents.used, contents.stripe_sum
    channel.cells.erases, channel.cells.levels = contents.erases, contents.levels
    channel.rows = contents.rows


def state_of(channel, sb):
    if sb in (channel.frontier, channel.victim):
        return FRONTIER if sb == channel.frontier else VICTIM
    return FREE if sb in channel.free else SEALED if sb in channel.sealed else BAD


def superblock_bytes(channel, sb):
    head, state, used = channel.head, state_of(channel, sb), channel.used[sb]
    # The pages of a block are programmed in rising order.
    blocks = [sorted(place for place in channel.cells.levels if place[:2] == (die, sb)) for die in range(head.dies)]
    out = struct.pack(f"<BII{head.dies}H", state, channel.cells.erases[sb], used, *map(len, blocks))
    for place in sum(blocks, []):
        out += struct.pack(f"<{channel.cells.count}h", *channel.cells.levels[place])
    if state == FRONTIER and used % (head.dies - 1):
        out += channel.stripe_sum.to_bytes(channel.pages.bits // 8, "little")
    return out


def row_bytes(channel, row):
    if row not in channel.rows:
        return bytes([EMPTY])
    if channel.rows[row] is None:
        return bytes([LOST])
    return struct.pack("<BHIQ", PAGE, *channel.rows[row])


def head_again(given, head):
    """The head of a given image in the second version, with the next session, up to the byte that tells of contents."""
    second = given[:head.size] if given[7:8] == b"2" else b"SSDIMG02\1" + given[8:head.size]
    return second[:37] + struct.pack("<I", (head.session + 1) % 2 ** 24) + second[41:-1]


def saved(given, run):
    """The full image, in the second version, of a drive as a run of the given input left it."""
    head = run.head
    out = head_again(given, head) + b"\1"
    for channel in run.channels:
        out += b"".join([superblock_bytes(channel, sb) for sb in range(head.superblocks)])
        out += b"".join([row_bytes(channel, row) for row in range(head.rows)])
    return out
