"""The contents of a full image: superblocks, rows, and how often each cell level comes."""
import sys
from array import array
from dataclasses import dataclass

STATES = ("free", "frontier", "sealed", "bad", "victim")
ROW_KINDS = ("empty", "page", "lost")


@dataclass
class Superblock:
    """What an image tells of a superblock."""

    state: str
    erases: int
    used: int
    programmed: list
    live: int = 0


@dataclass
class Channel:
    """What an image tells of a channel. Of a row that names a page it has superblock and index."""

    superblocks: list
    rows: list
    lost: int = 0

    @property
    def in_use(self):
        """The rows that name a page."""
        return sum(1 for row in self.rows if row is not None)


def blank_channel(head, channel):
    """A channel of a blank image."""
    bad = set(head.bad_of(channel))
    return Channel([Superblock("bad" if sb in bad else "free", 0, 0, [0] * head.dies)
                    for sb in range(head.superblocks)], [None] * head.rows)


def _counted_levels(reader, head, pages, where, levels):
    """Reads the levels of these pages, and counts them where a counter is given."""
    for _ in range(pages):
        data = reader.whole(2 * head.cells_per_page, where + ", levels")
        if levels is not None:
            numbers = array("h", data)
            if sys.byteorder == "big":
                numbers.byteswap()
            levels.update(numbers)


def _superblock(reader, head, where, levels):
    state = STATES[reader.limited("B", where + ", state", 0, len(STATES) - 1)]
    erases = reader.limited("I", where + ", erases", 0, 2 ** 31)
    used = reader.limited("I", where + ", used", 0, head.slots)
    programmed = [reader.limited("H", f"{where}, programmed pages of die {die}", 0, head.pages)
                  for die in range(head.dies)]
    _counted_levels(reader, head, sum(programmed), where, levels)
    if state == "frontier" and used % (head.dies - 1):
        reader.whole(head.cells_per_page // 8, where + ", sum of the open stripe")
    return Superblock(state, erases, used, programmed)


def _rows(reader, head, channel, found):
    for n in range(head.rows):
        where = f"channel {channel}, row {n}"
        kind = ROW_KINDS[reader.limited("B", where, 0, len(ROW_KINDS) - 1)]
        slot = None
        if kind == "page":
            sb = reader.limited("H", where + ", superblock", 0, head.superblocks - 1)
            index = reader.limited("I", where + ", index", 0, head.slots - 1)
            reader.whole(8, where + ", serial")
            slot = sb, index
            found.superblocks[sb].live += 1
        found.lost += kind == "lost"
        found.rows.append(slot)


def read_channels(reader, head, levels=None):
    """The channels of an image whose head was read. A counter for levels gets each cell's level."""
    if not head.contents:
        return [blank_channel(head, channel) for channel in range(head.channels)]
    channels = []
    for channel in range(head.channels):
        superblocks = [_superblock(reader, head, f"channel {channel}, superblock {sb}", levels)
                       for sb in range(head.superblocks)]
        found = Channel(superblocks, [])
        _rows(reader, head, channel, found)
        channels.append(found)
    return channels
