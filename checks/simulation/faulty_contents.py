"""Worked examples of contents: what a drive is saved as, and each fault of contents once, in both versions."""
import struct
from collections import Counter

from .run import saved_after, simulated
from .worked_rows import IMAGE, changed, senses, text, trace

WRITTEN = trace("0 write 5 x0102")
# The least and the greatest bits of the page that this writes: its serial begins with zeros, and its cells have no noise.
ERASED, PROGRAMMED = struct.pack("<h", -100), struct.pack("<h", 100)


def first_version(full):
    """A full image of one codeword a page in the first version, in which all stands one place earlier."""
    return b"SSDIMG01" + full[9:]


# The drive of the worked examples, saved after one write: the head takes 94 bytes, and then each superblock has its state,
# its erases at 1, its used slots at 5 and the numbers of its programmed pages at 9, in 15 bytes. The first one is the
# frontier. At 109 stand 384 levels of its one page, at 877 its open stripe's sum, and at 925 the next superblock. The rows
# begin at 970, and that of page 5 at 975.
FULL = saved_after(IMAGE + WRITTEN)


def with_numbers(stands):
    """The full image at whose places other bytes stand."""
    full = FULL
    for place, new in stands.items():
        full = changed(place, new, full)
    return full


# What is wrong, the full image, and the place and the kind of the fault.
FAULTS = [
    ("a state beyond the last", with_numbers({94: b"\5"}), 94, "state"),
    ("a second frontier", with_numbers({925: b"\1"}), 925, "state"),
    ("too many erases", with_numbers({95: b"\1\0\0\x80"}), 95, "range"),
    ("a frontier without used slots", with_numbers({99: b"\0"}), 99, "count"),
    ("a frontier whose slots are all used", with_numbers({99: b"\4"}), 99, "count"),
    ("a sealed superblock with a slot left", with_numbers({94: b"\2"}), 99, "count"),
    ("a victim with a slot left", with_numbers({94: b"\4"}), 99, "count"),
    ("a free superblock with a used slot", with_numbers({930: b"\1"}), 930, "count"),
    ("a bad superblock with more than its slots", with_numbers({925: b"\3", 930: b"\5"}), 930, "count"),
    ("a page of the parity's die", with_numbers({103: b"\1"}), 103, "count"),
    ("a page too few", with_numbers({105: b"\0"}), 105, "count"),
    ("a page too many", with_numbers({107: b"\1"}), 107, "count"),
    ("more pages of a bad superblock than it has", with_numbers({925: b"\3", 934: b"\3"}), 934, "count"),
    ("a first level too high", with_numbers({109: b"\0\x40"}), 109, "range"),
    ("a last level too low", with_numbers({875: b"\xff\xbf"}), 875, "range"),
    ("a level too low where the image ends", with_numbers({109: b"\xff\xbf"})[:111], 109, "range"),
    ("half a level", FULL[:112], 112, "short"),
    ("a sum that is no codeword", with_numbers({877: bytes([FULL[877] ^ 1])}), 877, "sum"),
    ("a sum that ends early", FULL[:924], 924, "short"),
    ("a row of no kind", with_numbers({970: b"\3"}), 970, "row"),
    ("a row of no superblock", with_numbers({976: b"\4"}), 975, "row"),
    ("a row of no superblock where the image ends", with_numbers({976: b"\4"})[:978], 975, "row"),
    ("a row of a slot that isn't used", with_numbers({978: b"\1"}), 975, "row"),
    ("a row of a slot of another superblock", with_numbers({976: b"\1"}), 975, "row"),
    ("a slot that two rows name, before a serial", FULL[:990] + b"\1" + bytes(6), 990, "row"),
    ("a second row that ends in its index", FULL[:990] + b"\1" + bytes(5), 996, "short"),
    ("a row that ends in its serial", FULL[:989], 989, "short"),
]

LOOK = ["0.0 look 5 page 0.0 0 open", *senses("0.0", 0, "1.0.0", 0), "0.0 leave 0"]
READ = dict(reads="1 0 0 0", senses=1, rungs="1 0 0 0")

# What a trace gives on a full image: its entries, its replies and its summary.
SERVED = [
    ("a saved page is read", FULL, ["0 read 5"], LOOK, ["data 0 0102000000000000"], READ),
    ("a page is read whose levels are the least and the greatest of an image",
     FULL[:109] + FULL[109:877].replace(ERASED, b"\0\xc0").replace(PROGRAMMED, b"\xff\x3f") + FULL[877:],
     ["0 read 5"], LOOK, ["data 0 0102000000000000"], READ),
    ("a serial that isn't that of the page", with_numbers({982: b"\1"}), ["0 read 5"],
     ["0.0 look 5 page 0.0 1 open", *senses("0.0", 0, "1.0.0", 0, -60, -20, -10, 0, 10, 20), "0.0 leave 0"],
     ["uncorrectable"], dict(reads="0 0 1 0", senses=7)),
    ("a lost row", with_numbers({970: b"\2"}), ["0 read 0", "0 refresh 0"],
     ["0.0 look 0 lost", "0.1 look 0 lost"], ["uncorrectable"] * 2, dict(reads="0 0 1 0")),
    ("the frontier goes on, and its stripe is closed with the saved sum", FULL,
     ["0 write 2 x03", "0 age 0 1 0 200", "0 read 5"],
     ["0.0 write 2 0.1", "0.1 age 1.0 200", "0.2 look 5 page 0.0 0 closed",
      *senses("0.2", 2, "1.0.0", 0, -60, -20, -10, 0, 10, 20), *senses("0.2", 2, "0.0.0", 0),
      *senses("0.2", 2, "2.0.0", 0), "0.2 leave 2"],
     ["ok", "ok", "data 3 0102000000000000"],
     dict(writes="1 0 0 0", reads="1 0 0 0", senses=9, rungs="0 0 0 1", hints="1 0 0")),
    ("the free superblock of the fewest erases is taken, and that of the least number", with_numbers({926: b"\1"}),
     ["0 write 0 x"] * 4, [f"0.{n} write 0 {slot}" for n, slot in enumerate(["0.1", "0.2", "0.3", "2.0"])],
     ["ok"] * 4, dict(writes="4 0 0 0")),
    ("a bad superblock keeps its page", with_numbers({94: b"\3"})[:877] + FULL[925:], ["0 read 5", "0 write 5 x"],
     [*LOOK, "0.1 write 5 1.0"], ["data 0 0102000000000000", "ok"], dict(writes="1 0 0 0", **READ)),
]


def rows():
    """The worked examples as rows of inputs: what each shows, the input, its status, its output, and its text on standard
    error."""
    found = []
    for kind, of_version, earlier in [("the first version", first_version, 1), ("the second version", bytes, 0)]:
        for what, full, at, fault in FAULTS:
            found.append((f"{what} ({kind})", of_version(full), 3, "", f"image fault at {at - earlier}: {fault}\n"))
        for what, full, lines, entries, replies, counts in SERVED:
            given = of_version(full) + trace(*lines)
            found.append((f"{what} ({kind})", given, 0, text([entries], replies, **counts), ""))
    return found


def wrong_contents():
    """Where the simulation differs from worked examples of contents."""
    head = b"SSDIMG02\1" + IMAGE[8:36] + b"\1" + IMAGE[37:92] + b"\1"
    wrong = [what for what, given, *due in rows() if simulated(given, Counter()) != tuple(due)]
    for what, got, due in [("a blank drive is saved", saved_after(IMAGE + trace()), head + bytes(68)),
                           ("a drive is saved again", saved_after(FULL + trace()), changed(37, b"\2", FULL)),
                           ("the size of a drive that is saved after a write", len(FULL), 992),
                           ("the levels of a drive that is saved after a write", set(FULL[109:877:2]), {0x9c, 0x64})]:
        wrong += [what] if got != due else []
    return [f"the simulation differs from the worked example: {what}" for what in wrong]
