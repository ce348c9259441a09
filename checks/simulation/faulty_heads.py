"""Worked examples of wrong heads: each field's fault once, in the second version and in the first."""
import struct

from .worked_rows import IMAGE, TWO_CODEWORDS, changed, trace


def record(*numbers):
    """A record of the lists of an image: channel, die or a zero byte, superblock, and maybe from where."""
    return struct.pack("<BBHI"[:1 + len(numbers)], *numbers)


# What is wrong with a head of the second version: what stands at places of the image of two codewords, and
# the place and the kind of the fault.
OWN_FAULTS = [
    ("another text", {0: b"SSDIMG03"}, 0, "magic"),
    ("no codewords", {8: b"\0"}, 8, "range"),
    ("three codewords", {8: b"\3"}, 8, "range"),
    ("five codewords", {8: b"\5"}, 8, "range"),
    ("eight codewords", {8: b"\x08"}, 8, "range"),
    ("the most codewords of a byte", {8: b"\xff"}, 8, "range"),
    ("more than the cells with four codewords",
     {8: b"\4\x08\x08\0\1\0\1\x08\0\3\4"}, 18, "range"),
    ("just the cells with two codewords, but no room for a head",
     {8: b"\2\x08\x08\0\1\0\1\x08\0\3\4"}, 21, "range"),
    ("more data than four codewords hold", {8: b"\4", 21: b"\x21"}, 21, "range"),
]

# The same, of places that stand one earlier in the first version, and so does the fault.
SHARED_FAULTS = [
    ("no channels", {9: b"\0"}, 9, "range"),
    ("nine channels", {9: b"\x09"}, 9, "range"),
    ("two dies", {10: b"\2"}, 10, "range"),
    ("three superblocks", {11: b"\3"}, 11, "range"),
    ("one page", {13: b"\1"}, 13, "range"),
    ("a lifting size of three", {15: b"\3"}, 15, "range"),
    ("two base rows", {17: b"\2"}, 17, "range"),
    ("no message columns", {18: b"\3"}, 18, "range"),
    ("message bits that fill no bytes", {15: b"\4"}, 18, "range"),
    ("no read levels", {19: b"\0"}, 19, "range"),
    ("no iterations", {20: b"\0"}, 20, "range"),
    ("no data bytes", {21: b"\0"}, 21, "range"),
    ("more data than the codewords hold", {21: b"\x09"}, 21, "range"),
    ("no rows", {25: b"\0"}, 25, "range"),
    ("more rows than fit", {25: b"\x09"}, 25, "range"),
    ("a session of 25 bits", {37: b"\0\0\0\1"}, 37, "range"),
    ("an erased level too low", {41: struct.pack("<h", -8193)}, 41, "range"),
    ("a programmed level that isn't above the erased", {43: struct.pack("<h", -100)}, 43, "range"),
    ("too much noise", {45: struct.pack("<H", 4096)}, 45, "range"),
    ("no soft step", {47: b"\0"}, 47, "range"),
    ("a second read level too high", {51: struct.pack("<h", 16384)}, 51, "range"),
    ("a shift of the lifting size", {55: b"\x40"}, 55, "entry"),
    ("no shift above the parity column", {59: b"\xff\xff"}, 59, "parity"),
    ("a shift in the middle of the parity column", {71: b"\1"}, 71, "parity"),
    ("two shifts in the parity column", {83: b"\0"}, 83, "parity"),
    ("no dual diagonal", {61: b"\1"}, 61, "diagonal"),
    ("a weak block of no channel", {89: b"\1\0" + record(1, 0, 0, 0)}, 91, "range"),
    ("a weak block of no die", {89: b"\1\0" + record(0, 3, 0, 0)}, 92, "range"),
    ("a weak block of no superblock", {89: b"\1\0" + record(0, 0, 4, 0)}, 93, "range"),
    ("a weak block twice", {89: b"\2\0" + record(0, 0, 0, 0) * 2}, 99, "order"),
    ("a bad superblock of no channel", {91: b"\1\0" + record(1, 0, 0)}, 93, "range"),
    ("a bad superblock without its zero", {91: b"\1\0" + record(0, 1, 0)}, 94, "range"),
    ("a bad superblock beyond the last", {91: b"\1\0" + record(0, 0, 4)}, 95, "range"),
    ("a bad superblock that leaves too few", {91: b"\1\0" + record(0, 0, 1)}, 93, "range"),
    ("a bad superblock twice", {25: b"\4", 91: b"\2\0" + record(0, 0, 1) * 2}, 97, "order"),
    ("contents that are neither", {93: b"\2"}, 93, "range"),
]


def row(what, image, stands, at, fault):
    """A row of an image at whose places something else stands."""
    for place, new in stands.items():
        image = changed(place, new, image)
    return what, image + trace(), 3, "", f"image fault at {at}: {fault}\n"


def earlier(stands):
    return {place - 1: new for place, new in stands.items()}


# As the rows of worked examples.
ROWS = [row(what, TWO_CODEWORDS, *due) for what, *due in OWN_FAULTS + SHARED_FAULTS]
ROWS += [
    row(f"{what} (the first version)", IMAGE, earlier(stands), at - 1, fault)
    for what, stands, at, fault in SHARED_FAULTS
]
ROWS += [
    (f"the first {end} bytes of two codewords", TWO_CODEWORDS[:end], 3, "", f"image fault at {end}: short\n")
    for end in range(len(TWO_CODEWORDS))
]
