#!/usr/bin/env python3
"""Writes the input of the first example to standard output: a small blank device, and a trace of two calls.

The device has one channel of three dies, four superblocks of two pages a block, and pages of 48 bytes that carry
24 bytes of payload, 8 of them data. The trace writes page 5 and reads it back.
"""
import struct
import sys

BASE_MATRIX = [
    [0, 1, -1, 1, 0, -1],
    [5, -1, 7, 0, 0, 0],
    [-1, 11, 3, 1, -1, 0],
]
READ_LEVELS = [0, -60]

image = b"SSDIMG01"
image += struct.pack("<BBHHHBBBB", 1, 3, 4, 2, 64, 3, 6, len(READ_LEVELS), 8)  # channels, dies, superblocks, pages, lifting size, base rows, base columns, read levels, iterations
image += struct.pack("<II", 8, 8)  # data bytes of a page, rows of a channel
image += struct.pack("<QI", 1, 0)  # seed, session
image += struct.pack("<hhHH", -100, 100, 0, 10)  # erased level, programmed level, spread of the noise, soft step
image += struct.pack("<2h", *READ_LEVELS)
for base_row in BASE_MATRIX:
    image += struct.pack("<6h", *base_row)
image += struct.pack("<HHB", 0, 0, 0)  # weak blocks, factory bad superblocks, contents: blank

trace = b"trace 1 1\n0 write 5 x0102\n0 read 5\n"

sys.stdout.buffer.write(image + trace)
