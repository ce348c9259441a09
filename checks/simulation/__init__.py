"""A plain simulation of what `ssd` writes.

It is written from the formats and rules of docs/, slowly and apart from the program, and shares nothing
with it.
"""
