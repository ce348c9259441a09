"""Descriptions of drives: a TOML file to the head of a blank image, and back."""
import re
import tomllib

from ..faults import InputFault
from .base_matrix import FAMILIES, SEEDED, check_matrix, matrix_of_family
from .head import DEFAULT_VERSION, NUMBERS, RANGES, WORDS, Head, fault_of, fault_of_bad, fault_of_words, most_rows

# Each field of a description: its section, and what may stand for it where it isn't given.
REQUIRED = object()
SECTIONS = {
    "sizes": {"channels": REQUIRED, "dies": REQUIRED, "superblocks": REQUIRED, "pages": REQUIRED, "data_bytes": REQUIRED,
              "rows": None, "over_provisioning": None, "words": 1},
    "code": {"lifting": REQUIRED, "base_rows": None, "base_columns": None, "iterations": 20, "family": None, "seed": None,
             "weight": 3, "matrix": None},
    "cells": {"erased": REQUIRED, "programmed": REQUIRED, "spread": 0, "seed": 0, "session": 0},
    "reading": {"levels": REQUIRED, "soft_step": REQUIRED},
}
RECORDS = {"weak": ("channel", "die", "superblock", "from"), "bad": ("channel", "superblock")}
SECTION_OF = {"lifting": "code", "base_rows": "code", "base_columns": "code", "iterations": "code", "seed": "cells",
              "session": "cells", "erased": "cells", "programmed": "cells", "spread": "cells", "soft_step": "reading",
              "level_count": "reading"}


def line_of(text, section, key=None, which=0):
    """The line of a field in the text of a description, or of its section where the field has no line of its own.

    Of sections of the same name it is the one before which `which` of them stand.
    """
    found, inside, seen = None, section is None, -1
    for number, line in enumerate(text.splitlines(), 1):
        heading = re.match(r"\s*\[+\s*([\w.-]+)\s*\]+", line)
        if heading:
            seen += heading[1] == section
            inside = heading[1] == section and seen == which
            found = number if inside else found
        elif inside and key and re.match(rf"\s*{re.escape(key)}\s*=", line):
            return number
    return found


def read_toml(text, name):
    """The values of a text in TOML."""
    try:
        return tomllib.loads(text)
    except tomllib.TOMLDecodeError as fault:
        # A fault at the end of the text is told without a line.
        found = re.search(r"\(at line (\d+)", str(fault))
        raise InputFault(f"no TOML: {fault}", file=name, line=int(found[1]) if found else len(text.splitlines())) from None


class Description:
    """A description as it was read, with the places of its fields for faults."""

    def __init__(self, text, name):
        self.text, self.name, self.values = text, name, read_toml(text, name)

    def fault(self, text, section, key=None, which=0):
        """A fault of a field."""
        field = section if key is None else f"{section}.{key}" if section else key
        return InputFault(text, file=self.name, line=line_of(self.text, section, key, which), field=field)

    def change(self, section, key, value):
        """Puts another value in the place of a field. Rows and over-provisioning stand in each other's place."""
        fields = self.values.setdefault(section, {})
        if key in ("rows", "over_provisioning") and isinstance(fields, dict):
            fields.pop("rows", None)
            fields.pop("over_provisioning", None)
        if isinstance(fields, dict):
            fields[key] = value

    def check_names(self):
        """Refuses fields and sections that no description has."""
        for name, value in self.values.items():
            if name == "version":
                continue
            if name in RECORDS:
                self.check_records(name, value)
            elif name not in SECTIONS:
                text = f"there is no such field; there are version, {', '.join([*SECTIONS, *RECORDS])}"
                raise self.fault(text, name) if isinstance(value, dict) else self.fault(text, None, name)
            elif not isinstance(value, dict):
                raise self.fault("has to be a section", None, name)
            else:
                self.check_keys(name, value, SECTIONS[name])

    def check_keys(self, section, given, known, which=0):
        """Refuses a field that the section doesn't have."""
        for key in given:
            if key not in known:
                raise self.fault(f"there is no such field; there are {', '.join(known)}", section, key, which)

    def check_records(self, name, records):
        """Refuses a list of blocks that isn't one."""
        if not isinstance(records, list) or not all(isinstance(record, dict) for record in records):
            raise self.fault(f"has to be a list of tables, [[{name}]]", None, name)
        for which, record in enumerate(records):
            self.check_keys(name, record, RECORDS[name], which)

    def value(self, section, key):
        """A field, or what stands for it."""
        given = self.values.get(section, {})
        if key in given:
            return given[key]
        if SECTIONS[section][key] is REQUIRED:
            raise self.fault("is missing", section, key)
        return SECTIONS[section][key]

    def number(self, section, key):
        """A field that has to be a whole number, or None where it isn't there."""
        value = self.value(section, key)
        if value is not None and (not isinstance(value, int) or isinstance(value, bool)):
            raise self.fault(f"{value!r} is no whole number", section, key)
        return value

    def limited(self, section, key, low, high):
        """A whole number that has to be in range."""
        value = self.number(section, key)
        if not low <= value <= high:
            raise self.fault(f"{value} isn't in {low} to {high}", section, key)
        return value


def _levels(given):
    levels = given.value("reading", "levels")
    low, high = RANGES["level"]
    if not isinstance(levels, list) or not 1 <= len(levels) <= 16:
        raise given.fault("has to be a list of 1 to 16 numbers", "reading", "levels")
    for level in levels:
        if not isinstance(level, int) or isinstance(level, bool) or not low <= level <= high:
            raise given.fault(f"{level!r} isn't in {low} to {high}", "reading", "levels")
    return levels


def _listed_matrix(given):
    matrix = given.value("code", "matrix")
    if matrix is None:
        return None
    shaped = isinstance(matrix, list) and matrix and all(isinstance(base_row, list) for base_row in matrix)
    if not shaped or len({len(base_row) for base_row in matrix}) != 1:
        raise given.fault("has to be a list of rows of the same length", "code", "matrix")
    if not all(isinstance(entry, int) and not isinstance(entry, bool) for base_row in matrix for entry in base_row):
        raise given.fault("has an entry that is no whole number", "code", "matrix")
    return matrix


def _set_sizes_of_code(given, head, matrix):
    """The numbers of base rows and columns: those of the list, or those given for a family."""
    for key, listed in (("base_rows", matrix and len(matrix)), ("base_columns", matrix and len(matrix[0]))):
        value = given.number("code", key)
        if value is None and listed is None:
            raise given.fault("is missing", "code", key)
        if None not in (value, listed) and value != listed:
            raise given.fault(f"{value} isn't the {listed} of the list", "code", key)
        setattr(head, key, listed if value is None else value)


def _matrix_of_family(given, head):
    family = given.value("code", "family")
    if not isinstance(family, str) or family not in FAMILIES:
        raise given.fault(f"{family!r} is none of {', '.join(FAMILIES)}, and there is no matrix", "code", "family")
    seed = given.number("code", "seed")
    if seed is None and family in SEEDED:
        raise given.fault(f"is missing: the family {family} draws from it, so it stands in the file", "code", "seed")
    if seed is not None:
        given.limited("code", "seed", 0, 2 ** 64 - 1)
    weight = given.limited("code", "weight", 2, head.base_rows)
    if family == "staggered" and head.base_rows % 8:
        raise given.fault(f"{head.base_rows} is no multiple of 8, as the family staggered wants", "code", "base_rows")
    return matrix_of_family(family, head.base_rows, head.base_columns, head.lifting, seed, weight)


def _rows(given, head):
    rows, spare = given.number("sizes", "rows"), given.value("sizes", "over_provisioning")
    if (rows is None) == (spare is None):
        raise given.fault("has to be there, or over_provisioning in its place, and not both", "sizes", "rows")
    if rows is not None:
        return rows
    if isinstance(spare, bool) or not isinstance(spare, (int, float)) or not 0 <= spare <= 100_000:
        raise given.fault(f"{spare!r} isn't a number of percent from 0 to 100000", "sizes", "over_provisioning")
    rows = int((most_rows(head) + 2 * head.slots) / (1 + spare / 100))
    if not 1 <= rows <= most_rows(head):
        raise given.fault(f"{spare} percent give {rows} rows, which isn't in 1 to {most_rows(head)}", "sizes",
                          "over_provisioning")
    return rows


def _records(given, head, name):
    """The list of weak or factory bad blocks, in rising order."""
    limits = {"channel": head.channels - 1, "die": head.dies - 1, "superblock": head.superblocks - 1,
              "from": RANGES["from"][1]}
    records, named = [], set()
    for which, table in enumerate(given.values.get(name, [])):
        for key in RECORDS[name]:
            value = table.get(key)
            if not isinstance(value, int) or isinstance(value, bool) or not 0 <= value <= limits[key]:
                text = "is missing" if value is None else f"{value!r} isn't in 0 to {limits[key]}"
                raise given.fault(text, name, key, which)
        record = tuple(table[key] for key in RECORDS[name])
        if record[:3] in named:
            raise given.fault("names a block that stands in the list before", name, None, which)
        named.add(record[:3])
        records.append(record)
    if len(records) > 65535:
        raise given.fault(f"{len(records)} blocks are more than 65535", name)
    return sorted(records)


def _version(given, words):
    """The version of the image: the one that it names, else 2 where a page has several codewords."""
    version = given.values.get("version", DEFAULT_VERSION if words == 1 else 2)
    if version not in (1, 2) or isinstance(version, bool):
        raise given.fault(f"{version!r} is neither 1 nor 2", None, "version")
    if version == 1 and words != 1:
        raise given.fault("an image of version 1 has one codeword a page", "sizes", "words")
    return version


def _set_number(given, head, number, matrix):
    """Sets a number of the head, and what has to be known for its range."""
    section = SECTION_OF.get(number, "sizes")
    if number == "base_rows":
        _set_sizes_of_code(given, head, matrix)
    elif number == "level_count":
        head.levels = _levels(given)
        head.level_count = len(head.levels)
    elif number == "rows":
        # The factory bad superblocks say how many rows there can be.
        head.bad = _records(given, head, "bad")
        head.rows = _rows(given, head)
    elif number != "base_columns":
        setattr(head, number, given.number(section, number))
    text = fault_of(number, getattr(head, number), head)
    if text:
        raise given.fault(text, section, number)


def head_of_description(text, name, changes=()):
    """The head of the blank image that a description tells of, with changed fields given as section, key and value."""
    given = Description(text, name)
    for section, key, value in changes:
        given.change(section, key, value)
    given.check_names()
    head, matrix = Head(), _listed_matrix(given)
    head.words = given.number("sizes", "words")
    if head.words not in WORDS:
        raise given.fault(fault_of_words(head.words), "sizes", "words")
    head.version = _version(given, head.words)
    for number, _ in NUMBERS:
        _set_number(given, head, number, matrix)
    if fault_of_bad(head):
        raise given.fault(fault_of_bad(head), "sizes", "rows")
    head.weak = _records(given, head, "weak")
    head.matrix = matrix if matrix is not None else _matrix_of_family(given, head)
    try:
        check_matrix(head.matrix, head.lifting)
    except InputFault as fault:
        raise fault.placed(name, line_of(text, "code", "matrix")) from None
    return head
