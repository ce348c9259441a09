"""The subcommand `image`."""
import argparse
import json
import os
import sys
from collections import Counter

from ..faults import InputFault
from ..whole_output import write_whole
from .contents import read_channels
from .description import head_of_description
from .head import HeadReader, head_bytes
from .new_description import PRESETS, new_description
from .showing import description_text, plain_values, shown_lines

MAKE_HELP = """\
Makes the image of a blank drive from a description in TOML. `ssdtool image new` writes one with a note at each field.

The base matrix is a list of rows, `matrix = [[0, 1, -1, ...], ...]`, or a named family:
  random     `weight` blocks a column (3 where it isn't given), drawn from `seed` so that few short cycles come
  staggered  blocks where (row + column) mod 8 is 0, 3 or 5, drawn from `seed`; 8 or 16 base rows
  array      the shift row * column everywhere, as in array codes; no seed
A family's parity columns have the dual-diagonal form that an image asks for.
"""


def read_text(path):
    """The text of a file, or of standard input for `-`."""
    try:
        if path == "-":
            return sys.stdin.buffer.read().decode()
        with open(path, "rb") as file:
            return file.read().decode()
    except UnicodeDecodeError as fault:
        raise InputFault(f"no UTF-8 text: byte {fault.start}", file=path) from None


def read_head(path):
    """The head of the image at this path."""
    with open(path, "rb") as file:
        return HeadReader(file, path).head()


def read_image(path, levels=None):
    """The head and the channels of the image at this path, and the number of bytes after it."""
    with sys.stdin.buffer if path == "-" else open(path, "rb") as file:
        reader = HeadReader(file, path)
        head = reader.head()
        channels = read_channels(reader, head, levels)
        after = 0
        while piece := file.read(1 << 20):
            after += len(piece)
        return head, channels, after


def make(arguments):
    """Makes an image from a description."""
    head = head_of_description(read_text(arguments.description), arguments.description)
    write_whole(arguments.output, head_bytes(head))


def show(arguments):
    """Prints what an image says."""
    levels = Counter()
    head, channels, after = read_image(arguments.image, levels)
    if arguments.json:
        text = json.dumps(plain_values(head, channels, levels, after), indent=1) + "\n"
    else:
        text = "".join(line + "\n" for line in shown_lines(head, channels, levels, after))
    write_whole(arguments.output, text)


def describe(arguments):
    """Writes a description from which the head of an image is made again."""
    head, _, _ = read_image(arguments.image)
    if head.contents:
        print(f"ssdtool: {arguments.image}: a description has no contents, so they are left out", file=sys.stderr)
    write_whole(arguments.output, description_text(head))


def new(arguments):
    """Writes a description to begin with."""
    seed = arguments.seed if arguments.seed is not None else int.from_bytes(os.urandom(4), "little")
    write_whole(arguments.output, new_description(arguments.size, seed))


def _seed(text):
    if not text.isascii() or not text.isdigit() or len(text) > 20 or int(text) >= 2 ** 63:
        raise argparse.ArgumentTypeError(f"{text!r} isn't a number from 0 to 2^63 - 1")
    return int(text)


def add_parser(commands):
    """Adds the subcommand to the parser."""
    parser = commands.add_parser("image", help="make a drive's image from a TOML file, and show any image",
                                 description="Makes images of drives, and shows them.")
    verbs = parser.add_subparsers(dest="verb", required=True, metavar="VERB")

    def add(name, serve, help_text, description=None, **more):
        verb = verbs.add_parser(name, help=help_text, description=description or help_text.capitalize() + ".", **more)
        verb.add_argument("-o", "--output", default="-", metavar="FILE", help="where to write (standard output)")
        verb.set_defaults(serve=serve)
        return verb

    verb = add("new", new, "write a description to begin with")
    verb.add_argument("--size", choices=list(PRESETS), default="medium", help="size of the drive (medium)")
    verb.add_argument("--seed", type=_seed, metavar="N", help="the seed that is written into the file (drawn)")
    verb = add("make", make, "make a blank image from a description", MAKE_HELP,
               formatter_class=argparse.RawDescriptionHelpFormatter)
    verb.add_argument("description", metavar="FILE.toml", help="the description, or - for standard input")
    verb = add("show", show, "print what an image says, of either version and with its contents")
    verb.add_argument("image", metavar="IMAGE", help="the image, or - for standard input")
    verb.add_argument("--json", action="store_true", help="print it as JSON")
    verb = add("describe", describe, "write the description from which an image's head is made again")
    verb.add_argument("image", metavar="IMAGE", help="the image, or - for standard input")
