"""The subcommand `view`."""
import argparse
import json
import os
import pathlib
import sys

from ..faults import InputFault
from ..image.command import read_image
from ..report.run_text import RunReader
from ..whole_output import write_whole
from .collecting import Collected, page_values

DESCRIPTION = """\
Makes one page in HTML from the printed text of a run. The page has all in itself and uses no network. It shows a timeline
of each channel (looks, senses, writes, moves, picks, erases, bad and other entries, and pins as spans), the superblocks over
the run by state, used slots or live pages, write amplification and the rungs of reads over the run, and the entries at
the pointer. Without --image superblocks are as many as the run names, and a superblock is as large as the fullest one.
"""
PAGE = pathlib.Path(__file__).parent / "page"
SCRIPTS = ("data.js", "model.js", "drawing.js", "charts.js", "page.js")
MOST_ENTRIES = 250_000


def page_text(values):
    """The page with its values, style and scripts in it."""
    script = "\n".join((PAGE / name).read_text() for name in SCRIPTS)
    # Within a script element no end tag may stand.
    data = json.dumps(values).replace("</", "<\\/")
    parts = {"/*STYLE*/": (PAGE / "style.css").read_text(), "/*DATA*/": data, "/*SCRIPT*/": '"use strict";\n' + script}
    text = (PAGE / "page.html").read_text()
    for mark, part in parts.items():
        before, _, after = text.partition(mark)
        text = before + part.strip() + after
    return text


def serve(arguments):
    """Makes the page."""
    head, channels = None, ()
    if arguments.image:
        head, channels, _ = read_image(arguments.image)
    found = Collected(arguments.most)
    with sys.stdin.buffer if arguments.run == "-" else open(arguments.run, "rb") as file:
        whole = RunReader(file, arguments.run, found).read()
    if not found.channels:
        raise InputFault("has no histories, as the text of --show=summary: there is nothing to view", file=arguments.run,
                         line=1)
    values = page_values(found, whole, os.path.basename(arguments.run), head, channels)
    write_whole(arguments.output, page_text(values))


def _most(text):
    if not text.isascii() or not text.isdigit() or not 1 <= len(text) <= 7 or text == "0":
        raise argparse.ArgumentTypeError(f"{text!r} isn't a number from 1 to 9999999")
    return int(text)


def add_parser(commands):
    """Adds the subcommand to the parser."""
    parser = commands.add_parser("view", help="make one page in HTML that shows a run", description=DESCRIPTION,
                                 formatter_class=argparse.RawDescriptionHelpFormatter)
    parser.add_argument("run", metavar="RUN", help="the text that a run printed, or - for standard input")
    parser.add_argument("--image", metavar="IMAGE", help="the drive before the run")
    parser.add_argument("--most", type=_most, default=MOST_ENTRIES, metavar="N",
                        help=f"entries of each channel that are kept, from the first on ({MOST_ENTRIES})")
    parser.add_argument("-o", "--output", required=True, metavar="FILE.html",
                        help="where to write the page, - for standard output")
    parser.set_defaults(serve=serve)
