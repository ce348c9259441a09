"""The subcommand `report`."""
import argparse
import json
import sys

from ..image.command import read_head
from ..whole_output import write_whole
from .counts import RunCounts
from .printing import report_lines
from .run_text import RunReader

DESCRIPTION = """\
Reads the printed text of a run, as a stream, and says what it counts up to: write amplification, moves and erases, reads by
rung, replies that aren't ok, each channel and each actor. The text of --show=summary has only the first of these.
"""


def read_counts(path, head=None, most_named=20):
    """The counts of the run at this path, and whether its text has its end."""
    counts = RunCounts(head, most_named)
    with sys.stdin.buffer if path == "-" else open(path, "rb") as file:
        whole = RunReader(file, path, counts).read()
    return counts, whole


def serve(arguments):
    """Prints the report of a run."""
    head = read_head(arguments.image) if arguments.image else None
    counts, whole = read_counts(arguments.run, head, arguments.most)
    report = counts.plain(arguments.run, whole)
    text = json.dumps(report, indent=1) if arguments.json else "\n".join(report_lines(report))
    write_whole(arguments.output, text + "\n")


def _count(text):
    if not text.isascii() or not text.isdigit() or len(text) > 7:
        raise argparse.ArgumentTypeError(f"{text!r} isn't a number from 0 to 9999999")
    return int(text)


def add_parser(commands):
    """Adds the subcommand to the parser."""
    parser = commands.add_parser("report", help="count up the printed text of a run", description=DESCRIPTION)
    parser.add_argument("run", metavar="RUN", help="the text that a run printed, or - for standard input")
    parser.add_argument("--image", metavar="IMAGE", help="the drive, so that parity pages are counted too")
    parser.add_argument("--json", action="store_true", help="print it as JSON")
    parser.add_argument("--most", type=_count, default=20, metavar="N", help="replies that aren't ok to be named (20)")
    parser.add_argument("-o", "--output", default="-", metavar="FILE", help="where to write (standard output)")
    parser.set_defaults(serve=serve)
