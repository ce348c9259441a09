"""The subcommand `run`."""
import argparse
import sys

from ..whole_output import STANDARD, whole_file
from .program import HELP, find_program
from .watch import run_watched

DESCRIPTION = """\
Runs ssd on the contents of the files, one after the other: an image and then a trace. A run says nothing on standard error
but its status, so this shows its time, its memory and the bytes that it has written there while it goes on.

Words after -- go to ssd in the place of the one word run:
  ssdtool run drive.img work.trace -o run.txt -- run --policy=oldest
The status is that of ssd. At any status but 0 and 7 no output file is left.
"""
# At these statuses ssd has written a text that is whole up to where the run ended.
WRITTEN = (0, 7)


class NothingWritten(Exception):
    """A run that left no text."""


def tell(ended):
    """Tells how a run ended."""
    if ended.text:
        print(f"ssdtool: ssd says: {ended.text}", file=sys.stderr)
    print(f"ssdtool: {ended.told()}", file=sys.stderr)


def serve(arguments):
    """Runs the program."""
    words = [find_program(arguments.ssd), *(arguments.words or ["run"])]
    paths = arguments.inputs or ["-"]
    if arguments.output == STANDARD:
        ended = run_watched(words, paths, sys.stdout.buffer, arguments.quiet)
        sys.stdout.buffer.flush()
        tell(ended)
        return ended.status
    try:
        with whole_file(arguments.output) as file:
            ended = run_watched(words, paths, file, arguments.quiet)
            if ended.status not in WRITTEN:
                raise NothingWritten
    except NothingWritten:
        pass
    tell(ended)
    return ended.status


def add_parser(commands):
    """Adds the subcommand to the parser."""
    parser = commands.add_parser("run", help="run ssd, and show its time, memory and written bytes", description=DESCRIPTION,
                                 formatter_class=argparse.RawDescriptionHelpFormatter)
    parser.add_argument("inputs", nargs="*", metavar="FILE", help="an image and a trace (standard input)")
    parser.add_argument("-o", "--output", default=STANDARD, metavar="FILE", help="where to write (standard output)")
    parser.add_argument("--ssd", metavar="PATH", help=HELP)
    parser.add_argument("--quiet", action="store_true", help="show only how the run ended")
    parser.set_defaults(serve=serve)
