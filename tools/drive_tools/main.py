"""The one command and its subcommands."""
import argparse
import sys

from .faults import InputFault
from .image import command as image
from .report import command as report
from .run import command as run
from .sweep import command as sweep
from .trace import command as trace
from .view import command as view

DESCRIPTION = """\
Makes drives and workloads for ssd, runs them, and shows what happened.

A usual order:
  ssdtool image new -o drive.toml            a description to edit
  ssdtool image make drive.toml -o drive.img
  ssdtool trace fio job.iolog --image drive.img -o work.trace
  ssdtool run drive.img work.trace -o run.txt
  ssdtool report run.txt --image drive.img
  ssdtool view run.txt --image drive.img -o run.html
"""


def make_parser():
    """The parser of all command lines."""
    parser = argparse.ArgumentParser(
        prog="ssdtool", description=DESCRIPTION, formatter_class=argparse.RawDescriptionHelpFormatter,
        epilog="A fault of an input is told with its file and line, status 1, and no output file is left.")
    commands = parser.add_subparsers(dest="command", required=True, metavar="COMMAND")
    for module in (image, trace, run, report, view, sweep):
        module.add_parser(commands)
    return parser


def main(words):
    """Does what the words ask, and gives the status: 0, 1 at a fault of an input, 2 at wrong words."""
    handed_on = None
    if words[:1] == ["run"] and "--" in words:
        cut = words.index("--")
        words, handed_on = words[:cut], words[cut + 1:]
    arguments = make_parser().parse_args(words)
    arguments.words = handed_on
    try:
        return arguments.serve(arguments) or 0
    except InputFault as fault:
        print(f"ssdtool: {fault}", file=sys.stderr)
    except BrokenPipeError:
        # Whoever read standard output has seen enough; nothing more may be written to it at exit.
        sys.stderr.close()
    except KeyboardInterrupt:
        return 130
    except OSError as fault:
        print(f"ssdtool: {fault.filename or 'output'}: {fault.strerror}", file=sys.stderr)
    return 1
