"""The subcommand `trace`."""
import argparse
import sys

from ..faults import InputFault
from ..image.command import read_head
from ..whole_output import whole_file
from . import blkparse, block_csv, fio
from .placing import FITS, Placing
from .requests import Log, in_order
from .synthetic import PATTERNS, write_workload
from .writing import MOST_ACTORS, MOST_CALLS, Ageing, TraceWriter

IMPORT_HELP = """
The bytes of each request become calls on pages, a page being as large as the drive's (or --page-bytes). A page that a read or
write touches in part is read or written whole; one that a trim touches in part is left out. Data are the words that a
number starts (`g0`, `g1`, ..), other ones at each write. Times only order the requests of several logs. What was left
out is counted and told on standard error.
"""
FIO_HELP = """\
Makes a trace from the logs that fio writes by write_iolog, of versions 2 and 3. One log is one job: fio wants a log for each
job, and all of them are given here. Logs of version 3 are put in order by their times; those of version 2 have none and are
taken in turn. A file that fio used is a disk.
"""
CSV_HELP = """\
Makes a trace from block traces in the form of the MSR Cambridge traces, a line for each request:
  timestamp,hostname,disk,type,offset,size,response time
with type Read or Write (or Trim), offset and size in bytes. The response time may be missing. A hostname is a job.
"""
BLKPARSE_HELP = """\
Makes a trace from the text that blkparse prints in its default form. The events of one action are taken, Q (queued) where
nothing else is said; all others are counted as left out. Sectors have 512 bytes. A process is a job.
"""
MAKE_HELP = """\
Makes a workload by chance from a seed: the same words give the same trace. The page of a call comes by a pattern:
  uniform     each page as often as any other
  zipf        few pages often, by --exponent
  sequential  one page after the other
  mixed       several of them by shares, as --mix zipf=70,sequential=30
"""


def limited(low, high):
    """A reader of whole numbers in this range."""
    def number(text):
        value = int(text) if text.isascii() and text.isdigit() and len(text) <= 20 else -1
        if not low <= value <= high:
            raise argparse.ArgumentTypeError(f"{text!r} isn't a whole number from {low} to {high}")
        return value
    return number


def actors_choice(text):
    """The word job or disk, or a number of actors."""
    return text if text in ("job", "disk") else limited(1, MOST_ACTORS)(text)


def mix(text):
    """Patterns with their shares, as `zipf=70,sequential=30`."""
    shares = []
    for part in text.split(","):
        name, _, share = part.partition("=")
        if name not in PATTERNS or name in dict(shares):
            raise argparse.ArgumentTypeError(f"{name!r} is none of {', '.join(PATTERNS)}, or stands twice")
        shares.append((name, limited(1, 1000)(share)))
    return shares


def exponent(text):
    """An exponent of Zipf's law."""
    try:
        value = float(text)
    except ValueError:
        value = -1.0
    if not 0 <= value <= 10:
        raise argparse.ArgumentTypeError(f"{text!r} isn't a number from 0 to 10")
    return value


def write_trace(arguments, actors, fill_in):
    """Writes a trace by `fill_in`, and tells what it has."""
    head = read_head(arguments.image)
    ageing = Ageing(head, arguments.age_every, arguments.age_amount) if arguments.age_every else None
    with whole_file(arguments.output) as file:
        writer = TraceWriter(file, head, actors, ageing, arguments.without_collection)
        fill_in(writer)
    name = "standard output" if arguments.output == "-" else arguments.output
    for line in writer.told(name):
        print(f"ssdtool: {line}", file=sys.stderr)


def import_logs(parts_of):
    """Serves an import by a function that reads logs."""
    def serve(arguments):
        if arguments.logs.count("-") > 1:
            raise InputFault("is read only once", file="-")
        logs = [Log(path) for path in arguments.logs]

        def read_again(left_out):
            return in_order(parts_of(logs, arguments, left_out))

        placing = Placing(read_again, read_head(arguments.image), arguments.page_bytes, arguments.fit, arguments.actors,
                          arguments.logs[0])
        write_trace(arguments, placing.actors.count, placing.write)
    return serve


def make(arguments):
    """Makes a workload by chance."""
    shares = arguments.mix if arguments.pattern == "mixed" else [(arguments.pattern, 1)]
    verbs = {"read": arguments.reads, "write": arguments.writes, "trim": arguments.trims}
    if not any(verbs.values()):
        raise InputFault("all shares of calls are 0", field="--reads, --writes, --trims")
    write_trace(arguments, arguments.actors, lambda writer: write_workload(
        writer, arguments.calls, shares, verbs, arguments.exponent, arguments.seed, arguments.fill))


def _add_common(verb):
    """The options of every verb."""
    verb.add_argument("--image", required=True, metavar="IMAGE", help="the drive, whose sizes the trace keeps to")
    verb.add_argument("-o", "--output", default="-", metavar="FILE", help="where to write the trace (standard output)")
    verb.add_argument("--age-every", type=limited(1, MOST_CALLS), metavar="N",
                      help="after every N calls one block is aged, each block in its turn")
    verb.add_argument("--age-amount", type=limited(1, 16383), default=10, metavar="N",
                      help="by so much its levels fall, 1 to 16383 (10)")
    verb.add_argument("--without-collection", action="store_true",
                      help="leave out writes that a blank drive takes only by collecting")


def _add_import(verbs, name, help_text, description, parts_of):
    """The verb of an importer."""
    verb = verbs.add_parser(name, help=help_text, description=description + IMPORT_HELP,
                            formatter_class=argparse.RawDescriptionHelpFormatter)
    verb.add_argument("logs", nargs="+", metavar="LOG", help="the logs, - for standard input")
    _add_common(verb)
    verb.add_argument("--actors", type=actors_choice, default="job", metavar="job|disk|N",
                      help="an actor for each job or for each disk, or N of them that take requests in turn (job)")
    verb.add_argument("--page-bytes", type=limited(1, 2 ** 40), metavar="N",
                      help="bytes of the workload that one page of the drive stands for (the drive's data bytes)")
    verb.add_argument("--fit", choices=FITS, default="drop",
                      help="pages beyond the drive: drop leaves them out, wrap begins again at page 0, pack gives pages the"
                           " next number when they are first touched (drop)")
    verb.set_defaults(serve=import_logs(parts_of))
    return verb


def add_parser(commands):
    """Adds the subcommand to the parser."""
    parser = commands.add_parser("trace", help="make a trace from logs of fio, CSV or blkparse, or by chance",
                                 description="Makes traces for ssd.")
    verbs = parser.add_subparsers(dest="verb", required=True, metavar="VERB")
    _add_import(verbs, "fio", "from fio's write_iolog", FIO_HELP, lambda logs, _, left_out: fio.parts_of(logs, left_out))
    _add_import(verbs, "csv", "from block traces in CSV", CSV_HELP,
                lambda logs, _, left_out: block_csv.parts_of(logs, left_out))
    verb = _add_import(verbs, "blkparse", "from the text of blkparse", BLKPARSE_HELP,
                       lambda logs, given, left_out: blkparse.parts_of(logs, given.action, left_out))
    verb.add_argument("--action", default="Q", choices=list("QGIDC"), help="the action whose events are taken (Q)")
    verb = verbs.add_parser("make", help="a workload by chance", description=MAKE_HELP,
                            formatter_class=argparse.RawDescriptionHelpFormatter)
    _add_common(verb)
    verb.add_argument("--calls", type=limited(0, MOST_CALLS), default=10_000, metavar="N", help="number of calls (10000)")
    verb.add_argument("--pattern", choices=[*PATTERNS, "mixed"], default="uniform", help="which page comes next (uniform)")
    verb.add_argument("--mix", type=mix, default=[("zipf", 70), ("sequential", 30)], metavar="NAME=SHARE,..",
                      help="the patterns of mixed (zipf=70,sequential=30)")
    verb.add_argument("--exponent", type=exponent, default=1.1, metavar="X", help="of Zipf's law, 0 to 10 (1.1)")
    for name, share in (("reads", 50), ("writes", 45), ("trims", 5)):
        verb.add_argument(f"--{name}", type=limited(0, 1_000_000), default=share, metavar="N",
                          help=f"share of {name} ({share})")
    verb.add_argument("--actors", type=limited(1, MOST_ACTORS), default=1, metavar="N", help="actors, in turn (1)")
    verb.add_argument("--seed", type=limited(0, 2 ** 64 - 1), default=0, metavar="N", help="of all choices (0)")
    verb.add_argument("--fill", action="store_true", help="first write each page once")
    verb.set_defaults(serve=make)
