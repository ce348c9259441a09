"""The subcommand `sweep`."""
import argparse
import csv
import io
import os
import shlex
import signal
import sys
import time
from concurrent.futures import ProcessPoolExecutor, as_completed

from ..faults import InputFault
from ..run.program import HELP, find_program
from ..whole_output import write_whole
from .one_run import columns_of, run_one, shown_row
from .plan import Plan

DESCRIPTION = """\
Runs every configuration of a plan, several side by side, and writes one table in CSV. A plan is a TOML file:
  drive = "drive.toml"         a description as of `ssdtool image make`, relative to the plan
  workload = "make --pattern zipf --calls 20000"    words of `ssdtool trace`; or trace = "work.trace"
  [values]                     every combination of these is one configuration
  policy = ["greedy", "oldest", "roundrobin"]
  spread = [40, 60, 80]
  levels = [[0], [0, -8, -16]]
  over_provisioning = [20, 50]
Varied can be policy, lanes and history of ssd, and of the drive spread, erased, programmed, seed, levels, soft_step,
iterations, over_provisioning, rows and words. An option's default isn't spelled to ssd. A status that isn't 0 stands in its
row.

A run is a function of its input alone, so the same list of command lines gives the same rows, but for seconds and memory, on
any machines that have the files and the program: by GNU parallel or as a Slurm array. --header is the first line of the table:
  ssdtool sweep plan.toml --commands > list
  ssdtool sweep plan.toml --header > table.csv
  parallel --keep-order --sshlogin 8/one,8/two --workdir "$PWD" < list >> table.csv
  sbatch --array=1-$(wc -l < list) --output=row-%a.csv --wrap 'sed -n "${SLURM_ARRAY_TASK_ID}p" list | sh'
"""
WIDTH = 30


class Bar:
    """A bar of progress on standard error."""

    def __init__(self, count, quiet):
        self.count, self.quiet, self.done, self.failed = count, quiet, 0, 0
        self.begun, self.terminal, self.tenth = time.monotonic(), sys.stderr.isatty(), -1

    def step(self, row):
        """One more run is done."""
        self.done += 1
        self.failed += row["status"] != 0
        tenth = 10 * self.done // self.count
        if self.quiet or not self.terminal and tenth == self.tenth:
            return
        self.tenth = tenth
        filled = WIDTH * self.done // self.count
        seconds = time.monotonic() - self.begun
        left = seconds / self.done * (self.count - self.done)
        text = (f"[{'#' * filled}{'.' * (WIDTH - filled)}] {self.done} of {self.count} runs, {self.failed} not of status 0,"
                f" {seconds:.0f} s, about {left:.0f} s left")
        print(f"\r\033[K{text}" if self.terminal else text, end="" if self.terminal else "\n", file=sys.stderr, flush=True)

    def close(self):
        """The line is left."""
        if self.terminal and not self.quiet:
            print(file=sys.stderr)


def table_text(plan, rows, header):
    """Rows as CSV."""
    text = io.StringIO()
    writer = csv.DictWriter(text, columns_of(plan), lineterminator="\n")
    if header:
        writer.writeheader()
    for row in rows:
        writer.writerow(shown_row(plan, row))
    return text.getvalue()


def run_until_interrupted(plan, configuration, program, keep):
    """Runs a configuration in a process of the sweep. Ctrl-C ends the run, and else isn't told of process by process."""
    signal.signal(signal.SIGINT, signal.default_int_handler)
    try:
        return run_one(plan, configuration, program, keep)
    finally:
        signal.signal(signal.SIGINT, signal.SIG_IGN)


def run_all(plan, configurations, arguments, program):
    """Runs all configurations side by side, and gives their rows in order."""
    rows, bar = {}, Bar(len(configurations), arguments.quiet)
    with ProcessPoolExecutor(arguments.jobs, initializer=signal.signal, initargs=(signal.SIGINT, signal.SIG_IGN)) as pool:
        waiting = [pool.submit(run_until_interrupted, plan, configuration, program, arguments.keep)
                   for configuration in configurations]
        try:
            for done in as_completed(waiting):
                row = done.result()
                rows[row["configuration"]] = row
                bar.step(row)
        except BaseException:
            pool.shutdown(wait=False, cancel_futures=True)
            raise
        finally:
            bar.close()
    return [rows[configuration.number] for configuration in configurations]


def command_lines(configurations, arguments):
    """The command line of each configuration, which prints its row."""
    words = [sys.argv[0], "sweep", arguments.plan]
    words += ["--ssd", arguments.ssd] if arguments.ssd else []
    return "".join(f"{shlex.join(words)} --only {configuration.number}\n" for configuration in configurations)


def serve(arguments):
    """Runs a sweep, or a part of one."""
    plan = Plan(arguments.plan)
    configurations = plan.configurations()
    if arguments.header:
        return write_whole(arguments.output, table_text(plan, [], True))
    if arguments.only is not None:
        if arguments.only >= len(configurations):
            raise InputFault(f"{arguments.only} isn't in 0 to {len(configurations) - 1}", file=arguments.plan, field="--only")
        configurations = [configurations[arguments.only]]
    # Each drive is made once before any run, so that a plan with a fault in it runs nothing.
    for configuration in configurations:
        plan.head(configuration)
    if arguments.commands:
        return write_whole(arguments.output, command_lines(configurations, arguments))
    program = find_program(arguments.ssd)
    if arguments.keep:
        os.makedirs(arguments.keep, exist_ok=True)
        arguments.keep = os.path.abspath(arguments.keep)
    arguments.quiet = arguments.quiet or arguments.only is not None
    rows = run_all(plan, configurations, arguments, program)
    return write_whole(arguments.output, table_text(plan, rows, arguments.only is None))


def _number(text):
    if not text.isascii() or not text.isdigit() or len(text) > 9:
        raise argparse.ArgumentTypeError(f"{text!r} is no number")
    return int(text)


def _jobs(text):
    if not 1 <= _number(text) <= 1024:
        raise argparse.ArgumentTypeError(f"{text!r} isn't in 1 to 1024")
    return int(text)


def add_parser(commands):
    """Adds the subcommand to the parser."""
    parser = commands.add_parser("sweep", help="run many configurations side by side into one table",
                                 description=DESCRIPTION, formatter_class=argparse.RawDescriptionHelpFormatter)
    parser.add_argument("plan", metavar="PLAN.toml", help="the plan")
    parser.add_argument("-o", "--output", default="-", metavar="FILE", help="where to write (standard output)")
    parser.add_argument("--ssd", metavar="PATH", help=HELP)
    parser.add_argument("--jobs", type=_jobs, default=len(os.sched_getaffinity(0)), metavar="N",
                        help="runs side by side (the processors at hand)")
    parser.add_argument("--keep", metavar="FOLDER", help="keep each run's image, trace and text there")
    parser.add_argument("--quiet", action="store_true", help="show no bar")
    one = parser.add_mutually_exclusive_group()
    one.add_argument("--only", type=_number, metavar="N", help="run configuration N alone, and print its row alone")
    one.add_argument("--commands", action="store_true", help="print the command line of each configuration, and run none")
    one.add_argument("--header", action="store_true", help="print the first line of the table, and run none")
    parser.set_defaults(serve=serve)
