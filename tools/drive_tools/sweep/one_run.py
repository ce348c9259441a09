"""One configuration of a sweep: its drive, its workload, its run and its row."""
import argparse
import contextlib
import io
import os
import pathlib
import shutil
import tempfile

from ..image.head import head_bytes
from ..report.command import read_counts
from ..run.watch import run_watched
from ..trace import command as trace

RESULTS = ("status", "says", "seconds", "memory", "writes", "moves", "picks", "erases", "senses", "bad", "faults",
           "write_amplification", "write_amplification_with_parity", "data", "empty", "uncorrectable", "not_ok", "rungs")


def make_workload(plan, image, output):
    """Makes the workload of a plan for a drive, by the words that the plan gives."""
    parser = argparse.ArgumentParser(prog="workload:")
    trace.add_parser(parser.add_subparsers())
    told = io.StringIO()
    with contextlib.redirect_stderr(told), contextlib.chdir(plan.directory):
        try:
            arguments = parser.parse_args(["trace", *plan.workload(), "--image", image, "-o", output])
        except SystemExit:
            reason = told.getvalue().strip().rpartition("error: ")[2]
            raise plan.fault(f"aren't words of `ssdtool trace`: {reason}", "workload") from None
        arguments.serve(arguments)


def results_of(path, head):
    """The results that the text of a run gives."""
    counts, _ = read_counts(path, head)
    totals, replies = counts.totals(), {}
    for actor in counts.actors:
        for word, count in actor.replies.items():
            replies[word] = replies.get(word, 0) + count
    return {**totals, **{word: replies.get(word, 0) for word in ("data", "empty", "uncorrectable")},
            "not_ok": sum(counts.not_ok().values()), "rungs": " ".join(map(str, counts.rungs()))}


def run_one(plan, configuration, program, keep=None):
    """Runs a configuration, and gives its values and results by column."""
    head = plan.head(configuration)
    with tempfile.TemporaryDirectory(prefix="ssdtool-") as folder:
        image, work, text = (os.path.join(folder, name) for name in ("drive.img", "work.trace", "run.txt"))
        pathlib.Path(image).write_bytes(head_bytes(head))
        if plan.workload() is None:
            shutil.copyfile(plan.beside(plan.values["trace"]), work)
        else:
            make_workload(plan, image, work)
        with open(text, "wb") as file:
            ended = run_watched([program, *configuration.words()], [image, work], file, quiet=True)
        row = {"configuration": configuration.number, **configuration.values, "status": ended.status, "says": ended.text,
               "seconds": f"{ended.seconds:.3f}", "memory": ended.memory}
        if ended.status in (0, 7):
            row.update(results_of(text, head))
        for path in (image, work, text) if keep else ():
            shutil.copyfile(path, os.path.join(keep, f"{configuration.number}.{os.path.basename(path)}"))
        return row


def columns_of(plan):
    """The columns of a sweep's table."""
    return ["configuration", *plan.varied, *RESULTS]


def shown_row(plan, row):
    """A row with its values as a table shows them."""
    return {name: " ".join(map(str, value)) if isinstance(value, list) else value
            for name, value in row.items() if name in columns_of(plan)}
