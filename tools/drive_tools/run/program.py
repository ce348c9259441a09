"""Where the program `ssd` is."""
import os
import pathlib

from ..faults import InputFault

# The proved program of this repository, as `rt ci` or `rt run` leaves it.
BUILT = pathlib.Path(__file__).resolve().parents[3] / "crates" / "ssd" / "out" / "ssd"
HELP = "the program (the environment variable SSD, else crates/ssd/out/ssd of this repository)"


def find_program(given):
    """The path of the program: what was given, else the environment's SSD, else the one that is built here."""
    for path, source in ((given, "--ssd"), (os.environ.get("SSD"), "the environment variable SSD")):
        if path:
            if not os.access(path, os.X_OK) or os.path.isdir(path):
                raise InputFault(f"is no program that can be run, as {source} says", file=path)
            return os.path.abspath(path)
    if not os.access(BUILT, os.X_OK):
        raise InputFault("isn't built: build it by `rt run` in crates/ssd, or name a program by --ssd or SSD, as"
                         " examples/unproved_ssd, which needs no proof", file=BUILT)
    return str(BUILT)
