"""Plans of sweeps: a drive, a workload, and the values of which every combination is one configuration."""
import itertools
import os
import shlex

from ..faults import InputFault
from ..image.command import read_text
from ..image.description import head_of_description, line_of, read_toml

# What can be varied: fields of the drive's description, each with its section, and options of the program with their defaults.
FIELDS = {
    "spread": "cells", "erased": "cells", "programmed": "cells", "seed": "cells", "levels": "reading",
    "soft_step": "reading", "iterations": "code", "over_provisioning": "sizes", "rows": "sizes", "words": "sizes"}
OPTIONS = {"policy": "greedy", "lanes": 16, "history": 4194304}
# The values of the options, as lists or as ranges.
VALUES = {"policy": ("greedy", "oldest", "roundrobin"), "lanes": (1, 4, 8, 16, 32), "history": range(256, 4194305)}
MOST_CONFIGURATIONS = 100_000


def told_values(name):
    """The values of an option as text."""
    values = VALUES[name]
    return f"in {values[0]} to {values[-1]}" if isinstance(values, range) else f"one of {', '.join(map(str, values))}"


class Configuration:
    """One run of a sweep: its number and the values that it has of what is varied."""

    def __init__(self, number, values):
        self.number, self.values = number, values

    def words(self):
        """The words for the program. A default isn't spelled, so that it means the same to a program without the option."""
        return ["run", *[f"--{name}={self.values[name]}" for name, default in OPTIONS.items()
                         if self.values.get(name, default) != default]]

    def changes(self):
        """The fields of the description that are changed."""
        return [(FIELDS[name], name, value) for name, value in self.values.items() if name in FIELDS]


class Plan:
    """A plan as it was read."""

    def __init__(self, path):
        self.path = path
        self.directory = os.path.dirname(os.path.abspath(path)) if path != "-" else os.getcwd()
        self.text = read_text(path)
        self.values = read_toml(self.text, path)
        self.check()
        self.drive = self.beside(self.values["drive"])
        self.drive_text = read_text(self.drive)
        self.varied = self.values.get("values", {})

    def fault(self, text, field):
        """A fault of a field of the plan."""
        section, _, key = field.rpartition(".")
        line = line_of(self.text, section or None, key) or line_of(self.text, field)
        return InputFault(text, file=self.path, line=line, field=field)

    def beside(self, path):
        """A path that is relative to the plan."""
        return os.path.join(self.directory, path)

    def check(self):
        """Refuses what isn't a plan."""
        for name in self.values:
            if name not in ("drive", "trace", "workload", "values"):
                raise self.fault("there is no such field; there are drive, trace, workload, values", name)
        for name in ("drive", "trace", "workload"):
            if not isinstance(self.values.get(name, ""), str):
                raise self.fault("has to be a text", name)
        if "drive" not in self.values:
            raise self.fault("is missing: the description of the drive", "drive")
        if ("trace" in self.values) == ("workload" in self.values):
            raise self.fault("has to be there, or workload in its place, and not both", "trace")
        self.check_values(self.values.get("values", {}))

    def check_values(self, varied):
        """Refuses values that aren't lists of what can be varied."""
        if not isinstance(varied, dict):
            raise self.fault("has to be a section", "values")
        count = 1
        for name, values in varied.items():
            if name not in FIELDS and name not in OPTIONS:
                raise self.fault(f"can't be varied; these can: {', '.join([*OPTIONS, *FIELDS])}", f"values.{name}")
            if not isinstance(values, list) or not values:
                raise self.fault("has to be a list of at least one value", f"values.{name}")
            for value in values if name in OPTIONS else ():
                if isinstance(value, (bool, float)) or value not in VALUES[name]:
                    raise self.fault(f"{value!r} isn't {told_values(name)}", f"values.{name}")
            count *= len(values)
        if count > MOST_CONFIGURATIONS:
            raise self.fault(f"{count} configurations are more than {MOST_CONFIGURATIONS}", "values")

    def configurations(self):
        """All combinations of the values, in the order of the plan; the last value changes fastest."""
        names = list(self.varied)
        combinations = itertools.product(*self.varied.values())
        return [Configuration(number, dict(zip(names, values))) for number, values in enumerate(combinations)]

    def head(self, configuration):
        """The head of the drive of a configuration."""
        try:
            return head_of_description(self.drive_text, self.drive, configuration.changes())
        except InputFault as fault:
            fault.text += f" (configuration {configuration.number})"
            raise

    def workload(self):
        """The words of `ssdtool trace` that make the workload, or None where there is a trace."""
        try:
            return shlex.split(self.values["workload"]) if "workload" in self.values else None
        except ValueError as fault:
            raise self.fault(str(fault), "workload") from None
