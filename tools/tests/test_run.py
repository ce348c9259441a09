"""Runs and sweeps, with the plain simulation in the place of the program."""
import csv
import io
import os
import shlex
import subprocess
import sys
import unittest

from support import SMALL, STAND_IN, TOOL, ToolTest

PLAN = """\
drive = "small.toml"
workload = "make --calls 12 --without-collection --seed 4"

[values]
policy = ["greedy", "oldest"]
levels = [[0], [0, -60]]
"""


class RunTest(ToolTest):
    def setUp(self):
        super().setUp()
        self.small_image()
        self.write("work.trace", "trace 1 1\n0 write 5 x0102\n0 read 5\n")

    def test_a_run_is_followed_and_its_text_kept(self):
        _, told = self.tool("run", "small.img", "work.trace", "-o", "run.txt")
        text = (self.folder / "run.txt").read_text()
        self.assertTrue(text.startswith("channel 0 4\n0 0.0 write 5 0.0\n"))
        self.assertRegex(told, r"ssd ended with status 0 after \d+\.\d s, at most .* of memory, 277 bytes written")
        self.assertEqual(self.tool("run", "small.img", "work.trace")[0], text)

    def test_an_input_of_one_piece_from_standard_input(self):
        joined = (self.folder / "small.img").read_bytes() + (self.folder / "work.trace").read_bytes()
        self.assertIn("1 data 0 0102000000000000", self.tool("run", data=joined)[0])

    def test_the_status_is_handed_on_and_no_file_is_left(self):
        self.write("bad.trace", "trace 1 1\n0 fly 5\n")
        _, told = self.tool("run", "small.img", "bad.trace", "-o", "run.txt", status=4)
        self.assertIn("ssd says: trace fault in line 2: verb", told)
        self.assertFalse((self.folder / "run.txt").exists())
        _, told = self.tool("run", "small.img", "work.trace", "--", "run", "--policy=oldest", status=2)
        self.assertIn("ssd says: words refused", told)

    def test_a_program_that_is_not_there(self):
        self.refused("run", "--ssd", "nowhere", "small.img", tells="nowhere: is no program that can be run, as --ssd says")
        self.refused("run", "no.img", tells="no.img: No such file or directory")

    def test_the_command_itself(self):
        run = subprocess.run([sys.executable, str(TOOL), "report", "-"], input=b"x\n", capture_output=True, timeout=60)
        self.assertEqual((run.returncode, run.stdout), (1, b""))
        told = "ssdtool: -:1: 'x' isn't a line 'channel C N', 'actor A N' or 'summary' of a run\n"
        self.assertEqual(run.stderr.decode(), told)


class HelpTest(ToolTest):
    def test_each_subcommand_has_a_help(self):
        for words in (["image"], ["image", "new"], ["image", "make"], ["image", "show"], ["image", "describe"], ["trace"],
                      ["trace", "fio"], ["trace", "csv"], ["trace", "blkparse"], ["trace", "make"], ["run"], ["report"],
                      ["view"], ["sweep"], []):
            text, _ = self.tool(*words, "--help")
            self.assertTrue(text.startswith("usage: ssdtool"), words)
        self.assertIn("--sshlogin", self.tool("sweep", "--help")[0])
        self.assertIn("sbatch --array", self.tool("sweep", "--help")[0])

    def test_wrong_words_are_refused(self):
        for words in ([], ["fly"], ["image"], ["image", "make"], ["trace", "fio"], ["report"], ["view", "x"], ["sweep"]):
            self.tool(*words, status=2)


class SweepTest(ToolTest):
    def setUp(self):
        super().setUp()
        self.write("small.toml", SMALL)
        self.write("plan.toml", PLAN)

    def test_every_combination_is_one_row(self):
        _, told = self.tool("sweep", "plan.toml", "-o", "table.csv", "--jobs", 2)
        rows = list(csv.DictReader(io.StringIO((self.folder / "table.csv").read_text())))
        self.assertEqual([row["configuration"] for row in rows], [str(n) for n in range(4)])
        self.assertEqual([row["levels"] for row in rows[:2]], ["0", "0 -60"])
        self.assertEqual([row["status"] for row in rows], ["0", "0", "2", "2"])
        self.assertEqual((rows[0]["write_amplification"], rows[2]["says"]), ("1.0", "words refused"))
        self.assertIn("4 of 4 runs, 2 not of status 0", told)

    def test_one_configuration_alone_gives_its_row(self):
        self.tool("sweep", "plan.toml", "-o", "table.csv", "--quiet", "--keep", "kept")
        header, *rows = (self.folder / "table.csv").read_text().splitlines()
        self.assertEqual(self.tool("sweep", "plan.toml", "--header")[0], header + "\n")
        # Seconds and memory differ from run to run.
        columns = [name not in ("seconds", "memory") for name in header.split(",")]
        alone = next(csv.reader([self.tool("sweep", "plan.toml", "--only", 1)[0]]))
        same = [cell for cell, kept in zip(alone, columns) if kept]
        self.assertEqual(same, [cell for cell, kept in zip(next(csv.reader([rows[1]])), columns) if kept])
        self.assertEqual(len(list((self.folder / "kept").iterdir())), 12)

    def test_command_lines_for_other_machines(self):
        lines = self.tool("sweep", "plan.toml", "--commands")[0].splitlines()
        self.assertEqual(len(lines), 4)
        self.assertTrue(lines[3].endswith("sweep plan.toml --only 3"))
        line = shlex.join([sys.executable, str(TOOL), *shlex.split(lines[0])[1:]])
        run = subprocess.run(line, shell=True, capture_output=True, cwd=self.folder, timeout=60,
                             env={**os.environ, "SSD": str(STAND_IN)})
        self.assertEqual((run.returncode, run.stdout[:13]), (0, b"0,greedy,0,0,"), run.stderr)

    def test_wrong_plans_are_refused_before_any_run(self):
        policies = "policy = [\"greedy\", \"oldest\"]"
        cases = (("drive = ", "drive = 3 #", "plan.toml:1: drive: has to be a text"),
                 ("small.toml", "none.toml", "none.toml: No such file"),
                 (policies, "colour = [1]", "plan.toml:5: values.colour: can't be varied; these can: policy"),
                 ("[\"greedy\", \"oldest\"]", "[\"gredy\"]", "values.policy: 'gredy' isn't one of greedy, oldest"),
                 (policies, "lanes = [true]", "plan.toml:5: values.lanes: True isn't one of 1, 4, 8"),
                 (policies, "history = [255]", "history: 255 isn't in 256 to 4194304"),
                 ("levels = [[0], [0, -60]]", "levels = []", "values.levels: has to be a list of at least one value"),
                 ("levels = [[0], [0, -60]]", "spread = [0, 5000]", "cells.spread: 5000 isn't in 0 to 4095 (configuration 1)"),
                 ("workload = ", "work = ", "plan.toml:2: work: there is no such field"),
                 ("make --calls", "bake --calls", "workload: aren't words of `ssdtool trace`"))
        for old, new, tells in cases:
            with self.subTest(new=new):
                self.write("plan.toml", PLAN.replace(old, new))
                self.refused("sweep", "plan.toml", "-o", "table.csv", "--quiet", tells=tells, leaves="table.csv")
        self.write("plan.toml", PLAN)
        self.refused("sweep", "plan.toml", "--only", 4, tells="plan.toml: --only: 4 isn't in 0 to 3")


if __name__ == "__main__":
    unittest.main()
