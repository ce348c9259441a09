"""Reports: what a run's text counts up to."""
import json
import unittest

from made_runs import made_run
from support import ToolTest

# A collection on the drive of the first example: writes, a pick, copies, an erase; a bad entry; a fault; replies of each kind.
RUN = """\
channel 0 16
0 0.0 write 5 0.0
1 0.1 write 6 0.1
2 1.0 look 5 page 0.0 0 closed
3 1.0 sense 2 1.0.0 0
4 1.0 sense 2 1.0.0 -60
5 1.0 leave 2
6 0.2 pick 0
7 0.2 look 5 page 0.0 0 closed
8 0.2 sense 7 1.0.0 0
9 0.2 move 7 1.0
10 0.2 leave 7
11 0.2 bad erase 0 1 fail
12 1.1 look 7 empty
13 1.2 look 6 page 0.1 1 closed
14 1.2 fault sense 13 2.0.0 0
15 1.2 leave 13
actor 0 3
0 ok
1 ok
2 retired 0
actor 1 4
0 data 1 0102000000000000
1 empty
2 diefault.2
3 drained 2 5=moved 6=uncorrectable
summary
write 2 0 0 0
read 1 1 0 1
trim 0
move 1 condemn 0 changed 0 stay 0
pick 1 erase 0 bad 1 fault 1
sense 3
rung 0 1 0 0
hint 1 0 2
end
"""


class ReportTest(ToolTest):
    def report(self, text, *words):
        """The report on a text, as values."""
        self.write("run.txt", text)
        return json.loads(self.tool("report", "run.txt", "--json", *words)[0])

    def test_counts_of_a_run(self):
        found = self.report(RUN)
        self.assertEqual(found["totals"], {"writes": 2, "moves": 1, "picks": 1, "erases": 0, "senses": 3, "bad": 1,
                                           "faults": 1, "condemns": 0, "write_amplification": 1.5})
        self.assertEqual(found["rungs"], [0, 1, 0, 0])
        self.assertEqual(found["not_ok"]["by_reply"], {"retired": 1, "diefault": 1, "drained uncorrectable": 1})
        self.assertEqual(found["not_ok"]["first"][2], {"actor": 1, "call": 3, "reply": "uncorrectable of page 6"})
        self.assertEqual(found["channels"][0]["looks"], {"page": 3, "empty": 1})
        self.assertEqual(found["channels"][0]["bad"], {"erase fail": 1})
        self.assertEqual(found["actors"][1]["rungs"], {"1": 1})
        self.assertEqual(found["summary"]["hint"], {"pushed": 1, "dropped": 0, "taken": 2})
        self.assertTrue(found["whole"])

    def test_parity_pages_are_counted_with_the_drive(self):
        self.small_image()
        found = self.report(RUN, "--image", "small.img")
        self.assertEqual((found["totals"]["parity_pages"], found["totals"]["write_amplification_with_parity"]), (1, 2.0))

    def test_the_text_of_a_report(self):
        self.write("run.txt", RUN)
        text, _ = self.tool("report", "run.txt")
        self.assertIn("write amplification 1.500: 2 writes of the host and 1 moves", text)
        self.assertRegex(text, r"rung  1  read level 1 +1 100.0%")
        self.assertIn("  actor 1 call 2: diefault.2", text)

    def test_a_summary_alone(self):
        found = self.report(RUN[RUN.index("summary"):])
        self.assertEqual((found["totals"]["write_amplification"], found["not_ok"]["by_reply"]), (1.5, {"diefault": 1}))
        self.assertEqual(found["channels"], [])

    def test_a_text_that_is_cut_off_is_counted_as_a_front(self):
        for size in (13, 60, 400, len(RUN) - 1):
            self.assertFalse(self.report(RUN[:size])["whole"])
        # The first line says how many entries there were; those that are there are counted.
        front = RUN[:60]
        self.assertEqual(self.report(front)["channels"][0]["entries"], front.count("\n") - 1)

    def test_a_wrong_text_is_told_with_its_line(self):
        cases = (("", "bad.txt:1: isn't what a run prints"), ("hello\n", "bad.txt:1: 'hello' isn't a line"),
                 (RUN.replace("3 1.0 sense", "4 1.0 sense"), "bad.txt:5: '4 1.0 sense 2 1.0.0 0' isn't entry 3 of channel 0"),
                 (RUN.replace("0.2 pick", "0.2 peck"), "bad.txt:8"), (RUN.replace("0.2 pick", "0,2 pick"), "bad.txt:8: '0,2'"),
                 (RUN.replace("write 5 0.0", "write 5"), "bad.txt:2"), (RUN.replace("data 1 ", "data one "), "bad.txt:23"),
                 (RUN.replace("\n", "\r\n"), "bad.txt:1"), (RUN + "more\n", "stands after the end"),
                 (RUN.replace("trim 0", "trim"), "'trim' isn't a line of a summary"),
                 (RUN.replace("channel 0 16", "channel 0 " + "9" * 40), "is no number: how many lines follow"))
        for text, tells in cases:
            with self.subTest(tells=tells):
                self.write("bad.txt", text)
                self.refused("report", "bad.txt", "-o", "report.txt", tells=tells, leaves="report.txt")

    def test_a_made_run_agrees_with_its_own_summary(self):
        found = self.report(made_run(3000))
        self.assertEqual(sum(found["rungs"]), found["summary"]["read"]["data"])
        self.assertEqual(found["totals"]["writes"], found["summary"]["write"]["ok"])
        self.assertEqual(found["totals"]["moves"], found["summary"]["move"]["move"])
        self.assertEqual(sum(counts["senses"] for counts in found["channels"]), found["summary"]["sense"]["senses"])


if __name__ == "__main__":
    unittest.main()
