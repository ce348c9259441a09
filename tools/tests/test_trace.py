"""Traces: from logs of each form, and made by chance."""
import unittest
from collections import Counter

from support import DATA, SMALL, ToolTest


class TraceTest(ToolTest):
    def setUp(self):
        super().setUp()
        self.small_image()

    def trace(self, *words, data=b""):
        """The lines of the trace that the command makes, and what it tells."""
        lines, told = self.tool("trace", *words, data=data)
        return lines.splitlines(), told

    def large_image(self):
        """A drive of 1,024 pages of 512 bytes."""
        self.tool("image", "new", "--seed", 5, "-o", "large.toml")
        self.tool("image", "make", "large.toml", "-o", "large.img")
        return "large.img"


class FioTest(TraceTest):
    def test_a_log_of_version_3_becomes_calls_on_pages(self):
        log = "fio version 3 iolog\n1 a b.dat add\n2 a b.dat open\n3 a b.dat write 8 17\n4 a b.dat read 0 8\n" \
              "5 a b.dat trim 4 20\n6 a b.dat sync 0 0\n7 a b.dat close\n"
        self.write("one.iolog", log)
        lines, told = self.trace("fio", "one.iolog", "--image", "small.img")
        self.assertEqual(lines, ["trace 1 1", "0 write 1 g0", "0 write 2 g1", "0 write 3 g2", "0 read 0", "0 trim 1",
                                 "0 trim 2"])
        self.assertIn("6 calls by 1 actor(s): 3 writes, 1 read, 2 trims", told)
        self.assertIn("left out: 1 requests sync", told)
        self.assertIn("left out: 1 pages that a trim covers only in part", told)
        self.assertIn("note: 1 pages that a write touches only in part and that are written whole", told)

    def test_real_logs_are_put_in_order_by_their_times_with_an_actor_each(self):
        lines, told = self.trace("fio", DATA / "database.iolog", DATA / "backup.iolog", "--image", "small.img",
                                 "--page-bytes", 65536, "--fit", "wrap")
        self.assertEqual(lines[0], "trace 1 2")
        self.assertEqual(Counter(line.split()[1] for line in lines[1:]), {"write": 63, "read": 61})
        self.assertEqual({line[0] for line in lines[1:]}, {"0", "1"})
        self.assertIn("left out: 3 requests sync", told)

    def test_a_log_of_version_2_and_lines_with_cr_give_the_same(self):
        words = ("--image", "small.img", "--page-bytes", 32768)
        due, _ = self.trace("fio", DATA / "backup.iolog", *words)
        for name in ("backup_version_2.iolog", "backup_crlf.iolog"):
            self.assertEqual(self.trace("fio", DATA / name, *words)[0], due)

    def test_real_trims_are_taken(self):
        lines, _ = self.trace("fio", DATA / "trimwrite.iolog", "--image", "small.img", "--page-bytes", 4096, "--fit", "pack")
        self.assertEqual(Counter(line.split()[1] for line in lines[1:]), {"trim": 8, "write": 8})

    def test_a_log_from_standard_input(self):
        lines, _ = self.trace("fio", "-", "--image", "small.img", data=b"fio version 2 iolog\na write 0 8\na read 0 8")
        self.assertEqual(lines, ["trace 1 1", "0 write 0 g0", "0 read 0"])

    def test_wrong_lines_are_told_and_leave_no_trace(self):
        head = "fio version 3 iolog\n"
        cases = (("", "bad.iolog:1: is empty"), ("fio version 1 iolog\n", "bad.iolog:1: isn't 'fio version 2 iolog'"),
                 (head + "1 a add\n2 a wrote 0 8\n", "bad.iolog:3: action: 'wrote' is none of"),
                 (head + "1 a write 0\n", "bad.iolog:2: isn't a file, an action, an offset and a length"),
                 (head + "x a write 0 8\n", "bad.iolog:2: time: 'x' is no number"),
                 (head + "1 a write -8 8\n", "bad.iolog:2: offset: '-8' is no number"),
                 (head + f"1 a write {2 ** 64} 8\n", "bad.iolog:2: offset: 18446744073709551616 is 2^64 or more"),
                 (head + "1 a write " + "9" * 70000 + " 8\n", "bad.iolog:2: the line has more than 65536 bytes"),
                 (head + "1 a write 0 8\n" + head, "bad.iolog:3: another run's log begins here"),
                 (head + "1 a add\n", "bad.iolog: has no read, write or trim"))
        for log, tells in cases:
            with self.subTest(tells=tells):
                self.write("bad.iolog", log)
                self.refused("trace", "fio", "bad.iolog", "--image", "small.img", "-o", "bad.trace", tells=tells,
                             leaves="bad.trace")

    def test_logs_of_two_versions_have_no_order(self):
        self.refused("trace", "fio", DATA / "backup.iolog", DATA / "backup_version_2.iolog", "--image", "small.img",
                     tells="backup_version_2.iolog:1: is of another version")

    def test_huge_requests_end(self):
        self.write("huge.iolog", f"fio version 2 iolog\na write 0 {2 ** 64 - 1}\na write {2 ** 63} 8\na read 0 8\n")
        for fit in ("drop", "wrap", "pack"):
            lines, told = self.trace("fio", "huge.iolog", "--image", "small.img", "--fit", fit)
            self.assertEqual(lines[-1].split()[1], "read")
            self.assertIn("left out: 1 requests of more than 1048576 pages", told)


class BlockTest(TraceTest):
    def test_block_traces_in_csv(self):
        lines, told = self.trace("csv", DATA / "volume.csv", "--image", self.large_image(), "--fit", "pack", "--actors", "disk",
                                 "--page-bytes", 4096)
        self.assertEqual(lines[:3], ["trace 1 3", "0 read 0", "0 read 1"])
        # The first request begins and ends within a page, so it touches seven.
        self.assertEqual(lines[7:11], ["0 read 6", "0 write 7 g0", "0 write 8 g1", "0 write 9 g2"])
        self.assertEqual(lines[11:13], ["1 read 10", "1 read 11"])
        self.assertEqual({line[0] for line in lines[1:]}, {"0", "1", "2"})
        self.assertIn("calls by 3 actor(s)", told)

    def test_a_heading_and_a_missing_response_time_are_fine(self):
        text = "Timestamp,Hostname,DiskNumber,Type,Offset,Size,ResponseTime\r\n5,h,0,write,0,8\r\n6,h,0,Trim,8,8,3\r\n"
        self.write("one.csv", text)
        self.assertEqual(self.trace("csv", "one.csv", "--image", "small.img")[0], ["trace 1 1", "0 write 0 g0", "0 trim 1"])

    def test_wrong_lines_of_csv_are_told(self):
        cases = (("", "bad.csv:1: has no line of timestamp"), ("1,h,0,Read,0\n", "bad.csv:1: has 5 fields"),
                 ("1,h,0,Read,0,8,1\n1,h,0,Seek,0,8,1\n", "bad.csv:2: type: 'Seek' is none of"),
                 ("1,h,0,Read,0x10,8,1\n", "bad.csv:1: offset: '0x10' is no number"))
        for text, tells in cases:
            with self.subTest(tells=tells):
                self.write("bad.csv", text)
                self.refused("trace", "csv", "bad.csv", "--image", "small.img", "-o", "bad.trace", tells=tells,
                             leaves="bad.trace")

    def test_text_of_blkparse(self):
        image = self.large_image()
        lines, told = self.trace("blkparse", DATA / "sdb.blkparse", "--image", image, "--page-bytes", 512, "--fit", "pack")
        self.assertEqual(lines[:3], ["trace 1 2", "0 write 0 g0", "0 write 1 g1"])
        # The sectors that blkparse's own summary of this text counts as queued: 60 KiB read, 95 KiB written or discarded.
        verbs = Counter(line.split()[1] for line in lines[1:])
        self.assertEqual(verbs["read"] // 2, 60)
        self.assertEqual((verbs["write"] + verbs["trim"]) // 2, 95)
        self.assertIn("left out: 40 events of action C", told)
        self.assertIn("left out: 1 messages", told)

    def test_wrong_lines_of_blkparse_are_told(self):
        for text, tells in (("", "bad.txt:1: has no event"), ("hello\n", "bad.txt:1: isn't a line of blkparse")):
            self.write("bad.txt", text)
            self.refused("trace", "blkparse", "bad.txt", "--image", "small.img", "-o", "bad.trace", tells=tells,
                         leaves="bad.trace")


class MakeTest(TraceTest):
    def test_a_seed_gives_the_same_and_another_one_another(self):
        words = ("make", "--image", "small.img", "--calls", 200, "--pattern", "mixed", "--mix", "zipf=1,uniform=1,sequential=1")
        first = self.trace(*words, "--seed", 7)
        self.assertEqual(first, self.trace(*words, "--seed", 7))
        self.assertNotEqual(first, self.trace(*words, "--seed", 8))

    def test_patterns_and_shares_are_kept(self):
        image = self.large_image()
        words = ("make", "--image", image, "--calls", 4000, "--reads", 1, "--writes", 3, "--trims", 0, "--seed", 3)
        pages = {}
        for pattern in ("uniform", "zipf", "sequential"):
            lines, _ = self.trace(*words, "--pattern", pattern)
            verbs = Counter(line.split()[1] for line in lines[1:])
            self.assertEqual(sum(verbs.values()), 4000)
            self.assertAlmostEqual(verbs["read"], 1000, delta=150)
            pages[pattern] = Counter(int(line.split()[2]) for line in lines[1:])
            self.assertLess(max(pages[pattern]), 1024)
        self.assertEqual(set(pages["sequential"].values()), {3, 4})
        self.assertLess(max(pages["uniform"].values()), 20)
        self.assertGreater(max(pages["zipf"].values()), 300)

    def test_blocks_are_aged_in_their_turn(self):
        lines, _ = self.trace("make", "--image", "small.img", "--calls", 40, "--age-every", 10, "--age-amount", 9)
        ages = [line for line in lines if " age " in line]
        self.assertEqual(ages, ["0 age 0 0 0 9", "0 age 0 1 0 9", "0 age 0 2 0 9", "0 age 0 0 1 9"])
        self.assertEqual(lines.index(ages[0]), 11)

    def test_writes_that_want_a_collection_are_left_out_where_asked(self):
        words = ("make", "--image", "small.img", "--calls", 50, "--reads", 0, "--trims", 0)
        lines, told = self.trace(*words, "--without-collection")
        self.assertEqual(len(lines), 1 + 12)
        self.assertIn("left out: 38 writes that a blank drive takes only by collecting", told)
        self.assertEqual(len(self.trace(*words)[0]), 1 + 50)

    def test_what_is_made_is_served(self):
        self.tool("trace", "make", "--image", "small.img", "--calls", 60, "--without-collection", "--actors", 3, "--age-every",
                  9, "-o", "work.trace")
        _, told = self.tool("run", "small.img", "work.trace", "-o", "run.txt")
        self.assertIn("status 0", told)

    def test_limits_of_a_trace_are_kept(self):
        from drive_tools.image.description import head_of_description
        from drive_tools.trace import writing
        head, kept = head_of_description(SMALL, "small"), []
        file = type("File", (), {"write": staticmethod(kept.append)})
        writer = writing.TraceWriter(file, head, 1)
        writer.calls = writing.MOST_CALLS - 1
        writer.add(0, "read", 1)
        writer.add(0, "read", 2)
        self.assertEqual(kept, [b"trace 1 1\n", b"0 read 1\n"])
        self.assertEqual(sum(writer.left_out.values()), 1)

    def test_wrong_words_are_refused(self):
        for words in (["--pattern", "zigzag"], ["--mix", "zipf=0"], ["--calls", "1" + "0" * 40], ["--seed", "-1"],
                      ["--exponent", "nan"], ["--actors", 33], ["--age-every", 0]):
            self.tool("trace", "make", "--image", "small.img", *words, status=2)
        self.refused("trace", "make", "--image", "small.img", "--reads", 0, "--writes", 0, "--trims", 0,
                     tells="all shares of calls are 0")
        self.refused("trace", "make", "--image", "missing.img", tells="missing.img: No such file")


if __name__ == "__main__":
    unittest.main()
