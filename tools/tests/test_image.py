"""Images: made from descriptions, described again, and shown."""
import json
import struct
import unittest

from support import SMALL, ToolTest

# The image of the first example, field by field as the table of the format has it.
FIRST_EXAMPLE = (
    b"SSDIMG01" + struct.pack("<BBHHHBBBBIIQIhhHH2h", 1, 3, 4, 2, 64, 3, 6, 2, 8, 8, 8, 1, 0, -100, 100, 0, 10, 0, -60)
    + struct.pack("<18h", 0, 1, -1, 1, 0, -1, 5, -1, 7, 0, 0, 0, -1, 11, 3, 1, -1, 0) + bytes(5))


def full_image():
    """A full image with a frontier whose stripe is open, a sealed, a bad and two free superblocks, and three rows."""
    page = struct.pack("<384h", *[-100, 100] * 192)
    blocks = [(2, 7, 4, (2, 2, 2), b""), (1, 3, 1, (0, 0, 1), bytes(48)), (3, 1, 0, (0, 0, 0), b""), (0, 9, 0, (0, 0, 0), b"")]
    data = FIRST_EXAMPLE[:-1] + b"\1"
    for state, erases, used, programmed, rest in blocks:
        data += struct.pack("<BII3H", state, erases, used, *programmed) + page * sum(programmed) + rest
    rows = [struct.pack("<BHIQ", 1, 0, 2, 5), b"\2", struct.pack("<BHIQ", 1, 1, 0, 6)]
    return data + b"".join(rows) + bytes(5)


class MakeTest(ToolTest):
    def test_the_first_example_is_made_byte_by_byte(self):
        self.assertEqual(self.small_image().read_bytes(), FIRST_EXAMPLE)

    def test_version_2_has_the_number_of_codewords_after_its_text(self):
        self.write("two.toml", SMALL.replace("version = 1", "version = 2").replace("rows = 8", "rows = 8\nwords = 2").replace(
            "lifting = 64", "lifting = 32"))
        self.tool("image", "make", "two.toml", "-o", "two.img")
        changed = b"SSDIMG02\2" + FIRST_EXAMPLE[8:14] + b"\x20" + FIRST_EXAMPLE[15:]
        self.assertEqual((self.folder / "two.img").read_bytes(), changed)

    def test_the_version_is_the_named_one_or_the_default_or_2_for_several_codewords(self):
        from drive_tools.image.head import DEFAULT_VERSION, MAGICS
        plain, one, two = SMALL.replace("version = 1\n", ""), "rows = 8\nwords = 1", "rows = 8\nwords = 2"
        for text, due in ((plain, MAGICS[DEFAULT_VERSION]), (plain.replace("rows = 8", one), MAGICS[DEFAULT_VERSION]),
                          (plain.replace("rows = 8", two), b"SSDIMG02\2"), ("version = 2\n" + plain, b"SSDIMG02\1"),
                          (SMALL, b"SSDIMG01\1")):
            self.write("drive.toml", text)
            self.tool("image", "make", "drive.toml", "-o", "drive.img")
            self.assertEqual((self.folder / "drive.img").read_bytes()[:len(due)], due)
        self.write("bad.toml", SMALL.replace("rows = 8", two))
        self.refused("image", "make", "bad.toml", tells="bad.toml:10: sizes.words: an image of version 1 has one codeword")
        self.write("bad.toml", plain.replace("rows = 8", "rows = 8\nwords = 3"))
        self.refused("image", "make", "bad.toml", tells="bad.toml:9: sizes.words: 3 codewords a page are none of 1, 2, 4")

    def test_weak_and_bad_blocks_are_put_in_order(self):
        lists = ("[[weak]]\nchannel = 0\ndie = 2\nsuperblock = 1\nfrom = 4\n[[weak]]\nchannel = 0\ndie = 1\nsuperblock = 3\n"
                 "from = 0\n[[bad]]\nchannel = 0\nsuperblock = 2\n")
        self.write("lists.toml", SMALL.replace("rows = 8", "rows = 4") + lists)
        self.tool("image", "make", "lists.toml", "-o", "lists.img")
        made = (self.folder / "lists.img").read_bytes()
        self.assertEqual(made[88:], struct.pack("<HBBHIBBHIHBBHB", 2, 0, 1, 3, 0, 0, 2, 1, 4, 1, 0, 0, 2, 0))
        shown, _ = self.tool("image", "show", "lists.img")
        self.assertIn("channel 0, die 2, superblock 1, from 4 erases on", shown)

    def test_a_description_is_made_from_an_image_and_gives_it_again(self):
        for size in ("small", "medium", "large"):
            self.tool("image", "new", "--size", size, "--seed", 5, "-o", "new.toml")
            self.tool("image", "make", "new.toml", "-o", "new.img")
            self.tool("image", "describe", "new.img", "-o", "again.toml")
            self.tool("image", "make", "again.toml", "-o", "again.img")
            self.assertEqual((self.folder / "new.img").read_bytes(), (self.folder / "again.img").read_bytes())

    def test_each_family_has_the_form_of_a_base_matrix(self):
        from drive_tools.image.base_matrix import FAMILIES, check_matrix, matrix_of_family
        for family in FAMILIES:
            matrix = matrix_of_family(family, 8, 30, 67, 3, 4)
            check_matrix(matrix, 67)
            self.assertEqual(matrix, matrix_of_family(family, 8, 30, 67, 3, 4), f"{family} is drawn from its seed alone")

    def test_the_staggered_family_is_that_of_generated_work(self):
        from drive_tools.image.base_matrix import matrix_of_family
        from drive_tools.random_words import RandomWords
        words, matrix = RandomWords(1), matrix_of_family("staggered", 8, 73, 512, 1, 3)
        for i in range(8):
            due = [words.word() % 512 if (i + j) % 8 in (0, 3, 5) else -1 for j in range(65)]
            self.assertEqual(matrix[i][:65], due)
        self.assertEqual([base_row[65] for base_row in matrix], [1, -1, -1, -1, 0, -1, -1, 1])


class FaultTest(ToolTest):
    def test_a_field_out_of_range_is_named_with_its_line_and_range(self):
        cases = (
            ("channels = 1", "channels = 9", "bad.toml:4: sizes.channels: 9 isn't in 1 to 8"),
            ("dies = 3", "dies = 2", "bad.toml:5: sizes.dies: 2 isn't in 3 to 8"),
            ("data_bytes = 8", "data_bytes = 9", "sizes.data_bytes: 9 isn't in 1 to 8"),
            ("rows = 8", "rows = 9", "sizes.rows: 9 isn't in 1 to 8"),
            ("rows = 8", "rows = 0", "sizes.rows: 0 isn't in 1 to 8"),
            ("rows = 8", "", "sizes.rows: has to be there, or over_provisioning"),
            ("rows = 8", "over_provisioning = 10", "10 percent give 14 rows, which isn't in 1 to 8"),
            ("lifting = 64", "lifting = 20", "code.base_columns: (base_columns - base_rows) * lifting is 60"),
            ("lifting = 64", "lifting = 1" + "0" * 300, "code.lifting: 1000"),
            ("programmed = 100", "programmed = -100", "cells.programmed: -100 isn't in -99 to 8191"),
            ("levels = [0, -60]", "levels = []", "reading.levels: has to be a list of 1 to 16 numbers"),
            ("levels = [0, -60]", "levels = [0.5]", "reading.levels: 0.5 isn't in -16384 to 16383"),
            ("soft_step = 10", "soft_step = 0", "reading.soft_step: 0 isn't in 1 to 2047"),
            ("channels = 1", "channels = 8\nsuperbloks = 4", "there is no such field; there are channels"),
            ("seed = 1", "seed = true", "cells.seed: True is no whole number"),
            ("pages = 2", "pages = 2 2", "bad.toml:7: no TOML"),
            ("soft_step = 10\n", "soft_step =", "bad.toml:27: no TOML"),
        )
        for old, new, tells in cases:
            with self.subTest(new=new):
                self.write("bad.toml", SMALL.replace(old, new))
                self.refused("image", "make", "bad.toml", "-o", "bad.img", tells=tells, leaves="bad.img")

    def test_a_wrong_base_matrix_is_told_with_its_entry(self):
        cases = (("[0, 1, -1, 1, 0, -1]", "[64, 1, -1, 1, 0, -1]", "row 0, column 0: 64 isn't in -1 to 63"),
                 ("[5, -1, 7, 0, 0, 0]", "[5, -1, 7, 2, 0, 0]", "row 1, column 3: 2 isn't right"),
                 ("[5, -1, 7, 0, 0, 0]", "[5, -1, 7, 0, -1, 0]", "row 1, column 4: -1 isn't 0"),
                 ("[-1, 11, 3, 1, -1, 0]", "[-1, 11, 3, 2, -1, 0]", "row 2, column 3: 2 isn't the shift 1"),
                 ("[-1, 11, 3, 1, -1, 0]", "[-1, 11, 3]", "has to be a list of rows of the same length"))
        for old, new, tells in cases:
            with self.subTest(new=new):
                self.write("bad.toml", SMALL.replace(old, new))
                self.refused("image", "make", "bad.toml", "-o", "bad.img", tells=tells, leaves="bad.img")

    def test_a_family_is_named_and_wants_its_seed_in_the_file(self):
        self.tool("image", "new", "--seed", 5, "-o", "new.toml")
        text = (self.folder / "new.toml").read_text()
        for wrong in ('"rendom"', "[1]", "3"):
            self.write("bad.toml", text.replace('family = "random"', f"family = {wrong}"))
            self.refused("image", "make", "bad.toml", "-o", "bad.img", tells="is none of random, staggered, array",
                         leaves="bad.img")
        self.write("bad.toml", text.replace("seed = 5                 # from which", "# from which"))
        self.refused("image", "make", "bad.toml", "-o", "bad.img", tells="code.seed: is missing", leaves="bad.img")

    def test_an_old_file_stays_where_the_new_one_is_refused(self):
        self.write("kept.img", b"old")
        self.write("bad.toml", SMALL.replace("pages = 2", "pages = 1"))
        self.refused("image", "make", "bad.toml", "-o", "kept.img", tells="sizes.pages: 1 isn't in 2 to 256")
        self.assertEqual((self.folder / "kept.img").read_bytes(), b"old")
        self.assertEqual(sorted(path.name for path in self.folder.iterdir()), ["bad.toml", "kept.img"])


class ShowTest(ToolTest):
    def test_contents_are_shown(self):
        self.write("full.img", full_image() + b"trace 1 1\n")
        shown, _ = self.tool("image", "show", "full.img")
        self.assertIn("channel 0: 2 of 8 rows in use, 1 lost", shown)
        self.assertRegex(shown, r"0 sealed +7 +4 +1  2 2 2")
        self.assertRegex(shown, r"1 frontier +3 +1 +1  0 0 1")
        self.assertRegex(shown, r"-100 to \S+ +1344 #+")
        self.assertIn("after the image: 10 bytes", shown)

    def test_contents_of_version_2_are_shown(self):
        # Two codewords of half the size: the pages, and so all contents, have the same bytes.
        image = full_image()
        self.write("one.img", b"SSDIMG02\1" + image[8:])
        self.write("two.img", b"SSDIMG02\2" + image[8:14] + b"\x20" + image[15:])
        first, one, two = (json.loads(self.tool("image", "show", "--json", name)[0]) for name in (
            self.write("first.img", image), "one.img", "two.img"))
        self.assertEqual([(shown["version"], shown["words"]) for shown in (first, one, two)], [(1, 1), (2, 1), (2, 2)])
        for name in ("channels_shown", "histogram", "cells"):
            self.assertEqual(one[name], first[name])
            self.assertEqual(two[name], first[name])

    def test_contents_are_shown_as_json(self):
        self.write("full.img", full_image())
        values = json.loads(self.tool("image", "show", "--json", "full.img")[0])
        self.assertEqual(values["histogram"], {"-100": 1344, "100": 1344})
        self.assertEqual(values["channels_shown"][0]["superblocks"][0]["state"], "sealed")

    def test_a_damaged_image_is_refused_at_its_byte(self):
        image = full_image()
        cases = ((b"", "byte 0: the text at its beginning: the image ends too early"),
                 (b"SSDIMG03" + image[8:], "neither SSDIMG01 nor SSDIMG02"),
                 (b"SSDIMG02\3" + image[8:], "byte 8: words: 3 codewords a page are none of 1, 2, 4"),
                 (image[:9] + b"\2" + image[10:], "byte 9: dies: 2 isn't in 3 to 8"),
                 (image[:200], "byte 200: channel 0, superblock 0, levels: the image ends too early"),
                 (image[:93] + b"\5" + image[94:], "byte 93: channel 0, superblock 0, state: 5 isn't in 0 to 4"),
                 (image[:52] + b"\x40" + image[53:], "byte 52: base matrix: row 0, column 0: 64 isn't in -1 to 63"),
                 (image[:88] + b"\1\0\0\3", "byte 91: weak block 0, die: 3 isn't in 0 to 2"),
                 (image[:88] + b"\2\0" + bytes(16), "byte 98: weak block 1: doesn't come after the one before it"),
                 (image[:90] + b"\1\0\0\1", "byte 93: factory bad superblock 0, zero byte: 1 isn't in 0 to 0"),
                 (image[:90] + b"\1\0" + bytes(4), "byte 90: rows beside the factory bad superblocks: 8 isn't in 1 to 4"))
        for data, tells in cases:
            with self.subTest(tells=tells):
                self.write("bad.img", data)
                self.refused("image", "show", "bad.img", tells=tells)


if __name__ == "__main__":
    unittest.main()
