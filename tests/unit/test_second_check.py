"""second_check.py: its arguments and statuses, and that its tests fit the code of today."""
import json
import unittest

import beside
import second_check
import try_second
from hostile.inputs import C0, CELLS, COUNTS, I1, P0, cells_cert, first_cert, with_boot
from tcdlib.values import ANY, Span, includes

FILES = ("firmware.elf", "board.json", "firmware.cert")


class Script(beside.InFolder):
    """The script beside tcd's statuses."""

    def setUp(self):
        super().setUp()
        for name, data in zip(FILES, (I1, P0, C0)):
            self.put(name, data)

    def ran(self, *words):
        """The status and the line; standard error has a line exactly with 3 and 5."""
        done = self.script("second_check.py", *words)
        self.assertEqual(len(done.stderr.splitlines()), int(done.returncode in (3, 5)), words)
        return done.returncode, done.stdout.rstrip("\n")

    def test_statuses(self):
        self.put("short.cert", first_cert()[:100])
        self.put("none.json", "[" * 100000)
        self.put("more.json", P0.replace(b'"reserve":2', b'"reserve":4'))
        refused = "refused K14 at 80000000 in start 80000000 prio 0 is 0"
        for words, wanted in (
            (FILES, (0, "certified 1 of 2 areas")),
            ((FILES[0], "more.json", FILES[2]), (1, refused)),
            ((*FILES[:2], "short.cert"), (2, "bad cert 1 at 100")),
            ((FILES[0], "none.json", FILES[2]), (2, "bad plan 1")),
            ((FILES[1], *FILES[1:]), (2, "bad elf 2")),
            ((*FILES[:2], "none.cert"), (3, "")),
            ((*FILES[:2], "."), (3, "")),
            ((*FILES[:2], "\n"), (3, "")),
            (FILES[:2], (5, "")),
            ((*FILES, "more.cert"), (5, "")),
            ((*FILES, "--boot", "80000800", "--cells", "x"), (5, "")),
            ((*FILES, "--boot", "8000080a"), (5, "")),
            ((*FILES, "--boot", ""), (5, "")),
            ((*FILES, "--cells", ""), (3, "")),
            ((*FILES, "--unknown"), (5, "")),
        ):
            self.assertEqual(self.ran(*words), wanted, words)
        self.assertEqual(self.ran("--help"), (0, second_check.__doc__.rstrip("\n")))

    def test_the_other_commands(self):
        self.put("boot.elf", with_boot())
        self.put("counts.elf", COUNTS)
        self.put("board.cells", CELLS)
        self.put("cells.cert", cells_cert())
        boot = ("boot.elf", *FILES[1:], "--boot", "80000800")
        self.assertEqual(self.ran(*boot), (0, "boot 65 events certified 1 of 2 areas"))
        cells = ("counts.elf", FILES[1], "--cells", "board.cells", "cells.cert")
        self.assertEqual(self.ran(*cells), (0, "certified 0 of 2 areas with 1 cells"))
        self.assertEqual(self.ran(*FILES, "--tasks", "board.cells"), (2, "bad tasks 1 at 1"))

    def test_limits(self):
        self.put("big", bytes(100))
        with self.assertRaisesRegex(second_check.readers.Bad, "plan 0"):
            second_check.bytes_of("big", "plan", 99)
        self.assertEqual(second_check.bytes_of("big", "plan", 100), bytes(100))


class Values(unittest.TestCase):
    def test_a_set_is_no_span(self):
        self.assertNotEqual((1, 2, 0x7F), Span(1, 2, 0x7F))
        self.assertFalse(includes(Span(1, 2, 0x7F), (1, 2, 0x7F)))
        self.assertFalse(includes((1, 2, 0x7F), Span(1, 2, 0x7F)))
        self.assertTrue(includes(ANY, Span(1, 2, 0x7F)))


class Tests(unittest.TestCase):
    """The texts of tests/second."""

    def test_the_cases(self):
        checker = try_second.built()
        cases = try_second.all_cases()
        wrong = [case.title for case in cases if not try_second.is_right(checker, case)]
        self.assertEqual(wrong, [])
        self.assertGreater(len(cases), 2000)

    def test_each_harmless_error_is_one(self):
        texts = {str(error) for _, error in try_second.all_errors()}
        self.assertEqual(set(try_second.harmless()) - texts, set())

    def test_an_error_is_found(self):
        self.assertIsNotNone(try_second.found_by(0))


if __name__ == "__main__":
    unittest.main()
