"""Unit tests of known.py and its table."""
import contextlib
import io
import pathlib
import tempfile
import unittest

import beside  # noqa: F401 (it puts tools/ on the path)
from tcdlib import formats as readers
import known
from tcdlib import known_rows

CODE = 0x80000000
#: `mul` by a constant and `jz.t`, which aren't in tcd's table
MUL = bytes.fromhex("53102020")
JUMP_AHEAD = bytes.fromhex("6F000400")  # to 8 bytes after itself
NOP, RET = readers.code(["nop"]), readers.code(["ret"])


def reached(code, by_memory=False):
    return known.Reached(known.Image([(CODE, code)]), [CODE], by_memory)


def printed(code, *words):
    """What known.py prints of an executable with this code, and its status."""
    with tempfile.TemporaryDirectory() as folder:
        path = pathlib.Path(folder) / "firmware.elf"
        path.write_bytes(readers.elf_bytes(CODE, [(CODE, code)]))
        with contextlib.redirect_stdout(io.StringIO()) as out:
            status = known.main([str(path), *words])
    return out.getvalue(), status


class Counts(unittest.TestCase):
    def test_all_known(self):
        found = reached(NOP + RET)
        self.assertEqual((sorted(found.found), found.unknown), ([CODE, CODE + 4], []))

    def test_an_unknown_one_goes_on_after_itself(self):
        found = reached(MUL + RET)
        self.assertEqual((len(found.found), found.unknown), (2, [CODE]))

    def test_counts_follow_no_unknown_jump(self):
        code = JUMP_AHEAD + RET + NOP + RET
        self.assertEqual(sorted(reached(code).found), [CODE, CODE + 4])
        self.assertEqual(len(reached(code, by_memory=True).found), 4)

    def test_a_call_through_a_register(self):
        found = reached(readers.code(["calli a15", "ret"]))
        self.assertEqual(found.through, [CODE])

    def test_a_target_without_bytes(self):
        self.assertEqual(reached(readers.code(["j .+64"])).lost, {CODE + 64})


class Printed(unittest.TestCase):
    def test_counts_stand_before_names(self):
        text, status = printed(MUL + RET)
        counts, _, listed = text.partition("\n\n")
        self.assertEqual(status, 1)
        self.assertIn("2 instructions reached: 1 known, 1 not known (50.0 %)", counts)
        self.assertNotIn("mul", counts)
        self.assertIn("from memory of the manual, not compared with it", listed)
        self.assertIn("mul", listed)

    def test_nothing_unknown(self):
        text, status = printed(NOP + RET)
        self.assertEqual(status, 0)
        self.assertIn("All instructions that are reached are in tcd's table.", text)
        self.assertNotIn("from memory", text)


class Rows(unittest.TestCase):
    def test_an_item(self):
        self.assertEqual(known_rows.split("10-14 16 ld (+ before)"), ("10-14 16", "ld (+ before)"))
        self.assertEqual(list(known_rows.numbers("10-12 16")), [16, 17, 18, 22])

    def test_known_rows_have_the_names_that_they_have_here(self):
        """They aren't looked up, but show whether names stand at their bytes."""
        for row in readers.ROWS:
            name = known_rows.name_of(row.code, row.length)
            plain = row.name.replace("16", "").replace(".l", "").split(".")[0]
            if not name.startswith("opcode"):
                self.assertIn(plain, name, f"{row.name} at {row.code:08X}")

    def test_a_16_bit_instruction_says_so(self):
        self.assertEqual(known_rows.name_of(0x00E2, 2), "mul (16 bits)")


if __name__ == "__main__":
    unittest.main()
