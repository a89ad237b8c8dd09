"""The list of docs/instructions.md is that of the rows, and the assembler has its ranges."""
import re
import unittest

import beside
import rows

ROWS = rows.rows()
REGISTERS = {"Dc": "d1", "Ds1": "d2", "Ds2": "d3", "Ac": "a2", "As1": "a3", "As2": "a4"}


def limits(kind, bits):
    """The ends of the range that docs/instructions.md gives, and the next number on each side."""
    if kind == "U":
        return (0, 0xF0003FFF, 0x4000) if bits == 18 else (0, 0xF01FFFFE, 0x200000)
    if kind == "u":
        return 0, 2**bits - 1, -1, 2**bits
    step, half = (2, 2**bits) if kind == "T" else (1, 2 ** (bits - 1))
    low, high = (0, 2 * half - step) if (kind, bits) == ("T", 4) else (-half, half - step)
    return low, high, low - step, high + step


def lines(row):
    """The statements of a row at the ends of its range, and those outside it."""
    text = re.sub(r"\b[DA](?:c|s\d)\b", lambda m: REGISTERS[m[0]], rows.shown_operands(row))
    text = re.sub(r"\bn\b", "u2", text)
    found = re.search(r"\b([suTU])(\d+)", text)
    if not found:
        return [f"{row[0]} {text}"], []
    form = ".{:+}" if found[1] == "T" else "{}"
    numbers = limits(found[1], int(found[2]))
    made = [f"{row[0]} {text.replace(found[0], form.format(number))}" for number in numbers]
    return made[:2], made[2:]


class Instructions(beside.InFolder):
    def test_the_page_has_the_list(self):
        page = (beside.TOP / "docs" / "instructions.md").read_text()
        self.assertTrue(page.endswith(f"\n\n{rows.listed_by_name(ROWS)}"), "run maintain/rows.py")

    def test_the_scripts_have_the_rows(self):
        text = (beside.TOOLS / "tcdlib/formats/instructions.txt").read_text()
        self.assertEqual(text, rows.for_scripts(ROWS), "run tools/rows.py")

    def test_names_tell_the_length(self):
        for row in ROWS:
            self.assertEqual("16" in row[0], row[3] % 2 == 0, row[0])

    @beside.needs_program
    def test_ranges(self):
        inside = [line for row in ROWS for line in lines(row)[0]]
        self.put("a.s", "\n".join([".section t", *inside, ""]))
        self.assertRegex(self.tcd("asm", "a.s", "a.o"), "object")
        for line in (line for row in ROWS for line in lines(row)[1]):
            self.put("a.s", f".section t\n{line}\n")
            self.assertRegex(self.tcd("asm", "a.s", "a.o"), "bad source (5|11) at 0 2", line)


if __name__ == "__main__":
    unittest.main()
