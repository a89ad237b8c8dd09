"""The reader of sources and layouts."""
import unittest

import beside
from tcdlib import sources

SOURCE = """# a comment: not a label
.section text
.global main
main: call f            # a comment
      mov16 d0, 1
f:    ret16
again:
\tjz16.d15 again
.section tables
list: .word f, 0x10, -3
      .byte 1, 2, 3
      .half 4
.section text
end:  j .+0
.section room
      .space 0x10
"""


class Sizes(unittest.TestCase):
    """How many bytes each statement takes (docs/formats.md, "Sources" and "Instructions")."""

    def test_instructions(self):
        for word, size in (("call", 4), ("ret16", 2), ("jz16.d15", 2), ("ld16.w", 2), ("lea.l", 4)):
            self.assertEqual(sources.size_of(word, "x"), size, word)

    def test_data(self):
        for word, operands, size in (
            (".word", "1, 2", 8),
            (".half", "1", 2),
            (".byte", "1,2,3", 3),
            (".space", "16", 16),
            (".space", "0x10", 16),
            (".space", "010", 10),
        ):
            self.assertEqual(sources.size_of(word, operands), size, word)


class Reading(beside.InFolder):
    """Labels, statements and sections of a source."""

    def test_a_source(self):
        read = sources.read_source(self.put("a.s", SOURCE))
        self.assertEqual(read.sizes, {"text": 14, "tables": 17, "room": 16})
        labels = [(each.section, each.offset, each.name, each.line) for each in read.labels]
        self.assertEqual(
            labels,
            [
                ("text", 0, "main", 4),
                ("text", 6, "f", 6),
                ("text", 8, "again", 7),
                ("tables", 0, "list", 10),
                ("text", 10, "end", 14),
            ],
        )
        rows = [(each.offset, each.size, each.line) for each in read.statements]
        self.assertEqual(rows[:4], [(0, 4, 4), (4, 2, 5), (6, 2, 6), (8, 2, 8)])
        self.assertEqual(read.first_lines, {"text": 2, "tables": 9, "room": 15})

    def test_labels_have_ascii_letters_alone(self):
        path = self.put("a.s", ".section t\nn\xe9: nop\n".encode("latin-1"))
        self.assertEqual(sources.read_source(path).labels, [])

    def test_any_byte_may_stand_in_a_comment(self):
        path = self.put("a.s", b".section t # \xff\x00\r\x0b\x85\nx: nop\n")
        self.assertEqual(sources.read_source(path).labels[0].line, 2)

    def test_faults(self):
        for text, told in (
            ("nop\n", "a.s:1: a statement before any .section"),
            (".section t\n.space many\n", "a.s:2: not a number: many"),
            (".section t\n.space \x1b[31m\n", "a.s:2: not a number: \\x1b[31m"),
        ):
            with self.assertRaises(sources.Unusable) as caught:
                sources.read_source(self.put("a.s", text))
            self.assertEqual(str(caught.exception), told)

    def test_missing_files(self):
        for name in ("none.s", ".", "a\0b"):
            with self.assertRaises(sources.Unusable):
                sources.read_source(name)

    def test_line_of(self):
        path = self.put("a.s", SOURCE)
        self.assertEqual(sources.line_of(path, 4), "main: call f            # a comment")
        self.assertEqual(sources.statement_of(path, 4), "main: call f")
        for number in (0, -1, 99):
            self.assertEqual(sources.line_of(path, number), "")
        self.assertEqual(sources.line_of("none.s", 1), "")

    def test_uses(self):
        path = self.put("a.s", "f: call ff\n call f.g\n call f # f\n# f\n lea a0, f+4\n")
        self.assertEqual(sources.uses(path, "f"), [1, 3, 5])


class Layouts(beside.InFolder):
    """Places of a layout, and what sections take there."""

    def test_places(self):
        text = "entry main\n\nplace t 80000000 00000100\nplace v D0008000 00000000"
        places = sources.read_places(self.put("l", text))
        self.assertEqual(places["t"], sources.Place(0x80000000, 0x100, 3))
        self.assertEqual(places["v"].line, 4)

    def test_bad_lines(self):
        for line in ("place t 80000000 100", "entry", "place t 8000000g 00000100", "x"):
            with self.assertRaises(sources.Unusable, msg=line):
                sources.read_places(self.put("l", f"entry main\n{line}\n"))

    def test_sections_of_one_name_begin_at_multiples_of_4(self):
        one = sources.read_source(self.put("a.s", ".section t\n.byte 1\n"))
        two = sources.read_source(self.put("b.s", ".section t\nnop16\n"))
        self.assertEqual(sources.linked_size([one, two, one], "t"), 9)


class Shown(unittest.TestCase):
    """Texts for a terminal."""

    def test_control_characters(self):
        self.assertEqual(sources.shown("a\x1b[0m\nb\udc80"), "a\\x1b[0m\\nb\\udc80")
        self.assertEqual(sources.shown("prüfung speed.s"), "prüfung speed.s")


class Lines(beside.InFolder):
    def test_a_line_is_shown_as_it_was_written(self):
        for text in ("mov d0, 1 # Größe".encode(), "mov d0, 1 # Größe".encode("latin-1")):
            self.put("a.s", text + b"\n")
            self.assertEqual(sources.line_of("a.s", 1), "mov d0, 1 # Größe")
