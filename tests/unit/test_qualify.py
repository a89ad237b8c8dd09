"""cases.py and qualify.py: how texts are played, that each requirement has a case, the report."""
import contextlib
import io
import json
import shutil
import unittest
from xml.etree import ElementTree

import beside
import qualify
from tcdlib import cases
from tcdlib.sources import Unusable

SAMPLES = """\
bytes FOUR
    00 01 0203
text TWO_LINES
    a b
    .
replace OTHER TWO_LINES
    a b
    a c
join BOTH FOUR*2 OTHER
"""


class Requirements(unittest.TestCase):
    def test_each_has_a_case(self):
        found = cases.shown_by(cases.expected_lines())
        self.assertEqual([name for name, places in found.items() if not places], [])

    def test_one_without_a_case_is_found(self):
        lines = [
            (place, line) for place, line in cases.expected_lines() if "refused K2 " not in line
        ]
        found = cases.shown_by(lines)
        self.assertEqual([name for name, places in found.items() if not places], ["refused K2"])

    def test_lines(self):
        for line, wanted in (
            ("refused K1 at 80000000 in start 80000000 prio 0 is 0", ["refused K1"]),
            ("refused K14 at 80000000 in start 80000000 prio 0 is 0", ["refused K14"]),
            ("bad plan 2 key sp", ["bad plan 2"]),
            ("bad source 12 at 0 2", ["bad source 12"]),
            ("events 1 peak 0 dead csu at 80000000", ["dead csu"]),
            ("refused switch at 80000020", ["refused switch"]),
            ("bad words", ["bad words"]),
            ("certified 1 of 2 areas", []),
            ("", []),
        ):
            found = cases.shown_by([("here", line)])
            self.assertEqual([name for name, places in found.items() if places], wanted, line)


class Texts(beside.InFolder):
    def test_lines_have_the_numbers_of_their_files(self):
        for topic, text in cases.texts()[0].items():
            lines = (cases.TEXTS / f"{topic}.rt").read_text().split("\n")
            for number, words, _ in (act for act in cases.acts(text) if act[1] != [""]):
                self.assertEqual(lines[number - 1], " ".join(words), (topic, number))

    def test_a_text_that_moved(self):
        copy = self.folder / "src"
        shutil.copytree(cases.TEXTS, copy)
        self.assertEqual(cases.texts(copy), cases.texts())
        (copy / "plans.rt").rename(copy / "moved.rt")
        for folder in (copy, self.folder):
            with self.assertRaises(Unusable):
                cases.texts(folder)

    def test_edits(self):
        self.assertEqual(cases.edited(b"abcd", ["1=7a", "..3"]), b"azc")
        for edit in ("..5", "x", "9=00"):
            with self.assertRaises((Unusable, IndexError)):
                cases.edited(b"abcd", [edit])


class Stages(beside.InFolder):
    def start(self, words, folder, is_full):
        """A program that copies a file, and says so."""
        if is_full:
            return 3, b"", b""
        source, target = folder / words[1], folder / words[2]
        try:
            target.write_bytes(source.read_bytes())
        except OSError:
            return 3, b"", b""
        return 0, b"copied " + words[1].encode() + b"\n", b""

    def played(self, text, start=None, way="missing"):
        """Plays a text after samples; gives the faults of each command."""
        found = cases.played({"topic": text}, SAMPLES, start or self.start, way)
        return [result["faults"] for result in found]

    def test_pieces_and_looks(self):
        text = """\
case one
put a BOTH 1=ff
run done copy a b
    copied a
holds b BOTH 1=ff
begins b FOUR
length b 13
none c
put a_b FOUR
case two
none b
"""
        with self.assertRaises(Unusable):  # a look at a file before any command
            self.played("case one\nnone b\nnone\n")
        first = self.played(text.replace("begins b FOUR\n", ""))
        self.assertEqual(first, [[]])
        wrong = self.played(text.replace("length b 13", "length b 12"))
        self.assertEqual(len(wrong[0]), 2)  # BOTH begins with another byte, and is longer

    def test_what_is_wrong(self):
        text = "case one\nput a FOUR\nrun done copy a b\n    copied a\nholds b FOUR\n"
        self.assertEqual(self.played(text), [[]])
        for name, wrong in (
            ("status", lambda *given: (1, b"copied a\n", b"")),
            ("text", lambda *given: (0, b"copied b\n", b"")),
            ("errors", lambda *given: (0, b"copied a\n", b"x")),
            ("a signal", lambda *given: (-6, b"copied a\n", b"")),
            ("no end", lambda *given: (None, b"", b"")),
            ("no file", lambda *given: (0, b"copied a\n", b"")),
        ):
            self.assertTrue(self.played(text, wrong)[0], name)

    def test_failing_calls(self):
        text = "failing {}\nput a FOUR\nput p FOUR\nput c FOUR\nrun {} check a b p\n{}"
        reads = text.replace("check a b p", "check a x p")
        for way in cases.WAYS:
            self.assertEqual(self.played(text.format(0, "fault", ""), way=way), [[]])
            self.assertEqual(self.played(reads.format(5, "done", "    copied a\n"), way=way), [[]])

    def test_a_full_output(self):
        self.assertEqual(self.played("case one\nput a FOUR\nunprinted copy a b\n"), [[]])

    def test_no_line_of_a_text(self):
        for line in ("jump", "put a NONE", "put a FOUR 9=00", "case x\n    below", "bytes\n    0"):
            with self.assertRaises(Unusable):
                self.played(f"case one\n{line}\n")

    def test_controls(self):
        def start(words, folder, is_full):
            (folder / "made").write_bytes(b"\0")
            return (0, b"certified 3 of 4 areas\n", b"") if words[0] == "check" else (1, b"x", b"")

        found = {name: {} for name in cases.CONTROLS}
        for name, wrong in cases.CONTROLS.items():
            for word in ("check", "cert"):
                found[name][word] = wrong(start, [word], self.folder, False)[:2]
        first, second, third, fourth, fifth = found.values()
        self.assertEqual(first["cert"], (0, b"certified 1 of 2 areas\n"))
        self.assertEqual(second["check"][0], 1)
        self.assertEqual(third["check"], (0, b"certified 2 of 4 areas\n"))
        self.assertEqual(fourth["cert"], (0, b"x"))
        self.assertEqual(fifth["cert"], (1, b"x"))
        (self.folder / "made").unlink()
        cases.flipping(start, ["check"], self.folder, False)
        self.assertEqual((self.folder / "made").read_bytes(), b"\1")


class Reports(beside.InFolder):
    def test_what_is_wrong_is_shown(self):
        record = qualify.Record({"said of the program": "a|b\x1b"})
        with contextlib.redirect_stdout(io.StringIO()):
            record.add("cases", 0, 2, [("one", ""), ("two", "status\x00 1")])
        record.controls, record.requirements = {"c": 3}, {"refused K1": ["x:1"] * 4}
        text = qualify.report(record)
        for wanted in (
            "**1 passed, 1 failed.**",
            r"a\|b\x1b",
            "| cases | two |",
            "x:1, x:1, x:1, ..",
        ):
            self.assertIn(wanted, text)
        suite = ElementTree.fromstring(qualify.junit(record))[0]
        self.assertEqual((suite.get("tests"), suite.get("failures")), ("2", "1"))
        qualify.write(record, self.folder)
        self.assertEqual(
            json.loads((self.folder / "results.json").read_text())["controls"], {"c": 3}
        )

    def test_answers_of_hostile(self):
        found = qualify.ANSWER.findall(
            "  group, check: 67 x 1 K1; 3 x 2 bad plan 4; 9 x 0; 2 x 1 sum"
        )
        self.assertEqual(found, [("67", "", "K1"), ("3", "bad plan 4", ""), ("2", "", "sum")])


if __name__ == "__main__":
    unittest.main()
