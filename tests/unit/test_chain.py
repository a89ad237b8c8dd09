"""Unit tests of chain.py, beside what the page of view.py shows."""
import json
import unittest

import beside
from beside import InFolder, needs_program, program

import chain
import picture
import scratch

FILES = ("firmware.elf", "board.json", "firmware.cert")
#: what docs/tutorial.md shows of lower_context
TUTORIAL = ["start main", "irq 12 (svlcx)", "call filter"]
PLAIN = ("core_16", "lower_context", "misaligned", "nested_interrupts", "one_call", "system_calls")


@needs_program
class Chains(InFolder):
    def said(self, *words):
        done = self.script("chain.py", *FILES, *words, "--tcd", program())
        self.assertEqual((done.returncode, done.stderr), (0, ""), done.stdout)
        return done.stdout

    def named(self, example):
        """Builds an example; gives the words for its names."""
        scratch.built(program(), example, self.folder)
        return ("--names", "board.layout", *scratch.sources_of(example))

    def test_the_tutorial(self):
        names = self.named("lower_context")
        rows = json.loads(self.said(*names, "--json"))["chain"]
        self.assertEqual([row["frame"] for row in rows], TUTORIAL)
        self.assertEqual([(row["areas"], row["need"]) for row in rows], [(0, 3), (2, 2), (1, 0)])
        lines = self.said(*names).splitlines()
        self.assertEqual(lines[2].split(), ["└", "irq", "12", "(svlcx)", "2", "2", "adc.s:6"])
        self.assertEqual(lines[-1].split(), ["in", "all", "3"])

    def test_beside_the_page(self):
        for example in PLAIN:
            with self.subTest(example):
                rows = json.loads(self.said(*self.named(example), "--json"))["chain"]
                ours = [(str(row["areas"]), str(row["need"])) for row in rows]
                tree = picture.tree(picture.page_on(program(), example))[1:-1]
                self.assertEqual(ours, [tuple(line.split()[-2:]) for line in tree])
                whole = sum(row["areas"] for row in rows)
                self.assertRegex(self.tcd("check", *FILES), f"^certified {whole} of ")

    def test_cells_and_tasks(self):
        self.named("cells")
        rows = json.loads(self.said("--cells", "modes.cells", "--json"))["chain"]
        self.assertEqual((rows[0]["need"], sum(row["areas"] for row in rows)), (5, 5))

    def test_markdown(self):
        lines = self.said(*self.named("lower_context"), "--markdown").splitlines()
        self.assertEqual(lines[0], "| Frame | Areas | Need | Left at |")
        self.assertEqual({len(line.split("|")) for line in lines}, {6})
        self.assertIn("| &nbsp;&nbsp;irq 12 (svlcx) | 2 | 2 | adc.s:6 |", lines)
        done = self.script("chain.py", *FILES, "--json", "--markdown", "--tcd", program())
        self.assertEqual(done.returncode, 5)

    def test_marks_of_markdown(self):
        self.assertEqual(chain.cell("a|b"), "a&#124;b")
        self.assertEqual(chain.cell("[x](y)<i>`\x1b"), "&#91;x&#93;(y)&#60;i&#62;&#96;&#92;x1b")


if __name__ == "__main__":
    unittest.main()
