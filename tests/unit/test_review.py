"""Unit tests of review.py and asm_all.py."""
import json
import random
import re
import unittest
import xml.etree.ElementTree

import beside
from beside import InFolder, needs_program, program

import review

#: a workflow command: https://docs.github.com, "Workflow commands for GitHub Actions"
COMMAND = re.compile(r"::(error|notice) (?:file=([^,:\n]+),)?(?:line=(\d+),)?title=tcd::([^\n\r]+)")
STRANGE = "a%b,c:\x1b é.s"


@needs_program
class Reviews(InFolder):
    def printed(self, form, status, *words):
        done = self.script("review.py", form, *words)
        self.assertEqual((done.returncode, done.stderr), (status, ""), done.stdout)
        self.assertTrue(done.stdout.replace("\n", "").isprintable())
        return done.stdout

    def shipped(self, form, sources, status=1):
        files = ("board.json", "board.layout", "firmware.elf", "firmware.cert")
        return self.printed(form, status, "--", program(), "ship", *files, *sources)

    def test_github(self):
        text = self.shipped("github", self.example("nested_interrupts", "broken"))
        first, *marks = text.splitlines()
        self.assertTrue(first.startswith("refused K14 at "))
        found = [COMMAND.fullmatch(line) for line in marks]
        self.assertEqual((found[0][1], found[0][2]), ("error", "handlers.s"))
        self.assertIn("What people change: ", found[0][4])
        notes = [each[4] for each in found[1:]]
        self.assertEqual({each[1] for each in found[1:]}, {"notice"})
        self.assertIn("interrupt 10 comes", notes)

    def test_gitlab(self):
        (issue,) = json.loads(self.shipped("gitlab", self.example("nested_interrupts", "broken")))
        # https://docs.gitlab.com, "Code Quality report format"
        keys = {"description", "check_name", "fingerprint", "severity", "location"}
        self.assertEqual(set(issue), keys)
        self.assertEqual((issue["check_name"], issue["severity"]), ("K14", "blocker"))
        line = issue["location"]["lines"]["begin"]
        self.assertEqual(issue["location"], {"path": "handlers.s", "lines": {"begin": line}})
        # `refused K14 at 80000020 in call 80000020`
        self.linked(["main.s", "handlers.s"])
        names = ("board.layout", "main.s", "handlers.s", "--tcd", program(), "--at", "80000020")
        place = self.script("names.py", "firmware.elf", *names).stdout
        self.assertRegex(place, f"^80000020 .* handlers.s:{line}\n$")

    def test_junit(self):
        text = self.shipped("junit", self.example("nested_interrupts", "broken"))
        suite = xml.etree.ElementTree.fromstring(text.encode())
        self.assertEqual((suite.get("tests"), suite.get("failures")), ("1", "1"))
        self.assertIn("handlers.s:", suite.find("testcase/failure").text)
        self.assertTrue(suite.find("testcase/system-out").text.startswith("refused K14"))

    def test_done(self):
        for form, wanted in (("github", "certified 1 of 2 areas\n"), ("gitlab", "[]\n")):
            self.assertEqual(self.shipped(form, self.example("one_call"), 0), wanted)
        suite = xml.etree.ElementTree.fromstring(self.shipped("junit", ["main.s", "sum.s"], 0))
        self.assertEqual(suite.get("failures"), "0")
        self.assertIsNone(suite.find("testcase/failure"))

    def test_commands_that_have_no_file(self):
        for form in review.FORMS:
            for words, status in (((), 5), (("check",), 5), (("check", "a", "b", "c"), 3)):
                self.assertIn("tcd", self.printed(form, status, "--", program(), *words))

    def test_strange_files(self):
        source = self.put(STRANGE, "# \x1b[31m</failure>&\n.section t\n'\"<&]]>\x07::error::\n")
        for form in review.FORMS:
            text = self.printed(form, 2, "--", program(), "asm", source, "x.o")
            if form == "github":
                mark = COMMAND.fullmatch(text.splitlines()[1])
                self.assertEqual((mark[2], mark[3]), ("a%25b%2Cc%3A\\x1b é.s", "3"))
                self.assertEqual(len(text.splitlines()), 2)
            elif form == "gitlab":
                self.assertEqual(json.loads(text)[0]["location"]["path"], STRANGE)
            else:
                failure = xml.etree.ElementTree.fromstring(text.encode()).find("testcase/failure")
                self.assertIn("'\"<&]]>\\x07::error::", failure.text)


@needs_program
class Faults(InFolder):
    def found(self, status, *words):
        """The lines of the faults, and the last line."""
        done = self.script("asm_all.py", *words, "--tcd", program())
        self.assertEqual((done.returncode, done.stderr), (status, ""), done.stdout)
        *lines, last = done.stdout.splitlines()
        return [line.partition(": error: ")[0] for line in lines if ": error: " in line], last

    def test_four_faults(self):
        rows = [".section text", "a: mul d0", "nop", "add d0, d1", "b: c: nop", "a: nop # again"]
        source = self.put("four.s", "\n".join([*rows, "j16 a", "    ret16"]))
        lines = [f"four.s:{n}" for n in (2, 4, 5, 6)]
        self.assertEqual(self.found(1, source), (lines, "4 faults"))

    def test_a_label_stays(self):
        source = self.put("label.s", ".section text\na: mul d0\n    j a\n    j16 a\n")
        self.assertEqual(self.found(1, source), (["label.s:2"], "1 faults"))

    def test_done(self):
        sources = self.example("one_call")
        self.assertEqual(self.found(0, *sources), ([], "0 faults"))
        self.assertFalse(list(self.folder.glob("*.o")))

    def test_most(self):
        source = self.put("many.s", ".section text\n" + "mul\n" * 60)
        self.assertEqual(len(self.found(1, source)[0]), 50)
        self.assertEqual(len(self.found(1, source, "--most", "3")[0]), 3)

    def test_any_bytes(self):
        self.example("one_call")
        rnd, held = random.Random(3), (self.folder / "main.s").read_bytes()
        for _ in range(25):
            data = bytearray(held)
            for _ in range(rnd.choice((1, 3, 9))):
                data[rnd.randrange(len(data))] = rnd.randrange(256)
            source = self.put("any.s", bytes(data))
            done = self.script("asm_all.py", source, "--tcd", program(), "--most", "20")
            self.assertIn(done.returncode, (0, 1), done.stderr)
            self.assertTrue(done.stdout.replace("\n", "").isprintable())

    def test_a_file_above_the_limit(self):
        source = self.put("large.s", b"#" * (16777216 + 1))
        done = self.script("asm_all.py", source, "--tcd", program())
        self.assertEqual((done.returncode, done.stderr.count("\n")), (2, 1))


if __name__ == "__main__":
    unittest.main()
