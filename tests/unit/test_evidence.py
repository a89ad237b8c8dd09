"""evidence.py: the folder, the premises, and what --again refuses."""
import contextlib
import io
import json
import pathlib
import resource
import shutil
import subprocess
import sys
import unittest
from unittest import mock

import beside
import evidence
from tcdlib.arguments import Refused
from tcdlib.sources import Unusable

FILES = ("firmware.elf", "board.json", "firmware.cert")
#: a page of the form of docs/safety.md
PAGE = """# Safety manual

## Claims

| Claim | Rests on | Record |
|---|---|---|
| C1 to C4 | A1 to A3 | `x` |
| C5 | A1 to A3, A14, without A3 | `x` |
| C6 | A1 to A3, A15 | `x` |
| C7 | A1, A2, A16 | `x` |

## Premises

- **A1. The plan is true.** Show it by
  a review ([plan.md](plan.md)).
- **A2. Keys**, once.
- **A3. The start**, also after a reset.

| Trap class | What excludes it |
|---|---|
| 0, MMU | premise |

On A3: more.

- **A14. A reset.**
- **A15. Cells.**
- **A16. Tasks.**

## More

- **A99. Not one.**
"""


class WithPage(beside.InFolder):
    """A folder with a page of premises."""

    def setUp(self):
        super().setUp()
        patch = mock.patch("evidence.DOCUMENT", self.folder / self.put("safety.md", PAGE))
        patch.start()
        self.addCleanup(patch.stop)

    def ran(self, *words):
        """Runs the script's work: what it prints."""
        out, self.errors = io.StringIO(), io.StringIO()
        with contextlib.redirect_stdout(out), contextlib.redirect_stderr(self.errors):
            self.assertEqual(evidence.main(list(words)), 0)
        return out.getvalue()


class Premises(WithPage):
    """The table of premises comes from docs/safety.md."""

    def test_the_premises_of_each_claim(self):
        lines = PAGE.split("\n")
        for claim, told in (
            ("C1 to C4", ["A1", "A2", "A3"]),
            ("C5", ["A1", "A2", "A14"]),
            ("C6", ["A1", "A2", "A3", "A15"]),
            ("C7", ["A1", "A2", "A16"]),
        ):
            self.assertEqual(evidence.rests_on(lines, claim), told)

    def test_the_page(self):
        page = evidence.premises("C5", "boot 77 events certified 3 of 6 areas")
        self.assertIn("| A1 | **The plan is true.** Show it by a review (plan.md). |  |\n", page)
        self.assertIn("| A14 | **A reset.** |  |\n", page)
        head = "| Trap class | What excludes it | What it needs here |\n|---|---|---|\n"
        self.assertIn(head, page)
        self.assertIn("| 0, MMU | premise |  |\n", page)
        for absent in ("A3", "A15", "A99"):
            self.assertNotIn(f"| {absent} |", page)

    def test_what_is_filled_in(self):
        page = evidence.premises("C1 to C4", "certified 1 of 2 areas")
        for text in ("review 7 |", "a | b |", "`x|y` \\| z|", "review 7", "|x|  |"):
            filled = page.replace("once. |  |", f"once. | {text}")
            self.assertEqual(evidence.without_evidence(filled, page), (page, ["A1", "A3"]), text)
        for text in ("  |", " |", "", "   "):
            empty = page.replace("once. |  |", f"once. |{text}")
            self.assertEqual(evidence.without_evidence(empty, page), (page, ["A1", "A2", "A3"]))
        trap = page.replace("| 0, MMU | premise |  |", "| 0, MMU | premise | none | here |")
        self.assertEqual(evidence.without_evidence(trap, page), (page, ["A1", "A2", "A3"]))
        other = page.replace("premise |  |", "premises |  |")
        self.assertNotEqual(evidence.without_evidence(other, page)[0], page)

    def test_other_pages(self):
        for before, after in (
            ("A1 to A3 |", "the same |"),
            ("C1 to C4", "C0"),
            ("Rests on", "Premises"),
            ("**A2. ", "**A4. "),
            ("## Premises", "## Other"),
        ):
            self.put("safety.md", PAGE.replace(before, after))
            with self.assertRaises(Unusable, msg=after):
                evidence.premises("C1 to C4", "")


class Repository(unittest.TestCase):
    """The page of this repository."""

    @unittest.skipUnless("- **A1. " in evidence.DOCUMENT.read_text(), "the page has no such rows")
    def test_each_claim(self):
        for claim, count in (("C1 to C4", 13), ("C5", 13), ("C6", 14), ("C7", 13)):
            page = evidence.premises(claim, "")
            self.assertEqual(page.count("\n| A"), count, claim)
            self.assertIn("| 7, NMI |", page)


@beside.needs_program
class WithProgram(WithPage):
    """Folders of examples."""

    def certified(self, name, command="cert", more=(), certs=FILES[2:]):
        """Builds an example: its sources."""
        sources = self.example(name)
        self.linked([path for path in sources if (self.folder / path).exists()])
        self.tcd(command, *FILES[:2], *more, *certs)
        return sources

    def made(self, *words):
        """The line of a new folder."""
        return self.ran(beside.program(), "case", *words)

    def test_check(self):
        paths = self.certified("one_call")
        line = self.made(*FILES, "--tool", "here", "--names", "board.layout", *paths)
        self.assertEqual(line, "certified 1 of 2 areas\n")
        self.assertEqual(self.ran("--again", beside.program(), "case"), line)
        self.assertIn("no evidence for A1, A2, A3", self.errors.getvalue())
        record = json.loads((self.folder / "case/record.json").read_text())
        self.assertEqual([each["status"] for each in record["commands"]], [0, 1, 1])
        self.assertEqual(record["second check"], line.strip())
        self.assertEqual(record["plan check"], [])
        self.assertIn("main.s:", (self.folder / "case/page.html").read_text())
        with self.assertRaises(Unusable):
            self.made(*FILES)  # the folder is there

    def test_a_plan_that_lacks_an_interrupt(self):
        self.example("gnu_ld")
        plan = json.loads((self.folder / "board.json").read_text())
        self.put("board.json", json.dumps({**plan, "irqs": []}, indent=1))
        self.tcd("cert", *FILES)
        line = self.made(*FILES)
        self.assertEqual(self.ran("--again", beside.program(), "case"), line)
        record = json.loads((self.folder / "case/record.json").read_text())
        told = r"files/board.json:\d+: warning: irqs lacks 20: the vector at 80002280 has code"
        self.assertEqual(len(record["plan check"]), 1)
        self.assertRegex(record["plan check"][0], told)

    def test_cells(self):
        self.certified("cells", "cellcert", ["modes.cells"])
        line = self.made(*FILES, "--cells", "modes.cells")
        self.assertEqual(line, "certified 5 of 6 areas with 1 cells\n")
        self.assertEqual(self.ran("--again", beside.program(), "case"), line)

    def test_tasks(self):
        certs = ("measure.cert", "show.cert")
        self.certified("two_tasks", "taskcert", ["board.tasks"], certs)
        line = self.made(*FILES[:2], *certs, "--tasks", "board.tasks")
        self.assertEqual(line, "certified 8 of 8 areas in 2 tasks\n")
        self.assertEqual(self.ran("--again", beside.program(), "case"), line)
        commands = json.loads((self.folder / "case/record.json").read_text())["commands"]
        self.assertEqual(commands[1]["line"], "refused switch at 80000400")
        self.assertTrue(commands[2]["line"].startswith("refused sum 8 of 7"))

    def test_boot(self):
        self.example("start_up")
        self.tcd("bootgen", "board.json", "80000000", "80000800", "boot.s")
        self.linked(["main.s", "boot.s"])
        self.tcd("cert", *FILES)
        line = self.made(*FILES, "--boot", "80000800")
        self.assertEqual(line, "boot 77 events certified 3 of 6 areas\n")
        self.assertEqual(self.ran("--again", beside.program(), "case"), line)

    def test_refused(self):
        self.certified("one_call")
        self.tcd("cert", *FILES)
        plan = (self.folder / "board.json").read_text()
        self.put("board.json", plan.replace('"irqs": []', '"irqs": [], "irqs": []'))
        with self.assertRaisesRegex(Unusable, "a key is there twice: irqs"):
            self.made(*FILES)
        self.put("board.json", plan.replace("0xD0009000", "0xD0008C00"))
        with self.assertRaisesRegex(Refused, "refused K1 at"):
            self.made(*FILES)
        self.assertFalse((self.folder / "case").exists())

    def test_evidence_with_a_bar(self):
        self.certified("one_call")
        line = self.made(*FILES)
        path = self.folder / "case/premises.md"
        page = path.read_text()
        path.write_text(page.replace("once. |  |", "once. | `a|b`, or | c |"))
        self.assertEqual(self.ran("--again", beside.program(), "case"), line)
        self.assertIn("no evidence for A1, A3", self.errors.getvalue())

    def test_names_that_become_one(self):
        paths = self.certified("one_call")
        (self.folder / "other").mkdir()
        for name in ("5_main.s", "other/main.s"):
            self.put(name, "# no code\n")
        self.tcd("asm", "5_main.s", "5_main.o")
        names_from = ["board.layout", "5_main.s", *paths]
        self.made(*FILES, "--names", *names_from)
        shutil.rmtree("case")
        names_from = ["board.layout", "7_main.s", *paths, "other/main.s"]
        self.put("7_main.s", "# no code\n")
        with self.assertRaisesRegex(
            Unusable, "other/main.s: another file is files/7_main.s already"
        ):
            self.made(*FILES, "--names", *names_from)
        self.assertFalse((self.folder / "case").exists())

    def test_a_full_disk(self):
        self.certified("one_call")

        def full(source, to, **more):
            (pathlib.Path(to) / "files").mkdir()
            (pathlib.Path(to) / "files/firmware.elf").write_text("a part")
            raise shutil.Error([(source, to, "[Errno 28] No space left on device")])

        def fuller(source, to, **more):
            raise OSError(28, "No space left on device")

        for folder in ("case", "new/of/case"):
            for fault in (full, fuller):
                with mock.patch("shutil.copytree", fault):
                    with self.assertRaisesRegex(Unusable, "case: .*No space left on device"):
                        self.ran(beside.program(), folder, *FILES)
                self.assertFalse((self.folder / "case").exists())
                self.assertFalse((self.folder / "new").exists())
        with mock.patch("pathlib.Path.write_bytes", fuller):
            with self.assertRaisesRegex(Unusable, "^case: No space left on device"):
                self.made(*FILES)
        self.assertFalse((self.folder / "case").exists())

    def test_a_small_limit_of_files(self):
        self.certified("one_call")
        words = [
            sys.executable,
            str(beside.TOOLS / "evidence.py"),
            beside.program(),
            "case",
            *FILES,
        ]
        small = lambda: resource.setrlimit(resource.RLIMIT_FSIZE, (2000, 2000))
        done = subprocess.run(words, capture_output=True, text=True, preexec_fn=small)
        self.assertEqual((done.returncode, done.stdout), (2, ""))
        self.assertEqual(len(done.stderr.splitlines()), 1, done.stderr)
        self.assertFalse((self.folder / "case").exists())

    def test_a_copy_without_pages(self):
        self.certified("one_call")
        shutil.copytree(beside.TOOLS, "alone/tools", ignore=shutil.ignore_patterns("__pycache__"))
        script = str(self.folder / "alone/tools/evidence.py")
        words = [sys.executable, "-B", script, beside.program(), "case", *FILES]
        done = subprocess.run(words, capture_output=True, text=True)
        self.assertEqual((done.returncode, done.stdout), (2, ""))
        self.assertRegex(done.stderr, r"^[^\n]*docs/safety.md: No such file or directory\n$")
        self.assertFalse((self.folder / "case").exists())

    def test_tampered_folders(self):
        names_from = ["board.layout", *self.certified("one_call")]
        self.made(*FILES, "--names", *names_from)
        shutil.copytree("case", "whole")
        case = self.folder / "case"
        bit = lambda data: data[:20] + bytes([data[20] ^ 1]) + data[21:]
        more = lambda data: data + b"\n"
        replaced = lambda one, other: lambda data: data.replace(one, other)
        for name, change, has_sums, told in (
            ("files/firmware.cert", bit, False, "files/firmware.cert: SHA256SUMS has another"),
            ("files/firmware.cert", bit, True, "refused now: |check: bad cert"),
            ("files/board.json", replaced(b'areas": 4', b'areas": 5'), True, "record.json: made"),
            ("report.json", more, True, "report.json: made again it is another one"),
            ("listing.txt", None, True, "listing.txt: made again it is another one"),
            ("controls/fewer.json", more, True, "fewer.json: made again it is another one"),
            ("files/sum.s", replaced(b"ret16", b"rfe16"), True, "don't link to it"),
            ("record.json", replaced(b"1 of 2", b"1 of 9"), True, "record.json: made again"),
            ("record.json", replaced(b"files/firmware.elf", b"../firmware.elf"), True, "not a rec"),
            ("record.json", lambda data: b"[]", True, "not a record"),
            ("record.json", replaced(b'"check",', b'"boot",'), True, "not a record"),
            ("record.json", replaced(b'more": null', b'more": 7'), True, "not a record"),
            ("page.html", None, False, "page.html: not there"),
            ("more.txt", more, False, "more.txt: SHA256SUMS doesn't have it"),
            ("premises.md", replaced(b"| A2 |", b"| A4 |"), False, "its premises aren't those"),
        ):
            shutil.rmtree(case)
            shutil.copytree("whole", case)
            path = case / name
            if change:
                path.write_bytes(change(path.read_bytes() if path.exists() else b""))
            else:
                path.unlink()
            if has_sums:
                (case / evidence.SUMS).write_text(evidence.sums_of(case))
            with self.assertRaisesRegex(Unusable, told, msg=f"{name} {told}"):
                self.ran("--again", beside.program(), "case")

    def test_another_line_of_the_second_checker(self):
        self.certified("one_call")
        for told in ((1, "refused K4 at 80000000 in start 80000000 prio 0 is 0"), (0, "certified")):
            with mock.patch("second_check.judged", lambda *_, told=told: told):
                with self.assertRaisesRegex(
                    Unusable, f"second check: {told[1]}, but check: certif"
                ):
                    self.made(*FILES)
        self.assertFalse((self.folder / "case").exists())

    def test_another_program(self):
        self.certified("one_call")
        self.made(*FILES)
        other = self.folder / self.put("other", pathlib.Path(beside.program()).read_bytes() + b"\0")
        other.chmod(0o755)
        self.ran("--again", str(other), "case")
        self.assertIn("another program than the recorded one", self.errors.getvalue())


class Script(beside.InFolder):
    """Arguments and files that can't be used."""

    def test_faults(self):
        for words, status in (
            (["--help"], 0),
            ([], 5),
            (["true", "case", "f.elf"], 5),
            (["true", "case", "f.elf", "p", "c", "d"], 5),
            (["--again", "true", "case", "f.elf"], 5),
            (["true", "case", "f", "p", "c", "--boot", "0", "--cells", "x"], 5),
            (["./none", "case", "f.elf", "p", "c"], 2),
            (["--again", "true", "case"], 2),
            (["true", ".", "f.elf", "p", "c"], 2),
            (["true", "case", "f.elf", "p", "c"], 2),
        ):
            done = self.script("evidence.py", *words)
            self.assertEqual(done.returncode, status, words)
            self.assertEqual(len(done.stderr.splitlines()), int(status != 0), words)
            self.assertFalse((self.folder / "case").exists())


if __name__ == "__main__":
    unittest.main()
