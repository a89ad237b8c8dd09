"""What explain.py says of each printed line."""
import json
import pathlib
import re
import unittest

import beside
import explain
from tcdlib import meanings
from tcdlib import program as tcd
import names

PROGRAM = "tcd"
SHIP = [PROGRAM, "ship", "board.json", "board.layout", "f.elf", "f.cert", "main.s", "drive.s"]
CERT = [PROGRAM, "cert", "f.elf", "board.json", "f.cert"]
RUN = [PROGRAM, "run", "f.elf", "board.json", "turns.script"]
LINK = [PROGRAM, "link", "board.layout", "f.elf", "main.o", "drive.o"]
CELLS = [PROGRAM, "cellcert", "f.elf", "board.json", "f.cells", "f.cert"]
TASKS = [PROGRAM, "taskcert", "f.elf", "board.json", "f.tasks", "a.cert", "b.cert"]
BOOT = [PROGRAM, "boot", "f.elf", "board.json", "f.cert", "80000800"]

#: the numbers of each kind of line, as docs/formats.md counts them
NUMBERS = {
    "elf": (meanings.EXECUTABLES, range(8)),
    "plan": (meanings.PLANS, range(9)),
    "cert": (meanings.BINARIES, range(7)),
    "object": (meanings.BINARIES, range(7)),
    "script": (meanings.SCRIPTS, range(5)),
    "cells": (meanings.CELLS, range(5)),
    "tasks": (meanings.TASKS, range(8)),
    "layout": (meanings.LAYOUTS, range(5)),
    "source": (meanings.SOURCES, range(15)),
    "link": (meanings.LINKING, range(1, 7)),
    "boot": (meanings.BOOTS, range(1, 5)),
    "K": (meanings.RULES, range(1, 18)),
}
CAUSES = ["fcd", "fcu", "csu", "ctyp", "nocode", "notlisted", "noarea"]

KEY = "call 80000008 prio 10 is 1"
#: a printed line, the command that prints it, its status, the finding's rule and file and line
LINES = [
    (f"refused K9 at 80000004 in {KEY}", CERT, 1, "K9", None, None),
    (f"refused K17 at 80000004 in {KEY} of task 1", TASKS, 1, "K17", None, None),
    (f"refused K16 at 80000004 in {KEY}", CELLS, 1, "K16", None, None),
    ("refused boot 1", BOOT, 1, "boot 1", "board.json", None),
    ("refused boot 4 at 80000835", BOOT, 1, "boot 4", None, None),
    ("refused switch at 80000425", TASKS, 1, "switch", None, None),
    ("refused sum 11 of 8 areas", TASKS, 1, "sum", "f.tasks", None),
    ("bad source 2 at 1 29", SHIP, 2, "source 2", "drive.s", 29),
    ("bad source 2 at 0 3", [PROGRAM, "asm", "a.s", "a.o"], 2, "source 2", "a.s", 3),
    ("bad source 0 at 1", SHIP, 2, "source 0", "drive.s", None),
    ("bad layout 4 at 3", LINK, 2, "layout 4", "board.layout", 3),
    ("bad layout 0", SHIP, 2, "layout 0", "board.layout", None),
    ("bad script 1 at 2", RUN, 2, "script 1", "turns.script", 2),
    ("bad cells 2 at 5", CELLS, 2, "cells 2", "f.cells", 5),
    ("bad tasks 1 at 2", TASKS, 2, "tasks 1", "f.tasks", 2),
    ("bad tasks 7", TASKS, 2, "tasks 7", "f.tasks", None),
    ("bad elf 5 at 1", CERT, 2, "elf 5", "f.elf", None),
    ("bad elf 7 at 0 1", RUN, 2, "elf 7", "f.elf", None),
    ("bad cert 1 at 17", CERT, 2, "cert 1", "f.cert", None),
    ("bad object 2 at 1 0", LINK, 2, "object 2", "drive.o", None),
    ("bad object 0 at 1", LINK, 2, "object 0", "drive.o", None),
    ("bad plan 2 key sp", CERT, 2, "plan 2", "board.json", None),
    ("bad plan 8 at 1 3", SHIP, 2, "plan 8", "board.json", None),
    ("bad plan 6", CERT, 2, "plan 6", "board.json", None),
    ("bad link 2 name f", LINK, 2, "link 2", "board.layout", None),
    ("bad link 5 at 0 0 2 2", LINK, 2, "link 5", None, None),
    ("bad link 6", LINK, 2, "link 6", "board.layout", None),
    ("events 8 peak 1 dead nocode at 00000000", RUN, 0, "dead nocode", None, None),
    ("bad words", [PROGRAM, "cert", "f.elf"], 5, "words", None, None),
    ("", CERT, 3, "status 3", None, None),
    ("", CERT, 4, "status 4", None, None),
]
#: lines with nothing to explain
SILENT = [
    ("certified 11 of 11 areas", CERT, 0),
    ("events 49 peak 11 running", RUN, 0),
    ("image 288 bytes", LINK, 0),
    ("certified 5 of 6 areas with 1 cells", CELLS, 0),
]


def found(line, command=CERT, status=1, known=None, paths=()):
    """The finding of a line."""
    return explain.Explainer(command, known or names.Map(), paths).find(line, status)


class Lines(beside.InFolder):
    """Every printed line is told with its file and line."""

    def test_lines(self):
        for line, command, status, rule, file, number in LINES:
            told = found(line, command, status)
            self.assertIsNotNone(told, line)
            self.assertEqual((told["rule"], told["file"], told["line"]), (rule, file, number), line)
            self.assertEqual(tuple(told), explain.FIELDS, line)
            self.assertNotIn(explain.UNKNOWN.means, told["message"], line)

    def test_lines_with_nothing_to_explain(self):
        for line, command, status in SILENT:
            self.assertIsNone(found(line, command, status), line)

    def test_unknown_numbers(self):
        refused = f"refused K99 at 80000000 in {KEY}"
        for line in (refused, "bad elf 77", "bad plan 55", "bad cert 9 at 4"):
            self.assertIn(explain.UNKNOWN.means, found(line, CERT, 2)["message"])

    def test_frames(self):
        known = names.Map([(0x80000008, "f", "a.s", 3)])
        for key, told in (
            ("start 80000000 prio 0 is 0", "the background"),
            ("call 80000008 prio 0 is 0", "a call of f"),
            ("call 80000008 prio 10 is 1", "a call of f while interrupt 10 is handled"),
            ("irq 80000540 prio 10 is 1", "the handler of interrupt 10"),
            ("sys 800001C0 prio 0 is 1", "a system call"),
            ("aln 80000140 prio 10 is 1", "a misaligned access while interrupt 10 is handled"),
        ):
            line = f"refused K9 at 8000000C in {key}"
            self.assertEqual(found(line, known=known)["frame"], told)

    def test_labels_inside_of_functions(self):
        known = names.Map([(0x80000008, "diagnose", "a.s", 3), (0x80000010, "next", "a.s", 5)])
        for key, told in (
            ("call 80000008 prio 0 is 0", "diagnose (next+8)"),
            ("irq 80000540 prio 10 is 1", "next+8"),
        ):
            line = f"refused K12 at 80000018 in {key}"
            self.assertEqual(found(line, known=known)["function"], told)

    def test_rule_3_by_the_kind_of_frame(self):
        for kind, word in (("irq", "irqs"), ("sys", "sys"), ("aln", "aln"), ("call", "table")):
            line = f"refused K3 at 80000540 in {kind} 80000540 prio 10 is 1"
            self.assertIn(word, found(line)["change"], kind)
        inside = found("refused K3 at 80000544 in irq 80000540 prio 10 is 1")
        self.assertEqual(inside["message"], meanings.RULES["3"].means)

    def test_rules_6_and_7_by_the_kind_of_frame(self):
        for rule, kind, words in (
            ("6", "start", "end the background with a jump"),
            ("6", "call", "`rslcx` for each"),
            ("6", "irq", "end handlers with `rfe`"),
            ("7", "call", "with `ret`"),
            ("7", "irq", "begin the handler with `svlcx`"),
            ("7", "sys", "`rslcx` for each"),
        ):
            line = f"refused K{rule} at 80000544 in {kind} 80000540 prio 0 is 1"
            self.assertIn(words, found(line)["change"], line)

    def test_a_certificate_that_is_given_may_be_an_older_one(self):
        for rule, name, is_told in (
            ("9", "check", True),
            ("9", "cert", False),
            ("4", "check", False),
            ("17", "tasks", True),
        ):
            line = f"refused K{rule} at 80000004 in {KEY}"
            change = found(line, [PROGRAM, name, *CERT[2:]])["change"]
            self.assertEqual(explain.OLDER in change, is_told, (rule, name))
            self.assertEqual(change.count("again"), int(is_told or rule == "4"))

    def test_words_of_a_command(self):
        told = found("bad words", [PROGRAM, "boot", "f.elf"], 5)["message"]
        self.assertIn("ELF PLAN CERT ADDRESS", told)
        self.assertIn("there is no command", found("bad words", [PROGRAM, "--help"], 5)["message"])
        self.assertIn("(none)", found("bad words", [PROGRAM], 5)["message"])

    def test_missing_files_are_named(self):
        self.put("f.elf", "")
        told = found("", CERT, 3)["message"]
        self.assertTrue(told.endswith("not there: board.json"), told)
        told = found("", SHIP, 3)["message"]
        self.assertTrue(told.endswith("not there: main.s, drive.s, board.layout, board.json"), told)
        check = [PROGRAM, "check", *CERT[2:]]
        self.assertTrue(found("", check, 3)["message"].endswith("board.json, f.cert"))

    def test_words_that_are_folders_or_lie_in_missing_ones(self):
        for name in ("f.elf", "board.json", "main.s"):
            self.put(name, "")
        (self.folder / "out").mkdir()
        for words, told in (
            (("cert", "f.elf", "board.json", "out"), "; a folder: out"),
            (
                ("cert", "f.elf", "board.json", "no/f.cert"),
                "; in a folder that isn't there: no/f.cert",
            ),
            (
                ("cert", "f.elf", "out", "f.elf/x"),
                "a folder: out; in a folder that isn't there: f.elf/x",
            ),
            (("asm", "main.s", "out/main.o"), "was closed"),
            (("asm", "none.s", "none.o"), "; not there: none.s"),
            (("asm", "no/main.s", "main.o"), "; in a folder that isn't there: no/main.s"),
            (
                ("taskcert", "f.elf", "board.json", "t", "a", "no/b"),
                "isn't there: no/b; not there: t",
            ),
            (("asm", "a" * 5000, "x.o"), f"; not there: {'a' * 5000}"),
            (("asm", "a\0b", "x.o"), "; not there: a\0b"),
        ):
            message = found("", [PROGRAM, *words], 3)["message"]
            self.assertTrue(message.endswith(told), (words, message))
        paths = ["asm", pathlib.Path("none.s"), pathlib.Path("out")]
        self.assertEqual(tcd.lacking(paths), "a folder: out; not there: none.s")


class Files(beside.InFolder):
    """Places in files that the line alone doesn't have."""

    def setUp(self):
        super().setUp()
        places = "place t 80000000 00000010\nplace u 80000100 00000004\n"
        self.put("board.layout", "entry main\n" + places)
        self.put("main.s", ".section t\n.global main\nmain: call f  # f\n j g\n")
        self.put("drive.s", ".section u\nf: nop\n nop\n.section t\n.global main\nmain: nop\n")

    def finding(self, line):
        return found(line, LINK, 2, paths=["main.s", "drive.s"])

    def test_linking(self):
        for line, file, number, words in (
            ("bad link 1 name main", "main.s", 3, "two objects"),
            ("bad link 2 name g", "main.s", 4, "no object"),
            ("bad link 2 name f", "main.s", 3, "(drive.s:2 has a label of this name"),
            ("bad link 3 name u", "drive.s", 1, "no place"),
            ("bad link 4 name u", "board.layout", 3, "it has 8 bytes, the place takes 4"),
            ("bad link 5 at 0 0 4 2", "main.s", 4, "too far"),
            ("bad link 5 at 9 0 4 1", None, None, "odd"),
            ("bad link 5 at 0 7 4 3", "main.s", None, "calla"),
        ):
            told = self.finding(line)
            self.assertEqual((told["file"], told["line"]), (file, number), line)
            self.assertIn(words, told["message"])

    def test_what_is_seen_in_a_line(self):
        for line, words in (
            ("mov d0, 1\r", "carriage return"),
            ("mov %d0, 1 # %", "write registers without `%`"),
            ("mov d0, 1 ; one", "begin comments with `#`"),
            ("mov d0, @1", "`@` in a line"),
            ("mov d0, 1 # \r", "64 words and signs"),
        ):
            self.put("main.s", f".section t\n{line}\n")
            told = found("bad source 1 at 0 2", SHIP, 2)
            self.assertIn(words, f"{told['message']} {told['change']}", line)
        self.put("turns.script", "step 5\r\n")
        self.assertIn("carriage return", found("bad script 1 at 1", RUN, 2)["message"])

    def test_the_text_of_a_line(self):
        self.assertEqual(self.finding("bad link 2 name g")["text"], "j g")

    def test_the_line_of_a_script_as_it_is(self):
        self.put("turns.script", "step 5\nstep 5 # more\n")
        self.assertEqual(found("bad script 1 at 2", RUN, 2)["text"], "step 5 # more")

    def test_a_long_line_is_cut_where_it_is_printed(self):
        self.put("turns.script", "x" * 500)
        told = found("bad script 1 at 1", RUN, 2)
        self.assertEqual(len(told["text"]), 500)
        self.assertEqual(explain.lines_of(told)[1], f"    text: {'x' * explain.MOST_TEXT} ..")

    def test_a_layout_without_an_entry(self):
        for end in ("", "\n"):
            self.put("board.layout", "place t 80000000 00000100" + end)
            told = found("bad layout 1 at 2", LINK, 2)
            self.assertEqual(told["message"], meanings.NO_ENTRY.means)
            told = found("bad layout 1 at 1", LINK, 2)
            self.assertEqual(told["message"], meanings.LAYOUTS["1"].means)

    def test_a_key_of_a_plan(self):
        lines = ["{", '"rom": [', '{"at": 0}],', '"csa": {', '"at": 64,', '"areas": 0}}']
        self.put("board.json", "\n".join(lines))
        for key, number in (("csa.at", 5), ("csa.areas", 6), ("rom.at", 3), ("sp", None)):
            self.assertEqual(found(f"bad plan 4 key {key}", CERT, 2)["line"], number, key)

    def test_a_missing_key_of_a_plan(self):
        text = '\n{\n"rom": [{"at": 0, "len": 4},\n{"at": 4}],\n"csa":\n{"at": 64},\n"ram": []}'
        self.put("board.json", text)
        for key, number in (("sp", 2), ("rom.len", 4), ("csa.areas", 6), ("globals", 2)):
            self.assertEqual(found(f"bad plan 2 key {key}", CERT, 2)["line"], number, key)
        for text in ("", "x", '{"csa": 3}'):
            self.put("board.json", text)
            self.assertIsNone(found("bad plan 2 key csa.at", CERT, 2)["line"])

    def test_byte_order_marks(self):
        asm = [PROGRAM, "asm", "main.s", "main.o"]
        for mark in (b"\xef\xbb\xbf", b"\xff\xfe", b"\xfe\xff"):
            for name, line, command in (
                ("board.json", "bad plan 1", CERT),
                ("main.s", "bad source 1 at 0 1", asm),
                ("board.layout", "bad layout 1 at 1", LINK),
                ("turns.script", "bad script 1 at 1", RUN),
                ("f.cells", "bad cells 1 at 1", CELLS),
                ("f.tasks", "bad tasks 1 at 1", TASKS),
            ):
                self.put(name, mark + b"{}")
                told = found(line, command, 2)
                self.assertEqual((told["message"], told["line"]), (meanings.MARK.means, 1), name)
                self.assertEqual(told["change"], meanings.MARK.change)
                self.put(name, b"x\n" + mark)
                self.assertNotEqual(found(line, command, 2)["message"], meanings.MARK.means)

    def test_a_plan_that_is_no_json(self):
        for text, number in (('{\n "sp": x\n}', 2), ('{"sp": 0x10}', 1), ("[" * 100000, None)):
            self.put("board.json", text)
            told = found("bad plan 1", CERT, 2)
            self.assertIn("JSON", told["message"])
            if number:
                self.assertEqual(told["line"], number)
        self.put("board.json", '{"sp": NaN}')
        self.assertEqual(found("bad plan 1", CERT, 2)["message"], "not JSON: NaN is no number")
        for text in (b"\xff\xfd", b"[]", b""):
            self.put("board.json", text)
            self.assertIn("JSON", found("bad plan 1", CERT, 2)["message"])


class Documents(unittest.TestCase):
    """The tables of meanings.py have what the documents say tcd prints."""

    def test_each_number_has_a_meaning(self):
        for kind, (table, numbers) in NUMBERS.items():
            self.assertEqual(list(table), [str(n) for n in numbers], kind)
        self.assertEqual(list(meanings.DEATHS), CAUSES)

    def test_each_printed_form_of_formats_is_explained(self):
        text = (beside.TOP / "docs" / "formats.md").read_text()
        part = text.split("\n## Printed lines", 1)[1].split("\n## ", 1)[0]
        forms = re.findall(r"`((?:bad|refused) [^`]*|[^`]* dead [^`]*)`", part)
        self.assertGreater(len(forms), 15)
        for form in forms:
            status = 5 if form == "bad words" else 2
            self.assertIsNotNone(found(sample(form), CERT, status), form)

    def test_lines_in_documents_are_explained(self):
        tried, line = 0, re.compile(r"`(?:refused|bad) (K|[a-z]+ )(\d+)[ `]")
        for path in sorted([*beside.TOP.glob("*.md"), *beside.TOP.glob("*/*.md")]):
            for kind, number in line.findall(path.read_text()):
                if kind != "sum ":
                    self.assertIn(number, NUMBERS[kind.strip()][0], f"{path.name}: {kind}{number}")
                    tried += 1
        self.assertGreater(tried, 50)

    def test_each_command_of_the_readme_has_its_words(self):
        text = (beside.TOP / "README.md").read_text()
        for name in re.findall(r"^    tcd (\w+) ", text, re.M):
            self.assertIn(name, meanings.COMMANDS)

    def test_meanings_are_plain_sentences(self):
        tables = [table for table, _ in NUMBERS.values()]
        tables += [meanings.NO_AREAS, meanings.NO_CODE_AT_ENTRY, meanings.BY_FRAME]
        tables.append({"ji": meanings.NO_CODE_AT_JUMP, "mark": meanings.MARK})
        tables += [meanings.DEATHS, meanings.STATUSES]
        for table in tables:
            for number, meaning in table.items():
                for text in filter(None, meaning):
                    self.assertFalse(text.endswith("."), f"{number}: {text}")
                    self.assertEqual(text.count("`") % 2, 0, f"{number}: {text}")


def sample(form):
    """A line of a form of docs/formats.md: numbers, addresses and names in place of its words."""
    form = form.replace("<rule>", "3").replace("<address>", "80000000").replace("<frame>", KEY)
    form = form.replace("at PC", "at 80000000").replace("CAUSE", "fcd")
    form = form.replace("name NAME", "name f")
    form = re.sub(r" ?\.\.$", "", form)
    return re.sub(r"\b[A-Z]+\b(?<!K)", "1", form)


class Script(beside.InFolder):
    """The script itself, with a program that prints what it is told."""

    def setUp(self):
        super().setUp()
        path = self.put("fake", '#!/bin/sh\nprintf "%s" "$SAYS"\necho more >&2\nexit "$ENDS"\n')
        (self.folder / path).chmod(0o755)

    def ran(self, says, ends, *words):
        words = words or ("--", "./fake", "cert", "f.elf", "board.json", "f.cert")
        return self.script("explain.py", *words, env={"SAYS": says, "ENDS": str(ends)})

    def test_what_is_printed_stays_and_so_does_the_status(self):
        done = self.ran("bad elf 1\n", 2)
        self.assertEqual((done.returncode, done.stdout), (2, "bad elf 1\n"))
        told = "f.elf: error: elf 1: " + meanings.EXECUTABLES["1"].means
        self.assertEqual(done.stderr.splitlines()[:2], ["more", told])
        for status in (0, 1, 3, 4, 5, 77):
            self.assertEqual(self.ran("x\n", status).returncode, status)

    def test_json(self):
        words = ("--json", "--", "./fake", "cert", "f.elf", "board.json", "f.cert")
        done = self.ran("bad elf 1\n", 2, *words)
        told = json.loads(done.stdout)
        self.assertEqual((done.returncode, done.stderr), (2, ""))
        self.assertEqual((told["status"], told["printed"]), (2, "bad elf 1"))
        self.assertEqual(told["finding"]["rule"], "elf 1")
        self.assertIsNone(json.loads(self.ran("image 3 bytes\n", 0, *words).stdout)["finding"])

    def test_faults(self):
        for words, status in (
            (["--help"], 0),
            ([], 5),
            (["--"], 5),
            (["a.layout", "a.s"], 5),
            (["--wrong", "--", "./fake"], 5),
            (["--elf", "--", "./fake"], 5),
            (["--", "./none", "cert"], 2),
            (["--", ".", "cert"], 2),
        ):
            done = self.script("explain.py", *words)
            self.assertEqual(done.returncode, status, words)
            self.assertEqual(len(done.stderr.splitlines()), int(status != 0), words)

    def test_no_names_is_one_line(self):
        words = ("none.layout", "none.s", "--", "./fake", "cert", "f.elf", "b.json", "f.cert")
        done = self.ran(f"refused K9 at 80000004 in {KEY}\n", 1, *words)
        self.assertIn("explain.py: no names: none.layout: No such file or directory", done.stderr)
        self.assertNotIn("no names", self.ran("bad elf 1\n", 2, *words).stderr)

    def test_hostile_names_are_escaped(self):
        words = ("--", "./fake", "cert", "a\x1b[31m\n.elf", "board.json", "f.cert")
        done = self.ran("bad elf 1\n", 2, *words)
        self.assertIn("a\\x1b[31m\\n.elf: error: elf 1", done.stderr)
        self.assertNotIn("\x1b", done.stderr)


@beside.needs_program
class WithProgram(beside.InFolder):
    """Broken examples, whose faults are known (examples/README.md)."""

    def explained(self, sources, *words):
        names_from = ["board.layout", *sources] if sources else []
        done = self.script("explain.py", "--json", *names_from, "--", beside.program(), *words)
        return json.loads(done.stdout)["finding"]

    def certified(self, example, variant):
        sources = self.example(example, variant)
        self.linked(sources)
        return self.explained(sources, "cert", "firmware.elf", "board.json", "firmware.cert")

    def test_a_ring_through_a_service(self):
        told = self.certified("motor_control", "broken")
        self.assertEqual((told["rule"], told["file"]), ("K14", "faults.s"))
        self.assertEqual(told["text"].split(), ["call", "gates_off"])
        self.assertEqual(told["message"], meanings.NO_AREAS["recursion"].means)
        self.assertEqual(len(told["notes"]), 3)
        for note, words in zip(told["notes"], ("gates_off", "system call", "service_fault")):
            self.assertIn(words, note["message"])
            self.assertEqual(note["file"], "faults.s")

    def test_a_handler_that_lowers_its_priority(self):
        told = self.certified("nested_interrupts", "broken")
        self.assertEqual(told["message"], meanings.NO_AREAS["interrupt"].means)
        last = told["notes"][-1]
        self.assertEqual((last["file"], last["line"]), ("handlers.s", 7))
        self.assertEqual(last["function"], "vector_10")

    def test_too_few_areas(self):
        sources = self.example("motor_control")
        plan = json.loads((self.folder / "board.json").read_text())
        plan["csa"]["areas"] = 10
        self.put("board.json", json.dumps(plan))
        told = self.explained([], "ship", "board.json", "board.layout", "f.elf", "f.cert", *sources)
        self.assertEqual((told["rule"], told["needed"], told["function"]), ("K14", 20, "main"))
        self.assertFalse((self.folder / "f.elf").exists())

    def test_a_certificate_that_states_too_little(self):
        sources = self.example("one_call")
        self.linked(sources)
        words = ("firmware.elf", "board.json", "firmware.cert")
        self.tcd("cert", *words)
        data = bytearray((self.folder / "firmware.cert").read_bytes())
        data[15] = 0  # the need of the first node: docs/formats.md, "Certificates"
        self.put("firmware.cert", bytes(data))
        told = self.explained(sources, "check", *words)
        self.assertEqual(told["rule"], "K14")
        self.assertEqual(told["message"], meanings.NO_AREAS["certificate"].means)

    def test_calls_that_take_a_zero_of_a_table(self):
        self.example("device_table")
        call = "addsc.a a14, a14, {}, 2\n ld.a a14, [a14]0\n calli a14"
        text = "movh.a a14, hi:{}\n lea.l a14, [a14]lo:{}\n"
        lines = [".section text", ".global main", "main:", "movh.a a12, 0xF020", "ld.w d15, [a12]0"]
        lines += [text.format("six", "six"), call.format("d15"), "mov d0, 7", "and d0, d0, 1"]
        lines += [text.format("two", "two"), call.format("d0"), "j main", "f: ret16", "ret16"]
        lines += ["six: .word f, f, 0, f, f, 0", "two: .word f, f, 0", ""]
        self.put("main.s", "\n".join(lines))
        self.linked(["main.s"])
        words = ("cert", "firmware.elf", "board.json", "firmware.cert")
        told = self.explained(["main.s"], *words)
        self.assertEqual((told["rule"], told["file"], told["text"]), ("K3", "main.s", "calli a14"))
        self.assertEqual(len(told["notes"]), 1)  # the index of the second goes up to 1
        self.assertIn("the word at six+8", told["notes"][0]["message"])

    def test_a_call_past_the_end_of_a_table_of_records(self):
        self.example("device_table")
        lines = [".section text", ".global main", "main:", "movh.a a12, 0xF020", "ld.w d15, [a12]0"]
        lines += ["movh.a a14, hi:rows", "lea.l a14, [a14]lo:rows", "addsc.a a14, a14, d15, 3"]
        lines += ["ld.a a14, [a14]0", "calli a14", "j main", "f: ret16", "nop16"]
        lines += ["rows: .word f, 1, f, 2, f, 3, f, 4, f, 5, 0x1C0, 6", ""]
        self.put("main.s", "\n".join(lines))
        self.linked(["main.s"])
        words = ("cert", "firmware.elf", "board.json", "firmware.cert")
        told = self.explained(["main.s"], *words)
        self.assertEqual((told["rule"], told["line"], told["text"]), ("K3", 10, "calli a14"))
        self.assertEqual(told["message"], meanings.NO_CODE_AT_ENTRY["call"].means)
        (note,) = told["notes"]
        self.assertIn(
            "the word at rows+40 (8000004C) of its table, which is 000001C0", note["message"]
        )

    def test_a_jump_by_a_word_that_is_no_code(self):
        self.example("one_call")
        lines = [".section text", ".global main", "main:", "movh.a a2, hi:header"]
        lines += [
            "lea.l a2, [a2]lo:header",
            "ld.a a2, [a2]4",
            "ji a2",
            "header: .word 7, 0x80002000",
        ]
        self.put("main.s", "\n".join(lines) + "\n")
        self.linked(["main.s"])
        words = ("cert", "firmware.elf", "board.json", "firmware.cert")
        told = self.explained(["main.s"], *words)
        self.assertEqual((told["rule"], told["line"], told["text"]), ("K3", 7, "ji a2"))
        self.assertEqual(told["message"], meanings.NO_CODE_AT_JUMP.means)
        self.assertEqual(told["address"], "80002000")
        (note,) = told["notes"]
        self.assertIn("`ji` may take the word at header+4 (80000014)", note["message"])

    def test_other_variants(self):
        for example, variant, rule, file, words in (
            ("lower_context", "broken", "K7", "adc.s", "rfe16"),
            ("device_table", "broken", "K5", "main.s", "calli"),
            ("protocol", "broken", "K5", "receive.s", "ji"),
            ("system_calls", "broken", "K12", "main.s", "syscall"),
            ("polling", "broken", "K9", "main.s", "st.w"),
            ("motor_control", "broken_clear", "K9", "main.s", "st.w"),
        ):
            told = self.certified(example, variant)
            self.assertEqual((told["rule"], told["file"]), (rule, file), example)
            self.assertEqual(told["text"].split()[0], words, example)


if __name__ == "__main__":
    unittest.main()
