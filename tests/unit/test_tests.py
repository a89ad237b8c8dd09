"""Unit tests of the scripts that try the rest: test.py, schema.py and tools/try_*.py."""
import re
import unittest

import beside
from tcdlib import meanings
import picture
import schema
import run as whole
import try_names
import try_page
import try_pages


class Counts(unittest.TestCase):
    """How many passed and failed, by a script's last line and its status."""

    def test_lines(self):
        for printed, status, wanted in (
            ("243 lines tried, 0 differ\n", 0, (243, 0)),
            ("66 tried, 2 differ\n", 1, (64, 2)),
            ("7161 cases tried, 1 wrong, 34 s\n", 1, (7160, 1)),
            ("...\nRan 12 tests in 0.1s\n\nOK\n", 0, (12, 0)),
            ("Ran 12 tests in 0.1s\n\nFAILED (failures=1, errors=2)\n", 1, (9, 3)),
        ):
            self.assertEqual(whole.counts(printed, status), wanted, printed)

    def test_a_script_that_breaks(self):
        self.assertEqual(whole.counts("Traceback\n", 1), (0, 1))
        self.assertEqual(whole.counts("5 tried, 0 wrong\nTraceback\n", 1), (5, 1))
        self.assertEqual(whole.counts("0 tried, 0 wrong\n", 0), (0, 1))


class Schemas(unittest.TestCase):
    def fault(self, given, value):
        return bool(schema.faults(given, value))

    def test_keywords(self):
        for given, good, bad in (
            ({"type": "integer"}, 1, True),
            ({"type": "object"}, {}, []),
            ({"minimum": 1, "maximum": 4}, 4, 5),
            ({"multipleOf": 4}, 8, 6),
            ({"pattern": "^0x[0-9]$"}, "0x1", "0x12"),
            ({"enum": ["sys", "aln"]}, "aln", "irq"),
            ({"minItems": 1, "maxItems": 2}, [1], []),
            ({"uniqueItems": True}, [1, 2], [1, 1]),
            ({"required": ["at"]}, {"at": 1}, {"len": 1}),
            ({"properties": {"at": {}}, "additionalProperties": False}, {"at": 1}, {"to": 1}),
            ({"items": {"type": "string"}}, ["a"], ["a", 1]),
            ({"anyOf": [{"type": "string"}, {"minimum": 3, "type": "integer"}]}, 3, 2),
            ({"$ref": "#/$defs/bit", "$defs": {"bit": {"maximum": 1}}}, 1, 2),
        ):
            self.assertFalse(self.fault(given, good), (given, good))
            self.assertTrue(self.fault(given, bad), (given, bad))

    def test_an_unknown_keyword_is_an_error(self):
        with self.assertRaises(KeyError):
            schema.faults({"minLength": 1}, "")


class Documents(unittest.TestCase):
    TEXT = """\
Some text
of two lines.

    cp -rT examples/one_call /tmp/one && cd /tmp/one
    tcd asm main.s main.o  # object 203 bytes

    tcd dis firmware.elf

`main.s` of `examples/one_call`:

    main: j .+0

Fenced:

```sh
# a comment

tcd dis firmware.elf
```
"""

    def test_blocks(self):
        first, second, third = try_pages.blocks(self.TEXT)
        copy = "cp -rT examples/one_call /tmp/one && cd /tmp/one"
        lines = [copy, "tcd asm main.s main.o  # object 203 bytes", "tcd dis firmware.elf"]
        self.assertEqual(first, ("Some text of two lines.", lines, None))
        self.assertEqual(second, ("`main.s` of `examples/one_call`:", ["main: j .+0"], None))
        self.assertEqual(third, ("Fenced:", ["# a comment", "tcd dis firmware.elf"], "sh"))

    def test_comments_are_no_statements(self):
        lines = ["# a", "mov  d0, 1 # b", "", "j .+0"]
        self.assertEqual(try_pages.code(lines), ["mov d0, 1", "j .+0"])

    def test_a_changed_plan(self):
        change = try_pages.changed_plan
        self.assertNotIn('"sp"', change('without "sp"'))
        self.assertIn('"sp": 4', change('"sp": 4'))
        self.assertEqual(change("[]"), "[]")

    def test_shells(self):
        plain = ["cp a b  # a copy", "tcd asm \\", "  a.s a.o  # object 1 bytes"]
        found = [("cp a b", ""), ("tcd asm a.s a.o", "object 1 bytes")]
        self.assertEqual([*try_pages.shells(plain)], found)
        session = ["$ tcd asm a.s a.o; echo $?", "object 1 bytes", "0", "$ rm a.o"]
        found = [("tcd asm a.s a.o; echo $?", "object 1 bytes\n0"), ("rm a.o", "")]
        self.assertEqual([*try_pages.shells(session)], found)

    def test_what_is_not_run(self):
        for line in (
            "(cd crates/tcd && rt run -- check)",
            "rt ci",
            "python3 tests/run.py tcd",
            "qualify.py tcd x",
        ):
            self.assertTrue(try_pages.NOT_RUN.search(line), line)
        for line in ("tcd dis start.elf", "python3 tools/known.py firmware.elf"):
            self.assertFalse(try_pages.NOT_RUN.search(line), line)


class Names(unittest.TestCase):
    def test_headings(self):
        text = "# A page\n\n## K6: `ret`, or a `call`\n\n```sh\n# no heading\n```\n"
        self.assertEqual(try_names.headings(text), {"a-page", "k6-ret-or-a-call"})

    def test_links(self):
        page = try_names.TOP / "README.md"
        for link in ("README.md#build", "docs/code.md", "#build"):
            self.assertTrue(try_names.leads(link, page), link)
        for link in ("none.md", "README.md#none", "#none"):
            self.assertFalse(try_names.leads(link, page), link)

    def test_names(self):
        page = try_names.TOP / "docs" / "rules.md"
        for name in ("tools/view.py", "view.py", "examples/*/board.json", "crates/tcd/out/x"):
            self.assertTrue(try_names.is_there(name, page), name)
        for name in ("tools/none.py", "none.md"):
            self.assertFalse(try_names.is_there(name, page), name)

    def test_form(self):
        page = try_names.TOP / "docs" / "rules.md"
        good = "# A\n\nFor users.\n\n## B\n" + "| a " * 60 + "|\n"
        self.assertEqual([*try_names.form_faults(page, good)], [])
        for text in ("x" * 101, f"| {'x' * 201} |", "word " * 10 + "\n" + "word\n" * 1500):
            self.assertTrue([*try_names.form_faults(page, good + text)], text[:20])
        self.assertTrue([*try_names.form_faults(page, good.replace("For", "To"))])


class Errors(unittest.TestCase):
    """docs/errors.md has each number that meanings.py has; 0 is said once, for all files."""

    PARTS = {"bad link": "LINKING", "bad plan": "PLANS", "bad elf": "EXECUTABLES"}
    PARTS |= {"bad cert": "BINARIES", "bad script": "SCRIPTS", "bad layout": "LAYOUTS"}
    PARTS |= {"bad cells": "CELLS", "bad tasks": "TASKS", "refused boot": "BOOTS", "dead": "DEATHS"}

    def setUp(self):
        text = (beside.TOP / "docs" / "errors.md").read_text()
        self.parts = re.findall(r"^## (.*?)\n(.*?)(?=^## |\Z)", text, re.M | re.S)

    def test_headings(self):
        heads = {head.partition(":")[0] for head, _ in self.parts}
        wanted = {f"K{rule}" for rule in meanings.RULES}
        wanted |= {f"bad source {rule}" for rule in meanings.SOURCES if rule != "0"}
        self.assertEqual(wanted - heads, set())

    def test_numbers(self):
        for start, name in self.PARTS.items():
            text = next(text for head, text in self.parts if head.startswith(start))
            for number in getattr(meanings, name):
                row = rf"^(?:\| |- \*\*)`?{number}\b"
                self.assertTrue(number == "0" or re.search(row, text, re.M), (start, number))


class Pictures(unittest.TestCase):
    PAGE = """<p class=head><b>2</b> of 4 areas</p>
<span class=p1 style="flex:2" title="interrupt 10: 2">2</span>
<tr class=p1><td><b>1</b><td><a href=#f1>interrupt 10</a><td>interrupt<td>main <small>a.s:3</small>
<tr class=p1><td><b>2</b><td><small>its lower context</small><td><code>svlcx</code><td>vector_10
<a href=#f0>main (start)</a>"""

    def test_a_tree(self):
        lines = ["frame areas need", "start main 0 2", "irq 10 (svlcx) 2 1", "in all 2"]
        self.assertEqual(picture.tree(self.PAGE), lines)

    def test_a_drawing(self):
        drawn = picture.svg(self.PAGE)
        for text in ("2 of 4 areas", "interrupt 10: 2", "main a.s:3", "its lower context"):
            self.assertIn(f">{text}</text>", drawn)


class Pages(unittest.TestCase):
    def wrong(self, text):
        return bool(try_page.faults_of(text, []))

    def test_nesting(self):
        self.assertFalse(self.wrong("<table><tr><td>a<td>b<tr><td>c</table><p>d<br>"))
        self.assertTrue(self.wrong("<div><b>a</div></b>"))
        self.assertTrue(self.wrong("<div>"))

    def test_nothing_from_outside(self):
        self.assertFalse(self.wrong('<a href="#x">a</a>'))
        for text in (
            '<script src="//x/y.js"></script>',
            '<img src="http://x/y.png">',
            "<style>@import 'x';</style>",
        ):
            self.assertTrue(self.wrong(text), text)

    def test_names(self):
        self.assertEqual(try_page.faults_of("&lt;xy&gt;", ["<xy>"]), [])
        self.assertTrue(try_page.faults_of("<xy></xy>", []))
        self.assertTrue(try_page.faults_of("", ["main"]))


if __name__ == "__main__":
    unittest.main()
