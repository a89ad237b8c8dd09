"""The page: nested, without anything from outside, every name escaped."""
import collections
import hashlib
import html.parser
import json
import os
import resource
import shutil
import unittest
from unittest import mock

import beside
import generated
from tcdlib import drawings
from tcdlib import frames
from tcdlib import judged
import names
import view

HOSTILE = [
    "</pre><script>alert(1)</script>",
    "\"><img src=x onerror='x()'>",
    "a&amp;b<b>'\\\"",
    "]]>--><!--\x1b[0m",
]
VOID = {"meta", "input", "br"}
#: elements that may be left open, and what ends them
IMPLIED = {"tr", "td", "th", "thead", "tbody"}
ENDED_BY = {
    "td": {"td", "th", "tr", "tbody"},
    "th": {"td", "th", "tr", "tbody"},
    "tr": {"tr", "tbody"},
    "thead": {"tbody"},
    "tbody": set(),
}
BLOCKS = {"p", "div", "table", "pre", "ul", "ol", "h1", "h2", "h3", "details"}
DRAWN = {"svg", "g", "path", "polygon", "ellipse", "text"}
TAGS = (
    BLOCKS
    | VOID
    | IMPLIED
    | DRAWN
    | set("html title style script nav a b i small code span caption li summary label".split())
)
ATTRIBUTES = set(
    "class id href title style colspan scope role aria-label lang charset name content type "
    "placeholder viewbox points x y cx cy rx ry d transform stroke-dasharray width height".split()
)
#: a word of ram of the example system_calls
TICKS = 0xD0008000
PROGRAM, ELF, PLAN, CERT = "tcd", "f.elf", "board.json", "f.cert"


class Reader(html.parser.HTMLParser):
    """Reads a page and keeps what is wrong with it, its text, its ids and where its links lead."""

    def __init__(self, text):
        super().__init__()
        self.open, self.wrong, self.texts = [], [], []
        self.ids, self.links, self.counts = collections.Counter(), set(), collections.Counter()
        self.scripts = []
        self.feed(text)
        self.close()
        if self.open != []:
            self.wrong.append(f"open at the end: {self.open}")

    def handle_starttag(self, tag, attributes):
        self.counts[tag] += 1
        while self.open and self.open[-1] in IMPLIED and tag in ENDED_BY[self.open[-1]]:
            self.open.pop()
        if "p" in self.open and tag in BLOCKS:
            self.wrong.append(f"<{tag}> in <p>")
        if tag not in TAGS:
            self.wrong.append(f"<{tag}>")
        if tag not in VOID:
            self.open.append(tag)
        for name, value in attributes:
            self.attribute(tag, name, value or "")

    def handle_startendtag(self, tag, attributes):
        self.handle_starttag(tag, attributes)
        self.open.pop()

    def attribute(self, tag, name, value):
        """Looks at one attribute."""
        if name not in ATTRIBUTES:
            self.wrong.append(f"{name} of <{tag}>")
        if name == "id":
            self.ids[value] += 1
        if name == "href":
            self.links.add(value)

    def handle_endtag(self, tag):
        while self.open and self.open[-1] in IMPLIED and self.open[-1] != tag:
            self.open.pop()
        if not self.open or self.open.pop() != tag:
            self.wrong.append(f"</{tag}> at {self.getpos()}")

    def handle_data(self, data):
        if self.open[-1:] != ["style"]:
            (self.scripts if self.open[-1:] == ["script"] else self.texts).append(data)

    def handle_comment(self, data):
        self.wrong.append(f"a comment: {data[:40]}")

    def handle_decl(self, decl):
        if decl != "doctype html":
            self.wrong.append(decl)

    @property
    def text(self):
        return "".join(self.texts)


class Pages(beside.InFolder):
    """Pages from texts that tcd printed, or that a test gives."""

    def printed(self, **texts):
        """Lets commands print these texts; one that begins with `refused` ends with status 1."""

        def run(program, *words):
            text = texts[words[0]]
            return text, text.startswith("refused ")

        patch = mock.patch("tcdlib.program.printed", run)
        patch.start()
        self.addCleanup(patch.stop)

    def recorded(self, **texts):
        """The texts of the example system_calls, and these."""
        for command, name in (("dis", "dis"), ("report", "report"), ("cfg", "cfg")):
            texts.setdefault(command, beside.recorded(f"system_calls.{name}"))
        self.printed(**texts)
        self.put(CERT, "")

    def page(self, known=None, elf=ELF):
        """The page of what the commands print, read and looked at."""
        with mock.patch("names.of", return_value=known or names.Map()):
            asked = judged.Judged(PROGRAM, elf, PLAN, ".")
            return self.looked_at(view.View(asked, CERT, []).text())

    def looked_at(self, text):
        """Reads a page and looks at its form."""
        page = Reader(text)
        self.assertEqual(page.wrong, [])
        self.assertEqual([name for name, count in page.ids.items() if count > 1], [])
        self.assertEqual([link for link in page.links if link[:1] != "#"], [])
        self.assertEqual([link for link in page.links if link[1:] not in page.ids], [])
        self.assertEqual(page.scripts, [(beside.TOOLS / "tcdlib" / "view.js").read_text()])
        for word in ("http:", "https:", "url(", "@import", "javascript:"):
            self.assertNotIn(word, text)
        return page


class Certified(Pages):
    """A page on a certificate."""

    def test_the_number_and_the_chain(self):
        # examples/README.md: blink, syscall 2, put, ready
        self.recorded()
        known = names.Map(
            (at, name, "kernel.s", 1) for at, name in ((0x80000000, "main"), (0x80000008, "blink"))
        )
        page = self.page(known)
        self.assertIn("4 of 4 areas are in use at most", page.text)
        graph = frames.Graph(
            beside.recorded("system_calls.report"),
            beside.recorded("system_calls.cfg"),
            frames.Listing(beside.recorded("system_calls.dis")),
        )
        chain, last, held = graph.deepest()
        self.assertEqual([step.way for step in chain], ["call", "sys", "call", "call"])
        self.assertEqual((last.need, held), (0, 0))
        for frame in graph.frames.values():
            self.assertIn(frame.place, page.ids)

    def test_lower_contexts_that_are_restored_are_not_held(self):
        self.recorded()
        dis = frames.Listing(beside.recorded("system_calls.dis"))
        report, cfg = beside.recorded("system_calls.report"), beside.recorded("system_calls.cfg")
        handler = next(
            each
            for each in frames.Graph(report, cfg, dis).frames.values()
            if each.key.kind == "irq"
        )
        held = [handler.saved[at] for at in sorted(handler.saved)]
        self.assertEqual(held, [0, 1, 1, 1, 1, 1, 0])  # `svlcx` is first, `rslcx` and `rfe` last

    def test_hostile_names(self):
        self.recorded()
        rows = [(0x80000000, HOSTILE[0], HOSTILE[1], 1), (0x80000008, HOSTILE[2], HOSTILE[3], 2)]
        rows.append((TICKS, HOSTILE[1], HOSTILE[0], 3))
        known = names.Map(rows, [(at, 4, file, line) for at, _, file, line in rows])
        page = self.page(known, elf=f"{HOSTILE[1]}\n\udc80.elf")
        for text in HOSTILE[:3]:
            self.assertIn(text, page.text)
        self.assertIn("]]>--><!--\\x1b[0m", page.text)
        self.assertNotIn("\x1b", page.text)
        self.assertIn(f"{TICKS:08X} {HOSTILE[1]}", page.text)

    def test_drawings_have_no_control_characters(self):
        for text, told in (
            ("a\x1b[0m", '"a\\\\x1b[0m"'),
            ("a\nb", '"a\\\\nb"'),
            ('&"', '"&amp;\\""'),
        ):
            self.assertEqual(drawings.quoted(text), told)

    @unittest.skipUnless(shutil.which("dot"), "no Graphviz")
    def test_drawings_with_hostile_names(self):
        self.recorded()
        known = names.Map([(0x80000008, HOSTILE[2], "", 0), (0x80000000, "main", "", 0)])
        page = self.page(known)
        self.assertEqual(page.counts["svg"], 8)  # each frame has more than one point
        self.assertIn(f"80000000 call {HOSTILE[2]}", page.text)

    def test_two_handlers_of_one_vector_and_lower_contexts(self):
        text = beside.recorded("system_calls.cfg")
        self.recorded(cfg=text.replace(" to ", " back "))
        self.assertIn("Longest chain", self.page().text)

    def test_no_area_is_used(self):
        report = {"areas": 2, "reserve": 1, "certified": 0, "calls": []}
        report["nodes"] = [{"key": "start 80000000 prio 0 is 0", "need": 0, "points": 1}]
        self.printed(
            dis=".section s0 # 80000000\nj16 .+0 # 80000000 3C00\n",
            report=json.dumps(report),
            cfg="start 80000000 prio 0 is 0: 80000000 to 80000000\n",
        )
        self.put(CERT, "")
        page = self.page()
        self.assertIn("0 of 1 areas are in use at most", page.text)
        self.assertIn("No area is ever used.", page.text)

    def test_texts_of_another_form(self):
        for name, text in (
            ("dis", "a line"),
            ("dis", "mov d0, 0 # 80000000 00\n"),
            ("report", "{}"),
            ("report", "no JSON"),
            ("report", '{"nodes": [{"key": "call", "need": 1, "points": 1}]}'),
            ("cfg", "a line\n"),
            ("cfg", "call 90000000 prio 0 is 0: 90000000 ret\n"),
        ):
            with self.assertRaises(view.Unusable, msg=f"{name}: {text}"):
                self.recorded(**{name: text})
                self.page()


class Refused(Pages):
    """A page on a refusal."""

    def refused(self, line):
        """The page of a `cert` that refuses."""
        older = "refused K1 at 80000000 in start 80000000 prio 0 is 0\n"
        self.recorded(cert=f"{line}\n", report=older)
        self.put(PLAN, "{}")
        return self.page(names.Map([(0x80000008, HOSTILE[0], "", 0)]))

    def test_the_code_around_it(self):
        page = self.refused("refused K9 at 8000000C in call 80000008 prio 0 is 0")
        self.assertIn("No certificate", page.text)
        self.assertIn(f"{HOSTILE[0]}+4", page.text)
        self.assertIn("What people change:", page.text)
        self.assertIn("refused K1", page.text)

    def test_no_code_there(self):
        page = self.refused("refused K3 at 90000000 in irq 90000000 prio 8 is 1")
        self.assertIn("no bytes at this address", page.text)

    def test_a_certificate_of_other_files(self):
        page = self.refused("certified 4 of 4 areas")
        self.assertIn("The certificate isn't this executable's", page.text)

    def test_a_ring(self):
        line = "refused K14 at 80000008 in call 80000008 prio 0 is 0"
        self.recorded(
            dis=".section s0 # 80000000\ncall .+8 # 80000000 6D000400\nj .+0 # 80000004 1D000000\n"
            "call .+0 # 80000008 6D000000\nret16 # 8000000C 0090\n",
            cert=f"{line}\n",
            report=f"{line}\n",
        )
        self.put(ELF, b"\0" * 24 + bytes.fromhex("00000080") + b"\0" * 24)
        self.put(PLAN, json.dumps(generated.plan([])))
        page = self.page(names.Map([(0x80000008, "f", "", 0)]))
        self.assertIn("The loop of frames", page.text)
        self.assertIn("f calls f", page.text)


class Script(beside.InFolder):
    """Faults of the script, each told in one line."""

    def test_faults(self):
        files = [ELF, PLAN, CERT, "page.html"]
        for words, status in (
            (["--help"], 0),
            ([], 5),
            (["tcd", *files[:3]], 5),
            (["tcd", *files, "a.layout"], 5),
            (["--wrong", *files], 5),
            (["./none", *files], 2),
            (["true", *files], 2),
            (["false", *files], 2),
            (["echo", *files], 2),
        ):
            done = self.script("view.py", *words)
            self.assertEqual(done.returncode, status, words)
            self.assertEqual(len(done.stderr.splitlines()), int(status != 0), done.stderr)
            self.assertFalse((self.folder / "page.html").exists())


@beside.needs_program
class WithProgram(Pages):
    """Pages of the examples."""

    FILES = ("firmware.elf", "board.json", "firmware.cert")

    def made(self, paths, *files, more=()):
        """Runs the script: the page as it was read."""
        words = [*(files or self.FILES), "p.html", "board.layout", *paths, *more]
        done = self.script("view.py", beside.program(), *words)
        self.assertEqual((done.returncode, done.stderr), (0, ""))
        return self.looked_at((self.folder / "p.html").read_text())

    def test_examples(self):
        for name, told in (
            ("motor_control", "20 of 20 areas"),
            ("nested_interrupts", "11 of 11 areas"),
            ("lower_context", "3 of 4 areas"),
        ):
            paths = self.example(name)
            self.linked(paths)
            self.tcd("cert", *self.FILES)
            page = self.made(paths)
            self.assertIn(told, page.text)
            self.assertIn(paths[0] + ":", page.text)
            for file in self.FILES:
                digest = hashlib.sha256((self.folder / file).read_bytes()).hexdigest()
                self.assertIn(f"{file} {digest}", page.text)
            os.remove("firmware.cert")

    def test_refusals(self):
        for name, told in (
            ("motor_control", "service_fault"),
            ("nested_interrupts", "A handler lowers the priority below its own"),
            ("lower_context", "rfe16"),
            ("polling", "d0 comes from and    d0, d2, 7"),
        ):
            paths = self.example(name, "broken")
            self.linked(paths)
            page = self.made(paths)
            self.assertIn("No certificate", page.text)
            self.assertIn(told, page.text)

    def test_too_few_areas(self):
        paths = self.example("nested_interrupts")
        self.linked(paths)
        plan = json.loads((self.folder / "board.json").read_text())
        plan["csa"].update(areas=8, reserve=1)
        self.put("few.json", json.dumps(plan))
        page = self.made(paths, "firmware.elf", "few.json", "none.cert")
        self.assertIn("11 areas are needed, there are 7", page.text)
        self.assertIn("From here on no area is left.", page.text)

    def test_cells(self):
        paths = self.example("cells")
        self.linked(paths)
        words = ("--cells", "modes.cells")
        self.tcd("cellcert", *self.FILES[:2], "modes.cells", "firmware.cert")
        page = self.made(paths, more=words)
        self.assertIn("5 of 6 areas are in use at most", page.text)
        self.assertIn("It prints certified 5 of 6 areas with 1 cells.", page.text)
        self.assertIn("add --cells FILE", self.made(paths).text)
        self.put("modes.cells", "cell D0008000 00000000 00000002\n")
        page = self.made(paths, more=words)
        self.assertIn("a store may write a part of a cell", page.text)
        self.assertIn("key.s:", page.text)

    def test_tasks(self):
        paths = self.example("two_tasks")
        self.linked(paths)
        certs = ("measure.cert", "show.cert")
        self.tcd("taskcert", *self.FILES[:2], "board.tasks", *certs)
        for task, number in ((0, 5), (1, 3)):
            words = ("--tasks", "board.tasks", str(task))
            page = self.made(paths, *self.FILES[:2], certs[task], more=words)
            self.assertIn(f"{number} of 8 areas are in use at most by task {task}", page.text)
            self.assertIn("not used by this task", page.text)
        done = self.script("view.py", beside.program(), *self.FILES, "p.html", *words[:2], "2")
        self.assertEqual((done.returncode, done.stderr.count("\n")), (2, 1))

    def test_faults_of_files(self):
        paths = self.example("one_call")
        self.linked(paths)
        self.tcd("cert", *self.FILES)
        whole = (self.folder / "firmware.cert").read_bytes()
        self.put("cut.cert", whole[:-3])
        self.put("no.json", "{")
        elf, board, cert = self.FILES
        for files, told in (
            (("none.elf", board, cert), "not there: none.elf"),
            ((elf, "none.json", cert), "not there: none.json"),
            ((elf, board, "none.cert"), "not there"),
            ((elf, board, "cut.cert"), "bad cert 1 at"),
            ((elf, "no.json", cert), "bad plan 1"),
            ((board, board, cert), "bad elf"),
        ):
            done = self.script("view.py", beside.program(), *files, "p.html")
            self.assertEqual((done.returncode, len(done.stderr.splitlines())), (2, 1), files)
            self.assertIn(told, done.stderr)
        words = (beside.program(), *self.FILES)
        for more in (["no/p.html"], ["p.html", "none.layout", *paths], ["p.html", board, *paths]):
            done = self.script("view.py", *words, *more)
            self.assertEqual((done.returncode, len(done.stderr.splitlines())), (2, 1), more)

    def test_a_large_image(self):
        paths = generated.firmware(self.folder, 532, 16)
        files = ("firmware.elf", "board.json", "firmware.cert")
        self.assertTrue(self.linked(paths).startswith("image "))
        self.tcd("cert", *files)
        before = resource.getrusage(resource.RUSAGE_CHILDREN).ru_utime
        page = self.made(paths)
        seconds = resource.getrusage(resource.RUSAGE_CHILDREN).ru_utime - before
        self.assertGreater(page.counts["details"], 540)
        self.assertLess((self.folder / "p.html").stat().st_size, 2_000_000)
        self.assertLess(seconds, 6, "with `report`, `cfg` and Graphviz, on a busy machine")


if __name__ == "__main__":
    unittest.main()
