"""lower.py: its forecasts beside what tcd certifies once a change is made, and its parts."""
import json
import re
import unittest

import beside
import lower
import scratch
from tcdlib import frames

FILES = ("firmware.elf", "board.json")
#: what scripts are told of an example's certificate
KINDS = {"cells": ("--cells", "modes.cells"), "two_tasks": ("--tasks", "board.tasks", "0")}
#: for `no svlcx`: the work of a handler in D10 to D15, A14 and A15, which the entry saves
UPPER = ((r" +(svlcx|rslcx)\n", ""), (r"\bd([0-5])\b", r"d1\1"), (r"\ba([45])\b", r"a1\1"))


def off(call):
    """An edit that turns interrupts off around a call."""
    return rf"(    {call}\b.*\n)", r"    disable\n\1    enable\n"


#: by example: a change that is forecast, and what makes it: a file, a pattern, its replacement
FORECASTS = {
    "motor_control": [
        ("bisr16 40 in the handler of interrupt 20", ("serial.s", "bisr16 20", "bisr16 40")),
        ("bisr16 30 in the handler of interrupt 20", ("serial.s", "bisr16 20", "bisr16 30")),
        ("bisr16 40 in the handler of interrupt 30", ("speed.s", " bisr16 30\n", " bisr16 40\n")),
        ("interrupts off around the calls of receive", ("serial.s", *off("call   receive"))),
        ("interrupts off around the calls of get_speed", ("serial.s", *off("calli  a6"))),
        (
            "interrupts off around the calls of send",
            ("serial.s", *off("call   send")),
            ("main.s", *off("call   send")),
        ),
        ("interrupts off around the calls of send_byte", ("serial.s", *off("call   send_byte"))),
        ("inline report_fault", ("main.s", "call   report_fault", "call   send")),
    ],
    "nested_interrupts": [
        ("bisr16 20 in the handler of interrupt 10", ("handlers.s", " bisr16 10", " bisr16 20")),
        ("bisr16 30 in the handler of interrupt 20", ("handlers.s", " bisr16 20", " bisr16 30")),
        ("interrupts off around the calls of work", ("main.s", *off("call   work"))),
        (
            "interrupts off around the calls of count_middle",
            ("handlers.s", *off("call   count_middle")),
        ),
        ("inline work", ("main.s", "call   work", "call   step")),
    ],
    "core_16": [
        ("bisr16 30 in the handler of interrupt 10", ("main.s", " bisr16 10", " bisr16 30")),
        ("interrupts off around the calls of sample", ("main.s", *off("call   sample"))),
        ("inline scale", ("main.s", "call   scale", "sh d2, d8, -2")),
    ],
    "misaligned": [("inline output_off", ("main.s", "call   output_off", "movh.a a15, 0xF020"))],
    "polling": [("inline limit", ("main.s", "call   limit", "mov d2, 1000"))],
    "lower_context": [
        ("inline filter", ("adc.s", "call   filter", "mov d2, 0")),
    ],
    "start_up": [
        ("no svlcx in the handler of interrupt 20", *(("main.s", *edit) for edit in UPPER))
    ],
    "cells": [
        ("interrupts off around the calls of blink", ("main.s", *off("calli  a14"))),
        ("inline set_lamp", ("main.s", "call   set_lamp", "mov d4, 0")),
    ],
    "two_tasks": [
        ("interrupts off around the calls of measure", ("main.s", *off("call   measure"))),
    ],
}
#: by example: the N that --to asks for, and its row of changes with what makes each
ROWS = {
    "nested_interrupts": (
        5,
        ("bisr16 30 in the handler of interrupt 10", ("handlers.s", " bisr16 10", " bisr16 30")),
        ("bisr16 30 in the handler of interrupt 20", ("handlers.s", " bisr16 20", " bisr16 30")),
    ),
    "motor_control": (
        9,
        ("bisr16 40 in the handler of interrupt 20", ("serial.s", "bisr16 20", "bisr16 40")),
        ("bisr16 40 in the handler of interrupt 30", ("speed.s", " bisr16 30\n", " bisr16 40\n")),
    ),
    "two_tasks": (
        2,
        ("interrupts off around the calls of measure", ("main.s", *off("call   measure"))),
        ("inline tick", ("main.s", "call   tick", "mov    d0, 0")),
        (
            "no svlcx in the handler of interrupt 20",
            ("main.s", " +(svlcx|rslcx)\n", ""),
            ("main.s", r"\bd0\b", "d8"),
        ),
    ),
}


@beside.needs_program
class Forecasts(beside.InFolder):
    """Each kind of change, forecast and then made in the sources."""

    def lower(self, example, *words):
        """What lower.py prints as JSON of an example in the folder."""
        kind = KINDS.get(example, ())
        names_from = ("--names", "board.layout", *self.sources)
        words = (*FILES, *names_from, *kind, *words, "--json", "--tcd", beside.program())
        done = self.script("lower.py", *words)
        self.assertEqual(done.stderr, "")
        return json.loads(done.stdout)

    def made(self, *edits):
        """Edits the sources."""
        for file, pattern, replacement in edits:
            text = (self.folder / file).read_text()
            self.assertRegex(text, pattern)
            self.put(file, re.sub(pattern, replacement, text))

    def certified(self, example):
        """N of the sources as they are; of tasks what the first one needs."""
        self.linked(self.sources)
        if example == "cells":
            line = self.tcd("cellcert", *FILES, "modes.cells", "firmware.cert")
        elif example == "two_tasks":
            line = self.tcd("taskcert", *FILES, "board.tasks", "firmware.cert", "show.cert")
        else:
            line = self.tcd("cert", *FILES, "firmware.cert")
        if found := re.match(r"certified (\d+) of", line):
            return int(found[1]) - (3 if example == "two_tasks" else 0)
        return line

    def test_single_changes(self):
        for example, changes in FORECASTS.items():
            scratch.built(beside.program(), example, self.folder)
            self.sources = scratch.sources_of(example)
            now = self.certified(example)
            told = self.lower(example)
            self.assertEqual(told["certified"], now)
            forecasts = {row["change"]: row["certified"] for row in told["changes"]}
            for change, *edits in changes:
                with self.subTest(f"{example}: {change}"):
                    self.made(*edits)
                    self.assertLess(forecasts[change], now)
                    self.assertEqual(self.certified(example), forecasts[change])
                self.example(example)

    def test_rows_of_changes(self):
        for example, (wanted, *changes) in ROWS.items():
            self.sources = self.example(example)
            self.linked(self.sources)
            told = self.lower(example, "--to", str(wanted))
            self.assertEqual([row["change"] for row in told["changes"]], [c[0] for c in changes])
            self.assertEqual((told["is_reached"], told["changes"][-1]["certified"]), (True, wanted))
            for row, (change, *edits) in zip(told["changes"], changes):
                with self.subTest(f"{example}: {change}"):
                    self.made(*edits)
                    self.assertEqual(self.certified(example), row["certified"])


#: two chains of the same length
EQUAL = """.section t
.global main
main:
    call   f
    call   g
    j      main
f:  call   h
    ret16
g:  call   k
    ret16
h:  ret16
k:  ret16
"""


@beside.needs_program
class Files(beside.InFolder):
    """What is printed, and files of all kinds."""

    def lower(self, *words):
        return self.script("lower.py", *FILES, *words, "--tcd", beside.program())

    def board(self, **changes):
        """Changes the plan."""
        plan = json.loads((self.folder / "board.json").read_text())
        self.put("board.json", json.dumps({**plan, **changes}))

    def test_lines(self):
        self.linked(sources := self.example("nested_interrupts"))
        done = self.lower("--most", "1", "--names", "board.layout", *sources)
        self.assertEqual((done.returncode, done.stderr), (0, ""))
        lines = done.stdout.splitlines()
        change = "bisr16 20 in the handler of interrupt 10"
        self.assertEqual(lines[0], "11 of 11 areas now")
        self.assertEqual(lines[1], f"handlers.s:7: note: 8 areas: {change}")
        self.assertRegex(lines[2], r"^    and \d+ more; --json has all$")
        self.assertIn("80002140: note: 8 areas", self.lower().stdout)

    def test_too_few_areas(self):
        self.linked(self.example("nested_interrupts"))
        self.board(csa={"at": "0xD0000000", "areas": 5, "reserve": 1})
        lines = self.lower("--to", "4").stdout.splitlines()
        self.assertEqual(lines[0], "11 of 4 areas now")
        self.assertRegex(lines[-1], ": note: [0-4] areas: ")

    def test_what_no_number_of_areas_helps(self):
        self.linked(self.example("nested_interrupts", "broken"))
        done = self.lower()
        self.assertEqual((done.returncode, done.stderr), (1, ""))
        self.assertTrue(done.stdout.startswith("refused K14 at "))

    def test_equal_chains_need_several_changes(self):
        self.example("nested_interrupts")
        self.put("main.s", EQUAL)
        self.put("board.layout", "entry main\nplace t 80000000 00001000\n")
        self.board(irqs=[])
        self.linked(["main.s"])
        done = self.lower()
        told = "no single change of these kinds lowers it; --to looks for several"
        self.assertEqual(done.stdout.splitlines(), ["2 of 11 areas now", told])
        rows = self.lower("--to", "1").stdout.splitlines()[1:]
        self.assertEqual([row.split(": ")[1:2] for row in rows], [["note"]] * len(rows))
        self.assertTrue(rows[-1].startswith("8000000"), rows)
        self.assertIn("note: 1 areas: ", rows[-1])
        done = self.lower("--to", "-1")
        self.assertEqual(done.returncode, 1)
        self.assertIn("no more changes of these kinds help: -1 isn't reached", done.stdout)

    def test_any_bytes(self):
        self.linked(self.example("nested_interrupts"))
        for name in FILES:
            whole = (self.folder / name).read_bytes()
            for mask in (0x01, 0xFF):
                for at in range(0, len(whole), max(1, len(whole) // 6)):
                    changed = bytearray(whole)
                    changed[at] ^= mask
                    self.put(name, bytes(changed))
                    done = self.lower()
                    self.assertIn(done.returncode, (0, 1, 2), (name, at))
                    self.assertNotIn("Traceback", done.stderr)
                    self.assertLessEqual(len(done.stderr.splitlines()), 1)
            self.put(name, whole)


@beside.needs_program
class Parts(beside.InFolder):
    """What the model takes from a certificate."""

    def model(self, example):
        scratch.built(beside.program(), example, self.folder)
        kind = KINDS.get(example, ())
        given = lower.parsed([*FILES, *kind])
        return lower.model_of(beside.program(), given, self.folder)

    def test_interrupts_come_where_they_may_be_on(self):
        for example in sorted(path.parent.name for path in scratch.EXAMPLES.glob("*/expected")):
            if example == "tasks_start_up":
                continue  # its entry is start-up code: the tasks are those of two_tasks
            model = self.model(example)
            self.assertEqual(model.judged()[0], model.graph.certified, example)
            for frame in model.order:
                points = {p for p, ways in frame.ways.items() if "irq" in dict(ways)}
                self.assertLessEqual(points, model.lit.points[frame.key], example)

    def test_a_function_that_turns_interrupts_on(self):
        self.example("nested_interrupts")
        self.put(
            "main.s", ".section text\n.global main\nmain: call f\n j main\nf: enable\n ret16\n"
        )
        self.linked(["main.s", "handlers.s"])
        given = lower.parsed([*FILES])
        model = lower.model_of(beside.program(), given, self.folder)
        quiet = lower.Lit(model.graph, model.listing, True, ["80000008"])
        self.assertEqual(quiet.points[frames.key_of("call 80000008 prio 0 is 0")], {"8000000C"})


if __name__ == "__main__":
    unittest.main()
