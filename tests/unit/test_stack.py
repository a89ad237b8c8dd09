"""Unit tests of stack.py and functions.py: what they say of A10, and that no run goes deeper."""
import json
import random
import unittest

import beside
from beside import InFolder, needs_program, program

import scratch
from tcdlib import formats as readers
from tcdlib import machine

FILES = ("firmware.elf", "board.json", "firmware.cert")
#: by example with cells or tasks: what is asked besides, for each of its certificates
OF_TASKS = {
    "measure.cert": ("--tasks", "board.tasks", "0"),
    "show.cert": ("--tasks", "board.tasks", "1"),
}
VIEWS = {
    "cells": {"firmware.cert": ("--cells", "modes.cells")},
    "two_tasks": OF_TASKS,
    "tasks_start_up": OF_TASKS,
}
#: code of tasks_start_up that sets A10, and is in no certificate
START_UP = range(0x80000600, 0x80000700)
LAYOUT = "entry main\nplace text 80000000 00001000\nplace vector_4 80002080 00000020\n"
MAIN = ".section text\n.global main\nmain:\n"
STAY = "stay:\n    j stay\n"
BOTH = "user and interrupt"
#: a background that takes 16 bytes
MAIN_16 = f"{MAIN}    sub16.a a10, 16\n{STAY}"
HANDLER = ".section vector_4\nsvlcx\ncall tick\nrslcx\nrfe16\n.section text\ntick:\n"


class Stacked(InFolder):
    """A folder in which the scripts are run with the program."""

    def said(self, name, status, *words):
        """What a script prints as JSON."""
        done = self.script(name, *words, "--json", "--tcd", program())
        self.assertEqual((done.returncode, done.stderr), (status, ""), done.stdout)
        return json.loads(done.stdout)

    def stacks(self, status, *words):
        """What is known of each stack, by its name."""
        found = self.said("stack.py", status, *words)
        self.assertIn("no claim", found["note"])
        return {row["stack"]: row for row in found["stacks"]}

    def firmware(self, source, places="", irqs=(), **plan):
        """Builds a source, its layout and its plan, with a certificate."""
        self.example("one_call")
        board = json.loads((self.folder / "board.json").read_text())
        start = {"ie": 1, "ccpn": 0, "is": 0}
        board["rom"] = [{"at": "0x80000000", "len": "0x4000"}]
        board["csa"] = {"at": "0xD0000000", "areas": 12, "reserve": 2}
        board = {**board, "irqs": list(irqs), "biv": "0x80002000", "start": start, **plan}
        self.put("board.json", json.dumps(board))
        self.put("board.layout", LAYOUT + places)
        self.put("main.s", source)
        self.linked(["main.s"])
        self.assertRegex(self.tcd("cert", *FILES), "^certified ")


@needs_program
class Stacks(Stacked):
    NAMES = ("--names", "board.layout", "main.s")

    def test_the_example(self):
        scratch.built(program(), "core_16", self.folder)
        found = self.stacks(0, *FILES, *self.NAMES)
        self.assertEqual([row["bytes"] for row in found.values()], [0, 24])
        deep = found["interrupt"]
        self.assertEqual((deep["lowest"], deep["deepest"]), ("D00087E8", "watch+2"))
        self.assertEqual((deep["free"], deep["below"]), (2012, "the end of place last_in_ram"))

    def test_what_is_printed(self):
        scratch.built(program(), "core_16", self.folder)
        done = self.script("stack.py", *FILES, *self.NAMES, "--tcd", program(), "--most", "23")
        lines = done.stdout.splitlines()
        text = "interrupt stack from D0008800: at most 24 of 2036 bytes above the end of place "
        self.assertEqual(lines[1:3], [text + "last_in_ram", "    D00087E8 in watch+2 main.s:59"])
        fault = "main.s:59: error: the interrupt stack takes 24 bytes; the budget is 23"
        self.assertEqual((done.returncode, lines[3]), (1, fault))
        self.assertIn("no claim", lines[-1])

    def test_a_store_below_a10(self):
        self.firmware(f"{MAIN}    st.w [a10]-12, d0\n    sub16.a a10, 8\n{STAY}")
        user = self.stacks(0, *FILES)["user"]
        self.assertEqual((user["bytes"], user["deepest"]), (12, "80000000"))

    def test_nested_frames_add_up(self):
        inner = "inner:\n    lea a10, [a10]-24\n    ret16\n"
        outer = "outer:\n    sub16.a a10, 16\n    call inner\n    ret16\n"
        self.firmware(f"{MAIN}    sub16.a a10, 8\n    call outer\n{STAY}{outer}{inner}")
        user = self.stacks(0, *FILES, *self.NAMES)["user"]
        self.assertEqual((user["bytes"], user["deepest"]), (48, "inner+4"))

    def test_what_is_below(self):
        data = MAIN_16 + ".section data\nkept:\n"
        bytes_in_ram = MAIN_16 + ".section data\n    .space 4\n"
        place = "place data {:08X} {:08X}\n".format
        for source, places, status, free, below in (
            (MAIN_16, "", 0, 4080, "the begin of `ram` at D0008000"),
            (data, place(0xD0008FE0, 16), 0, 0, "the end of place data"),
            (data, place(0xD0008FE4, 16), 1, -4, "the end of place data"),
            # its own place
            (data, place(0xD0008FF0, 16), 0, 0, "the begin of place data"),
            (data, place(0xD0008FF4, 12), 1, -4, "the begin of place data"),
            # other bytes are there, or more than the stack's
            (bytes_in_ram, place(0xD0008FFC, 4), 1, -16, "the end of place data"),
            (data, place(0xD0008FF0, 32), 1, -16, "the end of place data"),
            # a place that may have more is as full as it is
            (bytes_in_ram, place(0xD0008F00, 0x100), 0, 236, "the end of place data"),
        ):
            with self.subTest(places):
                ram = [{"at": "0xD0008000", "len": "0x2000"}]
                self.firmware(source, places, ram=ram)
                user = self.stacks(status, *FILES, *self.NAMES)["user"]
                self.assertEqual((user["free"], user["below"]), (free, below))
                self.assertEqual(len(user["faults"]), status)

    def test_without_names_bytes_are_seen(self):
        main = f"{MAIN_16}.section data\n    .space 4\n"
        self.firmware(main, "place data D0008FF0 00000004\n")
        user = self.stacks(1, *FILES)["user"]
        self.assertEqual(user["below"], "the end of the segment at D0008FF0")

    def test_ranges_of_ram(self):
        touching = [{"at": "0xD0008000", "len": "0xFF8"}, {"at": "0xD0008FF8", "len": 8}]
        apart = [{"at": "0xD0008000", "len": "0xFF0"}, {"at": "0xD0008FF8", "len": 8}]
        for ram, status, free in ((touching, 0, 4080), (apart, 1, -8), (apart[:1], 1, -16)):
            self.firmware(MAIN_16, ram=ram)
            self.assertEqual(self.stacks(status, *FILES)["user"]["free"], free)

    def test_two_stacks(self):
        main = f"{MAIN_16}{HANDLER}    sub16.a a10, 8\n    ret16\n"
        for isp, status, below in (
            ("0xD0008FF0", 0, "the top of the interrupt stack"),
            ("0xD0008FF4", 1, "the top of the interrupt stack"),
            ("0xD0009000", 1, "the top of the interrupt stack"),
        ):
            self.firmware(main, irqs=[4], isp=isp)
            found = self.stacks(status, *FILES)
            self.assertEqual(found["user"]["below"], below)
            self.assertEqual([found[name]["bytes"] for name in found], [16, 8])

    def test_one_stack(self):
        main = f"{MAIN_16}{HANDLER}    sub16.a a10, 8\n    ret16\n"
        self.firmware(main, irqs=[4], start={"ie": 1, "ccpn": 0, "is": 1})
        found = self.stacks(0, *FILES)
        self.assertEqual([(name, found[name]["bytes"]) for name in found], [(BOTH, 24)])

    def test_a_stack_that_no_frame_uses_is_not_in_the_way(self):
        self.firmware(MAIN_16, isp="0xD0008FF8")
        self.assertEqual(list(self.stacks(0, *FILES)), ["user"])

    def test_what_is_not_bounded(self):
        unknown = f"{MAIN}    mov.a a10, d0\n{STAY}"
        above = f"{MAIN}    lea a10, [a10]8\n{STAY}"
        for source, text in ((unknown, "isn't bounded: A10 isn't known at stay"), (above, "above")):
            self.firmware(source)
            (fault,) = self.stacks(1, *FILES, *self.NAMES)["user"]["faults"]
            self.assertIn(text, fault["message"])
            self.assertEqual(fault["place"], "main.s:6")

    def test_a_refused_certificate(self):
        self.linked(self.example("nested_interrupts"))
        self.tcd("cert", *FILES)
        board = (self.folder / "board.json").read_text()
        self.put("board.json", board.replace('"irqs": [10, 20, 30]', '"irqs": [10, 20, 30, 40]'))
        for name in ("stack.py", "functions.py"):
            done = self.script(name, *FILES, "--tcd", program())
            self.assertEqual((done.returncode, done.stdout[:9]), (1, "refused K"), done.stderr)


@needs_program
class Functions(Stacked):
    def test_the_example(self):
        scratch.built(program(), "core_16", self.folder)
        names = ("--names", "board.layout", "main.s")
        found = self.said("functions.py", 0, *FILES, *names)
        rows = {row["name"]: row for row in found["functions"]}
        self.assertEqual([*rows][:2], ["main", "pause"])
        sample = rows["sample"]
        keys = ("bytes", "stack", "areas", "priorities", "kinds", "place")
        self.assertEqual([sample[key] for key in keys], [52, 16, 5, [10], ["call"], "main.s:23"])
        self.assertEqual(rows["watch"]["stack"], 8)
        text = next(place for place in found["places"] if place["place"] == "text")
        listed = sum(row["bytes"] for row in rows.values() if row["address"] < "80001000")
        self.assertEqual((text["bytes"], text["most"]), (listed, 0x1000))

    def test_orders(self):
        scratch.built(program(), "core_16", self.folder)
        for order, first in (("stack", "8000000C"), ("bytes", "8000000C"), ("name", "80000000")):
            rows = self.said("functions.py", 0, *FILES, "--by", order)["functions"]
            self.assertEqual(rows[0]["name"], first)

    def test_a_function_of_two_priorities(self):
        shared = "shared:\n    sub16.a a10, 8\n    ret16\n"
        main = f"{MAIN}    call shared\n    j main\n{HANDLER}    call shared\n    ret16\n{shared}"
        self.firmware(main, irqs=[4])
        names = ("--names", "board.layout", "main.s")
        done = self.script("functions.py", *FILES, *names, "--tcd", program())
        row = next(line for line in done.stdout.splitlines() if line.startswith("shared"))
        self.assertEqual(row.split(), ["shared", "4", "8", "4", "-", "4", "main.s:16"])

    def test_unknown(self):
        self.firmware(f"{MAIN}    mov.a a10, d0\n{STAY}")
        self.assertIsNone(self.said("functions.py", 0, *FILES)["functions"][0]["stack"])


def scripts_of(board, text):
    """An example's turn script, and random ones with the interrupts of its plan."""
    yield text
    for seed in range(6):
        rnd = random.Random(seed)
        lines = []
        for number, device in enumerate(board["devices"]):
            low, high = sorted(rnd.randint(device["lo"], device["hi"]) for _ in range(2))
            lines.append(f"in {number} {low} {high}")
        for _ in range(60):
            if board["irqs"] and rnd.random() < 0.6:
                lines.append(f"irq {rnd.choice(board['irqs'])}")
            lines.append(f"step {rnd.choice((1, 1, 2, 3, 8, 40))}")
        yield "\n".join(lines)


@needs_program
class Runs(Stacked):
    """The second machine, in runs of the examples, beside what stack.py says."""

    def setUp(self):
        super().setUp()
        #: how many bytes below its top A10 was, by stack
        self.deepest = {}

    def see(self, state, tops, lows):
        """A state of a run: A10 is in one of the stacks, and no store is below a stack's end."""
        if state.pc in START_UP:
            return
        names = ["interrupt"] if state.psw >> 9 & 1 else [n for n in tops if n != "interrupt"]
        name = min((n for n in names if tops[n] >= state.a[10]), key=lambda n: tops[n])
        self.assertGreaterEqual(state.a[10], lows[name])
        self.deepest[name] = max(self.deepest.get(name, 0), tops[name] - state.a[10])
        if state.stored:
            self.assertFalse(any(low - 64 <= state.stored[0] < low for low in lows.values()))

    def play(self, example):
        """Runs of an example; gives what stack.py says of its stacks."""
        scratch.built(program(), example, self.folder)
        found = {}
        for cert, words in VIEWS.get(example, {"firmware.cert": ()}).items():
            for name, row in self.stacks(0, "firmware.elf", "board.json", cert, *words).items():
                if row["bytes"] >= found.get(name, row)["bytes"]:
                    found[name] = row
        tops = {name: int(row["top"], 16) for name, row in found.items()}
        lows = {name: int(row["lowest"], 16) for name, row in found.items()}
        image = readers.elf((self.folder / "firmware.elf").read_bytes())
        board = readers.plan((self.folder / "board.json").read_bytes())
        self.deepest = {}
        turns = (self.folder / "turns.script").read_text()
        for text in scripts_of(board, turns):
            start = machine.Machine.start(image, board)
            machine.drive(start, board, text.encode(), lambda state: self.see(state, tops, lows))
        return found

    def test_no_run_is_deeper(self):
        for path in sorted(scratch.EXAMPLES.glob("*/expected")):
            with self.subTest(path.parent.name):
                self.play(path.parent.name)
                self.assertTrue(self.deepest)

    def test_a_run_comes_to_the_bound(self):
        found = self.play("core_16")
        self.assertEqual(self.deepest, {name: row["bytes"] for name, row in found.items()})


if __name__ == "__main__":
    unittest.main()
