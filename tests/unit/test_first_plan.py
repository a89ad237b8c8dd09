"""Unit tests of first_plan.py: what it finds in each example, and what it leaves open."""
import json
import re
import unittest

import beside
from beside import InFolder, needs_program, program

import first_plan
import known
import scratch
from tcdlib import constants
from tcdlib.formats import code

#: what no code of an example without start-up code says
UNSAID = {"csa.at", "csa.areas", "csa.reserve", "sp", "isp", "start.ie", "start.ccpn", "start.is"}
TABLE = {"biv", "irqs"}
#: by example: the keys that are TODO
OPEN = {
    "cells": {*UNSAID, "btv"},
    "core_16": {*UNSAID, "btv"},
    "device_table": {*UNSAID, *TABLE, "btv", "ram"},
    "gnu_ld": {*UNSAID, "btv"},
    "lower_context": {*UNSAID, "btv"},
    "misaligned": {*UNSAID, *TABLE},
    "motor_control": UNSAID,
    "nested_interrupts": {*UNSAID, "btv"},
    "one_call": {*UNSAID, *TABLE, "btv"},
    "polling": {*UNSAID, *TABLE, "btv", "ram"},
    "protocol": {*UNSAID, "btv"},
    "start_up": set(),
    "system_calls": UNSAID,
    "tasks_start_up": set(),
    "two_tasks": {*UNSAID, "btv"},
}
#: examples whose TODOs are all that the plan lacks for the same line of `cert`
ENOUGH = ("lower_context", "misaligned", "nested_interrupts", "one_call", "polling")


def filled(found, hand, key=""):
    """The plan with its TODOs taken from the one by hand; then their keys."""
    if isinstance(found, dict):
        both = {k: filled(v, hand.get(k, 0), f"{key}.{k}".strip(".")) for k, v in found.items()}
        return {k: v[0] for k, v in both.items()}, set().union(*(v[1] for v in both.values()))
    is_open = isinstance(found, str) and found.startswith("TODO: ")
    return (hand, {key}) if is_open else (found, set())


@needs_program
class Examples(InFolder):
    def first(self, example, *layout):
        """Builds an example: its first plan, filled in, and the keys that were open."""
        scratch.built(program(), example, self.folder)
        done = self.script("first_plan.py", "firmware.elf", *layout, "-o", "first.json")
        self.assertEqual((done.returncode, done.stdout), (0, ""), done.stderr)
        hand = json.loads((self.folder / "board.json").read_text())
        plan, keys = filled(json.loads((self.folder / "first.json").read_text()), hand)
        self.put("filled.json", json.dumps({**plan, "core": hand.get("core", "1.3")}))
        return keys

    def certified(self, plan):
        return self.tcd("cert", "firmware.elf", plan, "firmware.cert")

    def test_what_is_open(self):
        for example, keys in OPEN.items():
            with self.subTest(example):
                (self.folder / "first.json").unlink(missing_ok=True)
                self.assertEqual(self.first(example, "board.layout"), keys)
                if keys:
                    key = self.certified("first.json").removeprefix("bad plan 4 key ")
                    self.assertIn(key, keys)
                if example in ENOUGH:
                    self.assertEqual(self.certified("filled.json"), self.certified("board.json"))

    def test_stacks_are_missing_in_ram(self):
        self.first("core_16", "board.layout")
        self.assertRegex(self.certified("filled.json"), "refused K9 at .* in call 8000000C prio 10")
        plan = json.loads((self.folder / "filled.json").read_text())
        hand = json.loads((self.folder / "board.json").read_text())
        self.put("filled.json", json.dumps({**plan, "ram": hand["ram"]}))
        self.assertEqual(self.certified("filled.json"), self.certified("board.json"))

    def test_start_up_code_says_all(self):
        self.assertEqual(self.first("start_up"), set())
        self.assertEqual(self.certified("first.json"), "certified 3 of 6 areas")
        at = re.search("([0-9A-F]{8})", (self.folder / "boot.s").read_text())[1]
        line = self.tcd("boot", "firmware.elf", "first.json", "firmware.cert", at)
        self.assertEqual(line, "boot 77 events certified 3 of 6 areas")

    def test_sections_of_another_linker(self):
        self.assertEqual(self.first("gnu_ld"), OPEN["gnu_ld"])  # without a layout
        plan = json.loads((self.folder / "first.json").read_text())
        self.assertEqual((plan["biv"], plan["irqs"]), ("0x80002000", [20]))

    def test_short_names_of_vectors(self):
        scratch.built(program(), "gnu_ld", self.folder)
        elf = (self.folder / "firmware.elf").read_bytes()
        self.assertEqual(elf.count(b".vector_20\0"), 1)
        self.put("short.elf", elf.replace(b".vector_20\0", b".v20".ljust(11, b"\0")))
        found = first_plan.FirstPlan("short.elf", None).plan()
        self.assertEqual((found["biv"], found["irqs"]), ("0x80002000", [20]))

        scratch.built(program(), "motor_control", self.folder)
        text = (self.folder / "board.layout").read_text()
        longer = first_plan.FirstPlan("firmware.elf", "board.layout").plan()
        text = text.replace("trap_6 ", ".vsys ").replace("vector_", "v")
        self.put("short.layout", text)
        self.assertIn(".vsys", text)
        self.assertEqual(first_plan.FirstPlan("firmware.elf", "short.layout").plan(), longer)
        self.assertEqual((longer["irqs"], longer["traps"]), ([20, 30, 40], ["sys"]))

    def test_names_that_are_no_vectors(self):
        self.put("elf", (beside.EXAMPLES / "gnu_ld/firmware.elf").read_bytes())
        for name in ("v", "vx", "v1234", "vectors", "v" + "1" * 64, "xv10", "sys"):
            self.put("l", f"entry main\nplace {name} 80000000 00000100\n")
            self.assertNotIn(
                0x80000000, first_plan.FirstPlan("elf", "l").vectors["vector"].values()
            )

    def test_a_plan_is_never_overwritten(self):
        self.first("one_call")
        done = self.script("first_plan.py", "firmware.elf", "-o", "first.json")
        self.assertEqual((done.returncode, done.stderr), (2, "first.json: File exists\n"))


class Code(unittest.TestCase):
    def read(self, *lines):
        return constants.Read(known.Image([(0x80000000, code(lines))]))

    def test_constants(self):
        lines = ("movh d0, 0x8000", "addi d0, d0, 0x2000", "mtcr 0xFE20, d0")
        after = ("jeq d0, 1, .+4", "mtcr 0xFE28, d0", "ld.w d0, [a2]0", "mtcr 0xFE24, d0")
        found = self.read(*lines, *after)
        at = {0xFE20: 0x80000008, 0xFE28: 0x80000010}
        self.assertEqual(found.core, {core: (0x80002000, pc) for core, pc in at.items()})

    def test_a_jump_forgets(self):
        self.assertEqual(self.read("mov d0, 1", "j .+4", "mtcr 0xFE20, d0").core, {})

    def test_accesses(self):
        lines = ["movh.a a2, 0xD000", "lea.l a2, [a2]64", "ld.w d0, [a2]4", "addsc.a a3, a2, d0, 2"]
        found = self.read(*lines, "st.w [a3]0, d1", "st.w [a2+]8, d1", "st.w [a2]0, d1")
        self.assertEqual(found.touched, {0xD0000044: 0x80000008, 0xD0000040: 0x80000010})
        self.assertEqual(found.indexed, {0xD0000040})

    def test_linked_areas(self):
        lines = ["mov d1, 7", "mov.a a3, d1", "st.w [a2+]64, d0", "loop a3, .-4"]
        self.assertEqual(self.read("movh.a a2, 0xD000", *lines).areas, 8)

    def test_ranges(self):
        self.assertEqual(first_plan.joined([(0, 4), (8, 12), (40, 44)], 16), [(0, 12), (40, 44)])
        self.assertEqual(len(first_plan.joined([(n * 64, n * 64 + 4) for n in range(17)], 4)), 1)
        self.assertEqual([*first_plan.without([(0, 100)], (40, 60))], [(0, 40), (60, 100)])
        self.assertEqual([*first_plan.without([(8, 100)], (0, 0))], [(8, 100)])


if __name__ == "__main__":
    unittest.main()
