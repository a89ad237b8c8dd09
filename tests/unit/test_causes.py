"""The ring of rule 14."""
import json
import unittest

import beside
from tcdlib import causes
from tcdlib import frames

PLAN = {
    "rom": [{"at": "0x80000000", "len": "0x1000"}],
    "ram": [{"at": "0xD0008000", "len": "0x1000"}],
    "devices": [{"at": "0xF0000000", "len": 4, "lo": 0, "hi": 5}],
    "csa": {"at": "0xD0000000", "areas": 4, "reserve": 2},
    "biv": "0x80000400",
    "btv": "0x80000100",
    "irqs": [10, 20],
    "traps": ["sys", "aln"],
    "start": {"ie": 0, "ccpn": 0, "is": 0},
}
VECTOR_10, VECTOR_20, TRAP_6, TRAP_2 = 0x80000540, 0x80000680, 0x800001C0, 0x80000140


def listing(*sections):
    """A listing of sections: an address and the texts of its instructions."""
    lines = []
    for number, (at, *texts) in enumerate(sections):
        lines.append(f".section s{number} # {at:08X}")
        for text in texts:
            size = 2 if "16" in text.split(" ")[0] or text.startswith(".half") else 4
            code = text.split(" ")[1][2:].zfill(8) if text.startswith(".word") else "00" * size
            lines.append(f"{text} # {at:08X} {code}")
            at += size
    return frames.Listing("\n".join(lines))


def ring(found, key, address, plan=PLAN):
    """The ring as a text of its ways, and what lowers a priority."""
    steps, lowering = causes.ring(found, plan, "80000000", key, address)
    return " ".join(f"{step.way} {step.into.entry}" for step in steps), lowering


class Rings(unittest.TestCase):
    """The examples of rule 14 in docs/errors.md, and rings that are harder to see."""

    def test_a_function_that_calls_itself(self):
        found = listing((0x80000000, "call .+8", "j .+0", "call .+0", "ret16"))
        told = ring(found, "call 80000008 prio 0 is 0", "80000008")
        self.assertEqual(told, ("call 80000008", None))

    def test_functions_that_call_each_other(self):
        found = listing((0x80000000, "call .+8", "j .+0", "call .+6", "ret16", "call .-6", "ret16"))
        told = ring(found, "call 8000000E prio 0 is 0", "8000000E")
        self.assertEqual(told, ("call 80000008 call 8000000E", None))

    def test_a_handler_that_lowers_its_priority(self):
        found = listing((0x80000000, "enable", "j .+0"), (VECTOR_10, "bisr16 5", "rslcx", "rfe16"))
        told = ring(found, "irq 80000540 prio 10 is 1", "80000542")
        self.assertEqual(told, ("irq 80000540", "80000540"))

    def test_two_handlers_of_which_the_upper_one_lowers(self):
        found = listing(
            (0x80000000, "enable", "j .+0"),
            (VECTOR_10, "bisr16 10", "nop", "rslcx", "rfe16"),
            (VECTOR_20, "bisr16 5", "nop", "rslcx", "rfe16"),
        )
        told = ring(found, "irq 80000540 prio 10 is 1", "80000542")
        self.assertEqual(told, ("irq 80000680 irq 80000540", "80000680"))

    def test_a_service_that_asks_for_a_service(self):
        found = listing((0x80000000, "syscall 1", "j .+0"), (TRAP_6, "syscall 1", "rfe16"))
        told = ring(found, "sys 800001C0 prio 0 is 1", "800001C0")
        self.assertEqual(told, ("sys 800001C0", None))

    def test_a_trap_handler_with_a_misaligned_access(self):
        handler = (TRAP_2, "ld.h d0, [a10]1", "rfe16")
        found = listing((0x80000000, "ld.w d0, [a10]1", "j .+0"), handler)
        told = ring(found, "aln 80000140 prio 0 is 1", "80000140")
        self.assertEqual(told, ("aln 80000140", None))

    def test_a_table_ends_where_the_next_one_begins(self):
        code = ["movh.a a15, 32768", "lea.l a15, [a15]2048", "addsc.a a15, a15, d0, 2"]
        code += ["ld.a a15, [a15]0", "calli a15", "movh.a a14, 32768", "lea.l a14, [a14]2056"]
        code += ["j .+0", "ret16", "nop16", "ret16"]
        # the bytes of the words 80000020, 80000024, 80000020, of which the last is another table
        words = [".word 0x20000080", ".word 0x24000080", ".word 0x20000080"]
        found = causes.Tables(listing((0x80000000, *code), (0x80000800, *words)))
        self.assertEqual(found.targets("80000010"), ["80000020", "80000024"])

    def test_a_table_of_records(self):
        code = ["movh.a a15, 32768", "lea.l a15, [a15]2048", "addsc.a a15, a15, d0, 3"]
        code += ["ld.a a15, [a15]0", "calli a15", "j .+0", "ret16", "nop16", "ret16"]
        # records of a function, 80000018 and 8000001C, and of a number, which isn't a target
        words = [".word 0x18000080", ".word 0x1C000080", ".word 0x1C000080", ".word 0x18000080"]
        tables = causes.Tables(listing((0x80000000, *code), (0x80000800, *words)))
        self.assertEqual(tables.targets("80000010"), ["80000018", "8000001C"])
        rows = [(0x80000800, 0x80000018), (0x80000808, 0x8000001C)]
        self.assertEqual([*tables.entries("80000010", ())], rows)

    def test_a_ring_through_a_table_of_records(self):
        code = ["movh.a a15, 32768", "lea.l a15, [a15]2048", "addsc.a a15, a15, d0, 3"]
        code += ["ld.a a15, [a15]4", "calli a15", "j .+0"]
        words = [".word 0x18000080", ".word 0x00000080", ".word 0x18000080", ".word 0x18000080"]
        found = listing(
            (0x80000000, *code), (0x80000018, "call .-24", "ret16"), (0x80000800, *words)
        )
        told = ring(found, "call 80000018 prio 0 is 0", "80000018")
        self.assertEqual(told, ("call 80000000 call 80000018", None))

    def test_jumps_to_an_address(self):
        code = ["movh.a a2, 32768", "lea.l a2, [a2]2048", "ld.a a2, [a2]4", "ji a2"]
        words = [".word 0x07000000", ".word 0x00200080"]
        found = listing((0x80000000, *code), (0x80000800, *words))
        key = frames.key_of("start 80000000 prio 0 is 0")
        for address, callers in (("80002000", [("8000000C", 0x80000804)]), ("80003000", [])):
            self.assertEqual(causes.callers(found, PLAN, "80000000", key, address), callers)
        other = frames.key_of("call 80000000 prio 0 is 0")
        self.assertEqual(causes.callers(found, PLAN, "80000000", other, "80002000"), [])

    def test_no_ring(self):
        found = listing((0x80000000, "call .+8", "j .+0", "ret16"))
        self.assertEqual(ring(found, "call 80000008 prio 0 is 0", "80000008"), ("", None))
        self.assertEqual(ring(found, "call 90000000 prio 9 is 1", "90000000"), ("", None))

    def test_a_plan_of_another_form(self):
        found = listing((0x80000000, "nop"))
        for plan in ({}, {**PLAN, "irqs": None}, {**PLAN, "biv": "x"}, {**PLAN, "start": 3}):
            told = ring(found, "call 80000008 prio 0 is 0", "80000008", plan)
            self.assertEqual(told, ("", None))


class States(unittest.TestCase):
    """What a point knows of interrupts (docs/rules.md, "States at entries, and after")."""

    def irqs(self, found, plan=PLAN):
        """The points at which an interrupt may come, with its priority."""
        walk = causes.Walk(found, plan, "80000000")
        steps = (step for steps in walk.steps.values() for step in steps)
        return sorted((point, into.prio) for point, way, into in steps if way == "irq")

    def test_interrupts_are_off(self):
        found = listing((0x80000000, "call .+8", "j .+0", "nop16", "ret16"))
        self.assertEqual(self.irqs(found), [])

    def test_a_function_called_with_interrupts_off_and_on(self):
        found = listing((0x80000000, "call .+16", "enable", "call .+8", "j .+0", "ret16"))
        # its one exit has them on, so they may be on after the first call too
        points = {"80000004", "80000008", "8000000C", "80000010"}
        self.assertEqual({point for point, _ in self.irqs(found)}, points)

    def test_a_function_that_turns_interrupts_off(self):
        found = listing((0x80000000, "enable", "call .+8", "j .+0", "disable", "ret16"))
        self.assertEqual({point for point, _ in self.irqs(found)}, {"80000004", "8000000C"})

    def test_the_current_priority(self):
        plan = {**PLAN, "start": {"ie": 1, "ccpn": 10, "is": 0}}
        found = listing((0x80000000, "j .+0"), (VECTOR_20, "rfe16"))
        self.assertEqual(self.irqs(found, plan), [("80000000", 20)])


@beside.needs_program
class AgainstGraphs(beside.InFolder):
    """The listing's own walk has each entry that `cfg` prints, and few others."""

    def test_examples(self):
        for name in ("nested_interrupts", "system_calls", "protocol", "motor_control"):
            self.linked(self.example(name))
            words = ("firmware.elf", "board.json")
            self.tcd("cert", *words, "firmware.cert")
            found = frames.Listing(self.tcd("dis", "firmware.elf"))
            report = self.tcd("report", *words, "firmware.cert")
            graph = frames.Graph(report, self.tcd("cfg", *words), found)
            plan = json.loads((self.folder / "board.json").read_text())
            walk = causes.Walk(found, plan, causes.entry_of("firmware.elf"))
            mine = {(key, *step) for key, steps in walk.steps.items() for step in steps}
            theirs = set(entries_of(graph))
            self.assertFalse(theirs - mine, name)
            self.assertLessEqual(len(mine - theirs), len(theirs) // 20, name)


def entries_of(graph):
    """The entries of a graph as the walk has them."""
    for frame in graph.frames.values():
        for point, ways in frame.ways.items():
            for way, to in ways:
                entered = graph.handlers[to] if way == "irq" else [graph.entered(frame, way, to)]
                if way in frames.ENTRIES:
                    yield from ((frame.key, point, way, into.key) for into in entered)


if __name__ == "__main__":
    unittest.main()
