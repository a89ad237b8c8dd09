"""Unit tests of worst_run.py and its modules."""
import contextlib
import itertools
import random
import unittest
from unittest import mock

import beside
from tcdlib import formats as readers
from tcdlib import judged
from tcdlib import machine
from tcdlib import worst_graph
from tcdlib import worst_machine
import worst_run
from tcdlib import worst_search

PLAN = (beside.EXAMPLES / "core_16" / "board.json").read_bytes()
RAM = 0xD0008000
CODE = 0x80000000


class AnyFrame:
    """A graph and a node that let each entry come, and lead nowhere."""

    areas, key = 1000, ("start", CODE, 0, 0)

    def callee(self, graph, kind, to, prio):
        return self

    def goals(self, node, base):
        return worst_graph.Goals({}, {})

    @property
    def start(self):
        return self


def both(code):
    """The machine of tools/tcdlib/machine.py and the fast one, in the state that starts this code."""
    board = readers.plan(PLAN)
    image = CODE, [(CODE, code)]
    world = worst_machine.World(image, board)
    world.graph = AnyFrame()
    return machine.Machine.start(image, board), world, world.begin(((0, 0),))


def state(slow, fast):
    """What both have, as pairs."""
    ram = next(bytes(held) for begin, _, held in slow.memory.parts if begin == RAM)
    return {
        "registers": (slow.d + slow.a, fast.r),
        "pc": (slow.pc, fast.pc),
        "status": ((slow.psw, slow.ccpn, slow.ie), (fast.psw, fast.ccpn, fast.ie)),
        "areas in use": (slow.used(), fast.used),
        "ram": (ram, bytes(fast.ram[0])),
    }


class FastMachine(unittest.TestCase):
    """It does what the machine of tools/tcdlib/machine.py does."""

    def compare(self, code, draw, events=1):
        slow, world, fast = both(code)
        values = lambda: (0, 1, draw.getrandbits(32), RAM + draw.randrange(512))
        registers = [draw.choice(values()) for _ in range(32)]
        slow.d, slow.a, fast.r = registers[:16], registers[16:], registers[:]
        for _ in range(events):
            slow.step(machine.Event())
            try:
                world.step(fast)
            except worst_machine.Ends:
                self.assertIsNotNone(slow.end, code.hex())
                return
            self.assertIsNone(slow.end, code.hex())
            for what, (one, other) in state(slow, fast).items():
                self.assertEqual(one, other, f"{what} after {code.hex()}")

    def words(self, draw, row):
        """A word of a row's form with fields at random."""
        word = row.code | draw.getrandbits(8 * row.length) & ~row.mask
        return word.to_bytes(row.length, "little") if row.spelled(word) else None

    def test_each_row(self):
        draw, tried = random.Random(1), set()
        for row in readers.ROWS:
            for _ in range(20):
                code = self.words(draw, row)
                if code and row.name != "mtcr":
                    tried.add(row.name)
                    self.compare(code.ljust(8, b"\0"), draw)
        self.assertEqual({row.name for row in readers.ROWS} - tried, {"mtcr"})

    def test_contexts(self):
        lines = ["call .+6", "ret16", "svlcx", "mov d0, 7", "bisr 9", "mfcr d1, 0xFE00"]
        lines += ["rslcx", "rslcx", "ret"]
        self.compare(readers.code(lines), random.Random(2), len(lines))

    def test_interrupt(self):
        slow, world, fast = both(readers.code(["nop"]))
        slow.step(machine.Event(irq=30))
        world.interrupt(fast, 30)
        for what, (one, other) in state(slow, fast).items():
            self.assertEqual(one, other, what)

    def test_misaligned_access_traps(self):
        slow, world, fast = both(readers.code(["ld.w d0, [a2]1"]))
        slow.step(machine.Event(aln=True))
        self.assertTrue(world.misaligned(fast))
        for what, (one, other) in state(slow, fast).items():
            self.assertEqual(one, other, what)


class Scripts(unittest.TestCase):
    def test_entries_and_answers(self):
        board = {"devices": [{"lo": 0, "hi": 9}, {"lo": 3, "hi": 3}]}
        done = (((None, 2, 20), 3, 30), 7, "aln")
        text = worst_run.script_of((9, done, ((4, 5), (3, 3))), board, {0, 1})
        steps = ["in 0 4 5", "step 2", "irq 20", "irq 30", "step 3"]
        steps += ["aln 1", "step 1", "aln 0", "step 1"]
        self.assertEqual(text.splitlines(), steps)


@beside.needs_program
class Seeds(beside.InFolder):
    """One seed gives one search, however fast the clock is."""

    def searched(self, tick):
        """What a search of some events comes to, with a clock that gives these ticks."""
        program = beside.program()
        firmware = judged.Judged(program, "firmware.elf", "board.json", self.folder)
        world = worst_machine.World(firmware.image(), firmware.board())
        world.graph = worst_run.graph_of(firmware, "firmware.cert", world.name_at)
        with mock.patch("time.monotonic", itertools.count(0, tick).__next__):
            search = worst_search.Search(world, 1e9, 1, {})
            search.in_time = lambda: self.assertLess(search.steps, 150000)
            with contextlib.suppress(AssertionError):
                search.go()
        return search.steps, search.draw.random(), world.best

    def test_two_clocks(self):
        self.linked(self.example("protocol"))
        self.tcd("cert", "firmware.elf", "board.json", "firmware.cert")
        slow, fast = self.searched(1e-6), self.searched(0.05)
        self.assertEqual(slow, fast)
        self.assertGreater(slow[0], 100000)


class Graphs(unittest.TestCase):
    """main calls f, which takes one area; interrupt 10 takes one more."""

    REPORT = {
        "certified": 2,
        "nodes": [
            {"key": "start 80000000 prio 0 is 0", "need": 2},
            {"key": "call 80000008 prio 0 is 0", "need": 1},
            {"key": "irq 80002140 prio 10 is 1", "need": 0},
        ],
    }
    CFG = """\
start 80000000 prio 0 is 0: 80000000 call 80000008
start 80000000 prio 0 is 0: 80000000 back 80000004
start 80000000 prio 0 is 0: 80000004 to 80000000
call 80000008 prio 0 is 0: 80000008 irq 80002140
call 80000008 prio 0 is 0: 80000008 ret
irq 80002140 prio 10 is 1: 80002140 rfe
"""

    def setUp(self):
        board = {"irqs": [10], "biv": 0x80002000}
        self.graph = worst_graph.Graph(self.REPORT, self.CFG, board, lambda pc: "nop")

    def test_goals_of_the_start(self):
        goals = self.graph.goals(self.graph.start, 0)
        self.assertEqual(goals.fires, {CODE: []})
        self.assertEqual(goals.far, {CODE: 0, CODE + 4: 1})

    def test_goals_of_the_function(self):
        node = self.graph.nodes["call", CODE + 8, 0, 0]
        self.assertEqual(self.graph.goals(node, 1).fires, {CODE + 8: [10]})

    def test_a_line_of_another_form(self):
        with self.assertRaises(worst_graph.Unreadable):
            worst_graph.Graph(self.REPORT, "refused K14\n", {"irqs": [], "biv": 0}, None)


if __name__ == "__main__":
    unittest.main()
