"""Unit tests of tasks_start.py: the code that it writes, and what it says of start-up code."""
import contextlib
import io
import json
import random
import unittest

import beside
from beside import InFolder, needs_program, program

import scratch
import tasks_start
from tcdlib.arguments import Refused
from tcdlib.sources import Unusable

FILES = ("firmware.elf", "board.json", "board.tasks")
AT = "80000600"
#: the sections of tasks, their entry addresses and their stacks
ENTRY, STACK = 0x80001000, 0xD0009000


class Started(InFolder):
    def judged(self, status, *lines, at=AT):
        """`check` has to end with a status and to print these lines."""
        done = self.script("tasks_start.py", "check", *FILES, at)
        self.assertEqual((done.returncode, done.stderr), (status, ""), done.stdout)
        self.assertEqual(done.stdout.splitlines(), list(lines))

    def written(self, path="begin.s", status=0):
        """`write` has to end with a status; gives what it printed."""
        done = self.script("tasks_start.py", "write", "board.json", "board.tasks", path)
        self.assertEqual((done.returncode, "Traceback" in done.stderr), (status, False))
        return done.stdout + done.stderr


@needs_program
class Examples(Started):
    def built(self, edit=lambda text: text):
        """Builds tasks_start_up with an edit of its start-up code."""
        sources = self.example("tasks_start_up")
        self.put("start_up.s", edit((self.folder / "start_up.s").read_text()))
        self.tcd("bootgen", "board.json", AT, "80000800", "boot.s")
        self.assertRegex(self.linked(sources), "^image ")

    def test_the_example(self):
        self.built()
        self.judged(0, "start of 2 tasks, 20 events")

    def test_from_the_boot_sequence_on(self):
        self.built()
        events = 53 + 3 * 10 + 20  # docs/formats.md: that many before the start-up code
        self.judged(0, f"start of 2 tasks, {events} events", at="80000800")

    def test_the_broken_variant(self):
        sources = self.example("tasks_start_up", "broken")
        self.tcd("bootgen", "board.json", AT, "80000800", "boot.s")
        self.linked(sources)
        self.judged(1, "the word of task 1 at D0008104 is 00000000, not 000D0001")

    def test_each_fault_is_named(self):
        lower = "of task 1 at D0000040"
        for old, new, *lines in (
            ("[a10]-0x7000", "[a10]-0x6FF0", "A10 is D0009010, not D0009000"),
            ("mtcr   0xFE00", "nop #", "PCXI is 000D0001, not 00000000"),
            ("[a10]-0x7400", "[a10]-0x7800", "A10 of task 1 at D0000008 is D0008800, not D0008C00"),
            ("lo:show ", "lo:show+2 ",
             "the entry address of task 1 at D0000044 is 80000202, not 80000200"),
            ("st.w   [a15]8", "nop #", "the number of the current task at D0008108 is FFFFFFFF, "
             "not 00000000"),
            ("j      main", "enable\nj main", "ICR.IE is 00000001, not 00000000"),
            ("svlcx ", "nop #", "FCX is 000D0001, not 000D0002",
             "the word of task 1 at D0008104 is 000D0000, not 000D0001",
             f"the link of the lower context {lower} is 000D0002, not 000D0000",
             f"UL of the lower context {lower} is 00000000, not 00000001",
             "the entry address of task 1 at D0000044 is 00000000, not 80000200"),
        ):  # fmt: skip
            with self.subTest(old):
                self.built(lambda text: text.replace(old, new, 1))
                self.judged(1, *lines)

    def test_more_than_the_link(self):
        self.built(lambda text: text.replace("and    d0", "nop #"))
        plan = (self.folder / "board.json").read_text()
        self.put("board.json", plan.replace('"ccpn": 0', '"ccpn": 3'))
        # PCPN, bits 31:24 of PCXI on this core
        self.judged(1, "the word of task 1 at D0008104 is 030D0001, not 000D0001")

    def test_code_that_does_not_come_there(self):
        stay = "start_up:\nstay:\n    j stay\n"
        self.built(lambda text: text.replace("start_up:\n", stay, 1))
        self.judged(1, "it isn't at 80000000 after 20000 events")
        self.judged(1, "it dies: nocode at 90000000 after 1 events", at="90000000")

    def test_counted_calls(self):
        psw = "    mov d0, {}\n    mtcr 0xFE04, d0\n    isync\n"
        for value, lines in (
            (0x980, ["start of 2 tasks, 23 events"]),  # CDE is 1, no call is counted yet
            (0x900, [
                "PSW.CDC is 00000000, not 0000007F",
                "PSW.CDC of task 1 at D0000004 is 00000000, not 0000007F"]),
        ):  # fmt: skip
            self.built(lambda text: text.replace("start_up:\n", "start_up:\n" + psw.format(value)))
            self.judged(len(lines) - 1, *lines)


@needs_program
class Written(Started):
    def tasks(self, count, **plan):
        """Files of so many tasks, each an endless loop."""
        self.example("tasks_start_up")
        board = json.loads((self.folder / "board.json").read_text())
        board["csa"] = {"at": "0xD0000000", "areas": 20, "reserve": 2}
        self.put("board.json", json.dumps({**board, **plan}))
        rows = [f"task {ENTRY + 16 * u:08X} {STACK - 256 * u:08X}\n" for u in range(count)]
        self.put("board.tasks", "".join(["switch 80000400 D0008100\n", *rows]))
        places = [f"place task_{u} {ENTRY + 16 * u:08X} 00000010\n" for u in range(7)]
        layout = ["entry start_up\n", "place start 80000600 00000400\n", *places]
        self.put("board.layout", "".join(layout))
        self.put(
            "tasks.s", "".join(f".section task_{u}\nstay_{u}:\n    j stay_{u}\n" for u in range(7))
        )

    def build(self):
        self.assertRegex(self.linked(["begin.s", "tasks.s"]), "^image ")

    def test_written_code_is_right(self):
        far = {"at": "0xC0100000", "areas": 14, "reserve": 1}
        whole = {"at": "0xC0100000", "areas": 12, "reserve": 1}
        on = {"ie": 1, "ccpn": 3, "is": 0}
        for count, plan in (
            (2, {}), (3, {}), (7, {}), (3, {"core": "1.6"}), (7, {"csa": far}), (2, {"start": on}),
        ):  # fmt: skip
            with self.subTest(count=count, **plan):
                self.tasks(count, **plan)
                instructions = 16 * (count - 1) + 9 + (plan.get("start") == on)
                self.assertEqual(
                    self.written(), f"start of {count} tasks, {instructions} instructions\n"
                )
                self.build()
                self.judged(0, f"start of {count} tasks, {instructions} events")
        self.tasks(7, csa=whole)  # all areas are put aside: the reserve is touched
        self.written()
        self.build()
        self.judged(1, "it dies: fcd at 80000754 after 86 events")

    def test_code_of_another_count(self):
        self.tasks(2)
        self.written()
        self.build()
        self.tasks(3)
        done = self.script("tasks_start.py", "check", *FILES, AT)
        lines = done.stdout.splitlines()
        self.assertEqual((done.returncode, done.stderr), (1, ""))
        self.assertEqual(lines[0], "FCX is 000D0002, not 000D0004")
        word = "the word of task 2 at D0008108 is 00000000, not 000D0003"
        self.assertIn(word, lines)
        self.assertIn("A10 of task 2 at D0000088 is 00000000, not D0008E00", lines)
        self.assertFalse(any("task 1" in line for line in lines), lines)

    def test_what_is_replaced(self):
        self.tasks(2)
        self.written()
        self.tasks(3)
        self.assertEqual(self.written(), "start of 3 tasks, 41 instructions\n")
        for path in ("tasks.s", "board.json", "none/start.s", "."):
            before = (self.folder / "tasks.s").read_bytes(), (
                self.folder / "board.json"
            ).read_bytes()
            self.assertEqual(self.written(path, 2).count("\n"), 1)
            after = (self.folder / "tasks.s").read_bytes(), (
                self.folder / "board.json"
            ).read_bytes()
            self.assertEqual(before, after)

    def test_broken_files(self):
        scratch.built(program(), "tasks_start_up", self.folder)
        rnd, held = random.Random(2), [(self.folder / name).read_bytes() for name in FILES]
        ends = set()
        for turn in range(150):
            for name, data in zip(FILES, held):
                self.put(name, data)
            data = bytearray(held[turn % 3])
            for _ in range(rnd.choice((1, 1, 4))):
                data[rnd.randrange(len(data))] = rnd.randrange(256)
            self.put(FILES[turn % 3], bytes(data[: rnd.choice((None, None, len(data) // 2))]))
            at = rnd.choice((0x80000600, rnd.randrange(1 << 32)))
            try:
                with contextlib.redirect_stdout(io.StringIO()):
                    tasks_start.check(*FILES, at)
                ends.add("done")
            except (Refused, Unusable) as e:
                self.assertTrue(str(e).replace("\n", " ").isprintable())
                ends.add(type(e).__name__)
        self.assertEqual(ends, {"done", "Refused", "Unusable"})


if __name__ == "__main__":
    unittest.main()
