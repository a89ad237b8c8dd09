"""plan_check.py: no warning on the right plans, and one for each kind of mistake."""
import json
import unittest

import beside
import plan_check
import scratch
from tcdlib import constants
from tcdlib import formats as readers
from tcdlib import plans
from tcdlib.frames import hex8
from tcdlib.sources import Unusable

FILES = ("firmware.elf", "board.json")
LAYOUT = "board.layout"
RAM = "0xD0008000"
#: for each example: a wrong plan that `cert` accepts (keys with values), and the warnings
SILENT = {
    "motor_control": [
        ({"irqs": [20, 30]}, "irqs lacks 40: the vector at 80002500 has code"),
        ({"sp": "0xD0008010"}, "sp D0008010 is inside of place drive_in_ram"),
    ],
    "gnu_ld": [({"irqs": []}, "irqs lacks 20: the vector at 80002280 has code")],
    "lower_context": [
        (
            {"devices": []},
            "no range has F0100000, which the code at 8000001C loads or stores",
        ),
    ],
    "one_call": [
        ({"sp": "0xD0010000"}, "sp D0010000 is in no range of ram, and not the end of one"),
        ({"isp": "0xC0010000"}, "isp C0010000 is in no range of ram, and not the end of one"),
        ({"isp": "0xD0009000"}, "sp and isp are the same: two stacks grow into each other"),
    ],
    "nested_interrupts": [
        (
            {"biv": "0x80002040", "irqs": [20, 22]},
            "interrupt 20 and interrupt 22 have the same vector, 800022C0",
            "vector_20 is at 80002280, but biv gives 800022C0",
        ),
    ],
    "start_up": [
        ({"btv": "0x80003100"}, "btv is 80003100, but the code at 80000858 makes it 80003000"),
        ({"isp": "0xD0008400"}, "isp is D0008400, but the code at 80000868 makes it D0008800"),
        ({"sp": "0xD0008C00"}, "sp is D0008C00, but the code at 800008D0 makes it D0009000"),
        (
            {"csa.at": "0xD0002000"},
            "csa.at is D0002000, but the code at 80000828 makes it D0000000",
        ),
        ({"csa.areas": 9}, "csa.areas is 9, but a loop links 8"),
        ({"csa.reserve": 1}, "csa.reserve is 1, but the code at 80000838 makes it 2"),
        ({"start.ie": 1}, "start.ie is 1, but the code at 80000808 makes it 0"),
        ({"start.ccpn": 7}, "start.ccpn is 7, but the code at 80000808 makes it 0"),
        ({"start.is": 1}, "start.is is 1, but the code at 80000878 makes it 0"),
        (
            {"globals.a8": RAM},
            "globals.a8 is D0008000, but the code at 800008C0 makes it 00000000",
        ),
    ],
}
#: the same of plans that `cert` refuses, with the rule
REFUSED = {
    "system_calls": [({"traps": []}, "K12", "traps lacks sys: the vector at 800030C0 has code")],
    "start_up": [
        (
            {"biv": "0x80004000"},
            "K3",
            "vector_20 is at 80002280, but biv gives 80004280",
            "biv is 80004000, but the code at 80000848 makes it 80002000",
        ),
    ],
    "protocol": [
        (
            {"ram": [{"at": RAM, "len": 32}], "sp": "0xD0008020", "isp": "0xD0008018"},
            "K9",
            "isp D0008018 is inside of place state_in_ram",
            "no range has D0008020, which the code at 80000004 loads or stores",
            "no range has place frames_in_ram, D0008020 to D0008024",
            "no range has place answered_in_ram, D0008024 to D0008028",
        ),
    ],
}


def changed(plan, changes):
    """A plan with other values; `csa.at` names a key of an object."""
    for key, value in changes.items():
        *outer, name = key.split(".")
        (plan[outer[0]] if outer else plan)[name] = value
    return plan


def texts(check):
    return [each["text"] for each in check.found]


@beside.needs_program
class Examples(beside.InFolder):
    """Plans of examples, right and wrong."""

    def built(self, example):
        scratch.built(beside.program(), example, self.folder)
        return json.loads((self.folder / "board.json").read_text())

    def warned(self, plan, layout=LAYOUT):
        """The warnings on a plan, and what `cert` says of it."""
        self.put("wrong.json", json.dumps(plan, indent=1))
        line = self.tcd("cert", "firmware.elf", "wrong.json", "wrong.cert")
        return texts(plan_check.Check("firmware.elf", "wrong.json", layout)), line

    def test_no_warning_on_a_right_plan(self):
        for example in sorted(path.parent.name for path in scratch.EXAMPLES.glob("*/expected")):
            self.built(example)
            for words in (FILES, (*FILES, LAYOUT)):
                done = self.script("plan_check.py", *words)
                told = "no warning, which is no proof that the plan is right\n"
                self.assertEqual((done.returncode, done.stdout), (0, told), example)

    def test_what_cert_does_not_notice(self):
        for example, cases in SILENT.items():
            for changes, *wanted in cases:
                found, line = self.warned(changed(self.built(example), changes))
                self.assertEqual(found, wanted, changes)
                if example != "nested_interrupts":
                    self.assertRegex(line, "^certified ", changes)

    def test_what_cert_refuses_too(self):
        for example, cases in REFUSED.items():
            for changes, rule, *wanted in cases:
                found, line = self.warned(changed(self.built(example), changes))
                self.assertEqual(found, wanted, changes)
                self.assertRegex(line, f"^refused {rule} ", changes)

    def test_vectors_without_names(self):
        plan = self.built("motor_control")
        found, _ = self.warned(changed(plan, {"irqs": [20]}), None)
        told = ["irqs lacks {}: the vector at {} has code".format(*each)
                for each in ((30, "800023C0"), (40, "80002500"))]  # fmt: skip
        self.assertEqual(found, told)

    def test_lines_of_files(self):
        self.built("motor_control")
        text = (self.folder / "board.json").read_text()
        self.put("board.json", text.replace("[20, 30, 40]", "[20, 30]"))
        line = plans.key_line(text, "irqs")
        told = f"board.json:{line}: warning: irqs lacks 40: the vector at 80002500 has code\n"
        done = self.script("plan_check.py", *FILES)
        self.assertEqual((done.returncode, done.stdout, done.stderr), (1, told, ""))
        found = json.loads(self.script("plan_check.py", *FILES, "--json").stdout)["warnings"]
        self.assertEqual([(each["file"], each["line"]) for each in found], [("board.json", line)])
        self.put("board.json", text)
        self.put(LAYOUT, (self.folder / LAYOUT).read_text() + "place more E0000000 00000004\n")
        done = self.script("plan_check.py", *FILES, LAYOUT)
        told = "board.layout:10: warning: no range has place more, E0000000 to E0000004\n"
        self.assertEqual((done.returncode, done.stdout), (1, told))

    def test_keys_that_are_there_twice(self):
        self.built("one_call")
        text = (self.folder / "board.json").read_text()
        lines = text.split("\n")
        at = next(n for n, line in enumerate(lines) if '"irqs"' in line)
        self.put("board.json", "\n".join([*lines[: at + 1], '  "irqs": [],', *lines[at + 1 :]]))
        told = f"board.json:{at + 2}: warning: irqs is there twice: tcd takes the last\n"
        self.assertEqual(self.script("plan_check.py", *FILES).stdout, told)
        self.put("board.json", text.replace('"reserve"', '"areas": 4, "reserve"'))
        told = ["areas is there twice: tcd takes the last"]
        self.assertEqual(texts(plan_check.Check(*FILES)), told)

    def test_any_bytes(self):
        self.built("start_up")
        for name in (*FILES, LAYOUT):
            whole = (self.folder / name).read_bytes()
            for mask in (0x01, 0x20, 0xFF):
                for at in range(0, len(whole), max(1, len(whole) // 60)):
                    data = bytearray(whole)
                    data[at] ^= mask
                    self.put(name, bytes(data))
                    try:
                        lines = [*plan_check.Check(*FILES, LAYOUT).lines()]
                    except Unusable as e:
                        lines = [str(e)]
                    self.assertTrue(all(line.isprintable() for line in lines), lines)
            self.put(name, whole)


#: a plan for code at 80000000, with vectors from 80001000 on
PLAN = {
    "rom": [{"at": "0x80000000", "len": "0x4000"}],
    "ram": [{"at": RAM, "len": "0x1000"}],
    "devices": [],
    "csa": {"at": "0xD0000000", "areas": 8, "reserve": 2},
    "sp": "0xD0009000",
    "isp": "0xD0008800",
    "biv": "0x80002000",
    "btv": "0x80003000",
    "irqs": [],
    "traps": [],
    "start": {"ie": 0, "ccpn": 0, "is": 0},
    "globals": {"a0": 0, "a1": 0, "a8": 0, "a9": 0},
}


class Code(beside.InFolder):
    """Code that is put together: what counts as a vector, as start-up code, as a load."""

    def warned(self, parts, **plan):
        """The warnings on code by its address."""
        held = [(at, readers.code(lines)) for at, lines in parts.items()]
        self.put("firmware.elf", readers.elf_bytes(0x80000000, held))
        self.put("board.json", json.dumps(changed({**json.loads(json.dumps(PLAN))}, plan)))
        return texts(plan_check.Check(*FILES))

    def vectors(self, lines, at=0x80002280, **plan):
        main = {0x80000000: ["j .+0"]}
        found = self.warned({**main, at: lines}, **plan)
        return [text.split(":")[0].removeprefix("irqs lacks ") for text in found]

    def test_vectors(self):
        for lines, wanted in (
            (["svlcx", "rslcx", "rfe16"], ["20"]),
            (["svlcx", "call .-8", "rslcx", "rfe16"], ["20"]),
            (["ji a15"], ["20"]),
            (["j .+0"], []),  # what fills the table of a whole board
            (["ret16"], []),  # a function
            (["nop"], []),  # it runs out of the code
            (["nop16"] * 4 + ["rfe16"], []),  # zero bytes: the filling of a table
            (["svlcx"] + ["nop16"] * 20 + ["rfe16"], ["20"]),  # goes on in the place of 21
            (["nop"] * 30 + ["rfe16"], ["20"]),
        ):
            self.assertEqual(self.vectors(lines), wanted, lines)
        self.assertEqual(self.vectors(["nop"] * 30 + ["rfe16"], irqs=[20]), [])
        self.assertEqual(self.vectors(["rfe16"], 0x800030C0), [])  # the table of traps

    def test_a_trap_counts_if_the_code_asks_for_it(self):
        trap = {0x800030C0: ["rfe16"]}
        self.assertEqual(self.warned({0x80000000: ["j .+0"], **trap}), [])
        found = self.warned({0x80000000: ["syscall 1", "j .-4"], **trap})
        self.assertEqual(found, ["traps lacks sys: the vector at 800030C0 has code"])

    def test_interrupts_may_be_turned_on_later(self):
        writes = ["mov d0, 3", f"mtcr {constants.CORE['icr']}, d0"]
        start = {0x80000000: ["j .+0"], 0x80000100: [*writes, "enable", "j .-16"]}
        self.assertEqual(self.warned(start, **{"start.ccpn": 3, "start.ie": 1}), [])
        self.assertEqual(self.warned(start, **{"start.ccpn": 3, "start.ie": 0}), [])
        start[0x80000100] = [*writes, "j .-12"]
        found = self.warned(start, **{"start.ccpn": 3, "start.ie": 1})
        self.assertEqual(found, ["start.ie is 1, but the code at 80000104 makes it 0"])

    def test_the_cores_have_other_bits(self):
        for bit, core in ((8, "1.3"), (15, "1.6")):
            writes = ["mov d0, 1", f"sh d0, d0, {bit}", "movh d1, 0", f"addi d1, d1, {1 << 8}"]
            value = f"addi d0, d0, {(1 << bit) - 65536 * (bit == 15)}"
            writes = [f"movh d0, {int(bit == 15)}", value, f"mtcr {constants.CORE['icr']}, d0"]
            start = {0x80000000: ["j .+0"], 0x80000100: [*writes, "j .-16"]}
            self.assertEqual(self.warned(start, **{"start.ie": 1, "core": core}), [], core)
            self.assertEqual(len(self.warned(start, core=core)), 1, core)

    def test_only_what_the_entry_leads_to_loads(self):
        load = ["movh.a a15, 0xF010", "ld.w d0, [a15]4"]
        told = ["no range has F0100004, which the code at 80000004 loads or stores"]
        self.assertEqual(self.warned({0x80000000: [*load, "j .-8"]}), told)
        self.assertEqual(self.warned({0x80000000: ["j .+0"], 0x80000100: [*load, "ret16"]}), [])
        device = [{"at": "0xF0100004", "len": 4, "lo": 0, "hi": 1}]
        self.assertEqual(self.warned({0x80000000: [*load, "j .-8"]}, devices=device), [])

    def test_a_call_forgets_what_the_function_may_change(self):
        lines = ["movh.a a4, 0xF010", "call .+12", "ld.w d0, [a4]0", "j .-12", "ret16"]
        self.assertEqual(self.warned({0x80000000: lines}), [])
        lines = [line.replace("a4", "a12") for line in lines]
        self.assertEqual(len(self.warned({0x80000000: lines})), 1)

    def test_ranges_that_touch(self):
        check = plan_check.Check.__new__(plan_check.Check)
        span = lambda at, size: {"at": at, "len": size}
        check.board = {"rom": [span(0, 8)], "ram": [span(16, 8)], "devices": [span(8, 8)]}
        check.board["csa"] = {"at": 64, "areas": 1}
        for at, end, wanted in ((0, 24, True), (4, 20, True), (0, 25, False), (24, 28, False),
                                (64, 128, True), (64, 129, False)):  # fmt: skip
            self.assertEqual(check.is_inside(at, end), wanted, hex8(at))


if __name__ == "__main__":
    unittest.main()
