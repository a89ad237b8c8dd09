"""growth.py: the line that is to blame, the file of needs, the budget."""
import json
import unittest

import beside
from tcdlib import frames
import growth
import names
from tcdlib.sources import Unusable

FILES = ("firmware.elf", "board.json", "firmware.cert")


def build(**frames_by_name):
    """A build of frames: each its need, the contexts that it holds, and by what it enters these
    held there."""
    made = {}
    for name, (need, held, enters) in frames_by_name.items():
        entry = lambda into, saved: {"saved": saved, "way": "call", "at": f"{into}.s:1"}
        rows = {into: entry(into, saved) for into, saved in enters.items()}
        made[name] = {"need": need, "held": held, "at": f"{name}.s:9", "enters": rows}
    head = {"format": growth.FORMAT, "has_names": True, "usable": 62, "shares": {}}
    return {**head, "certified": made["background"]["need"], "frames": made}


def saved(made):
    """A build as its file has it."""
    return json.loads(growth.saved_text(made))


class Causes(unittest.TestCase):
    """The entry that is to blame, by the frames of two builds."""

    OLD = {"background": (2, 0, {"f": 0, "g": 0}), "f": (1, 0, {"h": 0}), "g": (0, 0, {})}
    OLD["h"] = (0, 0, {})

    def causes(self, **changed):
        old, new = saved(build(**self.OLD)), build(**{**self.OLD, **changed})
        told = growth.compared(old, new, None, "board.json:9")
        return [(cause["place"], cause["message"]) for cause in told["causes"]]

    def test_a_new_entry_of_an_old_frame(self):
        found = self.causes(background=(3, 0, {"f": 0}), f=(2, 0, {"h": 0}), h=(1, 0, {"g": 0}))
        self.assertEqual(found, [("g.s:1", "h now calls g")])

    def test_a_new_frame(self):
        changed = {"background": (3, 0, {"f": 0}), "f": (2, 0, {"i": 0}), "i": (1, 0, {})}
        self.assertEqual(self.causes(**changed), [("i.s:1", "f now calls i, which is new")])

    def test_one_more_lower_context(self):
        found = self.causes(background=(3, 0, {"f": 0}), f=(2, 0, {"h": 1}))
        self.assertEqual(found, [("h.s:1", "f calls h with 1 lower context, before 0")])
        found = self.causes(background=(4, 0, {"f": 0}), f=(3, 3, {"h": 0}))
        self.assertEqual(found, [("f.s:9", "f holds 3 lower contexts, before 0")])

    def test_the_longest_chain_comes_first(self):
        changed = {"background": (3, 0, {"f": 0, "g": 0}), "f": (2, 2, {"h": 0}), "g": (1, 1, {})}
        self.assertEqual([place for place, _ in self.causes(**changed)], ["f.s:9", "g.s:9"])

    def test_no_growth(self):
        self.assertEqual(self.causes(), [])
        self.assertEqual(self.causes(background=(1, 0, {"f": 0}), f=(0, 0, {})), [])


class Names(unittest.TestCase):
    """Names of frames stay the same if addresses move."""

    def test_functions_of_one_name(self):
        keys = ["start 80000000 prio 0 is 0", "call 80000008 prio 0 is 0"]
        keys += ["call 80000010 prio 0 is 0", "call 80000018 prio 0 is 0"]
        keys += ["irq 80002140 prio 10 is 1", "call 80000008 prio 10 is 1"]
        keys.append("call 80000008 prio 0 is 1")
        report = {"certified": 0, "areas": 2, "reserve": 1}
        report["nodes"] = [{"key": key, "need": 0, "points": 1} for key in keys]
        graph = frames.Graph(json.dumps(report), "", frames.Listing(""))
        rows = [(0x80000000, "main", "m.s", 1), (0x80000008, "f", "a.s", 1)]
        rows += [(0x80000010, "f", "b.s", 1), (0x80000018, "f", "b.s", 9)]
        known = names.Map(rows, [(at, 8, file, line) for at, _, file, line in rows])
        found = growth.Named(graph, known, None).names
        told = ["background", "a.s:f", "b.s:f", "b.s:f (2)", "interrupt 10"]
        told += ["a.s:f in interrupt 10", "a.s:f on the interrupt stack"]
        self.assertEqual([found[frames.key_of(key)] for key in keys], told)


class Files(beside.InFolder):
    """needs.json, as it may come."""

    def test_other_files(self):
        whole = saved(build(background=(1, 0, {"f": 0}), f=(0, 0, {})))
        self.assertEqual(growth.read(self.put("n.json", json.dumps(whole))), whole)
        for text in ("", "{", "[]", "[" * 100000, "{}", b"\xff"):
            with self.assertRaises(Unusable):
                growth.read(self.put("n.json", text))
        for key in whole:
            for value in (None, [], {"f": None}, {"background": {}}, -1, 1.5, "x"):
                self.put("n.json", json.dumps({**whole, key: value}))
                with self.assertRaises(Unusable, msg=f"{key} {value}"):
                    growth.read("n.json")


@beside.needs_program
class WithProgram(beside.InFolder):
    """Edits of an example, each of which makes N grow."""

    def setUp(self):
        super().setUp()
        self.sources = self.example("nested_interrupts")
        self.certified()
        self.assertEqual(self.grown("--save", "needs.json").returncode, 0)

    def certified(self):
        self.linked(self.sources)
        return self.tcd("cert", *FILES)

    def grown(self, *words):
        names_from = ["board.layout", *self.sources]
        return self.script("growth.py", beside.program(), *FILES, *names_from, *words)

    def edited(self, file, before, after):
        """The lines that are to blame after an edit."""
        text = (self.folder / file).read_text()
        self.assertIn(before, text)
        self.put(file, text.replace(before, after, 1))
        plan = json.loads((self.folder / "board.json").read_text())
        plan["csa"]["areas"] = 40
        self.put("board.json", json.dumps(plan))
        self.certified()
        done = self.grown("--against", "needs.json")
        self.put(file, text)
        self.assertEqual((done.returncode, done.stderr), (1, ""))
        return [line for line in done.stdout.splitlines() if ": error: " in line]

    def test_edits(self):
        function = " j {0}_out\n{0}: ret16\n{0}_out: call {0}\n"
        saves = " svlcx\n call   count_middle\n rslcx\n"
        for file, before, after, told in (
            (
                "main.s",
                "step:\n",
                "step:\n" + function.format("deep"),
                "main.s:15: error: step now calls deep, which is new: needs 9 -> 10",
            ),
            (
                "handlers.s",
                "    call   count_middle\n",
                saves,
                "handlers.s:15: error: interrupt 20 calls count_middle in interrupt 20 with "
                "2 lower contexts, before 1: needs 5 -> 6",
            ),
            (
                "handlers.s",
                "count_fast:\n",
                "count_fast:\n" + function.format("last"),
                "handlers.s:35: error: count_fast in interrupt 30 now calls last in interrupt 30, "
                "which is new: needs 0 -> 1",
            ),
        ):
            self.assertEqual(self.edited(file, before, after), [told])

    def test_the_budget(self):
        for words, status, told in (
            (("--most", "11"), 0, "11 of 11 areas; the budget is 11"),
            (("--most", "10"), 1, "11 of 11 areas; the budget is 10: too many"),
            (("--against", "needs.json"), 0, "11 of 11 areas, as in needs.json"),
            (("--against", "needs.json", "--most", "9"), 1, "as in needs.json; the budget is 9"),
            (("--save", "other.json", "--most", "9"), 1, "too many"),
        ):
            done = self.grown(*words)
            self.assertEqual(done.returncode, status, words)
            self.assertIn(told, done.stdout)
        self.assertFalse((self.folder / "other.json").exists())

    def test_an_edit_that_changes_no_need_changes_no_byte(self):
        before = (self.folder / "needs.json").read_bytes()
        text = (self.folder / "main.s").read_text()
        self.put("main.s", text.replace("step:\n", "# more\nstep:\n nop16\n", 1))
        self.certified()
        self.grown("--save", "needs.json")
        self.assertEqual((self.folder / "needs.json").read_bytes(), before)

    def test_json_and_a_refusal(self):
        told = json.loads(self.grown("--against", "needs.json", "--json").stdout)
        self.assertEqual((told["certified"], told["before"], told["is_within"]), (11, 11, True))
        plan = json.loads((self.folder / "board.json").read_text())
        plan["csa"]["areas"] = 5
        self.put("board.json", json.dumps(plan))
        done = self.grown("--most", "20")
        self.assertEqual(done.returncode, 1)
        self.assertTrue(done.stdout.startswith("refused K14"))

    def test_cells_and_tasks(self):
        self.linked(self.example("cells"))
        self.tcd("cellcert", *FILES[:2], "modes.cells", FILES[2])
        words = (beside.program(), *FILES, "--cells", "modes.cells", "--most", "5")
        self.assertEqual(self.script("growth.py", *words).stdout, "5 of 6 areas; the budget is 5\n")
        self.linked(self.example("two_tasks"))
        self.tcd("taskcert", *FILES[:2], "board.tasks", "a.cert", "b.cert")
        words = (beside.program(), *FILES[:2], "b.cert", "--tasks", "board.tasks", "1")
        done = self.script("growth.py", *words, "--most", "2")
        self.assertEqual((done.returncode, done.stdout[:12]), (1, "3 of 8 areas"))

    def test_control_characters_of_a_saved_file(self):
        saved = json.loads((self.folder / "needs.json").read_text())
        saved["shares"]["a\x1b[31m\nb"] = 3
        saved["frames"]["gone\x1b[0m"] = {"need": 0, "held": 0, "enters": {}}
        self.put("other\x1b.json", json.dumps(saved))
        for more in ((), ("--json",)):
            done = self.grown("--against", "other\x1b.json", *more)
            self.assertEqual((done.returncode, done.stderr), (0, ""))
            self.assertTrue(done.stdout.replace("\n", "").isprintable(), done.stdout)
        printed = self.grown("--against", "other\x1b.json").stdout
        self.assertIn("    a\\x1b[31m\\nb            3    0  -3\n", printed)
        self.assertIn("gone: gone\\x1b[0m", printed)

    def test_faults(self):
        for words, status in (
            ((), 5),
            (("--save", "n.json", "--against", "needs.json"), 5),
            (("--most", "x"), 5),
            (("--against", "none.json"), 2),
            (("--against", "board.json"), 2),
            (("--save", "board.json"), 2),
            (("--save", "none/needs.json"), 2),
            (("--cells", "none.cells", "--most", "1"), 2),
        ):
            done = self.grown(*words)
            self.assertEqual((done.returncode, done.stderr.count("\n")), (status, 1), words)


if __name__ == "__main__":
    unittest.main()
