"""release.py and bill.py: what the bill of materials says, and what isn't packed."""
import json
import pathlib
import unittest

import beside
import bill
import release
from tcdlib.arguments import Refused, WrongArguments

USES = {"low": [], "tcd": ["low", "memchr"], "tcd_tests": ["low"]}
RECORD = {"version": "1", "commit": "c", "time": 0, "kit": "kit 1", "glibc": "2.34"}
FILES = {name: {f"crates/{name}/src/lib.rt": name.encode()} for name in USES}
#: of b"x\n"
SUM = "73cb3858a687a8494ca3323053016282f3dad39d42cf62ca4e79dda2aac7d9ac"


class Bills(beside.InFolder):
    def made(self, kit=None):
        """The parts of a bill by name, and how they are related."""
        made = json.loads(bill.bill(RECORD, b"x\n", USES, FILES, kit))
        rows = [tuple(row.values()) for row in made["relationships"]]
        return {part["name"]: part for part in made["packages"]}, rows

    def kit(self):
        """A kit of a few files."""
        for name, text in (
            ("WHAT", f"archive {SUM}\ncommit 1\n"),
            ("rlibs/memchr.rlib/format", "crate memchr\ndep std\n"),
            ("rlibs/memchr.rlib/toolchain/checked.a", "x\n"),
            ("bin/rattle", "x\n"),
        ):
            (self.folder / name).parent.mkdir(parents=True, exist_ok=True)
            self.put(name, text)
        return self.folder

    def sum_of(self, part):
        return part.get("checksums", [{"checksumValue": None}])[0]["checksumValue"]

    def test_without_a_kit(self):
        parts, rows = self.made()
        self.assertEqual(self.sum_of(parts["program"]), SUM)
        self.assertEqual([self.sum_of(parts[n]) for n in ("kit", "std", "memchr")], [None] * 3)
        for row in (
            ("SPDXRef-DOCUMENT", "DESCRIBES", "SPDXRef-program"),
            ("SPDXRef-program", "STATIC_LINK", "SPDXRef-low"),
            ("SPDXRef-tcd-tests", "TEST_OF", "SPDXRef-program"),
            ("SPDXRef-tcd", "DEPENDS_ON", "SPDXRef-memchr"),
        ):
            self.assertIn(row, rows)

    def test_with_a_kit(self):
        parts, rows = self.made(self.kit())
        found = [self.sum_of(parts[n]) for n in ("kit", "memchr", "rattle", "std", "clang")]
        self.assertEqual(found, [SUM, SUM, SUM, None, None])
        self.assertEqual(parts["kit"]["comment"], "commit 1")
        self.assertIn(("SPDXRef-memchr", "DEPENDS_ON", "SPDXRef-std"), rows)

    def test_uses(self):
        self.assertEqual(
            bill.uses_of("# a\nlow:\ntcd: low memchr\n"), {"low": [], "tcd": ["low", "memchr"]}
        )


class Archives(unittest.TestCase):
    def test_order_and_modes_are_fixed(self):
        one = release.packed("f", {"a": (b"1", True), "b": (b"2", False)})
        self.assertEqual(one, release.packed("f", {"b": (b"2", False), "a": (b"1", True)}))
        self.assertNotEqual(one, release.packed("f", {"a": (b"1", False), "b": (b"2", False)}))

    def test_a_path_of_this_machine(self):
        top = str(release.TOP)
        for text in (top, f"at {top}/crates", f'"{top}"'):
            with self.assertRaises(Refused):
                release.demand_no_path({"a": (text.encode(), False)}, None)
        for text in ("", f"x{top}", f"{top}x", f"{top}-2"):
            release.demand_no_path({"a": (text.encode(), False)}, None)
        with self.assertRaises(Refused):
            release.demand_no_path({"a": (b"/of/a/kit/bin", False)}, pathlib.Path("/of/a/kit"))

    def test_records(self):
        found = release.record_of(b"GLIBC_2.4 GLIBC_2.34\0GLIBC_2.17", "1.0", "")
        self.assertEqual((found["glibc"], found["kit"]), ("2.34", "unknown"))
        for version, kit in (("a/b", ""), ("-x", ""), ("1", "a\nb")):
            with self.assertRaises(WrongArguments):
                release.record_of(b"", version, kit)

    def test_who_gets_what(self):
        for name in (
            "tools/view.py",
            "docs/safety.md",
            "bench/README.md",
            "tests/second/asked.py",
        ):
            self.assertTrue(release.FOR_USERS.fullmatch(name), name)
        for name in ("crates/tcd/src/main.rt", "tests/run.py", "bench/run.py", "maintain/rows.py"):
            self.assertFalse(release.FOR_USERS.fullmatch(name), name)


if __name__ == "__main__":
    unittest.main()
