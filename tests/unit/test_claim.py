"""Tests of tools/claim.py. At the top of the repository:

    python3 -m unittest discover -s tests/unit
"""
import contextlib
import dataclasses
import io
import pathlib
import re
import tempfile
import unittest
from unittest import mock

import beside
import claim

SMALL = """-- What is tried here.
use Rattle.std.specs.Prelude.{◌+◌, ℕ}
use Rattle.b.specs.Lower.{◌⊕◌, twice, Kind}
use Rattle.b.specs.Lower as lower
use Rattle.b.specs.declared.kinds.TheConstants.{LEAST}

-- a statement
pub record Top (n : ℕ) : Type 0 where
  pub kind : Kind
  pub four : IsFour n

-- it is four
abbrev pub IsFour : ℕ → Type 0
IsFour n = n ≡ twice 2

-- it is in no statement
abbrev pub unused : ℕ → ℕ
unused n = n + 1

-- a record that ends with a brace of its own
unfoldable pub opened : Pair
opened = record {
  left = twice LEAST;
  right = 3 ⊕ 4;
}

-- said of all commands
pub record Says (n : ℕ) : Type 0 where
  pub top : (a : ℕ)
      → Top a
  pub other : IsFour n
"""
LOWER = """use Rattle.std.specs.Prelude.{◌+◌, ℕ}
use Rattle.b.specs.declared.kinds.TheConstants.{LEAST}
pub use Rattle.b.specs.declared.kinds.Kind.{Kind}

-- an operator, whose equations begin with a parenthesis
infixl 10 ◌⊕◌
abbrev pub ◌⊕◌ : ℕ → ℕ → ℕ
(zero) ⊕ n = n
(suc m) ⊕ n = twice (m ⊕ n)

-- another one of this name
abbrev pub IsFour : ℕ → Type 0
IsFour n = n ≡ LEAST

-- two times n; the local name `unused` is no definition
abbrev pub twice : ℕ → ℕ
twice unused = unused + unused
"""
LAWS = """use Rattle.std.specs.Prelude.{◌+◌, ◌≡◌, ℕ}
use Rattle.b.specs.Lower.{twice}

-- two times n is n and n
abbrev pub TwiceIsSum : Type 0
TwiceIsSum = (n m : ℕ) → (twice n ≡ m) ↔ IsSum n m

-- m is n and n
abbrev pub IsSum : ℕ → ℕ → Type 0
IsSum n m = n + n ≡ m

-- all laws
pub record LowerLaws : Type 0 where
  pub other : Other
  pub sum : TwiceIsSum
"""
PROOF = """ghost use Rattle.b.specs.Laws.{Others, LowerLaws};

/// The laws.
pub fn lower_laws()
    ensures others { Others }
    ensures laws { LowerLaws }
{}
"""
KINDS = """/// A kind.
#[derive(Clone)]
pub enum Kind {
    /// One of them.
    One {
        place: u32,
        size: u8,
    },
    Two,
    Gone,
}

/// No case of `Kind`.
pub struct Gone;

/// The least.
pub const LEAST: u8 = 1;

/// Some numbers, of which definitions see only how many there are.
pub struct Held {
    kinds: Vec<Kind>,
}

impl Model for Held {
    ghost use Rattle.b.specs.Laws.{IsSum};
    ghost use Rattle.b.specs.Lower.{IsFour, twice};

    ghost Value = { IsFour };

    ghost view = { λ h. twice h.kinds };
}
"""


def written(top, path, text):
    (top / path).parent.mkdir(parents=True, exist_ok=True)
    (top / path).write_text(text, encoding="utf-8")


def run(*words):
    """The status, and what was printed on both outputs."""
    out, err = io.StringIO(), io.StringIO()
    with contextlib.redirect_stdout(out), contextlib.redirect_stderr(err):
        try:
            status = claim.main(list(words))
        except SystemExit as end:
            status = end.code
    return status, out.getvalue(), err.getvalue()


def fields_type(record, name):
    """The type of a field, if it is one name."""
    return re.fullmatch(r".* : (\w+)", *claim.fields_of(record)[name])[1]


def document(name):
    return (claim.TOP / "docs" / name).read_text(encoding="utf-8")


class SmallSources(unittest.TestCase):
    def setUp(self):
        folder = tempfile.TemporaryDirectory()
        self.addCleanup(folder.cleanup)
        self.top = pathlib.Path(folder.name)
        written(self.top, "crates/a/specs/Small.antt", SMALL)
        written(self.top, "crates/b/specs/Lower.antt", LOWER)
        written(self.top, "crates/b/specs/Laws.antt", LAWS)
        written(self.top, "crates/b/src/kinds.rt", KINDS)
        self.sources = claim.Sources(self.top)

    def part(self, stops=()):
        return claim.Part(self.sources, [self.sources.root("a.specs.Small.Top")], set(stops))

    def test_users_come_first(self):
        self.assertEqual([it.name for it in self.part().items], ["Top", "Kind", "IsFour", "twice"])

    def test_a_name_that_is_handed_on_is_found(self):
        self.assertEqual(self.part().items[1].kind, "type")

    def test_the_kit_is_counted(self):
        self.assertIn("std.specs.Prelude.◌+◌", self.part().kit)

    def test_a_stop_is_not_followed(self):
        part = self.part(["IsFour"])
        self.assertEqual([it.name for it in part.items], ["Top", "Kind"])
        self.assertEqual([it.name for it in part.stopped], ["IsFour"])

    def test_a_comment_stands_above(self):
        self.assertEqual(self.part().items[0].comment, ["-- a statement"])

    def test_a_type_is_shown_short(self):
        kind = self.part().items[1]
        self.assertEqual(kind.text[2], "    One { place: u32, size: u8 },")

    def test_a_value_is_shown_instead_of_fields(self):
        held = self.sources.type_named("b", "Held")
        self.assertEqual(held.text, ["pub struct Held", "    ghost Value = { IsFour };"])
        found = claim.uses(self.sources, held)
        self.assertEqual(found, [self.sources.root("b.specs.Lower.IsFour")])

    def test_comments_inside_a_type_are_no_lines(self):
        part = self.part(["IsFour"])
        self.assertEqual((part.lines, part.notes), (3 + 4, 1 + 1 + 1))

    def test_short_members_are_beside_each_other(self):
        part = self.part()
        self.assertIn("    Two, Gone,", part.shown(part.items[1]))
        lines = ["    /// b", "    B,", "    A,", "    C { d: u8 },", "    D,", "    E,", "}"]
        self.assertEqual(claim.joined(lines), [*lines[:4], "    D, E,", "}"])
        lines = ["pub enum Two {", "    A,", "    B { c: u8 },", "}"]
        self.assertEqual(claim.joined(lines), ["pub enum Two { A, B { c: u8 } }"])

    def test_a_case_is_no_type_of_its_name(self):
        self.assertNotIn("Gone", [it.name for it in self.part().items])

    def below(self, name):
        part = claim.Part(self.sources, [self.sources.root(f"a.specs.Small.{name}")], set())
        return {it.name: it for it in part.items}

    def test_a_definition_is_whole(self):
        found = self.below("opened")
        self.assertEqual(set(found), {"opened", "◌⊕◌", "twice", "LEAST"})
        self.assertEqual(found["opened"].text[-1], "}")
        self.assertEqual(len(found["◌⊕◌"].text), 3)
        self.assertEqual(found["LEAST"].text, ["pub const LEAST: u8 = 1;"])

    def pinned(self, proof=PROOF, fields=("sum",), root="a.specs.Small.Top"):
        """The definitions below a root, with `twice` by its laws."""
        written(self.top, "crates/b/src/laws.rt", proof)
        record, path = "b.specs.Laws.LowerLaws", "crates/b/src/laws.rt"
        laws = {"b.specs.Lower.twice": claim.Laws(record, fields, path, "lower_laws")}
        with mock.patch.object(claim, "PINNED", laws):
            return claim.Part(self.sources, [self.sources.root(root)], set())

    def test_laws_are_shown_instead(self):
        part = self.pinned()
        names = ["Top", "Kind", "IsFour", "twice", "TwiceIsSum", "IsSum"]
        self.assertEqual([it.name for it in part.items], names)
        first, note, _, law = part.shown(part.items[3])
        self.assertEqual((first, law), ("abbrev pub twice : ℕ → ℕ", "  pub sum : TwiceIsSum"))
        self.assertIn("lower_laws of crates/b/src/laws.rt proves", note)

    def test_a_root_is_shown_whole(self):
        part = self.pinned(root="b.specs.Lower.twice")
        self.assertEqual([part.shown(it) for it in part.items], [part.items[0].text])

    def test_laws_that_nothing_proves(self):
        for old, new in (
            ("pub fn", "fn"),
            ("lower_laws()", "lower_laws(n: u8)"),
            ("    ensures others", "    requires { Others }\n    ensures others"),
            ("{ LowerLaws }", "{ Others → LowerLaws }"),
            ("Laws.{Others, LowerLaws}", "Laws.{Others, LowerLaws as Others}"),
            ("b.specs.Laws.", "a.specs.Laws."),
            ("lower_laws", "other_laws"),
        ):
            with self.subTest(new=new), self.assertRaisesRegex(claim.Wrong, "doesn't conclude"):
                self.pinned(PROOF.replace(old, new))
        for field in ("other", "none"):
            with self.subTest(field=field), self.assertRaisesRegex(claim.Wrong, "has no law"):
                self.pinned(fields=("sum", field))

    def test_the_field_of_a_record(self):
        with mock.patch.object(claim, "SAYS", ("a.specs.Small", "Says")):
            said = self.sources.saying(self.sources.root("a.specs.Small.Top"))
            text = ["  pub top : (a : ℕ)", "      → Top a", claim.OTHER_FIELDS]
            self.assertEqual(said.text[1:], text)
            with self.assertRaises(claim.Wrong):
                self.sources.saying(self.sources.root("b.specs.Lower.twice"))

    def test_two_definitions_of_a_name(self):
        roots = [self.sources.root(it) for it in ("a.specs.Small.Top", "b.specs.Lower.IsFour")]
        with mock.patch.object(claim, "TOP", self.top):
            page = claim.as_markdown("two", [("both", claim.Part(self.sources, roots, set()))])
        self.assertIn("**IsFour, in a.specs.Small** (", page)
        self.assertIn("**IsFour, in b.specs.Lower** (", page)
        self.assertIn("; here IsFour is a.specs.Small.IsFour)", page)

    def test_an_unknown_root(self):
        with self.assertRaises(claim.Wrong):
            self.sources.root("a.specs.Small.Nothing")


class Repository(unittest.TestCase):
    @classmethod
    def setUpClass(cls):
        cls.sources = claim.Sources(claim.TOP)
        cls.root = cls.sources.saying(cls.sources.headlines()["check"])
        cls.parts = claim.parts_of(cls.sources, [cls.root], set(claim.READ + claim.LATER))

    def test_definitions_are_whole(self):
        for module in self.sources.modules.values():
            for item in module.items.values():
                text = re.sub(r'"(?:[^"\\]|\\.)*"', "", "\n".join(item.text))
                for opens, closes in ("{}", "()", "[]"):
                    with self.subTest(item=item.key, opens=opens):
                        self.assertEqual(text.count(opens), text.count(closes))
                if item.kind == "function":
                    with self.subTest(item=item.key):
                        self.assertTrue(any(claim.two_sides(item, it)[0] for it in item.text))

    def test_each_command_has_its_field(self):
        for record in self.sources.headlines().values():
            with self.subTest(record=record.name):
                text = "\n".join(self.sources.saying(record).text)
                self.assertIn("CommandSays call (codes ", text)

    def test_a_page_begins_with_its_field(self):
        names = [it.name for it in self.parts[0][1].items]
        first = ["ToolSays", "CommandSays", "ToolCallMeans", "HeadlineOfCheck", "Safe", "Starts"]
        self.assertEqual([it for it in names if it in first], first)
        self.assertEqual(names[0], "ToolSays")
        users = (("ToolSays", "ToolCall"), ("HeadlineOfCheck", "PlanData"), ("Safe", "Machine"))
        for user, type_ in users:
            self.assertGreater(names.index(type_), names.index(user))
            self.assertLess(names.index(type_), names.index("Starts"))

    def test_where_a_definition_is_followed(self):
        found = dict(claim.not_followed(self.parts[0][1], self.parts))
        self.assertIn("GivesPlan", found["Followed in part 2"])
        self.assertIn("RefusalByCheck", found["Followed on no part"])

    def test_other_ends_are_named_alone(self):
        shown = {it.name for _, part in self.parts for it in part.items}
        stopped = {it.name for it in self.parts[0][1].stopped}
        for name in ("RefusalByCheck", "BadInputOf"):
            self.assertIn(name, stopped)
            self.assertNotIn(name, shown)
        root = self.sources.root("tcd_driver.specs.Headlines.RefusalByCheck")
        self.assertIn(root, claim.Part(self.sources, [root], ()).items)

    def test_all_below_safe_is_in_the_first_part(self):
        shown = {it.key for it in self.parts[0][1].items}
        for name in ("Safe.Safe", "Starting.Starts", "Safe.Fits", "Safe.AllFit", "Stepping.step"):
            self.assertIn(f"tc_machine.specs.{name}", shown)
        below = claim.Part(self.sources, [self.sources.root("tc_machine.specs.Safe.Safe")], set())
        self.assertGreater(len(below.items), 150)
        self.assertLessEqual({it.key for it in below.items}, shown)

    def test_laws_leave_one_result(self):
        """Each says exactly when there is one result, in words that don't rest on the definition;
        together they have all results. The gate proves their crate."""
        results = {"decoded_of": ["Ok (i, n)", "Err Short", "Err NotListed"]}
        crates = (claim.TOP / "crates.txt").read_text(encoding="utf-8")
        for key, laws in claim.PINNED.items():
            self.assertIn(f"\n{pathlib.Path(laws.path).parts[1]}:", crates)
            item, record, found = self.sources.root(key), self.sources.root(laws.record), []
            for name in laws.fields:
                law = self.sources.root(f"{record.module}.{fields_type(record, name)}")
                pattern = rf".* → \({item.name} \w+ ≡ (.*?)\) ↔ (.*)"
                result, when = re.fullmatch(pattern, law.text[-1]).groups()
                used = claim.uses(self.sources, dataclasses.replace(law, text=[when]))
                roots = [it for it in used if isinstance(it, claim.Item)]
                self.assertNotIn(item, claim.Part(self.sources, roots, ()).items)
                found.append(result)
            self.assertEqual(found, results[item.name])
        errors = self.sources.root("tc_encode.specs.declared.errors.DecodeErr.DecodeErr")
        cases = re.findall(r"^    (\w+)", "\n".join(errors.text), re.M)
        self.assertEqual([f"Err {case}" for case in cases], results["decoded_of"][1:])

    def test_both_parts_are_all(self):
        whole = claim.Part(self.sources, [self.root], set())
        apart = [it.key for _, part in self.parts for it in part.items]
        self.assertEqual(sorted(apart), sorted(it.key for it in whole.items))

    def test_each_row_is_beside_its_meaning(self):
        part = self.parts[0][1]
        shown = {it.name: part.shown(it) for it in part.items}
        self.assertEqual(len(shown["meanings"]), 2 + 142)
        begin = "movh.a    Ac, uk             Rlc 0x91 0x00    (λ f. Compute Second"
        self.assertIn(begin, "\n".join(shown["meanings"]))
        row = "nop16                        Sr 0x00 0x00     (λ f. Nothing)"
        self.assertIn(row, shown["meanings"])
        self.assertEqual(len(shown["field_bounds"]), 2 + 18)
        self.assertIn("Sc   1 1 1 1 256            f.k * 2 ^ 8 + op1", shown["field_bounds"])
        for name, first in (("table_rows", "meanings"), ("word_of_fields", "field_bounds")):
            self.assertIn(f"{name} : ", shown[name][0])
            self.assertEqual(shown[name][1:], [f"  -- in the rows of {first}"])

    def test_what_builds_a_row_is_left_out(self):
        shown = {it.key for it in self.parts[0][1].items}
        pairs = ("Rows.row", "Rows.RowData"), ("Meanings.line", "Meanings.MeaningLine")
        for pair in pairs:
            builder, built = (self.sources.root(f"tc_isa.specs.{it}") for it in pair)
            names = list(claim.fields_of(built))
            equal = "; ".join(f"{name} = {name}" for name in names)
            left = " ".join([builder.name, *names])
            self.assertEqual(builder.text[1:], [f"{left} = record {{ {equal} }}"])
            self.assertNotIn(builder.key, shown)
            self.assertIn(built.key, shown)

    def test_a_table_has_all_lines(self):
        names = ("word_of_fields", "field_bounds")
        items = [it for it in self.parts[0][1].items if it.name in names]
        table = next(it for it in claim.TABLES if it.names == names)
        self.assertEqual(len(claim.rows_beside(table, items)), 2)
        for text in (items[0].text[:-1], [*items[0].text, "field_bounds Other = Fewer"]):
            other = dataclasses.replace(items[0], text=text)
            self.assertEqual(claim.rows_beside(table, [other, items[1]]), {})

    def test_a_done_means_at_most_900_lines(self):
        self.assertLessEqual(self.parts[0][1].lines, 900)
        self.assertLessEqual(self.parts[0][1].lines + self.parts[1][1].lines, 1260)

    def test_the_blocks_of_machine_md(self):
        def words(text):
            return re.sub(r"\b(?:pub|abbrev)\b|: Type 0 (?=where)", "", text).split()

        text = document("machine.md").partition("\n### Safe")[2]
        blocks = re.findall(r"(?:^    .*\n)+", text, re.M)
        names = [re.match(r" *(?:record )?(\w+)", block)[1] for block in blocks]
        self.assertIn("Safe", names)
        items = [it for _, part in self.parts for it in part.items]
        for name, block in zip(names, blocks):
            with self.subTest(definition=name):
                found = [words("\n".join(it.text)) for it in items if it.name == name]
                self.assertIn(words(block), found)

    def test_the_counts_of_safety_md(self):
        text = " ".join(document("safety.md").split())
        parts = [part for _, part in self.parts]
        for part in parts:
            self.assertIn(f"{len(part.items)} definitions in {part.lines:,} lines", text)
        self.assertIn(
            "with {}, {} and {} names of the kit".format(*(len(it.kit) for it in parts)), text
        )
        both = parts[0].lines + parts[1].lines
        self.assertIn(f"the first two have {both:,} lines", text)

    def test_pages(self):
        with tempfile.TemporaryDirectory() as folder:
            for end, begin in (("md", "# What is claimed: Headline"), ("html", "<!doctype html>")):
                page = pathlib.Path(folder) / f"claim.{end}"
                status, out, _ = run("check", "--page", str(page))
                self.assertEqual(status, 0)
                self.assertIn("what a done means: ", out)
                text = page.read_text(encoding="utf-8")
                self.assertTrue(text.startswith(begin))
                self.assertLess(text.index("CommandSays"), text.index("HeadlineOfCheck "))
                if end == "html":
                    link = '(<a href="#tc_isa.specs.Meanings.registers">registers</a> Sub)'
                    self.assertIn(link, text)
                    places = set(re.findall(r'id="([^"]*)"', text))
                    self.assertLessEqual(set(re.findall(r'href="#([^"]*)"', text)), places)

    def test_statuses(self):
        for status, words in (
            (0, ["tasks"]),
            (2, ["--page", "/nowhere/claim.md"]),
            (5, ["nothing"]),
            (5, ["--nothing"]),
            (5, ["check", "--root", "tc_machine.specs.Safe.Safe"]),
            (5, ["--root", "tc_machine.specs.Safe.Nothing"]),
        ):
            with self.subTest(words=words):
                found, _, err = run(*words)
                self.assertEqual(found, status)
                self.assertEqual(err.count("\n"), 0 if status == 0 else 1)


@beside.needs_program
class NoInterrupts(beside.InFolder):
    def test_the_line_of_safety_md(self):
        self.linked(self.example("nested_interrupts"))
        plan = (self.folder / "board.json").read_text().replace("[10, 20, 30]", "[]")
        line = self.tcd("cert", "firmware.elf", self.put("board.json", plan), "firmware.cert")
        self.assertIn(line, document("safety.md"))
        self.assertTrue(line.startswith("certified "))


if __name__ == "__main__":
    unittest.main()
