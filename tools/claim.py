#!/usr/bin/env python3
"""Prints what has to be read to know what a command claims, and nothing else.

    tools/claim.py                              the counts for `check`
    tools/claim.py check --page claim.html      a page for `check`, in HTML
    tools/claim.py cert --page claim.md         a page for `cert`, in Markdown
    tools/claim.py --root tc_machine.specs.Safe.Safe        what one definition rests on

The statement of a command is a record `HeadlineOf..` of crates/tcd_driver/specs/Headlines.antt,
or of a file of the folder of that name. When it holds, the field of the command in `ToolSays` says
(crates/tcd_driver/specs/Tool.antt). The page begins with this field.
The page shows the definitions below it, each once, with its file and line and the comment above
it. A definition comes before those that it uses; a type of values comes after the first definition
that uses it. The page has three parts:

1. What a Done means: the field, the record, and all that they rest on.
2. How bytes become an image and a plan: of which files part 1 speaks.
3. When it comes: which certificates are accepted, and which other files are taken as what.
A part names the definitions of later ones and doesn't follow them.

What a refusal and bad input mean is on no part; `--root` follows such a definition.

Above the parts a table says how definitions are written. A type or constant of src/ is shown as it
is declared there; a type by its value, if definitions see only that. The rows of the instruction
table are shown beside their meanings, and the bounds of a form beside its spelling. If two
definitions of a page have one name, their modules are beside it. The words of the kit are listed
after each part and not followed.

If proved laws leave one result of a definition for each argument, the page has its type and these
laws (`PINNED`), not how it is computed; `--root` follows that.

The script reads the text of the sources and knows no types. A name counts if it is in a definition
and isn't bound there. So the page may have a definition too many. It lacks a definition that no
text names.

Ends with 0, with 2 if a file can't be read or written, and with 5 if the words are wrong or the
function that `PINNED` names doesn't conclude its laws.
"""
import argparse
import collections
import dataclasses
import html
import os
import pathlib
import re
import sys

TOP = pathlib.Path(__file__).resolve().parent.parent
HEADLINES = "tcd_driver.specs.Headlines"
#: What the tool says of each command: a field of this record.
SAYS = ("tcd_driver.specs.Tool", "ToolSays")
OTHER_FIELDS = "  -- the fields of other commands are left out here"
#: What part 2 begins with.
READ = ("image_of_file", "GivesPlan")
#: What part 3 begins with: which certificates are accepted, and which files are taken as what.
LATER = (
    "IsAcceptedWithNeed",
    "IsAcceptedForTask",
    "IsLeastOfItsFormat",
    "IsNoCertAccepted",
    "CertKeepsCellBounds",
    "CertData",
    "certificate_of",
    "bytes_of_object",
    "bytes_of_cert",
    "bytes_of_instructions",
    "assembled_code",
    "CallCannotFail",
    "MayPrintText",
    "IsDecidedStatus",
    "reloc_value_refusal",
)
#: What a page names and doesn't follow: the ends that aren't Done.
OTHER_ENDS = re.compile(r"RefusalBy\w+|BadInputOf|AreInputsPresent|InputRequirement")


@dataclasses.dataclass(frozen=True)
class Table:
    """Two definitions that are shown row by row beside each other, where the page has the first."""

    names: tuple
    #: a row in each of them; group 1 names it
    lines: tuple
    row: str
    head: str
    #: functions that only build a row
    builders: tuple = ()


TABLES = (
    Table(
        ("table_rows", "meanings"),
        (
            r'    row \(codes "(.*?)"\) (?:\(codes "|\[)(.*?)(?:"\)|\]) (.*) ∷',
            r'    line \(codes "(.*?)"\) (.*) ∷',
        ),
        "{0[1]:9} {0[2]:18} {0[3]:16} {1[2]}",
        "table_rows: name, operands, form, op1, op2; meanings: shape",
        ("row", "line"),
    ),
    Table(
        ("word_of_fields", "field_bounds"),
        (r"word_of_fields (\w+) op1 op2 f = (.*)", r"field_bounds (\w+) = fields (.*)"),
        "{0[1]:4} {1[2]:22} {0[2]}",
        "form; field_bounds: c, s1, s2, n, k; word_of_fields: the number of op1, op2 and f",
    ),
)


@dataclasses.dataclass(frozen=True)
class Laws:
    """Some fields of a record of laws, and the public function that concludes this record."""

    record: str
    fields: tuple
    path: str
    function: str


#: What proved laws leave no choice of. `decoded_of` gives Ok with the instruction and the number of
#: bytes, Err Short, or Err NotListed: each of the laws says of one of them exactly when.
PINNED = {
    "tc_encode.specs.Decoding.decoded_of": Laws(
        "tc_encode.specs.DecodeLaws.DecodeLaws",
        ("begins", "short", "not_listed"),
        "crates/tc_encode/src/laws.rt",
        "decoding_laws",
    ),
}
PINNED_NOTE = (
    "  -- These laws, which {0.function} of {0.path} proves,",
    "  -- leave one result for each argument. So how {1} is computed isn't followed here:",
)

#: How a definition is read, above the parts.
NOTATION = (
    (
        "record R (x : T) where ..",
        "R of x holds if all its fields hold. A field may name a value: then there is one",
    ),
    ("data R (x : T) where ..", "R of x holds if one of its cases does"),
    ("(x : T) → P", "P for every x of type T"),
    ("P → Q", "if P then Q; of types, a function from P to Q"),
    ("P × Q, (x : T) × P", "P and Q; there is an x of type T with P"),
    ("P ⊎ Q, P ↔ Q, ⊥, Unit", "P or Q; P exactly if Q; what never holds; what always does"),
    ("x ≡ y, x ≢ y", "they are equal; they aren't"),
    ("x == y, x && y, x || y, not x", "tests: each is true or false"),
    ("nat_lt x y, nat_le x y", "tests: x is less than y, at most y"),
    ("x / y, x % y, x - y", "the quotient, the remainder, the difference (0 if y is greater)"),
    ("f x y", "the function f of x and y"),
    ("λ x. e", "the function that gives e of x"),
    ("m.pc, p.0, p.1; op.Add", "a field of a record, the parts of a pair; the case Add of Op"),
    ("record m { pc = x }", "m with another pc; without m, a new record"),
    ("[], x ∷ xs, xs ++ ys", "a list: empty, x before xs, ys after xs"),
    ("None, Some x; Ok x, Err e", "nothing or x; a result or an error"),
    ("slice_get xs n, slice_index xs n", "the place n, from 0; past the end None, and 0"),
    ('slice_set xs n x, codes ".."', "the list with x at n; the bytes of a text"),
    ("All P xs, Contains xs x", "P of each x in the list; x is in the list"),
    ("IfSome o P, is_some o, unwrap_or o x", "P of what o has, if any; it has some; it, or else x"),
    ("get m k, insert m k x", "what a map has at k, if any; the map with x at k"),
    ("struct S with ghost Value = { T }", "S is a type of src/; its values are of T"),
    ("abbrev, unfoldable, pub", "words for the prover"),
)

STYLE = """
body { max-width: 60em; margin: 2em auto; font-family: sans-serif }
pre { background: #f4f4f4; padding: .6em; overflow-x: auto }
td, th { text-align: left; padding-right: 1em }
a { color: #035; text-decoration: none; border-bottom: 1px dotted }
.note { color: #060 }
"""

NAME = r"[A-Za-zℕ_][A-Za-z0-9_'₀-₉-]*"
USE = re.compile(r"use (Rattle\.[\w.«»-]+?)(?:\.\{(.*)\}| as (" + NAME + r"))?\s*$")
HEAD = re.compile(
    r"(?:abbrev |unfoldable |inline )*(?:pub )?(?:(record|data) )?(◌\S+|" + NAME + r")(?= |$)"
)
OPERATOR = re.compile(r"◌(\S+?)◌")
NOTE = re.compile(r" *(?://|--)")
TOKEN = re.compile(r"(?<![.\w])" + NAME + r"(?:\." + NAME + r")*")


class Wrong(Exception):
    """Words that name nothing, or laws that nothing proves."""


@dataclasses.dataclass(eq=False)
class Item:
    """A definition of specs/, or a type or a constant of src/."""

    module: str
    name: str
    path: pathlib.Path
    line: int
    comment: list
    text: list
    kind: str
    #: of a type: the names that its file brings in, and where those of its value come from
    brought: frozenset = frozenset()
    valued: dict = dataclasses.field(default_factory=dict)

    @property
    def key(self):
        return f"{self.module}.{self.name}"


class Module:
    """One file of specs/: its definitions, and the names that it brings in."""

    def __init__(self, name, path):
        self.name, self.path = name, path
        self.items, self.scope, self.aliases, self.constructors = {}, {}, {}, {}
        #: names that other modules may take from here, though they are defined elsewhere
        self.exported = {}
        self.comment, self.current = [], None
        for number, line in enumerate(path.read_text(encoding="utf-8").split("\n"), 1):
            self.read_line(number, line)
        for item in self.items.values():
            if item.kind == "data":
                self.read_constructors(item)

    def read_line(self, number, line):
        """Adds one line to what was read so far."""
        line = line.removeprefix("unfoldable ") if " use Rattle." in line else line
        if line.startswith(("use ", "pub use ")):
            self.read_use(line)
        elif line.startswith(("mod ", "pub mod ")):
            self.comment, self.current = [], None
        elif line.startswith("--"):
            self.comment = [] if line.startswith("-- ----") else self.comment + [line]
            self.current = None
        elif not line.strip():
            self.comment, self.current = [], None
        elif line.startswith((" ", "}", "(", "unfolding", "infix")):
            # more of the definition at hand: "(" begins an equation of an operator
            if self.current:
                self.current.text.append(line)
        else:
            self.read_head(number, line)

    def read_use(self, line):
        self.comment, self.current = [], None
        found = USE.match(line.removeprefix("pub "))
        if found and found[2] is not None:
            for part in filter(None, map(str.strip, found[2].split(","))):
                name, _, other = part.partition(" as ")
                self.scope[(other or name).strip()] = (found[1], name.strip())
                if line.startswith("pub "):
                    self.exported[(other or name).strip()] = (found[1], name.strip())
        elif found and found[3]:
            self.aliases[found[3]] = found[1]

    def read_head(self, number, line):
        """A line that begins a definition, or an equation of one."""
        found = HEAD.match(line)
        if not found:
            return
        name = found[2]
        is_equation = " : " not in line.split("=")[0] and not found[1]
        if name in self.items:
            self.items[name].text.append(line)
        elif self.current and is_equation:
            self.current.text.append(line)
        else:
            kind = found[1] or "function"
            item = Item(self.name, name, self.path, number, self.comment, [line], kind)
            self.current = self.items[name] = item
            self.comment = []

    def read_constructors(self, item):
        for line in item.text[1:]:
            found = re.match(r"  (?:pub )?(" + NAME + r") :", line)
            if found:
                self.constructors[found[1]] = item


class Sources:
    """All definitions of specs/, and all public types and constants of src/."""

    def __init__(self, top):
        self.top, self.modules, self.types = top, {}, {}
        for crate in sorted((top / "crates").iterdir()):
            specs = crate / "specs"
            for path in sorted(specs.rglob("*.antt")):
                if path.name != "Lib.antt":
                    parts = path.relative_to(specs).with_suffix("").parts
                    name = ".".join([crate.name, "specs", *parts])
                    self.modules[name] = Module(name, path)
            for path in sorted((crate / "src").rglob("*.rt")):
                self.read_types(crate.name, path)

    def read_types(self, crate, path):
        """The types and constants that a file of src/ declares for itself and others."""
        text = path.read_text(encoding="utf-8")
        lines = text.split("\n")
        uses = re.findall(r"^use [\w:]+::(\{[^}]*\}|\w+);", text, re.M)
        brought = frozenset(re.findall(r"\w+", " ".join(uses)))
        for at, line in enumerate(lines):
            found = re.match(r"pub(?:\(crate\))? (?:struct|enum|const) (\w+)", line)
            if found:
                value, valued = model_value(text, found[1])
                shown = [re.sub(r" ?\{.*", "", line), value] if value else declaration(lines, at)
                place = (f"{crate}.src", found[1], path, at + 1, notes_above(lines, at))
                item = Item(*place, folded(shown), "type", brought, valued)
                self.types.setdefault(found[1], []).append(item)

    def type_named(self, crate, name):
        """A type of this crate, else of another one."""
        found = self.types.get(name, [])
        own = [it for it in found if it.module == f"{crate}.src"]
        return (own or found or [None])[0]

    def find(self, module, name):
        """The definition of this name in a module, or the kit's word for it."""
        path = module.removeprefix("Rattle.")
        parts = path.split(".")
        if "declared" in parts:
            kind = {"TheVariants": parts[-2], "TheConstants": name}.get(parts[-1], parts[-1])
            return self.type_named(parts[0], kind) or f"{path}.{name}"
        if path in self.modules:
            at = self.modules[path]
            if name in at.exported:
                return self.find(*at.exported[name])
            return at.items.get(name) or at.constructors.get(name) or f"{path}.{name}"
        if ".".join(parts[:-1]) in self.modules:
            return self.find(".".join(parts[:-1]), parts[-1])
        return f"{path}.{name}"

    def root(self, dotted):
        """The definition of these words: a module and a name."""
        module, _, name = dotted.rpartition(".")
        item = self.find(module, name)
        if not isinstance(item, Item):
            raise Wrong(f"no definition {dotted}")
        return item

    def headlines(self):
        """The records of the commands, by the commands' words."""
        if HEADLINES not in self.modules:
            path = "crates/" + HEADLINES.replace(".", "/") + ".antt"
            raise FileNotFoundError(2, "not there; claim.py needs the repository", path)
        found, begin = {}, "HeadlineOf"
        for module in self.modules.values():
            if module.name == HEADLINES or module.name.startswith(HEADLINES + "."):
                for name in filter(lambda it: it.startswith(begin), module.items):
                    found[name[len(begin) :].lower()] = module.items[name]
        return found

    def saying(self, record):
        """What the tool says of a command: of the record of all commands, the fields that name this
        record."""
        module, name = SAYS
        whole = self.root(f"{module}.{name}")
        fields, word = fields_of(whole).values(), re.compile(rf"\b{record.name}\b")
        said = [line for field in fields if word.search("\n".join(field)) for line in field]
        if not said or self.resolve(whole, record.name) is not record:
            raise Wrong(f"{name} has no field of {record.name}")
        return dataclasses.replace(whole, text=[whole.text[0], *said, OTHER_FIELDS])

    def laws_of(self, item):
        """What the page has instead of the equations of a pinned definition: the lines, what they
        use, and the laws. None of another definition."""
        laws = PINNED.get(item.key)
        if laws is None:
            return None
        record = self.root(laws.record)
        if not concludes(self.top / laws.path, laws.function, record):
            raise Wrong(f"{laws.path}: {laws.function} doesn't conclude {record.name}")
        shown = [line for line in item.text if not two_sides(item, line)[0]]
        found, named = uses(self, dataclasses.replace(item, text=shown)), []
        shown += [line.format(laws, item.name) for line in PINNED_NOTE]
        for name in laws.fields:
            field = fields_of(record).get(name, [])
            said = uses(self, dataclasses.replace(record, text=field))
            about = [it for it in said if isinstance(it, Item) and item in uses(self, it)]
            if not about:
                raise Wrong(f"{laws.record} has no law {name} of {item.name}")
            shown, found, named = shown + field, found + said, named + about
        return shown, [it for it in found if it is not item], named

    def resolve(self, item, token, is_left=False):
        """What a token of a definition means; None if it is a name of the definition's own."""
        if item.kind == "type":
            it = self.type_named(item.module.split(".")[0], token)
            return it if it and (it.path == item.path or token in item.brought) else None
        at = self.modules[item.module]
        first, _, rest = token.partition(".")
        if rest and first in at.aliases:
            return self.find(at.aliases[first], rest.split(".")[0])
        if first in at.constructors:
            return at.constructors[first]
        if first in at.items:
            return None if is_left else at.items[first]
        if first not in at.scope:
            return None
        found = self.find(*at.scope[first])
        is_function = isinstance(found, Item) and found.kind == "function"
        return None if is_left and is_function else found

    def operators(self, item, text):
        """What the operators of a line mean."""
        at = self.modules[item.module]
        places = {name: (item.module, name) for name in at.items} | at.scope
        for name, place in places.items():
            symbol = OPERATOR.fullmatch(name)
            if symbol and f" {symbol[1]} " in f" {text} ":
                yield self.find(*place)


def fields_of(record):
    """The lines of each field of a record, by its name."""
    fields, name = {}, ""
    for line in record.text[1:]:
        found = re.match(r"  (?:pub )?(" + NAME + r") :", line)
        name = found[1] if found else name
        fields.setdefault(name, []).append(line)
    return fields


def concludes(path, function, record):
    """Whether a public function without a premise has a clause that is this record."""
    text = path.read_text(encoding="utf-8")
    contract = rf"^pub fn {function}\(\)\n((?:    ensures .*\n|     .*\n)+)\{{\}}$"
    clauses = re.search(contract, text, re.M)
    wanted = rf"^ +ensures(?: \w+)? \{{ {record.name} \}}$"
    brought = re.findall(rf"^ghost use Rattle\.{record.module}\.\{{(.*)\}};$", text, re.M)
    is_brought = record.name in ", ".join(brought).split(", ")
    return bool(clauses and is_brought and re.search(wanted, clauses[1], re.M))


def notes_above(lines, at):
    first = at
    while first and lines[first - 1].startswith(("///", "#[")):
        first -= 1
    return [line for line in lines[first:at] if line.startswith("///")]


def declaration(lines, at):
    """The lines of the type that begins at this one."""
    if "{" not in lines[at] or lines[at].rstrip().endswith(("}", ";")):
        return [lines[at]]
    last = next(i for i in range(at, len(lines)) if lines[i].startswith("}"))
    return lines[at : last + 1]


def folded(lines):
    """A declaration with each case on one line, if it has room there."""
    result, at = [], 0
    while at < len(lines):
        if lines[at].startswith("    ") and lines[at].endswith("{") and "    }," in lines[at:]:
            last = lines.index("    },", at)
            fields = " ".join(it.strip() for it in lines[at + 1 : last]).rstrip(",")
            line = f"{lines[at]} {fields} }},"
            if len(line) <= 100 and "//" not in line:
                result.append(line)
                at = last + 1
                continue
        result.append(lines[at])
        at += 1
    return result


def joined(lines):
    """A declaration with its short members beside each other, as far as there is room: all on one
    line if they have no comments. A member with a comment has its own line."""
    whole = " ".join(line.strip() for line in lines).replace(", }", " }")
    if lines[-1] == "}" and "//" not in whole and len(whole) <= 100:
        return [whole]
    result, is_open = [], False
    for above, line in zip(["", *lines], lines):
        is_plain = bool(re.fullmatch(r"    [^/{}]+,", line)) and "//" not in above
        if is_open and is_plain and len(both := f"{result[-1]} {line.strip()}") <= 100:
            result[-1] = both
        else:
            result.append(line)
        is_open = is_plain
    return result


def model_value(text, name):
    """What a type is to the definitions, if that isn't the record of its fields; and the modules of
    the names that are brought in for that."""
    model = re.search(rf"^impl(?:<.*?>)? Model for {name}\b.*?^}}", text, re.M | re.S)
    if not model:
        return None, {}
    value = re.search(r"^    ghost Value = .*$", model[0], re.M)
    brought = re.findall(r"^    ghost use (Rattle\..*)\.\{(.*)\};$", model[0], re.M)
    return value[0], {name: module for module, names in brought for name in names.split(", ")}


def bound_names(item):
    """Names that are values inside a definition."""
    text, bound = "\n".join(item.text), set()
    for group in re.findall(r"[({]((?:" + NAME + r" )+):", text):
        bound.update(group.split())
    for group in re.findall(r"λ ((?:" + NAME + r" ?|_ ?|\([^)]*\) ?)+)\.", text):
        bound.update(re.findall(NAME, group))
    bound.update(re.findall(r"let (" + NAME + r")", text))
    if item.kind == "record":
        bound.update(re.findall(r"^  (?:pub )?(" + NAME + r") :", text, re.M))
    bound.update(re.findall(r"[{;] ?(" + NAME + r") =", text))
    bound.update(re.findall(r"^ +(" + NAME + r") = .*;$", text, re.M))
    return bound


def two_sides(item, line):
    """The left side of an equation, and the rest; the left one is empty in other lines."""
    begins = line.startswith((item.name + " ", "◌", "(")) and not line.startswith(item.name + " :")
    parts = re.split(r" =(?: |$)", line, maxsplit=1)
    if item.kind == "function" and begins and len(parts) == 2:
        return parts[0], parts[1]
    return "", line


def used_by_type(sources, item):
    """What a type of src/ uses; the name of a variant is no type of that name."""
    body = "\n".join(re.sub(r"^    \w+(?=,| \{|\()|//.*", "", line) for line in item.text)
    for token in re.findall(NAME, body):
        if token in item.valued:
            yield sources.find(item.valued[token], token)
        else:
            yield sources.resolve(item, token)


def used_by_line(sources, item, line, bound):
    """What one line of a definition uses."""
    left, right = two_sides(item, line)
    patterns = set()
    for token in TOKEN.findall(left):
        it = sources.resolve(item, token, is_left=True)
        if it is None:
            patterns.add(token)
        elif isinstance(it, Item) and token not in bound:
            yield it
    aliases = sources.modules[item.module].aliases
    for token in TOKEN.findall(right):
        first = token.split(".")[0]
        if first not in patterns and (first not in bound or first in aliases):
            yield sources.resolve(item, token)
    yield from sources.operators(item, right)


def uses(sources, item):
    """What a definition uses: definitions, and the words of the kit."""
    if item.kind == "type":
        found = list(used_by_type(sources, item))
    else:
        bound = bound_names(item)
        found = [it for line in item.text for it in used_by_line(sources, item, line, bound)]
    return [it for it in found if it is not None and it is not item]


class Part:
    """The definitions below some roots, in reading order."""

    def __init__(self, sources, roots, stops, known=()):
        self.stopped, self.kit, self.edges = [], collections.Counter(), {}
        #: of pinned definitions: the lines that are shown; of a law: what it is about
        self.pinned, self.about = {}, {}
        found = self.reach(sources, roots, stops, set(known))
        found = in_reading_order(found, self.edges, self.about)
        #: of a definition that is shown in a table: the lines that are shown
        self.rows = {}
        for table in TABLES:
            self.rows |= rows_beside(table, found)
        self.items = [it for it in found if not self.is_builder(it)]

    def reach(self, sources, roots, stops, seen):
        """All definitions below the roots; what is seen or stopped at is left out."""
        order, todo = [], list(roots)
        while todo:
            item = todo.pop(0)
            if item.key in seen:
                continue
            seen.add(item.key)
            if (
                item.name in stops
                or item.key in stops
                or (OTHER_ENDS.fullmatch(item.name) and item not in roots)
            ):
                self.stopped.append(item)
                continue
            order.append(item)
            laws = None if item in roots else sources.laws_of(item)
            if laws:
                self.pinned[item.key], found, named = laws
                self.about.update((law.key, item.key) for law in named)
            else:
                found = uses(sources, item)
            self.kit.update(it for it in found if not isinstance(it, Item))
            self.edges[item.key] = [it for it in found if isinstance(it, Item)]
            todo = self.edges[item.key] + todo
        return order

    def is_builder(self, item):
        """Whether a function is only there for the rows of a table that is shown."""
        if not any(item.name in table.builders for table in TABLES):
            return False
        users = {key for key, used in self.edges.items() if item in used}
        return bool(users) and users <= set(self.rows)

    def shown(self, item):
        """The lines of a definition as the page has them."""
        if item.kind == "type":
            return joined(item.text)
        return self.pinned.get(item.key) or self.rows.get(item.key) or item.text

    def lines_of(self, item):
        """How many lines of a definition the page has, without comments."""
        return sum(not NOTE.match(line) for line in self.shown(item))

    @property
    def lines(self):
        return sum(map(self.lines_of, self.items))

    @property
    def notes(self):
        """How many lines of comments the page has, above definitions and inside them."""
        inside = sum(len(self.shown(it)) for it in self.items) - self.lines
        return sum(len(it.comment) for it in self.items) + inside

    def named(self, item):
        """What the shown lines of a definition name."""
        if item.key not in self.rows:
            return self.edges[item.key]
        tables = [it for it in self.items if it.key in self.rows]
        return tables + [used for it in tables for used in self.edges[it.key]]

    def users(self, item):
        return [it.name for it in self.items if any(used is item for used in self.edges[it.key])]


def is_of_values(item):
    """Says which values there are: a type of src/, or one of specs/ without a parameter."""
    return item.kind == "type" or re.search(rf" {item.name} : Type 0( where)?$", item.text[0])


def in_reading_order(items, edges, about):
    """A definition comes once all that use it have come, if there is such an order; a type of
    values once one has. A law comes after the definition that it is about."""
    among = {it.key for it in items}
    waits = collections.Counter(
        key
        for it in items
        for key in {used.key for used in edges[it.key]}
        if about.get(it.key) != key
    )
    for item in filter(is_of_values, items):
        waits[item.key] = min(waits[item.key], 1)
    ready = [it for it in items if not waits[it.key]] or items[:1]
    done, result = set(), []
    while len(result) < len(items):
        item = ready.pop(0) if ready else next(it for it in items if it.key not in done)
        if item.key in done:
            continue
        done.add(item.key)
        result.append(item)
        follow = []
        for it in dict.fromkeys(edges[item.key]):
            if it.key in among and it.key not in done:
                waits[it.key] -= 1
                if waits[it.key] <= 0:
                    follow.append(it)
        ready = follow + ready
    return result


def rows_beside(table, items):
    """The lines of both definitions of a table, by their keys; none if they don't have the same
    rows, and nothing else."""
    both = [it for name in table.names for it in items if it.name == name]
    rows = []
    for item, line in zip(both, table.lines):
        rows.append([found for found in (re.fullmatch(line, it) for it in item.text) if found])
        plain = {item.text[0], f"{item.name} =", "    []", *(found[0] for found in rows[-1])}
        if not plain.issuperset(item.text):
            return {}
    if len(both) != 2 or [it[1] for it in rows[0]] != [it[1] for it in rows[1]]:
        return {}
    first, second = sorted(both, key=items.index)
    lines = [table.row.format(*pair) for pair in zip(*rows)]
    return {
        first.key: [first.text[0], f"  -- {table.head}:", *lines],
        second.key: [second.text[0], f"  -- in the rows of {first.name}"],
    }


def source_of(item):
    return f"{item.path.relative_to(TOP)}:{item.line}"


def places_of_twice(parts):
    """Of each name that two definitions of a page have: their keys."""
    keys = collections.defaultdict(list)
    for _, part in parts:
        for item in part.items:
            keys[item.name].append(item.key)
    return {name: found for name, found in keys.items() if len(found) > 1}


def heading(item, twice):
    """The name above a definition, with its module if another one has the same name."""
    return f"{item.name}, in {item.module}" if item.name in twice else item.name


def told_apart(part, item, twice):
    """Which definitions are meant by the names in this one that others have as well."""
    used = dict.fromkeys(it.key for it in part.edges[item.key] if it.name in twice)
    return ["here {} is {}".format(key.rsplit(".", 1)[1], key) for key in used]


def not_followed(part, parts):
    """The names that a part stops at: those that another part has, and the others."""
    places = {it.key: number for number, (_, it) in enumerate(parts, 1) for it in it.items}
    for number in [*range(1, len(parts) + 1), None]:
        names = dict.fromkeys(it.name for it in part.stopped if places.get(it.key) == number)
        if names:
            yield f"Followed in part {number}" if number else "Followed on no part", names


def as_markdown(title, parts):
    """The page in Markdown."""
    twice = places_of_twice(parts)
    page = [f"# {title}", "", "| Written | Means |", "|---|---|"]
    page += ["| `{}` | {} |".format(it.replace("|", "\\|"), means) for it, means in NOTATION]
    page.append("")
    for name, part in parts:
        page += [f"## {name}", "", count_of(part) + ".", ""]
        for begin, names in not_followed(part, parts):
            page += [begin + ": " + ", ".join(f"`{it}`" for it in names) + ".", ""]
        for item in part.items:
            users = ", ".join(f"`{it}`" for it in part.users(item)[:4])
            place = source_of(item) + (f", used by {users}" if users else "")
            place = "; ".join([place, *told_apart(part, item, twice)])
            page.append(f"**{heading(item, twice)}** ({place})")
            page += ["", "```", *item.comment, *part.shown(item), "```", ""]
        page += ["Words of the kit: " + ", ".join(f"`{it}`" for it in sorted(part.kit)) + ".", ""]
    return "\n".join(page)


def linked(text, targets):
    """A text of a definition in HTML; the names of other definitions are links."""

    def link(found):
        name = found[0].split(".")[0]
        return f'<a href="#{targets[name]}">{found[0]}</a>' if name in targets else found[0]

    return TOKEN.sub(link, html.escape(text, quote=False))


def as_html(title, parts):
    """The page in HTML, which needs no network."""
    twice = places_of_twice(parts)
    page = [f'<!doctype html><meta charset="utf-8"><title>{html.escape(title)}</title>']
    page.append(f"<style>{STYLE}</style><h1>{html.escape(title)}</h1>")
    page.append("<table><tr><th>Written<th>Means")
    for written, means in NOTATION:
        page.append(f"<tr><td><code>{html.escape(written)}</code><td>{html.escape(means)}")
    page.append("</table>")
    shown = {it.key for _, part in parts for it in part.items}
    for name, part in parts:
        page.append(f"<h2>{html.escape(name)}</h2><p>{count_of(part)}.</p>")
        for begin, names in not_followed(part, parts):
            targets = {it.name: it.key for it in part.stopped if it.key in shown}
            page.append(f"<p>{begin}: {', '.join(linked(it, targets) for it in names)}.</p>")
        for item in part.items:
            targets = {it.name: it.key for it in part.named(item) if it.key in shown}
            note = "".join(html.escape(line, quote=False) + "\n" for line in item.comment)
            body = "\n".join(linked(line, targets) for line in part.shown(item))
            place = "; ".join([source_of(item), *told_apart(part, item, twice)])
            name = heading(item, twice)
            page.append(f'<h4 id="{item.key}">{name} <small>{place}</small></h4>')
            page.append(f'<pre><span class="note">{note}</span>{body}</pre>')
        page.append(f"<p>Words of the kit: {html.escape(', '.join(sorted(part.kit)))}.</p>")
    return "\n".join(page) + "\n"


def count_of(part):
    lines = f"{part.lines} lines, {part.notes} lines of comments"
    return f"{len(part.items)} definitions, {lines}, {len(part.kit)} words of the kit"


def parts_of(sources, roots, stops):
    """The parts of a page: what is claimed, and what was not followed in it."""
    first = Part(sources, roots, stops)
    parts = [("What a Done means", first)]
    later = [it for it in first.stopped if not OTHER_ENDS.fullmatch(it.name)]
    read = [it for it in later if it.name in READ]
    known = [it.key for it in first.items]
    if read:
        second = Part(sources, read, stops - set(READ), known)
        parts.append(("How bytes become an image and a plan", second))
        later = [it for it in [*later, *second.stopped] if it not in read]
        known += [it.key for it in second.items]
    if later:
        parts.append(("When it comes", Part(sources, later, (), known)))
    return parts


def print_counts(parts):
    for name, part in parts:
        print(f"{name.lower()}: {count_of(part)}")
        lines, count = collections.Counter(), collections.Counter()
        for item in part.items:
            crate = item.module.split(".")[0]
            lines[crate] += part.lines_of(item)
            count[crate] += 1
        for crate, number in lines.most_common():
            print(f"  {crate:14} {count[crate]:4} definitions {number:5} lines")


class Words(argparse.ArgumentParser):
    """Words that are wrong end with one line and status 5."""

    def error(self, message):
        print(f"claim.py: {message}", file=sys.stderr)
        sys.exit(5)


def asked(words):
    parser = Words(description=__doc__, formatter_class=argparse.RawDescriptionHelpFormatter)
    add = parser.add_argument
    add("command", nargs="?", help="a command of tcd; `check` if none is given")
    add("--root", action="append", default=[], metavar="NAME", help="a module and a name in it")
    add("--stop", action="append", default=[], metavar="NAME", help="part 1 stops here instead")
    add("--page", metavar="FILE", help="where the page goes: .html, else Markdown")
    return parser.parse_args(words)


def roots_of(sources, wanted):
    """What the page is about, and what it begins with."""
    if wanted.root and wanted.command:
        raise Wrong("a command or --root, not both")
    if wanted.root:
        roots = [sources.root(it) for it in wanted.root]
        return roots, roots
    headlines = sources.headlines()
    command = wanted.command or "check"
    if command not in headlines:
        raise Wrong(f"no headline of {command}; there are {', '.join(sorted(headlines))}")
    return [headlines[command]], [sources.saying(headlines[command])]


def main(words):
    wanted = asked(words)
    try:
        sources = Sources(TOP)
        about, roots = roots_of(sources, wanted)
        parts = parts_of(sources, roots, set(wanted.stop or (() if wanted.root else READ + LATER)))
        if wanted.page:
            title = "What is claimed: " + ", ".join(it.name for it in about)
            make = as_html if wanted.page.endswith(".html") else as_markdown
            pathlib.Path(wanted.page).write_text(make(title, parts), encoding="utf-8")
    except Wrong as wrong:
        print(f"claim.py: {wrong}", file=sys.stderr)
        return 5
    except OSError as fault:
        print(f"claim.py: {fault.filename}: {fault.strerror}", file=sys.stderr)
        return 2
    try:
        print_counts(parts)
        sys.stdout.flush()
    except BrokenPipeError:  # the reader, such as `head`, has seen enough
        os.dup2(os.open(os.devnull, os.O_WRONLY), sys.stdout.fileno())
    return 0


if __name__ == "__main__":
    sys.exit(main(sys.argv[1:]))
