#!/usr/bin/env python3
"""What follows from the rows of the instruction table, written into the files that hold it.

    tools/rows.py            writes each table below from ROWS of crates/tc_isa/src/table.rt
    tools/rows.py --check    says which of them differ, and changes nothing

The tables: the rows as a definition (tc_isa/specs/Rows.antt), the fields that each row names
(tc_isa/src/row_uses.rt), the index by codes (tc_encode/src/index.rt), the operands of each row
(tc_stmt/src/row_wants.rt), the index by names (tc_stmt/src/row_index.rt), the list for engineers
(docs/instructions.md), and the one that the scripts read (tools/tcdlib/formats/instructions.txt). The number of
rows is written to ROW_COUNT (tc_isa/src/table.rt).
What a row does is written by hand, in tc_isa/specs/Meanings.antt and tc_isa/src/row_meanings.rt;
the list has it from there. Nothing here is trusted: the checks of tc_isa, tc_encode and tc_stmt
prove that each table except the list is that of the rows.
"""
import os
import re
import shutil
import subprocess
import sys

CRATES = os.path.join(os.path.dirname(os.path.abspath(__file__)), "..", "crates")

# the fields that a form has (tc_isa/specs/Forms.antt, `field_bounds`)
FORMS = {
    "Rlc": "c s1 k", "Rr": "c s1 s2 n", "Rc": "c s1 k", "Bol": "s1 s2 k", "Bo": "s1 s2 k", "Brr": "s1 s2 k", "Brc": "s1 s2 k",
    "B": "k", "Abs": "s1 k", "Sys": "", "Sr": "s1", "Sc": "k", "Sb": "k", "Sbr": "s2 k", "Src": "s1 k", "Srr": "s1 s2",
    "Slr": "s1 s2", "Ssr": "s1 s2",
}  # fmt: skip

# what an operand's text names, and what the assembler wants at its place
OPERANDS = {
    "Dc": ("c", "Reg(false, Field::C)"), "Ac": ("c", "Reg(true, Field::C)"),
    "Ds1": ("s1", "Reg(false, Field::S1)"), "As1": ("s1", "Reg(true, Field::S1)"),
    "Ds2": ("s2", "Reg(false, Field::S2)"), "As2": ("s2", "Reg(true, Field::S2)"),
    "a10": ("", "A10"), "sk": ("k", "Number(true, Field::K)"), "uk": ("k", "Number(false, Field::K)"),
    "sk4": ("s2", "Number(true, Field::S2)"), "uk4": ("s2", "Number(false, Field::S2)"), "n": ("n", "Number(false, Field::N)"),
    "T": ("k", "Target"), "U": ("k", "Absolute"), "[As2]": ("s2", "Memory(false, false)"),
    "[As2]sk": ("s2 k", "Memory(false, true)"), "[As2+]sk": ("s2 k", "Memory(true, true)"),
}  # fmt: skip


def read(path):
    with open(f"{CRATES}/{path}", encoding="utf-8") as f:
        return f.read()


def rows():
    found = re.findall(
        r'row!\("([^"]*)", "([^"]*)", (\w+), (0x\w+), (0x\w+)\)', read("tc_isa/src/table.rt")
    )
    return [
        (name, operands, form, int(op1, 16), int(op2, 16))
        for name, operands, form, op1, op2 in found
    ]


def operands(row):
    return [t.strip() for t in row[1].split(",")] if row[1] else []


def fields_of(row):
    fields = {f for t in operands(row) for f in OPERANDS[t][0].split()}
    return [f for f in ("c", "s1", "s2", "n", "k") if f in fields]


def listed(all_rows):
    text = lambda t: f'(codes "{t}")' if t else "[]"
    lines = [f"    row {text(n)} {text(o)} {f} 0x{a:02x} 0x{b:02x} ∷" for n, o, f, a, b in all_rows]
    return "table_rows =\n" + "\n".join(lines) + "\n    []\n"


def for_scripts(all_rows):
    """The rows for the scripts, one a line: tools/ needs nothing of crates/ to decode."""
    return "".join(f"{n}|{o}|{f}|{a:02x}|{b:02x}\n" for n, o, f, a, b in all_rows)


def items(name, kind, values, count=None):
    return f"{name}: [{kind}; {count or len(values)}] = [\n    {', '.join(map(str, values))},\n];\n"


def by_rows(name, kind, all_rows, values):
    """A table with an item for each row, and the row's name and operands behind it."""
    lines = [f"    {value}, // {row[0]} {row[1]}".rstrip() for row, value in zip(all_rows, values)]
    return "\n".join([f"{name}: [{kind}; ROW_COUNT] = [", *lines, "];", ""])


def index(all_rows):
    starts, ends, bases, places = [0] * 256, [0] * 256, [0] * 256, []
    for op1 in range(256):
        at = [i for i, r in enumerate(all_rows) if r[3] == op1]
        if not at:
            continue
        starts[op1], ends[op1], bases[op1] = at[0], at[-1] + 1, len(places)
        group = [0] * (max(all_rows[i][4] for i in at) + 1)
        for i in at:
            group[all_rows[i][4]] = i
        places += group
    plain = ["true" if fields_of(r) == FORMS[r[2]].split() else "false" for r in all_rows]
    return {
        "static STARTS": items("static STARTS", "u8", starts),
        "static ENDS": items("static ENDS", "u8", ends),
        "static BASES": items("static BASES", "u16", bases),
        "static PLACES": items("static PLACES", "u8", places, "PLACE_COUNT"),
        "const PLACE_COUNT": f"const PLACE_COUNT: usize = {len(places)};\n",
        "static PLAIN": by_rows("static PLAIN", "bool", all_rows, plain),
    }


def name_key(name):
    """As tc_stmt/specs/RowIndex.antt has it."""
    first, second, third, fourth = (name.encode() + bytes(4))[:4]
    return (first + 2 * second + 9 * third + 7 * fourth + len(name)) % 256


def index_of_names(all_rows):
    count, keys = len(all_rows), [name_key(r[0]) for r in all_rows]
    first = [keys.index(k) if k in keys else count for k in range(256)]
    later = [
        next((j for j in range(i + 1, count) if keys[j] == k), count) for i, k in enumerate(keys)
    ]
    return {
        "static FIRST": items("static FIRST", "u8", first),
        "static NEXT": by_rows("static NEXT", "u8", all_rows, later),
    }


def replace_item(text, name, new):
    """The text with the item of this name written anew."""
    end = (
        r"\n    \[\]\n"
        if name == "table_rows ="
        else r";\n"
        if "COUNT" in name
        else r"\n\];\n"
        if "static" in name
        else r"\Z"
    )
    found = re.search(rf"^{re.escape(name)}.*?{end}", text, flags=re.M | re.S)
    if not found:
        sys.exit(f"no {name}")
    return text[: found.start()] + new + text[found.end() :]


# how many bits the constant of a form has
BITS = {
    "Rlc": 16, "Rc": 9, "Bol": 16, "Bo": 10, "Brr": 15, "Brc": 15, "B": 24, "Abs": 18, "Sc": 8, "Sb": 8,
    "Sbr": 4, "Src": 4,
}  # fmt: skip

# what the operations, comparisons and shapes of tc_isa/src/row_meanings.rt do
RESULTS = {
    "Second": "{1}", "Add": "{0} + {1}", "Sub": "{0} - {1}", "And": "{0} & {1}", "Or": "{0} | {1}",
    "Nand": "~({0} & {1})", "Nor": "~({0} | {1})", "Xor": "{0} ^ {1}", "Xnor": "~({0} ^ {1})",
    "Andn": "{0} & ~{1}", "Orn": "{0} | ~{1}", "Eq": "{0} == {1}", "Ne": "{0} != {1}",
    "Lt": "{0} < {1}", "LtU": "{0} < {1} unsigned", "Ge": "{0} >= {1}", "GeU": "{0} >= {1} unsigned",
    "Sh": "{0} shifted by {1}", "Sha": "{0} shifted by {1}, sign kept",
}  # fmt: skip
SHAPES = {
    "Nothing": "nothing", "Enable": "interrupts on", "Disable": "interrupts off",
    "Svlcx": "save the lower context", "Rslcx": "restore the lower context",
    "Ret": "return: restore the upper context", "Rfe": "return: restore the upper context, IE, CCPN",
}  # fmt: skip


def shown_operands(row):
    """The operands of a row, with the number of bits of each constant."""
    shown = lambda found: found[1][0] + str(BITS[row[2]])
    return re.sub(r"\b(sk|uk|T|U)\b", shown, row[1].replace("k4", "4"))


def access(size, base, by, after, sign=""):
    """What a load or a store accesses, and how its base changes."""
    unit = {1: "byte", 2: "halfword", 4: "word"}[size]
    place = base if after or by == "0" else f"{base} + {by}"
    return f"{sign}{unit} at {place}", f"; {base} += {by}" if after else ""


class Words(dict):
    """The names of tc_isa/src/meaning.rt as texts, for a row with this constant."""

    def __init__(self, constant):
        names = "Signed4 Signed9 Signed10 Signed16 Unsigned Address Code"
        super().__init__(dict.fromkeys(names.split(), constant))
        self.update(true=True, false=False, Zero="0", High=f"{constant} * 65536")
        self.update(SignedS2="s4", UnsignedS2="u4", D15="d15", A10="a10", At=str, Of=str, In=str)
        self.update(By=lambda by: constant, Calls="call {}".format, Jumps="jump to {}".format)
        self.update(
            Computes=lambda op, to, x, y: f"{to} = {RESULTS[op].format(x, y)}",
            Scales="{} = {} + {} * 2^n".format,
            Loads=lambda to, base, by, size, signed, after: " = ".join(
                [to, "".join(access(size, base, by, after, "signed " * signed))]
            ),
            Stores=lambda of, *rest: f" = {of}".join(access(rest[2], *rest[:2], rest[3])),
            Branches=lambda test, x, y, by, lowers: (
                f"jump if {RESULTS[test].format(x, y)}" + f"; {x} -= 1" * lowers
            ),
            Masks=f"save the lower context; CCPN = {constant} modulo 256; interrupts on",
            Traps=f"trap of class 6, d15 = {constant} modulo 256",
            ReadsCore=f"{{}} = core register {constant}".format,
            WritesCore=f"core register {constant} = {{}}".format,
            Always=SHAPES.get,
        )

    def __missing__(self, name):
        return name


def listed_by_name(all_rows):
    """The list of docs/instructions.md: a line for each row, by name."""
    meanings = re.findall(r"^    (\w+.*), // ", read("tc_isa/src/row_meanings.rt"), flags=re.M)
    lines = [f"    {len(all_rows)} encodings of {len({row[0] for row in all_rows})} names"]
    for row, meaning in sorted(zip(all_rows, meanings), key=lambda it: it[0][0]):
        operands = shown_operands(row)
        constant = (re.findall(r"\b[suTU]\d+", operands) or [""])[-1]
        does = eval(re.sub(r"\w+::", "", meaning), {}, Words(constant))
        lines.append(f"    {row[0]:9}  {operands:17}  {does}")
    return "\n".join(lines) + "\n"


def main():
    if sys.argv[1:] not in ([], ["--check"]):
        print(__doc__)
        return 0 if sys.argv[1:] in (["-h"], ["--help"]) else 5
    if not shutil.which("rt"):
        print("rows.py: rt, which formats the tables, isn't on the path", file=sys.stderr)
        return 2
    all_rows = rows()
    uses = ["_".join(f.upper() for f in fields_of(r)) or "NONE" for r in all_rows]
    wants = [
        "&[" + ", ".join(f"Want::{OPERANDS[t][1]}" for t in operands(r)) + "]" for r in all_rows
    ]
    tables = {
        "tc_isa/specs/Rows.antt": {"table_rows =": listed(all_rows)},
        "tc_isa/src/table.rt": {
            "pub const ROW_COUNT": f"pub const ROW_COUNT: usize = {len(all_rows)};\n"
        },
        "tc_isa/src/row_uses.rt": {"static USES": by_rows("static USES", "Uses", all_rows, uses)},
        "tc_encode/src/index.rt": index(all_rows),
        "tc_stmt/src/row_wants.rt": {
            "pub static WANTS": by_rows("pub static WANTS", "&[Want]", all_rows, wants)
        },
        "tc_stmt/src/row_index.rt": index_of_names(all_rows),
        "../tools/tcdlib/formats/instructions.txt": {"": for_scripts(all_rows)},
        "../docs/instructions.md": {
            re.search(r"^    \d+ encodings", read("../docs/instructions.md"), re.M)[
                0
            ]: listed_by_name(all_rows)
        },
    }
    old, touched = {}, set()
    for path, parts in tables.items():
        old[path] = text = read(path)
        for name, new in parts.items():
            text = replace_item(text, name, new) if name else new
        if text != old[path]:
            with open(f"{CRATES}/{path}", "w", encoding="utf-8") as out:
                out.write(text)
            touched.add(path)
    for crate in {p.split("/")[0] for p in touched if p[0] != "."}:
        subprocess.run(
            ["rt", "fmt"], cwd=f"{CRATES}/{crate}", stdout=subprocess.DEVNULL, check=False
        )
    differ = sorted(p for p in touched if read(p) != old[p])
    if "--check" in sys.argv:
        for path in touched:
            with open(f"{CRATES}/{path}", "w", encoding="utf-8") as out:
                out.write(old[path])
    print("\n".join(differ) or f"{len(all_rows)} rows: each table is theirs")
    return 1 if differ and "--check" in sys.argv else 0


if __name__ == "__main__":
    sys.exit(main())
