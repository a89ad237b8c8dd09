"""Second readers of instructions, listings and sources. See tcdlib/formats."""
import pathlib
import re

from tcdlib.formats.binary import FILE_LIMIT, NAME, WORDS, Bad, ObjectFile, number, object_bytes

# Instructions

#: a row in each line: name, operands, form and both codes, between `|`; rows.py writes it
TABLE = pathlib.Path(__file__).resolve().with_name("instructions.txt")

# The places of each form's fields: of a constant the pieces (its bit, the word's bit, how many bits).
K = {
    "Rlc": [(0, 12, 16)], "Rc": [(0, 12, 9)], "Bol": [(6, 28, 4), (10, 22, 6), (0, 16, 6)], "Bo": [(6, 28, 4), (0, 16, 6)],
    "Brr": [(0, 16, 15)], "Brc": [(0, 16, 15)], "B": [(0, 16, 16), (16, 8, 8)],
    "Abs": [(6, 28, 4), (10, 22, 4), (0, 16, 6), (14, 12, 4)], "Sc": [(0, 8, 8)], "Sb": [(0, 8, 8)], "Sbr": [(0, 8, 4)],
    "Src": [(0, 12, 4)],
}  # fmt: skip
OP2 = {"Rr": 20, "Rc": 21, "Bo": 22, "Brr": 31, "Brc": 31, "Abs": 26, "Sys": 22, "Sr": 12}
SHORT = ("Sr", "Sc", "Sb", "Sbr", "Src", "Srr", "Slr", "Ssr")


class Row:
    def __init__(self, name, operands, form, op1, op2):
        self.name, self.form, self.length = name, form, 2 if form in SHORT else 4
        self.code = op1 | (op2 << OP2[form] if form in OP2 else 0)
        self.operands = operands.split(", ") if operands else []
        self.mask = (1 << 8 * self.length) - 1
        for operand in self.operands:
            for pieces in self.fields(operand):
                for _, at, size in pieces:
                    self.mask &= ~(((1 << size) - 1) << at)
        self.width = sum(size for _, _, size in K.get(form, ()))

    def fields(self, operand):
        """The pieces of the fields that an operand names."""
        plain = {"c": [(0, 28, 4)], "s1": [(0, 8, 4)], "s2": [(0, 12, 4)], "n": [(0, 16, 2)]}
        register = re.search("[DA](c|s1|s2)", operand)
        out = [plain[register.group(1)]] if register else []
        if operand in ("sk4", "uk4"):
            out.append(plain["s2"])
        elif operand == "n":
            out.append(plain["n"])
        elif operand in ("T", "U") or operand.endswith("k"):
            out.append(K[self.form])
        return out

    def spelled(self, word):
        if word & self.mask != self.code:
            return False
        return not (self.same_registers() and word >> 8 & 15 == word >> 12 & 15)

    def same_registers(self):
        return self.name in ("ld.a", "st.a") and any("+" in o for o in self.operands)


def taken(word, pieces):
    return sum((word >> at & (1 << size) - 1) << bit for bit, at, size in pieces)


def put(value, pieces):
    return sum((value >> bit & (1 << size) - 1) << at for bit, at, size in pieces)


def signed(value, width):
    return value - (1 << width) if value >> width - 1 else value


def rows():
    found = [line.split("|") for line in TABLE.read_text(encoding="utf-8").splitlines()]
    return [Row(*texts, int(op1, 16), int(op2, 16)) for *texts, op1, op2 in found]


ROWS = rows()
BY_CODE = {}
for each in ROWS:
    BY_CODE.setdefault(each.code & 255, []).append(each)


# Listings


def operand_text(row, operand, word):
    fields = row.fields(operand)
    values = [taken(word, f) for f in fields]
    if operand == "a10":
        return operand
    if operand == "T":
        by = 2 * (values[0] if row.form == "Sbr" else signed(values[0], row.width))
        return f".{by:+d}"
    if operand == "U":
        k = values[0]
        return f"0x{(k >> 14 << 28 | k & 0x3FFF) if row.form == 'Abs' else (k >> 20 << 28 | (k & 0xFFFFF) << 1):08X}"
    if operand.startswith("["):
        offset = str(signed(values[1], row.width)) if operand.endswith("sk") else ""
        return f"[a{values[0]}{'+' if '+' in operand else ''}]{offset}"
    if operand[0] in "DA":
        return f"{operand[0].lower()}{values[0]}"
    width = {"sk4": 4, "uk4": 4, "n": 2}.get(operand, row.width)
    return str(signed(values[0], width) if operand[0] == "s" else values[0])


def listing(segments):
    out = []
    for i, (address, held) in enumerate(sorted(segments)):
        out.append(f".section s{i} # {address:08X}")
        at = 0
        while at < len(held):
            length = 4 if held[at] & 1 else 2
            word = number(held, at, length)
            row = next(
                (
                    r
                    for r in BY_CODE.get(held[at], ())
                    if len(held) - at >= length and r.spelled(word)
                ),
                None,
            )
            if row:
                text = f"{row.name} {', '.join(operand_text(row, o, word) for o in row.operands)}".rstrip()
            else:
                length = min(2, len(held) - at)
                text = (
                    f".half 0x{number(held, at, 2):04X}"
                    if length == 2
                    else f".byte 0x{held[at]:02X}"
                )
            out.append(f"{text} # {address + at:08X} {held[at : at + length].hex().upper()}")
            at += length
    return "".join(line + "\n" for line in out)


# Sources

TOKEN = re.compile(
    rb"(?P<blank>[ \t]+|#.*)|(?P<number>0x[0-9a-fA-F]+|[0-9]+)|(?P<word>[A-Za-z_.$][A-Za-z0-9_.$]*)|(?P<mark>[,:\[\]+-])",
    re.S,
)
DATA = {b".byte": 1, b".half": 2, b".word": 4}
NAMES = {row.name.encode() for row in ROWS}
REGISTER = re.compile(rb"([da])(0|[1-9]|1[0-5])")


def tokens(line):
    """The tokens, and whether all bytes belong to one."""
    at, out = 0, []
    while at < len(line):
        found = TOKEN.match(line, at)
        if not found:
            return out, False
        if found.lastgroup != "blank":
            out.append((found.lastgroup, found.group()))
        at = found.end()
    return out, len(out) <= 64


def form_of(items):
    """What an operand's tokens are: its shape and its parts."""
    shape = "".join({"word": "w", "number": "n"}.get(kind, text.decode()) for kind, text in items)
    parts = [text for _, text in items]
    if re.fullmatch("-?n", shape):
        return "number", signed_number(parts)
    if shape == "w":
        return "word", parts[0]
    if re.fullmatch(r"w[+-]-?n", shape):
        return "sum", symbol(parts)
    if re.fullmatch(r"w:w([+-]-?n)?", shape) and parts[0] in (b"hi", b"lo"):
        return parts[0].decode(), symbol(parts[2:])
    found = re.fullmatch(r"\[w(\+?)\](.*)", shape)
    if found:
        rest = items[4 if found.group(1) else 3 :]
        inner = form_of(rest) if rest else ("number", 0)
        if inner[0] in ("number", "word", "sum", "hi", "lo"):
            return "memory+" if found.group(1) else "memory", (parts[1], inner, bool(rest))
    return None, None


def signed_number(parts):
    value = int(parts[-1], 16) if parts[-1].startswith(b"0x") else long_decimal(parts[-1])
    return -value if len(parts) % 2 == 0 else value


def long_decimal(text):
    text = text.lstrip(b"0") or b"0"
    return int(text) if len(text) < 60 else 10**60 + int(text[-1:]) % 2


def symbol(parts):
    """A name and what is added to it."""
    if len(parts) == 1:
        return parts[0], 0
    value = signed_number(parts[2:])
    return parts[0], -value if parts[1] == b"-" else value


class Wrong(Exception):
    """A rule that a line breaks."""


class Source:
    """Reads a source twice: for the labels, then for all else."""

    def __init__(self, data):
        self.lines = data.split(b"\n")
        self.labels, self.sizes, self.sections = {}, {}, {}
        self.symbols, self.globals, self.relocations = {}, set(), []

    def read(self):
        self.final = False
        for line in self.lines:
            self.line(line)
        self.known, self.final = dict(self.labels), True
        self.labels, self.sections, self.symbols, self.relocations, self.current = (
            {},
            {},
            {},
            [],
            None,
        )
        for n, line in enumerate(self.lines, 1):
            rules = self.line(line)
            if rules:
                raise Bad(f"source {min(rules)} at 0 {n}")
        order = list(self.symbols)
        names = list(self.sections)
        parts = [(name, bytes(held)) for name, held in self.sections.items()]
        symbols = []
        for name in order:
            kind = 0 if name not in self.labels else 2 if name in self.globals else 1
            section, offset = self.labels.get(name, (None, 0))
            symbols.append((name, kind, names.index(section) if kind else 0, offset))
        relocations = sorted(
            (names.index(s), at, kind, order.index(name), added % WORDS)
            for s, at, kind, name, added in self.relocations
        )
        return object_bytes(parts, symbols, relocations)

    current = None

    def line(self, line):
        """The rules that a line breaks; its label, bytes and symbols are kept."""
        items, whole = tokens(line)
        rules = [] if whole else [1]
        if len(items) > 1 and items[0][0] == "word" and items[1][1] == b":":
            rules += self.label(items[0][1])
            items = items[2:]
        if items and items[0][0] != "word":
            rules.append(1)
        elif items and whole:
            try:
                rules += self.statement(items[0][1], items[1:])
            except Wrong as e:
                rules.append(e.args[0])
        if (
            sum(map(len, self.sections.values())) > FILE_LIMIT
            or len(self.symbols) > 65535
            or len(self.relocations) > 65535
        ):
            rules.append(13)
        return rules

    def label(self, name):
        rules = [7] if name in self.labels else []
        if not NAME.fullmatch(name) or name == b".":
            return rules + [9]
        if self.current is None:
            rules.append(8)
        else:
            self.see(name)
        if name not in self.labels:
            self.labels[name] = (
                self.current,
                len(self.sections[self.current]) if self.current is not None else 0,
            )
        return rules

    def see(self, name):
        self.symbols.setdefault(name)

    def operands(self, items):
        out = [[]]
        for item in items:
            if item[1] == b",":
                out.append([])
            else:
                out[-1].append(item)
        return [] if out == [[]] else [form_of(o) if o else (None, None) for o in out]

    def statement(self, word, items):
        operands = self.operands(items)
        if word in (b".section", b".global"):
            if [o[0] for o in operands] != ["word"]:
                raise Wrong(3)
            name = operands[0][1]
            if not NAME.fullmatch(name) or name == b".":
                raise Wrong(9)
            return self.section(name) if word == b".section" else self.global_name(name)
        if word in DATA:
            return self.data(DATA[word], operands)
        if word == b".space":
            return self.space(operands)
        if word not in NAMES:
            raise Wrong(2)
        return self.instruction(word.decode(), operands)

    def section(self, name):
        if name not in self.sections and len(self.sections) == 64:
            raise Wrong(13)
        self.sections.setdefault(name, bytearray())
        self.current = name
        return []

    def global_name(self, name):
        self.see(name)
        self.globals.add(name)
        return [14] if self.final and name not in self.known else []

    def emit(self, held):
        if self.current is None:
            return [8]
        self.sections[self.current] += held
        return []

    def name_rules(self, name, added):
        rules = [9] if not NAME.fullmatch(name) or name == b"." else []
        return rules + ([5] if abs(added) >= WORDS else [])

    def data(self, width, operands):
        rules, out = [] if operands else [3], b""
        for kind, value in operands:
            if kind == "number":
                fits = -(1 << 8 * width - 1) <= value < 1 << 8 * width
                rules += [] if fits else [5]
                out += (value % (1 << 8 * width)).to_bytes(width, "little")
                continue
            out += bytes(width)
            if kind in ("word", "sum"):
                name, added = value if kind == "sum" else (value, 0)
                bad = self.name_rules(name, added) + ([] if width == 4 else [10])
                if not bad and self.current is not None:
                    self.see(name)
                    self.relocations.append(
                        (
                            self.current,
                            len(self.sections[self.current]) + len(out) - 4,
                            7,
                            name,
                            added,
                        )
                    )
                rules += bad
            else:
                rules.append(10 if kind in ("hi", "lo") else 3)
        return rules + self.emit(out)

    def space(self, operands):
        if len(operands) != 1 or operands[0][0] in (None, "memory", "memory+"):
            raise Wrong(3)
        kind, value = operands[0]
        rules = [8] if self.current is None else []
        if kind != "number":
            name = value if kind == "word" else value[0]
            return rules + [10] + self.name_rules(name, 0 if kind == "word" else value[1])
        if value < 0 or value >= 1 << 128:
            return rules + [5]
        if value > FILE_LIMIT:
            return rules + [13]
        return self.emit(bytes(value))

    def instruction(self, name, operands):
        best, length = [], 4
        for row in ROWS:
            if row.name == name:
                length = row.length
                if len(row.operands) == len(operands) and all(
                    map(self.fits, row.operands, operands)
                ):
                    rules, word, waiting = self.encoded(row, operands)
                    if not rules:
                        seen = [self.see(n) for n in waiting[1]]
                        for kind, symbol_name, added in (
                            waiting[0] if self.current is not None else ()
                        ):
                            self.relocations.append(
                                (
                                    self.current,
                                    len(self.sections[self.current]),
                                    kind,
                                    symbol_name,
                                    added,
                                )
                            )
                        return self.emit(word.to_bytes(length, "little"))
                    best.append(min(rules))
        return [min(best) if best else 3] + self.emit(bytes(length))

    def fits(self, operand, given):
        kind, value = given
        if operand[0] in "DA" or operand == "a10":
            return kind == "word"
        if operand.startswith("["):
            return kind == ("memory+" if "+" in operand else "memory") and (
                operand.endswith("k") or not value[2]
            )
        if operand == "T":
            return kind in ("word", "sum", "hi", "lo")
        return kind in ("number", "word", "sum", "hi", "lo")

    def encoded(self, row, operands):
        """The rules broken, the word, and what waits for an address with the names seen."""
        rules, word, waiting, seen = [], row.code, [], []
        for operand, (kind, value) in zip(row.operands, operands):
            fields = row.fields(operand)
            if operand.startswith("["):
                rules += self.register("A", value[0])
                word |= self.register_bits(value[0], fields[0])
                if len(fields) > 1:
                    kind, value = value[1]
                    bad, bits = self.constant(row, operand, kind, value, waiting, seen)
                    rules, word = rules + bad, word | put(bits, fields[1])
            elif operand == "a10":
                rules += [] if value == b"a10" else [4]
            elif operand[0] in "DA":
                rules += self.register(operand[0], value)
                word |= self.register_bits(value, fields[0])
            else:
                bad, bits = self.constant(row, operand, kind, value, waiting, seen)
                rules, word = rules + bad, word | put(bits, fields[0])
        if row.same_registers() and not rules and word >> 8 & 15 == word >> 12 & 15:
            rules.append(12)
        return rules, word, (waiting, seen)

    def register(self, letter, text):
        found = REGISTER.fullmatch(text)
        return [] if found and found.group(1).decode() == letter.lower() else [4]

    def register_bits(self, text, field):
        found = REGISTER.fullmatch(text)
        return put(int(found.group(2)), field) if found else 0

    def constant(self, row, operand, kind, value, waiting, seen):
        """The rules broken by a number, target or symbol, and its bits."""
        if kind == "number":
            return self.plain(row, operand, value)
        name, added = (value, 0) if kind == "word" else value
        if operand == "T" and kind == "sum" and name == b".":
            return self.distance(row, added)
        rules = self.name_rules(name, added)
        relocation = self.waits(row, operand, kind)
        if relocation is None:
            return rules + [10], 0
        if rules:
            return rules, 0
        seen.append(name)
        if relocation:
            waiting.append((relocation, name, added))
            return [], 0
        place = self.current, len(self.sections[self.current]) if self.current is not None else 0
        where = (self.known if self.final else self.labels).get(name)
        if where is None or where[0] != place[0] or place[0] is None:
            return [10] if self.final else [], 0
        return self.distance(row, where[1] + added - place[1])

    def waits(self, row, operand, kind):
        """The relocation of a symbol here; 0 where it is resolved at once, None where none may stand."""
        plain = kind in ("word", "sum")
        if operand == "T" and plain:
            return 0 if row.length == 2 else 1 if row.form == "B" else 3
        if operand == "U" and plain and row.form == "B":
            return 2
        if kind == "hi" and row.name in ("movh", "movh.a", "addih", "addih.a") and operand == "uk":
            return 4
        if kind == "lo" and row.name == "addi" and operand == "sk":
            return 5
        if kind == "lo" and row.form == "Bol" and operand.startswith("["):
            return 6
        return None

    def plain(self, row, operand, value):
        if operand == "U":
            k = (
                value >> 28 << 14 | value & 0x3FFF
                if row.form == "Abs"
                else value >> 28 << 20 | value >> 1 & 0xFFFFF
            )
            free = 0x3FFF if row.form == "Abs" else 0x1FFFFE
            return ([] if 0 <= value < WORDS and value & ~free & 0x0FFFFFFF == 0 else [5]), k
        width = {"sk4": 4, "uk4": 4, "n": 2}.get(operand, row.width)
        low = -(1 << width - 1) if operand[0] == "s" or operand.endswith("sk") else 0
        return ([] if low <= value < low + (1 << width) else [5]), value % (1 << width)

    def distance(self, row, by):
        low = 0 if row.form == "Sbr" else -(1 << row.width)
        far = not low <= by < low + (2 << row.width)
        rules = [11 if row.length == 2 else 5] if far else []
        if abs(by) >= 1 << 128:
            rules.append(5)
        return rules + ([6] if by % 2 else []), by // 2 % (1 << row.width)


def code(lines):
    """The bytes of instructions."""
    sections, _, _ = ObjectFile(Source("\n".join([".section s", *lines]).encode()).read(), 0).read()
    return sections[0][1]
