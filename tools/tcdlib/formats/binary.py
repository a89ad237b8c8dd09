"""Second readers of binary files: executables, certificates, objects. See tcdlib/formats."""
import re

FILE_LIMIT, CERT_LIMIT = 16777216, 1073741824
WORDS = 1 << 32


class Bad(Exception):
    """A refusal: its line without `bad `."""


def number(data, at, size):
    return int.from_bytes(data[at : at + size], "little")


def le(value, size=4):
    """A number as bytes."""
    return value.to_bytes(size, "little")


def le32(*values):
    """Numbers of four bytes each."""
    return b"".join(map(le, values))


# Executables


def elf(data):
    """The entry and the segments (address, bytes) of an executable."""
    if len(data) < 52:
        raise Bad("elf 1")
    if data[:6] != b"\x7fELF\x01\x01":
        raise Bad("elf 2")
    if number(data, 18, 2) != 44:
        raise Bad("elf 3")
    if number(data, 16, 2) != 2:
        raise Bad("elf 4")
    headers, size, count = number(data, 28, 4), number(data, 42, 2), number(data, 44, 2)
    if count and size != 32:
        raise Bad("elf 5 at 0")
    loads = []
    for i in range(count):
        at = headers + 32 * i
        if at + 32 > len(data):
            raise Bad(f"elf 5 at {i}")
        kind, offset, _, address, filled, whole = (number(data, at + 4 * f, 4) for f in range(6))
        if kind != 1:
            continue
        if offset + filled > len(data) or address + filled > WORDS or filled > whole:
            raise Bad(f"elf 5 at {i}")
        if filled:
            loads.append((i, address, offset, filled))
    if len(loads) > 64 or sum(load[3] for load in loads) > FILE_LIMIT:
        raise Bad("elf 6")
    for n, (i, a, _, length) in enumerate(loads):
        for j, b, _, other in loads[n + 1 :]:
            if a < b + other and b < a + length:
                raise Bad(f"elf 7 at {i} {j}")
    return number(data, 24, 4), [
        (address, data[offset : offset + filled]) for _, address, offset, filled in loads
    ]


def elf_bytes(entry, segments):
    """The executable that tcd writes."""
    out = (
        b"\x7fELF\x01\x01\x01"
        + bytes(9)
        + le(2, 2)
        + le(44, 2)
        + le(1, 4)
        + le(entry, 4)
        + le(52, 4)
        + bytes(8)
    )
    out += le(52, 2) + le(32, 2) + le(len(segments), 2) + bytes(6)
    at = 52 + 32 * len(segments)
    for address, held in segments:
        out += le32(1, at, address, address, len(held), len(held), 5, 1)
        at += len(held)
    return out + b"".join(held for _, held in segments)


# Certificates and objects: fields from left to right


class Fields:
    def __init__(self, what, data):
        self.what, self.data, self.at = what, data, 0

    def bad(self, kind, at):
        raise Bad(f"{self.what} {kind} at {self.front()}{at}")

    def front(self):
        return ""

    def take(self, size):
        """The number in the next bytes, and where it begins."""
        if len(self.data) - self.at < size:
            self.bad(1, self.at)
        self.at += size
        return number(self.data, self.at - size, size), self.at - size

    def at_most(self, size, most, kind):
        value, at = self.take(size)
        if value > most:
            self.bad(kind, at)
        return value

    def end(self):
        if self.at != len(self.data):
            self.bad(6, self.at)


class Certificate(Fields):
    def __init__(self, data):
        super().__init__("cert", data)

    def read(self):
        magic, _ = self.take(4)
        if magic != int.from_bytes(b"TCDC", "little"):
            self.bad(2, 0)
        self.version, at = self.take(2)
        if self.version not in (1, 2):
            self.bad(2, at)
        self.most, self.locals = (64, 4) if self.version == 1 else (128, 8)
        count, self.points, keys = self.at_most(2, 2048, 5), 0, []
        nodes = [self.node(keys) for _ in range(count)]
        self.end()
        return self.version, nodes

    def node(self, keys):
        kind, place = self.take(1)
        if kind > 4:
            self.bad(4, place)
        entry, prio = self.take(4)[0], self.take(1)[0]
        stack, at = self.take(1)
        keys.append((kind, entry, prio, stack))
        if keys[-2:-1] and keys[-2] >= keys[-1]:
            self.bad(3, place)
        if stack > 1:
            self.bad(4, at)
        need = self.at_most(2, 4096, 5)
        given, at = self.take(1)
        if given > 1 or given and kind not in (1, 3):
            self.bad(4, at)
        leaving = (
            (self.at_most(1, 1, 4), self.take(1)[0], [self.value() for _ in range(14)])
            if given
            else None
        )
        count, at = self.take(4)
        self.points += count
        if self.points > 65536:
            self.bad(5, at)
        points = []
        for _ in range(count):
            points.append(self.point(points))
        return keys[-1], need, leaving, points

    def point(self, points):
        address, at = self.take(4)
        if points and points[-1][0] >= address:
            self.bad(3, at)
        ie, ccpn, lower = self.at_most(1, 1, 4), self.take(1)[0], self.at_most(1, 1, 4)
        flags = [self.at_most(1, 1, 4) for _ in range(self.at_most(1, self.locals, 5))]
        return address, ie, ccpn, lower, flags, [self.value() for _ in range(27)]

    def value(self):
        kind, place = self.take(1)
        if kind == 0:
            return "any"
        if kind <= self.most:
            words = []
            for _ in range(kind):
                word, at = self.take(4)
                if words and words[-1] >= word:
                    self.bad(4, at)
                words.append(word)
            return words
        if not 0xF0 <= kind <= 0xF2:
            self.bad(4, place)
        first, last, step = self.take(4)[0], self.take(4)[0], 1 << (kind - 0xF0)
        members = last // step - (first + step - 1) // step + 1
        if last < first or members <= self.most or (step, first, last) == (1, 0, WORDS - 1):
            self.bad(4, place)
        return step, first, last


NAME = re.compile(rb"[A-Za-z_.$][A-Za-z0-9_.$]{0,63}")


class ObjectFile(Fields):
    def __init__(self, data, file):
        super().__init__("object", data)
        self.file = file

    def front(self):
        return f"{self.file} "

    def read(self):
        if self.take(4)[0] != int.from_bytes(b"TCO1", "little"):
            self.bad(2, 0)
        sections, symbols, relocations = self.at_most(2, 64, 5), self.take(2)[0], self.take(2)[0]
        names, self.sections, self.symbols, self.relocations = set(), [], [], []
        for _ in range(sections):
            name = self.name(names)
            length, _ = self.take(4)
            if len(self.data) - self.at < length:
                self.bad(1, self.at)
            self.sections.append((name, self.data[self.at : self.at + length]))
            self.at += length
        names = set()
        for _ in range(symbols):
            self.symbols.append(self.symbol(names))
        for _ in range(relocations):
            self.relocations.append(self.relocation(symbols))
        self.end()
        return self.sections, self.symbols, self.relocations

    def name(self, names):
        length, at = self.take(1)
        if not 1 <= length <= 64:
            self.bad(4, at)
        _, at = self.take(length)
        name = self.data[at : at + length]
        if not NAME.fullmatch(name) or name in names:
            self.bad(4, at)
        names.add(name)
        return name

    def symbol(self, names):
        name, kind = self.name(names), self.at_most(1, 2, 4)
        section, at = self.take(2)
        if section >= len(self.sections) if kind else section:
            self.bad(4, at)
        offset, at = self.take(4)
        if offset > len(self.sections[section][1]) if kind else offset:
            self.bad(4, at)
        return name, kind, section, offset

    def relocation(self, symbols):
        section, place = self.take(2)
        last = self.relocations[-1][:2] if self.relocations else (-1, 0)
        if section < last[0]:
            self.bad(3, place)
        if section >= len(self.sections):
            self.bad(4, place)
        offset, at = self.take(4)
        if (section, offset) <= last:
            self.bad(3, place)
        if offset + 4 > len(self.sections[section][1]):
            self.bad(4, at)
        kind, at = self.take(1)
        if not 1 <= kind <= 7:
            self.bad(4, at)
        symbol, at = self.take(2)
        if symbol >= symbols:
            self.bad(4, at)
        return section, offset, kind, symbol, self.take(4)[0]


def object_bytes(sections, symbols, relocations):
    """The object of these parts."""
    out = [b"TCO1", le(len(sections), 2), le(len(symbols), 2), le(len(relocations), 2)]
    for name, held in sections:
        out += [le(len(name), 1), name, le(len(held)), held]
    for name, kind, section, offset in symbols:
        out += [le(len(name), 1), name, le(kind, 1), le(section, 2), le(offset)]
    for section, offset, kind, symbol, addend in relocations:
        out += [le(section, 2), le(offset), le(kind, 1), le(symbol, 2), le(addend)]
    return b"".join(out)
