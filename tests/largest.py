"""Firmwares at every limit of tcd at once, and what its commands have to print of them.

Used by try_largest.py. What is expected is worked out here from docs/formats.md and docs/rules.md,
not from what tcd prints: each instruction has four bytes, functions follow one another, and the
areas are summed along one call chain.
"""
import functools
import json

import scratch  # so that tools/ is on the path
from tcdlib import formats as readers
from hostile.answers import key_text

NODES, POINTS, AREAS, FILE, SEGMENTS = 2048, 65536, 4096, readers.FILE_LIMIT, 64
CERTIFIED = AREAS - 1  # the reserve is one area
#: by format of certificates: the words of a set, and the lower contexts that a frame holds
WORDS, SAVED = {1: 64, 2: 128}, {1: 4, 2: 8}
#: the functions begin this far after the entry, and the next task this far
AFTER, NEXT_TASK = 0x4000, 0x50000
CODE, SWITCH, BIV, BTV, BOOT, TABLE = (
    0x80000000, 0x80310000, 0x80320000, 0x80330000, 0x80338000, 0x8F000000
)  # fmt: skip
CSA, RAM, BLOCK, CELL, INDEX = 0xD0000000, 0xD0100000, 0xD0100800, 0xD0101000, 0xF0000000
PRIOS = range(7, 256, 8)
TRAPS = {"sys": BTV | 0xC0, "aln": BTV | 0x40}
#: the RAM as one range
WHOLE = [{"at": RAM, "len": 1 << 22}]


@functools.lru_cache(maxsize=None)
def code(line):
    """The bytes of an instruction that names no label."""
    return readers.code([line])


class Frame:
    """A frame's key and need, and its points: the lines, the bytes, the ways out of each."""

    def __init__(self, name, kind, entry, need, prio=0):
        self.name, self.entry, self.need = name, entry, need
        self.key = kind, entry, prio, int(kind > 1)
        self.lines, self.held, self.ways = [], [], []

    @property
    def title(self):
        return key_text(self.key)

    @property
    def at(self):
        """The address of the next instruction."""
        return self.entry + 4 * len(self.lines)

    @property
    def section(self):
        return "code" if self.key[0] == 1 else self.name

    def source(self):
        head = [f".section {self.section}", f".global {self.name}", f"{self.name}:"]
        return "\n".join(head + self.lines).encode()

    def add(self, line, *ways, held=None):
        """An instruction; without ways it goes on to the next one."""
        self.ways.append(ways or (("to", self.at + 4),))
        self.lines.append(line)
        self.held.append(held or code(line))

    def repeat(self, line, count):
        for _ in range(count):
            self.add(line)

    def goes(self, word, frame, *ways):
        """`call` or `j` of a frame's entry."""
        by = (frame.entry - self.at) // 2
        held = bytes([0x6D if word == "call" else 0x1D, by >> 16 & 255])
        self.add(f"{word} {frame.name}", *ways, held=held + (by & 0xFFFF).to_bytes(2, "little"))

    def call(self, frame):
        self.goes("call", frame, ("call", frame.entry), ("back", self.at + 4))

    def address(self, register, to):
        """Puts an address into a register."""
        self.add(f"movh.a {register}, {readers.high(to)}")
        self.add(f"lea.l {register}, [{register}]{readers.low(to)}")

    def graph(self):
        """The lines of `cfg`."""
        for place, ways in enumerate(self.ways):
            for way, *to in ways:
                to = "".join(map(" {:08X}".format, to))
                yield f"{self.title}: {self.entry + 4 * place:08X} {way}{to}\n"


def nested():
    """The lines of turns in which each interrupt comes in the handler of the one before."""
    return ["step 1", *(line for prio in PRIOS for line in (f"irq {prio}", "step 1"))]


def handlers():
    """32 handlers, each of which allows the later ones."""
    for place, prio in enumerate(PRIOS):
        handler = Frame(f"v{prio}", 2, BIV | prio << 5, 2 * (len(PRIOS) - place) - 1, prio)
        later = [("irq", BIV | other << 5) for other in PRIOS if other > prio]
        handler.add(f"bisr {prio}")
        handler.add("rslcx", ("to", handler.at + 4), *later)
        handler.add("rfe", *later, ("rfe",))
        yield handler


def trap(name):
    frame = Frame(name, {"sys": 3, "aln": 4}[name], TRAPS[name], 0)
    frame.add("rfe", ("rfe",))
    return frame


class Firmware:
    """A start that calls leaves and then a chain of functions, which fills the areas and points."""

    def __init__(self, entry, leaves, saved, certified=CERTIFIED):
        first = entry + AFTER
        self.main, self.saved = Frame("main", 0, entry, certified), saved
        self.leaves = [Frame(f"l{n}", 1, first + 4 * n, 0) for n in range(leaves)]
        for leaf in self.leaves:
            leaf.add("ret", ("ret",))
        self.chain, self.others = [Frame("c0", 1, first + 4 * leaves, 0)], []

    def frames(self):
        """All frames in the order of their keys."""
        return sorted([self.main, *self.leaves, *self.chain, *self.others], key=lambda f: f.key)

    def finish(self, count, points=POINTS):
        """Calls the chain of so many functions, and fills it up to so many points."""
        main, need = self.main, self.main.need - self.saved - 1
        main.repeat("svlcx", self.saved)
        main.call(self.chain[0])
        main.repeat("rslcx", self.saved)
        main.goes("j", main, ("to", main.entry))
        points -= sum(len(frame.lines) for frame in [main, *self.leaves, *self.others])
        saved = need - (count - 1)  # lower contexts of all functions together
        for n in range(count):
            frame = self.chain[n]
            held, frame.need = saved // count + (n < saved % count), need
            length = points // count + (n < points % count)
            frame.repeat("nop", length - 2 * held - 1 - (n < count - 1))
            frame.repeat("svlcx", held)
            if n < count - 1:
                self.chain.append(Frame(f"c{n + 1}", 1, frame.entry + 4 * length, 0))
                frame.call(self.chain[-1])
            frame.repeat("rslcx", held)
            frame.add("ret", ("ret",))
            need -= held + 1
        return self

    def segments(self):
        """The code, by the sections of the sources."""
        parts = {}
        for frame in (self.main, *self.leaves, *self.chain, *self.others):
            parts.setdefault(frame.section, (frame.entry, []))[1].extend(frame.held)
        found = {name: (at, b"".join(held)) for name, (at, held) in parts.items()}
        words = readers.le32(*(leaf.entry for leaf in self.leaves))
        return {**found, "table": (TABLE, words)} if self.others else found

    def sources(self):
        """A source for each frame, and one for the table."""
        frames = (self.main, *self.leaves, *self.chain, *self.others)
        table = "\n".join([".section table", *(f".word {leaf.name}" for leaf in self.leaves)])
        return [frame.source() for frame in frames] + [table.encode()]

    def report(self):
        """What `report` prints."""
        calls = [{"longest": len(self.chain), "prio": 0}]
        calls += [{"longest": 0, "prio": prio} for prio in PRIOS]
        nodes = [
            {"key": frame.title, "need": frame.need, "points": len(frame.lines)}
            for frame in self.frames()
        ]
        whole = {"areas": AREAS, "calls": calls, "certified": self.main.need, "nodes": nodes}
        return json.dumps({**whole, "reserve": 1}, separators=(",", ":"))

    def graph(self):
        """What `cfg` prints."""
        return "".join(line for frame in self.frames() for line in frame.graph())

    def last_save(self):
        """After how many events of a run the chain has saved its last context, and where."""
        upto = lambda frame: frame.lines.index("rslcx")  # the main's last one is before its `j`
        events = sum(map(upto, [self.main, *self.chain])) + 2  # and a leaf, and the trap's handler
        return events, self.chain[-1].entry + 4 * (upto(self.chain[-1]) - 1)


def firmware(form, index=INDEX, nodes=NODES, points=POINTS):
    """The largest firmware of a format: a table of functions, 32 interrupts, both traps."""
    made = Firmware(CODE, WORDS[form], SAVED[form])
    made.others = [*handlers(), trap("sys"), trap("aln")]
    main = made.main
    main.add("enable")
    main.add("disable", ("to", main.at + 4), *(("irq", BIV | prio << 5) for prio in PRIOS))
    main.address("a15", index)
    main.add("ld.w.l d15, [a15]0")
    main.add("st.w.l [a15]0, d15")
    main.address("a14", TABLE)
    main.add("addsc.a a14, a14, d15, 2")
    main.add("ld.a.l a14, [a14]0")
    main.add("calli a14", *(("call", leaf.entry) for leaf in made.leaves), ("back", main.at + 4))
    main.add("syscall 1", ("back", main.at + 4), ("sys", TRAPS["sys"]))
    main.address("a15", RAM)
    main.add("ld.w.l d0, [a15]2", ("to", main.at + 4), ("aln", TRAPS["aln"]))
    for n in range(15):  # every point of the chain holds the words of the index in 26 registers
        main.add(f"mov d{n}, d15")
    for n in (*range(2, 8), *range(12, 16)):
        main.add(f"mov.a a{n}, d15")
    return made.finish(nodes - 1 - WORDS[form] - len(made.others), points)


def task(number, tasks):
    """The largest task: all of them together take all areas."""
    need, saved = CERTIFIED // tasks + (CERTIFIED % tasks if number == 0 else 0), SAVED[2]
    count = need - saved  # a chain that saves no lower contexts
    made = Firmware(CODE + NEXT_TASK * number, NODES - 2 - count, saved, need)
    routine = Frame("switch", 1, SWITCH, 1)
    made.main.call(routine)
    for leaf in made.leaves:
        made.main.call(leaf)
    return made.finish(count, POINTS - len(readers.routine_lines(tasks, BLOCK)))


# Files


def elf(entry, segments):
    """An executable of 64 segments and 16,777,216 bytes, its program headers last."""
    few = SEGMENTS - len(segments) - 1
    segments = segments + [(0x90000000 + 64 * n, b"\x90\0\0") for n in range(few)]
    rest = FILE - 52 - 32 * SEGMENTS - sum(len(held) for _, held in segments)
    segments.append((0xA0000000, bytes(rest)))
    head = bytearray(readers.elf_bytes(entry, [])[:52])
    head[28:32], head[44:46] = readers.le32(FILE - 32 * SEGMENTS), readers.le(SEGMENTS, 2)
    headers, at = [], 52
    for address, held in segments:
        headers.append(readers.le32(1, at, 0, address, len(held), len(held), 5, 1))
        at += len(held)
    return bytes(head) + b"".join(held for _, held in segments) + b"".join(headers)


def ranges(first, each, last):
    """16 ranges, of which 14 are equally long."""
    at = [first[0] + 0x1000000 + 0x100000 * n for n in range(14)]
    places = [first, *((begin, each) for begin in at), last]
    return [{"at": begin, "len": length} for begin, length in places]


def plan(core, width=1, ram=None, devices=16):
    """A plan at its limits: 16 ranges of each kind, 4 MB of ROM and of RAM, 32 interrupts."""
    rows = [{"at": INDEX, "len": 4, "lo": 0, "hi": width - 1}]
    rows += [{"at": INDEX + 0x1000 * n, "len": 0x1000, "lo": 0, "hi": 1} for n in range(1, devices)]
    return {
        "rom": ranges((CODE, 0x340000), 0xC000, (TABLE, 0x18000)),
        "ram": ram or ranges((RAM, 0x100000), 0x30000, (0xD2000000, 0x60000)),
        "devices": rows,
        "csa": {"at": CSA, "areas": AREAS, "reserve": 1},
        "sp": 0xD0200000, "isp": 0xD0180000, "biv": BIV, "btv": BTV,
        "irqs": list(PRIOS), "traps": ["sys", "aln"],
        "start": {"ie": 0, "ccpn": 0, "is": 0},
        "globals": dict.fromkeys(("a0", "a1", "a8", "a9"), 0),
        "core": core,
    }  # fmt: skip


def filled(text, last, blank="\n"):
    """A text of 16,777,216 bytes, with what is last at its end."""
    return (text + blank * (FILE - len(text) - len(last)) + last).encode()
