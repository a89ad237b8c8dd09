"""Reads cases.txt and values.txt: texts of firmware, plan and certificate as the files of a case.

The head of each text says how it is written. What it leaves out is as in PLAN, or any value.
"""
import dataclasses
import json
import pathlib
import re

from hostile.inputs import cert_bytes
from tcdlib import formats as readers

HERE = pathlib.Path(__file__).resolve().parent
KINDS = ("start", "call", "irq", "sys", "aln")
NAMES = [f"d{n}" for n in range(16)] + [f"a{n}" for n in (2, 3, 4, 5, 6, 7, 10, 12, 13, 14, 15)]
LOWER = [f"d{n}" for n in range(8)] + [f"a{n}" for n in range(2, 8)]
FRAME = " in start 80000000 prio 0 is 0"
#: ranges that touch each other, peripherals beside ram and at the end of memory
PLAN = {
    "rom": [{"at": "0x80000000", "len": "0x800"}, {"at": "0x80000800", "len": "0x800"}],
    "ram": [
        {"at": "0xD0008000", "len": "0x800"},
        {"at": "0xD0008800", "len": "0x800"},
        {"at": 0, "len": 16},
    ],
    "devices": [
        {"at": "0xD0009000", "len": 16, "lo": 5, "hi": 9},
        {"at": "0xF0000000", "len": 4, "lo": 0, "hi": 15},
        {"at": "0xF0000010", "len": 512, "lo": 3, "hi": 4095},
        {"at": "0xFFFFFFF0", "len": 16, "lo": 0, "hi": "0xFFFFFFFF"},
    ],
    "csa": {"at": "0xD0000000", "areas": 8, "reserve": 2},
    "sp": "0xD0008F00",
    "isp": "0xD0008C00",
    "biv": "0x80000400",
    "btv": "0x80000200",
    "irqs": [10, 20, 30],
    "traps": ["sys", "aln"],
    "start": {"ie": 0, "ccpn": 0, "is": 0},
    "globals": {"a0": "0xD0008000", "a1": "0xD0008104", "a8": "0xD0008208", "a9": "0x8000030C"},
}
#: A10 by the `is` of a frame, unless a point says otherwise
STACKS = ([0xD0008F00], [0xD0008C00])
#: the thresholds of PLAN that aren't powers of two
THRESHOLDS = [0x80000800, 0x80001000, 0xD0000000, 0xD0000200, 0xD0008000, 0xD0008800, 0xD0009000]
THRESHOLDS += [0xD0009010, 0xF0000000, 0xF0000004, 0xF0000010, 0xF0000210, 0xFFFFFFF0]
THRESHOLDS = sorted([0, *(1 << n for n in range(33)), *THRESHOLDS])


@dataclasses.dataclass
class Case:
    """A case: the command with its words, the files by their names, and the line that is right."""

    title: str
    words: list
    files: dict
    line: str


def value(text):
    """A value: `any`, `1,2-5,8-10/4` of hexadecimal words, or `0..FF/2`, a span."""
    if text == "any":
        return text
    body, _, step = text.partition("/")
    if ".." in body:
        first, last = (int(end, 16) for end in body.split(".."))
        return int(step or 1), first, last
    words = set()
    for part in text.split(","):
        part, _, step = part.partition("/")
        ends = [int(end, 16) for end in part.split("-")]
        words.update(range(ends[0], ends[-1] + 1, int(step or 1)))
    return sorted(words)


def registers(words, default):
    """What a point or an exit says: its flags, and the values of registers by their names."""
    flags = {"ie": 0, "ccpn": 0, "lower": 0, "saved": ""}
    values = dict(default)
    for word in words:
        name, _, text = word.partition("=")
        if name in flags:
            flags[name] = text if name == "saved" else int(text or 1)
        else:
            values[name] = value(text)
    return flags, values


def routine():
    """The points of the switch routine at 80000020 with its block at D0008100: the address, and
    what is known there."""
    known = {3: ["a2=D0010000"], 4: ["a2=D0008100"], 5: ["a2=D0008100"]}
    known |= {n: ["a2=D0008100", "a3=0..FFFFFFFF/4"] for n in range(6, 17)}
    for n in range(18):
        yield f"{0x80000020 + 4 * n:08X}", known.get(n, []) + ["saved=0"] * (2 <= n <= 16)


class Node:
    """A node that is read line by line."""

    def __init__(self, line):
        kind, entry, prio, stack, _, need = line.split(" ")
        self.key = KINDS.index(kind), int(entry, 16), int(prio), int(stack)
        self.need, self.leaving, self.points = int(need), None, []

    def add(self, line):
        first, *words = line.split()
        if first == "exit":
            flags, values = registers(words, {})
            known = [values.get(name, "any") for name in LOWER]
            self.leaving = flags["ie"], flags["ccpn"], known
            return
        if first == "routine":
            known = [word for word in words if "=" in word]
            places = [*routine(), *((word, []) for word in words if "=" not in word)]
            self.points += sorted(self.point(at, known + more) for at, more in places)
        else:
            self.points.append(self.point(first, words))

    def point(self, at, words):
        """A point at an address."""
        flags, values = registers(words, {"a10": STACKS[self.key[3]]})
        saved = [int(flag) for flag in flags["saved"]]
        known = [values.get(name, "any") for name in NAMES]
        return int(at, 16), flags["ie"], flags["ccpn"], flags["lower"], saved, known

    def fields(self):
        """The node as cert_bytes takes it."""
        return self.key, self.need, self.leaving, self.points


class Body:
    """The firmware, the plan and the certificates of a case that are read line by line."""

    def __init__(self):
        self.plan, self.segments, self.entry = json.loads(json.dumps(PLAN)), [], 0x80000000
        self.certs, self.version, self.boot = [[]], 1, None
        self.cells, self.tasks = [], []

    def add(self, line):
        word, _, rest = line.partition(" ")
        if line.startswith(" "):
            self.certs[-1][-1].add(line)
        elif word in KINDS:
            self.certs[-1].append(Node(line))
        elif word == "at":
            at, _, text = rest.partition(": ")
            self.segments.append((int(at, 16), self.held(text)))
        elif word == "plan":
            key, _, text = rest.partition(" ")
            self.plan[key] = json.loads(text)
        elif word == "format":
            self.version = int(rest)
        elif word == "entry":
            self.entry = int(rest, 16)
        elif word == "boot":
            self.boot = rest
        elif word == "cert":
            self.certs.append([])
        else:
            {"cell": self.cells, "switch": self.tasks, "task": self.tasks}[word].append(line)

    @staticmethod
    def held(text):
        """The bytes of instructions, of `bytes 00 01 ..`, of the routine for tasks, or zeros."""
        if text.startswith("bytes "):
            return bytes.fromhex(text[6:])
        if text.startswith("zeros "):
            return bytes(int(text[6:]))
        if text.startswith("routine "):
            _, count, block = text.split(" ")
            return readers.code(readers.routine_lines(int(count), int(block, 16)))
        return readers.code(text.split("; "))

    def case(self, title, line):
        """The case with this line."""
        plan = json.dumps(self.plan).encode()
        segments = [*self.segments]
        if self.boot:
            at, _, entry = self.boot.partition(" ")
            code = readers.boot_code(readers.plan(plan), int(entry or f"{self.entry:X}", 16))
            segments.append((int(at, 16), code))
        files = {"elf": readers.elf_bytes(self.entry, segments), "plan": plan}
        names = [f"cert{n}" for n in range(len(self.certs))]
        for name, nodes in zip(names, self.certs):
            files[name] = cert_bytes(self.version, [node.fields() for node in nodes])
        words = ["check", "elf", "plan", *names]
        if self.boot:
            words = ["boot", "elf", "plan", *names, self.boot[:8]]
        for command, lines in (("cells", self.cells), ("tasks", self.tasks)):
            if lines:
                files["more"] = "".join(f"{each}\n" for each in lines).encode()
                words = [command, "elf", "plan", "more", *names]
        return Case(title, words, files, line)


def full(line):
    """A line as it is printed: `K4 at 80000000` is one of the start."""
    if re.match(r"K\d+ at ", line):
        task = re.search(r" of task \d$", line)
        line = line[: task.start()] if task else line
        line = f"refused {line}{'' if ' in ' in line else FRAME}{task[0] if task else ''}"
    return line


def made(title, lines, line):
    """The case of these lines of text."""
    body = Body()
    for each in filter(None, lines):
        body.add(each)
    return body.case(title, full(line))


def changed(lines, change):
    """The lines after `OLD => NEW`; of more than one change, ` && ` is between them."""
    text = "\n".join(lines)
    for part in change.split(" && "):
        old, new = part.replace("\\n", "\n").split(" => ")
        if text.count(old) != 1:
            raise ValueError(f"not once there: {old}")
        text = text.replace(old, new)
    return text.split("\n")


def rule_cases():
    """The cases of cases.txt."""
    title, lines = "", []
    for number, line in enumerate((HERE / "cases.txt").read_text().split("\n"), 1):
        if not line.strip() or line.startswith("#"):
            continue
        if line.startswith("case "):
            title, lines = line[5:], []
        elif line.startswith("says "):
            yield made(title, lines, line[5:])
        elif line.startswith("but "):
            change, _, wanted = line[4:].rpartition(" says ")
            yield made(f"{title}, line {number}", changed(lines, change), wanted)
        else:
            lines.append(line)


# Values


def below(one):
    """Values that lack a word of a value, and are as near to it as may be."""
    if one == "any":
        return [(1, 0, 0x7FFFFFFF), (1, 1, 0xFFFFFFFF), (2, 0, 0xFFFFFFFF)]
    if isinstance(one, list):
        found = [one[:place] + one[place + 1 :] for place in {0, len(one) // 2, len(one) - 1}]
        return found if len(one) > 1 else [[one[0] ^ 1]]
    step, first, last = one
    after = next(end for end in THRESHOLDS if end > first)
    before = max(end for end in THRESHOLDS if end <= last)
    found = [(step, after, last), (step, first, before - 1)] + [(2 * step, first, last)] * (
        step < 4
    )
    return [short(each) for each in found if each[1] <= each[2]]


def short(span):
    """A span, or the set of its words if a set can hold them."""
    step, first, last = span
    words = range(-(-first // step) * step, last + 1, step)
    return list(words) if len(words) <= 64 else span


#: where the instruction is, and where it jumps to
AT, JUMP = 0x80000010, 0x80000018
#: words in rom, the second one without its last bytes; one in ram; one at A9
DATA = [(0x80000100, bytes.fromhex("01820384FF7F")), (0xD0008100, bytes(4))]
DATA += [(0x8000030C, bytes.fromhex("07000000"))]


def value_cases():
    """The cases of values.txt: each line is accepted, and refused with less than its values."""
    for number, line in enumerate((HERE / "values.txt").read_text().split("\n"), 1):
        if not line.strip() or line.startswith("#"):
            continue
        code, before, *afters = [part.split() for part in line.split(";")]
        yield from line_cases(f"values.txt:{number}", " ".join(code), before, afters)


def line_cases(title, code, before, afters):
    """The cases of a line: its instruction, the values before it, and those on its sides."""
    before = registers(before, {"a10": STACKS[0]})[1]
    afters = [None if after == ["-"] else registers(after, {})[1] for after in afters]
    yield value_case(title, code, before, [after and {**before, **after} for after in afters], True)
    for side, after in enumerate(afters):
        for name, known in (after or {}).items():
            for less in below(known):
                wrong = [each and {**before, **each} for each in afters]
                wrong[side] = {**before, **after, name: less}
                yield value_case(f"{title}, {name} less", code, before, wrong, False)


def value_case(title, code, before, afters, is_right):
    """A certificate whose start loops, and whose other points no run reaches."""
    code, loop = readers.code([code]), readers.code(["j .+0"])
    fall = AT + len(code)
    segments = [(0x80000000, loop), (AT, code), (fall, loop), (JUMP, loop), *DATA]
    plan = json.dumps(PLAN).encode()
    states = {0x80000000: {"a10": STACKS[0]}, AT: before}
    states |= {at: known for at, known in zip((fall, JUMP), afters) if known is not None}
    points = [
        (at, 0, 0, 0, [], [known.get(name, "any") for name in NAMES])
        for at, known in sorted(states.items())
    ]
    nodes = [((0, 0x80000000, 0, 0), 0, None, points)]
    files = {"elf": readers.elf_bytes(0x80000000, segments), "plan": plan}
    files["cert0"] = cert_bytes(1, nodes)
    line = "certified 0 of 6 areas" if is_right else f"refused K4 at {AT:08X}{FRAME}"
    return Case(title, ["check", "elf", "plan", "cert0"], files, line)
