"""What the code of an executable says by constants alone: core registers, stacks, areas, addresses.

`first_plan.py` makes a plan of it, `plan_check.py` compares it with a plan. The code is read from
the top to the bottom without following jumps, so what is found is a guess.
"""
import re

from tcdlib import machine
from tcdlib import sources

WORD = machine.WORD
CORE = {
    "biv": machine.BIV, "btv": machine.BTV, "isp": machine.ISP, "icr": machine.ICR,
    "psw": machine.PSW, "fcx": machine.FCX, "lcx": machine.LCX,
}  # fmt: skip
GLOBALS = {"a0": 0, "a1": 1, "a8": 8, "a9": 9}
TRAPS = {"sys": 6, "aln": 2}
#: segments of 256 MB, by their first hex digit
FLASH, PERIPHERALS = (0x8, 0xA), (0xE, 0xF)
#: names of sections that are vectors: `vector_10`, `.v10`, `trap_6`, `.vsys`
VECTOR = re.compile(r"\.?(?:(?P<kind>vector|trap)_|v)(?P<which>\d{1,3}|sys|aln)")
CONSTANTS = ("mov", "mov.u", "mov.a", "mov.d", "mov.aa")
CALLS = ("call", "calla", "calli", "syscall")
GLOBAL_REGISTERS = [("a", number) for number in GLOBALS.values()]
#: ICR.IE of both layouts
ENABLED = 1 << 8 | 1 << 15


def key_of(at):
    """The key of a plan in which an address is looked for, by its segment."""
    upper = at >> 28
    return "rom" if upper in FLASH else "devices" if upper in PERIPHERALS else "ram"


class Read:
    """What the code does by constants alone, read from the top to the bottom of each segment."""

    def __init__(self, image):
        #: by core register and by address register: the first constant, and where it is written
        self.core, self.set = {}, {}
        #: by ("core", number) and ("a", number): all constants, each with where it is written
        self.every = {}
        #: addresses of loads and stores, each with the instruction; those to which an index is added
        self.touched, self.indexed = {}, set()
        #: kinds of instructions, and how many areas a loop links
        self.kinds, self.areas = set(), None
        for at, held in image.segments:
            self.begin()
            pc = at
            while pc < at + len(held):
                found = image.at(pc)
                if found and found.name:
                    self.follow(pc, found.kind, found.name.replace("16", "", 1), found.operands)
                pc += found.length if found else 2

    def begin(self):
        """No register is known, as after a jump."""
        self.held, self.from_index, self.step, self.icr = {}, set(), 0, None

    def value(self, operand):
        return operand[1] & WORD if operand[0] in "ku" else self.held.get(operand)

    def follow(self, pc, kind, name, operands):
        """One instruction."""
        self.kinds.add(kind)
        if kind == "mtcr":
            self.write_core(pc, operands[0][1], self.value(operands[1]))
        elif kind == "enable" and self.icr is not None:
            self.write_core(pc, machine.ICR, self.icr | ENABLED)
        memory = next((each for each in operands if each[0] in "mu"), None)
        if kind in ("ld", "st") and memory:
            self.access(pc, memory)
        elif kind == "loop" and self.step == 64 and operands[0] in self.held:
            self.areas = self.held[operands[0]] + 1
        if name == "mov.d15":
            self.held[("d", 15)] = operands[0][1]
        elif operands and operands[0][0] in "ad" and not kind.startswith(("st", "j", "call")):
            self.write(pc, name, operands, memory)
        if memory and memory[0] == "m" and memory[3]:
            self.held.pop(("a", memory[1]), None)
        if kind in ("ret", "rfe", "j", "ja", "ji"):
            self.begin()
        elif kind in CALLS:
            for register in [key for key in self.held if key[1] < (10 if key[0] == "a" else 8)]:
                if register not in GLOBAL_REGISTERS:
                    self.held.pop(register)

    def write_core(self, pc, number, value):
        """A core register gets a constant, or None if it isn't known."""
        if number == machine.ICR:
            self.icr = value
        if value is not None:
            self.core.setdefault(number, (value, pc))
            self.every.setdefault(("core", number), {}).setdefault(value, pc)

    def access(self, pc, memory):
        """A load or store."""
        base = ("a", memory[1])
        if memory[0] == "m" and base not in self.held:
            return
        at = memory[1] if memory[0] == "u" else self.held[base] + (0 if memory[3] else memory[2])
        self.step = memory[2] if memory[0] == "m" and memory[3] else self.step
        self.touched.setdefault(at & WORD, pc)
        if base in self.from_index:
            self.indexed.add(at & WORD)

    def write(self, pc, name, operands, memory):
        """What an instruction leaves in its first register."""
        to, given, base, value = operands[0], [*map(self.value, operands[1:])], None, None
        if name in CONSTANTS:
            value = given[0]
        elif name in ("movh", "movh.a"):
            value = given[0] << 16
        elif name in ("addi", "addih", "addih.a") and None not in given:
            value = given[0] + (given[1] << (0 if name == "addi" else 16))
        elif name in ("lea", "lea.l") and memory[0] == "u":
            value = memory[1]
        elif name in ("lea", "lea.l", "addsc.a"):
            base = ("a", memory[1]) if memory else operands[1]
            if base in self.held:
                value = self.held[base] + (memory[2] if memory else 0)
        is_indexed = name == "addsc.a" or base in self.from_index
        self.held.pop(to, None)
        self.from_index.discard(to)
        if value is None:
            return
        self.held[to] = value & WORD
        if is_indexed:
            self.from_index.add(to)
        elif name in ("lea", "lea.l", "mov.a"):
            self.set.setdefault(to, (value & WORD, pc))
            self.every.setdefault(to, {}).setdefault(value & WORD, pc)


class Said:
    """An executable with its layout, and what its code says.

    `image` has its bytes, `sections` are the address and the name of each section of code that its
    own section table names.
    """

    def __init__(self, image, layout, sections=()):
        self.image, self.read = image, Read(image)
        self.places = sources.read_places(layout) if layout else {}
        #: by kind: the numbers of the vectors that have names, and their addresses
        self.vectors = {"vector": {}, "trap": {}}
        for at, name in [*((place.at, name) for name, place in self.places.items()), *sections]:
            if found := VECTOR.fullmatch(name):
                which = found["which"]
                kind = "trap" if which in TRAPS else found["kind"] or "vector"
                self.vectors[kind][int(TRAPS.get(which, which))] = at
