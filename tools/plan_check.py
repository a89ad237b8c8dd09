#!/usr/bin/env python3
"""Does an executable agree with its plan? Mistakes in a plan that no command notices.

    plan_check.py ELF PLAN [LAYOUT] [--json]

It reads ELF as first_plan.py does, and compares what the code says with PLAN:

    irqs, traps      vectors that have code, but are in no key; two that share a vector
    biv, btv, isp    constants that start-up code writes to core registers, and, with LAYOUT or the
    start, globals   sections of another linker, the addresses of `vector_N` and `trap_N`
    csa              FCX, LCX, and the loop that links the areas
    sp, isp          a top of a stack that is outside of ram, inside of a place, or the same
    rom, ram,        constant addresses of loads and stores, and places of LAYOUT, that are in no
    devices          range
    any key          a key that is there twice, of which tcd takes the last

A line is a question to the author of the plan:

    board.json:73: warning: irqs lacks 48: the vector at 80004600 has code

A vector without a name counts if its first four bytes aren't zero, its code comes to `rfe` or
`ji`, and it isn't part of another handler. Start-up code counts wherever it is, loads and stores
only if the entry or a vector of the plan leads to them.

This is help and no claim: without a warning the plan may be wrong. Without start-up code in ELF
nothing is known of `csa` and `start`, and never of `core`, of what a device answers, or of sources
that are enabled. docs/safety.md says how a plan is reviewed.

Exit status: 0 no warning, 1 warnings, 2 a file that can't be used, 5 wrong arguments.
"""
import collections
import json

import known
import names
from tcdlib import arguments
from tcdlib import formats as readers
from tcdlib import judged
from tcdlib import machine
from tcdlib import plans
from tcdlib import program as tcd
from tcdlib import progress
from tcdlib.constants import CALLS, CORE, GLOBALS, TRAPS, Said, key_of
from tcdlib.frames import hex8
from tcdlib.sources import bytes_of, shown

#: addresses nearer than this are one warning
NEAR = 16
#: the bit of ICR.IE by the plan's core, and of PSW.IS
ENABLE, INTERRUPT_STACK = {"1.3": 8, "1.6": 15}, 9


class Handler:
    """What the code at a vector does in its own frame: its points, and whether it may return."""

    def __init__(self, image, at):
        self.points, self.returns, self.is_one, work = set(), False, True, [at]
        while work:
            pc = work.pop()
            if pc in self.points:
                continue
            self.points.add(pc)
            found = image.at(pc)
            if found is None or found.kind == "ret":
                self.is_one = False  # it isn't code, or it is a function
                return
            self.returns |= found.kind in ("rfe", "ji")
            if found.kind in CALLS or not found.name:
                work.append(pc + found.length)
            else:
                work += known.ways(pc, found)[0]


class Check:
    """The warnings of an executable, a plan and perhaps a layout."""

    def __init__(self, elf, plan, layout=None):
        self.plan, self.layout, self.found = plan, layout, []
        self.entry, segments = judged.image_of(elf)
        self.image = known.Image(segments)
        self.said = Said(self.image, layout, names.sections_if_any(elf))
        self.every = self.said.read.every
        self.text = bytes_of(plan).decode("utf-8", "replace")
        self.twice(sorted({key for keys in plans.read_with_twice(plan)[1] for key in keys}))
        self.board = judged.read(plan, readers.plan)
        self.vectors()
        self.core_registers()
        self.areas()
        self.stacks()
        self.addresses()

    def warn(self, key, text, place=None):
        """Adds a warning on a key of the plan, or on a line of the layout."""
        line = place.line if place else plans.key_line(self.text, key)
        file = self.layout if place else self.plan
        self.found.append({"file": file, "line": line, "key": key, "text": text})

    def twice(self, keys):
        """Keys that are there twice; of one that isn't in several objects the last line is known."""
        for key in keys:
            lines = [n for n, line in enumerate(self.text.split("\n"), 1) if f'"{key}"' in line]
            line = lines[-1] if len(lines) == 2 else None
            text = f"{key} is there twice: tcd takes the last"
            self.found.append({"file": self.plan, "line": line, "key": key, "text": text})

    # Vectors

    def entered(self):
        """The vectors of the plan: by address the key and what enters there."""
        irqs = [(self.board["biv"] | p << 5, "irqs", f"interrupt {p}") for p in self.board["irqs"]]
        traps = [(self.board["btv"] | TRAPS[t] << 5, "traps", t) for t in self.board["traps"]]
        return [*irqs, *traps]

    def vectors(self):
        """Vectors that have code and are in no key, that share one, or whose place says another."""
        first = {}
        for at, key, name in self.entered():
            if at in first:
                self.warn(key, f"{first[at]} and {name} have the same vector, {hex8(at)}")
            first.setdefault(at, name)
        classes = {number: name for name, number in TRAPS.items()}
        numbers = {number: number for number in range(1, 256)}
        self.table("biv", "irqs", "vector", numbers)
        self.table("btv", "traps", "trap", classes)

    def table(self, base, key, kind, numbers):
        """One table of vectors; `numbers` are those that the plan may have, as it has them."""
        named, start = self.said.vectors[kind], self.board[base]
        for number, at in sorted(named.items()):
            if number in numbers and numbers[number] in self.board[key]:
                if at != start | number << 5:
                    vector = hex8(start | number << 5)
                    self.warn(base, f"{kind}_{number} is at {hex8(at)}, but {base} gives {vector}")
                    return
        for number, at in self.lacking(named, start, numbers, key):
            text = f"{key} lacks {numbers[number]}: the vector at {hex8(at)} has code"
            self.warn(key, text)

    def lacking(self, named, start, numbers, key):
        """The vectors that have code and aren't in the plan, with their addresses."""
        left = {n: start | n << 5 for n, name in numbers.items() if name not in self.board[key]}
        has_code = lambda at: any(self.image.bytes(at, 4))
        if named:
            return [(n, named[n]) for n in sorted(left) if n in named and has_code(named[n])]
        if key == "traps" and "syscall" not in self.said.read.kinds:
            return []
        taken = known.Reached(self.image, [self.entry, *(at for at, _, _ in self.entered())]).found
        other = range(self.board["btv"], self.board["btv"] + 0x100) if key == "irqs" else ()
        found = {
            n: Handler(self.image, at)
            for n, at in left.items()
            if has_code(at) and at not in taken and at not in other
        }
        found = {n: each for n, each in found.items() if each.is_one and each.returns}
        inside = collections.Counter(pc for each in found.values() for pc in each.points)
        return [(n, left[n]) for n in sorted(found) if inside[left[n]] == 1]

    # What start-up code writes

    def written(self, key, wanted, register, text, field=lambda value: value):
        """Warns if code writes constants to a register, but never the plan's."""
        values = {field(value): at for value, at in self.every.get(register, {}).items()}
        if values and wanted not in values:
            value, at = next(iter(values.items()))
            self.warn(key, f"{text}, but the code at {hex8(at)} makes it {self.number(key, value)}")

    @staticmethod
    def number(key, value):
        """A number as plans mostly have it."""
        return value if key.startswith(("start.", "csa.areas", "csa.reserve")) else hex8(value)

    def core_registers(self):
        """BIV, BTV, ISP, ICR, PSW, the globals and A10."""
        for key in ("biv", "btv", "isp"):
            wanted = self.board[key]
            self.written(key, wanted, ("core", CORE[key]), f"{key} is {hex8(wanted)}")
        start, enable = self.board["start"], ENABLE[self.board["core"]]
        for name, register, low, most in (
            ("ie", "icr", enable, 1),
            ("ccpn", "icr", 0, 255),
            ("is", "psw", INTERRUPT_STACK, 1),
        ):
            field = lambda value, low=low, most=most: value >> low & most
            text = f"start.{name} is {start[name]}"
            self.written(f"start.{name}", start[name], ("core", CORE[register]), text, field)
        for name, number in GLOBALS.items():
            wanted = self.board["globals"][name]
            key, register = f"globals.{name}", ("a", number)
            self.written(key, wanted, register, f"{key} is {hex8(wanted)}")
        self.written("sp", self.board["sp"], ("a", 10), f"sp is {hex8(self.board['sp'])}")

    def areas(self):
        """FCX, LCX, and the loop that links the areas."""
        csa, address = self.board["csa"], machine.address_of
        first, limit = ("core", CORE["fcx"]), ("core", CORE["lcx"])
        self.written("csa.at", csa["at"], first, f"csa.at is {hex8(csa['at'])}", address)
        linked = self.said.read.areas
        if linked is not None and linked != csa["areas"]:
            self.warn("csa.areas", f"csa.areas is {csa['areas']}, but a loop links {linked}")
        if csa["at"] in map(address, self.every.get(first, ())):
            reserve = lambda value: (linked or csa["areas"]) - (address(value) - csa["at"]) // 64
            text = f"csa.reserve is {csa['reserve']}"
            self.written("csa.reserve", csa["reserve"], limit, text, reserve)

    # Addresses

    def stacks(self):
        """The tops of the stacks."""
        spans = [(each["at"], each["at"] + each["len"]) for each in self.board["ram"]]
        for key in ("sp", "isp"):
            top = self.board[key]
            if not any(begin < top <= end for begin, end in spans):
                self.warn(key, f"{key} {hex8(top)} is in no range of ram, and not the end of one")
            for name, place in self.said.places.items():
                if place.at < top < place.at + place.most:
                    self.warn(key, f"{key} {hex8(top)} is inside of place {name}")
        if self.board["sp"] == self.board["isp"] and not self.board["start"]["is"]:
            self.warn("isp", "sp and isp are the same: two stacks grow into each other")

    def is_inside(self, at, end):
        """Whether ranges of the plan, or the areas, have all these bytes."""
        csa = self.board["csa"]
        spans = [(csa["at"], csa["at"] + 64 * csa["areas"])]
        for key in ("rom", "ram", "devices"):
            spans += [(each["at"], each["at"] + each["len"]) for each in self.board[key]]
        for begin, last in sorted(spans):
            at = last if begin <= at < last else at
        return at >= end

    def addresses(self):
        """Loads and stores, and places, outside of all ranges."""
        starts = [self.entry, *(at for at, _, _ in self.entered())]
        guessed = known.with_tables(self.image, starts)
        reached, last = known.Reached(self.image, [*starts, *guessed]).found, -NEAR
        for at, pc in sorted(self.said.read.touched.items()):
            if pc in reached and not self.is_inside(at & -4, (at & -4) + 1):
                if at - last >= NEAR:
                    text = f"no range has {hex8(at)}, which the code at {hex8(pc)} loads or stores"
                    self.warn(key_of(at), text)
                last = at
        for name, place in self.said.places.items():
            if not self.is_inside(place.at, place.at + place.most):
                span = f"{hex8(place.at)} to {hex8(place.at + place.most)}"
                self.warn(key_of(place.at), f"no range has place {name}, {span}", place)

    def lines(self, name=str):
        """The warnings as they are printed; `name` gives the name of a file."""
        for each in self.found:
            line = f":{each['line']}" if each["line"] else ""
            yield shown(f"{name(each['file'])}{line}: warning: {each['text']}")


def main(given):
    """Compares, prints the warnings, and gives the exit status."""
    parser = arguments.Parser("elf", "plan")
    parser.add_argument("layout", nargs="?")
    parser.add_argument("--json", action="store_true")
    given = parser.parsed(given)
    with progress.of("reading the code"):
        check = Check(given.elf, given.plan, given.layout)
    if given.json:
        print(json.dumps({"warnings": check.found}))
    else:
        print("\n".join(check.lines()) or "no warning, which is no proof that the plan is right")
    return tcd.REFUSED if check.found else tcd.DONE


if __name__ == "__main__":
    arguments.ended(__doc__, main)
