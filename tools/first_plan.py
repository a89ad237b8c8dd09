#!/usr/bin/env python3
"""A plan to begin with, read out of an executable: to be gone through with the board's manual.

    first_plan.py ELF [LAYOUT] [-o PLAN]

It takes what the code itself says: constants that start-up code writes into BIV, BTV, ISP, ICR,
PSW, FCX, LCX, A10 and the globals; the loop that links the areas; vectors that have code;
constant addresses of loads and stores; the segments. Places `vector_N` and `trap_N` of LAYOUT, or
sections of these names in an ELF file of another linker, give BIV, BTV, `irqs` and `traps`; so do
names such as `.v10`, `.vsys` and `.valn`.

A value that isn't found is a text `TODO: REASON`, and tcd asks for it (`bad plan 4 key sp`). For
most others, standard error says where they come from. PLAN is never overwritten.

The plan is a guess at the board. ICR is read as TriCore 1.3 has it, and `core` is left out: for
TriCore 1.6 state `start.ie` and `core` yourself. Sizes of memories, what a peripheral answers and
which interrupts other code enables aren't in an executable: docs/safety.md says how a plan is
reviewed.

Exit status: 0 done, 2 a file that can't be used, 5 wrong arguments.
"""
import json
import sys

import known
import names
from tcdlib import arguments
from tcdlib import judged
from tcdlib import machine
from tcdlib import progress
from tcdlib import sources
from tcdlib.constants import CORE, FLASH, GLOBALS, TRAPS, WORD, Said, key_of
from tcdlib.sources import Unusable

#: by key: spans that are nearer than this are one range at first; at most so many ranges; rounding
NEAR, MOST_RANGES, ROUNDED = {"rom": 0x10000, "ram": 0x2000, "devices": 16}, 16, 0x100


def todo(reason):
    return f"TODO: {reason}"


def joined(spans, near):
    """Spans (begin, end) joined if they are nearer than this, until there are at most 16."""
    while True:
        found = []
        for begin, end in sorted(spans):
            if found and begin - found[-1][1] < near:
                found[-1] = found[-1][0], max(found[-1][1], end)
            else:
                found.append((begin, end))
        if len(found) <= MOST_RANGES:
            return found
        near *= 2


def without(spans, taken):
    """Spans without one that is taken, which may be empty."""
    for begin, end in spans:
        for low, high in ((begin, min(end, taken[0])), (max(begin, taken[1]), end)):
            if low < high:
                yield low, high


def hexed(value):
    """A number as plans have it; a text as it is."""
    return value if isinstance(value, str) else f"0x{value & WORD:08X}"


class FirstPlan(Said):
    """A first plan. `notes` say where each key comes from."""

    def __init__(self, path, layout):
        entry, segments = judged.image_of(path)
        super().__init__(known.Image(segments), layout, names.sections_if_any(path))
        self.notes = []
        if entry in [at for _, at in self.read.core.values()]:
            self.note("start", "the entry writes core registers; tcd judges what comes after them")

    def note(self, key, text):
        self.notes.append(f"{key}: {text}")

    def core(self, name, key):
        """What code writes to a core register."""
        value, at = self.read.core.get(CORE[name], (None, None))
        if value is None:
            return todo(f"no code writes a constant to {name.upper()}")
        self.note(key, f"{name.upper()} is written at {at:08X}")
        return value

    def register(self, number, key, missing):
        """What code puts into an address register."""
        value, at = self.read.set.get(("a", number), (None, None))
        if value is None:
            return missing
        self.note(key, f"A{number} is set at {at:08X}")
        return value

    def table(self, name, kind):
        """BIV or BTV: from the code, or from the names of vectors."""
        value = self.core(name, name)
        bases = {at - (number << 5) for number, at in self.vectors[kind].items()}
        if isinstance(value, str) and len(bases) == 1:
            self.note(name, f"from the names of sections, as {kind}_N")
            return bases.pop()
        return f"{value}, and no section is named {kind}_N" if isinstance(value, str) else value

    def entered(self, base, kind, numbers, taken=()):
        """Which vectors of a table have code: by their names, or by bytes other than zero."""
        if isinstance(base, str):
            return None
        if self.vectors[kind]:
            return sorted(set(numbers) & set(self.vectors[kind]))
        at = {number: base | number << 5 for number in numbers}
        return [n for n in numbers if any(self.image.bytes(at[n], 4)) and at[n] not in taken]

    def areas(self):
        """The key `csa`, and its span."""
        first, limit = self.core("fcx", "csa.at"), self.core("lcx", "csa.reserve")
        count, reserve = self.read.areas, limit
        if isinstance(first, str):
            count, reserve = todo("the length of the list"), todo("at least 1, at its end")
            return {"at": first, "areas": count, "reserve": reserve}, (0, 0)
        at = machine.address_of(first)
        if count is None:
            count = todo("no loop links areas by constants")
            reserve = todo("the areas from LCX on")
            return {"at": hexed(at), "areas": count, "reserve": reserve}, (at, at)
        self.note("csa.areas", "counted by the loop that links them")
        if not isinstance(limit, str):
            reserve = count - (machine.address_of(limit) - at) // 64
        return {"at": hexed(at), "areas": count, "reserve": reserve}, (at, at + 64 * count)

    def memories(self, taken, stacks):
        """The ranges of ROM, RAM and peripherals."""
        spans = {"rom": [], "ram": [], "devices": []}

        def add(begin, end):
            spans[key_of(begin)].append((begin, end))

        for at, held in self.image.segments:
            add(at, at + len(held))
        for at in self.read.touched:
            if at >> 28 not in FLASH:
                add(at & -4, (at & -4) + 4)
        for place in self.places.values():
            add(place.at, place.at + place.most)
        for stack in stacks:
            add(stack - 4, stack)
        for key, found in spans.items():
            found = joined(found, NEAR[key])
            if key != "devices":
                found = [(begin & -ROUNDED, (end + ROUNDED - 1) & -ROUNDED) for begin, end in found]
            yield key, [{"at": hexed(a), "len": hexed(b - a)} for a, b in without(found, taken)]

    def start(self):
        """The key `start`."""
        icr, psw = self.core("icr", "start"), self.core("psw", "start.is")
        fields = {"ie": (icr, 8, 1), "ccpn": (icr, 0, 255), "is": (psw, 9, 1)}
        return {
            key: value if isinstance(value, str) else value >> low & most
            for key, (value, low, most) in fields.items()
        }

    def vectors_of(self, biv, btv):
        """The keys `irqs` and `traps`."""
        traps = self.entered(btv, "trap", range(8))
        page = range(btv, btv + 0x100) if traps is not None else ()
        irqs = self.entered(biv, "vector", range(1, 256), page)
        if irqs is None:
            irqs = todo("BIV isn't known")
        else:
            self.note("irqs", "the vectors that have code: is each enabled, and no other?")
        if traps is not None:
            traps = [name for name, number in TRAPS.items() if number in traps]
        elif "syscall" in self.read.kinds:
            traps = todo("BTV isn't known")
        else:
            traps = []
            self.note("traps", "no system call is in the code")
        return {"irqs": irqs, "traps": traps}

    def plan(self):
        """The plan."""
        csa, taken = self.areas()
        isp = self.core("isp", "isp")
        sp = self.register(10, "sp", todo("no code writes a constant to A10"))
        biv, btv = self.table("biv", "vector"), self.table("btv", "trap")
        plan = dict(self.memories(taken, [at for at in (sp, isp) if not isinstance(at, str)]))
        self.note("rom, ram", "from the first to the last address in use; the memories are larger")
        for each in plan["devices"]:
            each.update(lo=0, hi=hexed(WORD))
        if plan["devices"]:
            self.note("devices", "each answers any word: narrow lo and hi of an index")
        for at in sorted(at for at in self.read.indexed if at >> 28 not in FLASH):
            self.note(key_of(at), f"an index is added to {at:08X}")
        if not plan["ram"]:
            plan["ram"] = todo("no load, store or segment is at a constant address of RAM")
        plan.update(csa=csa, sp=hexed(sp), isp=hexed(isp), biv=hexed(biv), btv=hexed(btv))
        plan.update(self.vectors_of(biv, btv), start=self.start())
        plan["globals"] = {
            name: hexed(self.register(number, f"globals.{name}", 0))
            for name, number in GLOBALS.items()
        }
        self.note("globals", "0 if no code sets them")
        return plan


def text_of(plan):
    """A plan with a key, or a range, in each line."""
    rows = []
    for key, value in plan.items():
        text = json.dumps(value)
        if isinstance(value, list) and len(value) > 1 and isinstance(value[0], dict):
            text = "[\n    " + ",\n    ".join(map(json.dumps, value)) + "\n  ]"
        rows.append(f"  {json.dumps(key)}: {text}")
    return "{\n" + ",\n".join(rows) + "\n}\n"


def main(given):
    """Reads the code, writes the plan, and gives the exit status."""
    parser = arguments.Parser("elf")
    parser.add_argument("layout", nargs="?")
    parser.add_argument("-o", "--out")
    given = parser.parsed(given)
    with progress.of("reading the code"):
        first = FirstPlan(given.elf, given.layout)
        text = text_of(first.plan())
    if given.out:
        try:
            with open(given.out, "x", encoding="utf-8") as out:
                out.write(text)
        except OSError as e:
            raise Unusable(f"{sources.shown(given.out)}: {e.strerror}") from None
    else:
        sys.stdout.write(text)
    for line in first.notes:
        print(line, file=sys.stderr)
    return 0


if __name__ == "__main__":
    arguments.ended(__doc__, main)
