#!/usr/bin/env python3
"""Runs boot sequences from random states at reset, for 20 plans.

    boots.py PROGRAM [SEED]

PROGRAM is a built tcd. For each plan `bootgen` writes the sequence, `asm` and `link` put it beside
a small firmware, `cert` certifies that, and `boot` says yes. Then

- the machine of tools/tcdlib/machine.py begins at the sequence with random registers, core registers, ram,
  save areas and bytes of rom that no segment holds, and gets random events: it has to run inside
  the sequence with interrupts off, one event after another, and to end in a start state of the
  plan, each field of which is compared. Nothing but word 0 of each area may have been stored.
- `run` begins at code that puts random words into all of these, goes through the sequence, and ends
  in code that compares all that the plan says with what is there, and dies at an address that tells
  what differs. The printed line has to be that of tools/tcdlib/machine.py.

For the first plan one bit of each byte of the sequence is turned: `boot` has to name that byte, and
it is told how many of these the machine notices. No plan has areas up to 2^32, since a link names
the lowest 4 MB of a segment: `bad plan 6`. Ends with 1 where anything was wrong.
"""
import collections
import json
import pathlib
import random
import subprocess
import sys
import tempfile

sys.path.insert(0, str(pathlib.Path(__file__).resolve().parents[2] / "tools"))
from tcdlib import formats as readers
from tcdlib import machine
from tcdlib.machine import Event, Machine, link_of
from tcdlib.program import of_words

RESETS = 5  # states at reset for each plan
RUNS = 3  # runs of the program's machine for each plan
CORE = {
    "psw": 0xFE04,
    "pcxi": 0xFE00,
    "fcx": 0xFE38,
    "lcx": 0xFE3C,
    "biv": 0xFE20,
    "btv": 0xFE24,
    "isp": 0xFE28,
    "icr": 0xFE2C,
}
ENDS = "    .half 0x000C\n"  # no instruction: the machine dies here


# Plans


def board(**changed):
    """A plan."""
    plan = {
        "rom": [(0x80000000, 0x4000)], "ram": [(0xD0100000, 0x1000)], "devices": [], "csa": (0xD0000000, 8, 2),
        "sp": 0xD0101000, "isp": 0xD0100800, "biv": 0x80002000, "btv": 0x80003000, "irqs": [10, 255], "traps": ["sys", "aln"],
        "start": (0, 0, 0), "globals": (0x12345678, 0x9ABCDEF0, 0x7FFF8000, 0xFFFF7FFF), "core": "1.3",
    }  # fmt: skip
    plan.update(changed)
    for key, names in (
        ("rom", ("at", "len")),
        ("ram", ("at", "len")),
        ("devices", ("at", "len", "lo", "hi")),
    ):
        plan[key] = [dict(zip(names, r)) for r in plan[key]]
    for key, names in (
        ("csa", ("at", "areas", "reserve")),
        ("start", ("ie", "ccpn", "is")),
        ("globals", ("a0", "a1", "a8", "a9")),
    ):
        plan[key] = dict(zip(names, plan[key]))
    return plan


def drawn_plan(draw):
    """A plan with random words and a random list of areas."""
    word = lambda: draw.choice(
        [
            draw.getrandbits(32),
            draw.getrandbits(16) << 16 | draw.choice([0, 0x7FFF, 0x8000, 0xFFFF]),
        ]
    )
    areas = draw.choice([1, 2, 3, 17, 200])
    segment, offset = draw.choice([0, 1, 5, 0xA, 0xF]), draw.randrange(1, 0x10000 - areas)
    return board(
        csa=(segment << 28 | offset << 6, areas, draw.randrange(1, areas + 1)),
        sp=word(),
        isp=word(),
        biv=word() & ~1,
        btv=word() & ~1,
        globals=[word() for _ in range(4)],
        start=(0, draw.randrange(256), draw.randrange(2)),
        core=draw.choice(["1.3", "1.6"]),
    )


def plans(draw):
    """Names, plans, entries and addresses of the sequence."""
    many = [(0x80000000 + 0x10000 * i, 0x4000) for i in range(16)]
    rams = [(0xD0100000 + 0x400 * i, 0x100 + 4 * i) for i in range(16)]
    usual = (0x80000000, 0x80000800)
    yield "8 areas", board(), *usual
    yield "1 area", board(csa=(0xD0000000, 1, 1)), *usual
    yield "1 area, core 1.6", board(csa=(0xD0000000, 1, 1), core="1.6"), *usual
    yield "4,096 areas", board(csa=(0xD0000000, 4096, 16)), *usual
    yield "4,096 areas at the end of the highest segment, all reserve, core 1.6", board(
        csa=(0xF03C0000, 4096, 4096), core="1.6"
    ), *usual
    yield "the highest area alone", board(csa=(0xF03FFFC0, 1, 1)), *usual
    yield "links over 7FFF", board(csa=(0xD01FFF80, 4, 1), ram=[(0xD0100000, 0x1000)]), *usual
    yield "links from 8000 on, core 1.6", board(csa=(0xD0300000, 5, 5), core="1.6"), *usual
    yield "the lowest areas, in segment 0", board(csa=(0x40, 3, 1)), *usual
    yield "interrupt stack in use", board(start=(0, 0, 1)), *usual
    yield "interrupt stack in use, CCPN 255, core 1.6", board(start=(0, 255, 1), core="1.6"), *usual
    yield "16 ranges of rom and of ram", board(rom=many, ram=rams), 0x80010000, 0x800F3F20
    yield "rom to the end of memory, the sequence at its end", board(
        rom=[(0xFFFF8000, 0x8000)], biv=0, btv=0
    ), 0xFFFF8000, 0xFFFFFF20
    yield "rom from 0 on", board(rom=[(0, 0x4000)], biv=0x2000, btv=0x3000), 0xE00, 0
    yield "words at the edges of halves", board(
        sp=0x7FFF8000,
        isp=0x80007FFF,
        biv=0xFFFF8000,
        btv=0x7FFE,
        globals=(0x7FFF, 0x8000, 0xFFFFFFFF, 0xFFFF8000),
    ), *usual
    yield "ram on both sides of the areas, devices behind it", board(
        csa=(0xD0001000, 16, 3),
        ram=[(0xD0000000, 0x1000), (0xD0001400, 0xC00)],
        devices=[(0xD0002000, 64, 1, 9)],
    ), *usual
    yield "an entry and a sequence at no multiple of 4", board(core="1.6"), 0x80000802, 0x80000002
    for _ in range(3):
        yield "random words", drawn_plan(draw), *usual


# The program


class Bench:
    """A folder in which one program is tried."""

    def __init__(self, program, folder):
        self.program, self.folder, self.wrong, self.told = program, folder, 0, {}

    def tcd(self, *words):
        done = subprocess.run(
            [self.program, *words], cwd=self.folder, capture_output=True, text=True, check=False
        )
        return done.stdout.strip()

    def put(self, name, text):
        (self.folder / name).write_bytes(text.encode() if isinstance(text, str) else text)

    def says(self, wanted, *words):
        """A command that has to print this line."""
        printed = self.tcd(*words)
        if printed != wanted:
            self.fault(f"{' '.join(words)} prints {printed!r} in place of {wanted!r}")

    def fault(self, text):
        self.wrong += 1
        print(f"  WRONG {text}", flush=True)

    def linked(self, name, entry, places):
        """Sources (name, text, address) linked to an executable, each section at its place."""
        lines, objects = [f"entry {entry}"], []
        for section, text, at in places:
            self.put(f"{section}.s", text)
            printed = self.tcd("asm", f"{section}.s", f"{section}.o")
            if not printed.startswith("object "):
                self.fault(f"asm of {section}: {printed}")
            size = sum(
                len(held)
                for _, held in readers.ObjectFile(
                    (self.folder / f"{section}.o").read_bytes(), 0
                ).read()[0]
            )
            lines.append(f"place {section} {at:08X} {size:08X}")
            objects.append(f"{section}.o")
        self.put("board.layout", "\n".join(lines) + "\n")
        printed = self.tcd("link", "board.layout", name, *objects)
        if not printed.startswith("image "):
            self.fault(f"link: {printed}")


def firmware(spare, at):
    """A main that calls a function where there is an area for it."""
    head = "".join([".section text\n", "nop16\n" * (at % 4 // 2), ".global main\n"])
    return head + ("main: call f\n    j .+0\nf:  ret16\n" if spare else "main: j .+0\n")


def sequence(bench, entry, at):
    """The source that `bootgen` writes with a label before the first instruction, and two bytes
    more where that isn't to lie at a multiple of 4."""
    bench.says(
        "boot 56 instructions", "bootgen", "board.json", f"{entry:08X}", f"{at:08X}", "boot.s"
    )
    section, rest = (bench.folder / "boot.s").read_text().split("\n", 1)
    return "\n".join([section, ".global boot", *["nop16"] * (at % 4 // 2), "boot:", rest])


# Random states at reset


def at_reset(image, plan, at, draw):
    """A machine at reset, in which all that may be random is."""
    m = Machine(plan)
    for _, _, held in m.memory.parts:
        held[:] = draw.randbytes(len(held))
    m.put_rom(image, plan)
    m.d, m.a = [draw.getrandbits(32) for _ in range(16)], [draw.getrandbits(32) for _ in range(16)]
    m.psw, m.pcxi, m.fcx, m.lcx = (draw.getrandbits(32) for _ in range(4))
    m.biv, m.btv, m.isp = (draw.getrandbits(32) for _ in range(3))
    m.ccpn, m.ie, m.pc = draw.getrandbits(8), False, at
    return m


def drawn_event(plan, draw):
    return Event(
        draw.choice([0, *plan["irqs"]]),
        draw.getrandbits(32),
        draw.getrandbits(8),
        draw.random() < 0.5,
    )


def not_started(m, image, plan):
    """What of a start state isn't so."""
    areas, first = plan["csa"], link_of(plan["csa"]["at"])
    links = [m.memory.word(areas["at"] + 64 * i) for i in range(areas["areas"])]
    wanted = {
        "end": None, "pc": image[0], "fcx": first, "lcx": first + areas["areas"] - areas["reserve"], "pcxi": 0, "biv": plan["biv"],
        "btv": plan["btv"], "isp": plan["isp"], "ie": bool(plan["start"]["ie"]), "ccpn": plan["start"]["ccpn"], "core": plan["core"],
    }  # fmt: skip
    out = [name for name, value in wanted.items() if getattr(m, name) != value]
    out += ["links"] * (links != [*range(first + 1, first + areas["areas"]), 0])
    out += [
        name
        for n, name in ((0, "a0"), (1, "a1"), (8, "a8"), (9, "a9"))
        if m.a[n] != plan["globals"][name]
    ]
    out += (
        ["sp"] * (m.a[10] != plan["sp"])
        + ["IS"] * (m.psw >> 9 & 1 != plan["start"]["is"])
        + ["IO"] * (m.psw >> 10 & 3 != 2)
    )
    for at, held in image[1]:
        for r in plan["rom"]:
            low, high = max(at, r["at"]), min(at + len(held), r["at"] + r["len"])
            out += ["rom"] * (
                low < high and m.memory.bytes(low, high - low) != held[low - at : high - at]
            )
    return out


def stored_elsewhere(m, before, plan):
    """Whether another byte than those of the areas' first words was changed."""
    areas = plan["csa"]
    for (begin, _, held), old in zip(m.memory.parts, before):
        if begin == areas["at"]:
            for i in range(0, len(held), 64):
                if held[i + 4 : i + 64] != old[i + 4 : i + 64]:
                    return True
        elif bytes(held) != old:
            return True
    return False


def booted(image, plan, at, draw):
    """What went wrong from one state at reset on."""
    m = at_reset(image, plan, at, draw)
    before = [bytes(held) for _, _, held in m.memory.parts]
    for n in range(53 + 3 * plan["csa"]["areas"]):
        if m.end or m.ie or not 0 <= m.pc - at < 224 or (m.pc - at) % 4:
            return [f"left at {m.pc:08X} after {n} events ({m.end or 'running'})"]
        m.step(drawn_event(plan, draw))
    return not_started(m, image, plan) + ["stores elsewhere"] * stored_elsewhere(m, before, plan)


# The same in the program's machine


def words(register, x):
    """Two instructions by which a data register becomes x."""
    return f"    movh {register}, {readers.high(x)}\n    addi {register}, {register}, {readers.low(x)}\n"


def scrambler(plan, draw, core=tuple(CORE)):
    """Code that makes the areas, some ram and all registers random, and goes to the sequence."""
    areas, out = plan["csa"], [".section scramble\n.global scramble\nscramble:\n"]
    small = areas["areas"] <= 64
    places = [(areas["at"], areas["areas"] * (16 if small else 1), 4 if small else 64)] + [
        (r["at"], min(r["len"] // 4, 64), 4) for r in plan["ram"]
    ]
    for n, (place, count, step) in enumerate(places):
        out += [
            words("d1", place),
            "    mov.a a2, d1\n",
            words("d1", count - 1),
            "    mov.a a3, d1\n",
            words("d0", draw.getrandbits(32)),
        ]
        out += [
            f"again{n}: addi d0, d0, {draw.randrange(-32768, 32768)}\n    st.w [a2+]{step}, d0\n    loop a3, again{n}\n"
        ]
    for name in core:
        value = draw.getrandbits(32) & (~0x100 if name == "icr" else 0xFFFFFFFF)
        out += [words("d0", value), f"    mtcr {CORE[name]}, d0\n    isync\n"]
    for n in range(16):
        out += [words("d0", draw.getrandbits(32)), f"    mov.a a{n}, d0\n"]
    out += [words(f"d{n}", draw.getrandbits(32)) for n in range(16)]
    return "".join([*out, "    j boot\n"])


def comparer(plan, at):
    """Compares what the sequence leaves with the plan. It dies at a difference, or at its end."""
    areas, first = plan["csa"], link_of(plan["csa"]["at"])
    core = {
        "psw": 0xB7F if plan["start"]["is"] else 0x97F, "pcxi": 0, "fcx": first, "lcx": first + areas["areas"] - areas["reserve"],
        "biv": plan["biv"], "btv": plan["btv"], "isp": plan["isp"], "icr": plan["start"]["ccpn"],
    }  # fmt: skip
    same = "    jeq d0, d1, .+6\n" + ENDS
    out = [".section text\n", "nop16\n" * (at % 4 // 2), ".global main\nmain:\n"]
    for name, value in core.items():
        out += [f"    mfcr d0, {CORE[name]}\n", words("d1", value), same]
    for n, value in [
        (0, plan["globals"]["a0"]),
        (1, plan["globals"]["a1"]),
        (8, plan["globals"]["a8"]),
        (9, plan["globals"]["a9"]),
        (10, plan["sp"]),
    ]:
        out += [f"    mov.d d0, a{n}\n", words("d1", value), same]
    out += [words("d1", areas["at"]), "    mov.a a2, d1\n", words("d0", first)]
    if areas["areas"] > 1:
        out += [words("d1", areas["areas"] - 2), "    mov.a a3, d1\n"]
        out += ["next: addi d0, d0, 1\n    ld.w d1, [a2+]64\n", same, "    loop a3, next\n"]
    return "".join([*out, "    ld.w d1, [a2]0\n    mov d0, 0\n", same, "good:\n", ENDS])


def drawn_script(plan, events, draw):
    """So many turns: steps, interrupts that ask, and misaligned accesses that would trap."""
    lines, turns = [], 0
    while turns < events:
        kind = draw.random()
        if kind < 0.3 and plan["irqs"]:
            lines.append(f"irq {draw.choice(plan['irqs'])}")
            turns += 1
        elif kind < 0.5:
            lines.append(f"aln {draw.randrange(2)}")
        else:
            count = min(draw.choice([1, 3, 50, 5000]), events - turns)
            lines.append(f"step {count}")
            turns += count
    return "\n".join(lines) + "\n"


def in_the_program(bench, plan, entry, at, boot, draw):
    """`run` from a random state at reset on, to code that compares."""
    size = 0x800 if plan["rom"][0]["len"] >= 0x2000 else 0x400
    taken = [(entry & ~3, 0x600), (at & ~3, 0xE4)]
    spots = [r["at"] + offset for r in plan["rom"] for offset in range(0, r["len"] - size, 0x100)]
    spot = next(x for x in spots if all(x + size <= a or a + n <= x for a, n in taken))
    bench.linked(
        "tried.elf",
        "scramble",
        [
            ("scramble", scrambler(plan, draw), spot),
            ("s0", boot, at & ~3),
            ("text", comparer(plan, entry), entry & ~3),
        ],
    )
    script = drawn_script(plan, min(100000, 9000 + 16 * plan["csa"]["areas"]), draw)
    bench.put("turns.script", script)
    elf = (bench.folder / "tried.elf").read_bytes()
    wanted = machine.line_of_run(elf, (bench.folder / "board.json").read_bytes(), script.encode())
    bench.says(wanted, "run", "tried.elf", "board.json", "turns.script")
    good = max(x + len(held) for x, held in readers.elf(elf)[1] if x == entry & ~3) - 2
    if not wanted.endswith(f"dead notlisted at {good:08X}"):
        bench.fault(f"the code that compares ends otherwise: {wanted}")


# One plan


def tried(bench, name, plan, entry, at, draw):
    """One plan: its commands, its states at reset."""
    bench.put("board.json", json.dumps(plan))
    areas = plan["csa"]
    spare = areas["areas"] - areas["reserve"]
    boot = sequence(bench, entry, at)
    bench.linked(
        "firmware.elf",
        "main",
        [("text", firmware(spare, entry), entry & ~3), ("s0", boot, at & ~3)],
    )
    need, events = min(spare, 1), 53 + 3 * areas["areas"]
    bench.says(
        f"certified {need} of {spare} areas", "cert", "firmware.elf", "board.json", "firmware.cert"
    )
    wanted = f"boot {events} events certified {need} of {spare} areas"
    bench.says(wanted, "boot", "firmware.elf", "board.json", "firmware.cert", f"{at:08X}")
    image = readers.elf((bench.folder / "firmware.elf").read_bytes())
    for _ in range(RESETS):
        for fault in booted(image, plan, at, draw):
            bench.fault(f"from reset: {fault}")
    for _ in range(RUNS):
        in_the_program(bench, plan, entry, at, boot, draw)
    print(f"{name}: {wanted}", flush=True)
    return events * (RESETS + RUNS)


def turned(bench, plan, at, draw):
    """One bit of each byte of the sequence turned."""
    elf, noticed = (bench.folder / "firmware.elf").read_bytes(), 0
    begin = elf.index(readers.elf(elf)[1][1][1])
    quiet = collections.Counter()
    for n in range(224):
        changed = (
            elf[: begin + n]
            + bytes([elf[begin + n] ^ 1 << draw.randrange(8)])
            + elf[begin + n + 1 :]
        )
        bench.put("turned.elf", changed)
        bench.says(
            f"refused boot 4 at {at + n:08X}",
            "boot",
            "turned.elf",
            "board.json",
            "firmware.cert",
            f"{at:08X}",
        )
        if booted(readers.elf(changed), plan, at, draw):
            noticed += 1
        else:
            quiet[machine.DECODER.decode(elf[begin + n // 4 * 4 :][:4])[0]] += 1
    kept = ", ".join(f"{count} in {name}" for name, count in quiet.items())
    print(
        f"one bit turned in each of 224 bytes: boot refuses each, the machine notices {noticed}, but not {kept}"
    )


def main():
    program, seed = of_words(sys.argv[1:], __doc__), int(sys.argv[2]) if len(sys.argv) > 2 else 1
    draw, count, events = random.Random(seed), 0, 0
    with tempfile.TemporaryDirectory() as folder:
        bench = Bench(program, pathlib.Path(folder))
        bench.put("board.json", json.dumps(board(csa=(0xFFFFFFC0, 1, 1))))
        bench.says("bad plan 6", "bootgen", "board.json", "80000000", "80000800", "boot.s")
        for name, plan, entry, at in plans(draw):
            events += tried(bench, name, plan, entry, at, draw)
            if count == 0:
                turned(bench, plan, at, draw)
            count += 1
    print(
        f"{count} plans, {count * RESETS} random states at reset and {count * RUNS} runs of the program's machine, {events} events: {bench.wrong} wrong"
    )
    sys.exit(1 if bench.wrong or count < 20 else 0)


if __name__ == "__main__":
    main()
