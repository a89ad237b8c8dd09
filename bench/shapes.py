#!/usr/bin/env python3
"""The inputs of hazards.py: files within the limits that cost most, and commands on them.

    shapes.py NAME N

Writes the files of an input, N times as large, into the current folder. Prints two JSON lists of
commands: those that make an image of them, and those to measure. `SHAPES` has what each input is,
and its maker. The other makers return a source's lines.
"""
import json
import pathlib
from typing import NamedTuple

import usage
from tcdlib import arguments

ROM, RAM = (0x80000000, 0x300000), (0xD0040000, 0x8000)
#: as many range ends as a plan can have, which are thresholds of a value that grows
MANY = {
    "rom": [(0x80000000, 0x100000)] + [(0x90000000 + 0x800000 * i, 4) for i in range(15)],
    "ram": [RAM] + [(0xA0000000 + 0x200000 * i, 4) for i in range(15)],
    "devices": [(0xF0000000 + 0x200000 * i, 4, 0) for i in range(16)],
    "btv": 0x80080000,
}
#: 15 ranges of rom beside the code, and where four sections of each are placed
SCATTERED = [(0x90000000 + 0x800000 * i, 64) for i in range(15)]
PLACES = [at + 16 * i for at, _ in SCATTERED for i in range(4)]
#: names of one length, so that no comparison ends by it
SECTIONS = [f"s{i}" for i in range(10, 74)]
LAYOUT = "entry main\nplace text 80000000 000C0000\nplace table 80200020 00010000\n"
MAIN, END = [".section text", ".global main", "main:"], ["j .+0"]
#: D0 becomes the answer of the device, whose address A15 keeps
ANSWER = ["movh.a a15, 0xF000", "ld.w.l d0, [a15]0"]


class Shape(NamedTuple):
    """Files by their names, the commands that make the image, and the commands to measure."""

    files: dict
    first: list
    commands: list


def plan(rom=(ROM,), ram=(RAM,), most=None, devices=(), areas=64, irqs=(), btv=0x80300000):
    """A plan's text; one device answers 0 to `most`, others are at, length and the most."""
    devices = devices or [(0xF0000000, 256, most)] * (most is not None)
    ranges = {"rom": rom, "ram": ram}
    return json.dumps(
        {
            **{key: [{"at": at, "len": length} for at, length in of] for key, of in ranges.items()},
            "devices": [{"at": at, "len": n, "lo": 0, "hi": hi} for at, n, hi in devices],
            "csa": {"at": 0xD0000000, "areas": areas, "reserve": 2},
            "sp": 0xD0048000,
            "isp": 0xD0047000,
            "biv": 0x80200000,
            "btv": btv,
            "irqs": list(irqs),
            "traps": [],
            "start": {"ie": 0, "ccpn": 0, "is": 0},
            "globals": {"a0": 0, "a1": 0, "a8": 0, "a9": 0},
        }
    )


def firmware(lines, board, commands, layout=LAYOUT, cells=""):
    """A shape of one source: the commands are words, each with its usual files."""
    files = {"x.s": lines, "x.json": [board], "x.layout": [layout], "x.cells": [cells]}
    more = {"cfg": "", "cells": " x.cells x.cert", "cellcert": " x.cells x.cert"}
    measured = [f"{it} x.elf x.json{more.get(it, ' x.cert')}" for it in commands.split()]
    return Shape(files, ["asm x.s x.o", "link x.layout x.elf x.o"], measured)


def source(lines, times):
    """A shape of one source of the same lines again and again, which is only assembled."""
    return Shape({"x.s": [".section s10", *lines * int(times)]}, [], ["asm x.s x.o"])


def table(values, section="table"):
    """A section of words with a label of its name."""
    return [f".section {section}", f"{section}:"] + [f".word {it}" for it in values]


def entry(first=0, a="a14"):
    """An address register becomes the word of the table at D0 after its `first`-th."""
    half = f":table+{4 * first}"
    return [
        f"movh.a {a}, hi{half}",
        f"lea.l {a}, [{a}]lo{half}",
        f"addsc.a {a}, {a}, d0, 2",
        f"ld.a.l {a}, [{a}]0",
    ]


def by_register(calls, functions, registers=1, known=0, moving=False):
    """Calls through tables whose index is a device's answer."""
    lines = MAIN + ANSWER[:1] + ["svlcx"] * (5 if known else 0) + ANSWER[1:]
    for r in range(registers):
        lines += entry(functions * r, f"a{14 - r}")
    lines += [f"ld.w.l d{i}, [a15]0" for i in range(1, known + 1)]
    for i in range(int(calls)):
        lines += [f"mov d8, {i}"] * moving + [f"calli a{14 - i % registers}"]
    lines += END
    for i in range(functions * registers):
        lines += [f"f{i}: ret16", ".space 2"]
    return lines + table(f"f{i}" for i in range(functions * registers))


def jumps(count, places):
    """Jumps through a table, each of them after another D8."""
    lines = MAIN + ANSWER + entry()
    for i in range(int(count)):
        lines += ["jeq d1, d2, .+10", f"mov d8, {i}", "ji16 a14"]
    lines += END + [f"p{i}: j .+0" for i in range(places)]
    return lines + table(f"p{i}" for i in range(places))


def loads(count, addresses):
    """Loads of zeros of 60 sections."""
    lines = MAIN + ANSWER + entry() + ["ld.w.l d1, [a14]0"] * int(count) + END
    lines += table(PLACES[i % 60] + 4 * (i // 60) for i in range(addresses))
    return lines + [line for i in range(60) for line in table((0, 0, 0), f"r{i}")]


def stores(count):
    """Stores to 64 addresses of ram."""
    lines = MAIN + ANSWER + entry() + ["st.w.l [a14]0, d0"] * int(count) + END
    return lines + table(RAM[0] + 8 * (i * i % 509) for i in range(64))


def climb(points, registers):
    """A loop in which each register grows only once the one before it has grown."""
    lines = [".section text", ".global main", "main: movh d15, 0xF000"]
    lines += [f"mov d{r}, 0" for r in range(registers)] + ["loop: addi d0, d0, 1"]
    for r in range(1, registers):
        lines += [f"jlt.u d{r - 1}, d15, s{r}", f"addi d{r}, d{r}, 1", f"s{r}:"]
    return lines + ["nop16"] * int(points) + ["j loop"]


def pairs(points):
    """A loop of operations on the same two sets, which grow in it."""
    lines = [".section text", ".global main", "main: mov d0, 0", "mov d1, 0"]
    lines += ["loop: addi d0, d0, 1", "addi d1, d1, 257"]
    return lines + [f"xor d{2 + i % 12}, d0, d1" for i in range(int(points))] + ["j loop"]


def straight(points):
    """One frame of nop16."""
    return MAIN + ["nop16"] * int(points) + END


def callers(count, function):
    """A main that calls the function of these lines again and again."""
    return MAIN + ["call f"] * int(count) + END + ["f:"] + function


def frames(main, count, body):
    """Functions of the lines `body(i)`, and a main."""
    lines = MAIN + main + END
    for i in range(count):
        lines += [f"f{i}:"] + body(i) + ["ret16"]
    return lines


def recursion(count, calls):
    """Functions that call those after them; the last one calls itself."""

    def body(i):
        if i == count - 1:
            return ["nop16"] * calls + ["jeq d0, d1, end", f"call f{i}", "end:"]
        return [f"call f{min(count - 1, i + 1 + c % 7)}" for c in range(calls)]

    return frames(["call f0"], count, body)


def from_end(count):
    """Calls of all functions, the last one first."""
    return [f"call f{i}" for i in reversed(range(count))]


def chain(count, calls):
    """Functions that call the next one."""
    return frames(from_end(count), count, lambda i: [f"call f{i + 1}"] * calls * (i < count - 1))


def dag(count, calls, words):
    """Functions that call any of the next ones by a register."""

    def body(i):
        of = range(calls * (i < count - 1))
        return [line for c in of for line in entry(i + 1 + words * c) + ["calli a14"]]

    lines = frames(ANSWER + from_end(count), count, body)
    return lines + table(f"f{min(i, count - 1)}" for i in range(count + calls * words))


def turns(count):
    """CCPN becomes 1 to 4 in turn; 32 interrupts above them return at once."""
    lines = [line for i in range(int(count)) for line in (f"bisr16 {1 + i % 4}", "rslcx")]
    return MAIN + lines + END + [".section table", ".space 128"] + ["rfe16", ".space 30"] * 32


def wide(objects):
    """Objects of 64 sections of a word, linked into 64 places."""
    places = [f"place {it} 80{i:02}0000 00010000" for i, it in enumerate(SECTIONS)]
    files = {
        "x.s": [".section s10", ".global main", "main: nop16"],
        "y.s": [f".section {it}\n.word 0" for it in SECTIONS],
        "x.layout": ["entry main", *places],
    }
    linked = "link x.layout x.elf x.o" + " y.o" * int(objects)
    return Shape(files, ["asm x.s x.o", "asm y.s y.o"], [linked])


def names(count):
    """More certificates than tasks can be, all of different names."""
    certs = " ".join(f"{i:05}" for i in range(int(count)))
    return Shape({}, [], [f"taskcert x.elf x.json x.tasks {certs}"])


#: the parts of inputs that don't grow
SCATTERED_LAYOUT = LAYOUT + "".join(
    f"place r{i} {at:08X} 00000010\n" for i, at in enumerate(PLACES)
)
CELLS = "".join(f"cell {RAM[0] + 0x104 * i + 4:08X} 00000000 00000003\n" for i in range(12))
LOOP = ["mov d2, 0", "loop: call g", "jne d2, d3, loop", "ret16", "g: addi d2, d2, 1", "ret16"]
RECURSION = [
    "mov d2, 0",
    "call g",
    "ret16",
    "g: addi d2, d2, 1",
    "jeq d2, d3, end",
    "call g",
    "end: ret16",
]
#: what each input is, and its shape at n times its size
SHAPES = {
    "calls64": (
        "32,000 calls through a register of 64 functions",
        lambda n: firmware(by_register(32000 * n, 64), plan(most=63), "cert check report"),
    ),
    "calls128": (
        "4,000 calls through a register of 128 functions",
        lambda n: firmware(by_register(4000 * n, 128), plan(most=127), "cert check"),
    ),
    "known": (
        "calls128, with 15 registers of which 128 words each are known",
        lambda n: firmware(by_register(4000 * n, 128, known=15), plan(most=127), "cert check"),
    ),
    "climb": (
        "a loop of 20,000 points, 13 registers climb one after another",
        lambda n: firmware(climb(20000 * n, 13), plan(**MANY, areas=4), "cert"),
    ),
    "pairs": (
        "a loop of 4,000 `xor` of two sets",
        lambda n: firmware(pairs(4000 * n), plan(areas=4), "cert check"),
    ),
    "recursion": (
        "2,000 frames of 30 calls, the last recursive",
        lambda n: firmware(recursion(int(2000 * n), 30), plan(areas=4000), "cert"),
    ),
    "points": (
        "one frame of 65,000 points",
        lambda n: firmware(straight(65000 * n), plan(areas=4), "cert report cfg"),
    ),
    "loop_climb": (
        "30,000 callers of a loop that calls a counter",
        lambda n: firmware(callers(30000 * n, LOOP), plan(), "cert"),
    ),
    "recursion_climb": (
        "30,000 callers of a counter that calls itself",
        lambda n: firmware(callers(30000 * n, RECURSION), plan(), "cert"),
    ),
    "dag": (
        "1,900 frames, each calls any of the next 768, from the end",
        lambda n: firmware(
            dag(int(1900 * n), 6, 128), plan(most=127, areas=4000), "cert cfg check report"
        ),
    ),
    "adverse": (
        "a chain of 1,900 frames of 30 calls, from the end",
        lambda n: firmware(chain(int(1900 * n), 30), plan(areas=4000), "cert"),
    ),
    "too_deep": (
        "dag with sets of 64, and too few areas",
        lambda n: firmware(dag(int(1900 * n), 6, 64), plan(most=63), "cert"),
    ),
    "calls_two": (
        "30,000 calls by two registers of 64 functions in turn",
        lambda n: firmware(by_register(30000 * n, 64, 2), plan(most=63), "cert check report"),
    ),
    "calls_two_known": (
        "4,000 of them, with 7 more sets known",
        lambda n: firmware(by_register(4000 * n, 64, 2, known=7), plan(most=63), "cert check"),
    ),
    "calls_moving": (
        "16,000 calls of 128 functions with D8 moving",
        lambda n: firmware(by_register(16000 * n, 128, moving=True), plan(most=127), "cert check"),
    ),
    "loads": (
        "60,000 loads of 128 words in 15 ranges of rom",
        lambda n: firmware(
            loads(60000 * n, 128),
            plan(rom=[ROM, *SCATTERED], most=127),
            "cert check",
            SCATTERED_LAYOUT,
        ),
    ),
    "jumps": (
        "16,000 `ji` of 128 places with D8 moving",
        lambda n: firmware(jumps(16000 * n, 128), plan(most=127), "cert check"),
    ),
    "irq_turns": (
        "64,000 points, CCPN 1 to 4 in turn, 32 interrupts",
        lambda n: firmware(turns(32000 * n), plan(irqs=range(5, 37)), "cert check"),
    ),
    "cell_stores": (
        "60,000 stores of 64 addresses beside 12 cells",
        lambda n: firmware(
            stores(60000 * n), plan(most=63), "cert check cellcert cells", cells=CELLS
        ),
    ),
    "sections64": (
        "`.section` of 64 in turn, 16 MB",
        lambda n: source([f".section {it}" for it in SECTIONS], 20000 * n),
    ),
    "data_lines": ("16 MB of `.byte`", lambda n: source([".byte 1"], 2000000 * n)),
    "labels_none": ("16 MB of `nop16`", lambda n: source(["nop16"], 2700000 * n)),
    "wide_objects": ("3,000 objects of 64 sections", lambda n: wide(3000 * n)),
    "names": ("65,531 names of certificates", lambda n: names(65531 * n)),
}


def main(given):
    """Writes the files of the input that is asked for."""
    parser = arguments.Parser()
    parser.add_argument("name", choices=SHAPES)
    parser.add_argument("times", type=usage.times)
    given = parser.parsed(given)
    shape = SHAPES[given.name][1](given.times)
    for name, lines in shape.files.items():
        pathlib.Path(name).write_text("\n".join(lines) + "\n")
    print(json.dumps([shape.first, shape.commands]))


if __name__ == "__main__":
    arguments.ended(__doc__, main)
