"""Cases of try_hostile.py: files put together at random, by fixed seeds, that are nearly right."""
import random
import re

from hostile.inputs import (
    C0,
    CELLS,
    FAR_SOURCE,
    I1,
    P0,
    P8,
    RICH_LAYOUT,
    RICH_PLAN,
    S1,
    TASKS,
    TWO,
    cert_bytes,
)
from tcdlib import formats as readers


def pieces_of_sources(draw):
    """A source of lines that are nearly right."""
    names = [
        "x",
        "y",
        "main",
        "d1",
        "a2",
        ".",
        "lo",
        "hi",
        "_$",
        "n" * 64,
        "n" * 65,
        "text",
        "d16",
        "D0",
    ]
    ends = [
        "0",
        "1",
        "-1",
        "2",
        "7",
        "8",
        "-8",
        "9",
        "15",
        "16",
        "255",
        "256",
        "-256",
        "257",
        "511",
        "512",
        "32767",
        "32768",
        "-32769",
        "65535",
    ]
    ends += [
        "65536",
        "0xFFFFFFFF",
        "4294967296",
        "0x80000001",
        "0xF0003FFF",
        "0x00200000",
        "-2147483648",
        "340282366920938463463374607431768211455",
    ]
    ends += [
        "340282366920938463463374607431768211456",
        "16777214",
        "16777216",
        "-16777216",
        "30",
        "32",
        "254",
        "-32768",
        "00",
        "0x",
        "--1",
    ]
    word = lambda: draw.choice([*names, f"d{draw.randrange(16)}", f"a{draw.randrange(16)}"])
    sums = lambda: draw.choice([".+", ".-", "x+", "y-", "x-", ".+-"]) + draw.choice(ends)

    def operand(wanted):
        if draw.random() < 0.12:
            return draw.choice(
                [
                    word(),
                    draw.choice(ends),
                    sums(),
                    "hi:x",
                    "lo:y+4",
                    "[a1]4",
                    "[a2+]0",
                    "[d1]",
                    "",
                    "[a1",
                    "hi:",
                    "!",
                ]
            )
        if wanted[0] in "DA" or wanted == "a10":
            return wanted if wanted == "a10" else f"{wanted[0].lower()}{draw.randrange(16)}"
        if wanted.startswith("["):
            offset = draw.choice([*ends, "lo:x", "", "x"]) if wanted.endswith("k") else ""
            return f"[a{draw.randrange(16)}{'+' if '+' in wanted else ''}]{offset}"
        if wanted == "T":
            return draw.choice([sums(), "x", "y", "z"])
        return (
            draw.choice([*ends, "hi:x", "lo:x", "x", "y+2"])
            if draw.random() < 0.7
            else str(draw.randrange(8))
        )

    lines = []
    for _ in range(draw.randrange(1, 9)):
        row, kind = draw.choice(readers.ROWS), draw.random()
        text = f"{row.name} {', '.join(operand(o) for o in row.operands)}"
        if kind < 0.12:
            text = f".section {draw.choice(['t', 'u', 't', word()])}"
        elif kind < 0.18:
            text = f".global {draw.choice(['x', 'y', word()])}"
        elif kind < 0.34:
            values = ", ".join(
                draw.choice([*ends, "x", "y-4", ".+4"]) for _ in range(draw.randrange(1, 4))
            )
            text = f"{draw.choice(['.byte', '.half', '.word', '.word', '.space'])} {values}"
        label_text = draw.choice(["x: ", "y: ", f"{word()}: "]) if draw.random() < 0.3 else ""
        lines.append(label_text + text + draw.choice(["", "", " # \0\xff", "\t"]))
    head = [".section t"] if draw.random() < 0.9 else []
    tail = [".section t", "x: nop", "y: nop16"] if draw.random() < 0.5 else []
    return "\n".join(head + lines + tail).encode("latin-1") + draw.choice([b"", b"\n", b"\n\n"])


def pieces_of_plans(draw):
    """A plan with some values, keys and places changed."""
    text = draw.choice([P0, RICH_PLAN]).decode()
    values = [
        "0",
        "1",
        "2",
        "3",
        "-0",
        "1.0",
        "1e2",
        "1e400",
        "256",
        "4096",
        "4097",
        "4294967295",
        "4294967296",
        "18446744073709551615",
    ]
    values += [
        "18446744073709551616",
        '"0x0"',
        '"0X1"',
        '"0x123456789"',
        '"0xfFfFfFfF"',
        '"0x"',
        '"0x80000000"',
        '"0xD0000000"',
        '"0xD0400000"',
    ]
    values += [
        "[]",
        "{}",
        "null",
        "true",
        '"sys"',
        '["aln", "sys"]',
        '["sys", "sys"]',
        "[10, 9]",
        "[0]",
        '[1, "0xff"]',
        '"1.3"',
        '"\\u0031.6"',
    ]
    values += [
        '[{"at": 0, "len": 4}]',
        '[{"at": "0xFFFFFFFC", "len": 8}]',
        "[[]]",
        '[{"at": 0, "len": 4, "x": 1}, 3]',
        '"\\ud800"',
        "01",
        "+1",
    ]
    values += [
        str(list(range(1, 33))),
        str(list(range(1, 34))),
        '[{"at": 0, "len": 4194304}]',
        '[{"at": 0, "len": 4194308}]',
    ]
    values += [
        "[" + ", ".join(f'{{"at": {16 * i}, "len": 4}}' for i in range(n)) + "]" for n in (16, 17)
    ]
    for _ in range(draw.choice([1, 1, 1, 2, 3])):
        found = list(re.finditer(r'("\w+"): ?("[^"]*"|\d+|\[[^\[\]]*\])', text))
        if not found:
            break
        at = draw.choice(found)
        kind = draw.random()
        if kind < 0.7:
            text = text[: at.start(2)] + draw.choice(values) + text[at.end(2) :]
        elif kind < 0.8:
            text = text[: at.start()] + text[at.end() :].lstrip(", ")
        elif kind < 0.9:
            text = f"{text[: at.start()]}{draw.choice([at.group(1), chr(34) + 'other' + chr(34)])}: {draw.choice(values)}, {text[at.start() :]}"
        else:
            text = text[: at.start(1)] + '"Key"' + text[at.end(1) :]
    return text.encode()


def pieces_of_scripts(draw):
    numbers = [
        "0",
        "1",
        "2",
        "3",
        "10",
        "20",
        "255",
        "256",
        "15",
        "16",
        "99999",
        "100000",
        "100001",
        "4294967295",
        "4294967296",
        "01",
        "-1",
        "x",
        "",
    ]
    lines = []
    for _ in range(draw.randrange(1, 7)):
        word, count = draw.choice(
            [("step", 1), ("irq", 1), ("aln", 1), ("in", 3), ("in", 3), ("out", 1), ("", 0)]
        )
        if draw.random() < 0.1:
            count = draw.randrange(5)
        line = " ".join([word] + [draw.choice(numbers) for _ in range(count)])
        if word == "step" and draw.random() < 0.6:
            line = f"step {draw.choice(['1', '5', '99999', '100000'])}"
        if word == "irq" and draw.random() < 0.6:
            line = f"irq {draw.choice(['10', '20', '255'])}"
        lines.append(line + draw.choice([""] * 12 + [" ", "\r", "\0"]))
    return "\n".join(lines).encode() + draw.choice([b"", b"\n"])


def pieces_of_layouts(draw):
    lines = []
    for _ in range(draw.randrange(1, 6)):
        numbers = [
            "00000000",
            "00000004",
            "80000000",
            "80000002",
            "80000100",
            "FFFFFFFC",
            "FFFFFFFF",
            "00000100",
            "8000010",
            "8000000a",
        ]
        name = draw.choice(["text", "data", "text", "x", ".", "9", "n" * 64, "n" * 65, "main"])
        line = draw.choice(
            [f"place {name} {draw.choice(numbers)} {draw.choice(numbers)}"] * 4
            + [f"entry {name}", "", f"Entry {name}", f"entry  {name}"]
        )
        lines.append(line + draw.choice([""] * 12 + [" ", "\r", "\0"]))
    if draw.random() < 0.6:
        lines.insert(draw.randrange(len(lines) + 1), "entry main")
    return "\n".join(lines).encode() + draw.choice([b"", b"\n", b"\n\n"])


def pieces_of_objects(draw):
    """An object whose parts fit each other mostly."""
    mostly = lambda good, *bad: good if draw.random() < 0.97 else draw.choice(bad)
    names = [b"text", b"data", b"none", b"n" * 64]
    sections = [
        (
            mostly(n, b"", b"9x", b"text", b"n" * 65),
            bytes(draw.randrange(256) for _ in range(draw.choice([0, 4, 10, 40]))),
        )
        for n in names[: draw.randrange(1, 5)]
    ]
    symbols = []
    for name in [b"main", b"far", b"x", b"."][: draw.randrange(5)]:
        kind = mostly(draw.randrange(3), 3, 255)
        section = draw.randrange(len(sections)) if kind else mostly(0, 1)
        offset = (
            mostly(draw.randrange(len(sections[section][1]) + 1), 0xFFFFFFFF, 41)
            if kind
            else mostly(0, 1)
        )
        symbols.append(
            (mostly(name, b"main", b"a b", b"\0"), kind, mostly(section, 9, 65535), offset)
        )
    relocations = []
    for section, (_, held) in enumerate(sections):
        for offset in sorted(
            draw.sample(
                range(0, max(len(held) - 3, 0)), min(draw.randrange(3), max(len(held) - 3, 0))
            )
        ):
            if symbols:
                addend = draw.choice([0, 1, 2, 4, 0xFFFFFFFC, 0x80000000, 0x8000, 0xFF000000])
                where = (mostly(section, 0, 9), mostly(offset, 0, 38, 0xFFFFFFFF))
                relocations.append(
                    (
                        *where,
                        mostly(draw.randrange(1, 8), 0, 8),
                        mostly(draw.randrange(len(symbols)), 9),
                        addend,
                    )
                )
    return readers.object_bytes(sections, symbols, relocations) + mostly(b"", b"\0")


def pieces_of_certs(draw):
    """A certificate of nodes and points that are mostly in order."""
    mostly = lambda good, *bad: good if draw.random() < 0.99 else draw.choice(bad)
    values = [
        "any",
        [1],
        [1, 2],
        [2, 1],
        [5, 5],
        (1, 0, 64),
        (1, 0, 63),
        (1, 1, 128),
        (1, 0, 128),
        (2, 1, 128),
        (2, 1, 130),
        (4, 0, 256),
        (4, 1, 512),
        (1, 9, 3),
    ]
    values += [
        (1, 0, 0xFFFFFFFF),
        (2, 0, 0xFFFFFFFF),
        (2, 0, 0xFFFFFFFE),
        list(range(64)),
        list(range(65)),
        list(range(128)),
    ]
    value = (
        lambda: draw.choice(values)
        if draw.random() < 0.02
        else draw.choice([["any"], [[3]], [(4, 0, 4000)]])[0]
    )
    nodes, kinds = [], sorted(draw.randrange(5) for _ in range(draw.randrange(1, 4)))
    for i, kind in enumerate(kinds):
        leaving = (
            (mostly(1, 2), 255, [value() for _ in range(14)])
            if kind in (1, 3) and draw.random() < 0.5
            else mostly(None, None, (0, 0, ["any"] * 14))
        )
        at, points = draw.randrange(1 << 31), []
        for _ in range(draw.randrange(4)):
            flags = [mostly(1, 2) for _ in range(mostly(draw.randrange(5), 8, 9))]
            points.append(
                (at, mostly(0, 2), 7, mostly(1, 255), flags, [value() for _ in range(27)])
            )
            at = mostly(at + 2, at, 0)
        nodes.append(
            (
                (mostly(kind, 5), mostly(0x80000000 + i, 0), mostly(0, 255), mostly(0, 2)),
                mostly(draw.randrange(4097), 4097),
                leaving,
                points,
            )
        )
    return cert_bytes(mostly(draw.randrange(1, 3), 0, 3), nodes) + mostly(b"", b"\0")


def pieces_of_elfs(draw):
    """An executable of headers that mostly fit."""
    mostly = lambda good, *bad: good if draw.random() < 0.95 else draw.choice(bad)
    count = mostly(draw.randrange(5), 65, 0xFFFF)
    head, made = bytearray(I1[:52]), min(count, 65)
    code = bytes(
        draw.choice(
            [0x6D, 0x1D, 0x0B, 0x00, 0x90, 0x8B, 0x3F, draw.randrange(256), draw.randrange(256)]
        )
        for _ in range(draw.randrange(40))
    )
    head[44:46], head[42] = count.to_bytes(2, "little"), mostly(32, 31, 0)
    headers = b""
    for i in range(made):
        length = draw.randrange(len(code) + 1)
        offset = mostly(
            52 + 32 * made + draw.randrange(len(code) - length + 1),
            0xFFFFFFFF,
            52 + 32 * made + len(code),
        )
        address = mostly(
            0x80000000 + 64 * i, 0x80000000, 0xFFFFFFFF, 0x100000000 - length if length else 0
        )
        headers += readers.le32(
            mostly(1, 0, 4),
            offset,
            0,
            address,
            mostly(length, 0, 0xFFFFFFFF),
            mostly(length, length + 9, 0),
            5,
            1,
        )
    return bytes(head) + headers + code


def pieces_of_cells(draw):
    """Lines of cells that are nearly right, for the rich plan."""
    numbers = [
        "00000000",
        "00000003",
        "FFFFFFFF",
        "80000000",
        "D0008000",
        "D0008004",
        "D0008FFC",
        "D0009000",
        "D0008002",
        "00000024",
        "80010000",
        "8000000a",
        "D000800",
    ]
    lines = []
    for _ in range(draw.choice([1, 2, 3, 5, 17])):
        at = f"D0008{4 * draw.randrange(64):03X}" if draw.random() < 0.8 else draw.choice(numbers)
        low, high = (
            sorted([draw.choice(numbers[:4]), draw.choice(numbers[:4])])
            if draw.random() < 0.95
            else (draw.choice(numbers), draw.choice(numbers))
        )
        line = draw.choice(
            [f"cell {at} {low} {high}"] * 40
            + ["", f"cell {at} {low}", f"Cell {at} {low} {high}", f"cell  {at} {low} {high}"]
        )
        lines.append(line + draw.choice([""] * 40 + [" ", "\r", "\0"]))
    return "\n".join(lines).encode() + draw.choice([b"", b"\n", b"\n\n"])


def pieces_of_tasks(draw):
    """Lines of tasks that are nearly right, for the image of two tasks."""
    numbers = [
        "00000000",
        "80000000",
        "80000010",
        "80000012",
        "80000020",
        "80000022",
        "80000001",
        "D0008000",
        "D0008FF4",
        "D0008FF8",
        "8000000a",
        "D000900",
    ]
    lines = [
        draw.choice(
            ["switch 80000020 D0008100"] * 20
            + ["switch 80000021 D0008100", "switch 80000020 D0008102", "", "task 80000000 D0009000"]
        )
    ]
    if draw.random() < 0.2:
        lines[0] = f"switch {draw.choice(numbers)} {draw.choice(numbers)}"
    for _ in range(draw.choice([2, 2, 2, 2, 2, 1, 3, 7, 8])):
        entry = (
            draw.choice(["80000000", "80000010"]) if draw.random() < 0.8 else draw.choice(numbers)
        )
        lines.append(
            draw.choice(
                [f"task {entry} D0008{64 * draw.randrange(64):03X}"] * 40
                + ["", f"task {entry}", f"Task {entry} D0009000", lines[0]]
            )
        )
        lines[-1] += draw.choice([""] * 60 + [" ", "\r", "\0"])
    return "\n".join(lines).encode() + draw.choice([b"", b"\n", b"\n\n"])


def pieces_of_cell_images(draw):
    """An image that accesses the cells D0008004 and D000800C, by words, sets and spans."""
    lines = ["movh.a a15, 0xD001", "lea.l a15, [a15]-32764", "mov d2, 1"]
    for _ in range(draw.randrange(1, 9)):
        d, e, near = (
            draw.randrange(4),
            draw.randrange(4),
            draw.choice([-4, -2, -1, 0, 0, 0, 1, 2, 3, 4, 8, 8, 12]),
        )
        lines += draw.choice([
            [f"ld.w d{d}, [a15]{draw.choice([0, 8])}"], [f"and d{d}, d{e}, {draw.choice([1, 3, 7, 63, 255])}"], [f"add d{d}, d{e}, {draw.choice([1, -1, 4])}"], [f"mov d{d}, {draw.randrange(5)}"],
            [f"st.w [a15]{near}, d{e}"], [f"st.w [a15]{near}, d{e}"], [f"st.h [a15]{near}, d{e}"], [f"st.b [a15]{near}, d{e}"], [f"st.a [a15]{near}, a{draw.choice([10, 14, 15])}"],
            [f"and d{d}, d{e}, {draw.choice([1, 3, 127])}", f"addsc.a a14, a15, d{d}, {draw.randrange(3)}", f"st.{draw.choice('wwhb')} [a14]{near}, d{e}"],
            ["lea a14, [a15]0", f"st.w [a14+]{near}, d{e}", f"st.w [a14]0, d{d}"], [f"jlt.u d{d}, {draw.randrange(1, 5)}, .+8"],
        ])  # fmt: skip
    lines += [
        "nop",
        draw.choice(["j .+0", f"j .-{4 * len(lines) + 4}", f"j .-{4 * len(lines) - 8}"]),
    ]
    return readers.elf_bytes(0x80000000, [(0x80000000, readers.code(lines))])


def pieces_of_task_images(draw):
    """Two tasks that read near the areas and the routine, or core registers, enable, give way."""

    def body():
        lines = []
        for _ in range(draw.randrange(1, 6)):
            spot = draw.choice(
                [0xD0000000, 0xD0000200, 0x80000020, 0x80000068, 0xD0008100, 0xD0008010]
            )
            place = [f"movh.a a15, {readers.high(spot)}", f"lea.l a15, [a15]{readers.low(spot)}"]
            load = f"ld.{draw.choice(['b', 'bu', 'h', 'hu', 'w'])} d0, [a15]{draw.choice([-8, -4, -3, -2, -1, 0, 1, 2, 4])}"
            index = [
                "ld.w d1, [a14]0",
                f"and d1, d1, {draw.choice([1, 7, 127, 511])}",
                f"addsc.a a15, a15, d1, {draw.randrange(3)}",
            ]
            lines += draw.choice([
                [*place, load], [*place, load], [*place, *index, load], [f"mfcr d0, {draw.choice([0xFE00, 0xFE04, 0xFE20, 0xFE28, 0xFE2C, 0xFE38, 0xFE3C, 0])}"], ["nop", "mov d1, 1"],
                ["bisr 0", "rslcx"], ["svlcx", "calla 0x80000020", "rslcx"], ["calla 0x80000020"], ["calla 0x80000020"], [draw.choice(["enable", "disable"])],
            ])  # fmt: skip
        return [
            "movh.a a14, 0xD001",
            "lea.l a14, [a14]-32704",
            *lines,
            draw.choice(["j .+0", f"j .-{4 * len(lines) + 8}"]),
        ]

    routine = readers.routine_lines(2, 0xD0008100)
    return readers.elf_bytes(
        0x80000000,
        [
            (at, readers.code(lines))
            for at, lines in ((0x80000020, routine), (0x80000100, body()), (0x80000200, body()))
        ],
    )


def put_together():
    """What is put together at random: a title, files, those that are made, words, the maker."""
    board = {"e": I1, "p": RICH_PLAN, "c": C0}
    two = {"e": TWO, "p": P8}
    yield "asm", {}, ["s"], ["asm", "s", "o"], pieces_of_sources
    yield "plan", board, ["p"], ["check", "e", "p", "c"], pieces_of_plans
    yield "script", board, ["s"], ["run", "e", "p", "s"], pieces_of_scripts
    yield "layout", {"o": readers.Source(S1).read()}, ["l"], [
        "link",
        "l",
        "e",
        "o",
    ], pieces_of_layouts
    yield "objects", {"l": RICH_LAYOUT}, ["a", "b"], ["link", "l", "e", "a", "b"], pieces_of_objects
    yield "cert", board, ["c"], ["check", "e", "p", "c"], pieces_of_certs
    yield "elf", board, ["e"], ["dis", "e"], pieces_of_elfs
    yield "cells", board, ["k"], ["cellcert", "e", "p", "k", "x"], pieces_of_cells
    yield "tasks", two, ["t"], ["taskcert", "e", "p", "t", "x", "y"], pieces_of_tasks
    cells = CELLS.replace(b"8000", b"8004") + CELLS.replace(b"8000", b"800C").replace(
        b"3\n", b"2\n"
    )
    yield "images with cells", {"p": P0, "k": cells}, ["e"], [
        "cellcert",
        "e",
        "p",
        "k",
        "x",
    ], pieces_of_cell_images
    tasks = TASKS.replace(b"80000000", b"80000100").replace(b"80000010", b"80000200")
    yield "images of tasks", {"p": P8, "t": tasks}, ["e"], [
        "taskcert",
        "e",
        "p",
        "t",
        "x",
        "y",
    ], pieces_of_task_images
    yield "boot plan", board, ["p"], ["bootgen", "p", "80000000", "80000800", "x"], pieces_of_plans
    yield "shipped", {"p": P0, "l": RICH_LAYOUT, "z": FAR_SOURCE}, ["s"], [
        "ship",
        "p",
        "l",
        "x",
        "y",
        "s",
        "z",
    ], pieces_of_sources


def pieces(bench, title, files, vary, words, make):
    """Inputs that are put together at random, by fixed seeds."""
    count = (
        30
        if bench.quick
        else {
            "asm": 4500,
            "cells": 600,
            "tasks": 600,
            "boot plan": 600,
            "shipped": 600,
            "images of tasks": 3000,
        }.get(title, 1500)
    )
    draw = random.Random(title)
    bench.only({n: d for n, d in files.items() if n in words})
    for _ in range(count):
        for name in vary:
            bench.put(name, make(draw))
        bench.case("put together", words)
