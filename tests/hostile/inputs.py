"""The files with which the cases of try_hostile.py begin, and a good form of each command."""
import pathlib

from hostile.answers import read_plan
from tcdlib import formats as readers
from tcdlib.formats import le, le32

DATA = pathlib.Path(__file__).resolve().parent.parent.parent / "crates" / "tcd" / "data"
I1, P0, C0 = ((DATA / name).read_bytes() for name in ("i1.elf", "p0.json", "c0.cert"))
CERTS = ("c", "d")  # names of certificates, which have another limit
# The words that name the files that a command writes.
OUTPUTS = {
    "asm": [2],
    "link": [2],
    "cert": [3],
    "ship": [3, 4],
    "bootgen": [4],
    "cellcert": [4],
    "taskcert": [4, 5],
}

S1 = b".section text\n.global main\nmain: call f\nj .+0\nf: ret16\n"
L1 = b"entry main\nplace text 80000000 00010000\n"
T1 = b"step 2\n"

RICH_PLAN = b"""{"rom": [{"at": "0x80000000", "len": 4096}, {"at": "0x80010000", "len": "0x1000"}],
 "ram": [{"at": "0xD0008000", "len": "0x1000"}, {"len": 64, "at": 3489726464}],
 "devices": [{"at": "0xF0000000", "len": 4, "lo": 0, "hi": 15}, {"at": "0xF0000010", "len": "0x8", "lo": "0x3", "hi": "0xFFFFFFFF"}],
 "csa": {"at": "0xD0000000", "areas": 8, "reserve": 2}, "sp": "0xD0009000", "isp": "0xD0008800", "biv": "0x80000400",
 "btv": "0x80000100", "irqs": [10, "0x14", 255], "traps": ["sys", "aln"], "start": {"ie": 1, "ccpn": 0, "is": 0},
 "globals": {"a0": 0, "a1": 1, "a8": "0xFFFFFFFF", "a9": 4294967295}, "core": "1.6"}
"""

RICH_SCRIPT = b"step 2\nirq 10\nstep 2\n\nin 0 3 7\naln 1\nirq 20\nstep 7\nin 1 3 4294967295\naln 0\nin 0 0 15\nirq 255\nstep 99"

RICH_LAYOUT = b"place text 80000000 00001000\n\nplace data 80010000 00000100\nentry main\nplace .bss$1 D0008000 00000000\n"

RICH_SOURCE = b"""# all kinds of statements
.section text
.global main
main:   movh.a a15, hi:table    # the upper half
        lea.l a15, [a15]lo:table
        addi d1, d2, lo:table+4
        ld.w d2, [a15]4
        st.w [a15+]-4, d3
        jeq d3, -8, .+8
        jne d2, d3, main
        call far
        calla far
        ja 0x80000010
        loop a2, .-4
        mov16 d4, -8
here:   add16 d4, d2
        jz16 d4, there
        j16 here
there:  ret16
        mtcr 0xFE2C, d0
        addsc.a a14, a14, d15, 2
        sub16.a a10, 8
        ld16.w d5, [a5]
        st.a 0xF0003FFF, a3
        syscall 511
        bisr16 255
.section data
table:  .word main, far-4, 0xFFFFFFFF, -1
        .half 65535, -32768
        .byte 1, 2, 255
        .space 5
.section text
x:      j x
        ret
"""

FAR_SOURCE = b".section data\n.half 7\n.global far\n.section text\nfar: call main\nmovh d1, hi:far-1\njne d1, d2, far\nret16\n.section data\ny: .word far\n"


def rich_elf():
    """An executable with several types of headers, segments out of order, and unread bytes."""
    code = bytes.fromhex("6D00040E1D000000009000005C02FFFFEE0200")
    at = 52 + 7 * 32 + 12
    headers = [
        (6, 52, 0, 0, 7 * 32, 7 * 32, 4, 4), (1, at, 0, 0x80010000, 19, 19, 5, 4), (1, at + 20, 0x80000000, 0x80000000, 10, 99, 5, 2),
        (4, 0xFFFFFFFF, 0, 0, 0xFFFFFFFF, 0, 0, 0), (1, 52, 0, 0x80000004, 0, 64, 6, 8), (0x70000000, 1, 2, 3, 4, 5, 6, 7),
        (1, at, 0xFFFFFFFF, 0xFFFFFFFE, 2, 2, 5, 4),
    ]  # fmt: skip
    head = bytearray(I1[:52])
    head[44], head[32:40] = 7, le32(at + 30, 0xC0000003)
    return (
        bytes(head)
        + b"".join(le32(*h) for h in headers)
        + bytes(12)
        + code
        + b"\0"
        + I1[84:]
        + b"names of sections\0"
    )


def value_bytes(value):
    if value == "any":
        return b"\0"
    if isinstance(value, list):
        return bytes([len(value)]) + le32(*value)
    return bytes([0xF0 + value[0].bit_length() - 1]) + le32(*value[1:])


def cert_bytes(version, nodes):
    """A certificate of nodes (key, need, exit, points)."""
    out = [b"TCDC", le(version, 2), le(len(nodes), 2)]
    for (kind, entry, prio, stack), need, leaving, points in nodes:
        out += [
            le(kind, 1),
            le(entry),
            le(prio, 1),
            le(stack, 1),
            le(need, 2),
            le(leaving is not None, 1),
        ]
        if leaving:
            out += [bytes(leaving[:2])] + [value_bytes(v) for v in leaving[2]]
        out.append(le(len(points)))
        for address, ie, ccpn, lower, flags, values in points:
            out += [le(address), bytes([ie, ccpn, lower, len(flags), *flags])] + [
                value_bytes(v) for v in values
            ]
    return b"".join(out)


def first_cert(ie=0):
    """The least certificate of the small image: A10 is `sp` at each point, `ie` as at the start."""
    point = lambda at: (at, ie, 0, 0, [], registers(a10=[0xD0009000]))
    start = ((0, 0x80000000, 0, 0), 1, None, [point(0x80000000), point(0x80000004)])
    return cert_bytes(
        1, [start, ((1, 0x80000008, 0, 0), 0, (ie, 0, ["any"] * 14), [point(0x80000008)])]
    )


def rich_cert(version):
    """A certificate of all kinds of nodes and values, in its format; rules may refuse it."""
    most = 64 if version == 1 else 128
    values = [
        [7],
        "any",
        [1, 2, 0xFFFFFFFF],
        (1, 5, 5 + most),
        (2, 0, 2 * most),
        (4, 4, 0xFFFFFFFC),
        list(range(most)),
    ]
    regs = lambda n: ["any"] * (27 - 7) + values if n == 0 else ["any"] * 26 + [values[n]]
    point = lambda n, at, flags=(): (at, n % 2, n, 1 - n % 2, list(flags), regs(n % 7))
    kinds = [
        ((0, 0x80000000, 0, 0), 2, None, [point(1, 0x80000000), point(3, 0x80000004)]),
        (
            (1, 0x80000008, 0, 0),
            4096,
            (1, 9, [values[2]] * 2 + ["any"] * 12),
            [point(2, 0x80000008, (0, 1)), point(0, 0x80000009)],
        ),
        (
            (2, 0x80000540, 10, 1),
            0,
            None,
            [point(4, 0x80000540, (1, 1, 0, 1) + (0,) * (4 * version - 4))],
        ),
        ((3, 0x800001C0, 0, 1), 1, (0, 0, ["any"] * 13 + [values[3]]), []),
        ((4, 0x80000140, 0, 1), 3, None, [point(5, 0, ()), point(6, 1)]),
    ]
    return cert_bytes(version, kinds)


# An image that counts in a word of ram by four, the word as a cell; an image of two tasks that give
# way to each other, and its plan.
COUNTS = readers.elf_bytes(
    0x80000000, [(0x80000000, bytes.fromhex("911000FD19FF0008C21F8F3F00F159FF00083CF9"))]
)
CELLS = b"cell D0008000 00000000 00000003\n"
RICH_CELLS = b"cell D0008000 00000000 00000003\n\ncell D0010024 00000001 FFFFFFFF\ncell D0008FFC 80000000 80000000"
P8 = P0.replace(b'"areas":4', b'"areas":8')
SWITCH = "0D0040030D0000029110002DD922004819200800012002364D00E01F593100001B100000DF2004803B000000592008000120023619310000CD01E00F0D00C0040D0040020D008001"
TWO = readers.elf_bytes(
    0x80000000,
    [
        (0x80000000, bytes.fromhex("5C103CFF")),
        (0x80000010, bytes.fromhex("5C083CFF")),
        (0x80000020, bytes.fromhex(SWITCH)),
    ],
)
TASKS = b"switch 80000020 D0008100\ntask 80000000 D0009000\ntask 80000010 D0008C00\n"
# Seven tasks of that kind.
FIVE_MORE = [
    (0x80000070 + 4 * u, readers.code([f"call16 .-{0x50 + 4 * u}", "j16 .-2"])) for u in range(5)
]
SEVEN = readers.elf_bytes(0x80000000, [
    (0x80000000, bytes.fromhex("5C103CFF")), (0x80000010, bytes.fromhex("5C083CFF")), (0x80000020, readers.code(readers.routine_lines(7, 0xD0008100))), *FIVE_MORE,
])  # fmt: skip
RICH_TASKS = (
    b"\n"
    + TASKS
    + b"\n"
    + b"".join(b"task %08X D0008%03X\n" % (entry, 64 * u) for u, (entry, _) in enumerate(FIVE_MORE))
)


def with_boot(plan=P0, at=0x80000800):
    """The small image with the boot sequence of a plan."""
    return readers.elf_bytes(
        0x80000000, [(0x80000000, I1[84:]), (at, readers.boot_code(read_plan(plan), 0x80000000))]
    )


def registers(**known):
    """The values of the 27 registers of a point."""
    names = [
        *(f"d{n}" for n in range(16)),
        *(f"a{n}" for n in (2, 3, 4, 5, 6, 7, 10, 12, 13, 14, 15)),
    ]
    return [known.get(name, "any") for name in names]


def cells_cert():
    """A certificate of the image that counts, by hand."""
    at = {0: {}, 4: {"a15": [0xD0010000]}}
    for place, index in (
        (8, [0, 1, 2, 3]),
        (10, [1, 2, 3, 4]),
        (14, [0, 1, 2, 3]),
        (18, [0, 1, 2, 3]),
    ):
        at[place] = {**at[4], "d15": index}
    points = [
        (0x80000000 + place, 0, 0, 0, [], registers(a10=[0xD0009000], **known))
        for place, known in at.items()
    ]
    return cert_bytes(2, [((0, 0x80000000, 0, 0), 0, None, points)])


def task_cert(u):
    """A certificate of a task of the image of two tasks, by hand."""
    entry, sp = ((0x80000000, 0xD0009000), (0x80000010, 0xD0008C00))[u]
    point = lambda at, locals_held=(), **known: (
        at,
        0,
        0,
        0,
        list(locals_held),
        registers(a10=[sp], **known),
    )
    half, block = {"a2": [0xD0010000]}, {"a2": [0xD0008100]}
    other = {**block, "a3": (4, 0, 0xFFFFFFFF)}
    known = [{}, {}, {}, half, block, block, *[other] * 11, {}]
    points = [
        point(0x80000020 + 4 * n, (0,) if 2 <= n <= 16 else (), **known[n]) for n in range(18)
    ]
    start = ((0, entry, 0, 0), 2, None, [point(entry), point(entry + 2)])
    return cert_bytes(2, [start, ((1, 0x80000020, 0, 0), 1, (0, 0, ["any"] * 14), points)])


def changed(data, at, *values):
    return data[:at] + bytes(values) + data[at + len(values) :]


def nested():
    """An image with two interrupts, and its plan."""
    board = (
        P0.replace(b'"areas":4', b'"areas":8')
        .replace(b'"irqs":[]', b'"irqs":[10,20]')
        .replace(b'"ie":0', b'"ie":1')
    )
    image = readers.elf_bytes(0x80000000, [
        (0x80000000, bytes.fromhex("6D0004001D0000005C02009000900090")), (0x80000540, bytes.fromhex("E00A6DFF66FD0D0040020080")), (0x80000680, bytes.fromhex("0080")),
    ])  # fmt: skip
    return image, board


def forms():
    """Of each command words, the places of its inputs among them, and the inputs."""
    objects = {"o": readers.Source(S1).read(), "q": readers.Source(b".section text\nnop").read()}
    return {
        "check": (["check", "e", "p", "c"], [1, 2, 3], {"e": I1, "p": P0, "c": C0}),
        "run": (["run", "e", "p", "s"], [1, 2, 3], {"e": I1, "p": P0, "s": T1}),
        "cert": (["cert", "e", "p", "x"], [1, 2], {"e": I1, "p": P0}),
        "asm": (["asm", "s", "x"], [1], {"s": S1}),
        "link": (["link", "l", "x", "o", "q"], [1, 3, 4], {"l": L1, **objects}),
        "dis": (["dis", "e"], [1], {"e": I1}),
        "ship": (["ship", "p", "l", "x", "y", "s", "z"], [1, 2, 5, 6], {"p": P0, "l": L1, "s": S1, "z": b".section text\nnop"}),
        "cfg": (["cfg", "e", "p"], [1, 2], {"e": I1, "p": P0}),
        "report": (["report", "e", "p", "c"], [1, 2, 3], {"e": I1, "p": P0, "c": C0}),
        "boot": (["boot", "e", "p", "c", "80000800"], [1, 2, 3], {"e": with_boot(), "p": P0, "c": C0}),
        "bootgen": (["bootgen", "p", "80000000", "80000800", "x"], [1], {"p": P0}),
        "cells": (["cells", "e", "p", "k", "c"], [1, 2, 3, 4], {"e": COUNTS, "p": P0, "k": CELLS, "c": cells_cert()}),
        "cellcert": (["cellcert", "e", "p", "k", "x"], [1, 2, 3], {"e": COUNTS, "p": P0, "k": CELLS}),
        "tasks": (["tasks", "e", "p", "t", "c", "d"], [1, 2, 3, 4, 5], {"e": TWO, "p": P8, "t": TASKS, "c": task_cert(0), "d": task_cert(1)}),
        "taskcert": (["taskcert", "e", "p", "t", "x", "y"], [1, 2, 3], {"e": TWO, "p": P8, "t": TASKS}),
    }  # fmt: skip


def swapped(words, at, name):
    return [name if i == at else w for i, w in enumerate(words)]
