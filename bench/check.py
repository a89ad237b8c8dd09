#!/usr/bin/env python3
"""Makes an executable, a plan and a certificate of so many points that `check` accepts.

    check.py DIRECTORY SHAPE POINTS [WORDS]

writes image.elf, plan.json, cert.cert into the directory, and other.json, a plan with another stack
pointer, under which `check` reads all of the certificate and then refuses it at its first rule.
Shapes:

line        one frame of nop16, ended by a jump to itself; nothing is known but A10
functions   a main that calls functions of 100 points: nop16, moves, sums, loads, stores, branches,
            saved and restored lower contexts; D9 and A14 hold sets of WORDS words (8) at all points
interrupts  functions, with interrupts on and 16 stated, each with a handler of one instruction
"""
import json
import struct

import usage
from tcdlib import arguments

ROM, RAM, AREAS, VECTORS = 0x80000000, 0xD0010000, 0xD0000000, 0x800F0000
STACK, ISP = 0xD0018000, 0xD0014000
D9, A10, A14, A15 = 9, 22, 25, 26  # places in a state
PRIORITIES = range(10, 170, 10)
SVLCX, RSLCX = bytes.fromhex("0D000002"), bytes.fromhex("0D004002")
NOP, RET, RFE, STAY = (bytes.fromhex(code) for code in ("0000", "0090", "0080", "3C00"))


def half(op, s2, s1):
    return bytes((op, s2 << 4 | s1))


def call(at, to):
    k = (to - at) // 2 & 0xFFFFFF
    return bytes((0x6D, k >> 16, k & 255, k >> 8 & 255))


def movh_a(c, k):
    return struct.pack("<I", c << 28 | k << 12 | 0x91)


class Code:
    """Bytes, and the points before their instructions."""

    def __init__(self, at):
        self.at, self.bytes, self.points = at, b"", []

    def put(self, code, known, locals=()):
        self.points.append((self.at, dict(known), tuple(locals)))
        self.bytes += code
        self.at += len(code)


def body(code, known):
    """Eleven points at which the state is `known`, but for D1, and a local in two of them."""
    three, four = dict(known), dict(known)
    three[1], four[1] = (3,), (4,)
    code.put(NOP, known)
    code.put(half(0x82, 3, 1), known)  # mov16 d1, 3
    code.put(half(0xC2, 1, 1), three)  # add16 d1, 1
    code.put(half(0x54, 15, 2), four)  # ld16.w d2, [a15]
    code.put(half(0x74, 14, 2), four)  # st16.w [a14], d2
    code.put(half(0xC2, 0, 9), four)  # add16 d9, 0
    code.put(bytes((0x6E, 2)), four)  # jz16.d15 over the next one
    code.put(NOP, four)
    code.put(SVLCX, four)
    code.put(NOP, four, [False])
    code.put(RSLCX, four, [False])


def function(at, known):
    code = Code(at)
    for _ in range(9):
        body(code, known)
    code.put(RET, known)
    return code


def main_of(functions, padding):
    """A15 is the first word of ram and A14 the same, D9 is 0; then the calls."""
    code = Code(ROM)
    known = {A10: (STACK,)}
    code.put(movh_a(15, RAM >> 16), known)
    known[A15] = (RAM,)
    code.put(half(0x40, 15, 14), known)  # mov16.aa a14, a15
    known[A14] = (RAM,)
    code.put(half(0x82, 0, 9), known)  # mov16 d9, 0
    known[D9] = (0,)
    for to in functions:
        code.put(call(code.at, to), known)
    for _ in range(padding):
        code.put(NOP, known)
    code.put(STAY, known)
    return code


def value(words):
    if words is None:
        return b"\0"
    return bytes((len(words),)) + struct.pack("<%dI" % len(words), *words)


def point(at, known, locals, ie, ccpn, lower):
    flags = bytes((len(locals), *locals))
    return (
        struct.pack("<IBBB", at, ie, ccpn, lower)
        + flags
        + b"".join(value(known.get(i)) for i in range(27))
    )


def node(key, need, points, exit=None):
    kind, entry, prio, own_stack = key
    head = struct.pack("<BIBBH", kind, entry, prio, own_stack, need)
    ends = b"\0" if exit is None else bytes((1, exit, 0)) + bytes(14)
    return head + ends + struct.pack("<I", len(points)) + b"".join(points)


def frame(key, need, code, ie, exit=None):
    return node(key, need, [point(*p, ie, 0, 0) for p in code.points], exit)


def executable(segments):
    at = 52 + 32 * len(segments)
    heads, data = b"", b""
    for address, content in segments:
        heads += struct.pack(
            "<8I", 1, at + len(data), address, address, len(content), len(content), 5, 1
        )
        data += content
    ident = b"\x7fELF\1\1\1" + bytes(9)
    return (
        ident
        + struct.pack("<HHIIIIIHHHHHH", 2, 44, 1, ROM, 52, 0, 0, 52, 32, len(segments), 0, 0, 0)
        + heads
        + data
    )


def plan(stack, irqs, rom=0x100000):
    return json.dumps(
        {
            "rom": [{"at": ROM, "len": rom}],
            "ram": [{"at": RAM, "len": 0x8000}],
            "devices": [],
            "csa": {"at": AREAS, "areas": 64, "reserve": 2},
            "sp": stack,
            "isp": ISP,
            "biv": VECTORS,
            "btv": VECTORS + 0x8000,
            "irqs": list(irqs),
            "traps": [],
            "start": {"ie": int(len(irqs) > 0), "ccpn": 0, "is": 0},
            "globals": {"a0": 0, "a1": 0, "a8": 0, "a9": 0},
        }
    )


def line(points):
    code = Code(ROM)
    for _ in range(points - 1):
        code.put(NOP, {A10: (STACK,)})
    code.put(STAY, {A10: (STACK,)})
    return [(ROM, code.bytes)], [frame((0, ROM, 0, 0), 0, code, 0)], []


def handlers():
    codes, nodes = b"", []
    for prio in PRIORITIES:
        at = VECTORS | prio << 5
        codes += bytes(at - VECTORS - len(codes)) + RFE
        nodes.append(node((2, at, prio, 1), 0, [point(at, {A10: (ISP,)}, (), 0, prio, 1)]))
    return codes, nodes


def functions(points, width, interrupts):
    handled, own = handlers() if interrupts else (b"", [])
    count = (points - 4 - len(own)) // 101
    size = len(function(0, {}).bytes)
    first = ROM + 0x1000 + 4 * count // 0x1000 * 0x1000
    starts = [first + size * i for i in range(count)]
    known = {
        A10: (STACK,),
        A15: (RAM,),
        D9: tuple(4 * i for i in range(width)),
        A14: tuple(RAM + 4 * i for i in range(width)),
    }
    codes = [function(at, known) for at in starts]
    main = main_of(starts, points - 4 - len(own) - 101 * count)
    assert main.at <= first and codes[-1].at <= VECTORS
    need, ie = (2, 1) if interrupts else (1, 0)
    nodes = [frame((0, ROM, 0, 0), need + 1, main, ie)]
    nodes += [frame((1, code.points[0][0], 0, 0), need, code, ie, ie) for code in codes]
    segments = [(ROM, main.bytes), (first, b"".join(code.bytes for code in codes))]
    return (
        segments + [(VECTORS, handled)] * interrupts,
        nodes + own,
        PRIORITIES if interrupts else [],
    )


def made(shape, points, width):
    if shape == "line":
        return line(points)
    return functions(points, width, shape == "interrupts")


def main(directory, shape, points, width=8):
    segments, nodes, irqs = made(shape, int(points), int(width))
    files = {
        "image.elf": executable(segments),
        "plan.json": plan(STACK, irqs).encode(),
        "other.json": plan(STACK - 8, irqs).encode(),
        "cert.cert": struct.pack("<4sHH", b"TCDC", 1, len(nodes)) + b"".join(nodes),
    }
    for name, content in files.items():
        with open(f"{directory}/{name}", "wb") as file:
            file.write(content)


def of_words(given):
    """Reads the words, and writes the files."""
    parser = arguments.Parser("directory")
    parser.add_argument("shape", choices=("line", "functions", "interrupts"))
    parser.add_argument("points", type=usage.between(200, 65536))
    parser.add_argument("width", nargs="?", type=usage.between(1, 64), default=8)
    main(**vars(parser.parsed(given)))


if __name__ == "__main__":
    arguments.ended(__doc__, of_words)
