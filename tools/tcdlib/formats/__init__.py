"""Readers of tcd's formats, written from docs/formats.md alone, for tests/try_hostile.py and others.

Each reader gives its value, or raises `Bad` with the line that a command has to print. They share
nothing with the product except the table of instructions (crates/tc_isa/specs/Rows.antt), which
docs/formats.md names as the table. All are reached by this module. Here is what is made of the
files: what the linker writes, cells as devices, views of tasks, and the code that tcd knows.
"""
# flake8: noqa: F401
from tcdlib.formats.binary import (
    CERT_LIMIT,
    FILE_LIMIT,
    WORDS,
    Bad,
    Certificate,
    ObjectFile,
    elf,
    elf_bytes,
    le,
    le32,
    number,
    object_bytes,
)
from tcdlib.formats.sources import BY_CODE, K, ROWS, Source, code, listing, put, signed, taken
from tcdlib.formats.texts import cells, in_one, layout, plan, ranges_without, script, tasks

# Linking


def patched(word, kind, value, place):
    """The word with a relocation's field filled; a number of RelocErr in place of it."""
    distance = (value - place + (1 << 31)) % WORDS - (1 << 31)
    if (distance if kind in (1, 3) else value if kind == 2 else 0) % 2:
        return 1, None
    if kind in (1, 3):
        half = distance // 2
        if not -(1 << (23 if kind == 1 else 14)) <= half < 1 << (23 if kind == 1 else 14):
            return 2, None
        if kind == 1:
            return None, word & 0xFF | (half & 0xFFFF) << 16 | (half >> 16 & 0xFF) << 8
        return None, word & ~(0x7FFF << 16) | (half & 0x7FFF) << 16
    if kind == 2:
        if value >> 21 & 127:
            return 3, None
        k = value >> 28 << 20 | value >> 1 & 0xFFFFF
        return None, word & 0xFF | (k & 0xFFFF) << 16 | (k >> 16) << 8
    if kind == 7:
        return None, value
    k = (value + 0x8000 >> 16 if kind == 4 else value) & 0xFFFF
    if kind == 6:
        return None, word & 0xFFFF | (k >> 6 & 15) << 28 | (k >> 10) << 22 | (k & 63) << 16
    return None, word & ~(0xFFFF << 12) | k << 12


def link(plan_of_places, objects):
    """The executable's bytes."""
    entry, places = plan_of_places
    named, at_global, ends, bases = {p[0]: p for p in places}, {}, {p[0]: 0 for p in places}, {}
    owners = {}
    for o, (_, symbols, _) in enumerate(objects):
        for name, kind, section, offset in symbols:
            if kind == 2:
                owners.setdefault(name, []).append(o)
                at_global.setdefault(name, (o, section, offset))
    twice = next(
        (s[0] for _, symbols, _ in objects for s in symbols if s[1] == 2 and len(owners[s[0]]) > 1),
        None,
    )
    if twice is not None:
        raise Bad(f"link 1 name {twice.decode()}")
    for _, symbols, relocations in objects:
        used = {r[3] for r in relocations}
        for i, (name, kind, _, _) in enumerate(symbols):
            if i in used and kind == 0 and name not in at_global:
                raise Bad(f"link 2 name {name.decode()}")
    for sections, symbols, _ in objects:
        for i, (name, held) in enumerate(sections):
            if name not in named and (held or any(s[1] and s[2] == i for s in symbols)):
                raise Bad(f"link 3 name {name.decode()}")
    for o, (sections, _, _) in enumerate(objects):
        for i, (name, held) in enumerate(sections):
            if name in named:
                bases[o, i] = -(-ends[name] // 4) * 4
                ends[name] = bases[o, i] + len(held)
                if ends[name] > named[name][2] or sum(ends.values()) > FILE_LIMIT:
                    raise Bad(f"link 4 name {name.decode()}")
    spaces = {name: bytearray(ends[name]) for name, _, _ in places}
    for o, (sections, _, _) in enumerate(objects):
        for i, (name, held) in enumerate(sections):
            if name in named:
                spaces[name][bases[o, i] : bases[o, i] + len(held)] = held
    address = lambda o, i, offset: (named[objects[o][0][i][0]][1] + bases[o, i] + offset) % WORDS
    for o, (sections, symbols, relocations) in enumerate(objects):
        for section, offset, kind, symbol, addend in relocations:
            name, defined, i, at = symbols[symbol]
            value = (address(o, i, at) if defined else address(*at_global[name])) + addend
            space, start = spaces[sections[section][0]], bases[o, section] + offset
            fault, word = patched(
                number(space, start, 4), kind, value % WORDS, address(o, section, offset)
            )
            if fault:
                raise Bad(f"link 5 at {o} {section} {offset} {fault}")
            space[start : start + 4] = word.to_bytes(4, "little")
    if entry not in at_global:
        raise Bad("link 6")
    return elf_bytes(
        address(*at_global[entry]),
        [(at, bytes(spaces[name])) for name, at, _ in places if spaces[name]],
    )


# Cells, and code that tcd knows: the switch routine, the boot sequence


def with_cells(board, found):
    """The plan in which cells are devices."""
    ram = board["ram"]
    for at, _, _ in found:
        ram = ranges_without(ram, at, 4)
    return {
        **board,
        "ram": ram,
        "devices": board["devices"]
        + [{"at": at, "len": 4, "lo": lo, "hi": hi} for at, lo, hi in found],
    }


def high(x):
    return (x + 0x8000 >> 16) & 0xFFFF


def low(x):
    return signed(x & 0xFFFF, 16)


def routine_lines(count, block):
    """The routine by which one of so many tasks gives way."""
    return [
        "disable", "svlcx", f"movh.a a2, {high(block)}", f"lea.l a2, [a2]{low(block)}", f"ld.w.l d0, [a2]{4 * count}", "addsc.a a3, a2, d0, 2",
        "mfcr d1, 0xFE00", "st.w.l [a3]0, d1", "addi d0, d0, 1", f"jne d0, {count}, .+8", "mov d0, 0", f"st.w.l [a2]{4 * count}, d0",
        "addsc.a a3, a2, d0, 2", "ld.w.l d1, [a3]0", "mtcr 0xFE00, d1", "isync", "rslcx", "ret",
    ]  # fmt: skip


def byte_at(segments, x):
    """The byte that a segment holds, or None."""
    return next((held[x - at] for at, held in segments if at <= x < at + len(held)), None)


def routine_fault(image, board, found):
    """The first address at which the routine isn't there, or None."""
    at, block, list_of_tasks = found
    rom = in_one(board["rom"], at, 1)
    for i, byte in enumerate(code(routine_lines(len(list_of_tasks), block))):
        if rom is None or not in_one([rom], at + i, 1) or byte_at(image[1], at + i) != byte:
            return (at + i) % WORDS
    return None


def view_image(image, found, u):
    """The executable of a task's view."""
    changes = {4: "mfcr d0, 0", 6: "mfcr d1, 0", 7: "nop", 11: "nop", 13: "mfcr d1, 0", 14: "nop"}
    put_there = {
        found[0] + 4 * n + i: byte
        for n, line in changes.items()
        for i, byte in enumerate(code([line]))
    }
    segments = [
        (at, bytes(put_there.get(at + i, byte) for i, byte in enumerate(held)))
        for at, held in image[1]
    ]
    return elf_bytes(found[2][u][0], segments)


def view_plan(board, found, u):
    """The plan of a task's view."""
    left = ranges_without(board["ram"], found[1], 4 * len(found[2]) + 4)
    devices = board["devices"] + [{**r, "lo": 0, "hi": WORDS - 1} for r in left]
    start = {**board["start"], "ie": board["start"]["ie"] if u == 0 else 0}
    return {**board, "ram": [], "devices": devices, "sp": found[2][u][1], "start": start}


def boot_code(board, entry):
    """The bytes of the boot sequence."""
    areas, start = board["csa"], board["start"]
    first = (areas["at"] >> 28) << 16 | (areas["at"] & 0xFFFFFFF) >> 6
    core = lambda number, x: [
        f"movh d0, {high(x)}",
        f"addi d0, d0, {low(x)}",
        f"mtcr {number}, d0",
        "isync",
    ]
    addr = lambda r, x: [f"movh.a {r}, {high(x)}", f"lea.l {r}, [{r}]{low(x)}"]
    lines = (
        core(0xFE2C, start["ccpn"])
        + core(0xFE00, 0)
        + core(0xFE38, first)
        + core(0xFE3C, first + areas["areas"] - areas["reserve"])
    )
    lines += (
        core(0xFE20, board["biv"])
        + core(0xFE24, board["btv"])
        + core(0xFE28, board["isp"])
        + core(0xFE04, 0xB7F if start["is"] else 0x97F)
    )
    lines += [
        f"movh d0, {high(first)}",
        f"addi d0, d0, {low(first)}",
        *addr("a2", areas["at"]),
        f"mov d1, {areas['areas'] - 1}",
        "mov.a a3, d1",
    ]
    lines += [
        "addi d0, d0, 1",
        "st.w [a2+]64, d0",
        "loop a3, .-8",
        "mov d1, 0",
        "st.w.l [a2]-64, d1",
    ]
    lines += [line for name, x in board["globals"].items() for line in addr(name, x)]
    return code(lines + addr("a10", board["sp"]) + addr("a15", entry) + ["ji a15"])


def boot_fault(image, board, at):
    """What is against a boot sequence at an address, as it is printed, or None."""
    if board["start"]["ie"]:
        return "1"
    if at % 2 or image[0] % 2:
        return "2"
    if not in_one(board["rom"], at, 224) or any(
        byte_at(image[1], at + i) is None for i in range(224)
    ):
        return "3"
    wanted = boot_code(board, image[0])
    return next(
        (f"4 at {at + i:08X}" for i in range(224) if byte_at(image[1], at + i) != wanted[i]), None
    )
