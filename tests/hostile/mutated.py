"""Cases of try_hostile.py: fronts of files, flipped bits, changed bytes, parts cut out."""
import random

from hostile.answers import read_cert, read_elf, read_plan
from hostile.inputs import (
    C0,
    CERTS,
    FAR_SOURCE,
    I1,
    L1,
    P0,
    RICH_CELLS,
    RICH_LAYOUT,
    RICH_PLAN,
    RICH_SCRIPT,
    RICH_SOURCE,
    RICH_TASKS,
    S1,
    SEVEN,
    changed,
    first_cert,
    forms,
    nested,
    rich_cert,
    rich_elf,
    with_boot,
)
from hostile.known import made_rows
from tcdlib import formats as readers
from tcdlib.formats import Bad


def every(count, most):
    """At most so many numbers below count, at fixed steps."""
    step = max(1, -(-count // most)) if most else 1
    return range(0, count, step)


def mutations(data, most, seed, text):
    """Fronts, flipped bits, changed bytes, cuts of a file: what was done, where, the bytes."""
    draw = random.Random(seed)
    for n in every(len(data), most):
        yield "a front", n, data[:n]
    for n in every(len(data) * 8, most * 3):
        yield "a bit flipped", n // 8, data[: n // 8] + bytes([data[n // 8] ^ 1 << n % 8]) + data[
            n // 8 + 1 :
        ]
    marks = (
        b' \t\r\n\0,:-+.#[]()0x9aAdF\x80\xff"\\{}'
        if text
        else b"\0\1\2\3\5\x20\x40\x41\x7f\x80\x81\xf0\xf1\xf2\xfe\xff"
    )
    for i in every(len(data), most):
        for _ in range(2):
            byte = draw.choice(marks) if draw.random() < 0.7 else draw.randrange(256)
            if byte != data[i]:
                yield "a byte changed", i, data[:i] + bytes([byte]) + data[i + 1 :]
    for i in every(max(len(data) - 9, 0), most):
        yield "ten bytes cut out", i, data[:i] + data[i + 10 :]


def place_of(bench, title, words, files, vary, text=False, most=700):
    """All mutations of one input of a command, or about so many of each kind."""
    bench.only(files)
    data = files[vary]
    most = 12 if bench.quick else most
    for what, at, changed in mutations(data, most, title, text):
        bench.put(vary, changed)
        status, out = bench.case(what, words)
        if status == 0:
            bench.zeros[title].append((what, at, same_value(vary, data, changed), out))
    bench.put(vary, data)


def same_value(vary, old, new):
    """How the values of both files differ, for the list of what is still done."""
    try:
        if vary == "e":
            (entry, segments), (other, others) = read_elf(old), read_elf(new)
            return ", ".join(["entry"] * (entry != other) + ["segments"] * (segments != others))
        if vary == "p":
            one, two = read_plan(old), read_plan(new)
            return ", ".join(k for k in one if one[k] != two[k])
        if vary in CERTS:
            return certs_differ(read_cert(old), read_cert(new))
    except Bad:
        return "?"
    return {"s": "another source or script", "k": "other cells", "t": "other tasks"}.get(
        vary, "another object or layout"
    )


def certs_differ(one, two):
    out = ["version"] * (one[0] != two[0])
    if [n[0] for n in one[1]] != [n[0] for n in two[1]]:
        return ", ".join(out + ["nodes"])
    for a, b in zip(one[1], two[1]):
        out += [
            f"{name} of {a[0][0]} {a[0][1]:08X}"
            for name, i in (("need", 1), ("exit", 2), ("points", 3))
            if a[i] != b[i]
        ]
    return ", ".join(out)


def mutated():
    """Each input that is changed: title, words, files, which one, whether a text, how many."""
    small, check = {"e": I1, "p": P0, "c": C0}, ["check", "e", "p", "c"]
    board, image = RICH_PLAN, rich_elf()
    for vary in "epc":
        yield f"check, {vary} of the small ones", check, small, vary, vary == "p"
    yield "check, e of several headers", check, {"e": image, "p": P0, "c": C0}, "e"
    yield "check, p of all keys", check, {"e": I1, "p": board, "c": C0}, "p", True
    for version in (1, 2):
        yield f"check, c of all fields, version {version}", check, {
            "e": I1,
            "p": board,
            "c": rich_cert(version),
        }, "c"
    found = made_rows(*nested())
    for title, number in (("a call", 0), ("interrupts", 3), ("a table", 8)):
        for vary in "ep":
            yield f"cert, {vary} of {title}", ["cert", "e", "p", "x"], found[number][
                1
            ], vary, vary == "p"
    for vary in "eps":
        yield f"run, {vary}", ["run", "e", "p", "s"], {
            "e": I1,
            "p": board,
            "s": RICH_SCRIPT,
        }, vary, vary != "e"
    yield "asm, a small source", ["asm", "s", "o"], {"s": S1}, "s", True
    yield "asm, a source of all statements", ["asm", "s", "o"], {"s": RICH_SOURCE}, "s", True
    for vary in "lo":
        yield f"link, {vary} of the small ones", ["link", "l", "e", "o"], {
            "l": L1,
            "o": readers.Source(S1).read(),
        }, vary, vary == "l"
    rich_objects = {
        "l": RICH_LAYOUT,
        "a": readers.Source(RICH_SOURCE).read(),
        "b": readers.Source(FAR_SOURCE).read(),
    }
    for vary in "lab":
        yield f"link, {vary} of two objects", [
            "link",
            "l",
            "e",
            "a",
            "b",
        ], rich_objects, vary, vary == "l"
    yield "dis, e of several headers", ["dis", "e"], {"e": image}, "e"
    yield "dis, the small e", ["dis", "e"], {"e": I1}, "e"
    yield from mutated_later(found)


def mutated_later(found):
    """Those of the commands that stand on `check` and `cert`, fewer of each."""
    board = RICH_PLAN.replace(b'"ie": 1', b'"ie": 0')
    for command in ("ship", "report", "boot", "cells", "cellcert", "tasks", "taskcert", "bootgen"):
        words, places, files = forms()[command]
        for name in (words[at] for at in places):
            yield f"{command}, {name}", words, files, name, name in "pslztk", 110
    for title, number in (("interrupts", 3), ("a table", 8), ("a system call", 12)):
        for vary in "ep":
            yield f"cfg, {vary} of {title}", ["cfg", "e", "p"], found[number][
                1
            ], vary, vary == "p", 110
    yield "bootgen, p of all keys", ["bootgen", "p", "80000000", "00000002", "x"], {
        "p": RICH_PLAN
    }, "p", True, 300
    yield "boot, e under a plan of all keys", ["boot", "e", "p", "c", "80000800"], {
        "e": with_boot(board),
        "p": board,
        "c": first_cert(),
    }, "e", False, 400
    yield "cellcert, three cells", ["cellcert", "e", "p", "k", "x"], {
        "e": I1,
        "p": RICH_PLAN,
        "k": RICH_CELLS,
    }, "k", True, 400
    yield "taskcert, seven tasks", ["taskcert", "e", "p", "t", *[f"x{u}" for u in range(7)]], {
        "e": SEVEN,
        "p": board.replace(b'"areas": 8', b'"areas": 24'),
        "t": RICH_TASKS,
    }, "t", True, 400
    yield "ship, a source of all statements", ["ship", "p", "l", "x", "y", "s", "z"], {
        "p": P0,
        "l": RICH_LAYOUT,
        "s": RICH_SOURCE,
        "z": FAR_SOURCE,
    }, "s", True, 200
