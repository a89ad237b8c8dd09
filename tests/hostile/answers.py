"""What each command of tcd has to answer, by the second readers of its formats. For try_hostile.py.

An answer is the status, the text (or a test of status and text, where these readers can't judge a
certificate), and the files that are written, in their order, each with its bytes or a test of them.
"""
import functools
import json
import re

from tcdlib import formats as readers
from tcdlib import machine
from tcdlib.formats import Bad

FAULT = None  # in place of the bytes of a file that can't be read or written
KEY = rb"(start|call|irq|sys|aln) ([0-9A-F]{8}) prio ([0-9]{1,3}) is ([01])"
KINDS = {b"start": 0, b"call": 1, b"irq": 2, b"sys": 3, b"aln": 4}
NEVER_MADE = (
    3,
    5,
    6,
    7,
    8,
    9,
    10,
    12,
    13,
    14,
    15,
)  # the rules that no certificate may be able to keep
ADDRESS = re.compile("[0-9A-F]{8}")
MOST_TURNS = 20000  # of a script that is also played by tools/tcdlib/machine.py


@functools.lru_cache(maxsize=64)
def read_elf(data):
    return readers.elf(data)


@functools.lru_cache(maxsize=64)
def read_plan(data):
    return readers.plan(data)


@functools.lru_cache(maxsize=64)
def read_cert(data):
    return readers.Certificate(data).read()


# Inputs


def given(files, name, what, limit=readers.FILE_LIMIT, place=""):
    """The bytes of an input."""
    data = files.get(name, FAULT)
    if data is FAULT:
        raise OSError
    if len(data) > limit:
        raise Bad(f"{what} 0{place}")
    return data


def image_and_plan(files, words):
    image = read_elf(given(files, words[1], "elf"))
    return image, read_plan(given(files, words[2], "plan"))


def nodes_of(files, name):
    """The nodes of a certificate, by their keys."""
    return {node[0]: node for node in read_cert(given(files, name, "cert", readers.CERT_LIMIT))[1]}


def start_of(entry, board):
    """The key of the start."""
    return 0, entry, 0, board["start"]["is"]


def spare_of(board):
    return board["csa"]["areas"] - board["csa"]["reserve"]


# Certificates that are checked


def check(files, words):
    image, board = image_and_plan(files, words)
    nodes = nodes_of(files, words[3])
    return (
        None,
        functools.partial(
            judged, start_of(image[0], board), nodes, board, "certified %d of %d areas\n"
        ),
        {},
    )


def refusal(text):
    """The rule, the address and the key of a refusal, or no rule."""
    found = re.fullmatch(rb"refused K([0-9]+) at ([0-9A-F]{8}) in " + KEY + b"\n", text)
    if not found:
        return 0, 0, None
    key = (KINDS[found.group(3)], int(found.group(4), 16), int(found.group(5)), int(found.group(6)))
    return int(found.group(1)), int(found.group(2), 16), key


def judged(start, nodes, board, line, status, text, more=()):
    """Whether a line can be right for a certificate of these nodes. `line` takes its number and how
    many areas there are; `more` are rules beside those of certificates."""
    if status == 0:
        need = nodes[start][1] if start in nodes else 4097
        return need <= spare_of(board) and text == (line % (need, spare_of(board))).encode()
    rule, at, key = refusal(text)
    if status != 1 or not rule:
        return False
    if rule == 1:
        return key == start and at == start[1]
    return (
        (2 <= rule <= 14 or rule in more)
        and key in nodes
        and (at == key[1] or at in [p[0] for p in nodes[key][3]])
    )


def report(files, words):
    image, board = image_and_plan(files, words)
    nodes = nodes_of(files, words[3])
    return None, functools.partial(reported, start_of(image[0], board), nodes, board), {}


def key_text(key):
    kinds = {number: name.decode() for name, number in KINDS.items()}
    return f"{kinds[key[0]]} {key[1]:08X} prio {key[2]} is {key[3]}"


def reported(start, nodes, board, status, text):
    """Whether a line of `report` can be right: all but the longest rows of calls is known."""
    if status:
        return judged(start, nodes, board, "", status, text)
    if start not in nodes or nodes[start][1] > spare_of(board):
        return False
    prios = sorted({key[2] for key in nodes})
    longest = [int(n) for n in re.findall(rb'{"longest":([0-9]{1,4}),', text)]
    wanted = {
        "areas": board["csa"]["areas"], "calls": [{"longest": n, "prio": p} for n, p in zip(longest, prios)], "certified": nodes[start][1],
        "nodes": [{"key": key_text(key), "need": nodes[key][1], "points": len(nodes[key][3])} for key in sorted(nodes)], "reserve": board["csa"]["reserve"],
    }  # fmt: skip
    return (
        len(longest) == len(prios)
        and max(longest) < len(nodes)
        and text == (json.dumps(wanted, separators=(",", ":")) + "\n").encode()
    )


def boot(files, words):
    image, board = image_and_plan(files, words)
    nodes = nodes_of(files, words[3])
    fault = readers.boot_fault(image, board, int(words[4], 16))
    return None, functools.partial(booted, start_of(image[0], board), nodes, board, fault), {}


def booted(start, nodes, board, fault, status, text):
    """Whether a line of `boot` can be right; `fault` is what is against the sequence."""
    if status == 0 or text.startswith(b"refused boot"):
        right = start in nodes and nodes[start][1] <= spare_of(board)
        events = 53 + 3 * board["csa"]["areas"]
        line = (
            f"refused boot {fault}\n"
            if fault
            else f"boot {events} events certified {nodes[start][1]} of {spare_of(board)} areas\n"
            if right
            else ""
        )
        return right and (status, text) == (1 if fault else 0, line.encode())
    return judged(start, nodes, board, "", status, text)


def cells(files, words):
    image, board = image_and_plan(files, words)
    found = readers.cells(given(files, words[3], "cells"), board)
    nodes = nodes_of(files, words[4])
    line = f"certified %d of %d areas with {len(found)} cells\n"
    return (
        None,
        functools.partial(judged, start_of(image[0], board), nodes, board, line, more=(16,)),
        {},
    )


def tasks_of(files, words):
    """The image, the plan and the tasks, where there are as many names of certificates as tasks."""
    image, board = image_and_plan(files, words)
    found = readers.tasks(given(files, words[3], "tasks"), board)
    if len(found[2]) != len(words) - 4:
        raise Bad("tasks 7")
    return image, board, found


def tasks(files, words):
    image, board, found = tasks_of(files, words)
    nodes = [nodes_of(files, name) for name in words[4:]]
    return None, functools.partial(tasks_judged, image, board, found, nodes), {}


def tasks_judged(image, board, found, nodes, status, text):
    """Whether a line of `tasks` can be right for these nodes (of none, for `taskcert`)."""
    fault = readers.routine_fault(image, board, found)
    if fault is not None:
        return (status, text) == (1, b"refused switch at %08X\n" % fault)
    spare = spare_of(board)
    said = re.fullmatch(
        rb"certified ([0-9]+) of ([0-9]+) areas in ([0-9]+) tasks\n|refused sum ([0-9]+) of ([0-9]+) areas\n",
        text,
    )
    if said:
        total = int(said.group(1) or said.group(4))
        line = (
            b"certified %d of %d areas in %d tasks\n" % (total, spare, len(found[2]))
            if status == 0
            else b"refused sum %d of %d areas\n" % (total, spare)
        )
        return (
            text == line
            and status == (0 if total <= spare else 1)
            and (not nodes or total == sum_of_needs(board, found, nodes))
        )
    refused = re.fullmatch(rb"(refused .*) of task ([0-6])\n", text)
    if not refused or int(refused.group(2)) >= len(found[2]):
        return False
    u = int(refused.group(2))
    view, start = readers.view_plan(board, found, u), (0, found[2][u][0], 0, 0)
    if nodes:
        return judged(start, nodes[u], view, "", status, refused.group(1) + b"\n", more=(17,))
    return made(start, view, (17,), "", status, refused.group(1) + b"\n")


def sum_of_needs(board, found, nodes):
    """The sum of the needs of all tasks, or None where one has no start."""
    starts = [(0, entry, 0, board["start"]["is"]) for entry, _ in found[2]]
    if any(start not in held for start, held in zip(starts, nodes)):
        return None
    needs = [held[start][1] for start, held in zip(starts, nodes)]
    return needs[0] + sum(max(need, 2) for need in needs[1:])


# Certificates that are made


def cert(files, words):
    image, board = image_and_plan(files, words)
    start = start_of(image[0], board)
    return (
        None,
        functools.partial(made, start, board, (), "certified %d of %d areas\n"),
        {words[3]: functools.partial(has_start, start, (1, 2))},
    )


def made(start, board, more, line, status, text):
    """Whether a line can be right if a certificate is made; hostile/beside.py judges the file."""
    spare = spare_of(board)
    if status == 0:
        found = re.match(rb"certified ([0-9]+) of", text)
        return (
            bool(found)
            and int(found.group(1)) <= spare
            and text == (line % (int(found.group(1)), spare)).encode()
        )
    rule, _, key = refusal(text)
    return status == 1 and rule in (*NEVER_MADE, *more) and frame_of(start, board, key)


def frame_of(start, board, key):
    """Whether frames of this key can be entered under the plan."""
    kind, entry, prio, stack = key
    if kind < 2:
        return key == start if kind == 0 else prio == 0 or prio in board["irqs"]
    vector = {2: board["biv"] | prio << 5, 3: board["btv"] | 0xC0, 4: board["btv"] | 0x40}[kind]
    allowed = prio in board["irqs"] if kind == 2 else {3: "sys", 4: "aln"}[kind] in board["traps"]
    return entry == vector and stack == 1 and allowed and (prio == 0 or prio in board["irqs"])


def has_start(start, versions, data):
    """Whether these bytes are a certificate of one of these versions with a node of the start."""
    try:
        version, nodes = read_cert(data)
        return version in versions and start in [node[0] for node in nodes]
    except Bad:
        return False


def ship(files, words):
    board = read_plan(given(files, words[1], "plan"))
    places = readers.layout(given(files, words[2], "layout"))
    objects = []
    for i, name in enumerate(words[5:]):
        text = given(files, name, "source", place=f" at {i}")
        try:
            objects.append(readers.ObjectFile(readers.Source(text).read(), i).read())
        except Bad as e:
            raise Bad(e.args[0].replace(" at 0 ", f" at {i} ")) from None
    image = readers.link(places, objects)
    start = start_of(readers.elf(image)[0], board)
    written = {words[3]: image, words[4]: functools.partial(has_start, start, (1, 2))}
    return None, functools.partial(made, start, board, (), "certified %d of %d areas\n"), written


def cfg(files, words):
    image, board = image_and_plan(files, words)
    return None, functools.partial(drawn, start_of(image[0], board), board), {}


LINE = re.compile(KEY + rb": ([0-9A-F]{8}) (?:(to|call|back|sys|aln|irq) ([0-9A-F]{8})|(ret|rfe))")
WAYS = [b"to", b"call", b"back", b"sys", b"aln", b"irq", b"ret", b"rfe"]


def graph(text):
    """The lines of a graph as (key, address, way, address), or None."""
    found = [LINE.fullmatch(line) for line in text.split(b"\n")[:-1]]
    if not found or None in found or not text.endswith(b"\n"):
        return None
    return [
        (
            (KINDS[f[1]], int(f[2], 16), int(f[3]), int(f[4])),
            int(f[5], 16),
            f[6] or f[8],
            int(f[7] or b"0", 16),
        )
        for f in found
    ]


def drawn(start, board, status, text):
    """Whether lines of `cfg` can be right: in order, each once, of frames that can be entered."""
    if status:
        return made(start, board, (), "", status, text)
    lines = graph(text)
    if not lines or lines[0][0] != start:
        return False
    # interrupts are ordered by priority; a vector doesn't show it if it shares bits with the table
    order = [(key, at, WAYS.index(way), 0 if way == b"irq" else to) for key, at, way, to in lines]
    return (
        order == sorted(order)
        and len(set(lines)) == len(lines)
        and all(frame_of(start, board, key) for key, *_ in lines)
    )


def cellcert(files, words):
    image, board = image_and_plan(files, words)
    found = readers.cells(given(files, words[3], "cells"), board)
    start, line = start_of(image[0], board), f"certified %d of %d areas with {len(found)} cells\n"
    return (
        None,
        functools.partial(made, start, board, (16,), line),
        {words[4]: functools.partial(has_start, start, (2,))},
    )


def taskcert(files, words):
    image, board, found = tasks_of(files, words)
    written = {
        name: functools.partial(has_start, (0, entry, 0, 0), (2,))
        for name, (entry, _) in zip(words[4:], found[2])
    }
    return None, functools.partial(tasks_judged, image, board, found, []), written


def gen(_, words):
    count = int(words[1])
    return (
        0,
        f"functions {count} nodes {count + 34} points {4 * count + 120} certified {48 + count.bit_length()} of 240 areas\n",
        {},
    )


# Everything else


def bootgen(files, words):
    board = read_plan(given(files, words[1], "plan"))
    entry, at = (int(word, 16) for word in words[2:4])
    return (
        0,
        "boot 56 instructions\n",
        {words[4]: readers.listing([(at, readers.boot_code(board, entry))]).encode()},
    )


def run(files, words):
    image, board = image_and_plan(files, words)
    text = given(files, words[3], "script")
    turns = readers.script(text, board)
    if turns > MOST_TURNS:
        return None, functools.partial(driven, turns), {}
    return 0, machine.drive(machine.Machine.start(image, board), board, text) + "\n", {}


def driven(turns, status, text):
    """Whether a line of `run` can be right for so many turns."""
    found = re.fullmatch(
        rb"events (\d+) peak (\d+) (running|dead (fcd|fcu|csu|ctyp|notlisted|nocode|noarea) at [0-9A-F]{8})\n",
        text,
    )
    if status or not found or int(found.group(2)) > 4096:
        return False
    return (
        int(found.group(1)) == turns
        if found.group(3) == b"running"
        else 1 <= int(found.group(1)) <= turns
    )


def asm(files, words):
    found = readers.Source(given(files, words[1], "source", place=" at 0")).read()
    return 0, f"object {len(found)} bytes\n", {words[2]: found}


def link(files, words):
    places = readers.layout(given(files, words[1], "layout"))
    objects = [
        readers.ObjectFile(given(files, w, "object", place=f" at {i}"), i).read()
        for i, w in enumerate(words[3:])
    ]
    found = readers.link(places, objects)
    return 0, f"image {len(found)} bytes\n", {words[2]: found}


def dis(files, words):
    return 0, readers.listing(read_elf(given(files, words[1], "elf"))[1]), {}


# Each command, the least and the most words it has, and what else is asked of them.
COMMANDS = {
    "check": (check, 4, 4), "cert": (cert, 4, 4), "run": (run, 4, 4), "asm": (asm, 3, 3), "link": (link, 4, 65535), "dis": (dis, 2, 2),
    "ship": (ship, 6, 65535), "cfg": (cfg, 3, 3), "report": (report, 4, 4), "gen": (gen, 2, 2), "boot": (boot, 5, 5), "bootgen": (bootgen, 5, 5),
    "cells": (cells, 5, 5), "cellcert": (cellcert, 5, 5), "tasks": (tasks, 5, 65535), "taskcert": (taskcert, 5, 65535),
}  # fmt: skip
ASKED = {
    "ship": lambda words: words[3] != words[4],
    "gen": lambda words: re.fullmatch("[1-9][0-9]{0,2}", words[1]) and int(words[1]) <= 500,
    "boot": lambda words: ADDRESS.fullmatch(words[4]),
    "bootgen": lambda words: ADDRESS.fullmatch(words[2])
    and ADDRESS.fullmatch(words[3])
    and int(words[3], 16) <= 0xFFFFFF20,
    "taskcert": lambda words: len(set(words[4:])) == len(words) - 4,
}


def answer(words, files):
    """The status, the text (or a test of status and text), and the files written."""
    command, least, most = COMMANDS.get(words[0] if words else "", (None, 0, 0))
    if (
        command is None
        or not least <= len(words) <= most
        or not ASKED.get(words[0], lambda _: True)(words)
    ):
        return 5, "bad words\n", {}
    try:
        status, text, written = command(files, words)
    except Bad as e:
        return 2, f"bad {e.args[0]}\n", {}
    except OSError:
        return 3, "", {}
    for n, name in enumerate(written):
        if files.get(name, b"") is FAULT:
            return 3, "", dict(list(written.items())[:n])
    return status, text, written


def fits(want, status, text):
    """Whether a status and a text are those of an answer."""
    return (
        want[1](status, text)
        if callable(want[1])
        else (status, text) == (want[0], want[1].encode())
    )
