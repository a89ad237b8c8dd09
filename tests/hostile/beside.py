"""What other commands of tcd have to say beside an answer. Each function gives what doesn't fit.

So `check` is asked of each certificate that was made, and of the plans, executables and views that
the second readers make of cells, tasks and sources; and a certificate that one command refuses to
make no other one may make. Each certificate that is judged here is judged by tools/second_check.py
too.
"""
import json
import re

from hostile.answers import graph, read_cert, read_elf, read_plan, tasks_of
from second import asked
from tcdlib import formats as readers
from tcdlib import rules

FILES = {
    "check": (3, 0),
    "cert": (2, 1),
    "report": (3, 0),
    "cfg": (2, 0),
    "boot": (3, 0),
    "cells": (4, 0),
    "cellcert": (3, 1),
}


def names(words):
    """The names of inputs and of outputs of a command that is looked at here, or None."""
    if words[0] in FILES:
        inputs, outputs = FILES[words[0]]
        return words[1 : 1 + inputs], words[1 + inputs : 1 + inputs + outputs]
    return {
        "ship": lambda: (words[1:3] + words[5:], words[3:5]), "tasks": lambda: (words[1:], []), "taskcert": lambda: (words[1:4], words[4:]),
    }.get(words[0], lambda: None)()  # fmt: skip


def beside(bench, words, status, out):
    """What doesn't fit to the answer to these words, where the inputs can be read again."""
    found = names(words) if words and status in (0, 1) else None
    if (
        not found
        or set(found[0]) & set(found[1])
        or not all((bench.folder / name).is_file() for name in found[0] + found[1] * (status == 0))
    ):
        return []
    if any((bench.folder / name).is_symlink() or "/" in name for name in found[0] + found[1]):
        return []
    other = Other(bench)
    try:
        return LOOKS[words[0]](other, words, status, out)
    except (AttributeError, LookupError, TypeError, ValueError, readers.Bad) as e:
        return [f"what it printed or wrote can't be read: {e!r}"]
    finally:
        other.clear()


class Other:
    """Other commands, over the files of a case and some of their own."""

    def __init__(self, bench):
        self.bench, self.own = bench, []

    def bytes(self, name):
        return (self.bench.folder / name).read_bytes()

    def put(self, name, data):
        self.own.append(f"beside.{name}")
        (self.bench.folder / self.own[-1]).write_bytes(data)
        return self.own[-1]

    def says(self, wanted, *words):
        """Whether a command has this status and this text."""
        answered = self.bench.ended(list(words), {})
        return (
            []
            if answered == (*wanted, b"")
            else [f"{' '.join(words)} says {answered[:2]!r} in place of {wanted!r}"]
        )

    def second(self, words, status, out):
        """Whether the second checker has this status and this text for a command too."""
        paths = {name: str(self.bench.folder / name) for name in names(words)[0]}
        found = asked([paths.get(word, word) for word in words])
        return [] if found == (status, out[:-1].decode()) else [f"the second checker: {found}"]

    def made(self, status, out, elf, plan):
        """`cert` has to make a certificate if one was made, else to refuse with the same line."""
        name = self.put("cert", b"")
        answered = self.bench.ended(["cert", elf, plan, name], {})
        if answered[0] != status or answered[2] or status == 1 and answered[1] != out:
            return [f"cert {elf} {plan} says {answered[:2]!r} beside {status} {out[:100]!r}"], name
        return [], name

    def clear(self):
        for name in set(self.own):
            (self.bench.folder / name).unlink(missing_ok=True)


def after_check(other, words, status, out):
    return other.second(words, status, out)


def after_cert(other, words, status, out):
    if status:
        return []
    check = ["check", *words[1:]]
    return other.says((0, out), *check) + other.second(check, 0, out)


def after_report(other, words, status, out):
    answered = other.bench.ended(["check", *words[1:]], {})
    if answered[0] != status or status == 1 and answered[1] != out:
        return [f"check says {answered[:2]!r} beside {status} {out[:100]!r}"]
    return []


def after_cfg(other, words, status, out):
    faults, name = other.made(status, out, *words[1:3])
    if status or faults:
        return faults
    points = {(node[0], point[0]) for node in read_cert(other.bytes(name))[1] for point in node[3]}
    faults = (
        []
        if {line[:2] for line in graph(out)} == points
        else ["the graph has other points than the certificate"]
    )
    return faults + longest_rows(other, words[1:3], name, graph(out))


def longest_rows(other, inputs, name, lines):
    """Whether `report` counts the rows of calls as the graph has them."""
    _, text, _ = other.bench.ended(["report", *inputs, name], {})
    calls = {}
    for key, _, way, to in lines:
        calls.setdefault(key, set())
        if way == b"call":
            calls[key].add((1, to, *key[2:]))
    rows, wanted = {}, {}

    def row(key):
        if key not in rows:
            rows[key] = max((1 + row(to) for to in calls[key]), default=0)
        return rows[key]

    for key in calls:
        wanted[key[2]] = max(wanted.get(key[2], 0), row(key))
    found = [{"longest": count, "prio": prio} for prio, count in sorted(wanted.items())]
    return (
        []
        if json.loads(text)["calls"] == found
        else [f"report says {text[:200]!r}, the graph has {found}"]
    )


def after_ship(other, words, status, out):
    if status == 0:
        check = ["check", words[3], words[1], words[4]]
        return other.says((0, out), *check) + other.second(check, 0, out)
    objects = [
        readers.ObjectFile(readers.Source(other.bytes(name)).read(), i).read()
        for i, name in enumerate(words[5:])
    ]
    elf = other.put("elf", readers.link(readers.layout(other.bytes(words[2])), objects))
    return other.made(status, out, elf, words[1])[0]


def after_boot(other, words, status, out):
    faults = other.second(words, status, out)
    if out.startswith(b"refused K"):
        return faults + other.says((1, out), "check", *words[1:4])
    numbers = re.search(rb"certified \d+ of \d+ areas\n", out)
    answered = other.bench.ended(["check", *words[1:4]], {})
    if answered[0] or status == 0 and answered[1] != numbers.group():
        faults.append(f"check says {answered[:2]!r} beside {out!r}")
    return faults


def broken_by_cells(cert, image, board, found):
    """The line of rule 16 of an accepted certificate, or None."""
    fault = rules.cells_fault(rules.Judge(image, board, cert), found)
    return fault and rules.line_of(*fault).encode()


def broken_by_task(cert, view, board, found):
    """The line of rule 17 of an accepted certificate, or None."""
    fault = rules.task_fault(rules.Judge(view, board, cert), found[0])
    return fault and rules.line_of(*fault).encode()


def with_cells(other, words):
    """The executable, the cells, and the plan with them, the last as a file too."""
    board = read_plan(other.bytes(words[2]))
    found = readers.cells(other.bytes(words[3]), board)
    board = readers.with_cells(board, found)
    return (
        read_elf(other.bytes(words[1])),
        found,
        board,
        other.put("json", json.dumps(board).encode()),
    )


def after_cells(other, words, status, out):
    image, found, board, plan = with_cells(other, words)
    answered = other.bench.ended(["check", words[1], plan, words[4]], {})
    if answered[0] == 0:
        fault = broken_by_cells(read_cert(other.bytes(words[4])), image, board, found)
        wanted = (
            (1, fault + b"\n")
            if fault
            else (0, answered[1][:-1] + b" with %d cells\n" % len(found))
        )
        if (status, out) != wanted:
            return [f"{out!r} in place of {wanted}"]
    elif answered != (status, out, b""):
        return [f"check says {answered[:2]!r} beside {out!r}"]
    return other.second(["cells", *words[1:]], status, out)


def is_of_both(cert):
    """Whether the least certificate of version 2 has the same states as this one: it is of version
    2, or has no span but any word."""
    version, nodes = cert
    return version == 2 or not any(
        isinstance(value, tuple) for node in nodes for point in node[3] for value in point[5]
    )


def after_cellcert(other, words, status, out):
    if status == 0:
        return other.says((0, out), "cells", *words[1:]) + after_cells(other, words, status, out)
    image, found, board, plan = with_cells(other, words)
    if out.startswith(b"refused K16 "):
        faults, name = other.made(0, b"", words[1], plan)
        if faults or not is_of_both(read_cert(other.bytes(name))):
            return faults
        fault = broken_by_cells(read_cert(other.bytes(name)), image, board, found)
        return [] if fault and out == fault + b"\n" else [f"{out!r} in place of {fault}"]
    answered = other.bench.ended(["cert", words[1], plan, other.put("cert", b"")], {})
    return (
        []
        if answered[0] == 0 or answered[:2] == (1, out)
        else [f"cert says {answered[:2]!r} beside {out!r}"]
    )


def views(other, words):
    """The tasks, and for each the executable and the plan of its view and their files."""
    image, board, found = tasks_of({name: other.bytes(name) for name in words[1:4]}, words)
    for u in range(len(found[2])):
        elf, plan = readers.view_image(image, found, u), readers.view_plan(board, found, u)
        yield found, read_elf(elf), plan, other.put(f"{u}.elf", elf), other.put(
            f"{u}.json", json.dumps(plan).encode()
        )


def after_tasks(other, words, status, out):
    if out.startswith(b"refused switch"):
        return other.second(words, status, out)
    for u, (found, view, board, elf, plan) in enumerate(views(other, words)):
        answered = other.bench.ended(["check", elf, plan, words[4 + u]], {})
        fault = (
            None
            if answered[0]
            else broken_by_task(read_cert(other.bytes(words[4 + u])), view, board, found)
        )
        line = answered[1][:-1] if answered[0] else fault
        if line:
            if (status, out) != (1, line + b" of task %d\n" % u):
                return [f"{out!r} in place of {line!r} of task {u}"]
            return other.second(["tasks", *words[1:]], status, out)
    if out.startswith(b"refused K"):
        return [f"nothing is against a task beside {out!r}"]
    return other.second(["tasks", *words[1:]], status, out)


def after_taskcert(other, words, status, out):
    if status == 0:
        return other.says((0, out), "tasks", *words[1:]) + after_tasks(other, words, status, out)
    if out.startswith(b"refused switch"):
        return []
    for u, (found, view, board, elf, plan) in enumerate(views(other, words)):
        name = other.put("cert", b"")
        answered = other.bench.ended(["cert", elf, plan, name], {})
        named, made = out.endswith(b" of task %d\n" % u), None if answered[0] else read_cert(
            other.bytes(name)
        )
        if made and not is_of_both(made):
            if named:
                return (
                    []
                    if out.startswith(b"refused K17 ")
                    else [f"{out!r} where cert makes a certificate of the view"]
                )
            continue
        fault = made and broken_by_task(made, view, board, found)
        wanted = fault or (answered[1][:-1] if answered[0] else b"")
        if wanted or named:
            return (
                []
                if out == wanted + b" of task %d\n" % u
                else [f"{out!r} in place of {wanted!r} of task {u}"]
            )
    return [] if out.startswith(b"refused sum ") else [f"cert makes all views beside {out!r}"]


LOOKS = {
    "check": after_check, "cert": after_cert, "report": after_report, "cfg": after_cfg, "ship": after_ship, "boot": after_boot, "cells": after_cells, "cellcert": after_cellcert,
    "tasks": after_tasks, "taskcert": after_taskcert,
}  # fmt: skip
