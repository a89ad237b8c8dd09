#!/usr/bin/env python3
"""Tries tools/second_check.py beside tcd, and errors that are put into it.

    python3 tests/try_second.py PROGRAM             the cases, on tcd and on the second checker
    python3 tests/try_second.py --errors [WORD ..]  the cases, on second checkers with an error each

PROGRAM is the built tcd (crates/tcd/out/tcd). The cases are texts, second/cases.txt and values.txt:
certificates on both sides of each bound of docs/rules.md, most of them forged, each with the line
that the page asks for. Tried too are the certificates of the examples, and these with one value
changed (twenty of each certificate): there the two lines have to be the same.

With --errors each operator, condition and constant of the second checker is another one once, and a
case has to find it. Those that change no answer are in second/harmless.txt, each with its reason.
WORDS choose the errors whose text has one of them. All take two processors up to 15 minutes.

Exit status: 0 no line differs and each error was found, 1 one does or wasn't, 2 no such program, 5
wrong words.
"""
import ast
import functools
import multiprocessing
import pathlib
import resource
import signal
import sys
import tempfile
import types

import scratch  # so that tools/ is on the path
import tcdlib
from hostile.inputs import cert_bytes
from second import asked, broken, texts
from tcdlib import formats as readers
from tcdlib.program import of_words

#: the parts of the second checker, in the order in which one uses the other
PARTS = ("values", "rules", "second_check")
#: the functions of second_check.py that judge; what else is in it is tried by unit tests
JUDGING = ("demand_kept", "accepted", "certified", "judged")
JUDGING += ("checked", "checked_boot", "checked_cells", "checked_tasks")
#: what a checker with an error may take for a case
SECONDS, MEMORY = 5, 3 << 30
JOBS = 2
#: how many changes of a certificate of the examples are tried
CHANGES = 20


# Cases


def fault(program, case, folder):
    """What differs in a case, or None."""
    for name, data in case.files.items():
        path = folder / name
        if not path.exists() or path.read_bytes() != data:
            path.write_bytes(data)
    out, err, status = scratch.run([program, *case.words], folder)
    words = [str(folder / word) if word in case.files else word for word in case.words]
    found = (status, out.rstrip("\n")), asked(words)
    wanted = found[0][1] if case.line is None else case.line
    if err or found[0] != found[1] or found[0][1] != wanted:
        return f"{case.title}: tcd {found[0]}, second {found[1]}, the page {case.line}"
    return None


def faults(program, cases):
    """What differs in these cases."""
    with tempfile.TemporaryDirectory() as room:
        return [fault(program, case, pathlib.Path(room)) for case in cases]


# The certificates of the examples


def example_cases(program):
    """The certificates of the examples, and changes of them."""
    for example in sorted(path.parent.name for path in scratch.EXAMPLES.glob("*/expected")):
        with tempfile.TemporaryDirectory() as room:
            folder = pathlib.Path(room)
            scratch.built(program, example, folder)
            for words in commands(example):
                names = words[1:4] if words[0] == "boot" else words[1:]
                if not all((folder / name).is_file() for name in names):
                    continue
                files = {name: (folder / name).read_bytes() for name in names}
                yield texts.Case(example, words, files, None)
                for name in [name for name in names if name.endswith(".cert")]:
                    for number, data in enumerate(changed_certificates(files[name])):
                        title = f"{example}, change {number} of {name}"
                        yield texts.Case(title, words, {**files, name: data}, None)


def commands(example):
    """The commands of an example that judge certificates, those that make one as the others."""
    asked_for = {"cert": "check", "cellcert": "cells", "taskcert": "tasks"}
    for line in (scratch.EXAMPLES / example / "expected").read_text().splitlines():
        words = line.partition(" => ")[0].split(" ")
        command = asked_for.get(words[0], words[0])
        if command in ("check", "boot", "cells", "tasks"):
            yield [command, *words[1:]]


def changed_certificates(data):
    """A certificate with another value in one place, for places over all of it."""
    version, nodes = readers.Certificate(data).read()
    others = [(place, other) for place, node in enumerate(nodes) for other in changed_nodes(node)]
    for place, other in others[:: -(-len(others) // CHANGES)]:
        yield cert_bytes(version, nodes[:place] + [other] + nodes[place + 1 :])


def changed_nodes(node):
    """A node with another need, exit, or point."""
    key, need, leaving, points = node
    for other in (need + 1, max(need - 1, 0)):
        yield key, other, leaving, points
    if leaving:
        ie, ccpn, values = leaving
        yield key, need, None, points
        yield from ((key, need, (ie, ccpn, other), points) for other in changed_values(values))
        for other in ((1 - ie, ccpn), (ie, ccpn ^ 1)):
            yield key, need, (*other, values), points
    for place, point in enumerate(points):
        yield key, need, leaving, points[:place] + points[place + 1 :]
        for other in changed_points(point):
            yield key, need, leaving, points[:place] + [other] + points[place + 1 :]


def changed_points(point):
    """A point with another flag, number or value."""
    at, ie, ccpn, lower, saved, values = point
    yield at, 1 - ie, ccpn, lower, saved, values
    yield at, ie, ccpn ^ 1, lower, saved, values
    yield at, ie, ccpn, 1 - lower, saved, values
    for place, flag in enumerate(saved):
        yield at, ie, ccpn, lower, saved[:place] + [1 - flag] + saved[place + 1 :], values
    yield from ((at, ie, ccpn, lower, saved, other) for other in changed_values(values))


def changed_values(values):
    """Values with one of them smaller, or any."""
    for place, value in enumerate(values):
        if value != "any":
            for other in ("any", *texts.below(value)):
                yield values[:place] + [other] + values[place + 1 :]


# Errors


@functools.lru_cache(maxsize=None)
def source(part):
    """The tree of a part of the second checker."""
    folder = scratch.TOP / "tools"
    path = folder / f"{part}.py" if part == "second_check" else folder / "tcdlib" / f"{part}.py"
    return ast.parse(path.read_text())


@functools.lru_cache(maxsize=None)
def code(part):
    """A part without an error."""
    return compile(source(part), part, "exec")


class Read:
    """The readers, each of which reads the same bytes once."""

    elf = staticmethod(functools.lru_cache(None)(readers.elf))
    plan = staticmethod(functools.lru_cache(None)(readers.plan))
    nodes = staticmethod(functools.lru_cache(None)(lambda data: readers.Certificate(data).read()))

    def __getattr__(self, name):
        return getattr(readers, name)


def built(error=None):
    """The second checker, with an error (its part, the error)."""
    before = {part: sys.modules[f"tcdlib.{part}"] for part in PARTS[:-1]}
    for part in PARTS:
        module = types.ModuleType(part)
        of_part = code(part)
        if error and error[0] == part:
            error[1].put(error[1].new)
            of_part = compile(ast.fix_missing_locations(source(part)), part, "exec")
            error[1].put(error[1].old)
        if part != "second_check":
            put_module(part, module)
        exec(of_part, module.__dict__)
    for part in PARTS[:-1]:
        put_module(part, before[part])
    module.readers = Read()
    return module


def put_module(part, module):
    """Makes a module the one that others import."""
    sys.modules[f"tcdlib.{part}"] = module
    setattr(tcdlib, part, module)


def is_right(checker, case):
    """Whether a checker prints the line of a case."""
    checker.bytes_of = lambda path, *_: case.files[path]
    checker.certificate = lambda path: Read.nodes(case.files[path])
    return asked(case.words, checker)[1] == case.line


def out_of_time(*_):
    raise TimeoutError


@functools.lru_cache(maxsize=None)
def all_cases():
    return [*texts.value_cases(), *texts.rule_cases()]


@functools.lru_cache(maxsize=None)
def all_errors():
    """All errors, each with its part."""
    found = [(part, error) for part in PARTS for error in broken.errors_in(source(part), part)]
    return [
        (part, error)
        for part, error in found
        if part != "second_check" or error.function.split(".")[-1] in JUDGING
    ]


def harmless():
    """The reasons of the errors that change no answer, by their texts."""
    lines = (texts.HERE / "harmless.txt").read_text().splitlines()
    told = [line for line in lines if line and not line.startswith("#")]
    return dict(zip(told[::2], map(str.strip, told[1::2])))


def found_by(number):
    """The title of a case that finds an error, how the checker ended by it, or None."""
    signal.signal(signal.SIGALRM, out_of_time)
    try:
        signal.alarm(SECONDS)
        checker = built(all_errors()[number])
        for case in all_cases():
            signal.alarm(SECONDS)
            if not is_right(checker, case):
                return case.title
    except Exception as e:
        return repr(e)
    finally:
        signal.alarm(0)
    return None


# All of it


def limit_memory():
    resource.setrlimit(resource.RLIMIT_AS, (MEMORY, MEMORY))


def tried_errors(words):
    """Prints which errors no case finds: how many were tried and how many are wrong."""
    known, numbers = harmless(), range(len(all_errors()))
    chosen = [n for n in numbers if not words or any(w in str(all_errors()[n][1]) for w in words)]
    built(), all_cases()  # before the processes begin, so that each has them
    missed = 0
    with multiprocessing.get_context("fork").Pool(JOBS, limit_memory) as pool:
        for number, found in zip(chosen, pool.imap(found_by, chosen, 4)):
            text = str(all_errors()[number][1])
            if (found is None) != (text in known):
                missed += 1
                print(f"{text}: {'no case finds it' if found is None else f'found: {found}'}")
    return len(chosen), missed


def tried_cases(program):
    """Prints what differs: how many cases were tried and how many differ."""
    cases = [*all_cases(), *example_cases(program)]
    parts = [cases[first :: 4 * JOBS] for first in range(4 * JOBS)]
    with multiprocessing.get_context("fork").Pool(JOBS) as pool:
        found = sum(pool.starmap(faults, [(program, part) for part in parts]), [])
    print("\n".join([*filter(None, found)]), end="\n" if any(found) else "")
    return len(cases), sum(map(bool, found))


def main(words):
    if words[:1] == ["--errors"]:
        tried, wrong = tried_errors(words[1:])
    else:
        tried, wrong = tried_cases(of_words(words, __doc__, 1))
    print(f"{tried} {'errors' if words[0] == '--errors' else 'cases'} tried, {wrong} wrong")
    return 1 if wrong or not tried else 0


if __name__ == "__main__":
    sys.exit(main(sys.argv[1:]))
