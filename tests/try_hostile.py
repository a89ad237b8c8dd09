#!/usr/bin/env python3
"""Hostile use: tries tcd on broken, contradictory and failing inputs, beside a second reading.

    python3 tests/try_hostile.py PROGRAM            some 105,000 cases, eight minutes on a busy machine
    python3 tests/try_hostile.py --quick PROGRAM    some 7,000, less than a minute
    python3 tests/try_hostile.py --jobs N ..        so many at once (2)
    python3 tests/try_hostile.py --only WORD ..     those parts alone whose title has the word

PROGRAM is the built tcd (crates/tcd/out/tcd). The inputs are made in hostile/mutated.py (changed
bytes), hostile/pieces.py (put together at random, by fixed seeds), hostile/known.py (answers as
data) and hostile/failing.py (files that fail, limits, memory, words). What a case has to print is
worked out by hostile/answers.py and tcdlib/formats, which were written from docs/formats.md,
and that of `run` by machine.py. Compared are the status, all that is printed, that nothing goes to
standard error, that it takes at most 10 seconds of the processor, and that nothing changed in its
folder except the files that it writes, which hold the bytes that they have to.

What can't be worked out (whether a certificate is accepted, or can be made) is judged by its form,
by answers as data, and beside other commands (hostile/beside.py): `check` is asked of what `cert`
and `ship` made, of the plan in which cells are devices, of the views of tasks. At the end are
printed: the mutated inputs that are still done, with why that may be; the cases by kind and answer;
the cases that were wrong.

Exit status: 0 no case was wrong, 1 one was or none was tried, 2 no such program, 5 wrong arguments.
"""
import collections
import functools
import multiprocessing
import os
import pathlib
import resource
import subprocess
import tempfile
import time

import scratch  # so that tools/ is on the path
from tcdlib import arguments, progress
from tcdlib import formats as readers
from tcdlib import program as programs
from hostile.answers import COMMANDS, FAULT, answer, fits
from hostile.beside import beside
from hostile.failing import PARTS
from hostile.known import later_rows, rows
from hostile.mutated import mutated, place_of
from hostile.pieces import pieces, put_together

SECONDS, PATIENCE = 10, 120  # of the processor; by the clock, for machines that do much else


class Bench:
    def __init__(self, program, folder, quick):
        self.program, self.folder, self.quick = program, folder, quick
        self.held, self.table, self.wrong, self.zeros = (
            {},
            collections.Counter(),
            [],
            collections.defaultdict(list),
        )
        self.slowest, self.count = (0.0, ""), 0

    def put(self, name, data):
        if self.held.get(name) != data:
            (self.folder / name).write_bytes(data)
            self.held[name] = data

    def only(self, files):
        """Makes the folder hold these files alone."""
        for name in [n for n in self.held if n not in files]:
            os.unlink(self.folder / name)
            del self.held[name]
        for name, data in files.items():
            self.put(name, data)

    def start(self, words, how):
        settings = {
            "stdin": subprocess.DEVNULL,
            "stdout": subprocess.PIPE,
            "stderr": subprocess.PIPE,
            "cwd": self.folder,
        }
        return subprocess.Popen([self.program, *words], **{**settings, **how})

    def ended(self, words, how, meanwhile=None):
        """Status (None where it didn't end in time), output and errors of the program."""
        begun = spent()
        with self.start(words, how) as process:
            if meanwhile:
                meanwhile()
            try:
                out, err = process.communicate(timeout=PATIENCE)
                status = process.returncode
            except subprocess.TimeoutExpired:
                process.kill()
                out, err = process.communicate()
                status = None
        took = spent() - begun
        status = status if took < SECONDS else None
        if took > self.slowest[0]:
            self.slowest = took, " ".join(map(str, words))[:60]
        return status, out or b"", err or b""

    def case(self, group, words, files=None, want=None, how=None, meanwhile=None, anything=()):
        """Tries one case; files are those that differ from the folder's. Gives status and text."""
        self.count += 1
        seen = {**self.held, **(files or {})}
        want = want or answer(words, seen)
        for name in want[2]:
            if self.count % 2 and name not in seen and "/" not in name:
                self.put(name, b"what stood there before")
        status, out, err = self.ended(words, how or {}, meanwhile)
        faults = []
        if not fits(want, status, out):
            faults.append(f"{status} {out[:200]!r} in place of {want[0]} {str(want[1])[:200]}")
        if err:
            faults.append(f"on standard error {err[:80]!r}")
        if not faults and not how:
            faults += beside(self, words, status, out)
        faults += self.folder_faults(want[2] if status in (0, 3) else {}, anything)
        self.table[
            group, words[0] if words and words[0] in COMMANDS else "words", label(status, out)
        ] += 1
        if faults:
            self.wrong.append((group, words, {n: d for n, d in seen.items() if n in words}, faults))
        return status, out

    def folder_faults(self, written, anything):
        """What stands in the folder and shouldn't; afterwards it is as before."""
        faults, found = [], set()
        for entry in os.scandir(self.folder):
            found.add(entry.name)
            if not entry.is_file(follow_symlinks=False):
                continue
            if entry.stat().st_size >= readers.FILE_LIMIT:
                continue
            data = pathlib.Path(entry.path).read_bytes()
            want = written.get(entry.name, self.held.get(entry.name))
            if not (want(data) if callable(want) else data == want) and entry.name not in anything:
                faults.append(f"{entry.name} holds {data[:40]!r}")
            if data != self.held.get(entry.name) or entry.name in written:
                if entry.name in written or entry.name not in self.held:
                    os.unlink(entry.path)
                    self.held.pop(entry.name, None)
                else:
                    pathlib.Path(entry.path).write_bytes(self.held[entry.name])
        faults += [f"{name} is gone" for name in self.held if name not in found]
        faults += [
            f"{name} isn't written"
            for name in written
            if "/" not in name and name not in found and name not in anything
        ]
        return faults


def spent():
    """Processor seconds of all programs that ended."""
    used = resource.getrusage(resource.RUSAGE_CHILDREN)
    return used.ru_utime + used.ru_stime


def label(status, out):
    """A kind of answer, for the table."""
    if status is None:
        return "no end"
    if status < 0:
        return "signal"
    words = out.split()
    if status == 2:
        return f"2 {b' '.join(words[:3]).decode(errors='replace')}"
    return (
        f"1 {words[1].decode(errors='replace')}" if status == 1 and len(words) > 1 else str(status)
    )


# The report


def ranges(numbers):
    """Numbers as ranges."""
    out = []
    for n in sorted(set(numbers)):
        if out and out[-1][1] == n - 1:
            out[-1][1] = n
        else:
            out.append([n, n])
    return ", ".join(f"{a}" if a == b else f"{a} to {b}" for a, b in out)


def tables(bench):
    """How many cases ended with each status, by kind of input and by command."""
    for title, place in (("Kind of input", 0), ("Command", 1)):
        counts = collections.defaultdict(collections.Counter)
        for key, count in bench.table.items():
            counts[key[place]][key[2][0]] += count
        print(
            f"\n| {title} | 0 done | 1 refused | 2 bad input | 3 fault | 4 no memory | 5 bad words | a signal | Cases |\n|{'---|' * 9}"
        )
        for name, by in sorted(counts.items()):
            print(
                "|",
                " | ".join(
                    [name, *(str(by[status] or "") for status in "012345s"), str(sum(by.values()))]
                ),
                "|",
            )


def report(bench, began):
    print("Mutated inputs with which the command is still done")
    for title, found in bench.zeros.items():
        print(f"\n  {title}")
        by = collections.defaultdict(list)
        for what, at, why, out in found:
            by[
                why or "the same value (a byte that nobody reads, or another spelling)",
                out.split(b"\n")[0][:50] if title.startswith("check") else b"",
            ].append((what, at))
        for (why, out), places in sorted(by.items()):
            print(
                f"    {len(places):5} {why}{': ' + out.decode() if out else ''}: bytes {ranges(p[1] for p in places)[:300]}"
            )
    print("\nCases by kind of input, command and answer")
    groups = collections.defaultdict(list)
    for (group, command, answered), count in sorted(bench.table.items()):
        groups[group, command].append(f"{count} x {answered}")
    for (group, command), answers in groups.items():
        print(f"  {group}, {command}: {'; '.join(answers)}")
    tables(bench)
    print(f"\nslowest {bench.slowest[0]:.2f} s: {bench.slowest[1]}")
    for group, words, files, faults in bench.wrong[:200]:
        print(f"WRONG {group}: {[str(w)[:40] for w in words[:8]]}: {'; '.join(faults)}")
        for name, data in files.items():
            if data is not FAULT and len(data) < 1200:
                print(f"      {name}: {data!r}")
    print(f"{bench.count} cases tried, {len(bench.wrong)} wrong, {time.monotonic() - began:.0f} s")


def jobs():
    """All that is done, each in a folder of its own: a title, and a function of a bench."""
    yield from [(part.__name__, part) for part in (rows, later_rows, *PARTS)]
    yield from [
        (
            f"put together, {given[0]}",
            functools.partial(
                pieces, title=given[0], files=given[1], vary=given[2], words=given[3], make=given[4]
            ),
        )
        for given in put_together()
    ]
    for title, words, files, vary, *more in mutated():
        text, most = (*more, False, 700)[:2] if len(more) != 1 else (more[0], 700)
        yield title, functools.partial(
            place_of, title=title, words=words, files=files, vary=vary, text=text, most=most
        )


def done(given):
    """Does one of the jobs, in a process of its own."""
    program, quick, number = given
    title, part = list(jobs())[number]
    began = time.monotonic()
    with tempfile.TemporaryDirectory() as folder:
        bench = Bench(program, pathlib.Path(folder), quick)
        part(bench)
    return (
        title,
        bench.count,
        bench.table,
        bench.wrong,
        dict(bench.zeros),
        bench.slowest,
        time.monotonic() - began,
    )


def main(words):
    words, given = list(words), {"--jobs": "2", "--only": ""}
    quick = "--quick" in words
    for name in set(words[:-1]) & set(given):
        given[name] = words.pop(words.index(name) + 1)
    words = [word for word in words if word not in {*given, "--quick"}]
    is_right = len(words) == 1 and given["--jobs"].isdecimal() and int(given["--jobs"]) > 0
    program = programs.of_words(words if is_right else [], __doc__)
    began, whole = time.monotonic(), Bench(program, None, quick)
    chosen = [
        (program, quick, n) for n, (title, _) in enumerate(jobs()) if given["--only"] in title
    ]
    pool = multiprocessing.get_context("fork").Pool(int(given["--jobs"]))
    left = len(chosen)
    with pool, progress.of(f"{left} parts"):
        for title, count, table, wrong, zeros, slowest, took in pool.imap(done, chosen):
            whole.count += count
            whole.table.update(table)
            whole.wrong += wrong
            whole.zeros.update(zeros)
            whole.slowest = max(whole.slowest, slowest)
            progress.printed(f"{title}: {count} cases, {len(wrong)} wrong, {took:.0f} s")
            left -= 1
            progress.says(f"{whole.count} cases tried, {left} parts left")
    report(whole, began)
    return 1 if whole.wrong or not whole.count else 0


if __name__ == "__main__":
    arguments.ended(__doc__, main)
