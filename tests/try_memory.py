#!/usr/bin/env python3
"""Refuses each allocation of a command in turn: python3 tests/try_memory.py PROGRAM [COMMAND ..]

PROGRAM is the built tcd (crates/tcd/out/tcd). It asks the C library for memory by `malloc` and
`realloc`. So a small library, loaded first, can refuse any one request, and no build is needed for
it. Needs cc and Linux.

Each case is a command on the files of an example. It runs once to count its requests. Then for each
number N up to that count it runs twice: request N alone is refused; request N and all after it are.
If a command makes more than LIMIT requests, LIMIT numbers are tried: a quarter of them from the
front, a quarter from the end, the others evenly between.

Each run begins with the same files. The names that the command writes are there already, with other
bytes. A run passes if

- its status is 4, it printed nothing, and each file holds what it held; or
- status, printed text and files are those of the run in which nothing was refused. Such runs are
  counted.

Every other end is printed: a signal, another status, a line, a changed file. The exit status is
then 1.

The contracts allow a little more: if memory runs out while `ship` or `taskcert` writes, the files
before may be written. The program makes all its requests before its first write, so no run showed
it.

What it found: 23 cases of all sixteen commands, six of them refused or bad input; 9,237 requests,
18,474 runs, no fault. In all but 4 runs the status was 4 and nothing changed. In these 4 `taskcert`
did without the set of words by which it looks for a name that is given twice: it then compares each
pair.
"""

import pathlib
import shutil
import struct
import subprocess
import sys
import tempfile

from scratch import built
from tcdlib import arguments, progress
from tcdlib import program as programs

LIMIT = 3000
HELD = b"held before\n"
# The C library fills what it gives and what it gets back, so that a use too early or late shows.
PATTERN = {"GLIBC_TUNABLES": "glibc.malloc.perturb=165"}
REFUSER = r"""
#include <errno.h>
#include <stdlib.h>
#include <unistd.h>

extern void *__libc_malloc(size_t);
extern void *__libc_realloc(void *, size_t);
static long asked, first = -1;
static int all;

static int is_refused(void) {
    if (first < 0) {
        const char *word = getenv("REFUSE_AT");
        first = word ? atol(word) : 0;
        all = getenv("REFUSE_ALL") != NULL;
    }
    asked++;
    if (first == 0 || asked < first || (asked > first && !all)) return 0;
    errno = ENOMEM;
    return 1;
}

void *malloc(size_t n) { return is_refused() ? NULL : __libc_malloc(n); }
void *realloc(void *p, size_t n) { return is_refused() ? NULL : __libc_realloc(p, n); }

__attribute__((destructor)) static void count(void) {
    const char *word = getenv("REFUSE_COUNT");
    if (word && write(atoi(word), &asked, sizeof asked) < 0) _exit(99);
}
"""
# An example, the command that is tried on its files, and the files that it writes.
SHIP = "ship board.json board.layout made.elf made.cert"
SHIPPED = ("made.elf", "made.cert")
MOTOR = "main.s current.s speed.s serial.s faults.s tables.s memory.s"
CASES = [
    ("one_call", "check firmware.elf board.json firmware.cert", ()),
    ("one_call", "cert firmware.elf board.json made.cert", ("made.cert",)),
    ("one_call", "run firmware.elf board.json turns.script", ()),
    ("one_call", "asm main.s made.o", ("made.o",)),
    ("one_call", "link board.layout made.elf main.o sum.o", ("made.elf",)),
    ("one_call", f"{SHIP} main.s sum.s", SHIPPED),
    ("motor_control", f"{SHIP} {MOTOR}", SHIPPED),
    ("two_tasks", "tasks firmware.elf board.json board.tasks measure.cert show.cert", ()),
    ("one_call", "dis firmware.elf", ()),
    ("one_call", "cfg firmware.elf board.json", ()),
    ("one_call", "report firmware.elf board.json firmware.cert", ()),
    ("two_tasks", "taskcert firmware.elf board.json board.tasks a.cert b.cert",
     ("a.cert", "b.cert")),
    ("cells", "cells firmware.elf board.json modes.cells firmware.cert", ()),
    ("cells", "cellcert firmware.elf board.json modes.cells made.cert", ("made.cert",)),
    ("start_up", "boot firmware.elf board.json firmware.cert 80000800", ()),
    ("start_up", "bootgen board.json 80000000 80000800 made.s", ("made.s",)),
    ("one_call", "gen 1", ()),
    # Refused, and bad input.
    ("two_tasks", "check firmware.elf board.json measure.cert", ()),
    ("two_tasks", "cert firmware.elf board.json made.cert", ("made.cert",)),
    ("two_tasks", "tasks firmware.elf board.json board.tasks measure.cert", ()),
    ("two_tasks", f"{SHIP} main.s", SHIPPED),
    ("one_call", "check firmware.elf board.layout firmware.cert", ()),
    ("one_call", "asm board.json made.o", ("made.o",)),
]  # fmt: skip


class Run:
    """How a run ended: its status, what it printed, and the files after it."""

    def __init__(self, program, library, words, files, **refused):
        with tempfile.TemporaryDirectory() as name, tempfile.TemporaryFile() as count:
            folder = pathlib.Path(name)
            for file, held in files.items():
                (folder / file).write_bytes(held)
            number = count.fileno()
            given = {"LD_PRELOAD": library, "REFUSE_COUNT": str(number), **PATTERN, **refused}
            how = {"cwd": folder, "capture_output": True, "env": given, "pass_fds": [number]}
            done = subprocess.run([program, *words], **how)
            self.status, self.printed, self.errors = done.returncode, done.stdout, done.stderr
            self.files = {path.name: path.read_bytes() for path in folder.iterdir()}
            count.seek(0)
            self.asked = struct.unpack("l", count.read(8) or bytes(8))[0]

    def outcome(self):
        return self.status, self.printed, self.errors, self.files


def files_of(program, example):
    """The files of an example once it is built."""
    with tempfile.TemporaryDirectory() as name:
        folder = pathlib.Path(name)
        built(program, example, folder)
        return {path.name: path.read_bytes() for path in folder.iterdir()}


def numbers(count):
    """The requests that are refused, of so many."""
    if count <= LIMIT:
        return range(1, count + 1)
    quarter, half = LIMIT // 4, LIMIT // 2
    between = (1 + i * (count - 1) // half for i in range(half))
    return sorted({*range(1, quarter + 1), *range(count - quarter + 1, count + 1), *between})


def fault(run, plain, files):
    """What is wrong with a run, or None."""
    if run.outcome() == plain.outcome():
        return None
    changed = [name for name in run.files if run.files[name] != files.get(name)]
    if run.status != 4 or run.printed or run.errors or changed:
        texts = f"printed {run.printed[:60]!r}, on standard error {run.errors[:60]!r}"
        return f"status {run.status}, {texts}, changed {changed}"
    return None


def tried(program, library, case):
    """Prints how a case went, and gives its runs and faults."""
    example, command, written = case
    files = {**files_of(program, example), **dict.fromkeys(written, HELD)}
    words = command.split()
    plain = Run(program, library, words, files)
    if not plain.asked:
        sys.exit("no request was seen: the program doesn't ask the C library for memory")
    runs = faults = alike = 0
    with progress.of(f"{example}: {command}"):
        for number in numbers(plain.asked):
            progress.says(f"{example}: {command}: request {number} of {plain.asked}")
            for all_after in ({}, {"REFUSE_ALL": "1"}):
                run = Run(program, library, words, files, REFUSE_AT=str(number), **all_after)
                wrong = fault(run, plain, files)
                runs += 1
                alike += run.outcome() == plain.outcome()
                if wrong:
                    faults += 1
                    which = f"request {number}{' and all after' if all_after else ''}"
                    progress.printed(f"  {which}: {wrong}")
    counts = f"{plain.asked} requests, {runs} runs, {alike} did without, {faults} faults"
    print(f"{example}: {command}: status {plain.status}, {counts}", flush=True)
    return runs, faults


def main(words):
    program, only = programs.of_words(words, __doc__), words[1:]
    if not shutil.which("cc"):
        print("cc: no such program; it builds the library that refuses", file=sys.stderr)
        return programs.BAD_FILE
    with tempfile.TemporaryDirectory() as name:
        folder = pathlib.Path(name)
        (folder / "refuser.c").write_text(REFUSER)
        library = str(folder / "refuser.so")
        build = ["cc", "-O1", "-shared", "-fPIC", "-o", library, str(folder / "refuser.c")]
        subprocess.run(build, check=True)
        cases = [case for case in CASES if not only or case[1].split()[0] in only]
        done = [tried(program, library, case) for case in cases]
    runs, faults = sum(d[0] for d in done), sum(d[1] for d in done)
    print(f"{runs} runs tried, {faults} wrong, of {len(done)} commands")
    return 1 if faults or not runs else 0


if __name__ == "__main__":
    arguments.ended(__doc__, main)
