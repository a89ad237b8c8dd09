#!/usr/bin/env python3
"""A second checker of certificates, in another language than tcd, that needs no tcd.

    second_check.py ELF PLAN CERT [--cells FILE | --boot ADDRESS]
    second_check.py ELF PLAN --tasks FILE CERT ..

It prints the line that `tcd check` has to print of these files, with `--cells` that of `tcd cells`,
with `--boot` that of `tcd boot`, with `--tasks` that of `tcd tasks`. If tcd prints another line, or
ends with another status, one of both is wrong.

It was written from docs/rules.md, formats.md and machine.md, never from the crates of tcd, and
shares with them only the table of instructions. So it finds an error of tcd's readers, of its rules
or of a compiler, but none of these pages: both checkers follow them.

Some 1,000 points take a second. Exit status, as of tcd: 0 certified, 1 refused, 2 a file that isn't
in its form, 3 a file that can't be read, 4 out of memory, 5 wrong arguments.
"""
import re
import sys
import time

from tcdlib import arguments, rules
from tcdlib import formats as readers
from tcdlib import program as tcd

ADDRESS = re.compile("[0-9A-F]{8}")


class Refused(Exception):
    """The line of a refusal."""


class Progress:
    """How many points are judged, for a person at a terminal."""

    def __init__(self):
        self.is_watched, self.count, self.told = sys.stderr.isatty(), 0, time.monotonic()

    def __call__(self):
        self.count += 1
        if self.is_watched and time.monotonic() > self.told + 1:
            self.told = time.monotonic()
            print(f"\r{self.count} points\r", end="", file=sys.stderr, flush=True)


def bytes_of(path, what, most=readers.FILE_LIMIT):
    """The bytes of a file that isn't above its limit."""
    with open(path, "rb") as file:
        data = file.read(most + 1)
    if len(data) > most:
        raise readers.Bad(f"{what} 0")
    return data


def certificate(path):
    """The format and the nodes of a certificate."""
    return readers.Certificate(bytes_of(path, "cert", readers.CERT_LIMIT)).read()


def demand_kept(fault, end=""):
    """Raises Refused if a rule doesn't hold."""
    if fault:
        raise Refused(rules.line_of(*fault) + end)


def accepted(image, board, cert, end=""):
    """The judge of an accepted certificate."""
    judge = rules.Judge(image, board, cert, Progress())
    demand_kept(judge.fault(), end)
    return judge


def certified(need, judge):
    """The line of a certificate, without what some commands add."""
    return f"certified {need} of {judge.spare} areas"


def checked(image, board, paths):
    """The line of `tcd check`."""
    judge = accepted(image, board, certificate(*paths))
    return certified(judge.need(), judge)


def checked_boot(image, board, paths, at):
    """The line of `tcd boot`."""
    judge = accepted(image, board, certificate(*paths))
    fault = readers.boot_fault(image, board, int(at, 16))
    if fault:
        raise Refused(f"refused boot {fault}")
    events = 53 + 3 * board["csa"]["areas"]
    return f"boot {events} events {certified(judge.need(), judge)}"


def checked_cells(image, board, paths, file):
    """The line of `tcd cells`."""
    cells = readers.cells(bytes_of(file, "cells"), board)
    judge = accepted(image, readers.with_cells(board, cells), certificate(*paths))
    demand_kept(rules.cells_fault(judge, cells))
    return f"{certified(judge.need(), judge)} with {len(cells)} cells"


def checked_tasks(image, board, paths, file):
    """The line of `tcd tasks`."""
    found = readers.tasks(bytes_of(file, "tasks"), board)
    if len(found[2]) != len(paths):
        raise readers.Bad("tasks 7")
    certs = [certificate(path) for path in paths]
    fault = readers.routine_fault(image, board, found)
    if fault is not None:
        raise Refused(f"refused switch at {fault:08X}")
    needs = []
    for task, cert in enumerate(certs):
        view = readers.elf(readers.view_image(image, found, task))
        end = f" of task {task}"
        judge = accepted(view, readers.view_plan(board, found, task), cert, end)
        demand_kept(rules.task_fault(judge, found[0]), end)
        needs.append(max(judge.need(), 2 if task else 0))
    if sum(needs) > judge.spare:
        raise Refused(f"refused sum {sum(needs)} of {judge.spare} areas")
    return f"{certified(sum(needs), judge)} in {len(certs)} tasks"


def judged(elf, plan, certs, boot=None, cells=None, tasks=None):
    """The status and the line of these files, read in the order of tcd's arguments."""
    try:
        image = readers.elf(bytes_of(elf, "elf"))
        board = readers.plan(bytes_of(plan, "plan"))
        if boot is not None:
            return tcd.DONE, checked_boot(image, board, certs, boot)
        if cells is not None:
            return tcd.DONE, checked_cells(image, board, certs, cells)
        if tasks is not None:
            return tcd.DONE, checked_tasks(image, board, certs, tasks)
        return tcd.DONE, checked(image, board, certs)
    except readers.Bad as e:
        return tcd.BAD_FILE, f"bad {e}"
    except Refused as e:
        return tcd.REFUSED, str(e)


def parsed(words):
    """The arguments."""
    parser = arguments.Parser("elf", "plan")
    parser.add_argument("certs", nargs="+", metavar="CERT")
    kinds = parser.add_mutually_exclusive_group()
    for name in ("--boot", "--cells", "--tasks"):
        kinds.add_argument(name)
    given = parser.parsed(words)
    if len(given.certs) > 1 and given.tasks is None:
        parser.error("more than one CERT needs --tasks")
    if given.boot is not None and not ADDRESS.fullmatch(given.boot):
        parser.error("--boot needs an address of eight upper-case hex digits")
    return given


def main(words):
    """Prints the line, and gives the exit status."""
    given = parsed(words)
    try:
        status, line = judged(**vars(given))
    except MemoryError:
        return tcd.NO_MEMORY
    print(line)
    return status


if __name__ == "__main__":
    arguments.ended(__doc__, main, tcd.NO_FILE)
