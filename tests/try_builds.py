#!/usr/bin/env python3
"""Tries the builds of examples/ in copies: python3 tests/try_builds.py PROGRAM

PROGRAM is the built tcd (crates/tcd/out/tcd). With Make, each target of motor_control/Makefile, for
the firmware beside it, for start_up (a boot sequence), tasks_start_up (tasks) and cells; that a
refusal ends the build, names its line (without tools/ it is tcd's line alone) and leaves no
certificate, and that an output that is also an input is refused. With CMake, the same targets of
motor_control and its tests, whose report has to hold `certified 20 of 20 areas`, and a refusal.
What isn't installed isn't tried, which is printed.

Exit status: 0 all is well, 1 something isn't, 2 no such program, 5 wrong arguments.
"""
import pathlib
import shutil
import sys
import tempfile

import scratch
from tcdlib import program as tcd

CERTIFIED, TOOLS = "certified 20 of 20 areas", scratch.TOP / "tools"
NO_WARNING = "no warning, which is no proof that the plan is right"
#: by example: settings on the command line, targets with a line that they print
MAKES = {
    "motor_control": (
        (),
        (
            ("all", CERTIFIED),
            ("check", CERTIFIED),
            ("plan", NO_WARNING),
            ("run", "events 1585 peak 20 running"),
            ("page", ""),
            ("growth", "20 of 20 areas"),
            ("growth", "    interrupt 40            6    6"),
            ("evidence", CERTIFIED),
            ("explain", CERTIFIED),
            ("ship", CERTIFIED),
        ),
    ),
    "start_up": (
        (),
        (
            ("bootgen", "boot 56 instructions"),
            ("ship", "certified 3 of 6 areas"),
            ("check", "boot 77 events certified 3 of 6 areas"),
            ("plan", NO_WARNING),
            ("run", "events 65 peak 3 running"),
            ("worst", "reached 3 of 3"),
            ("page", ""),
            ("growth", "3 of 6 areas"),
            ("evidence", "boot 77 events certified 3 of 6 areas"),
        ),
    ),
    "tasks_start_up": (
        (),
        (
            ("all", "certified 8 of 8 areas in 2 tasks"),
            ("check", "certified 8 of 8 areas in 2 tasks"),
            ("plan", NO_WARNING),
            ("run", "events 513 peak 5 running"),
            ("page", ""),
            ("growth", "5 of 8 areas"),
            ("evidence", "certified 8 of 8 areas in 2 tasks"),
            ("explain", "certified 8 of 8 areas in 2 tasks"),
        ),
    ),
    "cells": (
        ("-f", "../motor_control/Makefile", "SOURCES=main.s key.s", "CELLS=modes.cells"),
        (
            ("all", "certified 5 of 6 areas with 1 cells"),
            ("check", "certified 5 of 6 areas with 1 cells"),
            ("plan", NO_WARNING),
            ("page", ""),
            ("growth", "5 of 6 areas"),
            ("evidence", "certified 5 of 6 areas with 1 cells"),
        ),
    ),
}
CELLS = MAKES["cells"][0]
TASKS = ("-f", "../motor_control/Makefile", "SOURCES=main.s show.s switch.s", "TASKS=board.tasks",
         "CERTS=measure.cert show.cert")  # fmt: skip
#: builds that are refused: the example, its variant, settings, the rule, and the file and the text
#: of its line
REFUSED = (
    ("motor_control", "broken", (), "K14", "faults.s", "call   gates_off"),
    ("cells", "broken", CELLS, "K16", "key.s", "st.w.l [a15]lo:mode, d0"),
    ("two_tasks", "broken_load", TASKS, "K17", "show.s", "ld.bu  d2, [a15]0"),
)
#: what `make clean` leaves of what targets wrote
KEPT = {"needs.json", "evidence"}
#: settings with which an output is also an input
CLASHES = ("CERTS=board.json", "CERTS=./main.s", "SOURCES=boot.s BOOT=80000800", "CELLS=page.html")


class Bench:
    """A copy of an example beside one of motor_control, and what was wrong in it."""

    def __init__(self, program, example, room):
        self.program, self.example, self.tried, self.wrong = program, example, 0, []
        self.folder = pathlib.Path(room) / example
        for name in {example, "motor_control"}:
            (pathlib.Path(room) / name).mkdir()
            scratch.copied(name, pathlib.Path(room) / name)
        self.before = self.files()

    def files(self):
        return {path.name for path in self.folder.iterdir()}

    def holds(self, what, is_so, printed=""):
        """Counts one thing that has to be so."""
        self.tried += 1
        if not is_so:
            self.wrong.append(f"{self.example}: {what}: {printed.strip()[-300:]!r}")

    def ran(self, *words):
        out, err, status = scratch.run(list(words), self.folder)
        return out + err, status

    def does(self, what, line, *words):
        """A command has to end well and to print a line."""
        printed, status = self.ran(*words)
        self.holds(what, status == 0 and line in printed.splitlines() + [""], printed)

    def make(self, target, *settings):
        names = (f"TCD={self.program}", f"TOOLS={TOOLS}", f"PYTHON={sys.executable}")
        return ["make", *settings, target, *names]


def make(bench):
    """Each target of an example, and `clean`."""
    settings, targets = MAKES[bench.example]
    for target, line in targets:
        bench.does(f"make {target}", line, *bench.make(target, *settings))
    bench.holds("make page writes page.html", "page.html" in bench.files())
    bench.does("make clean", "", *bench.make("clean", *settings))
    bench.holds("make clean leaves the rest", bench.files() == bench.before | KEPT)


def has_place(bench, printed, rule, file, text, folder=""):
    """Whether a build prints the line of a refusal as compilers print it."""
    lines = (bench.folder / file).read_text().splitlines()
    numbers = [n for n, line in enumerate(lines, 1) if text in line]
    fronts = tuple(f"{folder}{file}:{n}: error: {rule} at " for n in numbers)
    return any(line.startswith(fronts) for line in printed.splitlines())


def refused(bench):
    """A fault in a source ends the build and is named, and the older certificates are gone."""
    _, variant, settings, rule, file, text = next(row for row in REFUSED if row[0] == bench.example)
    bench.does("make all", "", *bench.make("all", *settings))
    broken = scratch.EXAMPLES / bench.example / variant / file
    shutil.copy(broken, bench.folder)
    for target, more in (("all", ()), ("explain", ()), ("all", ("TOOLS=none",))):
        printed, status = bench.ran(*bench.make(target, *settings), *more)
        what = f"a refusal ends {target} {' '.join(more)}"
        bench.holds(what, status == 2 and f"refused {rule} at" in printed, printed)
        is_told = has_place(bench, printed, rule, file, text)
        bench.holds(f"{what} with its line", is_told == (not more), printed)
        left = [name for name in bench.files() if name.endswith(".cert")]
        bench.holds(f"{what} and leaves no certificate", not left, str(left))
    shutil.copy(scratch.EXAMPLES / bench.example / file, bench.folder)
    bench.does("make all without tools", "", *bench.make("all", *settings), "TOOLS=none")


def clashes(bench):
    """An output that is also an input is refused before anything is written."""
    for settings in CLASHES:
        printed, status = bench.ran(*bench.make("all", *settings.split(" ")))
        is_told = "an output is also an input" in printed
        bench.holds(settings, status == 2 and is_told and bench.files() == bench.before, printed)


def cmake(bench):
    """The same targets with CMake, and its tests."""
    bench.does("cmake", "", "cmake", "-B", "build", f"-DTCD={bench.program}", f"-DTOOLS={TOOLS}")
    for target, line in MAKES["motor_control"][1]:
        bench.does(f"cmake {target}", line, "cmake", "--build", "build", "--target", target)
        if target == "growth":
            bench.does("cmake again", "", "cmake", "build")
    bench.does("ctest", "", "ctest", "--test-dir", "build", "--output-junit", "areas.xml")
    report = bench.folder / "build" / "areas.xml"
    text = report.read_text() if report.exists() else ""
    bench.holds("the report has the line of `check`", CERTIFIED in text, text)
    shutil.copy(scratch.EXAMPLES / "motor_control" / "broken" / "faults.s", bench.folder)
    folder, (_, _, _, *found) = f"{bench.folder.resolve()}/", REFUSED[0]
    for tools in (TOOLS, "none"):
        bench.ran("cmake", "-B", "build", f"-DTOOLS={tools}")
        printed, status = bench.ran("cmake", "--build", "build")
        is_told = has_place(bench, printed, *found, folder) == (tools == TOOLS)
        what = status != 0 and "refused K14 at" in printed and is_told
        bench.holds(f"a refusal with TOOLS={tools}", what, printed)
        left = (bench.folder / "build" / "firmware.cert").exists()
        bench.holds("a refusal leaves no certificate", not left)
    printed, status = bench.ran("cmake", f"-DTCD={bench.program}", ".")
    is_told = status == 1 and "folder of its own" in printed
    bench.holds("a build beside its inputs", is_told, printed)


def has(tool):
    """Whether a tool of a build is installed; of ctest one that can write a report."""
    if tool == "ctest" and shutil.which("ctest"):
        words = scratch.run(["ctest", "--help"], ".")[0]
        return bool(shutil.which("cmake")) and "--output-junit" in words
    return bool(shutil.which(tool))


def main(arguments):
    program, tried, wrong = tcd.of_words(arguments, __doc__, 1), 0, []
    builds = [("make", make, example) for example in MAKES]
    builds += [("make", refused, row[0]) for row in REFUSED]
    builds += [("make", clashes, "motor_control")]
    for tool, build, example in [*builds, ("ctest", cmake, "motor_control")]:
        if not has(tool):
            print(f"{build.__name__} is not tried: {tool} isn't installed, or is too old")
            continue
        with tempfile.TemporaryDirectory() as room:
            bench = Bench(program, example, room)
            build(bench)
        tried, wrong = tried + bench.tried, wrong + bench.wrong
    print("\n".join([*wrong, f"{tried} steps tried, {len(wrong)} wrong"]))
    return 1 if wrong else 0


if __name__ == "__main__":
    sys.exit(main(sys.argv[1:]))
