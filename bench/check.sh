#!/bin/sh
# How many machine instructions `check` executes on certificates of 2,000, 4,000 and 32,000 points,
# and how much heap it takes; beside it those of plain.c: bench/check.sh [PROGRAM]. Without a
# program it builds crates/tcd. Needs rt (without a program), valgrind, python3, and cc for plain.c.
set -eu
. "$(dirname "$0")/program.sh"
if command -v cc >/dev/null; then cc -O2 -o "$work/plain" "$top/bench/plain.c"; fi
PYTHONDONTWRITEBYTECODE=1 PYTHONPATH=$top/bench python3 - "$program" "$work/plain" "$work" <<'MEASURE'
import math, os, sys
import check
from counting import heap, instructions

program, plain, work = sys.argv[1:]
POINTS = 2000, 4000, 32000

def files(shape, points):
    where = f"{work}/{shape}{points}"
    if not os.path.isdir(where):
        os.mkdir(where)
        check.main(where, shape, points)
    return where

def command(shape, points, accepted):
    where = files(shape, points)
    plan = "plan" if accepted else "other"
    return [program, "check", f"{where}/image.elf", f"{where}/{plan}.json", f"{where}/cert.cert"]

def plain_command(shape, points, accepted):
    where = files(shape, points)
    return [plain, f"{where}/image.elf", f"{where}/cert.cert", "D0018000" if accepted else "D0017FF8"]

def measured(words, accepted, **options):
    total, printed, tops = instructions(words, **options)
    assert printed.startswith("certified" if accepted else "refused K1"), printed
    return total, tops

def growths(name, shape, commands, points, **options):
    """Prints the counts for these numbers of points; the functions with the most instructions in the last run."""
    before, tops = None, []
    for n in points:
        whole, tops = measured(commands(shape, n, True), True, **options)
        reading, _ = measured(commands(shape, n, False), False, **{**options, "top": 0})
        growth = ""
        if before:
            allowed = n * math.log(n) / (before[0] * math.log(before[0]))
            growth = ", growth %.3f, of reading %.3f (n log n: %.3f)" % (whole / before[1], reading / before[2], allowed)
        print(f"{name} {shape} {n}: {whole}, reading {reading}; a point {whole / n:.0f}, its reading {reading / n:.0f}{growth}",
              flush=True)
        before = n, whole, reading
    return tops

for shape in ("functions", "line", "interrupts"):
    tops = growths("check", shape, command, POINTS[:2], short_copies=True, top=14)
    print("    most instructions with", POINTS[1], "points:")
    for row in tops:
        print("   ", row)
growths("check, copies by bytes,", "functions", command, (500, 1000))
for shape in ("line", "functions"):
    accepted, refused = (heap(command(shape, POINTS[0], accepted)) for accepted in (True, False))
    print(f"{shape} {POINTS[0]}: heap {accepted}, refused at rule 1 {refused}", flush=True)
if os.path.exists(plain):
    for shape in ("functions", "line", "interrupts"):
        growths("plain", shape, plain_command, POINTS[:2] if shape != "functions" else POINTS, short_copies=True)
growths("check", "functions", command, POINTS[1:], short_copies=True)
MEASURE
