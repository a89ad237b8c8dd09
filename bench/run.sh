#!/bin/sh
# How many machine instructions `run` executes for 50,000 and 100,000 events:
# bench/run.sh [PROGRAM]. Without a program it builds crates/tcd.
# Needs rt (without a program), valgrind and python3.
set -eu
. "$(dirname "$0")/program.sh"
PYTHONDONTWRITEBYTECODE=1 PYTHONPATH=$top/bench python3 - "$program" "$work" <<'MEASURE'
import os, sys
import run
from counting import instructions

program, work = sys.argv[1:]
for depth, rom in ((0, 0x8000), (0, 0x100000), (8, 0x100000), (32, 0x100000)):
    where = f"{work}/{depth}-{rom}"
    os.mkdir(where)
    run.main(where, depth, rom)
    counts = []
    for events in (50000, 100000):
        command = [program, "run", f"{where}/image.elf", f"{where}/plan.json", f"{where}/{events}"]
        total, printed, tops = instructions(command, top=10)
        assert printed == f"events {events} peak {depth + 1} running", printed
        counts.append(total)
    print(f"depth {depth}, {rom} bytes of rom: {counts[0]}, {counts[1]}, growth {counts[1] / counts[0]:.3f},",
          f"an event {(counts[1] - counts[0]) / 50000:.1f}; most instructions:", flush=True)
    for row in tops:
        print("   ", row)
MEASURE
