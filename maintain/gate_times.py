#!/usr/bin/env python3
"""Processor seconds of the gate, by crate: its proof, its tests' proof, its edits that must fail.

    maintain/gate_times.py                        runs `rt ci --anew` at the top of the repository (an
                                               hour or more), and prints the table
    maintain/gate_times.py -- rt must-fail tc_lex      the same of another command
    maintain/gate_times.py --from gate.times      prints the table of an earlier run again
    maintain/gate_times.py --edits 20 --from gate.times      and the 20 edits that took most, by the
                                               names that must-fail/ has today

A run writes what the command says to gate.log and the seconds to gate.times, in the folder that
--to names (/tmp). rt's log has no times, so the processes below the command are looked at twice a
second: one that ends is counted to its last look, so up to half a second of each is missed. What is
no proof (compilers, the tests and programs as they run, rt itself) is in the line "rest", from what
the system counted. If a host shares its processors among several machines, the same work takes more
of their seconds while others work. So a fixed sum is done twice a minute, and the last line says
how many seconds it took on the mean and at least.
"""
import argparse
import json
import os
import re
import resource
import subprocess
import sys
import time

TICK = os.sysconf("SC_CLK_TCK")
KINDS = ("proof", "tests", "edits")


def kind_of(words):
    """The crate and the kind of a prover's process, by its words; none for another process."""
    if "--crate-name" not in words[:-1] or not any(w in ("build", "check") for w in words[:3]):
        return None
    crate = words[words.index("--crate-name") + 1]
    if "--test" in words or crate.endswith("_tests"):
        return crate, "tests"
    if "build" in words[:3] or any("/rt-proved-" in w for w in words):
        return crate, "proof"
    return crate, "edits"


def edit_of(words):
    """The number of the edit that a prover's process tries, in the order of their names; none where
    it tries none."""
    found = (
        re.search(r"/rt-edits-[^/]*/(\d+)$", words[words.index("--incremental") + 1])
        if "--incremental" in words[:-1]
        else None
    )
    return int(found[1]) if found else None


def processes():
    """Each process: its number and start, its parent, its processor seconds, and its words."""
    for number in filter(str.isdigit, os.listdir("/proc")):
        try:
            with open(f"/proc/{number}/stat", encoding="utf-8", errors="replace") as f:
                fields = f.read().rpartition(")")[2].split()
            with open(f"/proc/{number}/cmdline", "rb") as f:
                words = f.read().decode(errors="replace").split("\0")
        except OSError:
            continue
        yield int(number), int(fields[1]), fields[19], (
            int(fields[11]) + int(fields[12])
        ) / TICK, words


def look(top, seen):
    """Notes the seconds of each process below the command, at the crate, the kind and the edit of
    the nearest prover above it."""
    found = {p[0]: p for p in processes()}
    for number, parent, start, seconds, words in found.values():
        at, what, edit = number, None, None
        while at in found and at != top:
            if not what:
                what, edit = kind_of(found[at][4]), edit_of(found[at][4])
            at = found[at][1]
        if at == top and what:
            seen[f"{number}.{start}"] = (*what, seconds, edit)


def fixed_sum():
    """The processor seconds that a fixed sum takes."""
    began, x = time.process_time(), 0
    for _ in range(1_000_000):
        x = (x * 1103515245 + 12345) & 0x7FFFFFFF
    return time.process_time() - began


def run(command, folder):
    seen, sums, at = {}, [], 0
    began = time.time()
    with open(f"{folder}/gate.log", "w", encoding="utf-8") as log:
        child = subprocess.Popen(command, stdout=log, stderr=subprocess.STDOUT)
        while child.poll() is None:
            look(child.pid, seen)
            if time.time() - at > 30:
                at = time.time()
                sums.append(fixed_sum())
            time.sleep(0.5)
    used = resource.getrusage(resource.RUSAGE_CHILDREN)
    with open(f"{folder}/gate.log", encoding="utf-8", errors="replace") as log:
        text = log.read()
    times = {
        "command": " ".join(command),
        "wall": time.time() - began,
        "processor": used.ru_utime + used.ru_stime,
        "edits": dict(
            re.findall(r"^rt: (\w+): trying its must-fail edits \((\d+)\)", text, flags=re.M)
        ),
        "last": text.rstrip().rpartition("\n")[2],
        "seen": list(seen.values()),
        "fixed sums": sums,
    }
    with open(f"{folder}/gate.times", "w", encoding="utf-8") as f:
        json.dump(times, f)
    return times


def table(times):
    sums = {}
    for crate, kind, seconds, _ in times["seen"]:
        row = sums.setdefault(crate, dict.fromkeys(KINDS, 0))
        row[kind] += seconds
    print(
        "| Crate | Proof, s | Tests, s | Edits, s | Number of edits | All, s |\n|---|---|---|---|---|---|"
    )
    for crate, row in sorted(sums.items(), key=lambda it: -sum(it[1].values())):
        cells = [f"{row[k]:.0f}" for k in KINDS]
        print(
            f"| {crate} | {' | '.join(cells)} | {times['edits'].get(crate, '')} | {sum(row.values()):.0f} |"
        )
    all_of = [sum(row[k] for row in sums.values()) for k in KINDS]
    count = sum(int(n) for n in times["edits"].values())
    print(
        f"| all crates | {' | '.join(f'{x:.0f}' for x in all_of)} | {count} | {sum(all_of):.0f} |"
    )
    print(f"| rest | | | | | {max(0, times['processor'] - sum(all_of)):.0f} |")
    print(
        f"\n{times['command']}: {times['processor'] / 60:.0f} processor minutes in {times['wall'] / 60:.0f} minutes. {times['last']}"
    )
    if fixed := times.get("fixed sums"):
        print(
            f"A fixed sum took {sum(fixed) / len(fixed):.3f} s of a processor on the mean, {min(fixed):.3f} s at least."
        )


def names_of(crate):
    return sorted(it for it in os.listdir(f"crates/{crate}/must-fail") if it.endswith(".edit"))


def edits(times, count):
    sums = {}
    for crate, kind, seconds, edit in times["seen"]:
        if kind == "edits":
            # rt tries the only edit of a crate from nothing, without a folder that has its number
            at = crate, 0 if len(names_of(crate)) == 1 else edit
            sums[at] = sums.get(at, 0) + seconds
    print("\n| Crate | Edit | s |\n|---|---|---|")
    tried = [it for it in sums if it[1] is not None]
    for crate, edit in sorted(tried, key=lambda it: -sums[it])[:count]:
        name = names_of(crate)[edit].removesuffix(".edit")
        print(f"| {crate} | {name} | {sums[crate, edit]:.0f} |")
    print(f"| all crates | each of {len(tried)} | {sum(sums[it] for it in tried):.0f} |")
    print(
        f"| all crates | proofs that edits begin and end with | {sum(sums[it] for it in sums if it[1] is None):.0f} |"
    )


def main():
    options = argparse.ArgumentParser(
        description=__doc__, formatter_class=argparse.RawDescriptionHelpFormatter
    )
    options.error = lambda why: options.exit(5, f"gate_times.py: {why}\n")
    options.add_argument("--to", type=os.path.abspath, default="/tmp")
    options.add_argument("--from", dest="earlier")
    options.add_argument("--edits", type=int, default=0)
    options.add_argument("command", nargs="*", default=["rt", "ci", "--anew"])
    given = options.parse_args()
    times = None
    if given.earlier:
        with open(given.earlier, encoding="utf-8") as f:
            times = json.load(f)
    os.chdir(os.path.join(os.path.dirname(os.path.abspath(__file__)), ".."))
    times = times or run(given.command, given.to)
    table(times)
    if given.edits:
        edits(times, given.edits)


if __name__ == "__main__":
    sys.exit(main())
