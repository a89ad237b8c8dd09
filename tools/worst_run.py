#!/usr/bin/env python3
"""Looks for a run that takes as many context save areas as the certificate says.

    worst_run.py ELF PLAN CERT [-o worst.script] [--seconds 60] [--seed 1] [--tcd PROGRAM]
                 [--in DEVICE LO HI ..] [--cells FILE | --tasks FILE TASK]
                 [--names LAYOUT SOURCE ..]

No run can pass the certificate's N. This script looks for a run that comes to N, writes it as a
script for `tcd run`, lets `tcd run` play it, and prints `reached 11 of 11`. If it finds none in the
time, it prints `reached 10 of 11`, writes the script of the best run, and says which entry of a
chain to N no run has taken. Then N may be reached by a run that wasn't found, or by none: a
certificate joins what is known of a function's callers, so it may allow what no run does. Nothing
here has to be trusted: what counts is the line that `tcd run` prints.

    --in DEVICE LO HI     what a device answers, as in a script: for what you know of it
    --cells FILE          the certificate is one of `cellcert`, for these cells
    --tasks FILE TASK     the certificate is that of a task, from 0, of `taskcert`; it is played
                          alone, in its view: each word of ram may hold anything when it is read
    --names LAYOUT ..     the layout and the sources, for names in what is printed; sources that
                          don't link to ELF are refused
    --seed N              another choice of what is tried; times differ much. One seed gives one
                          script, if N is reached in the time

The search is random: it fires interrupts where an entry can still lead to N, others for what their
handlers change, and lets the devices answer what the code compares with. What needs several words
in a row from a device, exact words from it at several places, or long counting, may not be found in
a minute. A script has 100,000 turns, so a longer start hides all after it.

Interrupted (Ctrl-C), it writes the best run so far.

Exit status: 0 reached N, 1 not reached, 2 a file or program that can't be used, 5 wrong arguments.
"""
import json
import re
import sys
import tempfile
import time

import names
from tcdlib import arguments
from tcdlib import judged
from tcdlib import program as tcd
from tcdlib import worst_graph
from tcdlib import worst_machine
from tcdlib import worst_search
from tcdlib.sources import Unusable, shown

MOST_POINTS = 8


def graph_of(firmware, cert, name_at):
    """The graph of the certificate."""
    report, is_refused = firmware.report(cert)
    if is_refused:
        raise Unusable(f"{shown(cert)}: {report.strip()}")
    try:
        return worst_graph.Graph(json.loads(report), firmware.edges(), firmware.board(), name_at)
    except (worst_graph.Unreadable, ValueError, KeyError) as e:
        raise Unusable(f"{shown(cert)}: `report` and `cfg` don't fit: {e}") from None


def fixed_answers(given, board):
    """The answers of devices that the words give."""
    fixed, devices = {}, board["devices"]
    for n, low, high in given.answers:
        if not 0 <= n < len(devices) or not devices[n]["lo"] <= low <= high <= devices[n]["hi"]:
            raise Unusable(f"--in {n} {low} {high}: the plan has no such device, or other bounds")
        fixed[n] = low, high
    return fixed


# Scripts


def script_of(best, board, devices_read):
    """The script that does what the machine did."""
    turns, done, answers = best
    least = [(d["lo"], d["lo"]) for d in board["devices"]]
    said = [n for n in range(len(answers)) if n in devices_read and answers[n] != least[n]]
    lines = [f"in {n} {answers[n][0]} {answers[n][1]}" for n in said]
    entries, at = [], 0
    while done:
        done, t, what = done
        entries.append((t, what))
    for t, what in reversed(entries):
        lines += [f"step {t - at}"] * (t > at)
        lines += ["aln 1", "step 1", "aln 0"] if what == "aln" else [f"irq {what}"]
        at = t + 1
    lines += [f"step {turns - at}"] * (turns > at)
    return "\n".join(lines) + "\n"


# What no run has done


def name_of(known):
    """A function that names an address, of a function that begins at another one."""
    return lambda at, of=None: f"{known.name(at, of)} ({at:08X})" if known else f"{at:08X}"


def ways_of(graph, node, point, base, name):
    """What leads on to N at a point, in words."""
    out = []
    for way, to in node.ways[point]:
        if way not in ("call", "sys", "aln", "irq"):
            continue
        for prio, child in graph.entered(node, way, to):
            if node.saved.get(point, 0) + 1 + child.need >= graph.areas - base:
                out.append(f"interrupt {prio}" if way == "irq" else f"{way} of {name(to)}")
    return out or ["a save of its own"]


def blocked(search):
    """How many areas were in use when the deepest frame began from which no run went on, and for
    each such frame the addresses from which it was entered."""
    graph = search.w.graph
    frames = search.w.learned.frames | {(graph.start, 0, None)}
    frames = {frame for frame in frames if graph.goals(*frame[:2]).fires}
    deepest = max((base for _, base, _ in frames), default=0)
    found = {}
    for node, base, via in frames:
        if base == deepest:
            found.setdefault(node, set()).add(via)
    return deepest, found


def taken_from(search, node, ways):
    """From where the function was called in runs that took one of these ways."""
    wanted = {(way, to) for way, to in ways if way in ("call", "sys", "aln", "irq")}
    entries = search.w.learned.entries
    return {via for n, via, way, to in entries if n.key[:2] == node.key[:2] and (way, to) in wanted}


def why_not(search, name):
    """Which entry of a chain to N no run has taken, and why there may be no such run."""
    graph, is_joined = search.w.graph, False
    deepest, frames = blocked(search)
    yield f"A chain that leads to {graph.areas} was followed to a frame that no run left on it:"
    for node, vias in frames.items():
        frame = "{} {:08X} prio {} is {}".format(*node.key)
        yield f"  {name(node.key[1])}, entered with {deepest} areas in use ({frame})"
        for point in sorted(graph.goals(node, deepest).fires)[:MOST_POINTS]:
            ways = ", ".join(ways_of(graph, node, point, deepest, name)[:3])
            yield f"    no run took, at {name(point, node.key[1])}: {ways}"
            taken = taken_from(search, node, node.ways[point]) - {None}
            if node.key[0] == "call" and taken and not taken & vias:
                is_joined = True
                yield f"      if it was called at {name(min(taken))}, runs took it;"
                yield f"      if at {name(min(vias))}, none did"
    if is_joined:
        yield "The certificate has one frame for all calls of a function at one priority, where the"
        yield "values of its callers are joined: each call counts what another may do. It may be"
        yield "that no run comes to N, or that none was found in this time."
    else:
        yield "Either no such run was found in this time, or there is none: N is a bound."
    yield "More time (--seconds), another --seed or what a device answers (--in) may find a run."


# The arguments


def parsed(given):
    parser = arguments.Parser("elf", "plan", "cert")
    parser.add_argument("-o", "--out", default="worst.script")
    parser.add_argument("--seconds", type=float, default=60)
    parser.add_argument("--seed", type=int, default=1)
    parser.add_argument("--in", dest="answers", nargs=3, type=int, action="append", default=[])
    parser.add_names("--names")
    parser.add_argument("--tcd", default="tcd")
    judged.add_to(parser)
    return parser.parsed(given)


def searched(given, firmware, known):
    """Searches, writes the script, plays it, and prints what was reached. Gives the status."""
    began, board = time.monotonic(), firmware.board()
    fixed = fixed_answers(given, board)
    world = worst_machine.World(firmware.image(), board)
    world.graph = graph = graph_of(firmware, given.cert, world.name_at)
    search = worst_search.Search(world, given.seconds, given.seed, fixed)
    search.go()
    nothing = 1, None, tuple((d["lo"], d["lo"]) for d in board["devices"])
    arguments.written(given.out, script_of(world.best or nothing, board, world.learned.read))
    line = tcd.printed(firmware.program, "run", firmware.elf, firmware.played, given.out)[0].strip()
    peak = int(re.search(r"peak (\d+)", line)[1])
    print(f"reached {peak} of {graph.areas}")
    took = time.monotonic() - began
    print(f"{given.out}: {line}; {took:.1f} s, {search.steps} events tried", file=sys.stderr)
    if peak != world.peak:
        print(f"Its own machine counted {world.peak}: a fault of worst_run.py", file=sys.stderr)
    if peak < graph.areas:
        print("\n".join(why_not(search, name_of(known))), file=sys.stderr)
    return tcd.DONE if peak >= graph.areas else tcd.REFUSED


def main(given):
    given = parsed(given)
    files = [given.elf, given.plan, given.cert, given.cells, *(given.tasks or [])[:1]]
    arguments.demand_apart([given.out], [*files, *given.names])
    program = tcd.found(given.tcd, "name it with --tcd")
    known = names.of(program, given.elf, given.names)
    with tempfile.TemporaryDirectory() as folder:
        firmware = judged.Judged(program, *files[:2], folder, given.cells, given.tasks)
        return searched(given, firmware, known)


if __name__ == "__main__":
    arguments.ended(__doc__, main)
