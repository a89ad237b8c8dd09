#!/usr/bin/env python3
"""A table of functions: bytes of code, stack, areas, and in which priorities each runs.

    functions.py ELF PLAN CERT [--names LAYOUT SOURCE ..] [--by areas|bytes|stack|name] [--json]
                 [--cells FILE | --tasks FILE TASK] [--tcd PROGRAM]

    bytes    of its instructions that a run may reach; two functions may share some
    stack    how far A10 goes below its value at the entry, by the function itself; `?` if A10 isn't
             known somewhere
    areas    the most that it needs besides those in use when it begins, interrupts that may come
             included, at the priority at which it needs most
    runs in  the priorities at which it runs; `-` is the background

With LAYOUT come its places: the bytes that are in each, and the most that may be. A variable
without bytes counts none. Code that no run reaches isn't in a certificate, so it isn't in the table.

The certificate is judged first (`report`, and with cells `cells`; `tasks` is left to you). The
bytes and the stacks are help and no claim: tcd claims nothing of stacks (L2 in docs/safety.md).

Exit status: 0 done, 1 the certificate is refused, 2 a file or a program that can't be used, 5 wrong
arguments.
"""
import json

import names
from tcdlib import arguments
from tcdlib import certified
from tcdlib import program as tcd
from tcdlib import sources
from tcdlib.frames import hex8
from tcdlib.sources import shown

ORDERS = ("areas", "bytes", "stack", "name")


def own_stack(frames):
    """How far A10 goes below its value at the entry in frames of a function, or None."""
    most = 0
    for frame in frames:
        first, lows = certified.begun(frame), [point.lowest for point in frame.points]
        if first is None or None in lows:
            return None
        most = max(most, first - min(lows))
    return most


def functions_of(frames, known):
    """What is known of each function."""
    by_entry = {}
    for frame in frames:
        by_entry.setdefault(frame.entry, []).append(frame)
    for entry, mine in sorted(by_entry.items()):
        sizes = {point.at: point.size for frame in mine for point in frame.points}
        yield {
            "name": known.name(entry),
            "address": hex8(entry),
            "place": known.place(entry),
            "bytes": sum(sizes.values()),
            "stack": own_stack(mine),
            "areas": max(frame.need for frame in mine),
            "priorities": sorted({frame.prio for frame in mine}),
            "kinds": sorted({frame.kind for frame in mine}),
        }


def places_of(layout, paths):
    """How full each place of a layout is."""
    read = [sources.read_source(path) for path in paths]
    for name, place in sources.read_places(layout).items():
        size = sources.linked_size(read, name)
        yield {"place": name, "address": hex8(place.at), "bytes": size, "most": place.most}


def rank(row, order):
    """Where a function is in the table: the greatest first, an unknown stack before all."""
    if order == "name":
        return row["name"]
    return -(1 << 32 if row[order] is None else row[order])


def lines_of(rows, places):
    """The tables as they are printed."""
    wide = max(len(row["name"]) for row in [*rows, {"name": "function"}])
    yield f"{'function':{wide}}  bytes  stack  areas  runs in"
    for row in rows:
        stack = "?" if row["stack"] is None else row["stack"]
        runs = " ".join(str(prio or "-") for prio in row["priorities"])
        text = f"{row['name']:{wide}}  {row['bytes']:5}  {stack:>5}  {row['areas']:5}  {runs:10}"
        yield f"{text}  {row['place']}".rstrip()
    if places:
        yield f"{'place':{wide}}  bytes   most  address"
    for each in places:
        yield f"{each['place']:{wide}}  {each['bytes']:5}  {each['most']:5}  {each['address']}"


def main(given):
    """Judges the certificate, prints the tables, and gives the exit status."""
    parser = certified.parser()
    parser.add_argument("--by", choices=ORDERS, default="areas")
    given = parser.parsed(given)
    with certified.accepted(given) as (asked, _):
        known = names.of(asked.program, given.elf, given.names)
        frames = list(certified.frames_of(given.cert, asked.image()))
    rows = sorted(functions_of(frames, known), key=lambda row: rank(row, given.by))
    places = list(places_of(given.names[0], given.names[1:])) if given.names else []
    if given.json:
        print(json.dumps({"functions": rows, "places": places, "note": certified.NO_CLAIM}))
    else:
        print("\n".join(map(shown, lines_of(rows, places))))
        print(certified.NO_CLAIM)
    return tcd.DONE


if __name__ == "__main__":
    arguments.ended(__doc__, main)
