#!/usr/bin/env python3
"""Which one change of the firmware lowers N, to what, and where is it made?

    lower.py ELF PLAN [--names LAYOUT SOURCE ..] [--to N] [--most 12] [--json] [--tcd PROGRAM]
             [--cells FILE | --tasks FILE TASK]

It makes a certificate of ELF, with more areas than PLAN has if there are too few, and computes on
its frames what N is after each of these changes:

    bisr16 P in the handler of interrupt Q     no interrupt up to P interrupts it
    inline F                                   the body of a function instead of its direct calls
    interrupts off around the calls of F       `disable` before each, `enable` after it
    no svlcx in the handler of interrupt Q     if it makes no call: it keeps D0 to D7 and A2 to A7

Only changes on the longest chain can lower N, so these are computed. A line is one change and its
N, the lowest first; --most limits them:

    current.s:4: note: 16 areas: bisr16 24 in the handler of interrupt 8

With --to, the lines are changes to make together: the best one, then the best one after it, until N
is reached. If several chains are equally long, one of them may leave N as it is.

Names come from LAYOUT and the SOURCEs, which have to link to ELF, or from its symbols.

    --cells FILE          the certificate is made by `cellcert`, with these cells
    --tasks FILE TASK     the certificate is that of one task, from 0, of `taskcert`, and N is what
                          this task needs

This is help and no claim. Timing, priorities and data aren't looked at: whether a change is right
is for the engineer. Make it, and `cert` says what holds.

Exit status: 0 done, 1 --to isn't reached, or no number of areas gives a certificate, 2 a file or a
program that can't be used, 5 wrong arguments.
"""
import collections
import json
import tempfile

import names
from tcdlib import arguments
from tcdlib import judged
from tcdlib import plans
from tcdlib import program as tcd
from tcdlib import progress
from tcdlib.arguments import Refused
from tcdlib.frames import Graph
from tcdlib.sources import shown

DIRECT = ("call", "call16", "calla")
BISR = ("bisr", "bisr16")
ENABLES = ("enable", *BISR)
#: --to gives up after so many changes
MOST_CHANGES = 40

#: a change: its kind, the function or the priorities, and the address where it is made
Change = collections.namedtuple("Change", "kind what at")
#: how a frame enters another one: by a direct call or not, with the most lower contexts held
Entry = collections.namedtuple("Entry", "way into is_direct saved")


class Lit:
    """Where interrupts may be on, if some functions are called with interrupts off."""

    def __init__(self, graph, listing, is_on, quiet=()):
        self.graph, self.listing, self.quiet = graph, listing, set(quiet)
        #: by frame: the points at which interrupts may be on; the frames that may return so
        self.points, self.returns, self.work = collections.defaultdict(set), set(), []
        self.callers = collections.defaultdict(list)
        for frame in graph.frames.values():
            for point, ways in frame.ways.items():
                for way, to in ways:
                    if way == "call" and (into := graph.entered(frame, way, to)):
                        self.callers[into.key].append((frame, point))
                if listing.word(point) in ENABLES:
                    self.go(frame, point, "to")
        if is_on:
            self.reach(graph.start, graph.start.key.entry)
        while self.work:
            self.step(*self.work.pop())

    def reach(self, frame, point):
        """Interrupts may be on at a point."""
        if point not in self.points[frame.key]:
            self.points[frame.key].add(point)
            self.work.append((frame, point))

    def go(self, frame, point, wanted):
        """They may be on at the points to which a way of this kind leads."""
        for way, to in frame.ways[point]:
            if way == wanted:
                self.reach(frame, to)

    def is_quiet(self, frame, point):
        """Whether a call is made with interrupts off."""
        return any(way == "call" and to in self.quiet for way, to in frame.ways[point])

    def step(self, frame, point):
        """What follows from one point. After a call they are as the function left them, but as
        before if they were turned off around it, and after a trap."""
        ways = frame.ways.get(point, ())
        is_quiet = self.is_quiet(frame, point) if ways else False
        if self.listing.word(point) != "disable" and ways:
            self.go(frame, point, "to")
        for way, to in ways:
            if way == "call" and not is_quiet and (into := self.graph.entered(frame, way, to)):
                self.reach(into, into.key.entry)
            elif way == "sys" or (way == "call" and is_quiet):
                self.go(frame, point, "back")
            elif way == "ret" and frame.key not in self.returns:
                self.returns.add(frame.key)
                for caller, at in self.callers[frame.key]:
                    if not self.is_quiet(caller, at):
                        self.go(caller, at, "back")


class Model:
    """The frames of a graph, and what they need after changes.

    `is_on` says whether interrupts are on at the start, `kept` are functions that stay as they are.
    """

    def __init__(self, graph, listing, is_on=False, kept=()):
        self.graph, self.listing, self.is_on, self.kept = graph, listing, is_on, set(kept)
        #: each frame after all that it enters
        self.order = sorted(graph.frames.values(), key=lambda frame: frame.need)
        self.entries = {frame.key: self.entries_of(frame) for frame in self.order}
        self.held = {frame.key: graph.most_saved(frame) for frame in self.order}
        self.lit = Lit(graph, listing, is_on)
        self.irqs = sorted({frame.key.prio for frame in self.order if frame.key.kind == "irq"})

    def entries_of(self, frame, dark=()):
        """The entries of a frame, without interrupts at dark points."""
        most = {}
        for step in self.graph.entries(frame):
            if step.way == "irq" and step.point in dark:
                continue
            is_direct = step.way == "call" and self.listing.word(step.point) in DIRECT
            row = step.way, step.into, is_direct
            most[row] = max(step.saved, most.get(row, 0))
        return [Entry(*row, saved) for row, saved in most.items()]

    def entries_after(self, changes):
        """The entries of each frame after the changes that turn interrupts off."""
        quiet = [change.what for change in changes if change.kind == "off"]
        if not quiet:
            return self.entries
        lit, entries = Lit(self.graph, self.listing, self.is_on, quiet), {}
        for frame in self.order:
            dark = self.lit.points[frame.key] - lit.points[frame.key]
            key = frame.key
            entries[key] = self.entries_of(frame, dark) if dark else self.entries[key]
        return entries

    @staticmethod
    def has_less(frame, saved, changes):
        """Whether a change takes away one of the lower contexts that a frame holds."""
        key, least = frame.key, saved > 0 and frame.key.kind == "irq"
        return least and any(c.kind == "svlcx" and c.what == key.prio for c in changes)

    def cost(self, frame, entry, changes):
        """How many areas an entry takes, or None if a change takes it away."""
        prio, into = frame.key.prio, entry.into.key
        taken = entry.saved + 1 - self.has_less(frame, entry.saved, changes)
        for kind, what, _ in changes:
            if kind == "inline" and entry.is_direct and into.entry == what:
                taken -= 1
            elif kind == "bisr" and entry.way == "irq" and prio == what[0] and into.prio <= what[1]:
                return None
        return taken

    def judged(self, changes=()):
        """N after changes, how many chains are that long, and one of them.

        A chain is a list of pairs: a frame and how it enters the next one, None at the last.
        """
        entries, need, count, best = self.entries_after(changes), {}, {}, {}
        for frame in self.order:
            held = self.held[frame.key]
            rows = [(held - self.has_less(frame, held, changes), 1, None)]
            for entry in entries[frame.key]:
                taken, into = self.cost(frame, entry, changes), entry.into.key
                if taken is not None:
                    rows.append((taken + need[into], count[into], entry))
            most = max(depth for depth, _, _ in rows)
            longest = [(chains, entry) for depth, chains, entry in rows if depth == most]
            need[frame.key], best[frame.key] = most, longest[-1][1]
            count[frame.key] = sum(chains for chains, _ in longest)
        frame, chain = self.graph.start, []
        while frame:
            entry = best[frame.key]
            chain.append((frame, entry))
            frame = entry and entry.into
        return need[self.graph.start.key], count[self.graph.start.key], chain

    def first(self, prio, words):
        """The first point of an interrupt's frames with one of these instructions, or None."""
        frames = (frame for frame in self.order if frame.key.prio == prio)
        frames = sorted(frames, key=lambda frame: frame.key.kind != "irq")
        found = (p for f in frames for p in sorted(f.saved) if self.listing.word(p) in words)
        return next(found, None)

    def makes_calls(self, frame, done):
        """Whether a frame makes calls that aren't inlined: after these K7 wants `rslcx`."""
        inlined = {change.what for change in done if change.kind == "inline"}
        for entry in self.entries[frame.key]:
            is_inlined = entry.is_direct and entry.into.key.entry in inlined
            if entry.way in ("call", "sys") and not is_inlined:
                return True
            if is_inlined and self.makes_calls(entry.into, done):
                return True
        return False

    def changes(self, chain, done):
        """The changes of single places that may shorten a chain, after those done."""
        found, passed = [], []
        for frame, entry in chain:
            prio = frame.key.prio
            if frame.key.kind == "irq" and not self.makes_calls(frame, done):
                at = self.first(prio, ("svlcx",))
                found += [Change("svlcx", prio, at)] if at else []
            if entry and entry.is_direct and entry.into.key.entry not in self.kept:
                found.append(Change("inline", entry.into.key.entry, entry.into.key.entry))
            if entry and entry.way == "call" and entry.into.key.entry not in self.kept:
                passed.append(entry.into.key.entry)
            elif entry and entry.way == "irq":
                found += [Change("off", at, at) for at in passed]
                passed = []
                at = prio and (self.first(prio, BISR) or self.first(prio, ("svlcx",)))
                above = [each for each in self.irqs if each >= entry.into.key.prio]
                found += [Change("bisr", (prio, each), at) for each in above if at]
        return [change for change in dict.fromkeys(found) if change not in done]

    def best(self, done=()):
        """The changes after those done that lower N or the number of longest chains, with both, the
        best first."""
        *now, chain = self.judged(done)
        asked, found = self.changes(chain, done), []
        for number, change in enumerate(asked, 1):
            progress.says(f"change {len(done) + 1}: {number} of {len(asked)} tried")
            *then, _ = self.judged([*done, change])
            if then < now:
                found.append((*then, change))
        return sorted(found, key=lambda row: (*row[:2], row[2].kind, row[2].what))

    def row_to(self, wanted):
        """Changes that lower N to a number, or as far as they do, each with the N after it."""
        done = []
        while self.judged(done)[0] > wanted and len(done) < MOST_CHANGES:
            if not (found := self.best(done)):
                break
            done.append(found[0][2])
        enough = max(self.judged(done)[0], wanted)
        for change in list(done):
            others = [each for each in done if each != change]
            # a handler without `svlcx` may need that its calls are inlined
            is_free = change.kind != "inline" or all(each.kind != "svlcx" for each in others)
            if is_free and self.judged(others)[0] <= enough:
                done = others
        return [(self.judged(done[: n + 1])[0], each) for n, each in enumerate(done)]


def model_of(program, given, folder):
    """The model of what is judged, by a certificate with areas enough."""
    words = given.elf, given.plan, folder, given.cells, given.tasks
    asked = judged.Judged(program, *words)
    cert, line, is_refused = asked.made(folder)
    roomy = plans.with_room(judged.board_of(given.plan)) if is_refused else None
    if roomy:
        words = given.elf, asked.put("roomy.json", roomy), *words[2:]
        asked = judged.Judged(program, *words)
        cert, line, is_refused = asked.made(folder)
    if is_refused:
        raise Refused(line)
    listing = asked.listing()
    graph = Graph(asked.report(cert)[0], asked.edges(), listing)
    kept = [f"{asked.routine:08X}"] if asked.routine is not None else []
    return Model(graph, listing, asked.board()["start"]["ie"], kept)


# What is printed


def told(change, known):
    """A change in words."""
    if change.kind == "bisr":
        return f"bisr16 {change.what[1]} in the handler of interrupt {change.what[0]}"
    if change.kind == "svlcx":
        return f"no svlcx in the handler of interrupt {change.what}"
    name = known.name(int(change.what, 16))
    return (
        f"inline {name}"
        if change.kind == "inline"
        else f"interrupts off around the calls of {name}"
    )


def row_of(certified, change, known):
    """A line of --json."""
    file, line = known.line(int(change.at, 16)) or (None, None)
    place = {"file": file, "line": line, "address": change.at}
    return {"certified": certified, "change": told(change, known), "kind": change.kind, **place}


def lines_of(found, most):
    """What is printed without --json."""
    rows = found["changes"]
    yield f"{found['certified']} of {found['usable']} areas now"
    for row in rows[:most]:
        place = f"{row['file']}:{row['line']}" if row["file"] else row["address"]
        yield shown(f"{place}: note: {row['certified']} areas: {row['change']}")
    if most is not None and len(rows) > most:
        yield f"    and {len(rows) - most} more; --json has all"
    if found["is_reached"] is None and not rows:
        yield "no single change of these kinds lowers it; --to looks for several"
    if found["is_reached"] is False:
        yield f"no more changes of these kinds help: {found['to']} isn't reached"


def parsed(given):
    """The arguments."""
    parser = arguments.Parser("elf", "plan")
    parser.add_names("--names")
    parser.add_argument("--to", type=int)
    parser.add_argument("--most", type=int, default=12)
    parser.add_argument("--json", action="store_true")
    parser.add_argument("--tcd", default="tcd")
    judged.add_to(parser)
    return parser.parsed(given)


def main(given):
    """Looks for changes, prints them, and gives the exit status."""
    given = parsed(given)
    program = tcd.found(given.tcd, "name it with --tcd")
    areas = judged.board_of(given.plan)["csa"]
    known = names.of(program, given.elf, given.names)
    with tempfile.TemporaryDirectory() as folder, progress.of("the certificate and its frames"):
        model = model_of(program, given, folder)
    now, reached = model.judged()[0], None
    with progress.of("changes"):
        if given.to is None:
            rows = [(then, change) for then, _, change in model.best() if then < now]
            rows.sort(key=lambda row: (row[0], row[1].kind, row[1].what))
        else:
            rows = model.row_to(given.to)
            reached = (rows[-1][0] if rows else now) <= given.to
    found = {
        "certified": now,
        "usable": areas["areas"] - areas["reserve"],
        "to": given.to,
        "is_reached": reached,
        "changes": [row_of(*row, known) for row in rows],
    }
    most = max(0, given.most) if given.to is None else None
    print(json.dumps(found) if given.json else "\n".join(lines_of(found, most)))
    return tcd.REFUSED if reached is False else tcd.DONE


if __name__ == "__main__":
    arguments.ended(__doc__, main)
