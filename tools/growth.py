#!/usr/bin/env python3
"""Did the number of areas grow since an older build, which line is to blame, and is it allowed?

    growth.py PROGRAM ELF PLAN CERT [LAYOUT SOURCE..] --save needs.json [--most N]
    growth.py PROGRAM ELF PLAN CERT [LAYOUT SOURCE..] --against needs.json [--most N] [--json]
    growth.py PROGRAM ELF PLAN CERT [LAYOUT SOURCE..] --most N [--json]

--save writes what each function needs into a file that is kept with the sources. --against
compares a build with it: N, the areas of each priority, and the lines that are to blame, the one on
the longest chain first, as `FILE:LINE: error: ..`. --most is the budget. Without it any growth of N
is too much. A build above its budget isn't saved.

Functions are compared by name. Names come from LAYOUT and the SOURCEs, which have to link to ELF,
or from its symbols. So an edit that changes no need changes no byte of needs.json, and a function
with a new name is a new one. Of two equal chains one is followed.

    --cells FILE          the certificate is one of `cellcert`, for these cells
    --tasks FILE TASK     the certificate is that of one task, from 0, of `taskcert`, and is judged
                          in its view alone. Each task has a file and a budget of its own

Exit status: 0 within the budget, 1 above it, or the certificate is refused, 2 a file or a program
that can't be used, 5 wrong arguments.
"""
import collections
import json
import sys
import tempfile

import names
from tcdlib import arguments
from tcdlib import judged
from tcdlib import plans
from tcdlib import progress
from tcdlib import program as tcd
from tcdlib.frames import Graph
from tcdlib.sources import Unusable, bytes_of, shown

FORMAT = "tcd needs 1"
#: the frame of the start: its function may get another name
BACKGROUND = "background"
#: so many causes are printed after the first; --json has all
MOST_CAUSES = 8
#: how a frame enters another one, and how if it didn't before
WAYS = {
    "call": ("calls", "now calls"),
    "sys": ("makes a", "now makes a"),
    "aln": ("may make a", "may now make a"),
    "irq": ("may be interrupted by", "may now be interrupted by"),
}
TRAPS = {"sys": "system call", "aln": "misaligned access"}

#: why a frame needs more: where, and what; its need before and now
Cause = collections.namedtuple("Cause", "place message before now")


class Named:
    """The frames of a graph under names that stay the same if addresses move."""

    def __init__(self, graph, known, plan):
        self.graph, self.known, self.plan, self.names = graph, known, plan, {}
        entries = {frame.key.entry for frame in graph.frames.values()}
        self.count = collections.Counter(known.name(int(entry, 16)) for entry in entries)
        for frame in sorted(graph.frames.values(), key=lambda frame: frame.key.entry):
            name, number = self.of(frame.key), 1
            taken = set(self.names.values())
            while (unique := name + (f" ({number})" if number > 1 else "")) in taken:
                number += 1
            self.names[frame.key] = unique

    def of(self, key):
        """`tick in interrupt 8`, `interrupt 8`, `system call`, `tick on the interrupt stack`."""
        if key == self.graph.start.key:
            return BACKGROUND
        if key.kind == "irq":
            return f"interrupt {key.prio}"
        address = int(key.entry, 16)
        name = TRAPS.get(key.kind) or self.known.name(address)
        if self.count[name] > 1 and (line := self.known.line(address)):
            name = f"{line[0]}:{name}"
        if key.prio:
            return f"{name} in interrupt {key.prio}"
        is_moved = key.kind == "call" and key.stack != self.graph.start.key.stack
        return name + (" on the interrupt stack" if is_moved else "")

    def place(self, point):
        """FILE:LINE of a point, or its address."""
        return self.known.place(int(point, 16)) or point

    def frame(self, frame):
        """What is known of a frame: its need, its lower contexts, what it enters."""
        enters = {}
        for step in self.graph.entries(frame):
            into = self.names[step.into.key]
            if into not in enters or step.saved > enters[into]["saved"]:
                enters[into] = {"saved": step.saved, "way": step.way, "at": self.place(step.point)}
        held = self.graph.most_saved(frame)
        return {"need": frame.need, "held": held, "at": self.place(self.held_at(frame, held)),
                "enters": enters}  # fmt: skip

    def held_at(self, frame, held):
        """The point at which a frame comes to the most lower contexts, or its entry."""
        graph = self.graph
        points = (point for point in frame.saved if graph.saved_after(frame, point) == held)
        return next(points, frame.key.entry) if held else frame.key.entry


def build_of(asked, cert, known):
    """What is compared of a build: N, the shares of the priorities, the frames by name."""
    graph = Graph(asked.accepted(cert), asked.edges(), asked.listing())
    named = Named(graph, known, asked.plan)
    return {
        "format": FORMAT,
        "certified": graph.certified,
        "usable": graph.usable,
        "has_names": bool(known),
        "shares": graph.shares(),
        "frames": {named.names[frame.key]: named.frame(frame) for frame in graph.frames.values()},
    }


# The file


def saved_text(build):
    """The text of --save: a frame in each line, without addresses and lines of sources."""
    rows = []
    for name, frame in sorted(build["frames"].items()):
        enters = {into: entry["saved"] for into, entry in sorted(frame["enters"].items())}
        kept = {"need": frame["need"], "held": frame["held"], "enters": enters}
        rows.append(f"  {json.dumps(name)}: {json.dumps(kept)}")
    heads = {key: value for key, value in build.items() if key not in ("frames", "usable")}
    lines = [f" {json.dumps(key)}: {json.dumps(value)}," for key, value in heads.items()]
    return "{\n" + "\n".join(lines) + '\n "frames": {\n' + ",\n".join(rows) + "\n }\n}\n"


def is_saved(build):
    """Whether a JSON value has the form of what --save writes."""
    is_count = lambda value: type(value) is int and value >= 0
    are_counts = lambda value: isinstance(value, dict) and all(map(is_count, value.values()))
    return (
        isinstance(build, dict)
        and build.get("format") == FORMAT
        and is_count(build.get("certified"))
        and isinstance(build.get("has_names"), bool)
        and are_counts(build.get("shares"))
        and isinstance(build.get("frames"), dict)
        and BACKGROUND in build["frames"]
        and all(
            isinstance(frame, dict)
            and is_count(frame.get("need"))
            and is_count(frame.get("held"))
            and are_counts(frame.get("enters"))
            for frame in build["frames"].values()
        )
    )


def read(path):
    """A build that was saved."""
    try:
        saved = json.loads(bytes_of(path))
    except (ValueError, RecursionError):
        saved = None
    if not is_saved(saved):
        raise Unusable(f"{shown(path)}: not what `growth.py --save` writes")
    return saved


# The comparison


def contexts(count):
    """So many lower contexts."""
    return f"{count} lower context" + "s" * (count != 1)


def takes(build, frame, into):
    """How many areas an entry takes: the contexts held, its own, and what is entered needs."""
    return frame["enters"][into]["saved"] + 1 + build["frames"][into]["need"]


class Comparison:
    """A build and an older one. `irqs_at` is the plan's line of interrupts."""

    def __init__(self, old, new, irqs_at):
        self.old, self.new, self.irqs_at = old, new, irqs_at

    def cause_in(self, name):
        """Why a frame needs more: a cause, the name of the frame to blame instead, or None."""
        frame, before = self.new["frames"][name], self.old["frames"].get(name)
        if before is None or frame["need"] <= before["need"]:
            return None
        needs = before["need"], frame["need"]
        into = max(frame["enters"], key=lambda to: takes(self.new, frame, to), default=None)
        if into is None or frame["held"] >= takes(self.new, frame, into):
            message = f"{name} holds {contexts(frame['held'])}, before {before['held']}"
            return Cause(frame["at"], message, *needs)
        entry, saved = frame["enters"][into], before["enters"].get(into)
        if saved is None:
            is_new = into not in self.old["frames"]
            message = f"{name} {WAYS[entry['way']][1]} {into}" + ", which is new" * is_new
            is_stated = is_new and entry["way"] == "irq"
            return Cause(self.irqs_at if is_stated else entry["at"], message, *needs)
        if entry["saved"] > saved:
            message = f"{name} {WAYS[entry['way']][0]} {into} with {contexts(entry['saved'])}"
            return Cause(entry["at"], f"{message}, before {saved}", *needs)
        return into

    def causes(self):
        """The cause on the longest chain, then the others by how much they grew."""
        first, name, passed = None, BACKGROUND, set()
        while isinstance(name, str) and name not in passed:
            passed.add(name)
            first = name = self.cause_in(name)
        found = [self.cause_in(each) for each in self.new["frames"]]
        found = [cause for cause in found if isinstance(cause, Cause)]
        found.sort(key=lambda cause: (cause != first, cause.before - cause.now))
        return list(dict.fromkeys(found))

    def shares(self):
        """The areas of each priority before and now."""
        old, new = self.old["shares"], self.new["shares"]
        return {who: (old.get(who, 0), new.get(who, 0)) for who in {**new, **old}}


def compared(old, new, most, irqs_at):
    """What --json prints."""
    both = Comparison(old or new, new, irqs_at)
    limit = old["certified"] if old and most is None else most
    gone, fresh = set(both.old["frames"]), set(new["frames"])
    return {
        "certified": new["certified"],
        "usable": new["usable"],
        "before": old and old["certified"],
        "most": most,
        "is_within": limit is None or new["certified"] <= limit,
        "shares": both.shares(),
        "causes": [cause._asdict() for cause in both.causes()],
        "new": sorted(fresh - gone),
        "gone": sorted(gone - fresh),
    }


def headline(told, against):
    """The line on N, its growth and the budget."""
    number, before = told["certified"], told["before"]
    line = f"{number} of {told['usable']} areas"
    if before == number:
        line += f", as in {shown(against)}"
    elif before is not None:
        change = f"{abs(number - before)} {'more' if number > before else 'fewer'}"
        line += f", {change} than in {shown(against)} ({before})"
    if told["most"] is not None:
        line += f"; the budget is {told['most']}" + ": too many" * (not told["is_within"])
    return line


def lines_of(told, against):
    """What is printed without --json."""
    yield headline(told, against)
    if told["before"] is None:
        return
    for who, (before, now) in told["shares"].items():
        more = f"  {now - before:+d}" if now != before else ""
        yield f"    {shown(who):20}{before:5}{now:5}{more}"
    word = "note" if told["is_within"] else "error"
    for cause in told["causes"][: MOST_CAUSES + 1]:
        needs = f"needs {cause['before']} -> {cause['now']}"
        yield f"{shown(cause['place'])}: {word}: {shown(cause['message'])}: {needs}"
        word = "note"
    if (left := len(told["causes"]) - MOST_CAUSES - 1) > 0:
        yield f"    and {left} more; --json has all"
    for word in ("new", "gone"):
        listed = ", ".join(shown(name) for name in told[word][:MOST_CAUSES])
        if listed:
            yield f"    {word}: {listed}" + ", .." * (len(told[word]) > MOST_CAUSES)


def parsed(given):
    """The arguments."""
    parser = arguments.Parser("program", "elf", "plan", "cert")
    parser.add_names()
    builds = parser.add_mutually_exclusive_group()
    builds.add_argument("--save")
    builds.add_argument("--against")
    parser.add_argument("--most", type=int)
    parser.add_argument("--json", action="store_true")
    judged.add_to(parser)
    given = parser.parsed(given)
    if not given.save and not given.against and given.most is None:
        parser.error("needed is --save FILE, --against FILE or --most N")
    return given


def main(given):
    """Saves or compares a build, and gives the exit status."""
    given = parsed(given)
    more = [given.cells, *(given.tasks or [])[:1], *given.names]
    arguments.demand_apart([given.save], [given.elf, given.plan, given.cert, *more])
    old, program = given.against and read(given.against), tcd.found(given.program)
    known = names.of(program, given.elf, given.names)
    with tempfile.TemporaryDirectory() as folder:
        asked = judged.Judged(program, given.elf, given.plan, folder, given.cells, given.tasks)
        with progress.of("what each function needs"):
            new = build_of(asked, given.cert, known)
    if old and not (old["has_names"] and new["has_names"]):
        print("growth.py: without names, functions are compared by address", file=sys.stderr)
    line = plans.key_line(bytes_of(given.plan).decode("utf-8", "replace"), "irqs")
    told = compared(old, new, given.most, f"{given.plan}:{line}")
    if given.save and told["is_within"]:
        arguments.written(given.save, saved_text(new))
    print(json.dumps(told) if given.json else "\n".join(lines_of(told, given.against)))
    return tcd.DONE if told["is_within"] else tcd.REFUSED


if __name__ == "__main__":
    arguments.ended(__doc__, main)
