"""What a certificate allows, for worst_run.py: frames, their ways on, and what can still lead to N.

A frame's kind is (kind, entry, priority, stack), as in the lines of `tcd cfg`: (call, 80000034,
10, 1).
"""

import collections

from tcdlib.frames import EDGE, KEY

#: how the areas that a frame saved itself change
SAVES = {"svlcx": 1, "bisr": 1, "rslcx": -1}


class Unreadable(Exception):
    """A line of `report` or `cfg` that isn't known here."""


def key_of(text):
    found = KEY.fullmatch(text)
    if not found:
        raise Unreadable(text)
    kind, entry, prio, stack = found.groups()
    return kind, int(entry, 16), int(prio), int(stack)


class Node:
    """A kind of frame, with the ways out of each of its points."""

    def __init__(self, key, need):
        self.key, self.need = key, need
        # at a point: the ways out, the areas of the frame's own saves, and the most of them there
        self.ways, self.saved, self.own = {}, {}, {}
        self.goals, self.callees = {}, {}

    def callee(self, graph, kind, to, prio):
        """The frame that is entered from here, or None."""
        if (kind, to, prio) not in self.callees:
            at_prio = prio if kind == "irq" else self.key[2]
            stack = self.key[3] if kind == "call" else 1
            self.callees[kind, to, prio] = graph.nodes.get((kind, to, at_prio, stack))
        return self.callees[kind, to, prio]

    def count(self, name_at):
        """Counts at each point the areas that the frame holds by `svlcx` and `bisr`."""
        work = [(self.key[1], 0)]
        while work:
            point, saved = work.pop()
            if point in self.saved or point not in self.ways:
                continue
            self.saved[point] = saved
            after = saved + SAVES.get(name_at(point), 0)
            self.own[point] = max(saved, after)
            work += [(to, after) for way, to in self.ways[point] if way in ("to", "back")]


class Goals:
    """For a frame that began with some areas in use, what can still lead to N.

    `far` has for each point how many steps away such a point is; `fires` has the points themselves,
    each with the interrupts (or "aln") whose entry there leads on.
    """

    def __init__(self, far, fires):
        self.far, self.fires = far, fires


class Graph:
    """The frames of a certificate, as `report` and `cfg` print them."""

    def __init__(self, report, cfg, board, name_at):
        self.areas, self.board = report["certified"], board
        self.nodes = {key_of(n["key"]): Node(key_of(n["key"]), n["need"]) for n in report["nodes"]}
        self.start = next(iter(self.nodes.values()))
        self.read_ways(cfg)
        for node in self.nodes.values():
            node.count(name_at)

    def read_ways(self, cfg):
        """Reads each line of `cfg`: a frame, a point of it, a way on."""
        nodes = {}
        for line in cfg.splitlines():
            found = EDGE.fullmatch(line)
            if not found:
                raise Unreadable(line)
            text, point, way, to = found.groups()
            if text not in nodes:
                nodes[text] = self.nodes[key_of(text)]
            ways = nodes[text].ways.setdefault(int(point, 16), [])
            ways.append((way, int(to, 16) if to else None))

    def entered(self, node, way, to):
        """The frames that a way may enter, each with the interrupt's priority or None."""
        if way != "irq":
            found = [(None, node.callee(self, way, to, None))]
        else:
            prios = [p for p in self.board["irqs"] if self.board["biv"] | p << 5 == to]
            found = [(p, node.callee(self, "irq", to, p)) for p in prios]
        return [(prio, child) for prio, child in found if child]

    def entries(self, node, point, wanted):
        """Whether an entry at a point leads to `wanted` more areas, and which interrupts do."""
        leads, fires = node.own.get(point, 0) >= wanted, []
        held = node.saved.get(point, 0) + 1
        for way, to in node.ways[point]:
            if way not in ("call", "sys", "aln", "irq"):
                continue
            for prio, child in self.entered(node, way, to):
                if held + child.need >= wanted:
                    leads = True
                    fires += [prio] if way == "irq" else ["aln"] if way == "aln" else []
        return leads, fires

    def goals(self, node, base):
        """The goals of a frame that began with `base` areas in use."""
        wanted = self.areas - base
        if wanted not in node.goals:
            node.goals[wanted] = self.found_goals(node, wanted)
        return node.goals[wanted]

    def found_goals(self, node, wanted):
        fires, into = {}, collections.defaultdict(list)
        if node.need >= wanted > 0:
            for point, ways in node.ways.items():
                for way, to in ways:
                    if way in ("to", "back"):
                        into[to].append(point)
                leads, entries = self.entries(node, point, wanted)
                if leads:
                    fires[point] = entries
        far, work = dict.fromkeys(fires, 0), collections.deque(fires)
        while work:
            point = work.popleft()
            for before in into[point]:
                if before not in far:
                    far[before] = far[point] + 1
                    work.append(before)
        return Goals(far, fires)
