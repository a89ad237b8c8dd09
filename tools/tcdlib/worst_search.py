"""The search of worst_run.py: which interrupts come when, and what the devices answer.

A trial is a search with one choice of the devices' answers, as a script has one line `in` for each.
It keeps states of the machine and goes on from them at random: at a point whose entry can still
lead to N, the interrupt is fired on a copy, at once. In between, others are fired for what their
handlers change. A state is kept if it is at such a point, or shows a branch, a word or a small
number that is new.
"""

import collections
import contextlib
import random
import time

from tcdlib import progress
from tcdlib.worst_machine import SMALL, Ends, Reached

#: the most turns of a script, and how many before the end nothing is kept any more
TURNS, LAST = 100000, 2000
#: states kept of a level, at one place of a frame, and with the same numbers
MOST_KEPT, MOST_AT_PLACE, MOST_IN_GROUP = 1500, 300, 8
#: groups of the same numbers, and contents of ram that states share
MOST_GROUPS, MOST_CONTENTS = 1000, 20000
#: events that a fired interrupt is followed for, and a handler that is fired for what it changes
FOLLOWED, RETURNS = 600, 5000
#: trials that go on side by side, and the events of a slice of one: some tenths of a second
MOST_TRIALS = 24
SLICE, FIRST_SLICE = 40000, 60000


class Kept:
    """A state to go on from, which isn't changed. `level` counts its areas, `far` the steps to a
    goal; `ram` is its ram, which other states share."""

    def __init__(self, m, level, far, ram):
        self.m, self.level, self.far, self.visits, self.wanted = m.copy(), level, far, 0, []
        self.m.ram = ram


class Asides:
    """The interrupts that a walk fires for what their handlers change: how many, when, which."""

    def __init__(self, draw, board):
        self.draw, self.irqs = draw, board["irqs"]
        self.left = draw.choice((0, 1, 1, 1, 2, 3, 4, 5, 6, 8, 10)) if self.irqs else 0
        #: how many events at most lie between them: mostly few, as each event takes time
        self.most = draw.choice((1, 3, 8, 8, 20, 20, 100, 600, 3000))
        self.at = self.prio = 0

    def plan(self, m, wanted):
        """Plans the next: at random, or so that a device answers what a branch has wanted of it."""
        if not self.left:
            return
        if wanted and self.draw.random() < 0.5:
            n, x, after, prio = self.draw.choice(wanted)
            low, high = m.answers[n]
            ahead = (x - low - after - m.t) % (high - low + 1)
            if low <= x <= high and prio in self.irqs and ahead < 70000:
                self.at, self.prio = m.t + ahead, prio
                return
        wait = self.draw.randrange(self.most) if self.draw.random() < 0.75 else 0
        self.at, self.prio = m.t + wait, self.draw.choice(self.irqs)

    def is_due(self, m):
        return self.left and m.t >= self.at and m.ie and self.prio > m.ccpn


class Trial:
    """A search with one choice of the devices' answers."""

    def __init__(self, search, answers):
        self.search, self.w, self.draw, self.answers = search, search.w, search.draw, answers
        #: states by level: those that showed something new, and others
        self.news, self.kept = collections.defaultdict(list), collections.defaultdict(list)
        self.counts, self.contents, self.covered = collections.Counter(), set(), set()
        self.runs, self.gains = collections.Counter(), collections.Counter()
        self.tries, self.best, self.gained = collections.Counter(), 0, 0
        self.slices, self.rate = 0, 5
        #: kept states by the small numbers in ram, and how often each such group was gone on with
        self.groups, self.visits = collections.defaultdict(list), collections.Counter()
        self.probing = 0
        m = self.w.begin(answers)
        self.root = Kept(m, 0, m.goals.far.get(m.pc, 0), self.search.shared(m))
        self.news[0].append(self.root)

    @property
    def level(self):
        return max(self.best, max(self.news, default=0))

    @property
    def merit(self):
        return self.level, len(self.covered)

    @property
    def weight(self):
        """How often it is gone on with: more if it still finds what is new, or has come far."""
        return (0.5 + min(self.rate, 20)) * (1 + 4 * self.level / self.w.graph.areas)

    def step(self, m):
        self.search.steps += 1
        self.w.step(m)

    # States

    def small_words(self, m):
        """The small numbers in ram, at the places that ever held one: a protocol's state, say."""
        places = self.w.learned.small
        words = [(n, x, int.from_bytes(m.ram[n][x : x + 4], "little")) for n, x in places]
        return [word for word in words if word[2] < SMALL]

    def is_fresh(self, place, words):
        """Whether a word of ram holds a small number that wasn't met at this place."""
        new = {(place, *word) for word in words} - self.covered
        self.covered |= new
        return bool(new)

    def keep(self, m, fresh):
        """Keeps a state whose frame can still lead to N, if it is new."""
        far = m.goals.far.get(m.pc)
        if far is None or m.t > TURNS - LAST:
            return
        level, place = m.base + m.held, (m.node, m.pc, m.base)
        if level > self.best:
            self.best, fresh = level, True
        if not fresh and self.counts[place] >= MOST_AT_PLACE and self.draw.random() > 0.02:
            return
        ram = self.search.shared(m)
        content = hash((place, ram))
        # a few at other times, too: devices answer by the time
        if content in self.contents and not fresh and self.draw.random() > 0.03:
            return
        self.contents.add(content)
        words = self.small_words(m)
        fresh = self.is_fresh(place, words) or fresh
        self.counts[place] += 1
        self.gained += fresh
        kept = Kept(m, level, far, ram)
        self.put((self.news if fresh else self.kept)[level], kept, MOST_KEPT)
        self.put(self.groups[(level, *sorted(words))], kept, MOST_IN_GROUP)
        if len(self.groups) > MOST_GROUPS:
            del self.groups[self.draw.choice(list(self.groups))]

    def put(self, group, kept, most):
        if len(group) < most:
            group.append(kept)
        else:
            group[self.draw.randrange(most)] = kept

    def pick_rare(self):
        """A state whose small numbers were seldom gone on with."""
        groups = self.draw.choices(list(self.groups), k=6)
        group = min(groups, key=lambda g: self.visits[g])
        self.visits[group] += 1
        states = [self.draw.choice(self.groups[group]) for _ in range(2)]
        return min(states, key=lambda kept: kept.visits)

    def pick(self):
        """A state to go on from: of a level that has brought gains, seldom visited, near a goal."""
        if self.groups and self.draw.random() < 0.5:
            return self.pick_rare()
        levels = list(self.news.keys() | self.kept.keys())
        weights = [(self.gains[level] + 1) / (self.runs[level] + 20) for level in levels]
        level = self.draw.choices(levels, weights)[0]
        news, kept = self.news[level], self.kept[level]
        group = news if news and (not kept or self.draw.random() < 0.6) else kept
        return min((self.draw.choice(group) for _ in range(4)), key=lambda k: (k.visits, k.far))

    # Entries

    def probe(self, m, entry):
        """Takes an interrupt (or the trap "aln") on a copy, and follows it."""
        if self.search.steps > self.probing:
            return
        place = m.node, m.pc, m.base, entry
        self.tries[place] += 1
        if self.draw.random() > max(0.3, 1 / (1 + self.tries[place] / 60)):
            return
        child, learned = m.copy(), self.w.learned
        news = learned.news
        if entry != "aln":
            self.w.interrupt(child, entry)
        elif not self.w.misaligned(child):
            return
        self.forward(child, FOLLOWED)
        # if it did something new, it counts as one that was fired aside, too
        if learned.news > news:
            self.back(child, m.saves)
            self.keep(child, True)

    def fire(self, m):
        """Takes each interrupt here whose entry can lead to N, on copies."""
        self.search.in_time()
        for entry in m.goals.fires[m.pc]:
            if entry == "aln" or m.ie and entry > m.ccpn:
                self.probe(m, entry)

    def forward(self, m, most):
        """Lets it run without other interrupts, as long as its frame can still lead to N."""
        base, end = m.base, m.t + most
        while m.t < end and m.base >= base:
            if m.pc in m.goals.fires:
                self.keep(m, False)
                self.fire(m)
            elif m.base == base and m.pc not in m.goals.far:
                break
            self.step(m)

    def aside(self, m, prio):
        """Another interrupt, for what its handler does to ram."""
        frame = m.saves
        self.w.interrupt(m, prio)
        self.back(m, frame)

    def back(self, m, frame):
        """Lets it run until the handler has come back."""
        end = m.t + RETURNS
        while m.saves is not frame and m.t < end:
            self.step(m)

    # Walks

    def walk(self):
        """Goes on from a kept state for some hundred or thousand events."""
        kept = self.root if self.draw.random() < 0.03 else self.pick()
        kept.visits += 1
        m, asides, learned = kept.m.copy(), Asides(self.draw, self.w.board), self.w.learned
        most = 3000 if kept.visits < 3 else 300
        end = m.t + self.draw.choice((50, 100, 300, 1000, most))
        asides.plan(m, kept.wanted or learned.wanted)
        self.gained, peak, learned.covered = 0, self.w.peak, self.covered
        # entries in entries make very many ways: after some events no further one is tried
        self.probing = self.search.steps + self.draw.choice((3000, 30000, 150000))
        self.follow(m, kept, asides, end)
        self.search.in_time()
        self.runs[kept.level] += 1
        self.gains[kept.level] += self.gained > 0 or self.w.peak > peak

    def follow(self, m, kept, asides, end):
        learned, kept_at, first = self.w.learned, m.t - 100, True
        end = max(end, asides.at + 100)
        while m.t < end and m.t < TURNS - 1:
            if m.pc in m.goals.fires:
                self.keep(m, False)
                self.fire(m)
            news = learned.news
            if asides.is_due(m):
                self.take_aside(m, kept, asides, first)
                end, first = max(end, asides.at + 100), False
                continue
            self.step(m)
            # a loop that clears ram is new at each turn: not all of its states are kept
            if learned.news > news and m.t > kept_at + 100:
                kept_at = m.t
                self.keep(m, True)

    def take_aside(self, m, kept, asides, first):
        """Fires the interrupt that was planned, and plans the next one."""
        learned = self.w.learned
        learned.forget()
        news, mark = learned.news, learned.wanted[-1] if learned.wanted else None
        self.aside(m, asides.prio)
        self.keep(m, learned.news > news)
        if first and learned.wanted and learned.wanted[-1] is not mark:
            kept.wanted = (kept.wanted + [learned.wanted[-1]])[-6:]
        asides.left -= 1
        asides.plan(m, learned.wanted)
        self.search.in_time()

    def replay(self, best):
        """Does again, with these answers, what was done in another trial. Near its end and after it
        the entries that lead to N are tried."""
        turns, done, _ = best
        entries = {}
        while done:
            done, t, what = done
            entries[t] = what
        m, learned = self.w.begin(self.answers), self.w.learned
        learned.covered, self.probing = self.covered, self.search.steps + 50000
        while m.t < turns:
            news = learned.news
            self.repeat(m, entries.get(m.t))
            if learned.news > news or m.pc in m.goals.fires:
                self.keep(m, learned.news > news)
            if m.t + 200 > turns and m.pc in m.goals.fires:
                self.fire(m)
        self.forward(m, FOLLOWED)

    def repeat(self, m, entry):
        """The event that another run had here: an entry, if it can be made, or an instruction."""
        if entry == "aln":
            if not self.w.misaligned(m):
                self.step(m)
        elif entry and m.ie and entry > m.ccpn:
            self.w.interrupt(m, entry)
        else:
            self.step(m)


class Search:
    """All trials, within a time."""

    def __init__(self, world, seconds, seed, fixed):
        self.w, self.fixed, self.until = world, fixed, time.monotonic() + seconds
        self.draw, self.steps, self.trials, self.contents = random.Random(seed), 0, [], {}
        self.seconds = seconds

    def in_time(self):
        if time.monotonic() > self.until:
            raise TimeoutError
        found = f"reached {self.w.peak} of {self.w.graph.areas}"
        progress.says(f"{found}, {self.seconds:g} s at most")

    def shared(self, m):
        """What the machine's ram holds; equal contents are one object."""
        if len(self.contents) > MOST_CONTENTS:
            self.contents.clear()
        ram = tuple(map(bytes, m.ram))
        return self.contents.setdefault(ram, ram)

    def answers(self, n):
        """Answers for a device: LO and HI of a script's line `in`."""
        if n in self.fixed:
            return self.fixed[n]
        low, high = self.w.board["devices"][n]["lo"], self.w.board["devices"][n]["hi"]
        which = self.draw.random()
        if which < 0.2:
            return low, high
        if which < 0.34:
            return (high, high) if which < 0.27 else (low, low)
        x = self.likely(n, low, high)
        if self.draw.random() < 0.4:  # words that several branches want
            others = [x, *(self.likely(n, low, high) for _ in range(self.draw.choice((1, 1, 2))))]
            ends = (min(others), max(others)), (min(others), high), (low, max(others))
            return self.draw.choices(ends, (3, 1, 1))[0]
        count = self.draw.choice((1, 1, 2, 2, 3, 4, 5, 8, 8, 13, 16, 32, 64))
        first = max(low, x - self.draw.randrange(count) if self.draw.random() < 0.5 else x)
        return first, min(high, first + count - 1)

    def likely(self, n, low, high):
        """A word that a branch has wanted of a device, or one near a constant of the code."""
        likely, draw = self.w.learned.likely[n], self.draw
        if likely and draw.random() < 0.6:
            return draw.choices(list(likely), [count**0.7 for count in likely.values()])[0]
        near = [k + e for k in self.w.learned.constants for e in (0, 0, 0, 0, -1, 1)]
        near = [x for x in near if low <= x <= high]
        return draw.choice(near) if near and draw.random() < 0.8 else draw.randint(low, high)

    def tried(self, work):
        """Does some work of a trial. If it came to more areas than any before, the same is done
        with each device answering otherwise."""
        peak = self.w.peak
        try:
            work()
        except Ends:
            pass
        if self.w.peak > peak:
            self.climb()

    def climb(self):
        best = self.w.best
        for n in sorted(self.w.learned.read):
            for _ in range(8):
                self.in_time()
                changed = best[2][:n] + (self.answers(n),) + best[2][n + 1 :]
                if changed == best[2]:
                    continue
                trial, peak = Trial(self, changed), self.w.peak
                try:
                    trial.replay(best)
                except Ends:
                    pass
                if self.w.peak > peak:
                    self.trials.append(trial)
                    return self.climb()

    def go(self):
        """Searches until N is reached, the time is over, or somebody stops it."""
        if self.w.graph.areas == 0:
            return
        with progress.of("searching"), contextlib.suppress(
            Reached, TimeoutError, KeyboardInterrupt
        ):
            for answers in self.first():
                self.trials.append(Trial(self, answers))
                self.slice(self.trials[-1])
            while True:
                self.in_time()
                if trial := self.chosen():
                    self.slice(trial)

    def first(self):
        """What the devices answer in the first trials: all their words, the greatest, the least."""
        devices = self.w.board["devices"]
        ends = (("lo", "hi"), ("hi", "hi"), ("lo", "lo")) if devices else (("lo", "hi"),)
        for a, b in ends:
            yield tuple(self.fixed.get(n, (d[a], d[b])) for n, d in enumerate(devices))

    def chosen(self):
        """A trial to go on with, or a new one with other answers; None if these were tried."""
        read = sorted(self.w.learned.read)
        if not read or (self.draw.random() >= 0.3 and len(self.trials) >= 3):
            return self.draw.choices(self.trials, [t.weight for t in self.trials])[0]
        answers = list(max(self.trials, key=lambda t: t.merit).answers)
        for n in self.draw.sample(read, self.draw.randint(1, len(read))):
            answers[n] = self.answers(n)
        if any(t.answers == tuple(answers) for t in self.trials):
            return None
        trial = Trial(self, tuple(answers))
        best = sorted(self.trials, key=lambda t: (t.slices < 3, t.weight))
        self.trials = best[1 - MOST_TRIALS :] + [trial]
        return trial

    def slice(self, trial):
        """Works on a trial for some events: by the clock, a seed would give other scripts."""
        trial.slices += 1
        covered = len(trial.covered)
        until = self.steps + (SLICE if trial.slices > 3 else FIRST_SLICE)
        while self.steps < until:
            self.tried(trial.walk)
        trial.rate = 0.7 * trial.rate + 0.3 * (len(trial.covered) - covered)
