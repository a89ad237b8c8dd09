"""Values of certificates as docs/rules.md has them, for second_check.py: sets, spans, operations.

A value is a sorted tuple of words, or a Span. This was written from the page alone, never from the
crates, so that an error of `tcd check` shows as another line.
"""
import bisect
import dataclasses
import functools

from tcdlib import machine
from tcdlib.formats import WORDS

TOP, HALF = WORDS - 1, WORDS >> 1
#: the most words of a set, by the format of a certificate
MOST = {1: 64, 2: 128}
#: what gives 0 or 1
COMPARISONS = ("eq", "ne", "lt", "lt.u", "ge", "ge.u")


@dataclasses.dataclass(frozen=True)
class Span:
    """The multiples of `step` (1, 2 or 4) from `first` to `last`, more than a set can hold.

    It is no tuple: else the set 1, 2, 7F would be equal to the span of step 1 from 2 to 7F.
    """

    step: int
    first: int
    last: int


ANY = Span(1, 0, TOP)


def value_of(read):
    """A value as the reader of certificates has it."""
    return ANY if read == "any" else tuple(read) if isinstance(read, list) else Span(*read)


def up(number, step):
    """The least multiple of a step that isn't below a number."""
    return -(-number // step) * step


def step_of(words):
    """The greatest step that fits all these words."""
    return next(step for step in (4, 2, 1) if all(word % step == 0 for word in words))


def bounds(value):
    """The least and the greatest word of a value, and its step."""
    if isinstance(value, Span):
        return up(value.first, value.step), value.last // value.step * value.step, value.step
    return value[0], value[-1], step_of(value)


def includes(big, small):
    """Whether a value has each word of another one."""
    if big in (small, ANY):
        return True
    if not isinstance(big, Span):
        return not isinstance(small, Span) and set(small) <= set(big)
    first, last, step = bounds(small)
    return big.first <= first and last <= big.last and step % big.step == 0


def signed_bounds(value):
    """The least and the greatest word of a value as signed numbers."""
    if not isinstance(value, Span):
        numbers = sorted(map(machine.signed, value))
        return numbers[0], numbers[-1]
    first, last, step = bounds(value)
    least = up(max(first, HALF), step) if last >= HALF else first
    most = min(last, HALF - 1) // step * step if first < HALF else last
    return machine.signed(least), machine.signed(most)


def ranges_of(low, high):
    """The words whose numbers, signed or not, are from low to high, as ranges."""
    return [(low, high), (low + WORDS, high + WORDS)]


def cut(value, ranges):
    """What of a value is in these ranges: words, and parts (first, last, step), some empty."""
    if not isinstance(value, Span):
        return [word for word in value if any(low <= word <= high for low, high in ranges)], []
    first, last, step = bounds(value)
    ends = [(max(first, low), min(last, high)) for low, high in ranges]
    return [], [(up(low, step), high // step * step, step) for low, high in ends]


def meets(value, low, high):
    """Whether a value has a word from low, which may be negative, to high."""
    words, parts = cut(value, ranges_of(low, high))
    return bool(words) or any(first <= last for first, last, _ in parts)


def shift_count(word):
    """The low six bits of a word as a signed number: to the left, or negative to the right."""
    return (word & 63) - (64 if word & 32 else 0)


class Values:
    """The values of a plan in a format of certificates."""

    def __init__(self, board, version):
        self.most = MOST[version]
        areas = board["csa"]
        ranges = [*board["rom"], *board["ram"], *board["devices"]]
        ranges.append({"at": areas["at"], "len": 64 * areas["areas"]})
        ends = {end for each in ranges for end in (each["at"], each["at"] + each["len"])}
        self.thresholds = sorted({0, *(1 << bit for bit in range(33)), *ends})
        self.is_of_plan = functools.lru_cache(None)(self.is_of_plan)
        self.result = functools.lru_cache(100000)(self.result)

    def cover(self, words, parts=()):
        """The least value with these words and parts (first, last, step), or None of none."""
        words, long = set(words), []
        for first, last, step in parts:
            if (last - first) // step < self.most:
                words.update(range(first, last + 1, step))
            else:
                long.append((first, last, step))
        if not long and len(words) <= self.most:
            return tuple(sorted(words)) or None
        if words:
            long.append((min(words), max(words), step_of(words)))
        firsts, lasts, steps = zip(*long)
        return self.rounded(min(firsts), max(lasts), min(steps))

    def rounded(self, first, last, step):
        """The span whose ends are rounded to thresholds."""
        below = bisect.bisect_right(self.thresholds, first) - 1
        above = bisect.bisect_right(self.thresholds, last)
        return Span(step, self.thresholds[below], self.thresholds[above] - 1)

    def multiples(self, step):
        """All words of a step."""
        return self.cover((), [(0, TOP // step * step, step)])

    def is_of_plan(self, value):
        """Whether it is a value of this plan. Each set of a certificate is one."""
        return not isinstance(value, Span) or self.cover((), [bounds(value)]) == value

    # Operations

    def result(self, op, one, other):
        """The value of an operation on two values."""
        if not isinstance(one, Span) and not isinstance(other, Span):
            found = {int(machine.ALU[op](x, y)) & TOP for x in one for y in other}
            return self.cover(found)
        (a, b, p), (c, d, q) = bounds(one), bounds(other)
        if op == "add":
            return self.moved(a + c, b + d, min(p, q))
        if op == "sub":
            return self.moved(a - d, b - c, min(p, q))
        if op == "rsub":
            return self.moved(c - b, d - a, min(p, q))
        if op == "and":
            step = max(p, q)
            return self.cover((), [(0, min(b, d) // step * step, step)])
        if op in ("sh", "sha") and c == d:
            return self.shifted(op, one, shift_count(c))
        return (0, 1) if op in COMPARISONS else ANY

    def moved(self, first, last, step):
        """Sums or differences from first to last, modulo 2^32."""
        if first // WORDS != last // WORDS:
            return self.multiples(step)
        return self.cover((), [(first % WORDS, last % WORDS, step)])

    def shifted(self, op, span, count):
        """A span that is shifted by a known count."""
        first, last, step = bounds(span)
        if count >= 0:
            step = min(4, step << count)
            if last << count > TOP:
                return self.multiples(step)
            return self.cover((), [(first << count, last << count, step)])
        if op == "sha" and last >= HALF:
            return ANY
        return self.cover((), [(first >> -count, last >> -count, 1)])

    # Branches

    def sides(self, op, one, other, side):
        """What two operands keep if `eq`, `lt` or `lt.u` is `side`; None if it can't be."""
        if op == "eq":
            kept = self.unequal(one, other), self.unequal(other, one)
            if side:
                kept = self.common(one, other), self.common(other, one)
        else:
            kept = self.ordered(one, other, side, op == "lt")
        return None if None in kept else kept

    def common(self, one, other):
        """The words of both."""
        if isinstance(one, Span) and isinstance(other, Span):
            (a, b, p), (c, d, q) = bounds(one), bounds(other)
            step = max(p, q)
            return self.cover((), [(up(max(a, c), step), min(b, d) // step * step, step)])
        big, words = (one, other) if isinstance(one, Span) else (other, one)
        return self.cover(word for word in words if includes(big, (word,)))

    def unequal(self, one, other):
        """The words that differ from some word of the other value."""
        if isinstance(other, Span) or len(other) > 1:
            return one
        (word,) = other
        return self.cover(*cut(one, [(0, word - 1), (word + 1, TOP)]))

    def ordered(self, one, other, side, sign):
        """What is left where the first operand is below the second one, or where it isn't."""
        low, high = (-HALF, HALF - 1) if sign else (0, TOP)
        (a, b), (c, d) = [(signed_bounds if sign else bounds)(v)[:2] for v in (one, other)]
        mine, others = ((low, d - 1), (a + 1, high)) if side else ((c, high), (low, b))
        return tuple(
            self.cover(*cut(value, ranges_of(*ends)))
            for value, ends in ((one, mine), (other, others))
        )
