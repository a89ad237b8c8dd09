"""Plans: their numbers, how many areas they have, and where their keys stand."""
import collections
import json
import math
import re

from tcdlib.sources import Unusable, bytes_of, shown

MOST_AREAS, AREA = 4096, 64
#: the areas lie in the first bytes of a segment
SEGMENT, SEGMENT_AREAS = 1 << 28, 1 << 22


class Twice(Unusable):
    """A plan with an object that has a key twice."""


def finite(text):
    """A number of JSON with a point or an exponent."""
    if math.isinf(value := float(text)):
        raise ValueError(f"{text[:20]} is too large")
    return value


def no_number(text):
    """What Python reads as a number and JSON doesn't have."""
    raise ValueError(f"{text} is no number")


#: how numbers of a plan are read
NUMBERS = {"parse_float": finite, "parse_constant": no_number}


def read_with_twice(path):
    """A plan as JSON, or Unusable; of each object that has keys twice these, sorted."""
    twice = []

    def pairs(items):
        counts = collections.Counter(key for key, _ in items)
        if keys := sorted(key for key, count in counts.items() if count > 1):
            twice.append(keys)
        return dict(items)

    try:
        plan = json.loads(bytes_of(path), object_pairs_hook=pairs, **NUMBERS)
    except (ValueError, RecursionError) as e:
        raise Unusable(f"{shown(path)}: not JSON: {shown(e)}") from None
    if not isinstance(plan, dict):
        raise Unusable(f"{shown(path)}: not a JSON object")
    return plan, twice


def read(path):
    """A plan as JSON, or Unusable. A key that is there twice is refused: tcd silently takes the
    last."""
    plan, twice = read_with_twice(path)
    if twice:
        raise Twice(f"{shown(path)}: a key is there twice: {shown(', '.join(twice[0][:4]))}")
    return plan


def demand_single_keys(path):
    """Raises Twice if a plan has a key twice. What else is wrong with it, tcd says."""
    try:
        read(path)
    except Twice:
        raise
    except Unusable:
        pass


def number(value):
    """A number of a plan."""
    return int(value, 16) if isinstance(value, str) else int(value)


def areas_of(path):
    """How many areas the plan of a file has, and how many of them are the reserve."""
    csa = read(path)["csa"]
    return number(csa["areas"]), number(csa["reserve"])


def ranges(plan):
    """The ranges of a plan that the save areas may not touch."""
    for name in ("rom", "ram", "devices"):
        for each in plan[name]:
            yield number(each["at"]), number(each["at"]) + number(each["len"])


def with_room(plan):
    """The plan with the most areas that a plan may have, at a place that nothing else uses."""
    taken = list(ranges(plan))
    size = MOST_AREAS * AREA
    for segment in range(0, 16 * SEGMENT, SEGMENT):
        for at in range(segment + AREA, segment + SEGMENT_AREAS - size, size):
            if all(at + size <= begin or end <= at for begin, end in taken):
                csa = {"at": at, "areas": MOST_AREAS, "reserve": plan["csa"]["reserve"]}
                return {**plan, "csa": csa}
    return None


def json_fault(text):
    """What Python's reader says of a plan that isn't JSON, and its line."""
    try:
        json.loads(text, **NUMBERS)
    except (ValueError, RecursionError) as e:
        return f"not JSON: {getattr(e, 'msg', e)}", getattr(e, "lineno", None)
    return None


def missing_line(text, key):
    """The line at which the object begins that lacks a key, as `csa.at`; None if it isn't found."""
    outer, _, name = key.rpartition(".")
    if not outer:
        at = text.find("{")
    else:
        begin = max(0, text.find(f'"{outer}"'))
        objects = re.finditer(r"\{[^{}]*\}", text[begin:])
        found = (each.start() for each in objects if f'"{name}"' not in each[0])
        at = begin + next(found, -1 - begin)
    return text.count("\n", 0, at) + 1 if at >= 0 else None


def key_line(text, key):
    """The line of a plan's key: behind the line of the object that holds it."""
    line = None
    for name in key.split("."):
        later = enumerate(text.split("\n")[line - 1 if line else 0 :], line or 1)
        found = next((n for n, row in later if f'"{name}"' in row), None)
        line = found or line
    return line
