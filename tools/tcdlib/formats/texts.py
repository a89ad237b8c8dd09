"""Second readers of texts: plans, turn scripts, layouts, cells, tasks. See tcdlib/formats."""
import json
import re

from tcdlib.formats.binary import NAME, WORDS, Bad

# Plans

STRING = re.compile(r'"(?:\\.|[^"\\])*"', re.S)
DEEPEST = 127  # arrays and objects in each other


def whole_number(text):
    """A whole number of 64 bits, or None."""
    if float(text) in (float("inf"), float("-inf")):
        raise ValueError
    return int(text) if re.fullmatch("[0-9]{1,20}", text) and int(text) < 1 << 64 else None


def no_number(text):
    raise ValueError(text)


def is_too_deep(text):
    depth = 0
    for mark in re.findall(r"[\[\]{}]", STRING.sub("", text)):
        depth += 1 if mark in "[{" else -1
        if depth > DEEPEST:
            return True
    return False


def json_value(data):
    """JSON: of equal keys the last counts; a number is None unless it is a whole one of 64 bits."""
    try:
        text = data.decode("utf-8")
        pairs = re.sub(
            r"\\u[dD][89abAB][0-9a-fA-F]{2}\\u[dD][c-fC-F][0-9a-fA-F]{2}",
            "x",
            text.replace("\\\\", "x"),
        )
        if is_too_deep(text) or re.search(
            r"\\u[dD][89a-fA-F]", pairs
        ):  # half of a pair of surrogates
            raise ValueError
        return json.loads(
            text, parse_int=whole_number, parse_float=whole_number, parse_constant=no_number
        )
    except ValueError:
        raise Bad("plan 1") from None


RANGES = {"rom": ("at", "len"), "ram": ("at", "len"), "devices": ("at", "len", "lo", "hi")}
OBJECTS = {
    "csa": ("at", "areas", "reserve"),
    "start": ("ie", "ccpn", "is"),
    "globals": ("a0", "a1", "a8", "a9"),
}
OUTER = (
    "rom",
    "ram",
    "devices",
    "csa",
    "sp",
    "isp",
    "biv",
    "btv",
    "irqs",
    "traps",
    "start",
    "globals",
    "core",
)


def plan_number(value):
    """A number of a plan, or None."""
    if isinstance(value, str):
        return int(value, 16) if re.fullmatch("0x[0-9a-fA-F]{1,8}", value) else None
    return value if type(value) is int and value < WORDS else None


def inner_objects(root, key):
    """The objects of a key that are looked into, or None where its form is another."""
    value = root.get(key)
    if key in RANGES:
        return (
            value if isinstance(value, list) and all(isinstance(v, dict) for v in value) else None
        )
    return [value] if isinstance(value, dict) else None


def plan_value_fault(root, key):
    """The first printed key of a bad value in an outer key, or None."""
    names = RANGES.get(key) or OBJECTS.get(key)
    if names:
        objects = inner_objects(root, key)
        if objects is None or (key == "rom" and not objects):
            return key
        for name in names:
            for value in objects:
                n = plan_number(value[name])
                if n is None:
                    return f"{key}.{name}"
                if key in RANGES and name in ("at", "len") and n % 4:
                    return f"{key}.{name}"
                if name == "len" and (n == 0 or plan_number(value["at"]) + n > WORDS):
                    return f"{key}.{name}"
                if name == "hi" and n < plan_number(value["lo"]):
                    return f"{key}.{name}"
                if name in ("ie", "is") and n > 1 or name == "ccpn" and n > 255:
                    return f"{key}.{name}"
        return None
    value = root[key]
    if key == "irqs":
        numbers = [plan_number(v) for v in value] if isinstance(value, list) else [None]
        good = all(n is not None and 1 <= n <= 255 for n in numbers) and all(
            a < b for a, b in zip(numbers, numbers[1:])
        )
    elif key == "traps":
        good = (
            isinstance(value, list)
            and all(v in ("sys", "aln") for v in value)
            and len(value) == len(set(value))
        )
    elif key == "core":
        good = value in ("1.3", "1.6")
    else:
        good = plan_number(value) is not None
    return None if good else key


def plan(data):
    """A plan, as a dict of numbers and lists."""
    root = json_value(data)
    if not isinstance(root, dict):
        raise Bad("plan 1")
    for key in OUTER[:-1]:
        if key not in root:
            raise Bad(f"plan 2 key {key}")
        for name in RANGES.get(key) or OBJECTS.get(key) or ():
            if any(name not in o for o in inner_objects(root, key) or []):
                raise Bad(f"plan 2 key {key}.{name}")
    if any(key not in OUTER for key in root):
        raise Bad("plan 3 key root")
    for key in OUTER:
        names = RANGES.get(key) or OBJECTS.get(key)
        if names and any(name not in names for o in inner_objects(root, key) or [] for name in o):
            raise Bad(f"plan 3 key {key}")
    for key in OUTER:
        fault = plan_value_fault(root, key) if key in root else None
        if fault:
            raise Bad(f"plan 4 key {fault}")
    got = {
        key: [{n: plan_number(o[n]) for n in names} for o in root[key]]
        for key, names in RANGES.items()
    }
    got.update(
        {key: {n: plan_number(root[key][n]) for n in names} for key, names in OBJECTS.items()}
    )
    got.update({key: plan_number(root[key]) for key in ("sp", "isp", "biv", "btv")})
    got.update(
        irqs=[plan_number(v) for v in root["irqs"]],
        traps=sorted(root["traps"]),
        core=root.get("core", "1.3"),
    )
    plan_limits(got)
    return got


def plan_limits(got):
    for key, most in (("rom", 16), ("ram", 16), ("devices", 16), ("irqs", 32)):
        if (
            len(got[key]) > most
            or key in ("rom", "ram")
            and sum(r["len"] for r in got[key]) > 4194304
        ):
            raise Bad(f"plan 5 key {key}")
    at, areas, reserve = (got["csa"][n] for n in ("at", "areas", "reserve"))
    if not 1 <= areas <= 4096 or not 1 <= reserve <= areas or at % 64 or at == 0 or at >> 22 & 63:
        raise Bad("plan 6")
    if at % (1 << 22) + 64 * areas > 1 << 22:
        raise Bad("plan 6")
    if got["biv"] % 2 or got["btv"] % 2:
        raise Bad("plan 7")
    ranges = [(r["at"], r["len"]) for key in RANGES for r in got[key]] + [(at, 64 * areas)]
    for i, (a, length) in enumerate(ranges):
        for j in range(i + 1, len(ranges)):
            if a < ranges[j][0] + ranges[j][1] and ranges[j][0] < a + length:
                raise Bad(f"plan 8 at {i} {j}")


# Scripts and layouts


def lines_of(data):
    """The lines, counted from 1, without the empty one behind the last line feed."""
    lines = data.split(b"\n")
    if lines[-1] == b"":
        lines.pop()
    return list(enumerate(lines, 1))


def script(data, board):
    """How many turns a script has."""
    turns = 0
    for n, line in lines_of(data):
        words = line.split(b" ")
        numbers = [
            int(w) if len(w) < 11 else WORDS for w in words[1:] if re.fullmatch(b"0|[1-9][0-9]*", w)
        ]
        shape = (words[0], len(words) - 1, len(numbers))
        known = shape in ((b"step", 1, 1), (b"irq", 1, 1), (b"aln", 1, 1), (b"in", 3, 3))
        if line == b"":
            continue
        if (
            not known
            or max(numbers) >= WORDS
            or words[0] == b"step"
            and not 1 <= numbers[0] <= 100000
        ):
            raise Bad(f"script 1 at {n}")
        if words[0] == b"irq" and numbers[0] > 255 or words[0] == b"aln" and numbers[0] > 1:
            raise Bad(f"script 1 at {n}")
        if words[0] == b"in" and numbers[2] < numbers[1]:
            raise Bad(f"script 1 at {n}")
        if words[0] == b"irq" and numbers[0] not in board["irqs"]:
            raise Bad(f"script 2 at {n}")
        if words[0] == b"in":
            device = board["devices"][numbers[0]] if numbers[0] < len(board["devices"]) else None
            if device is None or numbers[1] < device["lo"] or numbers[2] > device["hi"]:
                raise Bad(f"script 3 at {n}")
        turns += {b"step": numbers[0], b"irq": 1}.get(words[0], 0)
        if turns > 100000:
            raise Bad(f"script 4 at {n}")
    return turns


def layout(data):
    """The entry's name and the places (name, address, most)."""
    entry, places, last = None, [], 0
    for last, line in lines_of(data):
        if line == b"":
            continue
        words = line.split(b" ")
        if len(words) == 2 and words[0] == b"entry" and NAME.fullmatch(words[1]):
            if entry is not None:
                raise Bad(f"layout 2 at {last}")
            entry = words[1]
            continue
        good = len(words) == 4 and words[0] == b"place" and NAME.fullmatch(words[1])
        if not good or not all(re.fullmatch(b"[0-9A-F]{8}", w) for w in words[2:]):
            raise Bad(f"layout 1 at {last}")
        at, most = (int(w, 16) for w in words[2:])
        if at + most > WORDS or at % 4:
            raise Bad(f"layout 1 at {last}")
        if any(p[0] == words[1] for p in places):
            raise Bad(f"layout 2 at {last}")
        if len(places) == 64:
            raise Bad(f"layout 3 at {last}")
        if any(most and m and at < a + m and a < at + most for _, a, m in places):
            raise Bad(f"layout 4 at {last}")
        places.append((words[1], at, most))
    if entry is None:
        raise Bad(f"layout 1 at {last + 1}")
    return entry, places


# Cells and tasks


def hex_numbers(line, word, count):
    """The numbers of a line `WORD X ..`, each of eight upper-case hex digits, or None."""
    words = line.split(b" ")
    good = (
        len(words) == count + 1
        and words[0] == word
        and all(re.fullmatch(b"[0-9A-F]{8}", w) for w in words[1:])
    )
    return [int(w, 16) for w in words[1:]] if good else None


def in_one(ranges, at, length):
    """The range in which these bytes lie wholly, or None."""
    return next((r for r in ranges if r["at"] <= at and at + length <= r["at"] + r["len"]), None)


def ranges_without(ranges, at, length):
    """What is left of ranges without these bytes, each one's parts ascending and none empty."""
    out = []
    for r in ranges:
        end = r["at"] + r["len"]
        out += [
            {"at": a, "len": b - a}
            for a, b in ((r["at"], min(end, at)), (max(r["at"], at + length), end))
            if a < b
        ]
    return out


def cells(data, board):
    """The cells (at, lo, hi) of a text."""
    out, ram = [], board["ram"]
    for n, line in lines_of(data):
        if line == b"":
            continue
        cell = hex_numbers(line, b"cell", 3)
        if cell is None or cell[0] % 4 or cell[2] < cell[1]:
            raise Bad(f"cells 1 at {n}")
        if not in_one(board["ram"], cell[0], 4):
            raise Bad(f"cells 2 at {n}")
        if any(cell[0] == other[0] for other in out):
            raise Bad(f"cells 3 at {n}")
        out.append(tuple(cell))
        ram = ranges_without(ram, cell[0], 4)
        if len(ram) > 16 or len(board["devices"]) + len(out) > 16:
            raise Bad(f"cells 4 at {n}")
    return out


def tasks(data, board):
    """The addresses of the routine and of its block, and the tasks (entry, sp)."""
    places, out = None, []
    for n, line in lines_of(data):
        if line == b"":
            continue
        found = hex_numbers(line, b"task" if places else b"switch", 2)
        if found is None or places is None and (found[0] % 2 or found[1] % 4):
            raise Bad(f"tasks 1 at {n}")
        if places is None:
            places = found
        else:
            out.append((n, *found))
    if places is None:
        raise Bad("tasks 1 at 1")
    if len(out) > 7:
        raise Bad(f"tasks 2 at {out[7][0]}")
    if len(out) < 2:
        raise Bad("tasks 3")
    length = 4 * len(out) + 4
    if not in_one(board["ram"], places[1], length):
        raise Bad("tasks 4")
    if len(board["devices"]) + len(ranges_without(board["ram"], places[1], length)) > 16:
        raise Bad("tasks 5")
    if board["start"]["is"]:
        raise Bad("tasks 6")
    return places[0], places[1], [task[1:] for task in out]
