#!/usr/bin/env python3
"""Compares plan.schema.json with the program: python3 tests/try_schema.py PROGRAM

PROGRAM is the built tcd (crates/tcd/out/tcd). Tried are the plans of examples/, and one with all
keys with one change each: a key taken out, a key added, a value of another form.

The schema has to accept each plan that tcd takes. If tcd refuses a plan (`bad plan N ..`), the
schema has to refuse it as well, except for what a schema can't say: that hi isn't below lo, that
irqs ascend (both 4), how many bytes there are in all (5), the areas' end and their reserve (6), and
that two ranges share bytes (8). If the package jsonschema is installed, tests/schema.py is compared
with it, too.

Exit status: 0 all agree, 1 one doesn't, 2 no such program, 5 wrong words.
"""
import copy
import json
import pathlib
import re
import sys
import tempfile

import scratch
import schema
from tcdlib.program import of_words

#: values that a key may be given in place of its own
OTHERS = [None, True, 0, 1, -1, 2, 3, 64, 255, 256, 4096, 4097, 1 << 32, 0.5, "", "0x", "0x0"]
OTHERS += ["0x1", "0xD0000040", "0x123456789", "0xg", " 0x4", "4", "1.6", "1.3", "sys"]
OTHERS += [[], ["sys"], ["sys", "sys"], [1], [5, 4], {}, [{}]]
SCHEMA_CANT = {4, 5, 6, 8}


def paths(value, path=()):
    """The path of each key and each item in a plan."""
    steps = {dict: dict.items, list: enumerate}.get(type(value), lambda value: ())
    for step, inner in steps(value):
        yield (*path, step)
        yield from paths(inner, (*path, step))


def changed(plan):
    """Plans with one change each."""
    for path in [*paths(plan)]:
        for other in [*OTHERS, "nothing", "another key"]:
            made = copy.deepcopy(plan)
            holder = made
            for step in path[:-1]:
                holder = holder[step]
            if other == "nothing":
                del holder[path[-1]]
            elif other == "another key":
                if not isinstance(holder, dict):
                    continue
                holder["note"] = 1
            else:
                holder[path[-1]] = other
            yield made


def plans():
    """What is tried, each with what to call it."""
    for path in sorted(scratch.EXAMPLES.glob("**/board*.json")):
        yield path.relative_to(scratch.TOP), json.loads(path.read_text())
    plan = json.loads((scratch.EXAMPLES / "core_16" / "board.json").read_text())
    for made in changed({**plan, "traps": ["sys", "aln"]}):
        yield "core_16 with a change", made


class Judges:
    """The program, the schema, and jsonschema where it is installed."""

    def __init__(self, program, folder):
        self.program, self.folder = program, folder
        self.schema = json.loads((scratch.TOP / "plan.schema.json").read_text())
        self.other = None
        try:
            import jsonschema

            self.other = jsonschema.Draft202012Validator(self.schema)
        except (ImportError, AttributeError):
            print("jsonschema isn't installed: tests/schema.py is not compared with it")

    def refused(self, plan):
        """The number of `bad plan N`, or None where tcd takes the plan."""
        (self.folder / "board.json").write_text(json.dumps(plan))
        words = ["run", "firmware.elf", "board.json", "turns.script"]
        line = scratch.run([self.program, *words], self.folder)[0]
        found = re.match(r"bad plan (\d+)", line)
        return int(found[1]) if found else None

    def fault(self, plan):
        """What doesn't agree about a plan, or None."""
        found, number = schema.faults(self.schema, plan), self.refused(plan)
        if found and number is None:
            return f"tcd takes it, the schema doesn't: {found[0]}"
        if number is not None and not found and number not in SCHEMA_CANT:
            return f"tcd prints bad plan {number}, the schema accepts it"
        if self.other and self.other.is_valid(plan) == bool(found):
            return f"tests/schema.py and jsonschema differ: {found}"
        return None


def main(words):
    program = of_words(words, __doc__, 1)
    tried, wrong = 0, 0
    with tempfile.TemporaryDirectory() as room:
        scratch.built(program, "one_call", pathlib.Path(room))
        judges = Judges(program, pathlib.Path(room))
        for title, plan in plans():
            tried += 1
            if fault := judges.fault(plan):
                wrong += 1
                print(f"{title}: {fault}: {json.dumps(plan)[:300]}")
    print(f"{tried} plans tried, {wrong} wrong")
    return 1 if wrong else 0


if __name__ == "__main__":
    sys.exit(main(sys.argv[1:]))
