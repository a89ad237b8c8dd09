#!/usr/bin/env python3
"""The longest chain of crates that ends with each crate; the status is 1 if one passes eight.

    maintain/chains.py [CRATES.txt]
"""
import pathlib
import sys
from functools import lru_cache

TOP = pathlib.Path(__file__).resolve().parent.parent
sys.path.insert(0, str(TOP / "tools"))

from tcdlib import arguments

MOST = 8


def uses(path):
    found = {}
    with open(path) as lines:
        for line in lines:
            name, _, rest = line.strip().partition(":")
            if name and not name.startswith("#"):
                found[name.split()[0]] = rest.split()
    return found


def main(words):
    used = uses(words[0] if words else TOP / "crates.txt")

    @lru_cache(None)
    def chain(name):
        return max((chain(low) for low in used[name] if low in used), key=len, default=()) + (name,)

    for name in sorted(used, key=lambda name: (len(chain(name)), name)):
        print(len(chain(name)), " ".join(chain(name)))
    return 1 if any(len(chain(name)) > MOST for name in used) else 0


if __name__ == "__main__":
    arguments.ended(__doc__, main)
