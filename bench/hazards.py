#!/usr/bin/env python3
"""Inputs within the limits that cost most, made with PROGRAM itself, and what they cost.

    hazards.py PROGRAM [--beside OTHER].. [--times N] [NAME..]
    hazards.py PROGRAM --growth [NAME..]

Prints a line for each command: the seconds of processor time, the most memory in MB (Python's own
12 at least), the exit status, and the line printed. Each OTHER is a program of the same commands:
its figures follow, then PROGRAM's divided by them, and OTHER BYTES if it prints or writes something
else. A command that OTHER doesn't have ends with status 5. --times makes each input so many times
as large; a part, such as 0.5, makes it smaller. --tries N takes the least of N runs. --growth
prints the seconds of an eighth, of a quarter and of the whole of each input, and how often the
second and the third hold the first. The inputs, made by shapes.py:

INPUTS

Exit status: 0, or 1 if an input could not be made.
"""
import hashlib
import json
import os
import pathlib
import resource
import subprocess
import sys
import tempfile

import usage
from shapes import SHAPES
from tcdlib import arguments

#: the files that commands print and write to
MADE = ("printed", "x.o", "x.elf", "x.cert")
NO_SUCH_COMMAND = 5
MAKER = pathlib.Path(__file__).resolve().with_name("shapes.py")


def run(program, words, folder, limit):
    """Runs a command: seconds, MB, exit status, the front of what it printed, and a digest."""

    def limited():
        resource.setrlimit(resource.RLIMIT_CPU, (limit, limit + 1))

    words = [program, *words]
    with (folder / "printed").open("wb+") as out:
        child = subprocess.Popen(words, cwd=folder, stdout=out, preexec_fn=limited)
        _, status, used = os.wait4(child.pid, 0)
        child.returncode = 0
        out.seek(0)
        front = out.read(70).decode(errors="replace").split("\n")[0]
    seconds, most = used.ru_utime + used.ru_stime, used.ru_maxrss / 1024
    return seconds, most, os.waitstatus_to_exitcode(status), front, digest_of(folder)


def digest_of(folder):
    """A digest of what a command printed and wrote, read in small parts."""
    digest = hashlib.sha256()
    for path in map(folder.joinpath, MADE):
        if path.exists():
            with path.open("rb") as file:
                for part in iter(lambda: file.read(65536), b""):
                    digest.update(part)
    return digest.digest()


def make(name, times, program, folder, limit):
    """Makes an input: its commands as lists of words, or none if it can't be made.

    Another process writes the files, so that this one, from which commands begin, stays small.
    """
    maker = [sys.executable, "-B", MAKER, name, str(times)]
    made = subprocess.run(maker, cwd=folder, stdout=subprocess.PIPE, check=True)
    first, commands = ([it.split(" ") for it in part] for part in json.loads(made.stdout))
    for words in first:
        done = run(program, words, folder, limit)
        if done[2]:
            print(f"{name}: {words[0]} ended with {done[2]}: {done[3]}")
            return []
    return commands


def costs(words, programs, folder, asked):
    """Runs a command by each program in turn: of each the run that took the least seconds."""
    tries = [[run(it, words, folder, asked.limit) for it in programs] for _ in range(asked.tries)]
    return [min(of) for of in zip(*tries)]


def compare(name, programs, folder, asked):
    """Prints what the commands of an input cost each program: whether the input could be made."""
    commands = make(name, asked.times, programs[0], folder, asked.limit)
    for words in commands:
        own, *others = costs(words, programs, folder, asked)
        parts = [f"{name:15} {words[0]:8} {own[0]:7.2f} s {own[1]:7.1f} MB status {own[2]}"]
        for it in others:
            parts.append(f"{it[0]:7.2f} s {it[1]:7.1f} MB status {it[2]}")
            if it[2] != NO_SUCH_COMMAND:
                parts.append(f"ratio {own[0] / max(it[0], 0.002):.2f}, {own[1] / it[1]:.2f}")
                parts += ["OTHER BYTES"] * (it[2:] != own[2:])
        print("  ".join([*parts, own[3]]), flush=True)
    return bool(commands)


def grow(name, programs, folder, asked):
    """Prints what an eighth, a quarter and the whole of an input take: whether it could be made."""
    seconds = {}
    for part in (1 / 8, 1 / 4, 1):
        for words in make(name, part, programs[0], folder, asked.limit):
            least = costs(words, programs[:1], folder, asked)[0][0]
            seconds.setdefault(words[0], []).append(least)
    for command, (eighth, *more) in seconds.items():
        times = " ".join(f"{it / max(eighth, 0.001):.2f}" for it in more)
        each = " ".join(f"{it:.3f}" for it in (eighth, *more))
        print(f"{name:15} {command:8} {each} s, {times} times", flush=True)
    return bool(seconds)


def main(given):
    """Reads the words, and tries the inputs that are asked for."""
    words = arguments.Parser("program")
    words.add_argument("inputs", nargs="*", metavar="NAME", choices=[[], *SHAPES])
    words.add_argument("--beside", action="append", default=[], metavar="OTHER")
    words.add_argument("--folder")
    words.add_argument("--limit", type=usage.between(1, 100000), default=200)
    words.add_argument("--times", type=usage.times, default=1)
    words.add_argument("--tries", type=usage.between(1, 1000), default=1)
    words.add_argument("--growth", action="store_true")
    asked = words.parsed(given)
    programs = [usage.program_of(it) for it in (asked.program, *asked.beside)]
    measure = grow if asked.growth else compare
    with tempfile.TemporaryDirectory() as room:
        folder = pathlib.Path(asked.folder or room)
        made = [measure(name, programs, folder, asked) for name in asked.inputs or SHAPES]
    return 0 if all(made) else 1


if __name__ == "__main__":
    listed = "".join(f"{name:15} {it[0]}\n" for name, it in SHAPES.items())
    arguments.ended(__doc__.replace("INPUTS\n", listed), main)
