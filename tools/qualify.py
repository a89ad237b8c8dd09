#!/usr/bin/env python3
"""Plays the validation of a built tcd on this computer, and writes a report of it.

    qualify.py PROGRAM FOLDER [--tool TEXT] [--full] [--only PART ..]

PROGRAM is the built tcd; FOLDER is new. TEXT is what is known of PROGRAM: its commit, the answer of
`rt version`, the kit's compiler. It needs no kit. The parts:

    cases         the cases of crates/tcd_tool_tests on real files: status, all that is printed, the
                  files. A call on a file that has to fail fails in two ways
    examples      each line of examples/*/expected
    hostile       broken, contradictory and failing inputs beside a second reading; the whole of it
                  with --full
    second        certificates beside tools/second_check.py
    pages         each line that a page for users shows
    schema        plan.schema.json beside the program
    largest       firmwares at every limit (with --full alone)
    memory        each allocation refused in turn (with --full alone; it needs a C compiler)
    controls      the cases on programs that are wrong on purpose: each has to be found
    requirements  a case shows each line of docs/errors.md, and each command; it comes with cases

FOLDER then has

    report.md      the identity of program, files and computer; the parts; each requirement with the
                   cases that show it
    results.json   the same, and each command of the cases
    junit.xml      the same as a test report
    PART.txt       what the script of a part printed
    SHA256SUMS     of all of these, for `sha256sum -c`

If PROGRAM or a file that is played changes meanwhile, nothing holds, and no report is written.

Exit status: 0 nothing was wrong, 1 something was, 2 a program or a folder that can't be used, 5
wrong arguments.
"""
import datetime
import hashlib
import json
import os
import pathlib
import platform
import re
import resource
import subprocess
import sys
import time
from xml.etree import ElementTree as xml

from tcdlib import arguments
from tcdlib import cases
from tcdlib import meanings
from tcdlib import program as tcd
from tcdlib import progress
from tcdlib.arguments import Refused, WrongArguments
from tcdlib.sources import Unusable, bytes_of, shown

TOP = cases.TOP
#: the parts that a script of tests/ does: its words (P is the program), and whether only --full has
#: the part
SCRIPTS = {
    "examples": (["try_examples.py", "P"], False),
    "hostile": (["try_hostile.py", "--quick", "--jobs", str(os.cpu_count() or 2), "P"], False),
    "second": (["try_second.py", "P"], False),
    "pages": (["try_pages.py", "P"], False),
    "schema": (["try_schema.py", "P"], False),
    "largest": (["try_largest.py", "P"], True),
    "memory": (["try_memory.py", "P"], True),
}
PARTS = ("cases", *SCRIPTS, "controls")
#: what is played
PLAYED = ("tools", "tests", "examples", "docs", "crates/tcd_tool_tests", "README.md")
COUNTED = re.compile(r"^(\d+) (?:\w+ )?tried, (\d+) (?:differ|wrong)", re.M)
#: an answer in the list of hostile.txt: `3 x 2 bad plan 4`, `5 x 1 K9`
ANSWER = re.compile(r"\b(\d+) x (?:2 (bad [a-z]+ \d+)|1 (K\d+|switch|sum))\b")


# Identity


def sha256(path):
    """The checksum of a file."""
    return hashlib.sha256(bytes_of(path)).hexdigest()


def sha256_of_played():
    """One checksum over names and bytes of all that is played."""
    total = hashlib.sha256()
    for part in PLAYED:
        paths = (TOP / part).rglob("*") if (TOP / part).is_dir() else [TOP / part]
        for path in sorted(path for path in paths if path.is_file()):
            if "__pycache__" not in path.parts and "out" not in path.parts:
                total.update(f"{sha256(path)}  {path.relative_to(TOP)}\n".encode())
    return total.hexdigest()


def commit():
    """The commit of what is played: that of the archive, or what git says."""
    if (TOP / "VERSION").is_file():
        found = re.search(r"^commit: (\w+)$", (TOP / "VERSION").read_text(), re.M)
        return f"{found[1]} (of the archive)" if found else "unknown"
    try:
        done = tcd.run("git", "describe", "--always", "--dirty", "--abbrev=40", folder=TOP)
    except Unusable:
        return "unknown"
    return done.stdout.strip() or "unknown"


def identity(program, tool):
    """What was tried, with what, and where."""
    stack = resource.getrlimit(resource.RLIMIT_STACK)[0]
    return {
        "SHA-256 of the program": sha256(program),
        "bytes of the program": program.stat().st_size,
        "said of the program": tool or "nothing",
        "commit of what was played": commit(),
        "SHA-256 of what was played": sha256_of_played(),
        "system": f"{platform.system()} {platform.release()} {platform.machine()}",
        "C library": " ".join(platform.libc_ver()).strip() or "unknown",
        "Python": platform.python_version(),
        "processors": os.cpu_count(),
        "stack limit": "none" if stack == resource.RLIM_INFINITY else stack,
        "date": datetime.datetime.now(datetime.timezone.utc).strftime("%Y-%m-%d %H:%M UTC"),
    }


# Parts


class Record:
    """What was found: the tests of each part, how many were tried and wrong, and the seconds."""

    def __init__(self, known):
        self.identity, self.parts, self.tests = known, {}, {}
        self.commands, self.controls, self.requirements, self.answers = [], {}, {}, {}

    def add(self, part, began, tried, tests):
        """Notes a part. `tests` are pairs of a name and what is wrong, or nothing."""
        seconds, wrong = time.monotonic() - began, sum(bool(fault) for _, fault in tests)
        self.parts[part] = {"tried": tried, "wrong": wrong, "seconds": round(seconds, 1)}
        self.tests[part] = tests
        progress.printed(f"{part}: {tried} tried, {wrong} wrong, {seconds:.0f} s")

    def count(self, what):
        """The sum over all parts."""
        return sum(part[what] for part in self.parts.values())


def try_cases(record, start):
    """The cases, and then the requirements that they show."""
    began = time.monotonic()
    record.commands = cases.all_played(start)
    tests = [
        (f"{each['topic']}:{each['line']} {' '.join(each['words'])}", "; ".join(each["faults"]))
        for each in record.commands
    ]
    record.add("cases", began, len(tests), tests)

    began = time.monotonic()
    good = [each for each in record.commands if not each["faults"]]
    places = [(f"{each['topic']}:{each['line']}", each) for each in good]
    found = cases.shown_by((place, each["printed"]) for place, each in places)
    for name in meanings.COMMANDS:
        done = (
            place for place, each in places if each["status"] == "done" and each["words"][0] == name
        )
        found[f"{name} is done"] = [*done]
    record.requirements = found
    tests = [(name, "" if by else "no case shows it") for name, by in found.items()]
    record.add("requirements", began, len(tests), tests)


def try_script(record, part, program, out, is_full):
    """A part that a script of tests/ does; `out` gets what it prints."""
    began, (words, _) = time.monotonic(), SCRIPTS[part]
    words = [program if word == "P" else word for word in words]
    words = [word for word in words if not (is_full and word == "--quick")]
    with open(out, "w", encoding="utf-8") as file:
        settings = {"cwd": TOP / "tests", "stdout": file, "stderr": subprocess.STDOUT}
        settings["env"] = {**os.environ, "PYTHONDONTWRITEBYTECODE": "1"}
        status = subprocess.run([sys.executable, *words], **settings).returncode
    text = out.read_text(encoding="utf-8", errors="replace")
    tried, wrong = map(int, COUNTED.findall(text)[-1]) if COUNTED.search(text) else (0, 1)
    wrong = max(wrong, int(status != 0 or tried == 0))
    last = (text.strip().splitlines() or ["nothing printed"])[-1]
    tests = [(words[0], "")] * (tried - wrong) + [(words[0], f"{out.name}: {last}")] * wrong
    record.add(part, began, tried, tests)
    if part == "hostile":
        for count, bad, rule in ANSWER.findall(text):
            name = bad or f"refused {rule}"
            record.answers[name] = record.answers.get(name, 0) + int(count)


def try_controls(record, start):
    """The cases on wrong programs."""
    began = time.monotonic()
    found = record.controls = cases.controlled(start)
    tests = [(name, "" if count else "nothing found it") for name, count in found.items()]
    record.add("controls", began, len(tests), tests)


# The report


def table(head, rows):
    """A table of a page."""
    cells = ([shown(cell).replace("|", "\\|") for cell in row] for row in [head, *rows])
    lines = ["| " + " | ".join(row) + " |" for row in cells]
    return [lines[0], "|---" * len(head) + "|", *lines[1:], ""]


def report(record):
    """The text of report.md."""
    lines = ["# Validation of tcd", ""]
    result = (
        f"{record.count('tried') - record.count('wrong')} passed, {record.count('wrong')} failed"
    )
    lines += [f"**{result}.** To make it evidence, sign the checksum of SHA256SUMS.", ""]
    lines += ["## What was tried", "", *table(["What", "Is"], record.identity.items())]
    parts = ([name, *counts.values()] for name, counts in record.parts.items())
    lines += ["## Parts", "", *table(["Part", "Tried", "Wrong", "Seconds"], parts)]
    if record.controls:
        rows = table(["Wrong program", "Commands found wrong"], record.controls.items())
        lines += ["## Controls", "", *rows]
    if record.requirements:
        head = ["Requirement", "Cases", "Which", "In hostile"]
        rows = (
            [
                name,
                len(by),
                ", ".join(by[:3]) + (", .." if by[3:] else ""),
                record.answers.get(name, ""),
            ]
            for name, by in record.requirements.items()
        )
        lines += ["## Requirements", "", *table(head, rows)]
    wrong = [(part, *test) for part, tests in record.tests.items() for test in tests if test[1]]
    lines += ["## What was wrong", ""]
    lines += table(["Part", "Test", "Why"], dict.fromkeys(wrong)) if wrong else ["Nothing.", ""]
    return "\n".join(lines)


def junit(record):
    """The text of junit.xml."""
    suites = xml.Element("testsuites", name="tcd")
    for part, tests in record.tests.items():
        counts = record.parts[part]
        told = {"name": part, "tests": str(len(tests)), "failures": str(counts["wrong"])}
        suite = xml.SubElement(suites, "testsuite", time=str(counts["seconds"]), **told)
        for name, fault in tests:
            test = xml.SubElement(suite, "testcase", classname=part, name=shown(name))
            if fault:
                xml.SubElement(test, "failure", message=shown(fault)[:500])
    return xml.tostring(suites, encoding="unicode", xml_declaration=True) + "\n"


def write(record, folder):
    """Writes the files of the report, and their checksums."""
    told = {name: value for name, value in vars(record).items() if name != "tests"}
    arguments.written(folder / "results.json", json.dumps(told, indent=1) + "\n")
    arguments.written(folder / "report.md", report(record))
    arguments.written(folder / "junit.xml", junit(record))
    sums = "".join(f"{sha256(path)}  {path.name}\n" for path in sorted(folder.iterdir()))
    arguments.written(folder / "SHA256SUMS", sums)


def main(words):
    parser = arguments.Parser("program", "folder")
    parser.add_argument("--tool")
    parser.add_argument("--full", action="store_true")
    parser.add_argument("--only", nargs="+", default=[])
    given = parser.parsed(words)
    if unknown := [part for part in given.only if part not in PARTS]:
        raise WrongArguments(f"no part {unknown[0]}; there are {', '.join(PARTS)}")
    program, folder = pathlib.Path(tcd.found(given.program)).resolve(), pathlib.Path(given.folder)
    if any((TOP / part) in folder.resolve().parents for part in PLAYED):
        raise Unusable(f"{shown(folder)}: in a folder that is played")
    cases.all_texts()
    folder.mkdir()

    record, start = Record(identity(program, given.tool)), cases.starter(str(program))
    usual = [part for part in PARTS if given.full or part not in SCRIPTS or not SCRIPTS[part][1]]
    for part in [part for part in PARTS if part in (given.only or usual)]:
        with progress.of(part):
            if part == "cases":
                try_cases(record, start)
            elif part == "controls":
                try_controls(record, start)
            else:
                try_script(record, part, str(program), folder / f"{part}.txt", given.full)

    again = identity(program, given.tool)
    if any(record.identity[key] != again[key] for key in again if key.startswith("SHA-256")):
        raise Refused("the program or what is played changed meanwhile: nothing holds")
    write(record, folder)
    wrong = record.count("wrong")
    print(f"{record.count('tried') - wrong} passed, {wrong} failed: {shown(folder / 'report.md')}")
    return tcd.REFUSED if wrong else tcd.DONE


if __name__ == "__main__":
    arguments.ended(__doc__, main)
