#!/usr/bin/env python3
"""A folder with what has to come with `certified N of M areas`, for a release or a safety case.

    evidence.py PROGRAM FOLDER ELF PLAN CERT.. [--boot ADDRESS | --cells FILE | --tasks FILE]
                [--tool TEXT] [--names LAYOUT SOURCE ..]
    evidence.py --again PROGRAM FOLDER

The first form copies the files into a new FOLDER and judges the copies, by `check`, `boot`, `cells`
or `tasks`; of tasks all certificates are given. FOLDER then has

    files/          the bytes that were judged, and the layout and the sources if they are named
    record.json     each command with its status and line; `second check`, the line of
                    second_check.py, which is the same; `plan check`, what plan_check.py asks
                    of the plan; the checksum of PROGRAM, and TEXT
    report.json     what each frame needs; beside it cfg.txt, listing.txt and page.html. For cells
                    and tasks they are of views/, as `report` knows neither; task 1: report1.json
    controls/       two inputs that had to be refused
    premises.md     the premises of docs/safety.md for this line, with an empty column for evidence
    SHA256SUMS      of all of these except premises.md, for `sha256sum -c`

The controls show that a refusal would have been seen: one area fewer than N, and one changed bit,
in the entry address or, for tasks, in the switch routine. A plan with a key twice is refused (A2).
TEXT is what is known of PROGRAM, as its commit and the answer of `rt version`.

--again compares the checksums, makes the folder again from its own files/ and compares all except
the pages. It says which premises have no evidence. It can't see that files, record and checksums
were all made anew together: keep the checksum of SHA256SUMS elsewhere, or sign it.

Exit status: 0 done, 1 refused (no folder is left), 2 a file or a program that can't be used, or a
folder that doesn't hold, 5 wrong arguments.
"""
import json
import pathlib
import re
import shutil
import sys
import tempfile

import names
import plan_check
import second_check
import view
from tcdlib import arguments
from tcdlib import formats as readers
from tcdlib import judged
from tcdlib import plans
from tcdlib import progress
from tcdlib import program as tcd
from tcdlib.arguments import Refused
from tcdlib.sources import Unusable, bytes_of, checksum, shown

DOCUMENT = view.HERE.parent / "docs" / "safety.md"
#: what docs/safety.md calls the claim of each command, in its table of claims
CLAIMS = {"check": "C1 to C4", "boot": "C5", "cells": "C6", "tasks": "C7"}
#: the commands that `report` doesn't know, and whose further argument is a file
OF_VIEWS = ("cells", "tasks")
PREMISE = re.compile(r"- \*\*(A\d+)\. ")
#: a part of what a claim rests on: `A1 to A13`, `A16` or `without A3`
RESTS_ON = re.compile(r"(without )?A(\d+)(?: to A(\d+))?")
LINK = re.compile(r"\[([^]]*)\]\([^)]*\)")
SUMS, PREMISES, RECORD = "SHA256SUMS", "premises.md", "record.json"


# The premises


def part_of(lines, title):
    """The lines of a part of docs/safety.md."""
    begin = next((n for n, line in enumerate(lines) if line == f"## {title}"), len(lines))
    end = (n for n in range(begin + 1, len(lines)) if lines[n].startswith("## "))
    return lines[begin + 1 : next(end, len(lines))]


def rests_on(lines, claim):
    """The premises on which a claim rests, by the table of claims: their names."""
    rows = [line.strip("| ").split(" | ") for line in part_of(lines, "Claims") if line[:1] == "|"]
    column = next((row.index("Rests on") for row in rows if "Rests on" in row), None)
    text = next((row[column] for row in rows if column and row[0] == claim), "")
    found = []
    for part in text.split(", "):
        if not (read := RESTS_ON.fullmatch(part)):
            raise Unusable(f"{shown(DOCUMENT)}: it doesn't say what {claim} rests on")
        names_of_part = [f"A{n}" for n in range(int(read[2]), int(read[3] or read[2]) + 1)]
        found = [name for name in found if name not in names_of_part]
        found += [] if read[1] else names_of_part
    return found


def premises_in(lines):
    """The premises by their names, each as one line of text."""
    found, name = {}, None
    for line in part_of(lines, "Premises"):
        line = LINK.sub(r"\1", line)
        if begun := PREMISE.match(line):
            name = begun[1]
            found[name] = "**" + line[begun.end() :]
        elif name and line.startswith("  "):
            found[name] += " " + line.strip()
        else:
            name = None
    return found


def premises(claim, line):
    """The page of premises for a command's line, with a column for the evidence."""
    lines = bytes_of(DOCUMENT).decode().split("\n")
    found, needed = premises_in(lines), rests_on(lines, claim)
    if missing := [name for name in needed if name not in found]:
        raise Unusable(f"{shown(DOCUMENT)}: it has no premise {missing[0]}")
    traps = [row for row in part_of(lines, "Premises") if row.startswith("|")]
    more = [" What it needs here |", "---|", *["  |"] * (len(traps) - 2)]
    return "\n".join(
        [
            "# Premises and their evidence",
            "",
            f"`{line}` holds if these premises of docs/safety.md do. Fill in the last columns.",
            "",
            "| Premise | Text | Evidence |",
            "|---|---|---|",
            *(f"| {name} | {found[name]} |  |" for name in needed),
            "",
            *(row + end for row, end in zip(traps, more)),
            "",
        ]
    )


def without_evidence(text, wanted):
    """A page of premises with its last columns empty, and the premises without evidence.

    `wanted` is the page as it was made: what comes after a row's own text is evidence.
    """
    fronts = [line.removesuffix("  |") for line in wanted.split("\n") if line.endswith("|  |")]
    out, missing = [], []
    for line in text.split("\n"):
        if front := next((each for each in fronts if line.startswith(each)), None):
            evidence = line[len(front) :].strip().removesuffix("|").strip()
            if not evidence and (name := re.match(r"\| (A\d+) ", line)):
                missing.append(name[1])
            line = f"{front}  |"
        out.append(line)
    return "\n".join(out), missing


# The folder


class Bundle:
    """What is made in a folder from the copies in its files/."""

    def __init__(self, program, folder, record):
        self.program = str(pathlib.Path(program).resolve())
        self.folder, self.record = folder, record
        self.elf, self.plan, *self.certs = record["files"]
        self.commands = []

    def run(self, *words):
        """Runs a command in the folder, and keeps its status and line."""
        done = tcd.run(self.program, *words, folder=self.folder)
        line = done.stdout.strip()
        command = " ".join(["tcd", *words])
        self.commands.append({"command": command, "status": done.returncode, "line": line})
        return done

    def judge(self, elf, plan, command=None):
        """The command that judges the certificates on an executable and a plan."""
        command, more = command or self.record["command"], self.record["more"]
        before = [more] if command in OF_VIEWS else []
        after = [more] if command == "boot" else []
        return self.run(command, elf, plan, *before, *self.certs, *after)

    def path(self, name):
        """A file of the folder."""
        return str(self.folder / name)

    def make(self):
        """Judges, and writes all that is in the folder except the pages and checksums: the line."""
        done = self.judge(self.elf, self.plan)
        line = done.stdout.strip()
        if done.returncode == tcd.REFUSED:
            raise Refused(line)
        if done.returncode:
            raise Unusable(f"{self.record['command']}: {tcd.why(done, [])}")
        (self.folder / "controls").mkdir()
        second = self.second(line)
        self.controls(int(re.search(r"certified (\d+) of", line)[1]))
        self.reports()
        page = premises(CLAIMS[self.record["command"]], line)
        arguments.written(self.path(PREMISES), page)
        record = {"line": line, "second check": second, "plan check": self.asked_of_plan()}
        record |= {**self.record, "commands": self.commands}
        record["program"] = checksum(self.program)
        (self.folder / RECORD).write_text(json.dumps(record, indent=1) + "\n")
        return line

    def second(self, line):
        """The line of the second checker, which has to be the same."""
        command, more = self.record["command"], self.record["more"]
        kinds = {command: self.path(more) if command in OF_VIEWS else more} if more else {}
        elf, plan, *certs = map(self.path, self.record["files"])
        try:
            _, found = second_check.judged(elf, plan, certs, **kinds)
        except MemoryError:
            found = "out of memory"
        if found != line:
            raise Unusable(f"second check: {found}, but {command}: {line}; one of both is wrong")
        return found

    def asked_of_plan(self):
        """The warnings of plan_check.py: questions to the author of the plan, and no refusal."""
        files = map(self.path, [self.elf, self.plan, *self.record["names"][:1]])
        check = plan_check.Check(*files)
        return [*check.lines(lambda file: pathlib.Path(file).relative_to(self.folder))]

    def controls(self, need):
        """Two inputs that have to be refused."""
        plan, elf = plans.read(self.path(self.plan)), "controls/changed.elf"
        plan["csa"]["areas"] = need + plans.number(plan["csa"]["reserve"]) - 1
        (self.folder / "controls/fewer.json").write_text(json.dumps(plan, indent=1) + "\n")
        (self.folder / elf).write_bytes(self.changed())
        command = "check" if self.record["command"] == "boot" else self.record["command"]
        asked = [(elf, self.plan), *([(self.elf, "controls/fewer.json")] if need else [])]
        for words in asked:
            if self.judge(*words, command).returncode != tcd.REFUSED:
                raise Unusable(f"{' '.join(words)}: not refused, so don't use this program")

    def changed(self):
        """The executable with one bit changed: of the entry, or of the switch routine."""
        entry, segments = judged.image_of(self.path(self.elf))
        if self.record["command"] != "tasks":
            return readers.elf_bytes(entry ^ 4, segments)
        board = judged.board_of(self.path(self.plan))
        tasks = self.path(self.record["more"])
        at = judged.read(tasks, lambda data: readers.tasks(data, board))[0]
        changed = [
            (begin, bytes(byte ^ (begin + n == at) for n, byte in enumerate(held)))
            for begin, held in segments
        ]
        return readers.elf_bytes(entry, changed)

    def asked(self):
        """For each certificate: the number that its files get, and what `report` judges."""
        command, more = self.record["command"], self.path(self.record["more"] or "")
        if command in OF_VIEWS:
            (self.folder / "views").mkdir(exist_ok=True)
        files = self.program, self.path(self.elf), self.path(self.plan), self.folder / "views"
        for number, cert in enumerate(self.certs):
            cells = more if command == "cells" else None
            tasks = (more, str(number)) if command == "tasks" else None
            yield number or "", judged.Judged(*files, cells, tasks), self.path(cert)

    def reports(self):
        """What `report`, `cfg` and `dis` print."""
        for number, asked, cert in self.asked():
            (self.folder / f"report{number}.json").write_text(asked.report(cert)[0])
            (self.folder / f"cfg{number}.txt").write_text(asked.edges())
        listing = tcd.printed(self.program, "dis", self.path(self.elf))[0]
        (self.folder / "listing.txt").write_text(listing)

    def pages(self):
        """The pages of view.py."""
        names_from = [self.path(name) for name in self.record["names"]]
        for number, asked, cert in self.asked():
            page = view.View(asked, cert, names_from).text()
            arguments.written(self.path(f"page{number}.html"), page)


def files_in(folder):
    """The files of a folder that have a checksum, by their names there."""
    found = {str(path.relative_to(folder)): path for path in folder.rglob("*") if path.is_file()}
    return {name: found[name] for name in sorted(found) if name not in (SUMS, PREMISES)}


def sums_of(folder):
    """The text of SHA256SUMS."""
    return "".join(f"{checksum(path)}  {name}\n" for name, path in files_in(folder).items())


def copied(paths, folder):
    """Copies files into files/: their names there, with a number if one is there already."""
    (folder / "files").mkdir(parents=True)
    out = []
    for path in paths:
        name = f"files/{pathlib.Path(path).name}"
        if not name.isprintable() or "\\" in name:
            raise Unusable(f"{shown(path)}: a name that {SUMS} can't hold")
        if name in out:
            name = f"files/{len(out)}_{pathlib.Path(path).name}"
        if (folder / name).exists():
            raise Unusable(
                f"{shown(path)}: another file is {shown(name)} already: rename one of them"
            )
        (folder / name).write_bytes(bytes_of(path))
        out.append(name)
    return out


def made(program, folder, given):
    """Fills a folder: the line."""
    command = next((name for name in ("boot", "cells", "tasks") if getattr(given, name)), "check")
    more = getattr(given, command, None)
    plans.demand_single_keys(given.files[1])
    if given.names:
        names.demand(program, given.files[0], given.names[0], given.names[1:])
    is_file = command in OF_VIEWS
    out = copied([*given.files, *([more] if is_file else []), *given.names], folder)
    count = len(given.files)
    record = {
        "command": command,
        "more": out[count] if is_file else more,
        "files": out[:count],
        "names": out[count + is_file :],
        "tool": given.tool,
    }
    bundle = Bundle(program, folder, record)
    line = bundle.make()
    bundle.pages()
    (folder / SUMS).write_text(sums_of(folder), encoding="utf-8")
    return line


def placed(bundle, folder):
    """Copies a folder to its place, where nothing is yet; if that fails, nothing of it is left."""
    first = next((each for each in reversed(folder.parents) if not each.exists()), folder)
    folder.mkdir(parents=True)
    try:
        shutil.copytree(bundle, folder, dirs_exist_ok=True)
    except BaseException as e:
        shutil.rmtree(first, ignore_errors=True)
        if isinstance(e, shutil.Error):  # a list of the files that weren't copied
            raise Unusable(f"{shown(folder)}: {shown(e.args[0][0][2])}") from None
        raise


# Again


def fault_of_sums(folder):
    """What is wrong with the checksums of a folder, or None."""
    rows = bytes_of(folder / SUMS).decode("utf-8", "replace").split("\n")
    said = dict(row.split("  ", 1)[::-1] for row in rows if "  " in row)
    found = files_in(folder)
    for name in sorted({*said, *found}):
        if name not in found:
            return f"{name}: not there"
        if name not in said:
            return f"{name}: {SUMS} doesn't have it"
        if checksum(found[name]) != said[name]:
            return f"{name}: {SUMS} has another checksum"
    return None


def record_of(folder):
    """The record of a folder, whose files are all in it."""
    try:
        record = json.loads(bytes_of(folder / RECORD))
        inside = [*record["files"], *record["names"]]
        inside += [record["more"]] if record["command"] in OF_VIEWS else []
        is_one = record["command"] in CLAIMS and len(record["files"]) > 2
        kind = type(None) if record["command"] == "check" else str
        is_one = is_one and isinstance(record["more"], kind)
        if not is_one or not all(re.fullmatch(r"files/[^/]+", name) for name in inside):
            raise ValueError(RECORD)
    except (ValueError, KeyError, TypeError, RecursionError):
        raise Unusable(f"{shown(folder / RECORD)}: not a record of evidence.py") from None
    return record


def is_same(one, other):
    """Whether two files are there and have the same bytes."""
    return one.is_file() and other.is_file() and bytes_of(one) == bytes_of(other)


def fault_of_making(program, folder, record, scratch):
    """What differs if the folder is made again from its files, or None."""
    shutil.copytree(folder / "files", scratch / "files")
    kept = {key: record.get(key) for key in ("command", "more", "files", "names", "tool")}
    try:
        Bundle(program, scratch, kept).make()
    except Refused as e:
        return f"refused now: {e}"
    again = json.loads(bytes_of(scratch / RECORD))
    if any(record.get(key) != again[key] for key in again if key != "program"):
        return f"{RECORD}: made again it says other lines"
    for name in sorted({*files_in(folder), *files_in(scratch)} - {RECORD}):
        if not is_same(folder / name, scratch / name) and not name.startswith("page"):
            return f"{name}: made again it is another one"
    return None


def again(program, folder):
    """Judges a folder again: the line."""
    folder = pathlib.Path(folder)
    if fault := fault_of_sums(folder):
        raise Unusable(f"{shown(folder)}: {shown(fault)}")
    record = record_of(folder)
    plans.demand_single_keys(folder / record["files"][1])
    if checksum(program) != record.get("program"):
        print("another program than the recorded one: its lines count", file=sys.stderr)
    if names_from := [folder / name for name in record["names"]]:
        names.demand(program, folder / record["files"][0], names_from[0], names_from[1:])
    with tempfile.TemporaryDirectory() as scratch:
        if fault := fault_of_making(program, folder, record, pathlib.Path(scratch)):
            raise Unusable(f"{shown(folder)}: {shown(fault)}")
        wanted = bytes_of(pathlib.Path(scratch) / PREMISES).decode()
    filled = bytes_of(folder / PREMISES).decode("utf-8", "replace")
    blank, missing = without_evidence(filled, wanted)
    if blank != wanted:
        raise Unusable(f"{shown(folder / PREMISES)}: its premises aren't those of docs/safety.md")
    if missing:
        print(f"{shown(folder / PREMISES)}: no evidence for {', '.join(missing)}", file=sys.stderr)
    return record["line"]


def parsed(given):
    """The arguments."""
    parser = arguments.Parser("program", "folder")
    parser.add_argument("files", nargs="*", metavar="ELF PLAN CERT")
    parser.add_argument("--again", action="store_true")
    parser.add_argument("--tool")
    kinds = parser.add_mutually_exclusive_group()
    for name in ("--boot", "--cells", "--tasks"):
        kinds.add_argument(name)
    parser.add_names("--names")
    given = parser.parsed(given)
    if given.again and len([*filter(None, vars(given).values())]) > 3:
        parser.error("--again needs PROGRAM FOLDER alone")
    if not given.again and (len(given.files) < 3 or (len(given.files) > 3 and not given.tasks)):
        parser.error("needed are PROGRAM FOLDER ELF PLAN CERT, or --again PROGRAM FOLDER")
    return given


def main(given):
    """Makes or tries a folder, and gives the exit status."""
    given = parsed(given)
    program = tcd.found(given.program)
    if given.again:
        with progress.of(f"{given.folder} again"):
            line = again(program, given.folder)
        print(line)
        return tcd.DONE
    if pathlib.Path(given.folder).exists():
        raise Unusable(f"{shown(given.folder)}: it exists already")
    bytes_of(DOCUMENT)  # a copy of tools/ alone has no premises
    try:
        with tempfile.TemporaryDirectory() as scratch, progress.of(given.folder):
            line = made(program, pathlib.Path(scratch) / "bundle", given)
            placed(f"{scratch}/bundle", pathlib.Path(given.folder))
    except OSError as e:  # such as a full disk, which names no file
        raise Unusable(f"{shown(e.filename or given.folder)}: {e.strerror}") from None
    print(line)
    return tcd.DONE


if __name__ == "__main__":
    arguments.ended(__doc__, main)
