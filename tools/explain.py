#!/usr/bin/env python3
"""Runs a command of tcd and says what it printed, with names and lines of sources.

    explain.py [LAYOUT SOURCE..] [--json] -- tcd cert firmware.elf board.json firmware.cert
    explain.py --elf OTHER.elf [--json] -- tcd cert OTHER.elf board.json OTHER.cert

LAYOUT and the SOURCEs are those of the executable, in the order in which they were linked. If they
don't link to it, no name is printed, and the status is 2. For `ship` they are taken from its own
words. --elf reads the symbols of an executable that another linker wrote. Without any of these,
addresses stay addresses.

What the command printed comes first, as it is. If it didn't end with 0, or printed a run that died,
standard error gets a line `FILE:LINE: error: ..`, as editors and build logs read it, the line of
the source, and what people change. Lines `FILE:LINE: note: ..` after it are, for K14, the entries
of the loop of frames, for K3 the calls of an address without code, and for rules on addresses, the
instructions before the place from which the address comes. tcd names the first fault only, so there
is one error at most.

With --json, standard output is one JSON object instead: command, status, printed, and finding,
which is null or has rule, file, line, text, address, function, frame, message, change, needed (the
areas that would be enough) and notes (address, file, line, function and message of each).

Exit status: that of the command; 2 if there is no such program, if LAYOUT and SOURCEs aren't those
of its executable, if a file that it writes is one that is read, or if its plan has a key twice; 5
wrong arguments.
"""
import json
import os
import re
import sys
import tempfile

import names
from tcdlib import arguments
from tcdlib import causes
from tcdlib import judged
from tcdlib import meanings
from tcdlib import origins
from tcdlib import plans
from tcdlib import program as tcd
from tcdlib import sources
from tcdlib.frames import Listing, hex8, key_of
from tcdlib.sources import Unusable, shown

#: the commands that judge a certificate which is given, and what may be wrong with it
GIVEN = ("check", "report", "boot", "cells", "tasks")
AGAIN = "make the certificate again"
OLDER = f"; or {AGAIN}, if it is older than the executable or the plan"
#: the rules on where a call, a store or a load goes
ON_ADDRESSES = ("5", "9", "10", "17")
#: the commands that judge one executable under one plan as it is
JUDGES = ("cert", "check", "report", "cfg", "ship")
#: so much of a line of a file is printed
MOST_TEXT = 120
#: a finding has each of these; None if it isn't known
FIELDS = tuple("rule file line text address function frame message change needed notes".split(" "))


def finding(rule, meaning, message="", **more):
    """What is said of one fault. The message is the meaning unless another one is given."""
    found = dict.fromkeys(FIELDS)
    found.update(rule=rule, message=message or meaning.means, change=meaning.change)
    found.update(more)
    if found["file"] and found["line"]:
        found["text"] = sources.line_of(found["file"], found["line"]) or None
    return found


def place_of(found):
    """Where a finding or a note is, as a build log has it."""
    if found["file"]:
        return found["file"] + (f":{found['line']}" if found["line"] else "")
    return found["address"] or "tcd"


def lines_of(found):
    """The finding as it is printed."""
    where = f" at {found['function']}" if found["function"] else ""
    frame = f", in {found['frame']}" if found["frame"] else ""
    lines = [f"{place_of(found)}: error: {found['rule']}{where}{frame}: {found['message']}"]
    if found["text"]:
        is_long = len(found["text"]) > MOST_TEXT
        lines.append(f"    text: {found['text'][:MOST_TEXT]}{' ..' if is_long else ''}")
    if found["change"]:
        lines.append(f"    change: {found['change']}")
    for note in found["notes"] or []:
        at = f"at {note['function']} " if note["function"] else ""
        lines.append(f"{place_of(note)}: note: {at}{note['message']}")
    return [shown(line) for line in lines]


def frame_name(key, known):
    """What an engineer calls a kind of frame."""
    during = f" while interrupt {key.prio} is handled" if key.prio else ""
    if key.kind == "call":
        return f"a call of {known.name(int(key.entry, 16))}{during}"
    if key.kind == "irq":
        return f"the handler of interrupt {key.prio}"
    traps = {"start": "the background", "sys": "a system call", "aln": "a misaligned access"}
    return traps[key.kind] + during


def entry_name(step, known):
    """What happens at an entry of a ring."""
    if step.way == "call":
        return f"{known.name(int(step.into.entry, 16))} is called"
    if step.way == "irq":
        return f"interrupt {step.into.prio} comes"
    return {"sys": "a system call is made", "aln": "a misaligned access is made"}[step.way]


class Explainer:
    """Says what one command printed. `known` has the names, `paths` are the sources linked."""

    def __init__(self, command, known, paths=()):
        self.command, self.known, self.paths = command, known, list(paths)
        self.name = command[1] if len(command) > 1 else ""
        #: if the finding is one of K14: the ring of frames, which may have no steps
        self.ring = causes.Ring()
        #: what `report` and `cfg` print of the executable with areas enough, if that is the cause
        self.roomy = None

    # The words of the command

    def words(self, role):
        """The words of the command in a role of meanings.COMMANDS, such as PLAN or SOURCE."""
        return tcd.words_in(self.command[1:], role)

    def word(self, role):
        """The first word in a role, or None."""
        return next(iter(self.words(role)), None)

    # Places

    def at(self, address, key=None):
        """Where an address of a frame is."""
        at, entry = int(address, 16), key and int(key.entry, 16)
        file, line = self.known.line(at) or (None, None)
        function = self.known.name(at, entry) if self.known else None
        return {"address": address, "file": file, "line": line, "function": function}

    def find(self, line, status):
        """The finding of a printed line and a status, or None if there is nothing to explain."""
        for shape, found in SHAPES:
            if match := re.fullmatch(shape, line):
                return found(self, *match.groups())
        if status == tcd.BAD_WORDS and line == "bad words":
            return self.bad_words()
        if status in (tcd.NO_FILE, tcd.NO_MEMORY):
            return self.without_line(status)
        return None

    # What the lines say. Those that SHAPES names get the groups of a line and give the finding.

    def rule(self, rule, address, key, task):
        """A rule that the certificate breaks, or that no certificate keeps."""
        key = key_of(key)
        meaning = meanings.RULES.get(rule, UNKNOWN)
        meaning, more = meanings.BY_FRAME.get((rule, key.kind), meaning), {}
        if rule == "3" and address == key.entry and key.kind in meanings.NO_CODE_AT_ENTRY:
            meaning = meanings.NO_CODE_AT_ENTRY[key.kind]
            more = self.callers(key) if key.kind == "call" else {}
        elif rule == "3" and (more := self.callers(key, address)):
            meaning = meanings.NO_CODE_AT_JUMP
        if rule == "14" and not task:
            meaning, more = self.no_areas(address, key)
        if rule in ON_ADDRESSES:
            more = {"notes": self.origins(address, key)}
        message = meaning.means
        if more.get("needed"):
            message += f": {more['needed']} are needed"
        if task:
            message += f" (in task {task}, counted from 0)"
        if self.name in GIVEN and meaning.change and AGAIN not in meaning.change:
            meaning = meanings.Meaning(meaning.means, meaning.change + OLDER)
        frame = frame_name(key, self.known)
        place = {**self.at(address, key), **more}
        return finding(f"K{rule}", meaning, message, frame=frame, **place)

    def no_areas(self, address, key):
        """Which of the causes of K14 it is, with the ring or the number of areas."""
        self.judge_areas(address, key)
        needed = json.loads(self.roomy[0])["certified"] if self.roomy else None
        is_enough = needed is not None and needed <= self.usable()
        if key.kind == "start" and not is_enough:
            return meanings.NO_AREAS["areas"], {"needed": needed}
        if not self.ring.steps:
            is_given = self.name in GIVEN
            return meanings.NO_AREAS["certificate"] if is_given else meanings.RULES["14"], {}
        has_interrupt = any(step.way == "irq" for step in self.ring.steps)
        meaning = meanings.NO_AREAS["interrupt" if has_interrupt else "recursion"]
        notes = [
            self.note(step.point, entry_name(step, self.known), step.frame)
            for step in self.ring.steps
        ]
        if self.ring.lowering:
            message = "the handler lowers the priority below its own"
            notes.append(self.note(self.ring.lowering, message))
        return meaning, {"notes": notes}

    def callers(self, key, address=None):
        """Notes on the calls that may enter a frame without code, or on the jumps to an address
        without code; the fault is at the first."""
        notes = []
        for point, entry in self.by_listing(causes.callers_of, key, address) or []:
            message = "this address is called"
            if entry is not None:
                word = f"the word at {self.known.name(entry)} ({hex8(entry)})"
                way = "`ji`" if address else "`calli`"
                message = f"{way} may take {word} of its table, which is {address or key.entry}"
            notes.append(self.note(point, message))
        if not notes:
            return {}
        return {"notes": notes, "file": notes[0]["file"], "line": notes[0]["line"]}

    def by_listing(self, search, *more):
        """What a search of causes.py finds in the executable, or None if it can't be read."""
        if self.name not in (*JUDGES, "cellcert", "cells"):
            return None
        with tempfile.TemporaryDirectory() as folder:
            try:
                return search(self.command[0], self.executable(folder), self.word("PLAN"), *more)
            except Unusable:
                return None  # the command that refused could read its files: they changed since

    def usable(self):
        """How many areas the plan has without the reserve."""
        areas, reserve = plans.areas_of(self.word("PLAN"))
        return areas - reserve

    def note(self, address, message, key=None):
        """What is said of an address beside the fault's own."""
        return {**self.at(address, key), "message": message}

    def origins(self, address, key):
        """Notes on the instructions from which the address of an access or a call comes."""
        with tempfile.TemporaryDirectory() as folder:
            try:
                listing = Listing(tcd.printed(self.command[0], "dis", self.executable(folder))[0])
            except Unusable:
                return None
        notes = []
        for register, point in origins.origins(listing, address):
            file, line = self.known.line(int(point, 16)) or (None, 0)
            text = (sources.statement_of(file, line) if file else "") or listing.texts[point]
            notes.append(self.note(point, f"{register} comes from `{text}`", key))
        return notes or None

    def judge_areas(self, address, key):
        """Looks for the ring, or for the number of areas that would be enough."""
        if self.name not in JUDGES:
            return
        if key.kind == "start":
            self.roomy = self.by_listing(causes.needed)
        else:
            self.ring = self.by_listing(causes.ring_of, str(key), address) or self.ring

    def executable(self, folder):
        """The executable that was judged. `ship` writes none if it refuses: it is linked again."""
        if self.name != "ship":
            elf = self.word("ELF") or ""
            judged.demand_bounded(elf)
            return elf
        return names.linked(self.command[0], self.word("LAYOUT"), self.words("SOURCE"), folder)

    def boot(self, number, address):
        """A sequence of `bootgen` that isn't there."""
        place = self.at(address) if address else {"file": self.word("PLAN")}
        return finding(f"boot {number}", meanings.BOOTS.get(number, UNKNOWN), **place)

    def switch(self, address):
        """A byte of the switch routine that differs."""
        return finding("switch", meanings.TASK_REFUSALS["switch"], **self.at(address))

    def sum(self, taken, areas):
        """Tasks that need too many areas together."""
        meaning = meanings.TASK_REFUSALS["sum"]
        message = f"{meaning.means}: {taken} of {areas}"
        return finding("sum", meaning, message, file=self.word("TASKS"), needed=int(taken))

    def source(self, number, file, line):
        """A line of a source."""
        paths = self.words("SOURCE")
        path = paths[int(file)] if int(file) < len(paths) else None
        meaning = meanings.SOURCES.get(number, UNKNOWN)
        if number == "1" and line:
            code = sources.raw_line(path, int(line)).split("#")[0]
            meaning = next((each for mark, each in meanings.SEEN.items() if mark in code), meaning)
            bad = code[meanings.SOURCE_CHARACTERS.match(code).end() :][:1]
            if line == "1" and sources.has_mark(path):
                meaning = meanings.MARK
            elif bad and meaning is meanings.SOURCES["1"]:
                meaning = meanings.Meaning(f"`{bad}` in a line, which no line may have")
        return finding(f"source {number}", meaning, file=path, line=int(line) if line else None)

    def lined(self, kind, number, line):
        """A fault of a script, a layout, a file of cells or one of tasks."""
        role, table = {
            "script": ("SCRIPT", meanings.SCRIPTS),
            "layout": ("LAYOUT", meanings.LAYOUTS),
            "cells": ("CELLS", meanings.CELLS),
            "tasks": ("TASKS", meanings.TASKS),
        }[kind]
        meaning, file = table.get(number, UNKNOWN), self.word(role)
        if kind == "layout" and number == "1" and self.is_after_last(file, int(line or 0)):
            meaning = meanings.NO_ENTRY
        elif number == "1" and line == "1" and sources.has_mark(file):
            meaning = meanings.MARK
        elif number == "1" and sources.raw_line(file, int(line or 0)).endswith("\r"):
            meaning = meanings.CARRIAGE_RETURN
        return finding(f"{kind} {number}", meaning, file=file, line=int(line) if line else None)

    @staticmethod
    def is_after_last(path, line):
        """Whether a line is the one after the last of a file."""
        try:
            lines = sources.lines_of(path)
        except (Unusable, TypeError):
            return False
        return line == len(lines) + (lines[-1] != "")

    def link(self, number, name):
        """A name or a section that can't be linked."""
        meaning = meanings.LINKING.get(number, UNKNOWN)
        place = {"file": self.word("LAYOUT")}
        message = meaning.means
        if name:
            message = f"{name}: {message}{self.more_on(number, name)}"
            place = self.first_use(number, name) or place
        return finding(f"link {number}", meaning, message, **place)

    def more_on(self, number, name):
        """What the sources say more of a fault of linking: sizes, or a label that isn't global."""
        if number == "4":
            return self.sizes(name)
        try:
            for path in self.linked_sources() if number == "2" else []:
                for row in sources.read_source(path).labels:
                    if row.name == name:
                        return f" ({path}:{row.line} has a label of this name, which isn't global)"
        except Unusable:
            pass
        return ""

    def linked_sources(self):
        """The sources that were linked, if they are known."""
        return self.paths or self.words("SOURCE")

    def first_use(self, number, name):
        """The line of a source or of the layout that a fault of linking is about, if known."""
        try:
            if number == "4" and name in (places := sources.read_places(self.word("LAYOUT"))):
                return {"file": self.word("LAYOUT"), "line": places[name].line}
            for path in self.linked_sources():
                lines = sources.uses(path, name)
                defined = [row.line for row in sources.read_source(path).labels if row.name == name]
                if number == "1" and defined:
                    return {"file": path, "line": defined[0]}
                if number in ("2", "3") and lines:
                    return {"file": path, "line": lines[0]}
        except (Unusable, TypeError):
            pass
        return None

    def sizes(self, section):
        """How many bytes a section has and its place takes, if the sources are known."""
        try:
            place = sources.read_places(self.word("LAYOUT"))[section]
            read = [sources.read_source(path) for path in self.linked_sources()]
        except (Unusable, KeyError, TypeError):
            return ""
        size = sources.linked_size(read, section)
        return f" (it has {size} bytes, the place takes {place.most})" if read else ""

    def reach(self, file, section, offset, fault):
        """A distance or an address that its instruction can't hold."""
        meaning = meanings.LINKING["5"]
        message = f"{meanings.LINK_FAULTS.get(fault, UNKNOWN.means)}: {meaning.means}"
        paths, place = self.linked_sources(), {}
        if int(file) < len(paths):
            path = paths[int(file)]
            place = {"file": path, "line": sources.line_at(path, section, offset)}
        return finding("link 5", meaning, message, **place)

    def plan(self, number, key, first, second):
        """A fault of the plan, with its line if that can be found."""
        meaning, path = meanings.PLANS.get(number, UNKNOWN), self.word("PLAN")
        message, line = meaning.means, None
        try:
            text = sources.bytes_of(path).decode("utf-8")
            if number == "1":
                message, line = plans.json_fault(text) or (message, None)
        except (Unusable, TypeError, UnicodeDecodeError):
            text = ""
        if number == "1" and sources.has_mark(path):
            meaning, message, line = meanings.MARK, meanings.MARK.means, 1
        if key:
            message = f"{key}: {message}"
            line = (plans.missing_line if number == "2" else plans.key_line)(text, key)
        if first:
            message += f" (ranges {first} and {second}, from 0 over rom, ram, devices and areas)"
        return finding(f"plan {number}", meaning, message, file=path, line=line)

    def binary(self, kind, number, rest):
        """An executable, a certificate or an object that isn't in its format."""
        role, table = {
            "elf": ("ELF", meanings.EXECUTABLES),
            "cert": ("CERT", meanings.BINARIES),
            "object": ("OBJECT", meanings.BINARIES),
        }[kind]
        words, meaning = self.words(role), table.get(number, UNKNOWN)
        if kind == "object" and (place := re.search(r"at (\d+)", rest)):
            words = words[int(place[1]) :]
        file = words[0] if words and (kind != "cert" or len(words) == 1) else None
        return finding(f"{kind} {number}", meaning, meaning.means + rest, file=file)

    def dead(self, cause, address):
        """What a run died of."""
        return finding(f"dead {cause}", meanings.DEATHS.get(cause, UNKNOWN), **self.at(address))

    def bad_words(self):
        """Words of no command."""
        meaning = meanings.STATUSES[tcd.BAD_WORDS]
        message = f"the words of {self.name} are: {meanings.COMMANDS.get(self.name)}"
        if self.name not in meanings.COMMANDS:
            known = ", ".join(meanings.COMMANDS)
            message = f"there is no command {self.name or '(none)'}; there are: {known}"
        return finding("words", meaning, message)

    def without_line(self, status):
        """A status without a line."""
        meaning = meanings.STATUSES[status]
        more = tcd.lacking(self.command[1:]) if status == tcd.NO_FILE else ""
        return finding(f"status {status}", meaning, meaning.means + (more and f"; {more}"))


UNKNOWN = meanings.Meaning("a fault that explain.py doesn't know; see docs/errors.md")
KEY_TEXT = r"(\w+ [0-9A-F]{8} prio \d+ is [01])"
#: the printed lines of docs/formats.md, and what explains each
SHAPES = (
    (rf"refused K(\d+) at ([0-9A-F]{{8}}) in {KEY_TEXT}(?: of task (\d+))?", Explainer.rule),
    (r"refused boot (\d+)(?: at ([0-9A-F]{8}))?", Explainer.boot),
    (r"refused switch at ([0-9A-F]{8})", Explainer.switch),
    (r"refused sum (\d+) of (\d+) areas", Explainer.sum),
    (r"bad source (\d+) at (\d+)(?: (\d+))?", Explainer.source),
    (r"bad (script|layout|cells|tasks) (\d+)(?: at (\d+))?", Explainer.lined),
    (r"bad link ([1-46])(?: name (\S+))?", Explainer.link),
    (r"bad link 5 at (\d+) (\d+) (\d+) (\d+)", Explainer.reach),
    (r"bad plan (\d+)(?: key (\S+))?(?: at (\d+) (\d+))?", Explainer.plan),
    (r"bad (elf|cert|object) (\d+)(.*)", Explainer.binary),
    (r"events \d+ peak \d+ dead (\w+) at ([0-9A-F]{8})", Explainer.dead),
)


def of_command(command, roles):
    """The words of a command in these roles."""
    explainer = Explainer(command, names.Map())
    return [word for role in roles for word in explainer.words(role)]


def demand_apart(given, command):
    """Raises Unusable if a file that the command writes is one that it or explain.py reads."""
    outputs = meanings.WRITTEN.get(command[1] if len(command) > 1 else "", ())
    read = [role for role in meanings.READ if role not in outputs]
    arguments.demand_apart(of_command(command, outputs), given + of_command(command, read))


def demand_sources(given, command):
    """Raises Unusable if LAYOUT SOURCE.. aren't those of the command's executable or objects."""
    layout, *paths = given
    files = of_command(command, ["OBJECT" if command[1] == "link" else "ELF"])
    if command[1] in ("asm", "ship") or not files or not all(map(os.path.exists, files)):
        return  # it prints no address, names its own sources, or can't read its files
    if command[1] == "link":
        names.demand_objects(command[0], files, paths)
    else:
        names.demand(command[0], files[0], layout, paths)


def names_of(given, command):
    """The map and the sources that the words before `--` name; `ship` names its own."""
    if command[1:2] == ["ship"] and len(command) > 6:
        given = [command[3], *command[6:]]
    elif given[:1] == ["--elf"]:
        return names.read_elf(given[1]), []
    if given:
        return names.read(given[0], given[1:]), given[1:]
    return names.Map(), []


def parsed(given):
    """The words before `--`, whether --json is one, and the command; None if wrong."""
    if "--" not in given or given.index("--") == len(given) - 1:
        return None
    command, own = given[given.index("--") + 1 :], given[: given.index("--")]
    rest = [word for word in own if word != "--json"]
    is_elf = rest[:1] == ["--elf"]
    if (is_elf and len(rest) != 2) or (not is_elf and any(word[:1] == "-" for word in rest)):
        return None
    return (rest, "--json" in own, command) if len(rest) != 1 else None


def ran(given, command):
    """Runs the command: how it ended."""
    demand_apart(given, command)
    for path in of_command(command, ["PLAN"]):
        plans.demand_single_keys(path)
    return tcd.run(command[0], *command[1:])


def found_of(given, command, done):
    """The finding of a command that was run, or None, and why there are no names, or None."""
    if given and given[0] != "--elf" and len(command) > 1:
        demand_sources(given, command)
    known, paths, no_names = names.Map(), [], None
    try:
        known, paths = names_of(given, command)
    except Unusable as e:
        no_names = str(e)
        paths = given[1:] if given[:1] != ["--elf"] else []
    explainer = Explainer(command, known, paths)
    return explainer.find(done.stdout.strip(), done.returncode), no_names


def explained(given, command):
    """Runs the command: how it ended, the finding or None, and why there are no names or None."""
    done = ran(given, command)
    return done, *found_of(given, command, done)


def status_of(done):
    """The exit status of a command, as a shell has it."""
    return done.returncode if done.returncode >= 0 else 128 - done.returncode


def main(given):
    """Reads the words, runs the command, and gives the exit status."""
    given = parsed(given)
    if not given:
        raise arguments.WrongArguments("needed are LAYOUT SOURCE.. or nothing, `--`, a command")
    own, is_json, command = given
    command = [tcd.found(command[0]), *command[1:]]
    done = ran(own, command)
    if is_json:
        found, _ = found_of(own, command, done)
        result = {"command": command, "status": status_of(done), "printed": done.stdout.strip()}
        print(json.dumps({**result, "finding": found}))
        return status_of(done)
    print(done.stdout, end="", flush=True)
    sys.stderr.write(done.stderr)
    found, no_names = found_of(own, command, done)
    if no_names and found and found["address"]:
        print(f"explain.py: no names: {no_names}", file=sys.stderr)
    for line in lines_of(found) if found else []:
        print(line, file=sys.stderr)
    return status_of(done)


if __name__ == "__main__":
    arguments.ended(__doc__, main)
