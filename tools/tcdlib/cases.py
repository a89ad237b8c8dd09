"""The texts of cases of crates/tcd_tool_tests, played on real files and the built program.

The gate plays them on files in memory; the comment at the top of stage.rt says what their lines
mean. Here each `case` has a folder of its own. Compared are the status of each command, all that it
prints, that nothing goes to standard error, and the files that the text looks at. A call on a file
that has to fail fails in one of two ways: the file isn't there, or a folder is in its place.
tests/long_files.cases has cases of files that are too long to be held in memory.
"""
import concurrent.futures
import os
import pathlib
import re
import shutil
import subprocess
import tempfile

from tcdlib import meanings
from tcdlib import progress
from tcdlib.sources import Unusable, bytes_of, shown

TOP = pathlib.Path(__file__).resolve().parent.parent.parent
TEXTS = TOP / "crates" / "tcd_tool_tests" / "src"
LONG_FILES = TOP / "tests" / "long_files.cases"
STATUSES = ("done", "refused", "bad-input", "fault", "no-memory", "bad-words")
#: of each command whose calls a text lets fail: the words that are read, and those that are written
CALLS = {
    "check": lambda words: (words[1:4], []),
    "ship": lambda words: ([*words[1:3], *words[5:]], words[3:5]),
    "taskcert": lambda words: (words[1:4], words[4:]),
}
TEXT_OF = re.compile(r'const (CASES|SAMPLES): &str = r#"\n(.*?)"#;', re.S)
#: lines that may have lines below them, and how one of them names a piece
WITH_TEXT = ("bytes", "text", "replace", "run")
PIECES = ("bytes", "text", "replace", "join")
WAYS = ("missing", "folder")
SECONDS = 60


# The texts


def texts(folder=TEXTS):
    """The texts of the topics by name, and the samples that come before each. Empty lines before a
    text give its lines the numbers that they have in their file."""
    found, samples = {}, None
    for path in sorted(folder.glob("*.rt")):
        source = path.read_text(encoding="utf-8")
        for text in TEXT_OF.finditer(source):
            lines = "\n" * source.count("\n", 0, text.start(2)) + text[2]
            if text[1] == "SAMPLES":
                samples = lines
            else:
                found[path.stem] = lines
    library = folder / "lib.rt"
    topics = re.findall(r"^mod (\w+);", library.read_text() if library.exists() else "", re.M)
    if samples is None or {*topics} - {"stage", "samples"} != {*found} or not found:
        raise Unusable(f"{shown(folder)}: the texts of cases aren't those of the topics of lib.rt")
    return found, samples


def all_texts():
    """The same, and the text of long files."""
    found, samples = texts()
    return {**found, LONG_FILES.stem: bytes_of(LONG_FILES).decode()}, samples


def acts(text):
    """The lines of a text: number, words, and the lines below."""
    found = []
    for number, line in enumerate(text.split("\n"), 1):
        if line.startswith("    ") and found:
            found[-1][2] += ("" if line[4:] == "." else line[4:]) + "\n"
        else:
            found.append([number, line.split(" "), ""])
    return found


def edited(data, edits):
    """A copy of the bytes after these edits: AT=BYTE, or ..LENGTH."""
    out = bytearray(data)
    for edit in edits:
        at, sign, byte = edit.partition("=")
        if sign:
            out[int(at, 16)] = int(byte, 16)
        elif edit.startswith("..") and int(edit[2:]) <= len(out):
            del out[int(edit[2:]) :]
        else:
            raise Unusable(f"no edit of a piece: {shown(edit)}")
    return bytes(out)


def piece(pieces, words, below):
    """The bytes of the piece that a line names."""
    if words[0] == "bytes":
        return bytes.fromhex(below)
    if words[0] == "text":
        return below.encode()
    if words[0] == "replace":
        old, new = below.split("\n", 1)
        text = pieces[words[2]].decode()
        if old not in text:
            raise Unusable(f"no such text in {shown(words[2])}: {shown(old)}")
        return text.replace(old, new.removesuffix("\n")).encode()
    parts = (part.partition("*") for part in words[2:])
    return b"".join(pieces[name] * int(times or 1) for name, _, times in parts)


# The stage


class Stage:
    """Plays texts of cases in a folder. `start` runs the program in it; `way` is how calls fail."""

    def __init__(self, folder, start, way):
        self.folder, self.start, self.way = folder, start, way
        self.pieces, self.results, self.topic, self.case = {}, [], "", ""
        #: which call on the files has to fail, and how many there were
        self.fails, self.calls = None, 0

    def play(self, topic, text):
        """Plays all lines of a text."""
        self.topic, self.fails = topic, None
        for number, words, below in acts(text):
            try:
                self.act(number, words, below)
            except (KeyError, ValueError, IndexError):
                raise Unusable(f"{topic}:{number}: {shown(' '.join(words))}") from None

    def act(self, number, words, below):
        """Plays one line."""
        kind = words[0]
        if below and kind not in WITH_TEXT:
            raise ValueError(kind)
        if kind in ("case", "failing"):
            self.begin(words)
        elif kind in PIECES:
            self.pieces[words[1]] = piece(self.pieces, words, below)
        elif kind == "put":
            (self.folder / words[1]).write_bytes(edited(self.pieces[words[2]], words[3:]))
        elif kind == "long":
            with open(self.folder / words[1], "wb") as file:
                file.truncate(int(words[2]))
        elif kind == "run":
            self.run(number, words[1], words[2:], below.encode())
        elif kind == "prints":
            self.run(number, "done", words[2:], self.pieces[words[1]])
        elif kind == "unprinted":
            self.run(number, "fault", words[1:], None)
        elif kind not in ("#", "") and not self.is_so(words):
            self.results[-1]["faults"].append(f"line {number}: not so: {' '.join(words)}")

    def begin(self, words):
        """Begins a case, without files."""
        for path in self.folder.iterdir():
            shutil.rmtree(path) if path.is_dir() else path.unlink()
        self.calls, self.fails = 0, int(words[1]) if words[0] == "failing" else None
        if words[0] == "case":
            self.case = " ".join(words[1:])

    def failing_file(self, words):
        """The file on which this command's call has to fail, and whether it is written."""
        if self.fails is None:
            return None
        reads, writes = CALLS[words[0]](words)
        files = [*((name, False) for name in reads), *((name, True) for name in writes)]
        at = self.fails - self.calls
        is_here = 0 <= at < len(files)
        self.calls += at + 1 if is_here else len(files)
        return files[at] if is_here else None

    def run(self, number, status, words, printed):
        """Runs a command; nothing may be printed where `printed` is None, as the output is full."""
        words = ["" if word == "''" else word.replace("_", " ") for word in words]
        path, aside, failing = None, self.folder / ".aside", self.failing_file(words)
        if failing:
            path = self.folder / failing[0]
            if path.exists():
                path.rename(aside)
            if failing[1] or self.way == "folder":
                path.mkdir()
        got, out, errors = self.start(words, self.folder, printed is None)
        if path and path.is_dir():
            path.rmdir()
        if aside.exists():
            aside.rename(path)

        word = STATUSES[got] if got in range(6) else f"no end or a signal ({got})"
        faults = [] if word == status else [f"status {word} instead of {status}"]
        if out != (printed or b""):
            faults.append(f"printed {out[:200]!r} instead of {(printed or b'')[:200]!r}")
        if errors:
            faults.append(f"on standard error {errors[:80]!r}")
        line = out.decode(errors="replace").split("\n")[0]
        made = {"topic": self.topic, "case": self.case, "line": number, "words": words}
        self.results.append({**made, "status": word, "printed": line, "faults": faults})

    def is_so(self, words):
        """Whether a file is as a line says."""
        path = self.folder / words[1]
        data = path.read_bytes() if path.is_file() else None
        if words[0] == "none":
            return data is None
        if words[0] == "holds":
            return data == edited(self.pieces[words[2]], words[3:])
        if words[0] == "begins":
            return data is not None and data.startswith(self.pieces[words[2]])
        if words[0] == "length":
            return data is not None and len(data) == int(words[2])
        raise ValueError(words[0])


def starter(program):
    """Runs a program: its status, output and errors."""

    def start(words, folder, is_full):
        with open("/dev/full" if is_full else os.devnull, "wb") as sink:
            settings = {"stdout": sink if is_full else subprocess.PIPE, "stderr": subprocess.PIPE}
            settings |= {"cwd": folder, "stdin": subprocess.DEVNULL, "timeout": SECONDS}
            try:
                done = subprocess.run([program, *words], **settings)
            except subprocess.TimeoutExpired:
                return None, b"", b""
            except OSError as e:
                raise Unusable(f"{shown(program)}: {e.strerror}") from None
        return done.returncode, done.stdout or b"", done.stderr

    return start


def played_topic(given):
    """Plays one topic after the samples: the result of each command."""
    topic, text, samples, start, way = given
    with tempfile.TemporaryDirectory() as folder:
        stage = Stage(pathlib.Path(folder), start, way)
        stage.play("samples", samples)
        stage.play(topic, text)
    return stage.results


def played(found, samples, start, way):
    """Plays these texts, several at once."""
    jobs = [(topic, text, samples, start, way) for topic, text in found.items()]
    results = []
    with concurrent.futures.ThreadPoolExecutor(os.cpu_count()) as pool:
        for at, done in enumerate(pool.map(played_topic, jobs), 1):
            progress.says(f"cases: {at} of {len(jobs)} topics")
            results += done
    return results


def all_played(start):
    """Plays all texts; those with calls that fail once more, with the other way of failing."""
    found, samples = all_texts()
    results = played(found, samples, start, WAYS[0])
    again = {topic: text for topic, text in found.items() if "\nfailing " in text}
    for result in played(again, samples, start, WAYS[1]):
        if result["faults"]:
            results.append({**result, "case": f"{result['case']} (a folder instead of the file)"})
    return results


def wrong_lines(results):
    """A line for each command that was wrong."""
    for result in results:
        if result["faults"]:
            place = f"{result['topic']}:{result['line']}"
            yield f"{place}: {shown(' '.join(result['words']))}: {'; '.join(result['faults'])}"


# Controls: programs that are wrong on purpose


def accepting(start, words, folder, is_full):
    """Each refusal is an acceptance."""
    status, out, errors = start(words, folder, is_full)
    return (0, b"certified 1 of 2 areas\n", errors) if status == 1 else (status, out, errors)


def refusing(start, words, folder, is_full):
    """Each acceptance is a refusal."""
    status, out, errors = start(words, folder, is_full)
    if out.startswith(b"certified "):
        return 1, b"refused K14 at 80000000 in start 80000000 prio 0 is 0\n", errors
    return status, out, errors


def undercounting(start, words, folder, is_full):
    """N is one less."""
    status, out, errors = start(words, folder, is_full)
    less = re.sub(rb"^certified (\d+)", lambda n: b"certified %d" % max(0, int(n[1]) - 1), out)
    return status, less, errors


def softening(start, words, folder, is_full):
    """A refusal ends with status 0."""
    status, out, errors = start(words, folder, is_full)
    return 0 if status == 1 else status, out, errors


def flipping(start, words, folder, is_full):
    """The last bit of each written file is turned."""
    before = {path: path.read_bytes() for path in folder.iterdir() if path.is_file()}
    ended = start(words, folder, is_full)
    for path in filter(pathlib.Path.is_file, folder.iterdir()):
        data = path.read_bytes()
        if data and before.get(path) != data:
            path.write_bytes(data[:-1] + bytes([data[-1] ^ 1]))
    return ended


CONTROLS = {
    "each refusal is `certified 1 of 2 areas`": accepting,
    "each `certified` is a refusal": refusing,
    "N is one less": undercounting,
    "a refusal ends with status 0": softening,
    "the last bit of each written file is turned": flipping,
}


def controlled(start):
    """How many commands of the texts are wrong, by the wrong program: each has to be found."""
    found, samples = texts()
    counts = {}
    for name, wrong in CONTROLS.items():

        def falsified(words, folder, is_full, wrong=wrong):
            return wrong(start, words, folder, is_full)

        results = played(found, samples, falsified, WAYS[0])
        counts[name] = sum(bool(result["faults"]) for result in results)
    return counts


# Requirements: the lines of docs/errors.md


def requirements():
    """A pattern for each printed line that isn't of a done command, by its name."""
    found = {f"refused K{rule}": rf"refused K{rule} " for rule in meanings.RULES}
    found |= {f"refused boot {number}": rf"refused boot {number}\b" for number in meanings.BOOTS}
    found |= {f"refused {what}": rf"refused {what} " for what in meanings.TASK_REFUSALS}
    kinds = {
        "source": meanings.SOURCES,
        "elf": meanings.EXECUTABLES,
        "plan": meanings.PLANS,
        "cert": meanings.BINARIES,
        "object": meanings.BINARIES,
        "script": meanings.SCRIPTS,
        "layout": meanings.LAYOUTS,
        "link": meanings.LINKING,
        "cells": meanings.CELLS,
        "tasks": meanings.TASKS,
    }
    for kind, table in kinds.items():
        found |= {f"bad {kind} {number}": rf"bad {kind} {number}\b" for number in table}
    found |= {f"dead {cause}": rf"events .* dead {cause} at " for cause in meanings.DEATHS}
    found["bad words"] = r"bad words$"
    return {name: re.compile(pattern) for name, pattern in found.items()}


def shown_by(lines):
    """The places of the cases that show each requirement. `lines` are pairs of a place and the line
    that is printed there."""
    table, patterns = {name: [] for name in requirements()}, requirements()
    for place, line in lines:
        for name, pattern in patterns.items():
            if pattern.match(line):
                table[name].append(place)
    return table


def expected_lines():
    """The place of each command of the texts, and the first line that it has to print."""
    for topic, text in all_texts()[0].items():
        for number, words, below in acts(text):
            if words[0] == "run":
                yield f"{topic}:{number}", below.split("\n")[0]
