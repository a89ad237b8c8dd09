"""Runs commands of tcd for the scripts that read what it prints."""
import os
import pathlib
import shutil
import subprocess
import sys

from tcdlib import meanings
from tcdlib import progress
from tcdlib.sources import Unusable, shown

DONE, REFUSED, BAD_FILE, NO_FILE, NO_MEMORY, BAD_WORDS = range(6)


def found(name, more="README.md says how tcd is built"):
    """The path of a program."""
    path = shutil.which(name)
    if not path:
        raise Unusable(f"{shown(name)}: no such program; {more}")
    return path


def of_words(words, doc, most=None):
    """The absolute path of the program that the first word names; ends the script if there is none.

    For scripts whose first word is the program: `doc` is what --help prints, and `most` is how many
    words there may be.
    """
    if not words or words[0].startswith("-") or len(words) > (most or len(words)):
        print(doc)
        sys.exit(0 if words and words[0] in ("--help", "-h") else BAD_WORDS)
    try:
        return str(pathlib.Path(found(words[0])).resolve())
    except Unusable as e:
        print(e, file=sys.stderr)
        sys.exit(BAD_FILE)


def run(program, *words, folder=None):
    """Runs a command, in a folder, to its end: its status, standard output and standard error."""
    settings = {"capture_output": True, "text": True, "errors": "replace", "cwd": folder}
    words = [*map(str, words)]
    try:
        with progress.of(" ".join(["tcd", *words])):
            return subprocess.run([program, *words], **settings)
    except OSError as e:
        raise Unusable(f"{shown(program)}: {e.strerror}") from None
    except ValueError:  # a word with a zero byte
        raise Unusable(f"{shown(' '.join(words))}: not words of a command") from None


def words_in(command, role):
    """The words of a command, which begins with its name, in a role such as PLAN or SOURCE."""
    for place, word in enumerate(meanings.COMMANDS.get("".join(command[:1]), "").split(" ")):
        if word == role:
            return command[1 + place : 2 + place]
        if word == f"{role}..":
            return command[1 + place :]
    return []


def lacking(command):
    """What is wrong with the files that a command names, as far as their names say it."""
    found = {"a folder": [], "in a folder that isn't there": [], "not there": []}
    for role in meanings.READ:
        is_written = role in meanings.WRITTEN.get("".join(command[:1]), ())
        for word in map(str, words_in(command, role)):
            if os.path.isdir(word):
                found["a folder"].append(word)
            elif not os.path.isdir(os.path.dirname(word) or "."):
                found["in a folder that isn't there"].append(word)
            elif not is_written and not os.path.exists(word):
                found["not there"].append(word)
    return "; ".join(f"{fault}: {', '.join(words)}" for fault, words in found.items() if words)


def why(done, words):
    """Why a command printed nothing that can be used."""
    if told := done.stdout.strip() or done.stderr.strip():
        return shown(told.splitlines()[0])
    told = lacking(words) if done.returncode == NO_FILE else ""
    return shown(told) or f"status {done.returncode}"


def printed(program, *words):
    """What a command prints, and whether it refused; raises Unusable if it did neither."""
    done = run(program, *words)
    is_refused = done.returncode == REFUSED
    if done.returncode not in (DONE, REFUSED) or is_refused != done.stdout.startswith("refused "):
        raise Unusable(f"{shown(' '.join(words))}: {why(done, words)}")
    return done.stdout, is_refused
