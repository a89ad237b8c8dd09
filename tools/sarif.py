#!/usr/bin/env python3
"""Runs a command of tcd and prints a refusal as SARIF 2.1.0, for code review and editors.

    sarif.py [LAYOUT SOURCE..] -- tcd cert firmware.elf board.json firmware.cert > tcd.sarif
    sarif.py --elf OTHER.elf -- tcd cert OTHER.elf board.json OTHER.cert > tcd.sarif

The arguments are those of explain.py, which finds the place. tcd names the first fault only, so
there is at most one result. The loop of K14, or the instructions from which an address comes,
is its code flow. Its fingerprint has no addresses and no lines. Paths stay as they are given: run
sarif.py where the review expects them.

Exit status: that of the command, after the text is printed; a job that uploads it has to go on
after status 1. Without a text: 2 a file or a program that can't be used, 5 wrong arguments.
"""
import hashlib
import json
import pathlib
import re
import shlex
import urllib.parse

import explain
from tcdlib import arguments
from tcdlib import program as tcd

SCHEMA = "https://json.schemastore.org/sarif-2.1.0.json"


def text_of(message):
    """A message as SARIF has it: a bracket is no link."""
    return {"text": re.sub(r"[][]", r"\\\g<0>", message)}


def uri(path):
    """A path as a reference: absolute ones are `file:`, others are those of the review."""
    path = pathlib.Path(path)
    return path.as_uri() if path.is_absolute() else urllib.parse.quote(bytes(path))


def location(file, line, function, message=None):
    """A place in a source; only a function, if no source is known."""
    place = {}
    if file:
        place["physicalLocation"] = {"artifactLocation": {"uri": uri(file)}}
        if line:
            place["physicalLocation"]["region"] = {"startLine": int(line)}
    if function:
        place["logicalLocations"] = [{"name": function, "kind": "function"}]
    if message:
        place["message"] = text_of(message)
    return place


def message_of(found):
    """A finding of explain.py in a sentence."""
    where = ", in ".join(text for text in (found["function"], found["frame"]) if text)
    change = f". What people change: {found['change']}" if found["change"] else ""
    return (f"{where}: " if where else "") + found["message"] + change


def fingerprint_of(found):
    """What stays the same of a finding if lines and addresses move."""
    same = " ".join(str(found[key]) for key in ("rule", "function", "frame", "text"))
    same = re.sub(r"\+\d+\b|\b[0-9A-F]{8}\b", "", same)
    return hashlib.sha256(same.encode()).hexdigest()[:32]


def result_of(found, files):
    """A finding of explain.py. Without a source, its place is the first file of the command."""
    file = found["file"] or next(iter(files), None)
    result = {
        "ruleId": found["rule"],
        "level": "error",
        "message": text_of(message_of(found)),
        "locations": [location(file, found["line"], found["function"])],
        "partialFingerprints": {"tcd/1": fingerprint_of(found)},
    }
    if found["notes"]:
        keys = ("file", "line", "function", "message")
        steps = [location(*(note[key] for key in keys)) for note in found["notes"]]
        flow = {"locations": [{"location": step} for step in steps]}
        result["codeFlows"] = [{"threadFlows": [flow]}]
    return result


def rule_of(found):
    """What the text says of the rule of a finding."""
    rule = {"id": found["rule"], "shortDescription": text_of(found["message"])}
    return {**rule, "help": text_of(found["change"])} if found["change"] else rule


def log(command, done, found):
    """The text of one command."""
    files = [word for word in command[2:] if pathlib.Path(word).is_file()]
    run = {
        "tool": {"driver": {"name": "tcd", "rules": [rule_of(found)] if found else []}},
        "invocations": [
            {
                "commandLine": shlex.join(command),
                "exitCode": explain.status_of(done),
                "executionSuccessful": done.returncode in (tcd.DONE, tcd.REFUSED),
            }
        ],
        "results": [result_of(found, files)] if found else [],
        "properties": {"printed": done.stdout.strip()},
    }
    return {"$schema": SCHEMA, "version": "2.1.0", "runs": [run]}


def main(given):
    """Runs the command, prints the text, and gives the exit status."""
    given = explain.parsed(given)
    if not given or given[1]:
        raise arguments.WrongArguments("needed are `--` and a command, as explain.py has them")
    own, _, command = given
    command = [tcd.found(command[0]), *command[1:]]
    done, found, _ = explain.explained(own, command)
    print(json.dumps(log(command, done, found), indent=1))
    return explain.status_of(done)


if __name__ == "__main__":
    arguments.ended(__doc__, main)
