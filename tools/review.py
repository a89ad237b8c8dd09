#!/usr/bin/env python3
"""Runs a command of tcd and prints a refusal as a service for code review reads it.

    review.py github [LAYOUT SOURCE..] -- tcd check firmware.elf board.json firmware.cert
    review.py gitlab [LAYOUT SOURCE..] -- tcd check FILES > gl-code-quality-report.json
    review.py junit [LAYOUT SOURCE..] -- tcd check FILES > areas.xml

    github  workflow commands (`::error file=..,line=..::`), for a mark at the line
    gitlab  a Code Quality report (`artifacts: reports: codequality:`)
    junit   a test report of one case, with what the command printed

The arguments after the form are those of explain.py, which finds the place. Texts were tried
against what the services document, not on the services.

Exit status: that of the command, after the text is printed. Without a text: 2 a file or a program
that can't be used, 5 wrong arguments.
"""
import json
import pathlib
from xml.sax.saxutils import escape, quoteattr

import explain
import sarif
from tcdlib import arguments
from tcdlib import program as tcd
from tcdlib.sources import shown


def workflow_command(kind, file, line, message):
    """A line that GitHub reads."""
    part = lambda text: shown(text).replace("%", "%25")
    key = lambda text: part(text).replace(":", "%3A").replace(",", "%2C")
    place = f"file={key(file)}," if file else ""
    place += f"line={line}," if file and line else ""
    return f"::{kind} {place}title=tcd::{part(message)}"


def github(printed, found, text, command):
    """What the command printed, and a mark for the fault and each note."""
    lines = [printed]
    if found:
        lines.append(workflow_command("error", found["file"], found["line"], text))
        notes = [(note["file"], note["line"], note["message"]) for note in found["notes"] or []]
        lines += [workflow_command("notice", *note) for note in notes]
    return "\n".join(lines)


def gitlab(printed, found, text, command):
    """A Code Quality report: a list of issues. Without a source, the place is the first file."""
    if not found:
        return "[]"
    files = [word for word in command[2:] if pathlib.Path(word).is_file()]
    issue = {
        "description": text,
        "check_name": found["rule"],
        "fingerprint": sarif.fingerprint_of(found),
        "severity": "blocker",
        "location": {
            "path": found["file"] or next(iter(files), command[0]),
            "lines": {"begin": int(found["line"] or 1)},
        },
    }
    return json.dumps([issue], indent=1)


def junit(printed, found, text, command):
    """A test report of one case, named by the command."""
    name = quoteattr(shown(" ".join(command[1:])))
    case = f"<system-out>{escape(printed)}</system-out>"
    if found:
        lines = escape("\n".join(explain.lines_of(found)))
        case = f"<failure message={quoteattr(shown(text))}>{lines}</failure>{case}"
    return (
        '<?xml version="1.0" encoding="UTF-8"?>\n'
        f'<testsuite name="tcd" tests="1" failures="{int(bool(found))}">'
        f'<testcase classname="tcd" name={name}>{case}</testcase></testsuite>'
    )


FORMS = {"github": github, "gitlab": gitlab, "junit": junit}


def main(given):
    """Runs the command, prints the text, and gives the exit status."""
    form, given = FORMS.get((given or [""])[0]), explain.parsed(given[1:])
    if not form or not given or given[1]:
        raise arguments.WrongArguments(f"needed are one of {', '.join(FORMS)}, `--` and a command")
    own, _, command = given
    command = [tcd.found(command[0]), *command[1:]]
    done, found, _ = explain.explained(own, command)
    text = sarif.message_of(found) if found else ""
    print(form(shown(done.stdout.strip()), found, text, command))
    return explain.status_of(done)


if __name__ == "__main__":
    arguments.ended(__doc__, main)
