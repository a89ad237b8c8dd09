"""How the scripts for users read their arguments, and how they end.

A fault is one line. Statuses: 0 done, 1 refused or not reached, 2 a file or a program that can't be
used, 5 wrong arguments.
"""
import argparse
import os
import pathlib
import signal
import sys

from tcdlib import program as tcd
from tcdlib.sources import Unusable, shown


class Refused(Exception):
    """The line of a refusal, which a script prints as its result."""


class WrongArguments(Exception):
    """Why the arguments of a script can't be used."""


class Parser(argparse.ArgumentParser):
    """The arguments of a script. --help prints the script's docstring."""

    def __init__(self, *positional):
        super().__init__(add_help=False, usage=argparse.SUPPRESS, allow_abbrev=False)
        for name in positional:
            self.add_argument(name, metavar=name.upper())

    def error(self, message):
        raise WrongArguments(message)

    def add_names(self, name="names"):
        """LAYOUT SOURCE.., or nothing; `--names` makes them an option."""
        self.add_argument(name, nargs="*", default=[], metavar="LAYOUT SOURCE")

    def parsed(self, words):
        """The arguments by name; options may stand anywhere among them."""
        given = self.parse_intermixed_args(words)
        if len(getattr(given, "names", [])) == 1:
            self.error("LAYOUT needs its SOURCEs after it")
        return given


def demand_apart(outputs, inputs):
    """Raises Unusable if a file that is written is one that is read."""
    real = {os.path.realpath(path) for path in inputs if path}
    for path in outputs:
        if path and os.path.realpath(path) in real:
            raise Unusable(f"{shown(path)}: the output is also an input, which it would replace")


def written(path, text):
    """Writes a text to a file."""
    try:
        pathlib.Path(path).write_text(text, encoding="utf-8", errors="backslashreplace")
    except (OSError, ValueError) as e:
        raise Unusable(f"{shown(path)}: {getattr(e, 'strerror', e)}") from None


def ended(doc, work, fault=tcd.BAD_FILE):
    """Does a script's work on the arguments of the command line, and ends with its status.

    `fault` is the status of what can't be read or written.
    """
    name, words = pathlib.Path(sys.argv[0]).name, sys.argv[1:]
    own = words[: words.index("--")] if "--" in words else words
    sys.stdout.reconfigure(errors="backslashreplace")  # as standard error has it
    try:
        if {"-h", "--help"} & set(own):
            print(doc)
            status = tcd.DONE
        else:
            status = work(words)
        print(end="", flush=True)
    except BrokenPipeError:  # nobody reads on, so nobody sees whether it is a refusal
        os._exit(fault)
    except KeyboardInterrupt:
        status = 128 + signal.SIGINT
    except OSError as e:
        print(f"{shown(e.filename or 'standard output')}: {e.strerror}", file=sys.stderr)
        status = fault
    except Refused as e:
        print(e)
        status = tcd.REFUSED
    except (Unusable, WrongArguments) as e:
        is_wrong = isinstance(e, WrongArguments)
        told = f"{name}: {shown(e)}; see --help" if is_wrong else e
        print(told, file=sys.stderr)
        status = tcd.BAD_WORDS if is_wrong else fault
    sys.exit(status)
