"""The cases of try_second.py, as texts, and the errors that it puts into the second checker."""
import second_check


def asked(words, checker=second_check):
    """The status and the line of the second checker for the words of a command of tcd."""
    command, elf, plan, *rest = words
    more = {}
    if command == "boot":
        more["boot"] = rest.pop()
    elif command in ("cells", "tasks"):
        more[command] = rest.pop(0)
    try:
        return checker.judged(elf, plan, rest, **more)
    except OSError:
        return 3, ""
