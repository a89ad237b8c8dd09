"""Cases of try_hostile.py: files and outputs that fail, limits, little memory, words of no form."""
import contextlib
import os
import resource
import signal
import subprocess
import threading
import time

from hostile.answers import FAULT, answer, fits
from hostile.inputs import CERTS, I1, L1, OUTPUTS, P8, S1, TASKS, TWO, forms, swapped
from tcdlib import formats as readers


@contextlib.contextmanager
def special(bench, make):
    """Something in the folder under `odd` that is no plain file."""
    path = bench.folder / "odd"
    make(path)
    try:
        yield "odd"
    finally:
        if path.is_dir() and not path.is_symlink():
            path.rmdir()
        else:
            path.unlink()


def feed(path, data, wait=0.0):
    """Opens a pipe for writing in a thread, once somebody reads it, writes and closes."""

    def go():
        time.sleep(wait)
        with contextlib.suppress(BrokenPipeError), open(path, "wb", buffering=0) as pipe:
            pipe.write(data)

    thread = threading.Thread(target=go, daemon=True)
    thread.start()
    return thread


def failing_files(bench):
    """Each input of each command as no readable file, alone and beside a broken one."""
    for words, places, files in forms().values():
        bench.only(files)
        for at in places:
            for name in (
                "missing",
                "",
                "nowhere/file",
                "e/file" if "e" in files else f"{words[1]}/file",
                "n" * 300,
                "n/" * 3000,
                "\n",
                "-",
                "--",
                "/proc/self/mem",
            ):
                bench.case("a file that isn't there", swapped(words, at, name), {name: FAULT})
            with special(bench, os.mkdir) as name:
                bench.case("a directory", swapped(words, at, name), {name: FAULT})
                bench.case("a directory", swapped(words, at, "."), {".": FAULT})
            for target in ("odd", "gone", "."):
                with special(bench, lambda path, target=target: os.symlink(target, path)) as name:
                    bench.case("a link to nothing", swapped(words, at, name), {name: FAULT})
            bench.case("an empty file", swapped(words, at, "/dev/null"), {"/dev/null": b""})
            pipes(bench, words, at, files[words[at]])
            for other in places:
                if other != at:
                    bench.put(words[other], b"broken")
                    bench.case("one missing, one broken", swapped(words, at, "missing"))
                    bench.put(words[other], files[words[other]])
        for at in places if words[0] != "check" or not bench.quick else ():
            if words[at] not in CERTS:
                bench.case(
                    "a file without end",
                    swapped(words, at, "/dev/zero"),
                    {"/dev/zero": bytes(readers.FILE_LIMIT + 1)},
                )


def pipes(bench, words, at, data):
    with special(bench, os.mkfifo) as name:
        for text in (data, b"", data[: len(data) // 2]):
            bench.case(
                "a pipe",
                swapped(words, at, name),
                {name: text},
                meanwhile=lambda text=text: feed(bench.folder / name, text),
            )
        wait = 0.3
        bench.case(
            "a pipe that waits",
            swapped(words, at, name),
            {name: data},
            meanwhile=lambda: feed(bench.folder / name, data, wait),
        )


def failing_outputs(bench):
    """Outputs that can't be written or are inputs, and a standard output that is full or closed."""
    for command, place in [
        (command, place) for command, places in OUTPUTS.items() for place in places
    ]:
        words, _, files = forms()[command]
        bench.only(files)
        for name in ("", "nowhere/x", f"{words[1]}/x", "/dev/full", "n" * 300):
            bench.case("an output that fails", swapped(words, place, name), {name: FAULT})
        bench.case("an output that is thrown away", swapped(words, place, "/dev/null"))
        with special(bench, os.mkdir) as name:
            bench.case("an output that fails", swapped(words, place, name), {name: FAULT})
        for name in files:
            bench.only(files)
            bench.case("an output that is an input", swapped(words, place, name))
        bench.only(files)
        for broken in files:
            bench.put(broken, b"\0")
            bench.case("an output that is an input", swapped(words, place, broken))
            bench.put(broken, files[broken])
    for words, places, files in forms().values():
        for broken in (None, *places):
            bench.only(files)
            if broken:
                bench.put(words[broken], b"\0")
            wanted = answer(words, bench.held)
            for how in full_outputs():
                want = (3, "", wanted[2])
                bench.case("a standard output that fails", words, want=want, how=how())
    for how in full_outputs():
        bench.case("a standard output that fails", ["--help"], want=(3, "", {}), how=how())


def full_outputs():
    """Ways to start with a standard output that takes nothing."""

    def broken_pipe():
        reader, writer = os.pipe()
        os.close(reader)
        return {"stdout": writer, "preexec_fn": None}

    return (
        lambda: {"stdout": os.open("/dev/full", os.O_WRONLY)},
        broken_pipe,
        lambda: {"preexec_fn": lambda: os.close(1)},
    )


# Limits


def filled(words, name, data):
    """A file of as many bytes as may be that says the same, or None."""
    limit = readers.FILE_LIMIT
    if name == "e":
        return data.ljust(limit, b"\0")
    if name in "sz" and words[0] in ("asm", "ship"):
        return data + b"#" * (limit - len(data))
    return data.rjust(limit, b" " if name == "p" else b"\n") if name in "pslkt" else None


def limits(bench):
    """Files at, one above and far above their limits, many words, little memory."""
    limit = readers.FILE_LIMIT
    for words, places, files in forms().values():
        bench.only(files)
        for at in places:
            name = words[at]
            if name in CERTS:
                continue
            for size in (limit + 1,) if bench.quick else (limit, limit + 1, 1 << 40):
                sparse(bench, size)
                bench.case(
                    "a file at or above its limit",
                    swapped(words, at, "big"),
                    {"big": bytes(min(size, limit + 1))},
                )
            full = None if bench.quick else filled(words, name, files[name])
            if full:
                (bench.folder / "big").write_bytes(full)
                bench.case(
                    "a file at or above its limit",
                    swapped(words, at, "big"),
                    want=answer(words, files),
                )
                (bench.folder / "big").write_bytes(full + b"\n")
                bench.case(
                    "a file at or above its limit",
                    swapped(words, at, "big"),
                    {"big": bytes(limit + 1)},
                )
            (bench.folder / "big").unlink(missing_ok=True)
    if not bench.quick:
        bench.only(forms()["check"][2])
        for size in (readers.CERT_LIMIT + 1, 1 << 42):
            sparse(bench, size)
            want = (2, "bad cert 0\n", {})
            bench.case("a file at or above its limit", ["check", "e", "p", "big"], want=want)
        (bench.folder / "big").unlink()
    many_words(bench)


def sparse(bench, size):
    with open(bench.folder / "big", "wb") as file:
        file.truncate(size)


def many_words(bench):
    """As many words as a command may have, and more."""
    empty = readers.object_bytes([], [], [])
    bench.only({"l": L1, "o": empty, "p": P8, "e": TWO, "t": TASKS, "s": b""})
    long = (4, 65536) if bench.quick else (4, 100, 65534, 65535, 65536, 70000)
    for command, line in (
        ("link", "bad link 6\n"),
        ("ship", "bad link 6\n"),
        ("tasks", "bad tasks 7\n"),
        ("taskcert", "bad tasks 7\n"),
    ):
        head = {"link": ["link", "l", "x"], "ship": ["ship", "p", "l", "x", "y"]}.get(
            command, [command, "e", "p", "t"]
        )
        for count in (
            long
            if command != "taskcert"
            else (1004, 65536)
            if bench.quick
            else (1004, 65535, 65536)
        ):
            rest = {"link": ["o"], "ship": ["s"], "tasks": ["c"]}.get(command)
            words = (head + (rest * count if rest else [f"c{i}" for i in range(count)]))[
                : max(count, len(head) + 1)
            ]
            good = len(words) <= 65535
            bench.case("many words", words, want=(2, line, {}) if good else (5, "bad words\n", {}))
            if command in ("link", "ship"):
                bench.case(
                    "many words",
                    words[:-1] + ["m"],
                    want=(3, "", {}) if good else (5, "bad words\n", {}),
                )


def little_memory(bench):
    """More and more memory: out of memory without a line, or the answer. Within a megabyte of the
    least with which the program starts, its stack may not be able to grow: then a signal ends
    it."""
    for words, _, files in forms().values():
        bench.only(files)
        if words[0] == "dis":
            bench.only({"e": readers.elf_bytes(0x80000000, [(0x80000000, I1[84:] * 2000)])})
        if words[0] == "asm":
            bench.only({"s": S1 + b".byte 1, 2, 3, 4\n" * 2000})
        wanted, least = answer(words, bench.held), None
        for size in range(1 << 18, 24 << 20, (4 << 20) if bench.quick else (1 << 18)):
            how = {
                "preexec_fn": lambda size=size: resource.setrlimit(resource.RLIMIT_AS, (size, size))
            }
            try:
                first = bench.ended(["--help"], how)
            except (OSError, subprocess.SubprocessError):
                continue
            if first[0] != 5:
                continue
            least = least or size
            none = [(4, b"")] + [(-signal.SIGSEGV, b"")] * (size < least + (1 << 20))
            test = lambda status, text, none=none: (status, text) in none or fits(
                wanted, status, text
            )
            before = dict(bench.held)
            bench.case(
                "little memory",
                words,
                want=(None, test, wanted[2]),
                how=how,
                anything=tuple(wanted[2]),
            )
            bench.only(before)


# Words


def words_of_no_form(bench):
    """Lists of words that are no command, and words that are no text."""
    bench.only({**forms()["check"][2], **forms()["link"][2], "s": S1})
    for words in (
        [], [""], ["--help"], ["--version"], ["-h"], ["help"], ["check"], ["check", "e"], ["check", "e", "p"], ["check", "e", "p", "c", "c"], ["run"], ["run", "e", "p"],
        ["run", "e", "p", "s", ""], ["asm"], ["asm", "s"], ["asm", "s", "x", "x"], ["link"], ["link", "l"], ["link", "l", "x"], ["dis"], ["dis", "e", "e"], ["Check", "e", "p", "c"],
        ["check ", "e", "p", "c"], [" check", "e", "p", "c"], ["check\n", "e", "p", "c"], ["", "check", "e", "p", "c"], ["chec", "e", "p", "c"], ["checks", "e", "p", "c"], ["e", "p", "c"],
        ["check e p c"], ["--", "check", "e", "p", "c"], ["check", "--help"], ["asm", "--", "s", "x"], ["cert"], ["ship", "p", "l", "x", "x", "s"], ["ship", "p", "l", "x", "y"],
        ["cfg"], ["cfg", "e"], ["cfg", "e", "p", "c"], ["report"], ["report", "e", "p"], ["gen"], ["gen", "0"], ["gen", "501"], ["gen", "01"], ["gen", "1", "1"], ["gen", "+1"],
        ["gen", "1 "], ["gen", "0x1"], ["gen", "\u0661"], ["gen", "4294967297"], ["gen", "18446744073709551617"], ["boot", "e", "p", "c"], ["boot", "e", "p", "c", "8000080"],
        ["boot", "e", "p", "c", "800008000"], ["boot", "e", "p", "c", "80000a00"], ["boot", "e", "p", "c", "0x800008"], ["boot", "e", "p", "c", " 8000080"], ["boot", "e", "p", "c", "80000800", "x"],
        ["bootgen", "p", "80000000", "80000800"], ["bootgen", "p", "80000000", "FFFFFF21", "x"], ["bootgen", "p", "80000000", "FFFFFFFF", "x"], ["bootgen", "p", "8000000g", "80000800", "x"],
        ["bootgen", "p", "80000800", "x", "x"], ["cells", "e", "p", "k"], ["cells", "e", "p", "k", "c", "c"], ["cellcert", "e", "p", "k"], ["tasks", "e", "p", "t"], ["tasks"],
        ["taskcert", "e", "p", "t"], ["taskcert", "e", "p", "t", "x", "x"], ["taskcert", "e", "p", "t", "x", "y", "x"], ["taskcert", "e", "p", "t", "", ""], ["\u00e9"], ["\U0001f600" * 1000], ["x" * 100000],
    ):  # fmt: skip
        bench.case("words of no form", words)
    for at in range(4):
        words = [w.encode() for w in ["check", "e", "p", "c"]]
        for bad in (b"\xff", b"\xc3", b"e\x80", b"\xed\xa0\x80", b"\xf8\x88\x80\x80\x80"):
            bench.case("words that are no text", swapped(words, at, bad), want=(3, "", {}))
    for words, places, _ in forms().values():
        for at in range(1, len(words)):
            if at in places or words[0] in OUTPUTS:
                bench.case("empty words", swapped(words, at, ""), {"": FAULT})
        bench.case("empty words", [words[0]] + [""] * (len(words) - 1), {"": FAULT})


PARTS = (words_of_no_form, failing_files, failing_outputs, limits, little_memory)
