"""Cases of try_hostile.py whose answers are data, worked out by hand."""
import functools
import re

from hostile.answers import answer, driven, fits, read_plan
from hostile.inputs import (
    C0,
    CELLS,
    COUNTS,
    I1,
    L1,
    P0,
    P8,
    S1,
    T1,
    TASKS,
    TWO,
    cells_cert,
    changed,
    first_cert,
    nested,
    task_cert,
    with_boot,
)
from tcdlib import formats as readers


def made_rows(i7, p7):
    """Images, plans, and what `cert` prints of them, worked out by hand from docs/rules.md."""
    code = lambda *parts: readers.elf_bytes(
        0x80000000, [(at, bytes.fromhex(held)) for at, held in parts]
    )
    one = P0.replace(b'"irqs":[]', b'"irqs":[10]').replace(b'"ie":0', b'"ie":1')
    table = "8F3F00F1910000F801FF02F699FF20002D0F00003C00" + "00" * 10 + "300000803200008034000080"
    main = "start 80000000 prio 0 is 0"
    cases = [
        (I1, P0, "certified 1 of 2 areas"), (I1, P0.replace(b'"reserve":2', b'"reserve":4'), f"refused K14 at 80000000 in {main}"),
        (code((0x80000000, "6D0004001D0000005C000090")), P0, "refused K14 at 80000008 in call 80000008 prio 0 is 0"), (i7, p7, "certified 6 of 6 areas"),
        (i7.replace(b"\xe0\x0a", b"\xe0\x05"), p7, "refused K14 at 8000000E in call 8000000E prio 10 is 1"),
        (code((0x80000000, "3C00"), (0x80000540, "82100D0000020D0040020080")), one, "refused K7 at 8000054A in irq 80000540 prio 10 is 1"),
        (code((0x80000000, "3C00"), (0x80000540, "0D00000282100D0040020080")), one, "certified 2 of 2 areas"),
        (code((0x80000000, table + "00000000" + "009000900090")), P0, "refused K3 at 00000000 in call 00000000 prio 0 is 0"),
        (code((0x80000000, table + "30000080" + "009000900090")), P0, "certified 1 of 2 areas"),
        (code((0x80000000, "911000FD59F0FEF83C00")), P0, f"refused K9 at 80000004 in {main}"), (code((0x80000000, "911000FD59F0FCF83C00")), P0, "certified 0 of 2 areas"),
        (code((0x80000000, "AD3080003C00"), (0x800001C0, "EE02FFFF0080")), P0, f"refused K12 at 80000000 in {main}"),
        (code((0x80000000, "AD3080003C00"), (0x800001C0, "EE02FFFF0080")), P0.replace(b'"traps":[]', b'"traps":["sys"]'), "certified 1 of 2 areas"),
    ]  # fmt: skip
    return [
        ("cert", {"e": elf, "p": board}, int(line.startswith("refused")), line + "\n")
        for elf, board, line in cases
    ]


def rows(bench):
    """Cases with their answers as data, apart from the readers."""
    i7, p7 = nested()
    device = b'[{"at":"0xF0000000","len":4,"lo":0,"hi":5}]'
    p_device = P0.replace(b'"devices":[]', b'"devices":' + device)
    c1, deep = first_cert(), b"[" * 100000
    o1, head = readers.Source(S1).read(), changed(I1[:52], 44, 255, 255)
    no_f = readers.Source(S1[: S1.rindex(b"f:")]).read()
    turns = b"step 2\nirq 10\nstep 2\nirq 20\nstep 7\n"
    listing = ".section s0 # 80000000\ncall .+8 # 80000000 6D000400\nj .+0 # 80000004 1D000000\nret16 # 80000008 0090\n"
    tried = [
        ("check", {}, 0, "certified 1 of 2 areas\n"), ("check", {"p": P0.replace(b'"reserve":2', b'"reserve":4')}, 1, "refused K14 at 80000000 in start 80000000 prio 0 is 0\n"),
        ("check", {"c": changed(c1, 15, 2)}, 0, "certified 2 of 2 areas\n"), ("check", {"c": changed(c1, 15, 0)}, 1, "refused K14 at 80000000 in start 80000000 prio 0 is 0\n"),
        ("check", {"c": c1 + b"\0"}, 2, "bad cert 6 at 169\n"), ("check", {"c": c1[:100]}, 2, "bad cert 1 at 100\n"),
        ("check", {"c": changed(c1, 61, 0)}, 2, "bad cert 3 at 61\n"), ("check", {"c": b""}, 2, "bad cert 1 at 0\n"),
        ("check", {"c": bytes.fromhex("5443444301000108")}, 2, "bad cert 5 at 6\n"), ("check", {"c": bytes.fromhex("5443444301000008")}, 2, "bad cert 1 at 8\n"),
        ("check", {"e": I1[:51]}, 2, "bad elf 1\n"), ("check", {"e": I1[:52]}, 2, "bad elf 5 at 0\n"), ("check", {"e": I1[:93]}, 2, "bad elf 5 at 0\n"),
        ("check", {"e": head}, 2, "bad elf 5 at 0\n"), ("dis", {"e": head}, 2, "bad elf 5 at 0\n"), ("check", {"e": b""}, 2, "bad elf 1\n"),
        ("check", {"p": P0.replace(b'"sp":"0xD0009000",', b"")}, 2, "bad plan 2 key sp\n"), ("check", {"p": P0.replace(b"0xD0000000", b"0xD0008000")}, 2, "bad plan 8 at 1 2\n"),
        ("check", {"p": P0.replace(b'"reserve":2', b'"reserve":0')}, 2, "bad plan 6\n"), ("check", {"p": b"[]"}, 2, "bad plan 1\n"), ("check", {"p": b""}, 2, "bad plan 1\n"),
        ("check", {"p": deep}, 2, "bad plan 1\n"), ("run", {"p": deep}, 2, "bad plan 1\n"), ("check", {"p": b'{"rom":' * 100000}, 2, "bad plan 1\n"),
        ("check", {"p": deep + b"]" * 100000}, 2, "bad plan 1\n"), ("check", {"p": b"\xef\xbb\xbf" + P0}, 2, "bad plan 1\n"),
        ("check", {"p": P0 + b"\0"}, 2, "bad plan 1\n"), ("check", {"p": P0.replace(b'"sp"', b'"\xff"')}, 2, "bad plan 1\n"),
        ("check", {"p": P0.replace(b'"biv":"0x80000400"', b'"biv":"0x80000401"')}, 2, "bad plan 7\n"),
        ("run", {"e": i7, "p": p7, "s": turns}, 0, "events 13 peak 6 running\n"), ("run", {"e": i7, "p": p7.replace(b'"areas":8', b'"areas":7'), "s": turns}, 0, "events 6 peak 6 dead fcd at 8000000E\n"),
        ("run", {"e": i7, "p": p7, "s": b"irq 30"}, 2, "bad script 2 at 1\n"), ("run", {"s": b"in 0 0 5"}, 2, "bad script 3 at 1\n"),
        ("run", {"e": i7, "p": p7, "s": b"step 100000\nirq 10"}, 2, "bad script 4 at 2\n"), ("run", {"p": p_device, "s": b"in 0 3 6"}, 2, "bad script 3 at 1\n"),
        ("run", {"p": p_device, "s": b"in 0 3 5\nstep 1"}, 0, "events 1 peak 1 running\n"), ("run", {"s": b"step 4294967297"}, 2, "bad script 1 at 1\n"),
        ("run", {"s": b""}, 0, "events 0 peak 0 running\n"), ("run", {"s": b"step 100000\n"}, 0, "events 100000 peak 1 dead"),
        *made_rows(i7, p7),
        ("asm", {"s": S1}, 0, "object 63 bytes\n"), ("asm", {"s": b"nop"}, 2, "bad source 8 at 0 1\n"), ("asm", {"s": b""}, 0, "object 10 bytes\n"),
        ("asm", {"s": b".section t\nmov d1, \0"}, 2, "bad source 1 at 0 2\n"), ("asm", {"s": b".section \xff\xfe\n"}, 2, "bad source 1 at 0 1\n"),
        ("asm", {"s": b".section t # \0\xff\n"}, 0, "object 16 bytes\n"), ("asm", {"s": b".section t\r\n"}, 2, "bad source 1 at 0 1\n"),
        ("asm", {"s": b".section t\n.byte " + b"1," * 31 + b"1"}, 0, "object 48 bytes\n"), ("asm", {"s": b".section t\n.byte " + b"1," * 32 + b"1"}, 2, "bad source 1 at 0 2\n"),
        ("asm", {"s": b".section t\njz16.d15 .+340282366920938463463374607431768211456"}, 2, "bad source 5 at 0 2\n"),
        ("asm", {"s": b".section t\n.space 16777216"}, 0, "object 16777232 bytes\n"), ("asm", {"s": b".section t\n.space 16777217"}, 2, "bad source 13 at 0 2\n"),
        ("asm", {"s": b".global x\nx:"}, 2, "bad source 8 at 0 2\n"), ("asm", {"s": b".global x\n"}, 2, "bad source 14 at 0 1\n"),
        ("link", {"l": L1, "o": o1}, 0, "image 94 bytes\n"), ("link", {"l": L1, "o": no_f}, 2, "bad link 2 name f\n"),
        ("link", {"l": L1 + L1[11:], "o": o1}, 2, "bad layout 2 at 3\n"), ("link", {"l": b"", "o": o1}, 2, "bad layout 1 at 1\n"),
        ("link", {"l": b"\n", "o": o1}, 2, "bad layout 1 at 2\n"), ("link", {"l": L1, "o": b""}, 2, "bad object 1 at 0 0\n"),
        ("link", {"l": L1, "o": o1 + b"\0"}, 2, "bad object 6 at 0 63\n"), ("link", {"l": L1.replace(b"text", b"te\0t"), "o": o1}, 2, "bad layout 1 at 2\n"),
        ("link", {"l": L1.replace(b"text", b"t\xc3\xa9xt"), "o": o1}, 2, "bad layout 1 at 2\n"), ("link", {"l": L1.replace(b"main", b"f"), "o": o1}, 2, "bad link 6\n"),
        ("link", {"l": L1.replace(b"00010000", b"00000009"), "o": o1}, 2, "bad link 4 name text\n"), ("link", {"l": L1.replace(b"text", b"data"), "o": o1}, 2, "bad link 3 name text\n"),
        ("dis", {}, 0, listing),
    ]  # fmt: skip
    for command, files, status, text in tried:
        files = {"e": I1, "p": P0, "c": c1, "s": T1, **files}
        words = {
            "check": ["check", "e", "p", "c"],
            "run": ["run", "e", "p", "s"],
            "asm": ["asm", "s", "o"],
            "link": ["link", "l", "x", "o"],
            "dis": ["dis", "e"],
            "cert": ["cert", "e", "p", "x"],
        }[command]
        bench.only(
            {
                n: d
                for n, d in files.items()
                if n in words and n != ("o" if command == "asm" else "")
            }
        )
        want = answer(words, bench.held)
        if text.endswith("dead"):
            want = (None, functools.partial(driven, 100000), {})
        elif callable(want[1]) or (want[0], want[1]) == (status, text):
            want = (status, text, want[2])
        else:
            bench.wrong.append(
                (
                    "a row as data",
                    words,
                    {},
                    [f"the reader says {want[:2]}, the row {status} {text!r}"],
                )
            )
        bench.case("a row as data", words, want=want)
    bench.only({"e": I1, "p": P0})
    bench.case(
        "a row as data", ["cert", "e", "p", "x"], want=(0, "certified 1 of 2 areas\n", {"x": c1})
    )
    for n in range(0, 169, 13 if bench.quick else 1):
        bench.put("c", c1[:n])
        status, text = bench.case("a row as data", ["check", "e", "p", "c"])
        at = int(text.split()[-1]) if re.fullmatch(rb"bad cert 1 at \d+\n", text) else n + 1
        if at > n:
            bench.wrong.append(
                (
                    "a row as data",
                    ["check", "e", "p", "c"],
                    {},
                    [f"{n} bytes of the certificate: {text!r}"],
                )
            )


def later_rows(bench):
    """Rows of the commands that stand on `check` and `cert`, with their answers as data."""
    i7, p7 = nested()
    boot = with_boot()
    on = P0.replace(b'"ie":0', b'"ie":1')
    many = b"".join(b"cell D0008%03X 00000000 00000001\n" % (8 * n + 4) for n in range(17))
    sixteen = (
        b'"devices":['
        + b",".join(b'{"at":%d,"len":4,"lo":0,"hi":1}' % (0xF0000000 + 16 * n) for n in range(16))
        + b"]"
    )
    full = P8.replace(b'"devices":[]', sixteen)
    main, start = "start 80000000 prio 0 is 0", "80000000 prio 0 is 0"
    mask = changed(COUNTS, COUNTS.index(bytes.fromhex("8F3F00F1")) + 1, 0x7F)
    small = [
        f"start {start}: 80000000 call 80000008",
        f"start {start}: 80000000 back 80000004",
        f"start {start}: 80000004 to 80000004",
        "call 80000008 prio 0 is 0: 80000008 ret",
    ]
    tried = [
        (["boot", "e", "p", "c", "80000800"], {"e": boot, "p": P0, "c": first_cert()}, 0, "boot 65 events certified 1 of 2 areas\n"),
        (["boot", "e", "p", "c", "80000800"], {"e": boot.replace(b"\x1b", b"\x9b", 1), "p": P0, "c": C0}, 1, "refused boot 4 at 80000804\n"),
        (["boot", "e", "p", "c", "80000800"], {"e": boot, "p": on, "c": first_cert(ie=1)}, 1, "refused boot 1\n"),
        (["boot", "e", "p", "c", "80000801"], {"e": boot, "p": P0, "c": C0}, 1, "refused boot 2\n"),
        (["boot", "e", "p", "c", "80000802"], {"e": boot, "p": P0, "c": C0}, 1, "refused boot 3\n"),
        (["boot", "e", "p", "c", "FFFFFFFE"], {"e": boot, "p": P0, "c": C0}, 1, "refused boot 3\n"),
        (["boot", "e", "p", "c", "80000801"], {"e": boot, "p": P0, "c": changed(C0, 15, 0)}, 1, f"refused K14 at 80000000 in {main}\n"),
        (["boot", "e", "p", "c", "80000800"], {"e": boot, "p": P8, "c": C0}, 1, "refused boot 4 at 80000835\n"),
        (["bootgen", "p", "80000000", "80000800", "x"], {"p": P0}, 0, "boot 56 instructions\n"),
        (["bootgen", "p", "00000001", "FFFFFF20", "x"], {"p": on}, 0, "boot 56 instructions\n"),
        (["bootgen", "p", "00000000", "FFFFFF21", "x"], {"p": P0}, 5, "bad words\n"),
        (["bootgen", "p", "00000000", "00000000", "x"], {"p": b"[]"}, 2, "bad plan 1\n"),
        (["cellcert", "e", "p", "k", "x"], {"e": COUNTS, "p": P0, "k": CELLS}, 0, "certified 0 of 2 areas with 1 cells\n"),
        (["cells", "e", "p", "k", "c"], {"e": COUNTS, "p": P0, "k": CELLS, "c": cells_cert()}, 0, "certified 0 of 2 areas with 1 cells\n"),
        (["cellcert", "e", "p", "k", "x"], {"e": mask, "p": P0, "k": CELLS}, 1, f"refused K16 at 8000000E in {main}\n"),
        (["cellcert", "e", "p", "k", "x"], {"e": COUNTS, "p": P0, "k": b""}, 0, "certified 0 of 2 areas with 0 cells\n"),
        (["cellcert", "e", "p", "k", "x"], {"e": COUNTS, "p": P0, "k": many[:-32]}, 2, "bad cells 4 at 16\n"),
        (["cellcert", "e", "p", "k", "x"], {"e": COUNTS, "p": full, "k": CELLS}, 2, "bad cells 4 at 1\n"),
        *((["cells", "e", "p", "k", "c"], {"e": COUNTS, "p": P0, "k": k, "c": C0}, 2, f"bad cells {line}\n") for k, line in (
            (b"cell 80000000 00000000 00000001", "2 at 1"), (b"cell D0008FFE 00000000 00000001", "1 at 1"), (b"cell D0009000 00000000 00000001", "2 at 1"),
            (CELLS + CELLS, "3 at 2"), (b"\n" + CELLS + b"cell D0008004 00000001 00000000", "1 at 3"), (CELLS.lower(), "1 at 1"), (b"\0", "1 at 1"),
        )),
        (["taskcert", "e", "p", "t", "x", "y"], {"e": TWO, "p": P8, "t": TASKS}, 0, "certified 4 of 6 areas in 2 tasks\n"),
        (["tasks", "e", "p", "t", "c", "d"], {"e": TWO, "p": P8, "t": TASKS, "c": task_cert(0), "d": task_cert(1)}, 0, "certified 4 of 6 areas in 2 tasks\n"),
        (["tasks", "e", "p", "t", "d", "c"], {"e": TWO, "p": P8, "t": TASKS, "c": task_cert(0), "d": task_cert(1)}, 1, f"refused K1 at 80000000 in {main} of task 0\n"),
        (["taskcert", "e", "p", "t", "x", "y"], {"e": TWO, "p": P0, "t": TASKS}, 1, "refused sum 4 of 2 areas\n"),
        (["taskcert", "e", "p", "t", "x", "y"], {"e": TWO.replace(bytes.fromhex("5C103CFF"), bytes.fromhex("E0003C00")), "p": P8, "t": TASKS}, 1, f"refused K17 at 80000000 in {main} of task 0\n"),
        (["taskcert", "e", "p", "t", "x"], {"e": TWO, "p": P8, "t": TASKS}, 2, "bad tasks 7\n"),
        (["taskcert", "e", "p", "t", "x", "y"], {"e": changed(TWO, len(TWO) - 1, 0x81), "p": P8, "t": TASKS}, 1, "refused switch at 80000067\n"),
        (["tasks", "e", "p", "t", "c", "d"], {"e": I1, "p": P8, "t": TASKS, "c": task_cert(0), "d": task_cert(1)}, 1, "refused switch at 80000020\n"),
        (["taskcert", "e", "p", "t", "x", "y"], {"e": TWO, "p": full, "t": TASKS}, 2, "bad tasks 5\n"),
        (["taskcert", "e", "p", "t", "x", "y"], {"e": TWO, "p": P8.replace(b'"is":0', b'"is":1'), "t": TASKS}, 2, "bad tasks 6\n"),
        *((["tasks", "e", "p", "t", "c", "d"], {"e": TWO, "p": P8, "t": t, "c": b"", "d": b""}, 2, f"bad {line}\n") for t, line in (
            (b"", "tasks 1 at 1"), (b"\n\n", "tasks 1 at 1"), (TASKS.replace(b"20 ", b"21 "), "tasks 1 at 1"), (TASKS.replace(b"8100", b"8102"), "tasks 1 at 1"),
            (TASKS[25:], "tasks 1 at 1"), (TASKS + TASKS[25:] * 3, "tasks 2 at 9"), (TASKS + TASKS[25:] * 3 + b"x", "tasks 1 at 10"), (TASKS[:48], "tasks 3"),
            (TASKS.replace(b"D0008100", b"D0008FF8"), "tasks 4"), (TASKS + TASKS[25:], "tasks 7"), (TASKS, "cert 1 at 0"),
        )),
        (["cfg", "e", "p"], {"e": I1, "p": P0}, 0, "".join(f"{line}\n" for line in small)),
        (["cfg", "e", "p"], {"e": I1, "p": P0.replace(b'"reserve":2', b'"reserve":4')}, 1, f"refused K14 at 80000000 in {main}\n"),
        (["cfg", "e", "p"], {"e": i7, "p": p7[:-1]}, 2, "bad plan 1\n"),
        (["report", "e", "p", "c"], {"e": I1, "p": P0, "c": first_cert()}, 0, '{"areas":4,"calls":[{"longest":1,"prio":0}],"certified":1,"nodes":[{"key":"start '
            f'{start}","need":1,"points":2}},{{"key":"call 80000008 prio 0 is 0","need":0,"points":1}}],"reserve":2}}\n'),
        (["report", "e", "p", "c"], {"e": I1, "p": P0, "c": changed(C0, 15, 0)}, 1, f"refused K14 at 80000000 in {main}\n"),
        (["gen", "1"], {}, 0, "functions 1 nodes 35 points 124 certified 49 of 240 areas\n"), (["gen", "500"], {}, 0, "functions 500 nodes 534 points 2120 certified 57 of 240 areas\n"),
        (["ship", "p", "l", "x", "y", "s"], {"p": P0, "l": L1, "s": S1}, 0, "certified 1 of 2 areas\n"),
        (["ship", "p", "l", "x", "y", "s"], {"p": P0.replace(b'"reserve":2', b'"reserve":4'), "l": L1, "s": S1}, 1, f"refused K14 at 80000000 in {main}\n"),
        (["ship", "p", "l", "x", "y", "s", "z"], {"p": P0, "l": L1, "s": S1, "z": b"\nmul"}, 2, "bad source 2 at 1 2\n"),
        (["ship", "p", "l", "x", "y", "z", "s"], {"p": P0, "l": L1, "s": b"x", "z": b"nop"}, 2, "bad source 8 at 0 1\n"),
        (["ship", "p", "l", "x", "y", "s", "s"], {"p": P0, "l": L1, "s": S1}, 2, "bad link 1 name main\n"),
        (["ship", "p", "l", "x", "y", "s"], {"p": P0, "l": L1, "s": S1.replace(b"f: ret16", b"")}, 2, "bad link 2 name f\n"),
        (["ship", "p", "l", "x", "y", "s"], {"p": P0, "l": b"entry main", "s": b""}, 2, "bad link 6\n"),
        (["ship", "p", "l", "x", "y", "s"], {"p": P0 + b"x", "l": b"", "s": b"x"}, 2, "bad plan 1\n"), (["ship", "p", "l", "x", "y", "s"], {"p": P0, "l": b"", "s": b"x"}, 2, "bad layout 1 at 1\n"),
    ]  # fmt: skip
    for words, files, status, text in tried:
        bench.only(files)
        want = answer(words, files)
        if not fits(want, status, text.encode()):
            bench.wrong.append(
                (
                    "a row as data",
                    words,
                    {},
                    [f"the readers say {want[:2]}, the row {status} {text!r}"],
                )
            )
        bench.case("a row as data", words, want=(status, text, want[2] if status == 0 else {}))
    if readers.boot_code(read_plan(P0), 0x80000000)[:16] != bytes.fromhex(
        "7B0000001B000000CDC0E20F0D00C004"
    ):
        bench.wrong.append(
            ("a row as data", ["bootgen"], {}, ["the readers' sequence begins otherwise"])
        )
