"""A firmware of many functions and interrupts, for tests of what large images take."""
import json
import random

BIV = 0x80100000
LAST = 3


def function(name, callees, chance):
    """A function of a few instructions that calls these."""
    lines = [f"{name}:"]
    for number in range(chance.randrange(3, 8)):
        lines += chance.choice(
            (
                [f"    add d{chance.randrange(8)}, d{chance.randrange(8)}, 3"],
                ["    movh.a a4, hi:vars", "    lea.l a4, [a4]lo:vars", "    ld.w d2, [a4]8"],
                [f"    jeq d2, {number}, {name}_{number}", "    nop", f"{name}_{number}:"],
            )
        )
    return [*lines, *(f"    call {callee}" for callee in callees), "    ret16"]


def firmware(folder, functions, interrupts, seed=1):
    """Writes sources, layout and plan into a folder; gives the sources in linked order.

    Interrupt p calls every fourth function of its own, and each of these the next three in turn.
    """
    chance, prios = random.Random(seed), range(0, 10 * interrupts + 1, 10)
    groups = {prio: [f"f{n}" for n in range(functions)][prio // 10 :: len(prios)] for prio in prios}
    main = [".section text", ".global main", "main:", "    enable", "again:"]
    places = ["entry main", "place text 80000000 000F0000", "place variables D0008000 00000400"]
    for prio, names in groups.items():
        if prio:
            vector = [f"    bisr16 {prio}", f"    call handle_{prio}", "    rslcx", "    rfe16"]
            main += [f".section vector_{prio}", *vector, ".section text", f"handle_{prio}:"]
            places.append(f"place vector_{prio} {BIV | prio << 5:08X} 00000020")
        main += [f"    call {name}" for name in names[:: LAST + 1]]
        main.append("    ret16" if prio else "    j again")
        for number, name in enumerate(names):
            following = names[number + 1 : number + 2] if number % (LAST + 1) != LAST else []
            main += function(name, following, chance)
    main += [".section variables", "vars:"]
    (folder / "main.s").write_text("\n".join(main) + "\n")
    (folder / "board.layout").write_text("\n".join(places) + "\n")
    (folder / "board.json").write_text(json.dumps(plan([*prios][1:])))
    return ["main.s"]


def plan(prios):
    """A plan with these interrupts."""
    return {
        "rom": [{"at": "0x80000000", "len": "0x200000"}],
        "ram": [{"at": "0xD0008000", "len": "0x1000"}],
        "devices": [],
        "csa": {"at": "0xD0020000", "areas": 512, "reserve": 4},
        "sp": "0xD0009000",
        "isp": "0xD0008800",
        "biv": f"0x{BIV:X}",
        "btv": "0x80110000",
        "irqs": prios,
        "traps": [],
        "start": {"ie": 0, "ccpn": 0, "is": 0},
        "globals": {"a0": 0, "a1": 0, "a8": 0, "a9": 0},
    }
