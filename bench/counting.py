"""Machine instructions under callgrind, and the most heap under massif."""
import os
import re
import subprocess
import tempfile

# Without this, long copies are one instruction that callgrind counts once for each byte.
SHORT_COPIES = {"GLIBC_TUNABLES": "glibc.cpu.hwcaps=-ERMS"}


def run(tool, command, environment):
    """Runs a command under a tool of valgrind: what the command printed and the tool wrote."""
    with tempfile.NamedTemporaryFile() as out:
        done = subprocess.run(
            ["valgrind", "-q", f"--tool={tool}", f"--{tool}-out-file={out.name}", *command],
            env={**os.environ, **environment},
            stdout=subprocess.PIPE,
            stderr=subprocess.DEVNULL,
            check=False,
        )
        with open(out.name, encoding="utf-8", errors="replace") as file:
            return done.stdout.decode().strip(), file.read()


def own_costs(text):
    """Each function's own instructions, and of each callee those that its callers passed on."""
    names, own, passed, function, callee = {}, {}, {}, "", ""

    def name_of(field):
        number, _, name = field.partition(" ")
        return names.setdefault(number, name) if name else names[number]

    for line in text.splitlines():
        if line.startswith("fn="):
            function = name_of(line[3:])
        elif line.startswith("cfn="):
            callee = name_of(line[4:])
        elif line.startswith("calls="):
            passed.setdefault(callee, {}).setdefault(function, 0)
        elif re.match(r"^[+*\-\d]", line):
            cost = int(line.split()[1])
            if callee:
                passed[callee][function] += cost
                callee = ""
            else:
                own[function] = own.get(function, 0) + cost
    return own, passed


def short(name):
    return re.sub(r"::<#.*>$", "", name)


def tops(text, count):
    """The functions with the most own instructions; copies and fills are their callers'."""
    own, passed = own_costs(text)
    rows = {}
    for name, cost in own.items():
        kind = next((k for k in ("memcpy", "memset", "memmove") if name.startswith(f"__{k}")), None)
        if kind is None:
            rows[short(name)] = rows.get(short(name), 0) + cost
        else:
            for caller, part in passed.get(name, {}).items():
                row = f"{kind} in {short(caller)}"
                rows[row] = rows.get(row, 0) + part
    total = sum(own.values())
    best = sorted(rows.items(), key=lambda row: -row[1])[:count]
    return [f"{100 * cost / total:5.1f} %  {name}" for name, cost in best]


def instructions(command, top=0, short_copies=False):
    """The instructions, what the command printed, and the functions that took most, with shares."""
    printed, text = run("callgrind", command, SHORT_COPIES if short_copies else {})
    total = int(re.search(r"^(?:summary|totals): (\d+)", text, re.M).group(1))
    return total, printed, tops(text, top) if top else []


def heap(command):
    """The most bytes of heap at any time."""
    _, text = run("massif", command, {})
    return max(int(n) for n in re.findall(r"^mem_heap_B=(\d+)", text, re.M))
