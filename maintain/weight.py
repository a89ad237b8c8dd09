#!/usr/bin/env python3
"""What the code weighs: functions, lines and private helpers with one caller, by crate.

    weight.py [TOP]                    a table of all crates; TOP is the top of the repository (.)
    weight.py [TOP] --crate NAME       the crate's private helpers with exactly one caller and one
                                       call, as chains, with what their folding saves
    weight.py [TOP] --fold LINES       how much would go if each of them without a loop went into
                                       its caller, up to bodies of LINES lines (20)
    weight.py [TOP] --small LINES      files below LINES lines of code (40)

Lines are non-blank lines without comments. Tests (tcd_tests, tcd_tool_tests) are left out. The call
graph is by names, types and imports, so a call of a method with a common name is guessed: look
before you fold.
"""
import collections
import os
import pathlib
import re
import sys

sys.path.insert(0, str(pathlib.Path(__file__).resolve().parent.parent / "tools"))

from tcdlib import arguments

TOKEN = re.compile(
    r"""(?P<ws>\s+)|(?P<com>//[^\n]*)|(?P<raw>r#*".*?"#*)|(?P<str>b?"(?:\\.|[^"\\])*")|(?P<chr>b?'(?:\\.[^']*|[^'\\])')|"""
    r"""(?P<life>'[A-Za-z_]\w*)|(?P<id>[A-Za-z_]\w*)|(?P<num>\d[\w.]*)|(?P<op>.)""",
    re.S,
)
TESTS = ("tcd_tests", "tcd_tool_tests")


def tokens(text):
    out, line = [], 1
    for m in TOKEN.finditer(text):
        if m.lastgroup not in ("ws", "com"):
            out.append((m.group(), line, m.start(), m.end(), m.lastgroup))
        line += m.group().count("\n")
    return out


def close(ts, i, opening, closing):
    depth = 0
    while i < len(ts):
        depth += (ts[i][0] == opening) - (ts[i][0] == closing)
        if ts[i][0] == closing and depth == 0:
            return i
        i += 1
    return i - 1


def lines(text):
    return sum(1 for it in text.split("\n") if it.strip() and not it.strip().startswith("//"))


class Function:
    pass


def functions_of(path, crate):
    text = open(path, encoding="utf-8").read()
    ts, out, stack, pending, i = tokens(text), [], [], None, 0
    while i < len(ts):
        word = ts[i][0]
        if word in ("impl", "trait") and (
            i == 0 or ts[i - 1][0] in ("}", ";", "]", "pub", ")", "{")
        ):
            j = i + 1
            while j < len(ts) and ts[j][0] not in ("{", ";"):
                j += 1
            head = " ".join(t[0] for t in ts[i + 1 : j]).split(" where ")[0]
            of = head.split(" for ")[-1]
            of = re.sub(r"^<.*?> ", "", of) if of.startswith("<") else of
            names = re.findall(r"[A-Za-z_]\w*", re.sub(r"' ?\w+", "", of))
            pending, i = (names[0] if names else of, " for " in head or word == "trait"), j
            continue
        if word == "{":
            stack.append(pending)
            pending, i = None, i + 1
            continue
        if word == "}":
            if stack:
                stack.pop()
            i += 1
            continue
        if word == "ghost":
            i += 1
            while i < len(ts) and ts[i][0] not in (";", ","):
                i = close(ts, i, "{", "}") + 1 if ts[i][0] == "{" else i + 1
            i += 1
            continue
        if word == "fn" and i + 2 < len(ts) and ts[i + 1][4] == "id" and ts[i + 2][0] in ("(", "<"):
            f = Function()
            f.crate, f.path, f.name, f.line, f.text = crate, path, ts[i + 1][0], ts[i][1], text
            holder = next((it for it in reversed(stack) if it), (None, False))
            f.type, f.trait = holder
            j = i - 1
            while j >= 0 and ts[j][0] in ("pub", "(", ")", "crate", "const", "unsafe", "super"):
                j -= 1
            before = [t[0] for t in ts[j + 1 : i]]
            f.public = "pub" in before and "crate" not in before and "super" not in before
            f.attributes = 0
            f.never = False
            while j >= 0 and ts[j][0] == "]":
                depth, q = 0, j
                while q >= 0:
                    depth += (ts[q][0] == "]") - (ts[q][0] == "[")
                    if depth == 0:
                        break
                    q -= 1
                f.never = f.never or "never" in text[ts[q][2] : ts[j][3]]
                f.attributes += 1
                j = q - 2
            p = i + 2
            if ts[p][0] == "<":
                depth = 0
                while True:
                    depth += (ts[p][0] == "<") - (ts[p][0] == ">" and ts[p - 1][0] != "-")
                    if depth == 0:
                        break
                    p += 1
                p += 1
            r = close(ts, p, "(", ")") + 1
            while r < len(ts) and ts[r][0] not in ("requires", "ensures", "decreases", "{", ";"):
                r = close(ts, r, "[", "]") + 1 if ts[r][0] == "[" else r + 1
            f.signature = lines(text[ts[i][2] : ts[r - 1][3]])
            begin = end = ts[r - 1][3]
            while r < len(ts) and ts[r][0] in ("requires", "ensures", "decreases"):
                r += 1
                r += ts[r][0] == "*"
                r += ts[r][4] == "id"
                end_at = close(ts, r, "{", "}")
                end, r = ts[end_at][3], end_at + 1
            f.contract = lines(text[begin:end])
            f.words, f.body = [], 0
            if r < len(ts) and ts[r][0] == "{":
                q = close(ts, r, "{", "}")
                f.words = [t[0] for t in ts[r : q + 1]]
                f.body = lines(text[ts[r][2] + 1 : ts[q][2]])
                r = q
            out.append(f)
            i = r + 1
            continue
        i += 1
    return text, out


def read(top):
    found, texts = [], {}
    for crate in sorted(os.listdir(f"{top}/crates")):
        for at, _, names in os.walk(f"{top}/crates/{crate}/src"):
            for name in sorted(names):
                if name.endswith(".rt"):
                    path = f"{at}/{name}"
                    texts[path], more = functions_of(path, crate)
                    found += more
    return texts, found


def callers_of(texts, found):
    free, methods = collections.defaultdict(list), collections.defaultdict(list)
    for f in found:
        (methods if f.type else free)[f.name].append(f)
    callers = collections.defaultdict(set)
    seen = lambda g, f: g.crate == f.crate or g.public or g.trait
    for f in found:
        for i, word in enumerate(f.words):
            if not re.match(r"[A-Za-z_]\w*$", word):
                continue
            after = f.words[i + 1] if i + 1 < len(f.words) else ""
            before = f.words[i - 1] if i else ""
            if before == "." and after in ("(", ":"):
                for g in methods.get(word, []):
                    if seen(g, f):
                        callers[g].add(f)
            elif before == ":" and i > 2 and f.words[i - 2] == ":":
                at = f.words[i - 3]
                for g in methods.get(word, []):
                    if seen(g, f) and (
                        at == ">"
                        or g.type == at
                        or (at == "Self" and g.type == f.type)
                        or g.trait
                        or len(at) == 1
                    ):
                        callers[g].add(f)
                for g in free.get(word, []):
                    if seen(g, f) and (
                        at in (g.crate, "super", "crate", "self") or g.path.endswith(f"/{at}.rt")
                    ):
                        callers[g].add(f)
            elif word in free and before != "." and (after in ("(", ":") or before in ("(", ",")):
                near = [g for g in free[word] if g.path == f.path]
                if not near and re.search(rf"\b{word}\b", texts[f.path]):
                    near = [g for g in free[word] if g.crate == f.crate]
                    used = [
                        it
                        for it in re.findall(r"(?m)^\s*(?:pub )?use\s+([^;]*);", texts[f.path])
                        if re.search(rf"\b{word}\b", it)
                    ]
                    root = re.match(r"\s*(\w+)", used[0]).group(1) if used else "crate"
                    if root not in ("crate", "super", "self"):
                        near = [g for g in free[word] if g.public and g.crate == root] or [
                            g for g in free[word] if g.public and g.crate != f.crate
                        ]
                for g in near:
                    if g is not f:
                        callers[g].add(f)
    return callers


def helpers(found, callers):
    """The private functions with one caller and one call, each with its caller."""
    out = {}
    for f in found:
        if f.crate in TESTS or f.public or f.trait or f.path.endswith("laws.rt"):
            continue
        of = [
            it
            for it in callers[f] - {f}
            if it.crate not in TESTS and "tests" not in os.path.basename(it.path)
        ]
        if len(of) == 1 and of[0].crate == f.crate:
            words = of[0].words
            if (
                sum(
                    1
                    for i, it in enumerate(words[:-1])
                    if it == f.name and words[i + 1] in ("(", ":")
                )
                == 1
            ):
                out[f] = of[0]
    return out


def has_loop(f):
    return any(it in f.words for it in ("for", "while", "loop"))


def overhead(f):
    return f.signature + f.contract + 2 + f.attributes


def fold(found, into, most):
    """Which helpers would go into their callers, from the leaves up."""
    body, gone = {f: f.body for f in found}, []
    depth = {}

    def level(f):
        if f not in depth:
            depth[f] = 0
            depth[f] = 1 + level(into[f]) if f in into else 0
        return depth[f]

    for f in sorted(into, key=lambda it: -level(it)):
        if f.never or has_loop(f):
            continue
        if body[into[f]] + body[f] - 1 <= most:
            body[into[f]] += body[f] - 1
            gone.append(f)
    return gone


def main(given):
    parser = arguments.Parser()
    parser.add_argument("top", nargs="?", default=".")
    parser.add_argument("--crate")
    parser.add_argument("--fold", type=int, default=20)
    parser.add_argument("--small", type=int, nargs="?", const=40)
    words = parser.parsed(given)
    texts, found = read(words.top)
    callers = callers_of(texts, found)
    into = helpers(found, callers)
    if words.small:
        for path, text in sorted(texts.items()):
            n = lines(text)
            if n < words.small and path.split("/crates/")[1].split("/")[0] not in TESTS:
                print(f"{n:4} {path}")
        return
    if words.crate:
        gone = set(fold(found, into, words.fold))
        for f in sorted(
            (it for it in into if it.crate == words.crate), key=lambda it: (it.path, it.line)
        ):
            note = (
                "loop"
                if has_loop(f)
                else "inline(never)"
                if f.never
                else f"saves {overhead(f)}"
                if f in gone
                else "caller would grow too long"
            )
            print(
                f"{os.path.relpath(f.path, words.top)}:{f.line} {f.name} ({f.body} lines) < {into[f].name} ({into[f].body}): {note}"
            )
        return
    print(
        f"{'crate':16}{'functions':>10}{'code':>8}{'bodies':>8}{'contracts':>10}{'?':>6}{'helpers':>9}{'fold at ' + str(words.fold):>12}{'lines':>7}"
    )
    total = collections.Counter()
    gone = fold(found, into, words.fold)
    for crate in sorted({f.crate for f in found} - set(TESTS)):
        own = [f for f in found if f.crate == crate]
        row = collections.Counter(
            functions=len(own),
            code=sum(lines(t) for p, t in texts.items() if f"/crates/{crate}/" in p),
            bodies=sum(f.body for f in own),
            contracts=sum(f.contract for f in own),
            asks=sum(f.words.count("?") for f in own),
            helpers=sum(f.crate == crate for f in into),
            gone=sum(f.crate == crate for f in gone),
            saved=sum(overhead(f) for f in gone if f.crate == crate),
        )
        total += row
        print(
            f"{crate:16}{row['functions']:10}{row['code']:8}{row['bodies']:8}{row['contracts']:10}{row['asks']:6}{row['helpers']:9}{row['gone']:12}{row['saved']:7}"
        )
    print(
        f"{'all':16}{total['functions']:10}{total['code']:8}{total['bodies']:8}{total['contracts']:10}{total['asks']:6}{total['helpers']:9}{total['gone']:12}{total['saved']:7}"
    )


if __name__ == "__main__":
    arguments.ended(__doc__, main)
