#!/usr/bin/env python3
"""Places of the older language in crates/*/src, by the points of docs/DESIGN-PASS.md.

    tools/places.py [FOLDER]     counts, a line to each kind of place
    tools/places.py -l [FOLDER]  the places themselves as well
"""
import difflib
import itertools
import pathlib
import re
import sys

LIST = "-l" in sys.argv
ROOT = pathlib.Path(next((a for a in sys.argv[1:] if a != "-l"), "."))
FUNCTION = re.compile(r"^( *)(?:#\[.*\]\n *)?(?:pub )?(?:extern \"C\" )?fn ([a-z_0-9]+)", re.M)
CLAUSE = re.compile(r"\b(requires|ensures)\b(?: [a-z_]+)? \{")


def braced(text, at):
    """The text from the brace at `at` to its partner, without both."""
    depth = 0
    for i in range(at, len(text)):
        depth += {"{": 1, "}": -1}.get(text[i], 0)
        if depth == 0:
            return text[at + 1:i], i + 1
    return text[at + 1:], len(text)


def functions():
    """Name, parameters, requires and body of each function."""
    for path in sorted(ROOT.glob("crates/*/src/*.rt")):
        text = re.sub(r"^\s*//.*\n", "", path.read_text(), flags=re.M)
        for m in FUNCTION.finditer(text):
            start = text.index("(", m.end())
            depth, end = 0, start
            while True:
                depth += {"(": 1, ")": -1}.get(text[end], 0)
                end += 1
                if depth == 0:
                    break
            head = re.sub(r"\s+", " ", text[start + 1:end - 1]).strip(" ,")
            at, requires = end, []
            while True:
                brace = text.index("{", at)
                clause = CLAUSE.search(text, at, brace + 1)
                inner, after = braced(text, brace)
                if clause is None:
                    break
                if clause.group(1) == "requires":
                    requires.append(re.sub(r"\s+", " ", inner).strip())
                at = after
            result = text[end:text.index("{", end)]
            crate = path.relative_to(ROOT / "crates").parts[0]
            yield f"{crate}::{m.group(2)}", head, result, requires, inner


def parts(clause):
    """What a clause says, one fact after the other."""
    depth, now = 0, ""
    for c in clause:
        depth += {"(": 1, ")": -1}.get(c, 0)
        if c == "×" and depth == 0:
            yield now.strip()
            now = ""
        else:
            now += c
    yield now.strip()


def groups(places, least):
    """Keys that at least so many functions share."""
    found = {}
    for name, keys in places:
        for key in set(keys):
            found.setdefault(key, []).append(name)
    return {k: v for k, v in found.items() if len(v) >= least}


def travelling(all_functions):
    """Groups of three parameters or more that stand together in three functions or more, each with all that they share."""
    heads = {n: frozenset(parameters(h)) for n, h, _, _, _ in all_functions}
    shared = {a & b for a, b in itertools.combinations(heads.values(), 2) if len(a & b) >= 3}
    for group in shared:
        users = [n for n, h in heads.items() if group <= h]
        if len(users) >= 3 and frozenset.intersection(*(heads[n] for n in users)) == group:
            yield f"{', '.join(sorted(group))}: {len(users)}"


def parameters(head):
    return [p.strip() for p in re.split(r",(?![^<(]*[>)])", head) if ":" in p]


def shape(body):
    """A body with other names for all its names, literals and constants."""
    words = re.findall(r"[A-Za-z_][\w:]*|\d[\w_]*|\S", body)
    keep = {"for", "in", "while", "if", "else", "let", "mut", "return", "match", "as"}
    return [w if w in keep or not re.match(r"\w", w) else "x" for w in words]


def twins(all_functions):
    bodies = [(n, shape(b)) for n, _, _, _, b in all_functions]
    bodies = [(n, s) for n, s in bodies if len(s) >= 30]
    for (n, s), (m, t) in itertools.combinations(bodies, 2):
        if abs(len(s) - len(t)) * 10 <= max(len(s), len(t)):
            if difflib.SequenceMatcher(None, s, t, autojunk=False).ratio() >= 0.95:
                yield f"{n} ~ {m}"


def main():
    all_functions = list(functions())
    source = "\n".join(p.read_text() for p in sorted(ROOT.glob("crates/*/src/*.rt")))

    def lines(pattern):
        return [m.group(0).strip() for m in re.finditer(pattern, source, re.M)]

    def bodies(pattern):
        return [n for n, _, _, _, b in all_functions if re.search(pattern, b)]

    def heads(pattern):
        return [n for n, h, _, _, _ in all_functions if re.search(pattern, h)]

    facts = groups(((n, [f for r in q for f in parts(r)]) for n, _, _, q, _ in all_functions), 3)
    kinds = [
        ("1 enums of the repository's own", lines(r"^(?:pub )?enum .*$")),
        ("1 refusals as numbers: functions", [n for n, _, r, _, _ in all_functions
                                              if re.search(r"-> u8", r)]),
        ("1 refusals as numbers: literals", lines(r"[Rr]efused?\w*\(\d+.*$|refuse_unless\(\d+.*$|return \d+;$")),
        ("1 numbers for kinds: parameters", [n for n in heads(r"\bwhich: usize|\bwidth: usize")
                                          if n.split("::")[0] in ("form", "links", "items", "table", "widen")]),
        ("2 pairs of like bodies", list(twins(all_functions))),
        ("3 loops over an index or a count", bodies(r"\b(\w+) [+-]= 1;")),
        ("3 walks over a set, word by word", bodies(r"while left != 0")),
        ("4 numbers put together or apart by hand", bodies(r"256 \*|% 256|/ 256")),
        ("4 less and greater by hand", lines(r"^\s*if (\w+) < (\w+) \{ (?:\1|\2) \} else \{ (?:\1|\2) \}")),
        ("5 facts in three contracts or more", [f"{k}: {len(v)}" for k, v in facts.items()]),
        ("5 three parameters in three functions or more", list(travelling(all_functions))),
        ("6 a buffer and a place in it", heads(r"buf: &mut \[u8\], at: usize")),
        ("6 lists searched by hand", bodies(r"while low < high")),
        ("7 function pointers, dyn", lines(r"\bdyn \w+|: fn\(")),
    ]
    for name, places in kinds:
        print(f"{len(places):5}  {name}")
        if LIST:
            for place in places:
                print(f"           {place}")


main()
