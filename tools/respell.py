#!/usr/bin/env python3
"""Respells the names of specs/ and proofs/ in snake case: run once at the top, after the kit's own script has turned the files.

A definition of specs/ is in snake case whole. A lemma keeps a dash between two names of definitions, as in length-append, and has
underscores elsewhere. Types, modules, the names of src/ and what the check makes of the code keep theirs. It prints the names that
would fall together with another in a file, and changes nothing if there is one.
"""
import glob
import os
import re
import sys

WORD = r'[^\s(){}.;,@"«»]+'
DECLARED = re.compile(rf"^ *(?:(?:pub|unfoldable|abbrev|record|data|ruleset) )*({WORD})(?: [({{].*)? :(?: |$)", re.M)
TOKEN = re.compile(rf'(?<![^\s(){{}}.;,@"«»]){WORD}')
# What is not code: strings, comments but for their code spans.
QUIET = re.compile(r'"(?:[^"\\\n]|\\.)*"|(?<![^\s(){}.;,@"«»])--[^\n]*|//[^\n]*')
# Words of the library that the lemmas are about.
LIBRARY = set("length take drop map reverse sum min max get_or set append concat filter".split())
# Definitions whose names would fall together with fields of `Layout`, and what they are called now.
APART = {
    "transitions-at": "transitions_start",
    "entries-at": "entries_start",
    "entries_at": "entries_start",
    "transitions-at-is": "transitions_start_is",
    "entries-at-is": "entries_start_is",
    "states-at": "states_start",
}
# A field of that name, not the definition: behind a dot or before its value.
FIELD = re.compile(r"\s*= ")


def files(kind):
    return sorted(glob.glob(f"crates/*/{kind}/**/*.antt", recursive=True))


def is_answer(path):
    return os.path.basename(path) == "Proof.antt"


def read(path):
    with open(path, encoding="utf-8") as f:
        return f.read()


def declared(paths):
    return {m[1] for p in paths for m in DECLARED.finditer(QUIET.sub("", read(p)))}


def lemma(name, definitions):
    """Joins the parts of a lemma's name: two names by a dash, a plain word by an underscore."""
    parts, runs, i = name.split("-"), [], 0
    while i < len(parts):
        for j in range(len(parts), i, -1):
            run = "_".join(parts[i:j])
            if run in definitions:
                runs.append((run, True))
                break
        else:
            j = i + 1
            runs.append((parts[i], False))
        i = j
    text = runs[0][0]
    for (_, a), (run, b) in zip(runs, runs[1:]):
        text += ("-" if a and b else "_") + run
    return text


def steps():
    """Names that the check makes of the functions and variables of the sources."""
    found = set()
    for p in glob.glob("crates/*/src/**/*.rt", recursive=True):
        code = re.sub(r"//[^\n]*", "", read(p))
        found.update(re.findall(r"\bfn (\w+)", code))
    return {it.replace("_", "-") for it in found}


def main():
    check = "--check" in sys.argv
    specs = declared(files("specs"))
    proofs = declared([p for p in files("proofs") if not is_answer(p)])
    own = declared([p for p in files("proofs") if is_answer(p)])
    definitions = {it.replace("-", "_") for it in specs} | LIBRARY
    table = {it: it.replace("-", "_") for it in specs if "-" in it}
    for it in proofs | own:
        if "-" in it and it not in table:
            table[it] = lemma(it, definitions)
    table.update(APART)
    made = steps()
    bad = False
    out = {}
    shared = proofs | specs

    def turned(path, text):
        answer = is_answer(path)
        # a goal's answer has the goal's name, which the check makes
        goals = set(re.findall(rf"(?m)^({WORD}) : tie\.Need", text)) if answer else set()
        if answer:
            goals |= set(re.findall(rf"(?m)^({WORD})-spec :", text))
        here = DECLARED.findall(QUIET.sub("", text))

        def one(m):
            word, at = m[0], m.start()
            if word not in table or word == table[word]:
                return word
            behind = text[at - 1 : at] == "."
            if word == "entries_at" and (behind or path.endswith(".rt") or FIELD.match(text, at + len(word)) and text[at - 2 : at] in ("; ", "{ ", "  ")):
                return word
            if answer:
                if word in goals or not behind and word not in here and word not in shared:
                    return word
                if behind and (word in made or word not in shared):
                    return word
            return table[word]

        parts, last = [], 0
        for m in QUIET.finditer(text):
            parts.append(TOKEN.sub(one_at(one, text, last), text[last : m.start()]))
            quiet = m[0]
            if not quiet.startswith('"'):
                quiet = re.sub(r"`[^`\n]*`", lambda s: TOKEN.sub(lambda w: table.get(w[0], w[0]), s[0].strip("`")).join("``"), quiet)
            parts.append(quiet)
            last = m.end()
        parts.append(TOKEN.sub(one_at(one, text, last), text[last:]))
        return "".join(parts)

    def one_at(one, text, start):
        class At:
            def __init__(self, m):
                self.m = m

            def __getitem__(self, k):
                return self.m[k]

            def start(self):
                return self.m.start() + start

        return lambda m: one(At(m))

    for p in files("specs") + files("proofs") + sorted(glob.glob("crates/*/src/**/*.rt", recursive=True)):
        text = read(p)
        new = turned(p, text)
        words = set(TOKEN.findall(QUIET.sub("", text)))
        for it in sorted(words & table.keys()):
            to = table[it]
            if to != it and to in words and it in set(TOKEN.findall(QUIET.sub("", text))) and not re.search(rf'(?<![^\s(){{}}.;,@"«»]){re.escape(it)}(?![^\s(){{}}.;,@"«»])', QUIET.sub("", new)):
                print(f"falls together: {p}: {it} and {to}")
                bad = True
            for other in sorted(words & table.keys()):
                if other < it and table[other] == to:
                    print(f"falls together: {p}: {it} and {other}")
                    bad = True
        out[p] = (text, new)
    if bad and "--force" not in sys.argv:
        return 1
    n = 0
    if not check:
        for p, (text, new) in out.items():
            if text != new:
                n += 1
                with open(p, "w", encoding="utf-8") as f:
                    f.write(new)
    # the edits' lines, whose files have the new spelling
    for p in sorted(glob.glob("crates/*/must-fail/*.edit")):
        text = read(p)
        new = re.sub(r"(?m)^(old|new):.*$", lambda m: TOKEN.sub(lambda w: table.get(w[0], w[0]), m[0]), text)
        if new != text and not check:
            n += 1
            with open(p, "w", encoding="utf-8") as f:
                f.write(new)
    print(f"respelled {sum(a != b for a, b in table.items())} names in {n} files")
    return 0


if __name__ == "__main__":
    sys.exit(main())
