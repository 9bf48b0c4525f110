#!/usr/bin/env python3
"""Respells this repository's own names in specs/, proofs/ and contracts: usage: python3 tools/spelling.py, once, at the top.

It was run once, right after the kit's port.py, when the repository moved to a newer Rattle; docs/PORT.md says when, and what it
learned later.
A definition, lemma, field or variable that had dashes is spelled in snake case, a type or a predicate in camel case; so is a
name that a file of src/ gives to a definition which it imports.
The few lemmas in KEPT join the names of two functions by a dash, as Rattle's library does.
Comments, strings, names of the library and names that Rattle makes of the source are left alone."""

import collections
import glob
import re
import sys

CRATES = ("policy", "source", "diagram", "bench", "inspect", "speed", "vectors")
KEPT = {"length-stored", "length-stacked", "digit-number", "stored-drop", "stacked-set", "swept-packed"}
NAME = re.compile(r"[A-Za-z_][\w'′₀-₉]*(?:-[\w'′₀-₉]+)*")
CODE = re.compile(r'--[^\n]*|//[^\n]*|b?"(?:\\.|[^"\\])*"')
HEAD = re.compile(r"(?:(?:unfoldable|abbrev|pub|record|data|section)\s+)*(" + NAME.pattern + r")\s+(?:[^:\n]*:\s|[({])")


def parts(text):
    """The text in pieces, with for each whether it is code."""
    at = 0
    for m in CODE.finditer(text):
        yield text[at : m.start()], True
        yield m[0], False
        at = m.end()
    yield text[at:], True


def foreign(text):
    """The names that a file imports from outside this repository's crates."""
    names = set()
    for m in re.finditer(r"use ([^\s{]+?)\.?\{([^}]*)\}", text):
        if not re.match(r"Rattle\.(%s)\." % "|".join(CRATES), m[1]):
            names |= {w for x in m[2].split(",") for w in x.split()}
    return names


def is_answers(path):
    return not re.search(r"/(specs|proofs)/[A-Z]\w*\.antt$", path)


def own_names():
    own = set()
    for path in glob.glob("crates/*/specs/*.antt") + glob.glob("crates/*/proofs/**/*.antt", recursive=True):
        text = open(path, encoding="utf-8").read()
        outside = foreign(text)
        code = "".join(piece for piece, is_code in parts(text) if is_code)
        if is_answers(path):
            # Here most names are Rattle's: only what the file itself declares beside its answers counts.
            for line in code.split("\n"):
                m = HEAD.match(line)
                if m and "goal." not in line and not line.startswith("use"):
                    own.add(m[1])
        else:
            own |= {w for w in NAME.findall(code) if w not in outside}
    for path in glob.glob("crates/*/src/**/*.rt", recursive=True):
        code = "".join(piece for piece, is_code in parts(open(path, encoding="utf-8").read()) if is_code)
        for uses in re.findall(r"ghost use [^{;]*\{([^}]*)\}", code):
            own |= set(re.findall(r" as (" + NAME.pattern + ")", uses))
    goals = set()
    for path in glob.glob("crates/*/proofs/**/*.antt", recursive=True):
        goals |= set(re.findall(r"goal\.(" + NAME.pattern + ")", open(path, encoding="utf-8").read()))
    return {n for n in own if ("-" in n or "′" in n) and n not in goals and n not in KEPT}


def respelled(name):
    name = name.replace("′", "'")
    if name[0].isupper():
        first, *rest = name.split("-")
        return first + "".join(w[0].upper() + w[1:] for w in rest)
    return name.replace("-", "_")


def main():
    own = own_names()
    new = {n: respelled(n) for n in own}
    met = collections.defaultdict(set)
    for n, m in new.items():
        met[m].add(n)
    for m, olds in sorted(met.items()):
        if len(olds) > 1:
            print("fall together:", m, sorted(olds))
    changed = 0
    files = glob.glob("crates/*/specs/*.antt") + glob.glob("crates/*/proofs/**/*.antt", recursive=True) + glob.glob("crates/*/src/**/*.rt", recursive=True)
    for path in sorted(files):
        text = open(path, encoding="utf-8").read()
        outside = foreign(text)

        def turn(m):
            w = m[0]
            if w not in new or w in outside or text_before(m).endswith("goal."):
                return w
            return new[w]

        def text_before(m):
            return m.string[max(0, m.start() - 5) : m.start()]

        was = {w for w in NAME.findall("".join(p for p, c in parts(text) if c))}
        out = "".join(NAME.sub(turn, piece) if is_code else piece for piece, is_code in parts(text))
        for n in sorted(was & own):
            if new[n] in was and n not in outside:
                print("look:", path, n, "meets", new[n])
        if out != text:
            open(path, "w", encoding="utf-8").write(out)
            changed += 1
    print(changed, "files changed,", len(own), "names")
    return 0


if __name__ == "__main__":
    sys.exit(main())
