#!/usr/bin/env python3
"""Brings the repository's own definitions and lemmas to the spelling of today's Rattle: words in snake case.

usage: python3 tools/respell.py          the files of crates/ (specs, proofs, clauses and must-fail edits), in place
       python3 tools/respell.py --list   what would be renamed, and what would fall together
       python3 tools/respell.py FILE..   these files, by the names that crates/ declares now and the table tools/respelled.tsv

A name is one that an .antt file declares. A dash joins two names, so each part is turned by itself. Types, modules and what stands between quotes in a .rt file stay.
Run once, right after port.py; the table keeps what was turned, for the papers.
"""
import os
import re
import sys

HERE = os.path.dirname(os.path.abspath(__file__))
ROOT = os.path.dirname(HERE)
TABLE = os.path.join(HERE, "respelled.tsv")
NAME = re.compile(r"(?<![0-9A-Za-z_'])[A-Za-z_λ][A-Za-z0-9_'₀-₉?]*(?:-[A-Za-z0-9_'₀-₉?]+)*")
DECLARED = re.compile(r"^\s*(?:(?:pub|abbrev|unfoldable|opaque|record|data) )*([^\s(){}.,;:\[\]]+)\s*(?:\{[^}]*\}\s*)*(?:\([^)]*\)\s*)*:(?![:=])", re.M)
# A camel-case word, and the two that no rule turns as they should read.
CAMEL = re.compile(r"^[a-z][a-z0-9]*(?:[A-Z][a-z0-9']*)+$")
BY_HAND = {"getD": "get_or"}
# A field of a record, which falls together with no name in scope.
KEPT = {"bytes_left"}


def files(*ends):
    for folder, dirs, names in os.walk(os.path.join(ROOT, "crates")):
        dirs[:] = sorted(d for d in dirs if d != "out")
        for n in sorted(names):
            if n.endswith(ends):
                yield os.path.join(folder, n)


def text(path):
    with open(path, encoding="utf-8") as f:
        return f.read()


def snake(part):
    return BY_HAND.get(part) or re.sub(r"(?<=[a-z0-9])([A-Z])", lambda m: "_" + m[1].lower(), part)


def declared():
    found = set()
    for p in files(".antt"):
        found |= set(DECLARED.findall(text(p)))
    return found


def table(names):
    """Each part of a name that is in camel case, and what it turns to."""
    parts = {part for n in names for part in n.split("-") if CAMEL.match(part)}
    return {part: snake(part) for part in sorted(parts)}


def lemmas(names, turn):
    """The declared names in snake case that a turned definition now takes: lemmas, each of which gets `_lem`."""
    return {n for n in names if n in {turned(m, turn) for m in names if turned(m, turn) != m} and n not in KEPT}


def turned(name, turn):
    return "-".join(turn.get(part, part) for part in name.split("-"))


def respelled(t, turn, quoted, taken=()):
    """The text with each name turned; where quoted, what stands in a string stays. A name of `taken` that no dot stands before gets `_lem`."""
    def one(m):
        if m[0].startswith('"'):
            return m[0]
        if m[0] in taken and t[m.start() - 1] != ".":
            return m[0] + "_lem"
        return turned(m[0], turn)
    # A name may be a field or a member of a module: the dots are no part of it.
    pattern = r'"(?:[^"\\\n]|\\.)*"|' + NAME.pattern if quoted else NAME.pattern
    return re.sub(pattern, one, t)


def main(argv):
    if argv and argv[0] != "--list":
        with open(TABLE, encoding="utf-8") as f:
            turn = dict(line.rstrip("\n").split("\t") for line in f if line.strip())
        for p in argv:
            t = text(p)
            new = respelled(t, turn, p.endswith((".rt", ".edit")))
            if new != t:
                with open(p, "w", encoding="utf-8") as f:
                    f.write(new)
        return 0
    names = declared()
    every = set()
    for p in files(".antt", ".rt"):
        every |= set(NAME.findall(re.sub(r'"(?:[^"\\\n]|\\.)*"', "", text(p)) if p.endswith(".rt") else text(p)))
    turn = table(every)
    taken = lemmas(names, turn)
    together = {}
    for n in sorted(every):
        together.setdefault(turned(n, turn), set()).add(n)
    both = {k: v for k, v in together.items() if len(v) > 1}
    if argv:
        for a, b in turn.items():
            print(f"{a}\t{b}")
        for k, v in sorted(both.items()):
            print(f"together: {k}: {', '.join(sorted(v))}" + (" (the lemma gets _lem)" if k in taken else ""))
        return 0
    with open(TABLE, "w", encoding="utf-8") as f:
        f.writelines(f"{a}\t{b}\n" for a, b in turn.items())
    for p in files(".antt", ".rt", ".edit"):
        t = text(p)
        new = respelled(t, turn, not p.endswith(".antt"), taken if p.endswith(".antt") else ())
        if new != t:
            with open(p, "w", encoding="utf-8") as f:
                f.write(new)
    return 0


if __name__ == "__main__":
    raise SystemExit(main(sys.argv[1:]))
