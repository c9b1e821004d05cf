#!/usr/bin/env python3
"""Spells this repository's own definitions and lemmas in snake case: hashStep becomes hash_step, firstNo-yes first_no-yes.

usage: python3 tools/snake_names.py        at the top of the checkout, once, after port.py

A name is turned part by part: a dash joins two names, and a part that begins with a small letter and has a capital later
is turned. Facts, types and modules, which begin with a capital, keep it, also behind a dash; so do single capitals, as in
`same-K`. Turned are .antt files, .rt files, must-fail edits, and in pages the names that some .antt file declares.
Names that fall together in one file stop the script before it writes anything.
"""

import os
import re
import sys

WORD = re.compile(r"[A-Za-z_][A-Za-z0-9_'′₀-₉-]*")
PART = re.compile(r"[a-z][a-z0-9_]*[A-Z][A-Za-z0-9_'′₀-₉]*")
DECLARED = re.compile(r"^\s*(?:pub |abbrev |unfoldable |private )*([A-Za-z_][^\s(){}:]*) :(?!:)")


# Two definitions whose cases have the name that they would get.
APART = {"storeTold": "number_of_store", "readTold": "number_of_read"}


def part(p):
    return re.sub(r"_?([A-Z])", lambda m: "_" + m.group(1).lower(), p) if PART.fullmatch(p) else p


def name(w):
    return APART.get(w) or "-".join(part(p) for p in w.split("-"))


def texts(root, ends):
    for folder, dirs, files in os.walk(root):
        dirs[:] = sorted(d for d in dirs if d not in ("out", "target", ".git"))
        for f in sorted(files):
            if f.endswith(ends):
                yield os.path.join(folder, f)


def read(p):
    with open(p, encoding="utf-8") as f:
        return f.read()


def main():
    antt = {p: read(p) for p in texts("crates", ".antt")}
    declared = set()
    for p, t in antt.items():
        here = {}
        for line in t.splitlines():
            m = DECLARED.match(line)
            if not m:
                continue
            w = m.group(1)
            declared.add(w)
            other = here.setdefault((len(line) - len(line.lstrip()), name(w)), w)
            if other != w:
                sys.exit(f"{p}: {other} and {w} fall together")
    comment = re.compile(r"(--|//)[^\n]*")
    only = lambda t: WORD.sub(lambda m: name(m.group(0)) if m.group(0) in declared else m.group(0), t)

    def turned(p, t):
        if p.endswith((".antt", ".rt")):
            out, at = [], 0
            for m in comment.finditer(t):
                out += [WORD.sub(lambda k: name(k.group(0)), t[at : m.start()]), only(m.group(0))]
                at = m.end()
            return "".join(out) + WORD.sub(lambda k: name(k.group(0)), t[at:])
        if p.endswith(".edit"):
            lines = t.split("\n")
            return "\n".join(WORD.sub(lambda k: name(k.group(0)), l) if re.match(r"(old|new):", l) else only(l) for l in lines)
        return only(t)

    n = 0
    pages = [p for p in list(texts("docs", ".md")) + ["README.md"] if os.path.exists(p)]
    for p in list(texts("crates", (".antt", ".rt", ".edit"))) + pages:
        t = read(p)
        new = turned(p, t)
        if new != t:
            n += 1
            with open(p, "w", encoding="utf-8") as f:
                f.write(new)
    print(f"{n} files turned")


main()
