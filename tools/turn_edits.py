#!/usr/bin/env python3
"""Turns the must-fail edits of specs/ to today's spelling: (p .new) becomes p.new, f x .g becomes (f x).g, _&&_ becomes ◌&&◌,
and a pair that brings a name into scope is turned on the import line that the file has today.

usage: python3 tools/turn_edits.py          at the top of the checkout, after tools/snake_names.py; writes the edits that fit
       python3 tools/turn_edits.py --list   writes nothing, and lists the edits that don't fit the files as they stand
"""

import glob
import re
import sys

TOKEN = re.compile(r"\s+|\.[A-Za-z_][\w?'′-]*|\w[\w?'′₀-₉-]*|[()\[\]{};,]|∷|\+\+|&&|\|\||[^\s()\[\]{};,\w]+")
WORDS = {"get_d": "get_or", "number-is": "number_is", "pairs-is": "pairs_is", "slot-is": "slot_is"}
OPS = {"=", "→", "∷", "++", "&&", "||", "+", "*", "-", "≡", "≤", "<", "×", "⊎", "∧", ";", ",", ":", "%", "/", "λ", ".", "in", "let"}


def expr(t):
    """The text with projections written tight. Brackets that the text leaves open stay as they are."""
    toks = TOKEN.findall(t)
    assert "".join(toks) == t, (t, toks)
    # match brackets
    pair, stack = {}, []
    for i, k in enumerate(toks):
        if k in "([{" and len(k) == 1:
            stack.append(i)
        elif k in (")", "]", "}"):
            if stack:
                j = stack.pop()
                pair[j] = i

    def group(lo, hi):
        """Text of toks[lo:hi], and whether it is one atom that ends in a projection."""
        out = []  # items: (text, kind) kind: 's' space, 'a' atom, 'o' operator
        i = lo
        while i < hi:
            k = toks[i]
            if k.isspace():
                out.append((k, "s"))
            elif i in pair:
                inner, one = group(i + 1, pair[i])
                if k == "(" and one:
                    out.append((inner, "p"))
                else:
                    out.append((k + inner + toks[pair[i]], "a"))
                i = pair[i]
            elif re.fullmatch(r"\.[A-Za-z_][\w?'′-]*", k) and out and len(out) > 1 and out[-1][1] == "s" and out[-2][1] in "ap":
                # the atoms before, back to an operator
                out.pop()
                j = len(out)
                while j > 0 and out[j - 1][1] in "aps":
                    j -= 1
                while out[j][1] == "s":
                    j += 1
                head = out[j:]
                del out[j:]
                if len([x for x in head if x[1] != "s"]) == 1:
                    out.append((head[0][0] + k, "p"))
                else:
                    out.append(("(" + "".join(x[0] for x in head) + ")" + k, "p"))
            elif k in OPS or k in "([{)]}":
                out.append((k, "o"))
            elif re.match(r"\w", k):
                out.append((WORDS.get(k, k), "a"))
            else:
                out.append((k, "o" if not re.match(r"[ℕ\[]", k) else "a"))
            i += 1
        return "".join(x[0] for x in out), len(out) == 1 and out[0][1] == "p"

    return group(0, len(toks))[0].replace("′", "'")


USE = re.compile(r"^(?:use )?([\w·.]*?)\.?\{?([^{}]*)\}?$")


def names(t):
    return [n.strip() for n in re.sub(r"^.*\{|\}.*$", "", t).split(",") if n.strip()]


def hole(n):
    return re.sub(r"^_(.+)_$", r"◌\1◌", n) if re.match(r"^_[^\w]+_$", n) else n


def is_use(old, text):
    return old.startswith("use ") or bool(re.match(r"^[\w.]*\.?\{", old)) or (re.fullmatch(r"[\w?, }{.-]*", old) and re.search(r"[,}]", old) and "=" not in old and ";" not in old)


def turn_use(old, new, text):
    """The pair on the import line of today's text; None if nothing is to be brought in."""
    if text.count(old) == 1 and not re.search(r"_[^\w\s]+_|·", new):
        return old, new
    o, n = [hole(x) for x in names(old)], [hole(x) for x in names(new)]
    add, rid = [x for x in n if x not in o], [x for x in o if x not in n]
    lines = [l for l in text.split("\n") if re.match(r"\s*use ", l)]
    have = {x: l for l in lines for x in names(l)}
    add = [x for x in add if x not in have]
    if not add and not rid:
        return None
    m = re.match(r"^use Rattle·(\w+)\.specs\.(\w+)\.", old.replace("·specs.specs", ".specs"))
    if m:
        path = f"use Rattle.{m.group(1)}.specs.{m.group(2)}."
    elif old.startswith("use "):
        path = "use Rattle.std.specs.Prelude."
    else:
        keep = [x for x in o if x in have and x in n] or [x for x in o if x in have]
        path = re.match(r"\s*(use .*\.)\{", have[keep[0]]).group(1) if keep else None
    line = [l for l in lines if path and l.startswith(path + "{")]
    if len(line) != 1:
        return False
    l = line[0]
    if path == "use Rattle.std.specs.Prelude.":
        return (path + "{", path + "{" + ", ".join(add) + ",") if add else None
    ns = names(l)
    ms = [x for x in ns if x not in rid] + add
    return l, l[: l.index("{")] + "{" + ", ".join(ms) + "}" + l[l.index("}") + 1 :]


def read(p):
    with open(p, encoding="utf-8") as f:
        return f.read()


def pairs(t):
    out, old = [], None
    for l in t.split("\n"):
        if l.startswith("old:"):
            old = l[4:].removeprefix(" ")
        elif l.startswith("new:"):
            out.append((old, l[4:].removeprefix(" ")))
    return out


def fits(ps, text):
    for o, n in ps:
        if text.count(o) != 1 or o == n:
            return f"{text.count(o)} times: {o}"
        text = text.replace(o, n)
    return None


def main():
    only = "--list" in sys.argv
    left = done = 0
    for p in sorted(glob.glob("crates/*/must-fail/*.edit")):
        t = read(p)
        file = [l[5:].strip() for l in t.split("\n") if l.startswith("file:")][0]
        text = read("/".join(p.split("/")[:2]) + "/" + file)
        ps = pairs(t)
        if only:
            why = fits(ps, text)
            if why:
                left += 1
                print(f"{p} {file}: {why}")
            continue
        if not file.startswith(("specs/", "proofs/")):
            continue
        turned, now, bad = [], text, None
        for o, n in ps:
            if is_use(o, now):
                r = turn_use(o, n, now)
                if r is None:
                    continue
                if r is False:
                    bad = f"import: {o}"
                    break
            else:
                r = expr(o), expr(n)
            turned.append(r)
            if now.count(r[0]) == 1:
                now = now.replace(*r)
        bad = bad or fits(turned, text)
        if bad or not turned:
            left += 1
            print(f"{p} {file}: {bad}")
            continue
        if turned != ps:
            head = [l for l in t.split("\n") if not l.startswith(("old:", "new:"))]
            while head and not head[-1]:
                head.pop()
            body = "\n".join(head) + "\n" + "".join(f"old: {o}\nnew: {n}\n" for o, n in turned)
            with open(p, "w", encoding="utf-8") as f:
                f.write(body)
            done += 1
    print(f"{done} turned, {left} left")


if __name__ == "__main__":
    main()
