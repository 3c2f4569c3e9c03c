#!/usr/bin/env python3
"""Spells the repository's own definitions and lemmas as today's Rattle spells names: words in snake case, a middle dot a dash.

usage: tools/respell_own_names.py [ROOT]        in the repository, once, after port.py

The names are those that a file of specs/ or proofs/ declares. Rust's functions, types, fields and modules keep theirs. Where the new spelling
is the name of a Rust item or module, or stands already in a file that has the old one, it gets `_of` behind it, as the kit's `echo_of`, or
`the_` before it where it ends so.
It writes .antt files, and of .rt and .edit files the lines of clauses; `getD` is `get_or` now.
"""
import collections
import os
import re
import sys

ROOT = sys.argv[1] if len(sys.argv) > 1 else "."
TOKEN = re.compile(r"[^\s(){}.;,@\"«»⌜⌝]+")
DECLARED = re.compile(r"^\s*(?:(?:pub|abbrev|unfoldable|opaque|ruleset)\s+)*([^\s(){}.;,@\"«»]+)(?:\s+\{[^{}\n]*\}|\s+\([^()\n]*\))*\s+:(?=\s|$)")
ITEM = re.compile(r"\b(?:const|static|struct|enum|type|trait|fn|mod)\s+(\w+)")


def files(*endings):
    for folder, dirs, names in os.walk(os.path.join(ROOT, "crates")):
        dirs[:] = sorted(d for d in dirs if d != "out")
        for name in sorted(names):
            if name.endswith(endings):
                yield os.path.join(folder, name)


def segment(text):
    text = text.replace("getD", "get_or").replace("get_d", "get_or")
    if text[:1].isupper():
        return text
    text = re.sub(r"(?<=[a-z0-9])([A-Z])", lambda m: "_" + m[1].lower(), text)
    return re.sub(r"(?<=[a-z0-9])ℤ$", "_ℤ", text)


def respelled(name):
    return "-".join(segment(part) for part in name.replace("·", "-").split("-"))


def main():
    texts = {p: open(p, encoding="utf-8").read() for p in files(".antt", ".rt", ".edit")}
    tokens = {p: set(TOKEN.findall(t)) for p, t in texts.items()}
    declared, items = set(), set()
    for p, t in texts.items():
        if p.endswith(".antt"):
            declared |= {m[1] for line in t.splitlines() if (m := DECLARED.match(line))}
            items.add(os.path.basename(p)[:-5])
        elif p.endswith(".rt"):
            items |= set(ITEM.findall(t))
            items.add(os.path.basename(p)[:-3])
    changes = {n: respelled(n) for n in declared if respelled(n) != n and n not in items}
    met = collections.Counter(changes.values())

    def meets(old, new):
        there = [p for p in texts if old in tokens[p] and new in tokens[p]]
        return new in items or new in declared or met[new] > 1 or there

    kept = {}
    for old, new in sorted(changes.items()):
        if meets(old, new):
            changes[old] = "the_" + new if new.endswith("_of") else new + "_of"
            print(f"of: {old} is {changes[old]}, since {new} is a name already")
            if meets(old, changes[old]):
                kept[old] = new
    for old in kept:
        del changes[old]
    written = 0
    for p, t in texts.items():
        turn = lambda m: changes.get(m[0], m[0])
        if p.endswith(".rt"):
            new = clauses(t, turn)
        else:
            new = TOKEN.sub(turn, t)
        if new != t:
            written += 1
            with open(p, "w", encoding="utf-8") as f:
                f.write(new)
    print(f"{len(changes)} names respelled in {written} files")
    for old in sorted(kept):
        print(f"kept: {old} ({kept[old]})")


def clauses(text, turn):
    """The lines of a .rt file that stand in `ghost use`, `requires`, `ensures` or `ghost` braces."""
    out, depth, inside = [], 0, False
    for line in text.splitlines(keepends=True):
        opens = re.match(r"\s*(?:ghost\b|requires\b|ensures\b|#!?\[tactic)", line) or re.search(r"\b(?:requires|ensures)\b[\w\s*]*\{", line)
        if opens and not inside:
            inside, depth = True, 0
        if inside:
            out.append(TOKEN.sub(turn, line))
            depth += line.count("{") - line.count("}")
            inside = depth > 0
        else:
            out.append(line)
    return "".join(out)


if __name__ == "__main__":
    main()
