"""Counts what point 5 of docs/DESIGN-PASS.md speaks of, in the contracts of crates/*/src: the facts that stand in the contracts of three or
more functions, and the pairs of parameters that eight or more functions take together. With a word, also lists them."""

import collections
import glob
import re
import sys

FUNCTION = re.compile(r"^(?:pub(?:\(crate\))? )?fn (\w+)(.*?)^\{", re.M | re.S)
CLAUSE = re.compile(r"(?:requires|ensures)\s*\w*\s*\{(.*?)\}\s*(?=requires|ensures|$)", re.S)
PARAMETER = re.compile(r"(\w+): [^,()]+")


def bare(fact):
    """The fact without parentheses round all of it."""
    fact = fact.strip()
    while fact.startswith("(") and fact.endswith(")"):
        depth = 0
        for place, letter in enumerate(fact):
            depth += (letter == "(") - (letter == ")")
            if depth == 0 and place < len(fact) - 1:
                return fact
        fact = fact[1:-1].strip()
    return fact


def facts(clause):
    """The parts of a clause that × joins outside parentheses."""
    text, depth, part = " ".join(clause.split()), 0, ""
    for letter in bare(text):
        depth += (letter in "(⟨{") - (letter in ")⟩}")
        if letter == "×" and depth == 0:
            yield bare(part)
            part = ""
        else:
            part += letter
    yield bare(part)


def counted():
    said, taken = collections.defaultdict(set), collections.defaultdict(set)
    for path in sorted(glob.glob("crates/*/src/**/*.rt", recursive=True)):
        text = open(path, encoding="utf-8").read()
        for found in FUNCTION.finditer(text):
            name, signature = path.split("/")[1] + "::" + found[1], found[2]
            for clause in CLAUSE.findall(signature):
                for fact in facts(clause):
                    said[fact].add(name)
            names = PARAMETER.findall(re.split(r"->|requires|ensures", signature)[0])
            for i, first in enumerate(names):
                for second in names[i + 1:]:
                    taken[first, second].add(name)
    return ({f: n for f, n in said.items() if len(n) >= 3 and "result" not in f},
            {p: n for p, n in taken.items() if len(n) >= 8})


said, taken = counted()
print(len(said), len(taken))
if len(sys.argv) > 1:
    for what, names in sorted({**said, **taken}.items(), key=lambda x: -len(x[1])):
        print(len(names), what)
