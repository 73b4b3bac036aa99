#!/usr/bin/env python3
"""Spells this repository's own definitions and lemmas as its library does: words of a name are joined by `_`, and a dash joins two names.

usage: python3 tools/spell_names.py        at the top of a checkout of the repository, once

It takes each name with a dash that a file of specs/ or proofs/ defines, apart from the goals that answer files name, and writes it with `_`
wherever it stands in specs/, in proofs/ and in the clauses of src/. The names of LEMMAS keep a dash between the two names that they join.
It stops, and writes nothing, where a new spelling is a name already.
"""

import glob
import os
import re
import sys

# lemmas on two functions: the outer call first
LEMMAS = {
    "length-parts", "length-listed", "length-rows", "length-tried", "elem-append", "elem-those", "has-cut", "has-only", "has-those", "nth-map", "nth-every",
    "total-<", "total-≤", "size-<", "card-<", "card-≤", "waiting-<",
}
SPELLED = {"length-cut-to": "length-cut_to", "has-set-of": "has-set_of", "has-facts-box": "has-facts_box"}
# what answer files name is Rattle's, not ours
GOAL = re.compile(r"^(returns|loop|decreases|invariant|measure|bounds|overflow|striking|waking|nonzero|slice_bounds)\b|-(preserved|init|smaller|requires|holds|again)$")
DEFINED = re.compile(r"^\s*(?:pub |abbrev |unfoldable )*([^\s:(){}]+)(?: \{[^}]*\})* : ")
USED = re.compile(r"^(?:ghost )?use (?!Rattle\.(?!std\b))[^{;\n]*\{([^}]*)\}", re.M)


def files(ending):
    return sorted(p for p in glob.glob("crates/*/**/*" + ending, recursive=True) if "/out/" not in p)


def text(path):
    with open(path, encoding="utf-8") as f:
        return f.read()


def names():
    """The names to spell anew, and all names that stand already."""
    old, there = set(), set()
    for p in files(".antt"):
        answers = os.path.basename(p) in ("Answers.antt", "Invariants.antt", "Proof.antt")
        t = text(p)
        for line in t.splitlines():
            m = DEFINED.match(line)
            if not m:
                continue
            name = m.group(1)
            if answers and GOAL.search(name):
                continue
            there.add(name)
            if "-" in name.strip("-") and not re.fullmatch(r"-+", name):
                old.add(name)
        for m in USED.finditer(t):
            there |= {x.strip() for x in m.group(1).split(",")}
    new = {}
    for n in old - LEMMAS:
        new[n] = SPELLED.get(n, n.replace("-", "_"))
    return new, there - old


def main():
    new, there = names()
    clash = sorted(n for n, m in new.items() if m in there)
    if clash:
        print("a name already: " + ", ".join(f"{n} -> {new[n]}" for n in clash), file=sys.stderr)
        return 1
    one = re.compile(r"(?<![\w'\-◌])(" + "|".join(re.escape(n) for n in sorted(new, key=len, reverse=True)) + r")(?![\w'\-<≤])")

    def spell(line, comment):
        # comments are prose
        head, mark, tail = line.partition(comment)
        return one.sub(lambda m: new[m.group(1)], head) + mark + tail

    changed = 0
    for ending, comment in ((".antt", "-- "), (".rt", "// ")):
        for p in files(ending):
            t = text(p)
            u = "".join(spell(l, comment) for l in t.splitlines(keepends=True))
            if u != t:
                with open(p, "w", encoding="utf-8") as f:
                    f.write(u)
                changed += 1
    print(f"{len(new)} names spelled anew in {changed} files")
    return 0


if __name__ == "__main__":
    raise SystemExit(main())
