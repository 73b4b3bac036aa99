#!/usr/bin/env python3
"""Lists places in crates/*/src that could be of an older form, point by point, and counts them.

Run it at the top of the repository: python3 tools/design_places.py [POINT]. With `-q` it prints the counts alone.
docs/DESIGN-PASS.md says what became of each place.
"""
import collections
import itertools
import pathlib
import re
import sys

QUIET = "-q" in sys.argv
ONLY = [a for a in sys.argv[1:] if a.isdigit()]
FILES = sorted(pathlib.Path("crates").glob("*/src/**/*.rt"))
TEXT = {f: f.read_text() for f in FILES}


def code(text):
    """The text with comments blanked out, line by line."""
    return re.sub(r"//[^\n]*", "", text)


def lines(pattern):
    for f in FILES:
        for n, line in enumerate(code(TEXT[f]).splitlines(), 1):
            if re.search(pattern, line) and not line.startswith("ghost use"):
                yield f"{f}:{n}: {line.strip()}"


def functions():
    """(file, name, signature, contract, body) of each function with a body."""
    for f in FILES:
        text = code(TEXT[f])
        for m in re.finditer(r"^( *)(?:pub(?:\(crate\))? )?fn (\w+)", text, re.M):
            indent, name = m.group(1), m.group(2)
            end = text.find("\n" + indent + "}", m.start())
            whole = text[m.start():end]
            brace = re.search(r"(?:\n" + indent + r"|\) ?|[\w>\)] )\{\n", whole)
            if not brace or "\n" + indent + "fn " in whole[4:]:
                continue
            head, body = whole[:brace.start()], whole[brace.end():]
            head, *contract = re.split(r"\n\s+(?:ensures|requires)\b", head)
            yield f, name, " ".join(head.split()), contract, body


def report(point, what, places):
    places = list(places)
    if ONLY and point not in ONLY:
        return
    print(f"{point}. {what}: {len(places)}")
    if not QUIET:
        for p in places:
            print("     " + p)


report("1", "enums of our own", lines(r"^\s*(pub )?enum \w"))
report("1", "matches that hand an Option or a Result on", lines(r"^\s*(None|Err\(.*?\)) => "))
report("1", "functions that answer a number which says nothing",
       (f"{f}: {name}" for f, name, head, _, body in functions()
        if re.search(r"-> u\d+$", head) and (body.strip() == "0" or re.fullmatch(r"\w+\(\)", body.strip()))))
report("1", "a flag with a value beside it", lines(r"-> \(bool,|\(bool, \w+\)>"))


def shape(name, head, body):
    """A function with its types, its numbers and its own name taken out."""
    text = re.sub(r"\b" + name + r"\b", "F", re.sub(r"pub(\(crate\))? ", "", head) + "{" + body)
    text = re.sub(r"\b(u8|u16|u32|usize|[A-Z]\w*)\b|\b\d+\b", "T", text)
    names = {}
    return tuple(names.setdefault(t, f"v{len(names)}") if re.match(r"[a-z_]\w*$", t) and t not in
                 ("fn", "let", "mut", "for", "in", "if", "else", "match", "self", "return", "ref", "pub", "while") else t
                 for t in re.findall(r"\w+|[^\w\s]", text))


groups = collections.defaultdict(list)
for f, name, head, contract, body in functions():
    s = shape(name, head, body)
    if len(s) >= 16:
        groups[s].append(f"{f}: {name}")
report("2", "groups of functions that differ in names, types and numbers alone",
       (" = ".join(g) for g in groups.values() if len(g) > 1))
words = collections.defaultdict(set)
for f in FILES:
    for m in re.finditer(r"^\s*(?:pub )?(?:struct|enum|static) (\w+)", code(TEXT[f]), re.M):
        words[m.group(1)].add(str(f))
report("2", "types and statics that stand in two crates", (f"{w}: {', '.join(sorted(fs))}" for w, fs in sorted(words.items()) if len(fs) > 1))

report("3", "loops", lines(r"^\s*('\w+: )?(let .* = )?('\w+: )?(for|while|loop)\b"))
report("3", "of them, searches by hand: they return from within", sorted({f"{f}: {name}" for f, name, _, _, body in functions()
       if re.search(r"\n? *for .*\{\n(.*\n)*? +return (Some\(|true|false)", body) and re.search(r"(None|true|false)\s*$", body)}))
report("3", "of them, over a range of numbers", lines(r"\bfor \w+ in .*\.\."))

report("4", "functions that compare two values of one type", (f"{f}: {head}" for f, _, head, _, _ in functions()
       if re.search(r"\(\w+: (&?\w+), \w+: \1\) -> bool", head)))
report("4", "functions from a type to another instance of it", (f"{f}: {head}" for f, _, head, _, _ in functions()
       if re.search(r"\(\w+: (\w+)<\w+>\) -> Option<\1<", head)))
report("4", "functions that print", sorted({f"{f}: {name}" for f, name, _, _, body in functions()
       if re.search(r"print(ln)?!\(|\.println\(", body)}))
report("4", "casts", lines(r" as (u8|u16|usize)\b"))

pairs = collections.defaultdict(set)
for f, name, head, _, _ in functions():
    params = re.findall(r"(\w+): ([^,()]+(?:\([^)]*\))?)", head.split("(", 1)[1]) if "(" in head else []
    for a, b in itertools.combinations(sorted({p for p, t in params if p not in ("rt",)}), 2):
        pairs[a, b].add(f"{f}: {name}")
report("5", "parameters that travel together through three or more functions",
       (f"({a}, {b}): {len(fs)}" for (a, b), fs in sorted(pairs.items(), key=lambda x: -len(x[1])) if len(fs) >= 3))
premises = collections.Counter()
for f, name, _, contract, _ in functions():
    for p in {p.strip() for c in contract for p in re.findall(r"\{ ([^{}→]*?) → ", c) if "≡" not in p}:
        premises[p] += 1
report("5", "premises that stand in three or more contracts",
       (f"{p}: {n}" for p, n in premises.most_common() if n >= 3 and not p.startswith("(")))


def fields():
    """The lines of structs."""
    for f in FILES:
        text = code(TEXT[f])
        for m in re.finditer(r"^(?:pub )?struct \w+[^;{]*\{\n(.*?)^\}", text, re.M | re.S):
            start = text.count("\n", 0, m.start(1)) + 1
            for n, line in enumerate(m.group(1).splitlines(), start):
                if not line.lstrip().startswith("ghost"):
                    yield f"{f}:{n}: {line.strip()}"


report("6", "fields that are buffers, or a length beside one",
       (x for x in fields() if re.search(r": (\[.*; \w+\]|Vec<.*>|usize),$", x)))
report("7", "pointers to functions and trait objects", lines(r"\bdyn |: fn\("))
report("7", "matches on an enum of our own", lines(r"^\s*('\w+: )?(let .* = )?match (?!self\.\w+\(.*\)\s*\{$).*\{$"))

ANSWERS = sorted(pathlib.Path("crates").glob("*/proofs/**/Answers.antt"))
report("8", "answers", (f"{a}: {len(re.findall(r'^pub ', a.read_text(), re.M))}" for a in ANSWERS))
count = sum(len(re.findall(r"^(pub )?[^\s:(]+ : goal\.", a.read_text(), re.M)) for a in ANSWERS)
lemmas = sum(len(re.findall(r"^ *(?:pub )?[^\s:(-][^\s:]* : .*→", p.read_text(), re.M))
             for p in pathlib.Path("crates").glob("*/proofs/*.antt"))
if not ONLY or "8" in ONLY:
    print(f"8. answers in all: {count}; lemmas in proofs/: {lemmas}")
