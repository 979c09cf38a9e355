#!/usr/bin/env python3
"""Counts the places that docs/DESIGN-PASS.md speaks of, point by point, in the sources of the crates.

tools/design_places.py [FOLDER]   FOLDER is a checkout, by default this one; a place a line, and the counts at the end.
"""
import glob
import os
import re
import sys

ROOT = sys.argv[1] if len(sys.argv) > 1 else os.path.join(os.path.dirname(os.path.abspath(__file__)), "..")
os.chdir(os.path.join(ROOT, "crates"))
SOURCES = sorted(glob.glob("*/src/**/*.rt", recursive=True))
CALLS = {"test_", "demo_"}
counts = {}


def place(point, path, line, text):
    kind = "programs" if path.split("/")[0].startswith(("test_", "demo_", "insert_check", "list/")) else "layers"
    counts[(point, kind)] = counts.get((point, kind), 0) + 1
    print(f"{point}: {path}:{line}: {text.strip()[:110]}")


def code_lines(path):
    for number, line in enumerate(open(path), 1):
        yield number, re.sub(r"//.*", "", line.rstrip("\n"))


def functions(path):
    """name, line, signature, body of each function"""
    text = "\n".join(line for _, line in code_lines(path))
    for m in re.finditer(r"^\s*(?:pub )?(?:extern \"C\" )?fn (\w+)", text, re.M):
        start = m.start()
        brace = re.compile(r"^\s*\{$|\) (?:-> [^{]*)?\{$", re.M).search(text, start)
        if not brace:
            continue
        depth, at = 1, brace.end()
        while at < len(text) and depth:
            depth += {"{": 1, "}": -1}.get(text[at], 0)
            at += 1
        yield m.group(1), text.count("\n", 0, m.start(1)) + 1, text[start:brace.start()], text[brace.end():at - 1]


# 1: enums with a case that stands for none or for a refusal; refusals and kinds of answer as numbers
NONE = r"\b(Refused|Nothing|Absent|TooFew|Unsound|Wrong|Nowhere)\b"
for path in SOURCES:
    text = open(path).read()
    for m in re.finditer(r"^(?:pub )?enum (\w+)[^{]*\{(.*?)^\}", text, re.M | re.S):
        if re.search(NONE, re.sub(r"//.*", "", m.group(2))):
            place(1, path, text.count("\n", 0, m.start()) + 1, "enum " + m.group(1))
    for number, line in code_lines(path):
        if re.search(r"\brefusal: u32|fn \w*(refusal|refus\w+)\w*\(.*-> u32|NO_STATE: u32|Refused\(\d+\)|return \d+;$", line):
            place(1, path, number, line)

# 2: functions that are one but for names and numbers
shapes = {}
for path in SOURCES:
    for name, line, signature, body in functions(path):
        shape = re.sub(r"\b\d\w*\b", "0", re.sub(r"\b[A-Za-z_]\w*\b", lambda w: w.group(0) if w.group(0) in ("while", "loop", "for", "if", "match", "let", "mut", "return", "else") else "x", body))
        shape = re.sub(r"\s+", " ", shape).strip()
        if body.strip().count("\n") >= 2:
            shapes.setdefault(shape, []).append((path, line, name))
for group in shapes.values():
    if len(group) > 1:
        place(2, group[0][0], group[0][1], " ~ ".join(name for _, _, name in group))

# 3: loops that are no `for`
for path in SOURCES:
    for number, line in code_lines(path):
        if re.match(r"\s*(while|loop)\b", line):
            place(3, path, number, line)

# 4: functions that only cast or turn one type into another by cases
for path in SOURCES:
    for name, line, signature, body in functions(path):
        only_cast = re.fullmatch(r"\s*\(?[\w.\[\]% ]+\)? as \w+\s*", body)
        if only_cast or re.fullmatch(r"(phase|doing)_(in|word|words)|\w+_reply|copy_words|as_number", name):
            place(4, path, line, "fn " + name)

# 5: a fact that stands in the contracts of three functions or more
facts = {}
for path in SOURCES:
    for name, line, signature, body in functions(path):
        for fact in set(re.findall(r"length (?:\w+)\.(?:now|old) ≡ [^×()}]*(?=[×)} ])|(?<!\w)Sized greatest_nodes|IsLine line|PairRows|TaggedAt|SiblingsAt|Whole kind", signature)):
            facts.setdefault(re.sub(r"\.(now|old)", "", fact).strip(), []).append((path, line, name))
for fact, where in sorted(facts.items()):
    if len(where) >= 3:
        place(5, where[0][0], where[0][1], f"{len(where)} contracts: {fact}")

# 6: a slice with a count or a place in it beside it, and rows whose places have names
for path in SOURCES:
    for name, line, signature, body in functions(path):
        if re.search(r"&mut \[\w+\],\s*(?:\w+: &mut \[\w+\],\s*)?(count|at|made|n|m): usize|row: &(mut )?\[u64; \d+\]", signature):
            place(6, path, line, "fn " + name)

# 7: a match whose arms each call another function
for path in SOURCES:
    for name, line, signature, body in functions(path):
        for m in re.finditer(r"match [^{]*\{(.*)\}", body, re.S):
            calls = re.findall(r"=> ([a-z_:]+)\(", m.group(1))
            if len(calls) >= 3:
                place(7, path, line, f"fn {name}: {', '.join(calls)}")

# 8: proofs: files that walk the code by hand, and answers
for path in sorted(glob.glob("*/proofs/**/Proof.antt", recursive=True)):
    place(8, path, 1, "a proof that walks the code")
for path in sorted(glob.glob("*/proofs/**/Answers.antt", recursive=True)):
    for number, line in enumerate(open(path), 1):
        if re.match(r"[\w-]+ .*= search rules$", line):
            place(8, path, number, line)

print()
for point in range(1, 9):
    print(f"point {point}: {counts.get((point, 'layers'), 0)} in the layers, {counts.get((point, 'programs'), 0)} in the programs")
