#!/usr/bin/env python3
"""Brings the names that this repository declares in specs/ and proofs/ to Rattle's spelling: words in snake case.

usage: python3 tools/snake_names.py [--dry]        at the top, once, after port.py

A definition `nodeAt` becomes `node_at`, a lemma `node-words` becomes `node_words`; types, modules and facts keep their capitals.
Names of libraries, of Rust sources and of what Rattle generates stay. Two names that would fall together are told apart by LEMMAS and HERE.
"""

import os
import re
import sys

NAME = r"[^\s(){}.;,@\"«»]+"
SIGNATURE = re.compile(rf"^([ \t]*)((?:(?:abbrev|unfoldable|pub|data|record|mutual) )*)({NAME})((?: \{{[^{{}}\n]*\}}| \([^()\n]*\))*) :(?: |$)(.*)", re.M)
LET = re.compile(rf"\blet ({NAME}) (?::|=)")
BINDERS = re.compile(rf"[({{]((?:{NAME} )+):")
LAMBDA = re.compile(rf"λ ((?:{NAME} )*{NAME})\.")
USE = re.compile(r"^(\s*)(pub )?(ghost )?use ([^\s;{]+?)\.?(\{[^}]*\})?( as \S+)?;?$", re.M)
GENERATED = re.compile(r"^(returns|loop|invariant|decreases|Need|After|Then|Else|In|At|overflow|bounds|offset_bounds)-")

# Lemmas that would have the name of the definition that they are about.
LEMMAS = """
    all-zero at-root change-length change-stores child-at child-index children-with counted-in delete-at
    delete-on depth-in digit-count due-depth dump-nodes dump-words family-shown few-pairs first-line
    first-stored first-words format-begun formatted-word free-then greatest-dump halves-words hand-words
    has-line held-line in-hand in-next-leaf inners-together insert-at insert-decided insert-in insert-on
    is-idle is-node is-root key-between keys-left kind-above last-played leaf-full leaf-of leaf-pairs
    leaves-together left-words levels-up-to line-check mend-siblings merge-root next-along next-change
    next-due no-state node-totals on-card on-next on-the-card open-sound opened-card reached-at refused-on
    repaired-by repaired-world resting-block rests-right right-words root-of-two settled-phase split-leaf
    split-parent start-checked start-landed start-on start-refused starts-on step-format step-held step-on
    step-task together-count two-leaves values-row way-depth with-totals
""".split()

# Names that an import or a pattern gives, and no signature.
EXTRA = """
    leaf-look one-level few-before few-after past-left short-right cut-few leaf-landed by-depth no-rest in-set next-depth-only rows-kept
    dictionary-kept book-kept dumps-kept list-kept next-kept padding-kept depth-kept totals-kept search-kept reasons-kept fetching-kept
    depths-kept sizes-kept table-idle mends-by idle-step three-long
""".split()

# Names that port.py wrote, and that a definition of the same file would meet.
HERE = {
    "crates/call_step/proofs/StepBlockLaws.antt": {"in-words": "in_words_lem", "places_row": "places_row_lem"},
    "crates/demands/proofs/LineWork.antt": {"on_line": "on_line_lem"},
    "crates/demands/proofs/LineStepRows.antt": {"step_in": "step_in_lem"},
    "crates/demands/proofs/FirstSteps.antt": {"in_leaf": "in_leaf_lem"},
    "crates/demands/proofs/WayDown.antt": {"landed_at": "landed_at_lem"},
    "crates/state/proofs/CardBlocks.antt": {"at_rest": "at_rest_lem"},
    "crates/walk/proofs/DescentLaws.antt": {"by_down": "by_down_lem"},
}


def snake(name):
    words = re.sub(r"(?<=[a-z0-9])[A-Z]", lambda m: "_" + m[0].lower(), name)
    return re.sub(r"(?<=\w)-(?=\w)", "_", words)


def files():
    for top, dirs, names in os.walk("crates"):
        dirs[:] = sorted(d for d in dirs if d != "out")
        for n in sorted(names):
            if n.endswith((".antt", ".rt", ".edit")):
                yield os.path.join(top, n)


def strip_comments(text, antt):
    mark = r"--" if antt else r"//"
    return re.sub(rf"(?m)(^|\s){mark}[^\n]*", r"\1", text)


def wants(name):
    if not re.match(r"[A-Za-z]", name) or "◌" in name:
        return False
    return bool(re.search(r"\w-\w", name) or (name[0].islower() and re.search(r"[a-z0-9][A-Z]", name)))


def in_function(path):
    parts = path.split("/")
    return "proofs" in parts and len(parts) - parts.index("proofs") > 2


def collect(texts):
    own, fields = set(), set()
    for path, text in texts.items():
        if not path.endswith(".antt"):
            continue
        code = strip_comments(text, True)
        record = None
        for m in SIGNATURE.finditer(code):
            indent, words, name, _, rest = m.groups()
            if "record" in words.split():
                record = len(indent)
                continue
            if record is not None and len(indent) > record and not in_function(path):
                fields.add(name)
            elif len(indent) <= (record or 0):
                record = None
            if in_function(path) and (rest.startswith(("tie.", "goal.")) or GENERATED.match(name)):
                continue
            own.add(name)
        for m in LET.finditer(code):
            own.add(m[1])
        for m in BINDERS.finditer(code):
            own.update(m[1].split())
        for m in LAMBDA.finditer(code):
            own.update(m[1].split())
    own = {n for n in own if wants(n)} | set(EXTRA)
    return own, {n for n in fields if wants(n)}


def crates():
    return {d for d in os.listdir("crates") if os.path.isdir(os.path.join("crates", d))}


def is_own(path, own_crates):
    parts = path.strip(".").split(".")
    return parts[0] == "package" or (parts[0] == "Rattle" and len(parts) > 1 and parts[1] in own_crates)


def others(text, own_crates):
    """Names that a file takes from libraries."""
    got = set()
    for m in USE.finditer(text):
        if is_own(m[4], own_crates):
            continue
        for item in (m[5] or "").strip("{}").split(","):
            words = item.split()
            if words:
                got.add(words[-1])
    return got


def is_generated_module(path):
    return re.search(r"\.declared(\.|$)|\.(Tie|Goals|Given|Statement|Reads|Lts)$", path.strip("."))


def turn_antt(text, table, fields, own_crates):
    skip = others(text, own_crates)

    def line_of(line):
        stripped = line.lstrip()
        if stripped.startswith("--"):
            return re.sub(r"`[^`]*`", lambda m: words_of(m[0]), line)
        m = USE.match(line)
        if m and not is_own(m[4], own_crates):
            return line
        if m and m[5] is None:
            return line
        return words_of(line)

    def words_of(line):
        def one(m):
            name, at = m[0], m.start()
            if name not in table or name in skip:
                return name
            if at and line[at - 1] == ".":
                before = re.search(rf"({NAME})\.$", line[:at])
                if name not in fields and not (before and before[1][0].isupper()):
                    return name
            return table[name]

        head, mark, tail = line.partition(" -- ")
        out = re.sub(NAME, one, head)
        return out + mark + (re.sub(r"`[^`]*`", lambda m: re.sub(NAME + r"(?=`)|(?<=`)" + NAME, one, m[0]), tail) if mark else "")

    return "\n".join(line_of(l) for l in text.split("\n"))


def turn_rt(text, table):
    camel = {n: v for n, v in table.items() if "-" not in n}
    kebab = {n: v for n, v in table.items() if "-" in n}

    def code(line):
        if line.lstrip().startswith("//"):
            return re.sub(r"`[^`]*`", lambda m: re.sub(r"[\w'-]+", lambda n: table.get(n[0], n[0]), m[0]), line)
        out = re.sub(r"(?<![\w-])[a-z]\w*(?![\w])", lambda m: camel.get(m[0], m[0]), line)
        if "ghost use" in line or re.search(r"\b(requires|ensures|ghost)\b", line):
            out = re.sub(r"(?<![\w-])[\w'-]+(?![\w-])", lambda m: kebab.get(m[0], m[0]), out)
        return out

    return "\n".join(code(l) for l in text.split("\n"))


def turn_edit(text, table, fields, own_crates):
    out, antt = [], False
    for line in text.split("\n"):
        m = re.match(r"(old|new): (.*)", line)
        if line.startswith("file:"):
            antt = line.strip().endswith(".antt")
        if m:
            body = turn_antt(m[2], table, fields, own_crates) if antt else turn_rt(m[2], table)
            line = f"{m[1]}: {body}"
        out.append(line)
    return "\n".join(out)


def main():
    dry = "--dry" in sys.argv
    texts = {}
    for p in files():
        with open(p, encoding="utf-8") as f:
            texts[p] = f.read()
    own, fields = collect(texts)
    own_crates = crates()
    table = {n: snake(n) + ("_lem" if n in LEMMAS else "") for n in own}
    back = {}
    for old, new in sorted(table.items()):
        back.setdefault(new, []).append(old)
    for new, olds in sorted(back.items()):
        if len(olds) > 1:
            print(f"together: {new}: {' '.join(olds)}")
    for p, text in texts.items():
        if p.endswith(".antt"):
            code = strip_comments(text, True)
            tokens = set(re.findall(NAME, re.sub(r"\b(Rattle|package)(\.[\w'-]+)+", " ", code)))
            skip = others(text, own_crates)
            here = table | HERE.get(p, {})
            for n in sorted(tokens & set(here)):
                if n not in skip and here[n] in tokens and here[n] not in here:
                    print(f"meets: {p}: {n} and {here[n]}")
        elif p.endswith(".rt"):
            code = strip_comments(text, False)
            words = set(re.findall(r"\w+", code))
            for n in sorted(words & set(table)):
                new = table[n]
                if new in words:
                    uses = [l.strip()[:110] for l in code.split("\n") if re.search(rf"(?<![\w.]){new}(?!\w)", l) and not re.search(rf"\b(fn|use|mod) .*{new}|{new}\(|::{new}", l)]
                    if uses:
                        print(f"meets: {p}: {n} and {new}: {uses[:3]}")
    if dry:
        return 0
    changed = 0
    for p, text in texts.items():
        if p.endswith(".antt"):
            new = turn_antt(text, table | HERE.get(p, {}), fields, own_crates)
        elif p.endswith(".rt"):
            new = turn_rt(text, table)
        else:
            new = turn_edit(text, table, fields, own_crates)
        if new != text:
            changed += 1
            with open(p, "w", encoding="utf-8") as f:
                f.write(new)
    print(f"{len(table)} names, {changed} files")
    return 0


if __name__ == "__main__":
    raise SystemExit(main())
