#!/usr/bin/env python3
"""The picture of the layers in README.md, made from crates.txt.

    tools/layers.py            print it
    tools/layers.py --write    put it into README.md, between the lines that mark its place
    tools/layers.py --check    look that README.md has it, that every crate belongs to one layer, that no crate stands on one of a
                               layer above its own, and that crates.txt names just the crates that a crate's files name (and those
                               of a type that is only handed on, see HANDED_ON); status 1 where that is not so

A crate's layer is told by its name."""
import fnmatch
import pathlib
import re
import sys

HOME = pathlib.Path(__file__).resolve().parent.parent
# top to bottom: the layer, the names of its crates, what it is
LAYERS = [
    ("programs", "list insert_check demo_*", "what is run"),
    ("tests", "test_*", "programs that try the calls, with kept output, and what they share"),
    ("statements", "demands theory_lines bench", "the demands and requests, stated over any table and proved of this one"),
    ("interface", "ration_table c_*", "the calls as C functions, an answer in four words"),
    ("texts", "list_* reason reason_* text_row", "what `list` and `insert_check` find and print"),
    ("theory", "theory_*", "what the definitions of the layers below do to a tree; no code"),
    ("calls", "table call_*", "find, open, start, step on a lent card and a lent state"),
    ("state", "state state_*", "what is being done, and the words that hold it"),
    ("changes", "change_*", "which change is due, as a small value, and its stores laid out"),
    ("way down", "walk walk_*", "from the root to a leaf, and to the next key"),
    ("card", "card card_*", "words, header, nodes; one bit a node; the check of a table; dumps"),
    ("laws", "laws", "lists, totals, digits, bits, sorting: nothing of cards"),
]
# crates that declare a type which a crate hands on without naming it
HANDED_ON = {"call_find", "state"}
BEGIN, END = "<!-- made by tools/layers.py --write -->\n", "<!-- end -->\n"
WIDTH = 118


def crates():
    """The crates of crates.txt, each with those that it stands on; the toolchain's libraries, which have no line, are left out."""
    lines = [line.partition("#")[0].partition(":") for line in (HOME / "crates.txt").read_text().split("\n")]
    # behind the name may stand `staticlib`
    found = {name.split()[0]: deps.split() for name, colon, deps in lines if colon}
    return {name: [d for d in deps if d in found] for name, deps in found.items()}


def layer_of(name):
    for number, (_, patterns, _) in enumerate(LAYERS):
        if any(fnmatch.fnmatch(name, p) for p in patterns.split()):
            return number
    return None


def named_by(name, known):
    """The crates that the files of a crate name."""
    named = set()
    for path in (HOME / "crates" / name).rglob("*"):
        if path.suffix in (".antt", ".rt") and path.relative_to(HOME / "crates" / name).parts[0] != "out":
            text = path.read_text()
            named |= set(re.findall(r"Rattle\.(\w+)", text))
            if path.suffix == ".rt":
                named |= set(re.findall(r"(?<![\w:])([a-z_]+)::", text))
    return (named & known) - {name}


def picture():
    known = crates()
    out = []
    for number, (title, _, words) in enumerate(LAYERS):
        mine = [c for c in known if layer_of(c) == number]
        below = {layer_of(d) for c in mine for d in known[c]} - {number}
        line, rows = f"    {title:<12}", []
        for crate in mine:
            if len(line) + len(crate) + 2 > WIDTH:
                rows.append(line)
                line = " " * 16
            line += crate + "  "
        rows.append(line)
        rows.append(" " * 16 + words)
        if below:
            rows.append(" " * 16 + "on: " + ", ".join(LAYERS[b][0] for b in sorted(below)))
        out += [r.rstrip() for r in rows] + [""]
    return "\n".join(out[:-1]) + "\n"


def check():
    known, wrong = crates(), []
    for crate, deps in known.items():
        if layer_of(crate) is None:
            wrong.append(f"{crate} is of no layer")
            continue
        wrong += [f"{crate} stands on {d}, a layer above" for d in deps if layer_of(d) < layer_of(crate)]
        named = named_by(crate, set(known))
        wrong += [f"{crate} names {d}, which crates.txt does not list" for d in named - set(deps)]
        wrong += [f"{crate} lists {d} and does not name it" for d in set(deps) - named - HANDED_ON]
    if BEGIN + picture() + END not in (HOME / "README.md").read_text():
        wrong.append("README.md does not have the picture of crates.txt")
    print("\n".join(wrong) or "the layers are as drawn")
    return 1 if wrong else 0


if __name__ == "__main__":
    if "--check" in sys.argv:
        sys.exit(check())
    if "--write" in sys.argv:
        path = HOME / "README.md"
        before, _, rest = path.read_text().partition(BEGIN)
        path.write_text(before + BEGIN + picture() + END + rest.partition(END)[2])
    else:
        print(picture(), end="")
