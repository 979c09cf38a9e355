#!/usr/bin/env python3
"""Names that an .antt file brings in by `use` and does not use.

    tools/unused_imports.py            list them, for every file under crates/
    tools/unused_imports.py --drop F.. drop them from the files named

A name is used where it stands outside comments and `use` lines; an operator, where its symbol does. `rt tidy` drops them in a whole
crate, once it is proved, and knows more: this goes by the text alone, and also where a crate is not proved yet.
"""
import pathlib
import re
import sys


def words(text):
    """Everything that can be a name: what stands between blanks and brackets, and the parts of it between dots."""
    found = set()
    for word in re.split(r"[\s(){}\[\];,]+", text):
        found.add(word)
        found.update(word.split("."))
        found.add(word.lstrip("λ←"))
    return found


def is_used(name, body, found):
    if name == "[]":
        return "[]" in body
    parts = [part for part in name.split("◌") if part]
    return name in found or ("◌" in name and any(part in found for part in parts))


def cleaned(text):
    """The text without its unused names, and these."""
    lines = text.split("\n")
    body = "\n".join(line for line in lines if not line.startswith("use "))
    body = re.sub(r"(^|\s)--( .*|$)", r"\1", body, flags=re.M)
    found = words(body)
    kept_lines, unused = [], []
    for line in lines:
        group = re.match(r"use (\S+)\.\{(.*)\}$", line)
        module = re.match(r"use \S+ as (\S+)$", line)
        if group:
            names = [name.strip() for name in group[2].split(",")]
            kept = [name for name in names if is_used(name.split(" as ")[-1], body, found)]
            unused += [name for name in names if name not in kept]
            if kept:
                kept_lines.append("use %s.{%s}" % (group[1], ", ".join(kept)))
        elif module and module[1] not in found:
            unused.append(line)
        else:
            kept_lines.append(line)
    return "\n".join(kept_lines), unused


drop = sys.argv[1:2] == ["--drop"]
everywhere = (file for folder in ("specs", "proofs") for file in pathlib.Path("crates").glob("*/%s/**/*.antt" % folder))
files = map(pathlib.Path, sys.argv[2:]) if drop else sorted(everywhere)
for file in files:
    text = file.read_text(encoding="utf-8")
    new, unused = cleaned(text)
    if unused:
        print("%s: %s" % (file, ", ".join(unused)))
        if drop:
            file.write_text(new, encoding="utf-8")
