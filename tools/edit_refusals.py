#!/usr/bin/env python3
"""What refuses each must-fail edit: a fact, or only a name that the edited text no longer makes.

    tools/edit_refusals.py [CRATE/EDIT ..]     all edits, if none is named

`rt ci` prints one place of each refusal. Rattle names goals after the text of the code, so an edit of a condition may be refused for a
goal's name alone, which shows nothing of the contract. This applies each edit in a copy of crates/ (with what is in out/, so check
first), reads the whole of `rt check`, and prints a line for each: how many errors are facts, how many are lost names, and the first
fact. The status is 1 where an edit is not refused, or for a lost name alone. One after the other, some seconds each."""
import pathlib
import re
import shutil
import subprocess
import sys
import tempfile

ROOT = pathlib.Path(__file__).resolve().parent.parent
FOLLOWS = re.compile(r"that depend|is not admitted")
LOST = re.compile(r"can be named from here|has no field|is not in scope|exports no|no module is found")
# a function without a proof file, whose goal the search does not close
UNPROVED = re.compile(r"^fn .*: no proof: .*did not prove", re.M)


def apply(edit, crate):
    """Writes the edit into the crate's files; answers what they were."""
    kept, path, old = {}, None, None
    for line in edit.read_text().split("\n"):
        key, _, text = line.partition(": ")
        if key == "file":
            path = crate / text.strip()
            kept.setdefault(path, path.read_text())
        elif key == "old":
            old = text
        elif key == "new" or line == "new:":
            now = path.read_text()
            if now.count(old) != 1:
                sys.exit(f"{edit}: its text is in {path.name} {now.count(old)} times")
            path.write_text(now.replace(old, text))
    return kept


def refusal(said):
    """The errors that are facts, and those that are lost names."""
    errors = [l for l in said.split("\n") if re.search(r"\berror\b", l) and not l.startswith("so far")]
    errors = [l for l in errors if not FOLLOWS.search(l)]
    lost = [l for l in errors if LOST.search(l)]
    return [l for l in errors if l not in lost] + UNPROVED.findall(said), lost


def main(named):
    edits = [ROOT / "crates" / n.split("/")[0] / "must-fail" / (n.split("/")[1] + ".edit") for n in named]
    bad = 0
    with tempfile.TemporaryDirectory() as folder:
        copy = pathlib.Path(folder)
        shutil.copytree(ROOT / "crates", copy / "crates")
        shutil.copy(ROOT / "crates.txt", copy)
        for edit in edits or sorted((ROOT / "crates").glob("*/must-fail/*.edit")):
            crate = copy / "crates" / edit.parent.parent.name
            kept = apply(edit, crate)
            run = subprocess.run(["rt", "check"], cwd=crate, capture_output=True, text=True)
            for path, text in kept.items():
                path.write_text(text)
            facts, lost = refusal(run.stdout + run.stderr)
            wrong = run.returncode == 0 or not facts
            bad += wrong
            print(f"{'BAD ' if wrong else ''}{crate.name}/{edit.stem}: facts {len(facts)}, lost names {len(lost)}: {(facts or ['-'])[0][:200]}", flush=True)
    return 1 if bad else 0


if __name__ == "__main__":
    sys.exit(main(sys.argv[1:]))
