#!/usr/bin/env python3
"""What a reader of a statement must believe: the definitions under specs/ that it rests on, counted by closure over their names.

    tools/believed.py            a table, for the demands, the requests and the contracts of the calls
    tools/believed.py --modules  the same, with the modules of each row
    tools/believed.py --check    only look that nothing believed stands outside specs/: no file under specs/ and no contract
                                 names a module of a proofs/ of this repository, and specs/ holds no law; status 1 where one does

Counted are lines of signatures, clauses, constructors and fields; not comments, blank lines, `use` lines or the libraries of the
toolchain. A request's file ends in its statement. Types that the tool makes from the code's enums and structs are named apart."""
import pathlib
import re
import sys

CRATES = pathlib.Path(__file__).resolve().parent.parent / "crates"
WORD = re.compile(r"[^\s(){}\[\];,|]+")
MODULE = re.compile(r"^Rattle\.(\w+)\.specs\.(.+)$")
USE = re.compile(r"^(?:ghost )?use (?P<module>\S+?)\.\{(?P<names>.*)\};?$")
DECLARATION = re.compile(r"^(?P<marks>(?:(?:abbrev|unfoldable|pub) )*)(?P<kind>data |record )?(?P<name>[^\s(){}:;,.]+)(?: [^=]*?)? ?:")

# the rows of the table: what is stated, and where
STATEMENTS = [
    ("demand 1", ["demands/Demand1/Demand1"]),
    ("demand 2", ["demands/Demand2/Demand2"]),
    ("demand 3", ["demands/Demand3/Demand3"]),
    ("all three demands", ["demands/Demand1/Demand1", "demands/Demand2/Demand2", "demands/Demand3/Demand3"]),
]
# the definitions that the calls are proved to meet: the demands are proved of them, so that their text need not be read
MET = {("call_find", "Find", "find_of"), ("call_open", "Opening", "open_of"), ("call_start", "Starts", "format_of"),
       ("call_start", "Starts", "insert_of"), ("call_start", "Starts", "delete_of"), ("call_step", "Calls", "step_of"),
       ("walk_next", "Successor", "next_of")}
# the calls, as the crates offer them, and the table that is made of what they meet
TABLE = "demands/RationTable/ration_table"
CALLS = {"call_find": ["find"], "walk_next": ["next_pair"], "call_open": ["open"], "call_start": ["start_format", "start_insert", "start_delete"],
         "call_step": ["step"]}


def uses_of(line):
    """The names that a `use` line brings in: (name here, crate, module, name there)."""
    line = line.strip()
    found = USE.match(line)
    home = found and MODULE.match(found["module"])
    if not home:
        return []
    names = (n.strip().partition(" as ") for n in found["names"].split(","))
    return [((b or a).strip(), home[1], home[2], a.strip()) for a, _, b in names if a.strip()]


class Module:
    """A specs file: its definitions by name, each with its lines; the constructors and fields that belong to them; its imports."""

    def __init__(self, path):
        self.lines, self.owner, self.uses, self.laws = {}, {}, {}, []
        header, depth, current, group = [], 0, None, None
        for number, line in enumerate(path.read_text().split("\n")):
            text = "" if line.lstrip().startswith("--") else line.rstrip()
            if not text:
                continue
            if text.startswith("use "):
                for here, *there in uses_of(text):
                    self.uses[here] = tuple(there)
                continue
            if text.startswith("pub mod"):
                continue
            indent, body = len(text) - len(text.lstrip()), text.lstrip()
            if indent == 0:
                header, depth, group = [], 0, None
            if re.match(r"(abbrev |unfoldable )*mutual$", body) or body.startswith("module _"):
                depth, current = indent + 2, None
                header = header + [(number, text)] if body.startswith("module") else header
                group = body.split()[0] if "mutual" in body and body != "mutual" else group
                continue
            if indent == depth and not body[0] in ")}]":
                first = WORD.match(body).group(0)
                found = DECLARATION.match(body)
                if first in self.lines and not found or first == current:
                    current = first
                elif found and first != "unfolding":
                    current = found["name"]
                    self.lines[current] = list(header)
                    if not (found["kind"] or re.search(r"abbrev|unfoldable", found["marks"]) or group):
                        self.laws.append(current)
                elif first != "unfolding":
                    current = None
            elif current and re.match(r"(?:pub )?[^\s(){}:;,]+ :", body):
                self.owner.setdefault(re.match(r"(?:pub )?([^\s(){}:;,]+) :", body)[1], current)
            if current and not body.startswith("unfolding"):
                self.lines[current].append((number, text))


class Belief:
    def __init__(self, unread):
        self.unread, self.modules, self.seen, self.counted, self.made = unread, {}, set(), {}, set()

    def module(self, crate, name):
        path = CRATES / crate / "specs" / f"{name}.antt"
        if (crate, name) not in self.modules:
            self.modules[crate, name] = Module(path) if path.exists() else None
        return self.modules[crate, name]

    def visit(self, crate, name, definition):
        module = self.module(crate, name)
        if module is None:
            if name.startswith("declared.") and (CRATES / crate).is_dir():
                self.made.add(name.split(".")[1])
            return
        if definition not in module.lines:
            definition = module.owner.get(definition)
        if definition is None or (crate, name, definition) in self.seen or (crate, name, definition) in self.unread:
            return
        self.seen.add((crate, name, definition))
        lines = module.lines[definition]
        self.counted.setdefault((crate, name), set()).update(lines)
        for _, line in lines:
            for word in words_of(line):
                if word in module.uses:
                    self.visit(*module.uses[word])
                elif word in module.lines or module.owner.get(word, definition) != definition:
                    self.visit(crate, name, word)

    def total(self):
        return sum(len(lines) for lines in self.counted.values())


def words_of(line):
    """The words of a line; of `x.f`, a field, the first part."""
    return {w.split(".")[0] for w in WORD.findall(line) if not w.startswith(".")}


def contract_names(crate, functions):
    """The names that the contracts of these public functions cite, as (crate, module, name)."""
    cited = []
    for path in sorted((CRATES / crate / "src").glob("*.rt")):
        text = path.read_text()
        uses = {here: tuple(there) for line in text.split("\n") for here, *there in uses_of(line)}
        for function in functions:
            for contract in re.findall(r"pub fn %s\b.*?\n\{" % function, text, re.S):
                cited += [uses[word] for word in words_of(contract.replace("\n", " ")) if word in uses]
    return cited


def names_proofs(path, comment):
    """The lines of a file that name a module of a proofs/ of this repository."""
    own = "|".join(folder.name for folder in CRATES.iterdir())
    named = re.compile(r"\b(?:Rattle\.(?:%s)|package)\.proofs\b" % own)
    return [f"{path}: {line}" for line in path.read_text().split("\n") if named.search(line) and not line.strip().startswith(comment)]


def check():
    wrong = []
    for path in sorted(CRATES.glob("*/specs/*.antt")):
        wrong += names_proofs(path, "--")
        wrong += [f"{path}: {law} is no definition" for law in Module(path).laws]
    for path in sorted(CRATES.glob("*/src/*.rt")):
        wrong += names_proofs(path, "//")
    print("\n".join(wrong) or "what is believed stands under specs/")
    return 1 if wrong else 0


def table(with_modules):
    rows = list(STATEMENTS)
    for path in sorted((CRATES / "demands" / "specs").glob("*.antt")):
        if re.match(r"W\d+|List|Dumps", path.stem):
            stated = list(Module(path).lines)[-1]
            rows.append((path.stem.replace("W", "W-").replace("List", "the program `list`").replace("Dumps", "dumps"), [f"demands/{path.stem}/{stated}"]))
    calls = [TABLE] + [cited for crate, functions in CALLS.items() for cited in contract_names(crate, functions)]
    rows.append(("the contracts of the calls, as a table", calls))
    rows.append(("all three demands with the contracts of the calls", STATEMENTS[3][1] + calls))
    last = "the same, with the text of the seven definitions that the calls are proved to meet, which need not be read"
    rows.append((last, STATEMENTS[3][1] + calls))
    print("| what is stated | lines of definition | modules | made from the code's types |\n|---|---|---|---|")
    for title, goals in rows:
        belief = Belief(set() if title == last else MET)
        for goal in goals:
            belief.visit(*(goal.split("/") if isinstance(goal, str) else goal))
        print(f"| {title} | {belief.total()} | {len(belief.counted)} | {', '.join(sorted(belief.made)) or 'none'} |")
        if with_modules:
            for (crate, name), lines in sorted(belief.counted.items()):
                print(f"    {len(lines):4} {crate}/specs/{name}")


if __name__ == "__main__":
    if "--check" in sys.argv:
        sys.exit(check())
    table("--modules" in sys.argv)
