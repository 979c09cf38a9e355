#!/usr/bin/env python3
"""Lines that are too long to read, of the .antt and .rt files under crates/.

    tools/long_lines.py --check [FILES]    list the lines of over 200 characters; the status is 1 if there are any
    tools/long_lines.py --wrap [FILES]     break them, aiming at 140 characters (run `rt fmt` afterwards)
    tools/long_lines.py --starts [FILES]   before --wrap: `let s = c.before .. in` in proofs that write the chain three times; of
                                           an older Rattle: today a step is a field of `c`, and there are no such chains
    tools/long_lines.py --edits            list the must-fail edits whose `old:` text is not in its file exactly once; for an edit
                                           of several pairs, each in what the earlier ones made

`--over N` before FILES puts another number in the place of 200. Without FILES: every file under crates/.

Only blanks, and the `,` or `;` that `rt fmt` puts after the last part of a bracket of several lines, are changed; a file in
which anything else would change is left alone and named. `rt fmt` keeps line breaks and sets the indentation: four more for
what goes on with a declaration, however deep in brackets, and a tuple or a record with a break in it has a line for each part.
So breaks are chosen by cost: the fewer and the less deep in brackets, the better; a tuple or a record is laid out in lines
where that is cheaper. A long `use M.{..}` becomes several `use` lines of one module. No break is made inside a text that a
must-fail edit of the crate quotes. In .rt files comments and the clauses that stand on one line, `ensures { .. }`, are broken.
"""
import functools
import pathlib
import re
import sys

AIM = 140
OPEN, CLOSE = "([{", ")]}"
# Operators that a line may begin with, the loosest first. Those of one row bind alike for this purpose.
LEVELS = [{"|"}, {"→"}, {"⊎"}, {"×"}, {"≡", "≢", "≤", "<", ">", "≥", "↔"}, {"∙"}, {"++"}, {"∷"}, {"+", "-", "*"}]
NEVER = 10**9
sys.setrecursionlimit(20000)


# ---- tokens
def tokens_of(text):
    """(word, a blank stands before it, where it begins) for each word, bracket and separator."""
    found = []
    for match in re.finditer(r"\[\]|[()\[\]{},;]|[^\s()\[\]{},;]+", text):
        start = match.start()
        found.append((match[0], start > 0 and text[start - 1] == " ", start))
    return found


class Line:
    """A stretch of code: its tokens, brackets and what a break before each token costs."""

    def __init__(self, text, kept=()):
        self.text = text
        parts = tokens_of(text)
        self.words = [part[0] for part in parts]
        self.blank = [part[1] for part in parts]
        self.start = [part[2] for part in parts]
        self.count = len(parts)
        self.cost = [NEVER] * (self.count + 1)
        # a place inside a text that an edit quotes is no place for a break
        self.shut = [any(a < s < b for a, b in kept) for s in self.start]
        self.match, self.unmatched = {}, set()
        stack = []
        for i, word in enumerate(self.words):
            if word in OPEN:
                stack.append(i)
            elif word in CLOSE:
                if stack:
                    o = stack.pop()
                    self.match[o], self.match[i] = i, o
                else:
                    self.unmatched.add(i)
        self.unmatched.update(stack)
        # groups with separators: opener -> the places of the separators
        self.parts = {}
        for o, c in self.match.items():
            if o < c:
                places = [i for i in self.inside(o + 1, c) if self.words[i] in ",;"]
                if places:
                    self.parts[o] = places
        # the innermost group with separators that a token stands in
        self.group = [None] * (self.count + 1)
        for o in sorted(self.parts):
            for i in range(o + 1, self.match[o] + 1):
                self.group[i] = o

    def inside(self, i, j):
        """The places from i to j that are in no bracket opened and closed between."""
        while i < j:
            yield i
            if self.words[i] in OPEN and self.match.get(i, j) < j:
                i = self.match[i]
                yield i
            i += 1

    def piece(self, i, j):
        return self.text[self.start[i] : self.start[j - 1] + len(self.words[j - 1])]

    def width(self, i, j):
        return self.start[j - 1] + len(self.words[j - 1]) - self.start[i]

    def allow(self, i, level, ahead=0):
        """A break before i is allowed; it is a little better before much (`ahead` characters) than before little."""
        if 0 < i < self.count and self.blank[i] and not self.shut[i]:
            self.cost[i] = min(self.cost[i], 10 + 12 * level - min(6, ahead / 20))

    # ---- what a break before each token costs
    def measure(self, i, j, level):
        """The places i to j are a term or a type."""
        while i < j and (self.words[j - 1] in ",;" or j - 1 in self.unmatched):
            j -= 1
        while i < j and i in self.unmatched:
            i += 1
        if i >= j:
            return
        words = self.words
        # what an unmatched bracket parts is measured apart
        for k in range(i, j):
            if k in self.unmatched:
                self.measure(i, k, level)
                self.measure(k + 1, j, level + 1)
                self.allow(k, level + 1)
                return
        flat = list(self.inside(i, j))
        if words[i] == "let":
            deep = 0
            for k in flat:
                deep += (words[k] == "let") - (words[k] == "in")
                if deep == 0:
                    self.bound(i + 1, k, level)
                    self.allow(k + 1, level - 1)
                    self.measure(k + 1, j, level)
                    return
            self.bound(i + 1, j, level)
            return
        binder = next((k for k in flat if words[k].startswith("λ")), None)
        if binder is not None:
            dot = next((k for k in flat if k >= binder and words[k].endswith(".") and not words[k].startswith("..")), None)
            if dot is not None:
                if binder > i:
                    self.spread(i, binder, level)
                    self.allow(binder, level + 1)
                self.allow(dot + 1, level + 1)
                self.measure(dot + 1, j, level + 1)
                return
        ends = [k for k in flat if words[k] == "in"]
        if ends:
            self.allow(ends[0] + 1, level - 1)
            self.spread(i, ends[0], level + 1)
            self.measure(ends[0] + 1, j, level)
            return
        self.spread(i, j, level)

    def bound(self, i, j, level):
        """`name : type = term`, the name at i."""
        equals = next((k for k in self.inside(i, j) if self.words[k] == "="), None)
        if equals is None:
            self.measure(i, j, level + 1)
            return
        colon = next((k for k in self.inside(i, equals) if self.words[k] == ":"), None)
        if colon is not None:
            self.measure(colon + 1, equals, level + 2)
        self.allow(equals + 1, level)
        self.measure(equals + 1, j, level + 1)

    def spread(self, i, j, level):
        """Operators and applications, with no `let` and no `λ` outside brackets."""
        flat = list(self.inside(i, j))
        for row in LEVELS:
            places = [k for k in flat if self.words[k] in row and k > i]
            if places:
                edges = [i] + places
                for k, next_one in zip(places, places[1:] + [j]):
                    self.allow(k, level, self.width(k, next_one))
                for a, b in zip(edges, places + [j]):
                    first = a if a == i and a not in places else a + 1
                    self.spread(first, b, level + (0.4 if row == {"→"} else 1))
                return
        # an application: its head, and what it is applied to
        flats = [k for k in flat if self.words[k] not in CLOSE]
        arguments = [k for k in flats[1:] if not self.words[k].startswith(".") and self.words[k] not in ("=", ":", ",", ";")]
        for number, k in enumerate(arguments):
            before = self.words[k - 1]
            if before not in ("record", "λ", "=", ":", "let", "as", "pub", "unfoldable", "abbrev") and before not in OPEN:
                self.allow(k, level + (1.5 if number == 0 else 0), self.width(k, self.match.get(k, k) + 1))
        for k in flats[1:]:
            if self.words[k].startswith("."):
                self.allow(k, level + 4)
        for k in flats:
            if self.words[k] in OPEN and self.match.get(k, NEVER) < j:
                self.within(k, level + 1)

    def within(self, o, level):
        """What the bracket that opens at o holds. A small one is better left whole."""
        c = self.match[o]
        if self.width(o, c) < 50:
            level += 4
        edges = [o] + self.parts.get(o, []) + [c]
        for a, b in zip(edges, edges[1:]):
            equals = next((k for k in self.inside(a + 1, b) if self.words[k] in ("=", "let", "λ")), None)
            colon = next((k for k in self.inside(a + 1, b) if self.words[k] == ":"), None)
            if equals is not None and self.words[equals] == "=":
                self.allow(equals + 1, level)
                self.measure(equals + 1, b, level + 0.5)
            elif colon is not None:
                self.measure(colon + 1, b, level + 1)
            else:
                self.measure(a + 1, b, level)

    # ---- the cheapest layout
    def layout(self, i, j, first, more, tail=""):
        """The lines of the places i to j: the first indented by `first`, what goes on by `more`; `tail` ends the last."""
        words = self.words
        # a break inside a group with separators that stands in i to j would lay that group out in lines: it is made there alone
        around = self.group[i]

        @functools.lru_cache(maxsize=None)
        def in_lines(o, indent):
            """The group that opens at o with a line for each part, and what that costs."""
            c = self.match[o]
            edges = [o] + self.parts[o] + [c]
            is_pattern = o > 0 and (words[o - 1] == "λ" or c + 1 < self.count and words[c + 1] == ".")
            if is_pattern or any(self.shut[k] for k in [c] + [a + 1 for a in edges[:-1]]):
                return NEVER, ()
            mark = words[self.parts[o][0]]
            # a row of plain names is not worth a line for each
            plain = mark == "," and all(self.width(a + 1, b) < 30 for a, b in zip(edges, edges[1:])) and len(edges) > 5
            cost, lines = 200 if plain else 0, []
            for a, b in zip(edges, edges[1:]):
                if a + 1 == b:
                    continue
                price, part = self.layout(a + 1, b, indent + 2, indent + 6, mark)
                cost += price + 6
                lines += part
            return cost + 24, tuple(lines)

        @functools.lru_cache(maxsize=None)
        def best(k, indent):
            """The cheapest layout of k to j where k begins a line."""
            answer, chosen = None, None
            for e in range(k + 1, j + 1):
                wide = indent + self.width(k, e) + (len(tail) if e == j else 0)
                over = max(0, wide - AIM)
                line = 2 * over + 8 * max(0, over - 15)
                if answer is not None and line > answer:
                    break
                here = " " * indent + self.piece(k, e)
                if e == j:
                    if answer is None or line < answer:
                        answer, chosen = line, (here + tail,)
                else:
                    if self.cost[e] < NEVER and self.group[e] == around:
                        price, rest = best(e, more)
                        if answer is None or line + self.cost[e] + price <= answer:
                            answer, chosen = line + self.cost[e] + price, (here,) + rest
                    o = e - 1
                    if o in self.parts and self.group[o] == around:
                        price, items = in_lines(o, indent)
                        if price < NEVER:
                            later, rest = best(self.match[o], indent)
                            whole = line + price + later + 4 * self.depth(o, i)
                            if answer is None or whole < answer:
                                answer, chosen = whole, (here,) + items + rest
            return answer, chosen

        price, lines = best(i, first)
        return price, list(lines)

    def depth(self, o, i):
        """How many brackets opened from i on are open at o."""
        return sum(1 for k in range(i, o) if self.words[k] in OPEN and self.match.get(k, NEVER) > o)


# ---- lines of a file
def broken(text, indent, more, statement, kept):
    """The lines that a line of code becomes: `statement` where it begins a declaration; what goes on is indented by `more`."""
    line = Line(text, kept)
    words = line.words
    flat = list(line.inside(0, line.count))
    if words[0] == "unfolding":
        for k in range(2, line.count):
            line.allow(k, 0)
        return line.layout(0, line.count, indent, more)[1]
    if words[0] == "module" or (words[0] == "pub" and words[1] == "module"):
        for k in flat[1:]:
            if words[k] in OPEN:
                line.allow(k, 0)
                if k in line.match:
                    line.within(k, 2)
        return line.layout(0, line.count, indent, more)[1]
    if statement:
        stop = next((k for k in flat if words[k] in (":", "=", "let") or words[k].startswith("λ")), None)
        if stop is not None and words[stop] == "=" and stop + 1 < line.count and not line.shut[stop + 1]:
            line.spread(0, stop, 2)
            line.measure(stop + 1, line.count, 0)
            head = line.layout(0, stop + 1, indent, more)[1]
            return head + line.layout(stop + 1, line.count, more, more)[1]
        if stop is not None and words[stop] == ":":
            # a declaration with its type, and perhaps an `=` after it
            equals = next((k for k in line.inside(stop, line.count) if words[k] == "="), None)
            line.measure(stop + 1, equals or line.count, 0)
            line.allow(stop + 1, 1)
            if equals is not None:
                line.allow(equals + 1, 0)
                line.measure(equals + 1, line.count, 1)
            return line.layout(0, line.count, indent, more)[1]
    first = next((k for k in flat if words[k] in ("=", "let") or words[k].startswith("λ")), None)
    if first is not None and words[first] == "=":
        line.allow(first + 1, 0)
        line.spread(0, first, 2)
        line.measure(first + 1, line.count, 0.5)
    else:
        line.measure(1 if words[0] in set().union(*LEVELS) else 0, line.count, 0)
    return line.layout(0, line.count, indent, more)[1]


def split_lets(text, kept):
    """The text in parts: each `let .. in` outside brackets is one."""
    line = Line(text, kept)
    parts, begin, deep = [], 0, 0
    for k in line.inside(0, line.count):
        if line.words[k].startswith("λ"):
            break
        deep += (line.words[k] == "let") - (line.words[k] == "in")
        if line.words[k] == "in" and deep <= 0 and k + 1 < line.count and not line.shut[k + 1]:
            parts.append((begin, line.start[k] + 2))
            begin = line.start[k + 1]
            deep = 0
    parts.append((begin, len(text)))
    return parts


def use_lines(text):
    """A `use M.{..}` in several, each of one module."""
    match = re.match(r"((?:pub )?use \S+\.\{)(.*)\}$", text)
    if not match:
        return [text]
    names = [name.strip() for name in match[2].split(",")]
    lines, row = [], []
    for name in names:
        if row and len(match[1]) + len(", ".join(row + [name])) + 1 > AIM:
            lines.append(match[1] + ", ".join(row) + "}")
            row = []
        row.append(name)
    lines.append(match[1] + ", ".join(row) + "}")
    return lines


def comment_lines(line, mark):
    """A comment in several lines, each with its mark."""
    indent = re.match(r" *", line)[0]
    row, lines = indent + mark, []
    for word in line.strip()[len(mark) :].split():
        if len(row) + 1 + len(word) > AIM and row != indent + mark:
            lines.append(row)
            row = indent + mark
        row += " " + word
    return lines + [row]


def places_of(texts, text):
    """From where to where each of the texts stands in a line."""
    return [(at, at + len(old)) for old in texts for at in [text.find(old)] if at >= 0]


def wrapped_antt(source, limit, quoted):
    out = []
    blocks = [0]  # where the declarations of each open block begin
    fresh = False  # the line before opens a block
    opened = []  # open brackets: where a line would go on after them
    before = ""
    for line in source.split("\n"):
        body = line.strip()
        indent = len(line) - len(line.lstrip(" "))
        if not body or body.startswith("--"):
            out += comment_lines(line, "--") if len(line) > limit and body.startswith("-- ") else [line]
            continue
        if fresh and not opened:
            blocks.append(indent)
        while blocks[-1] > indent:
            blocks.pop()
        statement = indent == blocks[-1] and not opened
        item = bool(opened) and before.endswith((",", ";", "(", "{"))
        if body[0] in CLOSE and opened:
            more = opened[-1]
        else:
            more = indent + 4 if statement or item or indent == blocks[-1] else indent
        if len(line) > limit:
            kept = places_of(quoted, line.lstrip(" "))
            if body.startswith(("use ", "pub use ")):
                new = [line] if kept else use_lines(body)
            else:
                new = code_lines(body, indent, more, statement, kept)
            out += new
        else:
            out.append(line)
        for word in tokens_of(body):
            if word[0] in OPEN:
                opened.append(more)
            elif word[0] in CLOSE and opened:
                opened.pop()
        fresh = body.split()[-1] in ("where", "mutual")
        before = body
    return "\n".join(out)


def code_lines(body, indent, more, statement, kept):
    """The lines that a line of code becomes, each `let` with one of its own."""
    parts = split_lets(body, kept)
    if len(parts) == 1:
        return broken(body, indent, more, statement, kept)
    lines = []
    for number, (a, b) in enumerate(parts):
        piece = body[a:b]
        inner = [(x - a, y - a) for x, y in kept]
        at = indent if number == 0 else more
        if number == 0 and statement:
            line = Line(piece, inner)
            equals = next((k for k in line.inside(0, line.count) if line.words[k] == "="), None)
            if equals is not None and equals + 1 < line.count and line.words[equals + 1] == "let":
                cut = line.start[equals + 1]
                lines += fitted(piece[:cut].rstrip(), indent, more, True, inner)
                lines += fitted(piece[cut:], more, more, False, [(x - cut, y - cut) for x, y in inner])
                continue
        lines += fitted(piece, at, more, statement and number == 0, inner)
    return lines


def fitted(piece, indent, more, statement, kept):
    """The piece as it is where it is short enough, else broken."""
    if indent + len(piece) <= AIM:
        return [" " * indent + piece]
    return broken(piece, indent, more, statement, kept)


def wrapped_rt(source, limit, quoted):
    out = []
    for line in source.split("\n"):
        body = line.strip()
        indent = len(line) - len(line.lstrip(" "))
        if len(line) <= limit:
            out.append(line)
        elif re.match(r"//[/!]? ", body):
            out += comment_lines(line, body.split(" ")[0])
        elif re.match(r"(requires|ensures)\b.*? \{ .* \}$", body):
            kept = places_of(quoted, body)
            a, b = body.index("{ ") + 2, body.rindex(" }")
            kept += [(-1, a), (b, len(body) + 1)]
            code = Line(body, kept)
            inner = [k for k in range(code.count) if a <= code.start[k] < b]
            code.measure(inner[0], inner[-1] + 1, 0)
            code.parts = {}
            lines = code.layout(0, code.count, indent, indent + 4)[1]
            out += lines
        else:
            out.append(line)
    return "\n".join(out)


def named_starts(source, limit):
    """The definitions `name c .. = ..` with a line too long that cite the start of the function, or the loop, three times and more
    by the same chain of `.before`: the chain is said once, by `let s = .. in` (the start) or `let l = .. in` (the loop)."""
    parts = re.split(r"(?m)^(?=\S)", source)
    out = []
    for part in parts:
        head = re.match(r"(\S+(?: [^\s=:]+)*) =(?=\s)", part)
        if (
            head
            and re.search(r" c(?= |$)", head[1])
            and not re.search(r"(?m)^\s+where$| where$|--", part)
            and any(len(line) > limit for line in part.split("\n"))
        ):
            body = part[head.end() :]
            lets = ""
            for name, ends in (("s", r"(?:args|pre)"), ("l", r"loop")):
                if re.search(r"(?<![\w.′-])%s(?![\w′-])" % name, head[1] + body):
                    continue
                chain = r"(?<![\w.′-])c((?:\s+\.before)+)(?=\s+\.%s(?![\w-]))" % ends
                found = [m[1].count(".before") for m in re.finditer(chain, body)]
                if name == "l":
                    chain = r"(?<![\w.′-])c((?:\s+\.before)+)\s+\.loop(?![\w-])"
                if not found:
                    continue
                deep = max(set(found), key=found.count)
                if found.count(deep) < 3 or deep < 2:
                    continue
                body = re.sub(chain, lambda m: name if m[1].count(".before") == deep else m[0], body)
                lets += "\n    let %s = c%s%s in" % (name, " .before" * deep, " .loop" if name == "l" else "")
            if lets:
                part = part[: head.end()] + lets + "\n    " + body.lstrip()
        out.append(part)
    return "".join(out)


def bare(text):
    """The text without blanks, comment marks and the separators before a closing bracket."""
    text = re.sub(r"(?m)^\s*(--|///?!?)", " ", text)
    text = re.sub(r"\}\s*\n(pub )?use \S+\.\{", ", ", text)
    text = re.sub(r"\s+", "", text)
    return re.sub(r"[,;]([)\]}])", r"\1", text)


def quotes(file):
    """The texts that the must-fail edits of the crate quote from the file."""
    parts = file.parts
    if "crates" not in parts:
        return []
    at = len(parts) - 1 - parts[::-1].index("crates")
    crate = pathlib.Path(*parts[: at + 2])
    own = "/".join(parts[at + 2 :])
    return [old for edit in sorted(crate.glob("must-fail/*.edit")) for name, old in olds(edit) if name == own]


def pairs(edit):
    """The file, the old and the new text of each pair of an edit."""
    name, old, found = None, None, []
    for line in edit.read_text(encoding="utf-8").split("\n"):
        if line.startswith("file: "):
            name = line[6:]
        elif line.startswith("old: "):
            old = line[5:]
        elif line.startswith("new:") and old is not None:
            found.append((name, old, line[5:]))
            old = None
    return found


def olds(edit):
    return [(name, old) for name, old, _ in pairs(edit)]


def is_written(file):
    """A file of crates/NAME is written by hand, unless it is below out/."""
    return file.parts[2] != "out"


def main():
    words = sys.argv[1:]
    limit = 200
    if "--over" in words:
        at = words.index("--over")
        limit = int(words[at + 1])
        del words[at : at + 2]
    if words[:1] == ["--edits"]:
        bad = 0
        for edit in sorted(pathlib.Path("crates").glob("*/must-fail/*.edit")):
            texts = {}
            for name, old, new in pairs(edit):
                file = edit.parent.parent / str(name)
                text = texts.get(file) or (file.read_text(encoding="utf-8") if file.is_file() else "")
                if text.count(old) != 1:
                    bad += 1
                    print("%s: %d times in %s: %s" % (edit, text.count(old), name, old))
                texts[file] = text.replace(old, new)
        return 1 if bad else 0
    if words[:1] == ["--starts"]:
        for file in [pathlib.Path(word) for word in words[1:]] or sorted(filter(is_written, pathlib.Path("crates").rglob("Proof.antt"))):
            text = file.read_text(encoding="utf-8")
            new = named_starts(text, limit)
            if new != text:
                print(file)
                file.write_text(new, encoding="utf-8")
        return 0
    if words[:1] not in (["--check"], ["--wrap"]):
        print(__doc__)
        return 2
    files = [pathlib.Path(word) for word in words[1:]]
    if not files:
        files = sorted(f for f in pathlib.Path("crates").rglob("*") if f.suffix in (".antt", ".rt") and f.is_file() and is_written(f))
    status, left = 0, 0
    for file in files:
        text = file.read_text(encoding="utf-8")
        if words[0] == "--wrap":
            quoted = quotes(file.resolve())
            new = (wrapped_rt if file.suffix == ".rt" else wrapped_antt)(text, limit, quoted)
            if bare(new) != bare(text) or any(text.count(old) != new.count(old) for old in quoted):
                print("%s: left alone, since more than blanks would change" % file)
                status = 1
            elif new != text:
                file.write_text(new, encoding="utf-8")
            text = file.read_text(encoding="utf-8")
        for number, line in enumerate(text.split("\n"), 1):
            if len(line) > limit:
                left += 1
                print("%s:%d: %d characters" % (file, number, len(line)))
    return 1 if left or status else 0


if __name__ == "__main__":
    sys.exit(main())
