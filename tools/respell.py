#!/usr/bin/env python3
"""Brings this repository's own definitions and lemmas to the spelling of the kit's library, once, after the kit's port.py.

usage: tools/respell.py [--list]      at the top; --list prints the table, old and new, and writes nothing

Words of a name are joined by an underscore, and no word but a type's begins with a capital letter. A dash stays between the names of two
definitions, as in the library's `length-append`. What turns: the text of specs/ and proofs/, but for the proofs of functions, whose goals
the kit names; clauses and ghost lines of src/; what stands in backquotes on pages and in comments; and the lines of edits of definitions.
"""
import collections
import os
import re
import sys

KNOWN = """length take drop append map set mod div xor and or lt le eq suc zero ones bit bits pow gap not shl shr mul add sub rem""".split()
# Two names that would fall together: what is proved of a definition has `_lem` behind the name of the definition.
APART = """all_right all_right_lem
code-of code_of_lem
fed-bit fed_bit_lem
frames-in frames_in_lem
hex-spelled hex_spelled_lem
in-range in_range_lem
in-turn in_turn_lem
is-flag is_flag_lem
is_known is_known_lem
marks-of marks_of_lem
no-tag without_tag
no_word no_word_lem
past-count passes_count
read-of read_of_lem
run-broken run_broken_lem
sent-as sent_as_lem
sums_by sums_by_lem
zero-filled is_zero_filled"""
# In these crates the name is the one that Rattle makes of a field.
FIELDS = {"no_word": ("tally", "lane", "printout", "wording", "listing", "desk", "cases")}
DEFINED = re.compile(r"^(\s*)(?:(?:abbrev|unfoldable|pub|ruleset)\s+)*([^\s:{}()λ∷,.=]+)\s*:\s", re.M)
NAMES = re.compile(r"[^\s(){}.;,@\"«»`│]+")
CLAUSE = re.compile(r"(?:requires|ensures)\s*\*?\s*(?:\w+\s*)?\{|ghost\s+use\b")


def files(*ends):
    for folder, dirs, names in os.walk("crates"):
        dirs[:] = sorted(d for d in dirs if d not in ("out", ".git"))
        for name in sorted(names):
            if name.endswith(ends):
                yield os.path.join(folder, name)


def read(path):
    with open(path, encoding="utf-8") as it:
        return it.read()


def bare(text):
    return re.sub(r"--[^\n]*", "", text)


def is_function(path):
    return os.path.basename(path) in ("Proof.antt", "Answers.antt", "Invariants.antt") and path.count("/") > 3


def snake(name):
    name = re.sub(r"(?<=[a-z0-9])([A-Z])", lambda m: "_" + m[1].lower(), name)
    return name


def table():
    defined, specs, claims = set(), set(), set()
    for path in files(".antt"):
        if is_function(path):
            continue
        text = bare(read(path))
        for m in DEFINED.finditer(text):
            defined.add(m[2])
            if "/specs/" in path and not m[1]:
                (claims if m[2][0].isupper() else specs).add(m[2])
    known = set(KNOWN) | {snake(n) for n in specs}
    kebab = {re.sub(r"(?<!^)([A-Z]|[0-9]+)", r"-\1", c).lower() for c in claims}
    out = dict(line.split() for line in APART.split("\n"))
    for name in defined - set(out):
        if name[0].isupper() or not re.search(r"[A-Za-z]", name):
            continue
        new = snake(name)
        if "-" in new.strip("-"):
            parts = new.split("-")
            if new in kebab or not all(p in known for p in parts):
                new = re.sub(r"(?<=[\w'?₀-₉])-(?=[\w₀-₉])", "_", new)
        if new != name:
            out[name] = new
    return out, defined


def swap(text, names):
    """Each name of the table turned, but in quoted text."""
    parts = re.split(r'("[^"\n]*")', text)
    return "".join(p if p.startswith('"') else NAMES.sub(lambda m: names.get(m[0], m[0]), p) for p in parts)


def antt(text, names):
    out = []
    for line in text.split("\n"):
        at = line.find("--")
        if at < 0 or (at > 0 and not line[at - 1].isspace()):
            out.append(swap(line, names))
        else:
            out.append(swap(line[:at], names) + comment(line[at:], names))
    return boxes("\n".join(out))


def comment(text, names):
    if text.startswith("-- │"):
        cells = text.split("│")
        cells[1] = swap(cells[1], names)
        cells[2:] = [spans(c, names) for c in cells[2:]]
        return "│".join(cells)
    return spans(text, names)


def spans(text, names):
    return re.sub(r"`[^`\n]+`", lambda m: "`" + swap(m[0][1:-1], names) + "`", text)


def boxes(text):
    """Each box as wide as its widest cell asks."""
    lines, at = text.split("\n"), 0
    while at < len(lines):
        if not lines[at].startswith("-- ┌"):
            at += 1
            continue
        end = at
        while end < len(lines) and not lines[end].startswith("-- └"):
            end += 1
        rows = [line.split("│")[1:-1] for line in lines[at + 1 : end]]
        count = len(rows[0])
        if any(len(row) != count for row in rows):
            at = end + 1
            continue
        was = [len(c) for c in lines[at][4:].rstrip("┐").split("┬")]
        need = [max(len(row[k].rstrip()) + 1 for row in rows) for k in range(count)]
        wide = [max(was[k], need[k]) for k in range(count)]
        if wide != was or any(len(row[k]) != wide[k] for row in rows for k in range(count)):
            lines[at] = "-- ┌" + "┬".join("─" * w for w in wide) + "┐"
            lines[end] = "-- └" + "┴".join("─" * w for w in wide) + "┘"
            for k, row in enumerate(rows):
                lines[at + 1 + k] = "-- │" + "│".join(row[j].rstrip().ljust(wide[j]) for j in range(count)) + "│"
        at = end + 1
    return "\n".join(lines)


def clause_ends(text, at):
    depth = 0
    for k in range(at, len(text)):
        if text[k] == "{":
            depth += 1
        elif text[k] == "}":
            depth -= 1
            if not depth:
                return k + 1
    return len(text)


def rt(text, names):
    out, at = [], 0
    for m in CLAUSE.finditer(text):
        if m.start() < at or "//" in text[text.rfind("\n", 0, m.start()) + 1 : m.start()]:
            continue
        end = text.index(";", m.start()) if m[0].startswith("ghost") else clause_ends(text, m.end() - 1)
        out += [text[at : m.start()], swap(text[m.start() : end], names)]
        at = end
    text = "".join(out) + text[at:]
    return re.sub(r"//[^\n]*", lambda m: spans(m[0], names), text)


def main():
    every, defined = table()
    fallen = collections.defaultdict(list)
    for old, new in every.items():
        fallen[new].append(old)
    for new, olds in sorted(fallen.items()):
        if len(olds) > 1 or new in defined:
            print(f"look: {' and '.join(sorted(olds))} {'and what is ' + new if new in defined else ''} fall together as {new}", file=sys.stderr)
    if "--list" in sys.argv:
        print("\n".join(f"{old}\t{new}" for old, new in sorted(every.items())))
        return
    for path in files(".antt", ".rt", ".edit"):
        text = read(path)
        names = {old: new for old, new in every.items() if path.split("/")[1] not in FIELDS.get(old, ())}
        if path.endswith(".antt"):
            new = antt(text, names)
        elif path.endswith(".rt"):
            new = rt(text, names)
        else:
            new = edit(text, names)
        if new != text:
            with open(path, "w", encoding="utf-8") as it:
                it.write(new)
    pages = ["README.md"] + [os.path.join(d, f) for d, _, fs in os.walk("docs") for f in fs if f.endswith(".md") and f != "PORT.md"]
    for path in pages:
        text = read(path)
        new = spans(text, every)
        if new != text:
            with open(path, "w", encoding="utf-8") as it:
                it.write(new)


def edit(text, names):
    out, of = [], ""
    for line in text.split("\n"):
        if line.startswith("file: "):
            of = line[6:].split("/")[0]
        if of in ("specs", "proofs") and line.startswith(("old:", "new:")):
            line = line[:4] + swap(line[4:], names)
        out.append(line)
    return "\n".join(out)


main()
