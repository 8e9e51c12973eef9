#!/usr/bin/env python3
"""Spells the repository's own definitions and lemmas as today's Rattle does: words in snake case, types in camel case.

usage: python3 tools/spell.py          in the repository, once, on what port.py left: renames in crates/*/{specs,proofs,src}
       python3 tools/spell.py --list   prints old and new names, and the new names that stand somewhere already

Functions of src/, exported names, strings and the names that Rattle makes for proofs keep theirs.
"""

import os
import re
import sys

WORD = r"[^\W\d][\w'\-]*"
# Names that are declared: `pub f : ..`, `f g : ..` in a where block or a record, `| c : ..` in a data type; the colon may begin the next line.
DECLARED = re.compile(r"^\s*(?:(?:abbrev|unfoldable|pub|\|)\s+)*(" + WORD + r"(?:\s+" + WORD + r")*)\s+:(?=\s)")
ALONE = re.compile(r"^\s*(?:(?:abbrev|unfoldable|pub|\|)\s+)*" + WORD + r"\s*$")
TYPED = re.compile(r"^\s*(?:(?:abbrev|unfoldable|pub)\s+)*(?:record|data)\s+(" + WORD + r")")
# Rattle's own statements: an answer, an invariant or a measure.
MADE = re.compile(r":\s*(?:goal|given)\.")
TOKEN = re.compile(r"(?<![\w'\-])(" + WORD + r")")
CAMEL = re.compile(r"^[a-z]\w*[A-Z]")
# A lemma that would fall together with the word it is about.
LEMMA = {n: n.replace("-", "_") + "_lem" for n in (
    "at-phase", "clauses-ok", "head-of", "in-reduct", "limit-of", "rule-at", "rule-of", "settled-word", "settles-by", "sure-from")}
LEMMA["Rest-from"] = "rest_from"
# The same where port.py had spelled the lemma already: file, name, new name.
APART = [
    ("crates/words/proofs/Small.antt", "place_of", "place_of_lem"),
    ("crates/words/proofs/Cut.antt", "place_of", "place_of_lem"),
    ("crates/sheet/proofs/Beginning.antt", "word_number", "word_number_lem"),
]


def sources(root):
    for folder, dirs, files in os.walk(os.path.join(root, "crates")):
        dirs[:] = sorted(d for d in dirs if d != "out")
        for name in sorted(files):
            if name.endswith((".antt", ".rt")):
                yield os.path.join(folder, name)


def read(path):
    with open(path, encoding="utf-8") as f:
        return f.read()


def spelled(name, types):
    """The name as today's Rattle spells it."""
    if name in LEMMA:
        return LEMMA[name]
    parts = name.split("-")
    if name[0].isupper():
        return "".join(p[0].upper() + p[1:] for p in parts)
    return "_".join(p if p in types else re.sub(r"(?<=[a-z0-9])([A-Z])", lambda m: "_" + m[1].lower(), p) for p in parts)


def declarations(texts):
    """What is declared in specs/ and proofs/: all names, the fields of records among them, and the types."""
    names, fields, types = set(), set(), set()
    for path, text in texts.items():
        if not path.endswith(".antt"):
            continue
        record_at = None
        lines = text.split("\n")
        for line, after in zip(lines, lines[1:] + [""]):
            if line.strip().startswith("--") or not line.strip():
                continue
            if ALONE.match(line) and after.strip().startswith(":"):
                line = line + " " + after.strip()
            line += "\n"
            depth = len(line) - len(line.lstrip())
            if record_at is not None and depth <= record_at:
                record_at = None
            typed = TYPED.match(line)
            if typed:
                types.add(typed[1])
                names.add(typed[1])
                if "record" in line[: typed.start(1)]:
                    record_at = depth
                continue
            declared = DECLARED.match(line)
            if declared and not MADE.search(line):
                found = set(declared[1].split())
                names |= found
                if record_at is not None:
                    fields |= found
    types |= {n for n in names if n[0].isupper()}
    return names, fields, types


def main():
    texts = {p: read(p) for p in sources(".")}
    names, fields, types = declarations(texts)
    turn = {n: spelled(n, types) for n in names if "-" in n or CAMEL.match(n)}
    turn = {old: new for old, new in turn.items() if old != new}
    there = {}
    for path, text in texts.items():
        for token in set(TOKEN.findall(text)):
            there.setdefault(token, set()).add(path)
    taken = {}
    for old, new in turn.items():
        taken.setdefault(new, []).append(old)
    if "--list" in sys.argv:
        for old, new in sorted(turn.items()):
            print(old, new)
        for new, olds in sorted(taken.items()):
            if len(olds) > 1:
                print("together:", new, *olds)
            if new in there:
                print("stands:", new, "for", *olds, "in", *sorted(there[new])[:6])
        return

    for path, old, new in APART:
        path = os.path.join(".", path)
        if new in texts[path]:
            continue
        turned_text = re.sub(r"(?<![\w'.-])" + old + r"(?![\w'-])", new, texts[path])
        with open(path, "w", encoding="utf-8") as f:
            f.write(turned_text)
        texts[path] = turned_text
    for path in [p for p in ["README.md"] + [os.path.join("docs", d) for d in sorted(os.listdir("docs"))] if p.endswith(".md")]:
        text = read(path)
        new = re.sub(r"`[^`\n]*`", lambda m: turned(m[0], turn, fields), text)
        if new != text:
            with open(path, "w", encoding="utf-8") as f:
                f.write(new)
    for path, text in texts.items():
        made = []
        for line in text.split("\n"):
            if path.endswith(".antt") and MADE.search(line):
                head, colon, tail = line.partition(":")
                made.append(head + colon + turned(tail, turn, fields))
            else:
                made.append(turned(line, turn, fields))
        new = "\n".join(made)
        if new != text:
            with open(path, "w", encoding="utf-8") as f:
                f.write(new)


def turned(line, turn, fields):
    def word(match):
        name, at = match[1], match.start(1)
        if name not in turn:
            return name
        if at and line[at - 1] == ".":
            before = re.search(r"([^\s(){}\[\],]*)\.$", line[:at])[1]
            module = before.rsplit(".", 1)[-1][:1].isupper()
            if not module and name not in fields:
                return name
        return turn[name]

    return TOKEN.sub(word, line)


if __name__ == "__main__":
    main()
