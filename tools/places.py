#!/usr/bin/env python3
"""Counts the places of older forms in src/, by the points of docs/DESIGN-PASS.md.

usage: tools/places.py [--list] [TOP]      TOP: a checkout, this one where it is left out

What it finds are places to look at, not faults: the page says which of them were changed and which stay, and why.
"""
import collections
import pathlib
import re
import sys

LINES = {
    "1 enums": r"^\s*(pub(\([a-z]+\))? )?enum ",
    "1 flags: a variable that is true or false": r"let mut \w+ = (true|false);",
    "1 flags: a parameter or a field": r"\b(?!result)[a-z_]+: bool\b",
    "1 sentinels": r"65535|\bNO_HEAD\b|\bNONE\b|\bTOO_WIDE\b",
    "1 numbers for kinds": r"\b(way|pin|number|texts|text|sign): u(8|16)\b",
    "1 refusals handed on by hand": r"Option<(Refusal|Cause)>|Some\((cause|refusal|e)\) => Err|return Err\((e|cause)\)"
    r"|Err\((e|cause)\) => (Err|Reply)|Err\(_\) =>",
    "3 loops that count or that have no iterator": r"\bwhile \b|\bloop \{|\bfor [a-z_]+ in \(?[a-z0-9_.()]*\.\.",
    "4 numbers and names by a match": r"=> (\d+|\"[^\"]*\"),$",
    "4 equality by hand": r"\.number\(\) == |(\[\d+\] == .*&& .*\[\d+\] == )|(\.\w+ == \w+ && .*\.\w+ == \w+)",
    "4 printing by hand": r"\b(print|println|format|eprintln)!\(",
    "6 fixed buffers": r"\[[^\[\];]+; ?[A-Z_0-9]+\]",
    "7 closures as parameters, dyn": r"\bF[a-zA-Z]*: Fn|\bdyn ",
}
WHOLE = {
    "1 flags: a bool beside lent memory": r"fn \w+(?:<[^>]*>)?\([^)]*&mut [^)]*\) -> bool",
    "1 theorems that give a number": r"-> u8\s+ensures[^{]*\{[^\n]*\}\s*(?:ensures[^{]*\{[^\n]*\}\s*)*\{\s*0\s*\}",
}
FN = re.compile(r"fn (\w+)(?:<[^>]*>)?\(([^)]*)\)[^{;]*?((?:\n\s*(?:requires|ensures)[^\n]*)*)")


def sources(top):
    return sorted(p for p in (top / "crates").glob("*/src/**/*.rt"))


def clause_text(line):
    return re.sub(r"^\s*(requires|ensures)\s*\w*\s*", "", line).strip()


def functions(text):
    """Each function's name, parameters and clauses, tests left out."""
    for m in re.finditer(r"(#\[test\]\s*)?(?:pub(?:\([a-z]+\))? )?fn (\w+)(?:<[^>]*>)?\(([^)]*)\)([^;{]*(?:\{ [^\n]*\}[^;{]*)*)[;{]", text):
        if not m.group(1):
            yield m.group(2), m.group(3), [l for l in m.group(4).split("\n") if re.match(r"\s*(requires|ensures)", l)]


def main():
    args = [a for a in sys.argv[1:] if a != "--list"]
    listed = "--list" in sys.argv
    top = pathlib.Path(args[0] if args else pathlib.Path(__file__).resolve().parent.parent)
    found = collections.OrderedDict((k, []) for k in sorted(list(LINES) + list(WHOLE)))
    names, needs, pairs = collections.defaultdict(set), collections.defaultdict(set), collections.defaultdict(set)
    for path in sources(top):
        text = path.read_text()
        where = str(path.relative_to(top / "crates"))
        for key, pattern in LINES.items():
            for n, line in enumerate(text.split("\n"), 1):
                code = line.split("//")[0]
                if re.search(pattern, code):
                    found[key].append(f"{where}:{n}: {line.strip()}")
        for key, pattern in WHOLE.items():
            for m in re.finditer(pattern, text):
                found[key].append(f"{where}:{text.count(chr(10), 0, m.start()) + 1}: {m.group(0).split(chr(10))[0][:80]}")
        for name, params, clauses in functions(text):
            crate = where.split("/")[0]
            names[name].add(where)
            for c in clauses:
                if c.strip().startswith("requires"):
                    needs[clause_text(c)].add(f"{where} {name}")
            ps = [p.strip() for p in params.split(",") if ":" in p]
            for i in range(len(ps)):
                for j in range(i + 1, len(ps)):
                    pairs[(ps[i], ps[j])].add(f"{crate} {name}")
    for key, places in found.items():
        print(f"{key}: {len(places)}")
        if listed:
            print("".join(f"    {p}\n" for p in places), end="")

    def table(title, rows):
        print(f"{title}: {len(rows)}")
        if listed:
            for key, places in sorted(rows.items(), key=lambda r: -len(r[1])):
                print(f"    {len(places)} x {key}: {'; '.join(sorted(places))}")

    trait_words = {"width", "question", "extend", "new", "number", "main", "count", "turn", "swift", "is_plan", "from"}
    table("2 names of functions that stand in two files", {k: v for k, v in names.items() if len(v) > 1 and k not in trait_words})
    table("5 requires that stand in three functions", {k: v for k, v in needs.items() if len(v) > 2})
    table("5 parameters that stand together in three functions", {" + ".join(k): v for k, v in pairs.items() if len(v) > 2})
    proofs = [p for p in (top / "crates").glob("*/proofs/**/*.antt")]
    lines = sum(len(p.read_text().split("\n")) - 1 for p in proofs)
    print(f"8 files of proofs: {len(proofs)}, of which answers and invariants: "
          f"{sum(p.name in ('Answers.antt', 'Invariants.antt') for p in proofs)}; lines: {lines}")


main()
