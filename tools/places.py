#!/usr/bin/env python3
"""Lists the places in src/ that docs/DESIGN-PASS.md counts, point by point, and how many proof files stand beside them.

    tools/places.py [FOLDER] [--list]

FOLDER is a tree of this repository, this one if none is named; --list names each place. A rule here finds what may be a place, by the text alone:
which of them are one is read, and the page says so.
"""
import re
import sys
from collections import defaultdict
from pathlib import Path

# cases that say that there is no value, or why
WITHOUT = {"Refused", "Failed", "Nothing", "None", "Absent", "Stop", "NoRoom", "Unreadable", "Other", "TooMany"}

# a function of which the same shape may stand elsewhere has this many lines in its body
SHORTEST = 3


def sources(root):
    """Each source file's crate, path below the root, and text without comments."""
    for path in sorted(root.glob("crates/*/src/*.rt")):
        text = re.sub(r"//[^\n]*", "", path.read_text())
        yield path.parts[-3], path.relative_to(root), text


def functions(text):
    """Each function's name, parameters, clauses and body."""
    for m in re.finditer(r"^( *)(?:pub(?:\(crate\))? )?(?:extern \"C\" )?fn (\w+)[^(\n]*\(", text, re.M):
        indent, name, start = m.group(1), m.group(2), m.end()
        depth, end = 1, start
        while depth:
            depth += {"(": 1, ")": -1}.get(text[end], 0)
            end += 1
        signature = text[end:].split("\n", 1)[0]
        opening = text.find(" {\n", end) if signature.endswith(" {") else text.find(f"\n{indent}{{\n", end)
        closing = text.find(f"\n{indent}}}", opening)
        if 0 <= opening < closing:
            yield name, text[start : end - 1], text[end:opening], text[opening:closing].split("{", 1)[1]


def parameters(text):
    """The parameters of a function but for those that say which runtime it is."""
    parts = re.split(r",\s*(?![^<(\[]*[>)\]])", re.sub(r"\s+", " ", text))
    named = [re.sub(r"^mut ", "", p.strip()) for p in parts if ":" in p]
    return [p for p in named if not p.startswith("rt:")]


def own_enums(root):
    for _, path, text in sources(root):
        for m in re.finditer(r"enum (\w+) \{(.*?)\n\}", text, re.S):
            cases = re.findall(r"^\s+(\w+)(\(.*?\))?,", m.group(2), re.M)
            if len(cases) <= 5 and {c for c, _ in cases} & WITHOUT and any(v for _, v in cases):
                yield f"{path}: enum {m.group(1)}"


def numbers_for_kinds(root):
    for _, path, text in sources(root):
        for m in re.finditer(r"const (NONE|NO_\w+|TOO_LONG|DISAGREES|REFUSED|LOADED|PUT|FLIP|MARK|CLEAR|READ|SURVEY|LOAD|LIST)\b", text):
            yield f"{path}: const {m.group(1)}"
        for m in re.finditer(r"\b(refusal: u64|kind: u64)\b(?=,\n)", text):
            yield f"{path}: field {m.group(1)}"
        for m in re.finditer(r"\.number\(\) ==|== \w+::\w+\.number\(\)|match number \{", text):
            yield f"{path}: {m.group(0)}"


def twins(root):
    """Functions of one shape: their bodies are the same but for names, numbers and texts."""
    shapes = defaultdict(list)
    for _, path, text in sources(root):
        for name, _, _, body in functions(text):
            shape = re.sub(r"\s+", " ", body).strip()
            if body.strip().count("\n") + 1 < SHORTEST:
                continue
            shape = re.sub(r'b?"[^"]*"', "text", shape)
            shape = re.sub(r"\b0x[0-9A-Fa-f_]+\b|\b\d+\b", "0", shape)
            shape = re.sub(r"\b(?!let\b|mut\b|if\b|else\b|match\b|return\b|while\b|for\b|in\b|loop\b|as\b)[A-Za-z_]\w*", "x", shape)
            shapes[shape].append(f"{path}: {name}")
    for group in shapes.values():
        if len(group) > 1:
            yield " = ".join(group)


def loops(root):
    for _, path, text in sources(root):
        for m in re.finditer(r"^ +(while [^\n]*|loop) \{", text, re.M):
            yield f"{path}: {m.group(1)}"


def by_hand(root):
    forms = {
        r"\{ 1 \} else \{ 0 \}": "a bit as a number",
        r"fn (?:wide|counted|larger|smallest_with|same|says|digit|write_decimal|five)\b": None,
        r"fn (?:text|named|named_hex)\b": None,
        r"fn is_read\b|fn refusal_in\b|fn from_number\b": None,
    }
    for _, path, text in sources(root):
        for form, name in forms.items():
            for m in re.finditer(form, text):
                yield f"{path}: {name or m.group(0)}"


def repeated_facts(root):
    facts = defaultdict(set)
    pairs = defaultdict(set)
    for crate, path, text in sources(root):
        for name, given, clauses, _ in functions(text):
            for clause in re.findall(r"requires(?: \w+)? \{ (.*?) \}(?=\n|$)", clauses, re.S):
                for part in clause.split(" × "):
                    facts[crate, re.sub(r"\s+", " ", part).strip("() ")].add(name)
            named = parameters(given)
            for i, first in enumerate(named):
                for second in named[i + 1:]:
                    pairs[crate, first, second].add(name)
    for (crate, fact), where in facts.items():
        if len(where) >= 3:
            yield f"{crate}: requires {fact} in {len(where)}"
    for (crate, first, second), where in pairs.items():
        if len(where) >= 4:
            yield f"{crate}: {first}, {second} in {len(where)}"


def lengths_beside(root):
    beside = r"(\w+: (?:&(?:mut )?)?\[u(?:8|64)(?:; \w+)?\]), (?:at|size|length|held|lent|from): usize"
    for _, path, text in sources(root):
        for name, given, _, _ in functions(text):
            flat = ", ".join(parameters(given))
            if re.search(beside, flat):
                yield f"{path}: fn {name}"
        for m in re.finditer(r"struct (\w+) \{(.*?)\n\}", text, re.S):
            fields = m.group(2)
            if re.search(r"count: usize", fields) and re.search(r"\[u64; ", fields) or re.search(r"from: usize", fields) and "to: usize" in fields:
                yield f"{path}: struct {m.group(1)}"


def switches(root):
    for _, path, text in sources(root):
        for m in re.finditer(r"enum (Change|Separator|Call|Next)\b", text):
            yield f"{path}: enum {m.group(1)}"


def proof_files(root):
    for path in sorted(root.glob("crates/*/proofs/**/*.antt")):
        if path.name in ("Proof.antt", "Answers.antt", "Invariants.antt"):
            yield f"{path.relative_to(root)}"


POINTS = [
    ("1a own enums of the shape of Option or Result", own_enums),
    ("1b numbers for kinds, refusals and 'none'", numbers_for_kinds),
    ("2  groups of functions of one shape", twins),
    ("3  while and loop", loops),
    ("4  conversion, comparison and printing by hand", by_hand),
    ("5  facts of three or more contracts, pairs of parameters of four or more functions", repeated_facts),
    ("6  lengths and places beside a buffer", lengths_beside),
    ("7  enums that say which step to run", switches),
    ("8  proof files of functions", proof_files),
]


def main():
    named = [a for a in sys.argv[1:] if a != "--list"]
    root = Path(named[0]) if named else Path(__file__).resolve().parent.parent
    for title, rule in POINTS:
        places = list(rule(root))
        print(f"{len(places):4}  {title}")
        if "--list" in sys.argv:
            for place in places:
                print(f"        {place}")


main()
