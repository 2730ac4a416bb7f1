#!/usr/bin/env python3
"""Lists the places in crates/*/src that may have a plainer form, point by point (docs/DESIGN-PASS.md).
usage: tools/forms.py [POINT..]     from the top of the repository; every point where none is named"""
import collections
import pathlib
import re
import sys

FILES = sorted(pathlib.Path("crates").glob("*/src/**/*.rt"))
TEXT = {f: f.read_text() for f in FILES}


def lines(pattern):
    """Lines of code that match, and no comment or ghost line."""
    found = []
    for file, text in TEXT.items():
        for number, line in enumerate(text.split("\n"), 1):
            if re.search(pattern, line) and not re.match(r"\s*(//|ghost|requires|ensures)", line):
                found.append((file, number, line.strip()))
    return found


def closed(text, at, opening, closing):
    """Where what opens at that place is closed again."""
    depth = 0
    while True:
        depth += {opening: 1, closing: -1}.get(text[at], 0)
        at += 1
        if depth == 0:
            return at


def functions():
    """Each function: its file, line, name, parameters, clauses and body."""
    for file, text in TEXT.items():
        for m in re.finditer(r"\n *(?:pub(?:\(crate\))? )?fn (\w+)", text):
            start = text.index("(", m.end())
            end = closed(text, start, "(", ")")
            at = end + re.search(r"\{\n|\{\}\n|;\n", text[end:]).start()
            body = text[at : closed(text, at, "{", "}")] if text[at] == "{" else ""
            yield file, text.count("\n", 0, m.start()) + 2, m.group(1), text[start + 1 : end - 1], text[end:at], body


def twins():
    """Functions whose bodies are alike but for names and values."""
    keep = set("if else match for in while let mut return Some None Ok Err true false self Self as".split())
    shape = collections.defaultdict(list)
    for file, number, name, _, _, body in functions():
        if body.count("\n") < 2:
            continue
        flat = re.sub(r"//.*", "", body)
        flat = re.sub(r"\b\w+\b", lambda w: w.group() if w.group() in keep else "x", flat)
        shape[re.sub(r"\s+", "", flat)].append((file, number, name))
    return [(f, n, name) for same in shape.values() if len(same) > 1 for f, n, name in same]


def together():
    """Pairs of parameters, name and type, that stand in three or more functions, and facts that three or more require."""
    pairs, facts = collections.Counter(), collections.Counter()
    for _, _, _, parameters, head, _ in functions():
        names = [p.strip().replace("\n", " ") for p in re.split(r",(?![^<(]*[>)])", parameters) if ":" in p]
        names = [n for n in names if not n.startswith("rt:")]
        pairs.update((a, b) for i, a in enumerate(names) for b in names[i + 1 :])
        facts.update(set(re.findall(r"requires(?: \w+)? \{ (.*) \}", head)))
    return [(n, " | ".join(p)) for p, n in pairs.items() if n > 2] + [(n, f) for f, n in facts.items() if n > 2]


ARMS = r"^\s*(None|Some\(\w+\)|Ok\(\w+\)|Err\(\w+\)) => (None|true|false|0|Ok\(\w+\)|Err\([\w.]+\)|Some\([\w.&()]+\)),$"
POINTS = {
    "1": lambda: lines(r"\benum |^\s+(pub(\(crate\))? )?\w+: bool,|-> Option<Refusal>|-> u8|Refused\((\d|u8)"),
    "2": twins,
    "3": lambda: lines(r"\bfor \w+ in \w+\.\.|\bwhile |\bloop \{"),
    "4": lambda: lines(ARMS + r"|fn new\(\)|const \w+: (Standing|Record|Trade|Quote)|impl fmt::Display|impl PartialEq|^struct \w+\(|^pub struct \w+\(pub"),
    "5": together,
    "6": lambda: lines(r"^\s+(pub(\(crate\))? )?\w+: (\[|&'a mut \[|Vec<)"),
    "7": lambda: lines(r"\btrait \w+|\bdyn |: fn\("),
}

for point in sys.argv[1:] or POINTS:
    found = POINTS[point]()
    print(f"point {point}: {len(found)}")
    for row in found:
        print("  " + ":".join(str(part) for part in row[:2]) + (" " + str(row[2]) if len(row) > 2 else ""))
