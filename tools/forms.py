#!/usr/bin/env python3
"""Counts places of older forms in crates/*/src, by the points of docs/DESIGN-PASS.md.

    python3 tools/forms.py [FOLDER] [-v]

FOLDER is the top of a checkout, `.` by default. With -v each place is printed.
"""
import collections
import pathlib
import re
import sys

# point, what is counted, pattern over a file's text
FORMS = [
    ("1", "`return None` and `return Err` of a `let .. else`, where `?` would do", r"else \{\s*return (?:None|Err\([^;]*\));\s*\}"),
    ("1", "`if !f() { return None; }`", r"if !\w+\([^)]*\) \{\s*return None;\s*\}"),
    ("1", "an arm that hands a value or an error on", r"(?m)^\s*(?:None => (?:None|Err\()|Some\((\w+)\) => (?:Ok|Some)\(\1\)|Ok\(\w*\) => Ok\(|Err\(\w+\) => (?:Err\(|unreachable|false))"),
    ("1", "an enum", r"(?m)^\s*(?:pub(?:\(crate\))? )?enum \w+"),
    ("1", "a field that is a flag, or a table of flags", r"(?m)^\s+(?:pub(?:\(crate\))? )?\w+: (?:bool|\[bool; \d+\]),"),
    ("1", "a `bool` that says whether a thing was done", r"(?m)^\s*//+ .*(?:[Ff]alse, and nothing done|; false where)"),
    ("1", "a kind by its number", r"\b(?:kind|code): u8\b"),
    ("1", "an error that carries the value back", r"Result<\w*(?:\(\))?, \(\w+, \w+\)>"),
    ("3", "a loop over numbers, or a `while`", r"(?m)^\s*(?:for \w+ in [^{]*\.\.|while )"),
    ("4", "a test of a byte by its bounds, a digit made or read by hand", r">= b'|<= b'|b'0' \+|- b'0'"),
    ("4", "a widening cast by `as`", r"\bas (?:u32|u64|i64)\b"),
    ("4", "a function that is one comparison or one conversion", r"\{\s*(?:a == b|s == t|if b \{ 1 \} else \{ 0 \})\s*\}"),
    ("5", "a bound on a length or a number that a private function asks for", r"requires[^{]*\{[^}]*(?:256 ≤ length|unsigned_abs|PidRanges|Ranges |long records)"),
    ("5", "a function of seven parameters or more", None),
    ("6", "a field that is a length or a place beside a buffer", r"(?m)^\s+(?:pub(?:\(crate\))? )?(?:count|used|size|at|len): usize,"),
    ("6", "a field that is a table", r"(?m)^\s+(?:pub(?:\(crate\))? )?\w+: \[[\w<>]+; \d+\],"),
    ("7", "a `dyn`, a function pointer or a boxed closure", r"\bdyn \w|: fn\(|Box<"),
    ("7", "an enum of steps that is matched to run one", r"(?m)^\s*(?:Verb|Command|Call|Edit)::\w+.* => "),
]


def wide(text):
    """Functions of seven parameters or more."""
    found = []
    for m in re.finditer(r"fn (\w+)(?:<[^(]*>)?\(([^)]*)\)", text):
        if len([p for p in m.group(2).split(",") if ":" in p or "self" in p]) >= 7:
            found.append((m.start(), m.group(1)))
    return found


def main():
    args = [a for a in sys.argv[1:] if a != "-v"]
    top = pathlib.Path(args[0] if args else ".")
    files = sorted(p for p in top.glob("crates/*/src/**/*.rt") if "out" not in p.parts)
    names = collections.defaultdict(set)
    for point, what, pattern in FORMS:
        places = []
        for path in files:
            text = path.read_text()
            found = wide(text) if pattern is None else [(m.start(), m.group(0).strip()) for m in re.finditer(pattern, text)]
            places += [(path, text[:at].count("\n") + 1, said) for at, said in found]
        print(f"{len(places):4}  {point}  {what}")
        if "-v" in sys.argv:
            for path, line, said in places:
                print(f"        {path.relative_to(top)}:{line}: {said.splitlines()[0]}")
    for path in files:
        crate = path.relative_to(top).parts[1]
        for name in re.findall(r"(?m)^\s*(?:pub(?:\(crate\))? )?(?:final )?fn (\w+)", path.read_text()):
            names[name].add(crate)
    twice = {n: c for n, c in names.items() if len(c) > 1}
    print(f"{len(twice):4}  2  a name of functions in more than one crate")
    if "-v" in sys.argv:
        for name, crates in sorted(twice.items()):
            print(f"        {name}: {', '.join(sorted(crates))}")
    proofs = [p for p in top.glob("crates/*/proofs/**/*.antt") if "out" not in p.parts]
    for kind in ("Answers.antt", "Invariants.antt"):
        of = [p for p in proofs if p.name == kind]
        print(f"{len(of):4}  8  files {kind}, of {sum(len(p.read_text().splitlines()) for p in of)} lines")
    rest = [p for p in proofs if p.name not in ("Answers.antt", "Invariants.antt", "Lib.antt")]
    print(f"{len(rest):4}  8  lemma files, of {sum(len(p.read_text().splitlines()) for p in rest)} lines")


main()
