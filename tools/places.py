#!/usr/bin/env python3
"""Counts places in crates/*/src that have the form of an older Rattle: one line for each sort of place of docs/DESIGN-PASS.md.

  tools/places.py [COMMIT] [--list]     the files as they stand, or at a commit; --list prints each place
"""
import glob
import re
import subprocess
import sys

args = [a for a in sys.argv[1:] if not a.startswith("--")]
listing = "--list" in sys.argv


def sources():
    if not args:
        return {p: open(p, encoding="utf-8").read() for p in sorted(glob.glob("crates/*/src/*.rt"))}
    names = subprocess.run(["git", "ls-tree", "-r", "--name-only", args[0]], capture_output=True, text=True, check=True).stdout.split("\n")
    show = lambda p: subprocess.run(["git", "show", f"{args[0]}:{p}"], capture_output=True, text=True, check=True).stdout
    return {p: show(p) for p in names if re.fullmatch(r"crates/\w+/src/.*\.rt", p)}


CODE = r"(?:kind|stage|range|head|children|refused|number|left|right|on_left|on_right|state|held|event|finished|mark)"
# Each sort: the point, what it is, and a pattern that is sought in each line (None: see below).
SORTS = [
    (1, "an own enum of two cases, one of them with a value", None),
    (1, "a number that stands for a kind, a stage, a range or another case: compared", rf"\b{CODE}\s*(?:==|!=|<=|<|>=|>)\s*\d|\b\d+\s*(?:<=|<)\s*{CODE}\b"),
    (1, "such a number: an arm of a match", r"^\s*\d+ (?:\| \d+ )*=>"),
    (1, "a refusal by its number", r"\brefused\(\d|\bnumber: \d"),
    (1, "a flag that says which kind, or whether the values beside it count", r"^\s*(?:pub )?(?:and|input|right|grounded|marked): bool|\((?:.*, )?(?:and|input): bool"),
    (2, "a function that only widens a number", r"^fn wide\("),
    (2, "a function that is max, min or a sum that stops", r"^fn (?:larger|higher|further|add|one_more|either)\("),
    (2, "loading or storing an array, once for each type", r"fn (?:load|store)_\w+\("),
    (3, "while", r"^\s*while "),
    (4, "digits, text or lines put into a buffer by hand", r"fn put_\w+\(|fn \w+_line\("),
    (4, "a number's bits or bytes taken apart by hand", r"% 256\) as u8|/ 256 %|/ 65536|/ 16777216|256 \* |65536 \* |\(!bits\)|\(!z\)"),
    (4, "bytes written one by one", r"^\s*\w+\[\w+(?: \+ \d+)?\] = (?:0|\w+ as u8|\(.*\) as u8|byte);"),
    (4, "a Checked, a Refusal or a count handed on field by field", r"Checked::Refused\(refusal\) =>"),
    (5, "a place of a table whose shape is right, asked for in a clause", r"requires.*\b(?:Spot|Place) table"),
    (5, "the size of a table or of an array, asked for in a clause", r"requires.*(?:most_records|length (?:marks|st|vars|held|path)\b)"),
    (5, "an accepted table, asked for in a clause", r"requires.*\bSound table"),
    (5, "variables, room and counts lent one beside the other", r"^\s*counts: &mut \[u64; 2\],|counts: &mut \[u64; 2\]\)"),
    (6, "an array of numbers with a meaning for each index", r"(?:counts|awaited|path|fits|rests): &(?:mut )?\[u\d+;"),
    (6, "a buffer and a position in it", r"buffer: &mut \[u8; LINE_BYTES\], at"),
    (7, "a stage number that picks what is tested", r"stage: u8"),
]


def two_cases(text):
    for m in re.finditer(r"enum (\w+)(?:<.*?>)? \{\n(.*?)\n\}", text, re.S):
        cases = [c for c in m.group(2).split("\n") if re.match(r"\s*\w+", c) and not c.strip().startswith("//")]
        if len(cases) == 2 and any("(" in c or "{" in c for c in cases):
            yield text.count("\n", 0, m.start()) + 1, m.group(0).split("\n")[0]


texts = sources()
for point, what, pattern in SORTS:
    found = []
    for path, text in texts.items():
        if pattern is None:
            found += [(path, n, line) for n, line in two_cases(text)]
            continue
        for n, line in enumerate(text.split("\n"), 1):
            if not line.strip().startswith(("//", "ghost use")) and re.search(pattern, line):
                found.append((path, n, line))
    print(f"{point} | {what} | {len(found)}")
    if listing:
        for path, n, line in found:
            print(f"      {path}:{n}: {line.strip()[:110]}")
many = [(p, m.group(1)) for p, t in texts.items() for m in re.finditer(r"fn (\w+)(?:<[^(]*>)?\(([^{]*?)\)(?: ->|\n|\s*\{)", t) if m.group(2).count(": ") >= 6]
print(f"5 | a function of six parameters or more | {len(many)}")
if listing:
    for p, n in many:
        print(f"      {p}: {n}")
