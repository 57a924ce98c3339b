#!/usr/bin/env python3
"""Brings this repository's own names to the spelling of today's Rattle, after port.py: words in snake case, types and modules in camel case.

usage: python3 tools/port_names.py     at the top of the repository, once, right after /opt/rattle/port/port.py

A name is turned part by part, its parts being joined by dashes: a part that begins small and holds capitals gets underscores (recordsOf becomes
records_of). Functions of src/, exported C names, strings, inputs and outputs have no such name, and stay. Where a lemma has the name that a
definition gets, the lemma gets _lem after it.
"""

import os
import re

WORD = re.compile(r"[^\s(){}\[\];,.∷λ→×⊎≡≢≤<>+*/=|:`\"◌]+")
# what the library and Rattle made, and variables of one capital
KEPT = {"mut_slice_Tells", "uint_Makes", "mut_Tells", "uint_Tells", "shr_slice_Tells", "sint_Tells", "sint_Lawful", "eE", "oP", "oQ", "sN"}
# lemmas that would fall together with a definition: the name, and the files that hold or cite the lemma and not the definition
LEMMAS = {"all_pass": "allPass", "goes_on": "goesOn", "not_plain": "notPlain", "one_more": "oneMore", "row_fits": "rowFits"}


def files():
    """Every source, definition, proof and edit of the crates."""
    for folder, dirs, names in os.walk("crates"):
        dirs[:] = sorted(d for d in dirs if d != "out")
        for name in sorted(names):
            if name.endswith((".antt", ".rt", ".edit")):
                yield os.path.join(folder, name)


def part_turned(part):
    """recordsOf: records_of; anything else as it is."""
    if part in KEPT or not re.match(r"^[a-z][\w']*$", part) or not re.search("[a-z0-9'][A-Z]", part):
        return part
    return re.sub(r"(?<=[a-z0-9'])([A-Z])", lambda m: "_" + m[1].lower(), part)


def turned(word):
    return "-".join(part_turned(part) for part in word.split("-"))


def lemmas_apart(text):
    """The lemmas of LEMMAS as declared at the left of a line, as imported, and as cited alone, but not as a step of a proof (c.goes_on)."""
    for name in LEMMAS:
        declared = re.search(rf"(?m)^ *(pub )?{name} (:|{{)", text)
        imported = re.search(rf"(?m)^use Rattle\.\w+\.(?:specs|proofs)\.[A-Z]\w*\.\{{[^}}]*(?<![\w-]){name}(?![\w'-])", text)
        if declared or imported:
            text = re.sub(rf"(?<![\w.'-]){name}(?![\w'-])(?!\.(?:Symbol|Key|Reads|Statement|Tie))", name + "_lem", text)
    return text


def main():
    count = 0
    for path in files():
        with open(path, encoding="utf-8") as f:
            old = f.read()
        text = lemmas_apart(old) if path.endswith(".antt") else old
        text = WORD.sub(lambda m: turned(m[0]), text)
        if text != old:
            count += 1
            with open(path, "w", encoding="utf-8") as f:
                f.write(text)
    print(f"{count} files turned")


main()
