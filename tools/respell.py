#!/usr/bin/env python3
"""Brings the repository's own definitions and lemmas to the spelling of today's Rattle, once, behind the kit's port.py.

Words (definitions, lemmas, fields) go from camel case to snake case, as asm1Cod to asm1_cod, and a record's field from dashes
to underscores, as ixb-le to ixb_le. Types and modules stay in camel case, and a dash that joins the parts of a lemma's name stays.
Functions of src/, exported names, strings, inputs and outputs are not touched: none of them is in camel case.

    python3 tools/respell.py            turns crates/ (src, specs, proofs and must-fail) below the current folder
    python3 tools/respell.py --list     prints the names and what becomes of them
"""
import collections
import glob
import os
import re
import sys

# What the paper writes, and what is no name.
KEEP = {"iXB", "iXP"}

# Lemmas whose name would fall together with a definition's: the file, the old name, the new one.
FIRST = [
    ("crates/lines/proofs/Laws/Preview.antt", "given_by", "given_whole"),
    ("crates/closing/proofs/Laws/Closing.antt", "no_gap", "gap_none"),
]


def snake(name):
    return re.sub(r"(?<=[a-z0-9])([A-Z])", lambda m: "_" + m.group(1).lower(), name)


def declared():
    """Every word in camel case that an .antt file of the repository has, and every field with a dash."""
    words, fields = set(), set()
    for path in glob.glob("crates/*/specs/**/*.antt", recursive=True) + glob.glob("crates/*/proofs/**/*.antt", recursive=True):
        text = re.sub(r'"[^"\n]*"', '""', open(path, encoding="utf-8").read())
        for token in re.findall(r"(?<![\w./-])[a-z][\w-]*", text):
            if re.search(r"[a-z0-9][A-Z]", token):
                words |= {part for part in token.split("-") if re.search(r"[a-z0-9][A-Z]", part)}
        for token in re.findall(r"(?<=[\w)])\.([a-z][\w-]*)", text):
            words |= {part for part in token.split("-") if re.search(r"[a-z0-9][A-Z]", part)}
        for body in re.findall(r"^pub record [^\n]*where\n((?:[ \t]+[^\n]*\n|\n)*)", text, re.M):
            fields |= set(re.findall(r"^\s+pub ([a-z]\w*(?:-\w+)+) :", body, re.M))
    return words - KEEP, fields


def main():
    words, fields = declared()
    table = {w: snake(w) for w in words}
    if "--list" in sys.argv:
        for name in sorted(table):
            print(name, table[name])
        for name in sorted(fields):
            print(name, name.replace("-", "_"))
        return 0
    paths = [p for kind in ("src/**/*.rt", "specs/**/*.antt", "proofs/**/*.antt", "must-fail/*.edit")
             for p in glob.glob("crates/*/" + kind, recursive=True)]
    for path, old, new in FIRST:
        text = open(path, encoding="utf-8").read()
        open(path, "w", encoding="utf-8").write(re.sub(rf"(?<![\w-]){old}(?![\w-])", new, text))
    changed = collections.Counter()
    for path in paths:
        text = open(path, encoding="utf-8").read()

        def turn(match):
            whole = match.group(0)
            if whole.startswith('"'):
                return whole
            if whole in fields:
                return whole.replace("-", "_")
            return "-".join(table.get(part, part) for part in whole.split("-"))

        new = re.sub(r'"[^"\n]*"|[A-Za-z_][\w]*(?:-\w+)*', turn, text)
        if new != text:
            changed[os.path.dirname(path)] += 1
            open(path, "w", encoding="utf-8").write(new)
    print(f"respell: {len(table)} words, {len(fields)} fields; {sum(changed.values())} files changed")
    return 0


if __name__ == "__main__":
    sys.exit(main())
