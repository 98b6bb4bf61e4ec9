#!/usr/bin/env python3
"""Gives the clauses that the kit's port.py had to name a name that says what they state, once, behind tools/respell.py; and gives
definitions another name where a function of src/ that is something else has it, and lemmas their own spelling again where port.py had
turned it.

    python3 tools/relabel.py            turns crates/ (src, specs, proofs and must-fail) below the current folder
"""
import glob
import os
import re

# Labels of clauses: the crate's files, the old label, the new one. In proofs a label is a field of a record or of `.ensures`.
OUTCOME = [("value", "outcome"), ("answer_value", "tells")]
CALLS = "receive feed settle give_back release recycle answer_request preview answer_entry".split()


def files(*patterns):
    return [p for pattern in patterns for p in sorted(glob.glob(pattern, recursive=True))]


def change(path, turn):
    if not os.path.exists(path):
        return
    text = open(path, encoding="utf-8").read()
    new = turn(text)
    if new != text:
        open(path, "w", encoding="utf-8").write(new)


def label(text, old, new):
    """In source a clause's name; in proofs a record's field, or a field of what a call ensures or requires."""
    text = re.sub(rf"\b(ensures|requires) {old} \{{", rf"\1 {new} {{", text)
    text = re.sub(rf"(?<![\w.-]){old} = ", f"{new} = ", text)
    return re.sub(rf"\.(ensures|requires)\.{old}(?![\w-])", rf".\1.{new}", text)


def main():
    for path in files("crates/plant/src/*.rt", "crates/requests/src/*.rt", "crates/plant/proofs/**/Answers.antt", "crates/requests/proofs/**/Answers.antt"):
        for old, new in OUTCOME:
            change(path, lambda text: label(text, old, new))
    # what the callers of these calls cite of them
    for path in files("crates/*/proofs/**/*.antt"):
        if "/plant/" in path or "/requests/" in path:
            continue
        for old, new in OUTCOME:
            change(path, lambda text: re.sub(rf"(\.(?:{'|'.join(CALLS)})(?:-\w+)*\.ensures)\.{old}(?![\w-])", rf"\1.{new}", text))
    # the calls' outcome under a name of its own: step `o` of the code
    here = {
        "crates/vectors": [("src_len", "same_length"), ("by_index", "sums_fit")],
        "crates/lines": [("out_after", "desk_after"), ("plant_value", "answer_gathered"), ("put", "held_line_put")],
        "crates/session": [("held_bound", "place_ready"), ("line_after", "carries_run"), ("all", "all_printed"), ("out_after", "desk_after"), ("plant_value", "answer_gathered")],
    }
    for crate, labels in here.items():
        for path in files(f"{crate}/src/*.rt", f"{crate}/proofs/**/*.antt", f"{crate}/must-fail/*.edit"):
            for old, new in labels:
                change(path, lambda text: label(text, old, new))
    # find_byte of reading, and gather_held of lines
    change("crates/reading/src/bytes.rt", lambda text: label(label(text, "value", "first_place"), "upper_bound", "in_bounds"))
    change("crates/reading/proofs/bytes/find_byte/Answers.antt", lambda text: label(label(text, "value", "first_place"), "upper_bound", "in_bounds"))
    for path in files("crates/*/proofs/**/*.antt"):
        change(path, lambda text: re.sub(r"(\.find_byte(?:-\w+)*\.ensures)\.value(?![\w-])", r"\1.first_place", text))
        change(path, lambda text: re.sub(r"(\.find_byte(?:-\w+)*\.ensures)\.upper_bound(?![\w-])", r"\1.in_bounds", text))
    change("crates/lines/src/blocks.rt", lambda text: label(text, "upper_bound", "at_bound"))
    change("crates/lines/proofs/blocks/gather_held/Answers.antt", lambda text: label(text, "upper_bound", "at_bound"))
    # definitions whose name a function of src/ has that is something else
    for path in files("crates/*/specs/**/*.antt", "crates/*/proofs/**/*.antt"):
        for old, new in (("told_of", "told_for"), ("refusal_of", "refusal_for"), ("held_line", "held_line_text")):
            change(path, lambda text: re.sub(rf"(?<![\w.-]){old}(?![\w-])", new, text))
    for path in files("crates/*/src/*.rt"):
        for old, new in (("told_of", "told_for"), ("refusal_of", "refusal_for"), ("held_line", "held_line_text")):
            change(path, lambda text: "\n".join(
                re.sub(rf"(?<![\w.-]){old}(?![\w-])", new, line) if re.match(r"\s*(ghost use|ensures|requires)\b", line) else line
                for line in text.split("\n")))
    # lemmas that had a dash
    for path in files("crates/*/specs/**/*.antt", "crates/*/proofs/**/*.antt"):
        for old in ("entry_read", "entry_gives", "entry_length", "one_answer"):
            change(path, lambda text: re.sub(rf"(?<![\w.-]){old}(?![\w-])", old.replace("_", "-"), text))
    # operators in the heads of files
    for path in files("crates/*/specs/**/*.antt"):
        change(path, lambda text: "\n".join(
            re.sub(r"(?<![\w◌])_(is|asks|means|writes|previews|also)_(?!\w)", r"◌\1◌", line) if line.startswith("--") else line for line in text.split("\n")))


if __name__ == "__main__":
    main()
