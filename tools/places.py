#!/usr/bin/env python3
"""Counts, at a commit, the places in crates/*/src that docs/DESIGN-PASS.md speaks of.

    tools/places.py [COMMIT] [--list]

Each point is a list of patterns over the source lines (comments and `ghost use` lines left away), but for point 5, which reads the
clauses, and point 8, which counts proof files. Behind them stand the lines with certain words, and all lines. --list prints each place as
FILE:LINE:TEXT.
"""
import re
import subprocess
import sys
from collections import defaultdict

args = [a for a in sys.argv[1:] if a != "--list"]
listing = "--list" in sys.argv
commit = args[0] if args else "HEAD"


def git(*a):
    return subprocess.run(["git", *a], capture_output=True, text=True, check=True).stdout


POINTS = [
    ("1 refusals as numbers", r"\brefusal: u64|Refused\(u64\)|\bnumber: u64|\bn: u64\) -> (Outcome|Fed|Returned|Gaps|SheetCounts|SheetOutcome)|fn (open_balance|refusal_by)\b.*-> u64"),
    ("1 enums like Option or Result", r"^\s*(NotA\w+|Unknown|NotAForm),$"),
    ("1 a flag beside values", r"\b(ok|short|failed|done|preview): bool,|\b(missing|warn): u64,"),
    ("1 kinds as numbers", r"\bkind: u64|\bkind == \d|tank == \d|\btank: u64|fn call_of\(c: u64|\[u64; 12\]"),
    ("2 pairs asm1_ and digester_", r"\bfn (asm1|digester|jilghvani_a)_\w+\(|const (ASM1|DIGESTER)_\w+"),
    ("2 methods written for two units", r"^    pub fn (plus|less|least|is_under|equals|is_none)\("),
    ("2 other pairs", r"\bfn (help_\w+|failed_(read|write)|gather_\w+|filled_(answer|line)|put_(columns|fields)|write_(word|returned|refused|fed|totals)|put_(receive|settle)|read_(measured|limit)|\w*refused\w*|nothing|nothing_but|value|limit|one|two|measured|limits|feed|give_back)\("),
    ("3 loops", r"^\s*(while|loop)\b|^\s*for _ in 0\.\."),
    ("4 equality, order and the smaller", r"\bfn (same|equal|equals|is_under|is_none|least|smaller|difference|is_smaller)\("),
    ("4 conversions", r"\bfn (\w+_of|\w+_array|\w+_at|put_plant|copy)\("),
    ("4 printing", r"\bfn (write_\w+|put_\w+)\("),
    ("6 a length or place beside a buffer", r"fn \w+.*&(mut )?\[u8\].*\b(count|at|from|n|held): usize|^\s*(pub )?(length|at|held|used|count): usize,"),
    ("6 parallel arrays", r"^\s*pub (counts|limits|columns|seen): \[|kinds: &\[u8|values: &\[f32|(SCALES|_CEILINGS|_COD): \["),
    ("6 a table of names as bytes", r'b"(si  ss|   si)'),
    ("7 a switch on which step", r"^\s*\d => |match kind|if preview \{|fn\(\w+\) ->|dyn "),
]

files = [f for f in git("ls-tree", "-r", "--name-only", commit, "--", "crates").split("\n") if re.match(r"crates/\w+/src/.*\.rt$", f)]
text = {f: git("show", f"{commit}:{f}").split("\n") for f in files}
for name, pattern in POINTS:
    found = []
    for f in files:
        for i, line in enumerate(text[f], 1):
            if line.lstrip().startswith(("//", "ghost use")):
                continue
            if re.search(pattern, line):
                found.append(f"{f}:{i}:{line.strip()}")
    print(f"{len(found):4}  {name}")
    if listing:
        for p in found:
            print("        " + p)

# point 5: facts that stand in the clauses of three or more functions of a crate
facts = defaultdict(set)
for f in files:
    crate = f.split("/")[1]
    fn = None
    for line in text[f]:
        m = re.search(r"\bfn (\w+)", line)
        if m:
            fn = f + ":" + m.group(1)
        m = re.match(r"\s*requires(?: \w+)? \{ (.*) \}", line)
        if m and fn:
            for fact in re.split(r" × ", m.group(1)):
                facts[(crate, fact.strip("() "))].add(fn)
often = {k: v for k, v in facts.items() if len(v) >= 3}
print(f"{len(often):4}  5 facts in the requires of three or more functions of a crate")
if listing:
    for (crate, fact), fns in sorted(often.items()):
        print(f"        {crate}: {fact}  ({len(fns)})")

# point 8: proof files and lines
proofs = [f for f in git("ls-tree", "-r", "--name-only", commit, "--", "crates").split("\n") if "/proofs/" in f and f.endswith(".antt")]
lines = sum(git("show", f"{commit}:{f}").count("\n") for f in proofs)
answers = [f for f in proofs if f.endswith("/Answers.antt")]
print(f"{len(answers):4}  8 files of answers, of {len(proofs)} proof files with {lines} lines")

# the same source, by words
WORDS = [
    ("while", r"\bwhile\b"),
    ("for .. in", r"^\s*for .* in "),
    (".iter(), .map(, .zip(, .fold(", r"\.iter\(\)|\.map\(|\.zip\(|\.fold\("),
    ("Option<, Result<", r"\b(Option|Result)<"),
    ("? behind a call", r"\)\?"),
    ("refusal: u64, Refused(u64)", r"\brefusal: u64|Refused\(u64\)"),
    ("-> bool", r"-> bool"),
    ("const N: usize", r"\bconst N: usize"),
    ("PartialEq derived", r"derive\(.*\bPartialEq"),
    ("From implemented", r"^impl From<"),
    ("struct update", r"^\s*\.\.\w|, \.\.\w[^]]*\}"),
    ("a field copied to a name", r"^\s*let (mut )?\w+ = \w+\.\w+;$"),
]
for name, pattern in WORDS:
    found = 0
    for f in files:
        for line in text[f]:
            if not line.lstrip().startswith(("//", "ghost use")) and re.search(pattern, line):
                found += 1
    print(f"{found:4}  {name}")
whole = sum(git("show", f"{commit}:{f}").count("\n") for f in files)
print(f"{whole:4}  all lines")
