#!/usr/bin/env python3
"""Lists the places in crates/*/src that docs/DESIGN-PASS.md counts, point by point: python3 tools/forms.py [FOLDER] [--list]."""
import pathlib
import re
import sys

args = [a for a in sys.argv[1:] if not a.startswith("--")]
top = pathlib.Path(args[0] if args else ".")
show = "--list" in sys.argv

SIGNATURE = re.compile(r"^\s*(?:pub )?(?:extern \"C\" )?fn (\w+)[^{]*?\{", re.M | re.S)

# Each point: its name, and patterns over one line of source.
LINES = [
    ("1a enums with a variant for a refusal or for nothing", r"^\s+(Refused\(u8\)|Missing|Wrong|Nothing|Sound|Outside\(usize\)|Past),?$"),
    ("1b fields for a refusal's number or a flag beside a value", r"^\s+(pub )?(refusal: u8|fits: bool|all: bool|failed: bool|apart: bool|done: bool)"),
    ("1c functions that answer a refusal as a number", r"^(pub )?fn \w*(refusal|pair_or)\w*\(.*-> u8$"),
    ("1d tests for a refusal's number", r"(refusal|own|other|\br|unfit) (!=|==) 0\b"),
    ("1e refusals by a literal number", r"(refused|stopped|no_room|unplanned)\((\w+, )?\d+\)|return \d+;$|refusal: [1-9]\d*,|Refused\(\d+\)"),
    ("3a loops that test an index", r"\bwhile \w+(\.\w+\(\))? ?(<|<=|\!=) ?[\w.()\- ]+ \{|\bwhile \d+ <=? \w+( - \w+|\.len\(\) - \w+)? \{"),
    ("3b indices counted by hand", r"^\s+(i|j|k|a|at|left|from|steps) (\+|-)= 1;"),
    ("4a conversions by hand", r"^(pub )?fn (wide|narrow|place|byte|low|high)\((x|k|b): u\d+\) -> (u\d+|usize)"),
    ("4b equality by hand", r"^(pub )?fn (same|is_all|is_past|is_something|is_cut)\("),
    ("4c fields named twice", r"^\s+(\w+): \1,$"),
    ("6a arrays of a fixed size that a number of entries goes with", r"(entries|previous|blocks|victims|places|freed|list): (&mut |&)?\[u\d+; \d+\]"),
    ("7a a bool or a number that says which step", r"(anew|blocks|closed|yes): bool|what: u8|\bj: u8"),
]

# Contract facts of point 5, counted over whole signatures.
FACTS = [
    ("5a functions with `Fitted g card`", r"Fitted (g|x\.geometry)"),
    ("5b functions with `good_geometry g`", r"requires \{[^}]*good_geometry g ≡ true"),
    ("5c functions that take a geometry and a card", r"g: Geometry,\s*(card|disk)"),
    ("5d functions that take entries, previous and blocks", r"entries: &[^)]*previous: &[^)]*blocks: &"),
    ("5e functions that take an index", r"index: &(mut )?\[u8; 640\]"),
    ("5f functions that take a choice and an allowance or a credit", r"choice: &\[u8\],\s*(allowance|credit|left|count|closed)"),
]

for name, pattern in LINES:
    found = []
    for path in sorted(top.glob("crates/*/src/**/*.rt")):
        for n, line in enumerate(path.read_text().splitlines(), 1):
            if re.search(pattern, line):
                found.append(f"{path.relative_to(top)}:{n}: {line.strip()}")
    print(f"{len(found):4}  {name}")
    if show:
        print("".join(f"        {f}\n" for f in found), end="")

for name, pattern in FACTS:
    found = []
    for path in sorted(top.glob("crates/*/src/**/*.rt")):
        text = path.read_text()
        for m in re.finditer(r"^[ ]*(?:pub )?(?:extern \"C\" )?fn (\w+)(?:.*\n)*?^[ ]*\{$|^[ ]*(?:pub )?fn (\w+)[^\n]*\{$", text, re.M):
            if re.search(pattern, m.group(0)):
                found.append(f"{path.relative_to(top)}: {m.group(1) or m.group(2)}")
    print(f"{len(found):4}  {name}")
    if show:
        print("".join(f"        {f}\n" for f in found), end="")
