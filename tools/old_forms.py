#!/usr/bin/env python3
"""Counts the older forms in src/, crate by crate: python3 tools/old_forms.py [-v] [FOLDER]. docs/DESIGN-PASS.md explains the points."""
import glob
import os
import re
import sys

folder = next((a for a in sys.argv[1:] if not a.startswith("-")), ".")
verbose = "-v" in sys.argv


def lines_of(pattern):
    return [(m.start(), m.group(0).strip().split("\n")[0]) for m in pattern]


def loops(text):
    """Loops that count an index by hand."""
    found = []
    for m in re.finditer(r"^( *)while ([^\n]*)\{\n(.*?)^\1\}", text, re.M | re.S):
        names = re.findall(r"\b[a-z_]+\b", m.group(2))
        if any(re.search(r"^ *%s (\+|-)= 1;" % n, m.group(3), re.M) for n in names):
            found.append((m.start(), m.group(0).strip().split("\n")[0]))
    return found


def pattern(p, flags=re.M):
    return lambda text: lines_of(re.finditer(p, text, flags))


points = [
    ("1 own enums with a case for a refusal or for nothing", pattern(r"^ *(Refused\(\w+\)|Bad\(usize\)|Short|Nothing|No),$")),
    ("1 numbers for kinds: axes, sets", pattern(r"\b(code|set|kind|axis|entry): u8\b")),
    ("1 a number for none: 0, 7, 33, 64, 65535 or an end", pattern(r"^ *(return )?(33|7|65535|64|w \* 64|n)[;]?$")),
    ("2 functions named alike but for first/second, later/earlier, last/first", pattern(r"^ *(pub(\(crate\))? )?fn (\w*_)?(first|second|last|later|earlier|next|previous|child|parent|sibling|following)(_\w+)?\b[^\n]*")),
    ("3 loops that count an index by hand", loops),
    ("4 tests that return true or false by hand", pattern(r"^ *if [^\n]*\{\n *return (true|false);\n *\}")),
    ("4 conversions, copies and equality by hand", pattern(r"^ *(pub(\(crate\))? )?fn (wide|narrow|number_of|place_of|same_\w+|spells|either|copy\w*|keep_start|restore|put_word|write_word|pick_\w+|equal\w*)\b[^\n]*")),
    ("5 post, parents and levels side by side", pattern(r"\bparents: &\[u16\]")),
    ("5 names, ends and noted side by side", pattern(r"\bnoted: &\[bool; 256\]")),
    ("5 the facts Columns, Fine, NonePast, Usable in a requires", pattern(r"^ *requires \{[^\n]*\b(Columns|Fine|NonePast|Usable)\b")),
    ("6 arrays or lists with a count beside", pattern(r"\b(count|\w+_count): usize\b")),
    ("7 switches on which step to run", pattern(r"\bfollowing: bool|if k % 2 == 0|if code == \d|match code \{|if set [<=]+ \d|match kind \{|if kind == \d")),
]

total = {}
crates = sorted(os.path.basename(c) for c in glob.glob(folder + "/crates/*"))
for name, count in points:
    row = {}
    for crate in crates:
        for path in sorted(glob.glob(f"{folder}/crates/{crate}/src/**/*.rt", recursive=True)):
            text = open(path).read()
            for at, line in count(text):
                row[crate] = row.get(crate, 0) + 1
                if verbose:
                    print(f"  {os.path.relpath(path, folder)}:{text.count(chr(10), 0, at) + 1}: {line}")
    print(f"{name}: {sum(row.values())}", ", ".join(f"{c} {n}" for c, n in row.items()) and "(" + ", ".join(f"{c} {n}" for c, n in row.items()) + ")")

answers = lines = 0
row = {}
for crate in crates:
    n = 0
    for path in glob.glob(f"{folder}/crates/{crate}/proofs/**/*.antt", recursive=True):
        text = open(path).read()
        lines += text.count("\n")
        if path.endswith("Answers.antt"):
            n += len(re.findall(r"^pub \S+ : goal\.", text, re.M))
    answers += n
    if n:
        row[crate] = n
print(f"8 answers to goals: {answers} ({', '.join(f'{c} {n}' for c, n in row.items())}), in {lines} lines of proofs")
