#!/usr/bin/env python3
"""Brings the repository's own definitions and lemmas to today's spelling, once, after port.py: words in snake case,
facts and types in camel case; a dash only between two names of definitions. Names of src/ keep their spelling.

    python3 tools/respell.py [--say]      at the top of the repository; --say prints the names and changes nothing
"""
import glob
import os
import re
import sys

TOP = os.getcwd()
SAY = "--say" in sys.argv

# What the kit's own words are, as far as a lemma's name here cites them beside a dash.
KIT = set(
    """length append map take drop get_or set zero suc replicate cond eqb ltb leb slice_get reverse
    sum bit_and bit_or bit_xor ones trailing_zeros fits""".split()
)

# Names whose new spelling is chosen by hand: functions that were spelled like facts, and one letter.
CHOSEN = {
    "D": "document_posts",
    "D-labels": "document_labels",
    "HeldTo": "held_to",
    "Only": "kept_only",
    "Over": "over_parts",
    "axis-of": "axis_conditions",
    # Lemmas that bore the name that now is a definition's.
    "head_at": "head_at_lem",
    "is_later": "is_later_lem",
    "passed_over": "passed_over_lem",
    "too_many": "too_many_lem",
}

STEPS = {"head_at", "is_later", "passed_over", "too_many"}

IDENT = re.compile(r'[^\s(){}\[\].,;"`:]+')
SIGNATURE = re.compile(r"^( *)((?:(?:unfoldable|abbrev|pub) )*)([^\s:(){}=]+(?: [^\s:(){}=]+)*) :(?: (.*))?$")
HEADS = {"use", "let", "in", "where", "module", "record", "data", "mod", "unfolding", "infix", "infixl", "infixr", "λ", "open"}


def lemma_files():
    found = glob.glob(f"{TOP}/crates/*/specs/*.antt") + glob.glob(f"{TOP}/crates/*/proofs/*.antt")
    return sorted(found)


def defined():
    """Each name with: is it a lemma, is it a fact or type, does it stand at the left edge."""
    names = {}
    for path in lemma_files():
        lines = open(path).read().split("\n")
        for i, line in enumerate(lines):
            text = line.strip()
            if text.startswith("--"):
                continue
            head = re.match(r"^(?:pub )?(?:record|data) (\S+)", text)
            if head:
                names.setdefault(head.group(1), ("type", True))
                continue
            m = SIGNATURE.match(line)
            if not m or m.group(3).split()[0] in HEADS:
                continue
            indent, marks, said = len(m.group(1)), m.group(2), m.group(4) or ""
            kind = "definition" if "unfoldable" in marks or "abbrev" in marks else "lemma"
            j = i + 1
            while j < len(lines) and lines[j].startswith(" " * (indent + 2)) and not re.match(r"^\s*\S+.* = ?", lines[j]):
                said += " " + lines[j].strip()
                j += 1
            fact = bool(re.search(r"(→|^|\)) *Type \d$", said.strip()))
            for name in m.group(3).split():
                old = names.get(name)
                if old is None or (old[0] == "lemma" and kind == "definition"):
                    names[name] = ("fact" if fact else kind, indent == 0)
    return names


def snake(name):
    return re.sub(r"(?<=[a-z0-9₀-₉'])([A-Z])", lambda m: "_" + m.group(1).lower(), name)


def joined(name, words):
    """Dashes between two names of definitions stay; others become underscores."""
    parts = name.split("-")
    if "" in parts:
        return name
    out = parts[0]
    for i in range(1, len(parts)):
        left = out.split("-")[-1]
        right = parts[i]
        out += ("-" if left in words and right in words else "_") + right
    return out


def renames():
    names = defined()
    used = set()
    for path in lemma_files():
        used.update(w for w in IDENT.findall(open(path).read()) if w not in STEPS)
    # In a clause a parameter or field hides a definition of its name; a function does not.
    for path in glob.glob(f"{TOP}/crates/*/src/*.rt"):
        used.update(re.findall(r"\b([a-z_0-9]+): ", open(path).read()))
    words = {snake(n) for n, (kind, _) in names.items() if kind in ("definition", "fact", "type") and len(n) > 1 and "-" not in n} | KIT
    new = {}
    for name, (kind, top) in names.items():
        if name in CHOSEN:
            new[name] = CHOSEN[name]
            continue
        if kind in ("fact", "type") or "◌" in name or not re.match(r"^[a-z]", name):
            continue
        to = joined(snake(name), words)
        if to != name:
            new[name] = to
    said = []
    taken = {}
    for name in sorted(new, key=lambda n: (names[n][0] == "lemma", n)):
        to = new[name]
        endings = ["_lem", "_law", "_fact"] if names[name][0] == "lemma" else ["_of", "_said"]
        while to in used or to in taken:
            other = new[name] + endings.pop(0)
            said.append(f"{name}: {to} is taken by {taken.get(to, 'a name that stands')}; {other}")
            to = other
        new[name] = to
        taken[to] = name
    return {n: t for n, t in new.items() if n != t}, said


def respell(text, new):
    def one(m):
        # Behind a dot stands a field or a step: a function's own name there stays.
        if m.group(0) in STEPS and text[m.start() - 1 : m.start()] == ".":
            return m.group(0)
        return new.get(m.group(0), m.group(0))

    return IDENT.sub(one, text)


def antt(text, new):
    """Outside quoted texts; in comments only names that cannot be plain words."""
    plain = {n: t for n, t in new.items() if re.search("[a-z][A-Z]", n)}
    lines = []
    for line in text.split("\n"):
        at = line.find("--") if re.match(r"^\s*--", line) else line.find(" -- ")
        code, remark = (line, "") if at < 0 else (line[:at], line[at:])
        pieces = re.split(r'("(?:[^"\\]|\\.)*")', code)
        code = "".join(p if i % 2 else respell(p, new) for i, p in enumerate(pieces))
        lines.append(code + respell(remark, plain))
    return "\n".join(lines)


def rattle(text, new):
    """The clauses and imports of a source file."""
    out, at = [], 0
    start = re.compile(r"^ *(?:pub )?(?:ghost use |(?:requires|ensures|ghost)\b[^\n{]*\{)", re.M)
    while True:
        m = start.search(text, at)
        if not m:
            return "".join(out) + text[at:]
        out.append(text[at : m.start()])
        if m.group(0).strip().startswith("ghost use") or "ghost use " in m.group(0):
            end = text.index(";", m.end()) + 1
        else:
            depth, end = 1, m.end()
            while depth:
                depth += {"{": 1, "}": -1}.get(text[end], 0)
                end += 1
        out.append(respell(text[m.start() : end], new))
        at = end


def main():
    new, said = renames()
    if SAY:
        for n in sorted(new):
            print(n, "->", new[n])
        for s in said:
            print("taken:", s)
        return
    for path in glob.glob(f"{TOP}/crates/**/*.antt", recursive=True) + glob.glob(f"{TOP}/crates/*/src/*.rt"):
        if "/out/" in path:
            continue
        text = open(path).read()
        turned = (antt if path.endswith(".antt") else rattle)(text, new)
        if turned != text:
            open(path, "w").write(turned)
    with open(f"{TOP}/tools/respelled.txt", "w") as f:
        f.writelines(f"{n} {new[n]}\n" for n in sorted(new))
    print(f"respelled: {len(new)} names; {len(said)} would have fallen together and got another ending")


main()
