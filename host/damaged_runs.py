#!/usr/bin/env python3
"""Random and damaged inputs through the program, each compared with tests/by_definition.py.

usage: host/damaged_runs.py [--count N] [--first SEED] [--jobs N] [--program PATH]      (from anywhere; the program must be built)

--program names another build of the program, which is started as it is.

A run is bad if the program ends with another status than 0, takes longer than 20 seconds, says anything on standard error,
prints a line that document 01 does not have, or prints other bytes than the definitions give. Bad inputs are written to
target/damaged/, and the last line is 'N passed, M failed'. tests/damaged.sh runs a few hundred in the gate.
"""
import argparse
import multiprocessing
import os
import pathlib
import platform
import random
import re
import shutil
import subprocess
import sys

ROOT = pathlib.Path(__file__).resolve().parent.parent
sys.path.insert(0, str(ROOT / "tests"))
import by_definition  # noqa: E402

NAMES = ["NP", "NN", "S", "A", "B$", "C|D", "X1"]
PROGRAM = None  # another build, by --program
LINE = re.compile(rb"[0-9]+( [0-9]+){1,8}|[0-9]+ (finished|full|spent) [0-9]+ [0-9]+|[0-9]+ refused (1[0-3]?|[2-9]) [0-9]+")


def command():
    """The built program; where the processor is not x86-64, under a loader and an emulator beside the kit, as an older kit had them."""
    if PROGRAM:
        return [PROGRAM]
    if platform.machine() == "x86_64":
        return [str(ROOT / "target" / "bin" / "search")]
    kit = pathlib.Path(os.environ.get("RATTLE_HOME") or pathlib.Path(shutil.which("rt")).resolve().parent.parent)
    tools = kit / "on" / platform.machine() / "toolchain"
    emulator = tools / "bin" / "qemu-x86_64"
    start = [str(emulator)] if emulator.exists() else []
    return start + [str(tools / "lib" / "ld-linux-x86-64.so.2"), "--library-path", str(tools / "lib"), str(ROOT / "target" / "bin" / "search")]


def white(draw, least=0):
    return "".join(draw.choice(" \t\n\r") for _ in range(max(least, draw.choice([0, 0, 0, 1, 2]))))


def query(draw, names):
    variables = ["x", "y", "z", "w9"][:draw.randint(1, 4 if draw.random() < 0.1 else 3)]
    codes = draw.choice([[1, 2], [6], [0, 3, 4, 5], [0, 3, 4, 5], list(range(7)) if draw.random() < 0.2 else [1]])
    conditions, used = [], set()
    for _ in range(draw.randint(1, 4)):
        x, y = draw.choice(variables), draw.choice(variables)
        if draw.random() < 0.4:
            conditions.append(f"{draw.choice(names)}{white(draw)}({x})")
            used |= {x}
        else:
            conditions.append(f"{by_definition.AXES[draw.choice(codes)]}({white(draw)}{x},{white(draw)}{y})")
            used |= {x, y}
    heads = variables if draw.random() < 0.1 else sorted(used)
    head = draw.sample(heads, draw.randint(0 if draw.random() < 0.1 else 1, len(heads)))
    return f"Q({','.join(head)}){white(draw)}<-{white(draw)}{f',{white(draw)}'.join(conditions)}{white(draw)}."


def tree(draw, names, rows):
    label = draw.choice(names) + draw.choice(["", "", "", "-SBJ", "=2", "-"])
    if draw.random() < 0.05:
        label = draw.choice(["-NONE-", ".", ",", "\u00e4", "Y" * 64])
    if rows == 1:
        return f"({label}{white(draw, 1)}{draw.choice(['a', 'dog', '.', 'x' * 64])}{white(draw)})"
    parts, left = [], rows - 1
    while left:
        size = draw.randint(1, left)
        parts.append(tree(draw, names, size) + white(draw))
        left -= size
    return f"({label}{white(draw, 1)}{''.join(parts)})"


def sentence(draw, names):
    text = tree(draw, names, draw.choice([1, 2, 3, 4, 5, 6, 7, 8]))
    return f"({white(draw)}{text}{white(draw)})" if draw.random() < 0.3 else text


def damaged(draw, data):
    """Bytes changed, cut out, put in, doubled or cut off."""
    for _ in range(draw.choice([1, 1, 1, 2, 3])):
        at, kind = draw.randint(0, len(data)), draw.randint(0, 4)
        b = bytes([draw.choice(b"()(),.<-Q xyNPS+*\n\t\0\x7f\xff") if draw.random() < 0.7 else draw.randint(0, 255)])
        if kind == 0:
            data = data[:at] + b + data[at + 1:]
        elif kind == 1:
            data = data[:at] + data[at + 1:]
        elif kind == 2:
            data = data[:at] + b + data[at:]
        elif kind == 3:
            data = data[:at] + data[at:at + 9] + data[at:]
        else:
            data = data[:at]
    return data


def made(seed):
    draw = random.Random(seed)
    kind, names = draw.random(), draw.sample(NAMES, draw.randint(1, 4))
    if kind < 0.02:
        return bytes(draw.randint(0, 255) for _ in range(draw.randint(0, 60)))
    if kind < 0.04:
        return bytes(draw.choice(b"Q(xy)<-NPChild+*., \n()(A a)") for _ in range(draw.randint(0, 60)))
    if kind < 0.05:
        return (query(draw, names) + "(A " * draw.randint(60, 70) + "a" + ")" * draw.randint(60, 70)).encode("latin-1")
    data = query(draw, names) + white(draw) + "".join(sentence(draw, names) + white(draw) for _ in range(draw.randint(0, 4)))
    data = data.encode("latin-1")
    return damaged(draw, data) if draw.random() < 0.6 else data


def wrong(seed):
    """What is wrong with the run of this seed's input, or nothing."""
    data = made(seed)
    try:
        ended = subprocess.run(command(), input=data, capture_output=True, timeout=20, check=False)
    except subprocess.TimeoutExpired:
        return seed, "it does not end"
    if ended.returncode != 0:
        return seed, f"status {ended.returncode}"
    if ended.stderr:
        return seed, "it says something on standard error"
    if ended.stdout and not ended.stdout.endswith(b"\n"):
        return seed, "its last line has no end"
    if not all(LINE.fullmatch(line) for line in ended.stdout.split(b"\n")[:-1]):
        return seed, "it prints a line that document 01 does not have"
    if ended.stdout != by_definition.run(data):
        return seed, "other lines than the definitions give"
    return seed, ""


def main():
    words = argparse.ArgumentParser(description=__doc__, formatter_class=argparse.RawDescriptionHelpFormatter)
    words.add_argument("--count", type=int, default=100000)
    words.add_argument("--first", type=int, default=1)
    words.add_argument("--jobs", type=int, default=os.cpu_count())
    words.add_argument("--program")
    asked = words.parse_args()
    global PROGRAM
    PROGRAM = asked.program
    bad = 0
    with multiprocessing.Pool(asked.jobs) as pool:
        for seed, why in pool.imap_unordered(wrong, range(asked.first, asked.first + asked.count), chunksize=20):
            if why:
                bad += 1
                kept = ROOT / "target" / "damaged"
                kept.mkdir(parents=True, exist_ok=True)
                (kept / str(seed)).write_bytes(made(seed))
                print(f"{seed}: {why}")
    print(f"{asked.count - bad} passed, {bad} failed")
    sys.exit(bad > 0)


if __name__ == "__main__":
    main()
