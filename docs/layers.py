#!/usr/bin/env python3
"""Prints docs/LAYERS.md, the picture of layers and crates, from crates.txt.

Under each heading of crates.txt stand its crates, the lowest first, each with the crates of this repository that
it stands on right below: one that another of them brings along is left out.
"""
import re
from pathlib import Path

ROOT = Path(__file__).resolve().parent.parent


def read_crates():
    """The headings with their crates in the order of the file, and for each crate those of the repository below it."""
    groups, below = [], {}
    for line in (ROOT / "crates.txt").read_text(encoding="utf-8").split("\n"):
        if line.startswith("#"):
            groups.append((line.lstrip("# ").strip(), []))
        elif ":" in line:
            head, names = line.split(":", 1)
            crate = head.split()[0]
            groups[-1][1].append(crate)
            below[crate] = names.split()
    return groups, {crate: [n for n in names if n in below] for crate, names in below.items()}


def all_below(crate, below, known):
    if crate not in known:
        known[crate] = set()
        for name in below[crate]:
            known[crate] |= {name} | all_below(name, below, known)
    return known[crate]


def depth(crate, below):
    return 1 + max((depth(name, below) for name in below[crate]), default=0)


def picture():
    groups, below = read_crates()
    known = {}
    for crate in below:
        all_below(crate, below, known)
    lines = []
    for heading, crates in groups:
        lines.append(heading)
        for crate in sorted(crates, key=lambda c: (depth(c, below), c)):
            right_below = [n for n in below[crate] if not any(n in known[m] for m in below[crate])]
            lines += wrapped(crate, sorted(right_below))
        lines.append("")
    longest = max(depth(crate, below) for crate in below)
    return lines + [f"{len(below)} crates, at most {longest} one on another"]


def wrapped(crate, names):
    """The crate and those right below it, within 120 characters."""
    line, lines = f"    {crate:24}", []
    for name in names:
        if len(line) + len(name) + 2 > 116:
            lines.append(line)
            line = " " * 28
        line += f" {name}"
    return [re.sub(r" +$", "", it) for it in lines + [line]]


HEAD = """# Layers

Written by `python3 docs/layers.py > docs/LAYERS.md` from [crates.txt](../crates.txt). After each crate are those
right below it; [ARCHITECTURE](ARCHITECTURE.md) says what each is about.
"""

if __name__ == "__main__":
    print("\n".join([HEAD, "```", *picture(), "```"]))
