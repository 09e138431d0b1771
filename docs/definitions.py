#!/usr/bin/env python3
"""Prints the definitions that contracts cite, by crate and by file of its specs/, each with the words that stand above
it there. One without words of its own goes with the one before it.

    docs/definitions.py                  of all crates
    docs/definitions.py rtp_media_ends   of one
"""
import re
import sys
import textwrap
from pathlib import Path

ROOT = Path(__file__).resolve().parent.parent
DECLARED = re.compile(r"(?:(?:abbrev|unfoldable) pub|pub (?:record|data)) ([^\s:({]+)")


def crates():
    lines = (ROOT / "crates.txt").read_text(encoding="utf-8").split("\n")
    return [line.split(":")[0].split()[0] for line in lines if ":" in line and not line.startswith("#")]


def definitions(file):
    """The head comment of a file, and each name that has a comment of its own, with it."""
    comment, found, head = [], [], ""
    for number, line in enumerate(file.read_text(encoding="utf-8").split("\n")):
        if line.startswith("-- "):
            comment.append(line[3:].strip())
            continue
        declared = DECLARED.match(line)
        if declared and comment:
            found.append((declared[1], " ".join(comment)))
        elif comment and line.startswith(("use ", "pub use ")) and number < 12:
            head = " ".join(comment)
        comment = []
    return head, found


def bullet(text):
    return textwrap.fill(text, 116, initial_indent="- ", subsequent_indent="  ", break_long_words=False,
                         break_on_hyphens=False)


def page(chosen):
    lines = []
    for crate in chosen:
        files = [it for it in sorted((ROOT / "crates" / crate / "specs").glob("*.antt")) if it.stem != "Lib"]
        told = [(it.stem, *definitions(it)) for it in files]
        told = [it for it in told if it[1] or it[2]]
        if told:
            lines += [f"# {crate}", ""]
        for stem, head, found in told:
            lines += [f"## {stem}", ""] + ([textwrap.fill(head, 116), ""] if head else [])
            lines += [bullet(f"{name}: {comment}") for name, comment in found] + ([""] if found else [])
    return "\n".join(lines).rstrip()


if __name__ == "__main__":
    try:
        print(page(sys.argv[1:] or crates()))
    except BrokenPipeError:
        pass
