#!/usr/bin/env python3
"""Runs the commands on the pages, each in a copy of the tree as it was committed, and tells which fail.

    python3 docs/run_pages.py [PAGE..]

A command is a line of a page, or several that end with `|`, after four blanks and outside of code. FILE is
crates/rtplines/stdin, KIT the folder of the kit, and a folder that a page names before is the working one. What is
not run, with the reason, is told too. Most run programs unproved (`rt try`), which takes a minute each.
"""
import re
import subprocess
import sys
import tempfile
from pathlib import Path

ROOT = Path(__file__).resolve().parent.parent
FIRST = r"    (\(cd|rt |\.ci|bindings|dist|tests|cc |python3|tshark|examples/)"
NOT_RUN = {
    ".ci/run": "it is the gate",
    "tests/run": "the gate's script calls it",
    "bindings/library": "the gate's script calls it",
    "rates.c": "it needs the library that the gate's script leaves",
    "rt run": "it proves a crate and all below it",
    "rt check": "it proves a crate and all below it",
    "rt tidy": "it works on a crate that is being changed",
    "rt plant": "it works on a crate that is being changed",
    "models/": "it writes stored runs anew",
    "> stdout": "it writes stored runs anew",
    "examples/live/check": "it needs browsers, and the library that the gate's script leaves",
    "tshark": "it needs a capture of one's own",
    "rt try < stdin": "it is for a crate of one's own",
    "-ljilqamur": "bindings/dist/make runs it",
    "examples/quick_start.c": "it is for the unpacked archive",
    "cargo run": "bindings/dist/make runs it",
    "cargo": "it is for a patch of one's own",
    "unittest": "it is for a patch of one's own",
}


def commands(page):
    """The commands of a page, each with the number of its first line."""
    is_code, number, text = False, 0, ""
    for at, line in enumerate(page.read_text(encoding="utf-8").split("\n"), 1):
        is_code ^= line.startswith("```")
        if text:
            text += " " + line.strip()
        elif not is_code and re.match(FIRST, line):
            number, text = at, line.strip()
        if text and not text.endswith("|"):
            yield number, re.sub(r"\s+# .*", "", text)
            text = ""


def reason(command):
    """Why a command isn't run."""
    for words, why in NOT_RUN.items():
        if words in command and not (words == "rt try < stdin" and command.startswith("(cd")):
            return why
    return None


def ran(command, tree):
    kit = Path(subprocess.run(["rt", "doc"], capture_output=True, text=True, check=True).stdout.strip()).parent
    command = re.sub(r"\bKIT\b", str(kit), command)
    command = re.sub(r"< FILE\b", f"< {tree}/crates/rtplines/stdin", command)
    return subprocess.run(["bash", "-o", "pipefail", "-c", command], cwd=tree, capture_output=True, text=True)


def main(words):
    pages = [Path(word) for word in words] or [ROOT / "README.md", *sorted((ROOT / "docs").glob("*.md"))]
    failed = passed = 0
    with tempfile.TemporaryDirectory() as folder:
        tree = Path(folder) / "tree"
        subprocess.run(["git", "clone", "-q", ROOT, tree], check=True)
        for page in pages:
            for number, command in commands(page):
                place = f"{page.name}:{number}: {command}"
                if why := reason(command):
                    print(f"not run: {place}: {why}", flush=True)
                    continue
                found = ran(command, tree)
                is_well = found.returncode == 0
                passed, failed = passed + is_well, failed + (not is_well)
                print(f"{'ok' if is_well else 'FAILED'}: {place}", flush=True)
                if not is_well:
                    print(found.stdout[-400:] + found.stderr[-400:])
    print(f"{passed} passed, {failed} failed")
    sys.exit(failed > 0)


if __name__ == "__main__":
    main(sys.argv[1:])
