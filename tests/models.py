#!/usr/bin/env python3
"""The models behind the stored runs, which share no code with the project: what they write today is what is stored, and
drawn runs that no file has are answered as they say.

Without built programs only the first is tried.
"""

import shutil
import subprocess
import sys
import tempfile
from pathlib import Path

from built import TOP, Counts, built

# What each model writes, by its script and arguments.
WRITTEN = {
    ("schedules.py", "write"): ("rtpexplain/stdin", "rtpexplain/stdout"),
    ("lines.py",): ("payload_lines/stdin", "payload_lines/stdout", "wire_lines/stdin", "wire_lines/stdout"),
    ("texts.py",): ("sdp_lines/stdin", "sdp_lines/stdout"),
}
# Models that compare what a program printed with the standards, and write nothing.
HELD = ("browsers.py",)
# Seeds of schedules that are drawn anew at each run of this script.
SEEDS = ("2", "3")


def run(folder, words):
    command = [sys.executable, folder / "tests/models" / words[0], *words[1:]]
    return subprocess.run(command, capture_output=True, text=True, timeout=600)


def stored_runs(counts):
    """Each model writes into a copy, which then is as it was."""
    with tempfile.TemporaryDirectory() as name:
        copy = Path(name)
        shutil.copytree(TOP / "tests/models", copy / "tests/models")
        for crate in sorted({file.split("/")[0] for files in WRITTEN.values() for file in files} | {"browser_lines"}):
            shutil.copytree(TOP / "crates" / crate, copy / "crates" / crate, ignore=shutil.ignore_patterns("out", "proofs"))
        for words, files in WRITTEN.items():
            done = run(copy, words)
            counts.check(f"{words[0]} ends well", done.returncode == 0, done.stdout[-300:] + done.stderr[-300:])
            for file in files:
                same = (copy / "crates" / file).read_bytes() == (TOP / "crates" / file).read_bytes()
                counts.check(f"crates/{file} is what {words[0]} writes", same)
        for script in HELD:
            done = run(copy, (script,))
            counts.check(f"{script} finds nothing", done.returncode == 0, done.stdout[-300:] + done.stderr[-300:])


def drawn_runs(counts):
    """Schedules of other seeds, by each build of the program."""
    for build, program in built(counts, "rtpexplain"):
        for seed in SEEDS:
            done = run(TOP, ("schedules.py", "compare", seed, "--", str(program)))
            is_right = done.returncode == 0 and done.stdout == f"seed {seed}: as the model says\n"
            counts.check(f"schedules of seed {seed}, built by {build}", is_right, done.stdout[-300:] + done.stderr[-300:])


def main():
    counts = Counts()
    stored_runs(counts)
    drawn_runs(counts)
    counts.end()


main()
