"""The built programs, and how tests are counted and told."""

import os
import subprocess
import sys
from pathlib import Path

TOP = Path(__file__).resolve().parents[1]
sys.path.insert(0, str(TOP / "tests" / "models"))

# What `rt ci` builds of each program: by LLVM, and by Rattle's own compiler.
BUILDS = {"LLVM": "", "Rattle": ".by-rattle"}

# The programs that are tried, by what they are asked for.
LINES = "rtplines"
TEXTS_AND_ROWS = "sdp_lines"
PAYLOADS = "payload_lines"
HEADERS = "wire_lines"
MEMORY = "refused_allocations"


class Counts:
    """How many tests passed and failed; each that fails is told with what came in place of what."""

    def __init__(self):
        self.passed, self.failed = 0, 0

    def check(self, name, holds, why=""):
        if holds:
            self.passed += 1
        else:
            self.failed += 1
            print(f"FAILED: {name}{': ' if why else ''}{why}", flush=True)
        return holds

    def same(self, name, wanted, found):
        return self.check(name, wanted == found, f"found {shortened(found)}, not {shortened(wanted)}")

    def end(self):
        """The last line, and the status of the script."""
        print(f"{self.passed} passed, {self.failed} failed")
        sys.exit(1 if self.failed else 0)


def shortened(value):
    text = repr(value)
    return text if len(text) < 300 else f"{text[:150]} .. {text[-140:]}"


def built(counts, name):
    """The builds of a program, each with its file; one that is missing counts as failed."""
    folder = os.environ.get("PROGRAMS")
    for build, ending in BUILDS.items():
        place = Path(folder) if folder else TOP / "crates" / name / "out"
        file = place / f"{name}{ending}"
        if counts.check(f"{name} is built by {build}", file.is_file(), f"{file} is missing: run rt ci first"):
            yield build, file


def replies(program, lines, wanted=(0, 2)):
    """What a program prints to lines, as lines; an end that isn't one of those wanted is told in place of them."""
    text = "\n".join([*lines, ""]).encode()
    ran = subprocess.run([program], input=text, capture_output=True, timeout=300)
    if ran.returncode not in wanted:
        return [f"status {ran.returncode}: {ran.stderr.decode(errors='replace')}"]
    return ran.stdout.decode().splitlines()


def hexed(data):
    return data.hex() or "-"
