#!/usr/bin/env python3
"""Two wrong bodies, tried unproved (`rt try`) on a copy of the tree, make worked row 12 fail: a replay window that
accepts nothing, and a buffer that never hands a unit out. The row passes with the bodies that are there. So its run
would show them where a proof didn't. Each takes about a minute. Run it behind `rt ci`.
"""

import re
import shutil
import subprocess
import tempfile
from pathlib import Path

import built
from built import Counts, replies

# Row 12: of three datagrams the second comes last, and polls wait for it.
ROW_12 = ["fixed b", "open b 0 44 111 127", "receive b 806f0000000000000000002caa", "poll b 0",
          "receive b 806f0002000000000000002ccc", "poll b 0", "receive b 806f0001000000000000002cbb", "poll b 0",
          "poll b 0", "poll b 0"]
ANSWERS = ["ok", "receiver 0", "taken 0 0", "unit 0 0 0 aa", "taken 0 2", "none", "taken 0 1", "unit 1 1 0 bb",
           "unit 2 2 0 cc", "none"]

# Heads of functions, each of which stands once in the tree, and the body in place of their own. A stream takes its
# units by `unit_at`, other users of the buffer by `pop`.
EDITS = {
    "`accepts` is always false": (["    pub fn accepts(&self, seq: SeqNo) -> bool\n"], "        false\n"),
    "`pop` is always None": (
        ["    pub fn pop(&mut self) -> Result<Option<Depacketized>, PacketError>\n",
         "    pub fn unit_at(&mut self, hold_back: usize) -> Result<Option<Unit>, PacketError>\n"],
        "        Ok(None)\n"),
}


def edited(text, head, body):
    """The text with another body behind a head and its contract: from the brace on a line of its own to its end."""
    pattern = re.escape(head) + r"((?:(?!    \{\n).*\n)*?    \{\n)(?:.*\n)*?    \}\n"
    return re.sub(pattern, lambda found: f"{head}{found[1]}{body}    }}\n", text, count=1)


def apply(crates, heads, body):
    """How many functions were changed."""
    changed = 0
    for file in crates.glob("*/src/**/*.rt"):
        for head in heads:
            text = file.read_text()
            if head in text:
                file.write_text(edited(text, head, body))
                changed += file.read_text() != text
    return changed


def tried(counts, name, heads, body):
    with tempfile.TemporaryDirectory() as folder:
        top = Path(folder)
        shutil.copytree(built.TOP / "crates", top / "crates", ignore=shutil.ignore_patterns("out"))
        for file in ("crates.txt", "HANDLES"):
            shutil.copy(built.TOP / file, top)
        if not counts.same(f"{name} is tried", len(heads), apply(top / "crates", heads, body)):
            return
        ran = subprocess.run(["rt", "try"], input="\n".join([*ROW_12, ""]), capture_output=True, text=True,
                             cwd=top / "crates" / built.LINES, timeout=300)
    counts.check(f"{name} runs", ran.returncode in (0, 2) and ran.stdout, ran.stderr[-300:])
    counts.check(f"{name} makes row 12 fail", ran.stdout.splitlines() not in ([], ANSWERS), ran.stdout)


def main():
    counts = Counts()
    for build, program in built.built(counts, built.LINES):
        counts.same(f"row 12, {build}", ANSWERS, replies(program, ROW_12))
    if counts.check("rt is there", shutil.which("rt"), "install the Rattle kit, and put its bin on the path"):
        for name, (heads, body) in EDITS.items():
            tried(counts, name, heads, body)
    counts.end()


if __name__ == "__main__":
    main()
