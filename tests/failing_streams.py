#!/usr/bin/env python3
"""Readers and writers that fail. `refused_allocations streams` runs a hundred lines: each read and each write fails in
turn, a writer takes one byte a call, and two inputs have no end; each must come to what is said below. `rtplines`
itself is run with an input and an output that can't be read and written, and with an input that comes byte by byte.
Run it behind `rt ci`.
"""

import os
import subprocess
import tempfile

import built
from built import Counts

# What `refused_allocations streams` prints: how often a read of 16 bytes and a write of at most 16 bytes failed is counted.
RUNS = ["the whole run: ok", "a byte a write: ok", "142 reads that fail", "reads that fail: ok",
        "228 writes that fail", "writes that fail: ok", "one byte without end: ok", "blank lines without end: ok"]
LINES = b"fixed a\nfixed b\nsend a 0 44 111 0 1200 1400 - -\nopen b 0 44 111 127\nsample a 0 960 010203\npoll b 0"
REPLIES = b"ok\nok\nsender 0\nreceiver 0\ndatagram 806f0000000003c00000002c010203\nok\nnone\n"


def tried_runs(counts, build, program):
    run = subprocess.run([program, "streams"], capture_output=True, text=True, timeout=120)
    counts.same(f"reads and writes that fail, {build}", RUNS, run.stdout.splitlines())
    counts.same(f"the status of these runs, {build}", 0, run.returncode)


def tried_program(counts, build, program):
    with tempfile.TemporaryDirectory() as folder:
        place = os.open(folder, os.O_RDONLY)
        unread = subprocess.run([program], stdin=place, capture_output=True, timeout=60)
        os.close(place)
    counts.same(f"an input that can't be read, {build}", (1, b"read fault\n", b""),
                (unread.returncode, unread.stderr, unread.stdout))
    with open("/dev/full", "wb") as full:
        unwritten = subprocess.run([program], input=LINES, stdout=full, stderr=subprocess.PIPE, timeout=60)
    counts.same(f"an output that is full, {build}", (1, b"write fault\n"), (unwritten.returncode, unwritten.stderr))
    slow = subprocess.Popen([program], stdin=subprocess.PIPE, stdout=subprocess.PIPE)
    for byte in LINES:
        slow.stdin.write(bytes([byte]))
        slow.stdin.flush()
    counts.same(f"an input byte by byte, {build}", (REPLIES, None), slow.communicate(timeout=60))
    counts.same(f"its status, {build}", 0, slow.returncode)


def main():
    counts = Counts()
    for build, program in built.built(counts, built.MEMORY):
        tried_runs(counts, build, program)
    for build, program in built.built(counts, built.LINES):
        tried_program(counts, build, program)
    counts.end()


if __name__ == "__main__":
    main()
