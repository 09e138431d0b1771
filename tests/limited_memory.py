#!/usr/bin/env python3
"""A limit on the memory of the process (`ulimit -v`), while the input grows: thousands of lines of samples and of
datagrams that are taken and never polled. Whatever the limit, `rtplines` ends by itself, with status 0, 1 or 2, and
with `memory fault` on standard error where it is 1. The limits are found: from the least under which the program
starts up to one under which the whole run ends with status 0. A sender that never ends a fragment of H.264 makes the
memory grow, unless lines `keep` bound it. Run it behind `rt ci`.
"""

import resource
import subprocess

import built
from built import Counts

LINES = 10_000
STEPS = 24  # how many limits there are between the two
PAYLOAD = "5a" * 1000


def growing():
    """A datagram of 1,000 bytes a line, and every fourth line a sample."""
    yield from ["fixed a", "fixed b", "send a 0 44 111 0 1200 1400 - -", "open b 0 44 111 127"]
    for number in range(LINES):
        if number % 4:
            yield f"receive b 806f{number:04x}000003c00000002c{PAYLOAD}"
        else:
            yield f"sample a 0 {960 * number} {PAYLOAD}"


def endless(keeps):
    """Frames of a small unit and 1,000 bytes more of one fragment (RFC 6184 5.8); a limit of bytes now and then, or
    none."""
    for end, session in (("a", 1), ("b", 2)):
        yield from [f"row {end} 96 - - H264 90000 - packetization-mode=1;profile-level-id=42e01f", f"end {end} {session}"]
    yield from ["connect 0:video:sendrecv:44 / 0:video:sendrecv:45", "open b 0 44 96 0"]
    for number in range(0, LINES, 2):
        start, time = "05" if number else "85", f"{3000 * number:08x}"
        yield f"receive b 8060{number:04x}{time}0000002c41aa"
        yield f"receive b 80e0{number + 1:04x}{time}0000002c7c{start}{PAYLOAD}"
        yield "poll b 0"
        if keeps and number % 128 == 0:
            yield "keep b 0 65536"


def ran(program, text, limit):
    """The run under a limit in bytes."""
    def limit_it():
        resource.setrlimit(resource.RLIMIT_AS, (limit, limit))
        resource.setrlimit(resource.RLIMIT_CORE, (0, 0))
    return subprocess.run([program], input=text, capture_output=True, timeout=120, preexec_fn=limit_it)


def starts(program, limit):
    """Whether a run of no lines ends well: the loader has what it needs."""
    return ran(program, b"", limit).returncode == 0


def least(holds, low, high):
    """The least number of pages under which something holds, between one where it doesn't and one where it does."""
    while high - low > 1:
        middle = (low + high) // 2
        low, high = (low, middle) if holds(middle * 4096) else (middle, high)
    return high


def tried(counts, build, program):
    text = "\n".join([*growing(), ""]).encode()
    most = 1 << 18  # pages: a gigabyte
    floor = least(lambda limit: starts(program, limit), 0, most)
    enough = least(lambda limit: ran(program, text, limit).returncode == 0, floor, most)
    counts.check(f"the input grows, {build}", enough > floor + STEPS, f"from {floor} to {enough} pages")
    whole = ran(program, text, (enough + 256) * 4096)
    faults = 0
    for step in range(STEPS):
        pages = floor + (enough - floor) * step // STEPS
        run = ran(program, text, pages * 4096)
        said = run.stderr.decode(errors="replace").strip()
        ended = run.returncode in (0, 2) and not said or run.returncode == 1 and said == "memory fault"
        faults += run.returncode == 1
        counts.check(f"under {pages} pages, {build}", ended, f"status {run.returncode}, {said}")
        # up to the first refusal the replies are those of ample memory
        front = run.stdout.split(b"refused Memory")[0].split(b"fault Memory")[0]
        counts.check(f"the replies under {pages} pages, {build}", whole.stdout.startswith(front))
    counts.check(f"some runs wanted memory, {build}", faults > 0)


def bounded(counts, build, program):
    """With lines `keep` the same datagrams need less memory, by most of what they brought."""
    most, needs = 1 << 18, {}
    for keeps in (False, True):
        text = "\n".join([*endless(keeps), ""]).encode()
        whole = ran(program, text, most * 4096)
        counts.check(f"a fragment without an end is taken, {build}", whole.returncode == 0
                     and whole.stdout.count(b"\ntaken 0 ") == LINES, whole.stderr.decode(errors="replace")[:200])
        needs[keeps] = least(lambda limit: ran(program, text, limit).stdout == whole.stdout, 0, most)
    counts.check(f"a limit of bytes bounds it, {build}", (needs[False] - needs[True]) * 4096 > LINES * 400,
                 f"{needs[False]} pages without, {needs[True]} with")


def main():
    counts = Counts()
    for build, program in built.built(counts, built.LINES):
        tried(counts, build, program)
        bounded(counts, build, program)
    counts.end()


if __name__ == "__main__":
    main()
