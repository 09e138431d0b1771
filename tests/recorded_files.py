#!/usr/bin/env python3
"""What the built `rtprecord` does with files: it never replaces what it reads, nor what is no regular file, loses none
if nobody reads its list, gives each run names of its own, keeps the first frame if a packet of it comes late, and bounds
what waits of a stream. Run it after `rt ci`.
"""

import os
import subprocess
import tempfile
from pathlib import Path

import built
from built import Counts
from hostile_captures import OWN, OWN_FILE, PROGRAM, ROWS, packet, pcap_of, plain, ran

NAME = f"{OWN:08x}-111.opus"
SOUND = pcap_of(plain(packet(number)) for number in range(10))


class Folder:
    """A folder with a capture, in which the program is run."""

    def __init__(self, program):
        self.program, self.held = program, tempfile.TemporaryDirectory()
        self.path = Path(self.held.name)
        (self.path / "capture").write_bytes(SOUND)

    def __enter__(self):
        return self

    def __exit__(self, *_):
        self.held.cleanup()

    def run(self, *arguments, **streams):
        done = subprocess.run([self.program, "capture", *ROWS, *arguments], cwd=self.path, stdin=subprocess.DEVNULL,
                              stderr=subprocess.STDOUT, timeout=60, **({"stdout": subprocess.PIPE} | streams))
        return done.returncode, (done.stdout or b"").decode(errors="replace")

    def files(self):
        return sorted(path.name for path in self.path.rglob("*") if path.is_file())


def replaced(counts, build, program):
    """With and without --force."""
    with Folder(program) as folder:
        for force, wanted in [([], 0), ([], 1), (["--force"], 0)]:
            status, said = folder.run(*force)
            counts.same(f"a file that exists, {build}, {force}", wanted, status)
            counts.same(f"is whole, {build}, {force}", OWN_FILE, (folder.path / NAME).read_bytes())
        status, said = folder.run("--mkv", "capture", "--force")
        kept = (folder.path / "capture").read_bytes() == SOUND
        counts.check(f"a capture is kept, {build}", status == 1 and kept and "files that are read" in said, said[-300:])
        os.link(folder.path / "capture", folder.path / "other")
        status, said = folder.run("--mkv", "other", "--force")
        counts.check(f"under another name too, {build}", status == 1 and "files that are read" in said, said[-300:])
        os.mkfifo(folder.path / "pipe")
        status, said = folder.run("--mkv", "pipe", "--force")
        is_pipe = (folder.path / "pipe").is_fifo()
        counts.check(f"a pipe stays, {build}", status == 1 and is_pipe and "no regular file" in said, said[-300:])
        counts.same(f"no part is left, {build}", sorted(["capture", NAME, "other"]), folder.files())


def read_by_nobody(counts, build, program):
    """The list goes to a pipe that is closed, and to a full device."""
    with Folder(program) as folder:
        reads, writes = os.pipe()
        os.close(reads)
        folder.run(stdout=writes)
        os.close(writes)
        counts.same(f"nobody reads the list, {build}", OWN_FILE, (folder.path / NAME).read_bytes())
    with Folder(program) as folder, open("/dev/full", "wb") as full:
        status, _ = folder.run(stdout=full)
        counts.same(f"no room for the list, {build}", (1, OWN_FILE), (status, (folder.path / NAME).read_bytes()))


def parts_of_others(counts, build, program):
    """Parts that another run has stay, and both runs' files are whole."""
    with Folder(program) as folder:
        other = folder.path / f"{NAME}.0.part"
        other.write_bytes(b"another run's")
        status, said = folder.run()
        whole = (folder.path / NAME).read_bytes() == OWN_FILE
        counts.check(f"another run's part, {build}", status == 0 and whole and other.read_bytes() == b"another run's",
                     said[-300:])


def vp8(number, first, more=b""):
    descriptor = b"\x10" if first else b"\x00"
    return packet(number, 90, 96, 3000 * (number // 2), descriptor + more + bytes(30))


def with_marker(datagram):
    return datagram[:1] + bytes([datagram[1] | 0x80]) + datagram[2:]


def first_frames(counts, build, program):
    """Frames of two packets; the first packet of all comes after so many whole frames."""
    key = b"\x10\x02\x00\x9d\x01\x2a\x40\x00\x30\x00"
    datagrams = []
    for frame in range(20):
        front = key if frame == 0 else b"\x11\x02\x00"
        datagrams += [vp8(2 * frame, True, front), with_marker(vp8(2 * frame + 1, False))]
    for late in (1, 2, 20):
        order = datagrams[1:2 * late] + datagrams[:1] + datagrams[2 * late:]
        _, said, *_ = ran(program, pcap_of(map(plain, order)), ROWS)
        counts.check(f"a first packet after {late} frames, {build}", "20 units, 1 keyframes" in said, said[-300:])
    status, said, *_ = ran(program, pcap_of(map(plain, datagrams[1:2] + datagrams[2:] + datagrams[:1])),
                           [*ROWS, "--hold-back", "2"])
    counts.check(f"a first packet after the hold-back, {build}", "19 units, 0 keyframes" in said, said[-300:])


def much_that_waits(counts, build, program):
    """Packets of 60,000 bytes of a frame that never ends, 90 MB of them, within 48 MB of memory."""
    frames = [plain(packet(number, 80, 102, 3000, b"\x7c\x05" + bytes(60_000))) for number in range(1500)]
    status, said, *_ = ran(program, pcap_of(frames), [*ROWS, "--list"], 48_000_000)
    counts.check(f"much that waits, {build}", status == 0 and "memory ran out" not in said, f"{status}: {said[-300:]}")
    counts.check(f"it is given up, {build}", "were given up" in said, said[-300:])


def ports(counts, build, program):
    """A type that is said for one port counts on that port alone."""
    frame = plain(packet(1))
    status, said, *_ = ran(program, pcap_of([frame]), ["--pt", "9:111=VP8/90000", "--list"])
    counts.check(f"a type of another port, {build}", "which no row says" in said and "VP8" not in said, said[-300:])


def version(counts, build, program):
    done = subprocess.run([program, "--version"], capture_output=True, text=True, timeout=60)
    counts.check(f"the version, {build}", done.returncode == 0 and done.stdout.startswith("rtprecord "), done.stdout)


def main():
    counts = Counts()
    for build, program in built.built(counts, PROGRAM):
        for test in (replaced, read_by_nobody, parts_of_others, first_frames, much_that_waits, ports, version):
            test(counts, build, str(program))
    counts.end()


if __name__ == "__main__":
    main()
