#!/usr/bin/env python3
"""Hostile captures at the built `rtprecord`: each has at most 3 MB, and between its packets ten of a stream of Opus.
Each run ends by itself within 5 s of a processor and 200 MB, and the file of that stream is what the model makes of its
packets. Captures of encrypted media are told as such. Run it behind `rt ci`.
"""

import os
import random
import resource
import struct
import subprocess
import tempfile
from pathlib import Path

import built
from built import Counts

import files
import tunnels
from tunnels import ethernet, gre, ipv4, ipv6, udp

PROGRAM = "rtprecord"
SECONDS, BYTES, MOST = 5, 200_000_000, 3_000_000
ROWS = ["--pt", "111=opus/48000/2", "--pt", "96=VP8/90000", "--pt", "102=H264/90000", "--pt", "98=VP9/90000",
        "--pt", "45=AV1/90000", "--rtx", "97=96"]
OWN = 0x5AFE5AFE


def packet(number, ssrc=OWN, pt=111, time=None, payload=None):
    payload = b"\x68" + bytes([number % 256] * 20) if payload is None else payload
    return files.rtp(ssrc, pt, number, 960 * number if time is None else time, 0, payload)


OWN_FILE = files.opus_file(OWN, 2, [packet(number)[12:] for number in range(10)], [960] * 10)


def plain(datagram):
    return ethernet(0x0800, ipv4(udp(datagram)))


def pcap(frames):
    """A file of as many frames as there is room for, after two packets of the stream, whose rest is spread among them:
    a source of a single packet makes room for others."""
    kept, size = [], 24
    for frame in frames:
        size += 16 + len(frame)
        if size > MOST - 10 * 120:
            break
        kept.append(frame)
    for number in range(10):
        kept.insert(number if number < 2 else (len(kept) + 1) * number // 10, plain(packet(number)))
    out = struct.pack("<IHHIIII", 0xA1B2C3D4, 2, 4, 0, 0, 65535, 1)
    return out + b"".join(struct.pack("<IIII", n // 100, n % 100, len(f), len(f)) + f for n, f in enumerate(kept))


def many(frame):
    return (frame(number) for number in range(1_000_000))


def drawn(name):
    return random.Random(f"hostile {name}")


def sources(number):
    return plain(packet(number, 1 + number))


def sources_of_two(number):
    return plain(packet(number, 1 + number // 2))


def unknown_types(number):
    return plain(packet(number, 1 + number, 30 + number % 30))


def gaps(number):
    return plain(packet(3 * number, 77, 111, 0x7FFFFFFF * number % 2**32))


def quiet_gaps(number):
    return plain(packet(number, 78, 0, 0x7FFFFFFF * number % 2**32, b"\xff"))


def jumps(number):
    return plain(packet(number * 30000, 79, 96, number, b"\x10\0\0\0"))


def pictures_in_pieces(number):
    return plain(packet(number, 80, 102, 3000, b"\x7c\x05\0"))


def repairs_of_none(number):
    return plain(packet(number, 1 + number % 255, 96 + number // 300 % 2, 0, b"\x10\0\0\0\0"))


def fragments_of_one(number):
    return ethernet(0x0800, ipv4(b"\x80" * 8, 17, 9, 8 * (number % 8000), True))


def fragments_of_many(number):
    return ethernet(0x0800, ipv4(b"\x80" * 8, 17, number % 65536, 8 * (number % 63), number % 2 == 0))


def fragments_across(number):
    return ethernet(0x0800, ipv4(b"\x80" * 16, 17, number % 32, 8 * (number % 3), True))


def fragments_of_ipv6(number):
    return ethernet(0x86DD, tunnels.ipv6_fragment(b"\x80" * 8, number % 60, 8 * (number // 60 % 8000), number % 7 > 0))


def deep_tunnels(number):
    inner = ipv4(udp(packet(number, 84)))
    for _ in range(number % 60):
        inner = ipv4(gre(0x0800, inner), 47)
    return ethernet(0x0800, inner)


def many_tags(number):
    return ethernet(0x8100, b"\0\1\x81\0" * 300)


def many_headers(number):
    return ethernet(0x86DD, ipv6(b"\x3c\0\0\0\0\0\0\0" * 150, 60))


def sealed_ports(number):
    return ethernet(0x0800, ipv4(udp(b"\x16\xfe\xfd" + b"\0" * 20, number % 65536, number * 7 % 65536)))


def reports(number):
    return plain(struct.pack(">BBHIQIII", 0x80, 200, 6, number, number, 0, 0, 0))


def attributes(number):
    return plain(struct.pack(">HHI", 0x17, 1200, 0x2112A442) + b"transaction!" + b"\0\1\0\0" * 300)


def layers(number):
    return plain(packet(number, 81, 98, 0, b"\xa8\x81" + b"\0" * 8))


def shapes(draw):
    """Bytes that begin as the packets of each layer do."""
    fronts = [b"", ethernet(0x0800, ipv4(b""))[:34], ethernet(0x8864, b"\x11\0"), ethernet(0x86DD, ipv6(b""))[:54],
              plain(packet(1))[:42], plain(packet(1, 82, 96))[:54], plain(packet(1, 83, 45))[:54],
              plain(b"\x40\1\0\x20"), ethernet(0x0800, ipv4(gre(0x0800, b""), 47))[:38]]
    while True:
        yield draw.choice(fronts) + draw.randbytes(draw.randrange(60))


FLOODS = [sources, sources_of_two, unknown_types, gaps, quiet_gaps, jumps, pictures_in_pieces, repairs_of_none,
          fragments_of_one, fragments_of_many, fragments_across, fragments_of_ipv6, deep_tunnels, many_tags,
          many_headers, sealed_ports, reports, attributes, layers]


def interfaces():
    """A pcapng file of interfaces with many options, and then the stream's packets of the last."""
    out = files.block(0x0A0D0D0A, struct.pack("<IHHq", 0x1A2B3C4D, 1, 0, -1))
    one = files.block(1, struct.pack("<HHI", 1, 0, 0) + b"\1\0\0\0" * 60)
    count = (MOST - 3000) // len(one)
    out += one * count
    for number in range(10):
        frame = plain(packet(number))
        out += files.block(6, struct.pack("<IIIII", count - 1, 0, number, len(frame), len(frame)) + frame)
    return out


def ran(program, capture, arguments, most=None, name=f"{OWN:08x}-111.opus"):
    """The run, within this much of memory if it is given: its status, what it says, its seconds of a processor and its
    greatest memory; and the stream's file."""
    with tempfile.TemporaryDirectory() as folder:
        Path(folder, "capture").write_bytes(capture)

        def limit_it():
            resource.setrlimit(resource.RLIMIT_CORE, (0, 0))
            resource.setrlimit(resource.RLIMIT_CPU, (60, 60))
            if most:
                resource.setrlimit(resource.RLIMIT_AS, (most, most))
        child = subprocess.Popen([program, "capture", "--out", "found", *arguments], cwd=folder,
                                 stdout=open(f"{folder}/said", "wb"), stderr=subprocess.STDOUT, preexec_fn=limit_it)
        _, status, used = os.wait4(child.pid, 0)
        child.returncode = os.waitstatus_to_exitcode(status)
        seconds, found = used.ru_utime + used.ru_stime, Path(folder, "found", name)
        said = Path(folder, "said").read_text(errors="replace")
        return child.returncode, said, seconds, 1024 * used.ru_maxrss, found.read_bytes() if found.exists() else b""


def tried(counts, name, program, capture):
    """A hostile capture: bounded, and the stream is whole. Bytes by chance may look like another stream, encrypted."""
    counts.check(f"{name} has at most 3 MB", len(capture) <= MOST, str(len(capture)))
    status, said, seconds, memory, found = ran(program, capture, [*ROWS, "--mkv", "all.mkv"])
    wanted = (0, 3) if name.startswith("shapes") else (0,)
    counts.check(f"{name} ends with 0", status in wanted, f"{status}: {said[-300:]}")
    counts.check(f"{name} ends within {SECONDS} s", seconds <= SECONDS, f"{seconds:.1f} s")
    counts.check(f"{name} takes at most 200 MB", memory <= BYTES, f"{memory / 1e6:.0f} MB")
    counts.check(f"{name} loses nothing of the stream", found == OWN_FILE, f"{len(found)} bytes")


FINGERPRINT = "a=fingerprint:sha-256 " + ":".join(["AB"] * 32)
TEXT = ["v=0", "o=- 0 0 IN IP4 0.0.0.0", "s=-", "t=0 0", FINGERPRINT, "m=video 9 UDP/TLS/RTP/SAVPF 96",
        "c=IN IP4 0.0.0.0", "a=mid:0", "a=sendrecv", "a=rtpmap:96 VP8/90000", ""]


def of_video(payload):
    """Forty packets of a stream of VP8."""
    return [plain(packet(number, 90, 96, 3000 * number, payload(number))) for number in range(40)]


def encrypted(counts, build, program):
    """Payloads that say nothing are told as encrypted beside DTLS or a fingerprint, and without these are not; what
    says something never is."""
    draw = drawn("encrypted")
    noise = of_video(lambda number: draw.randbytes(90))
    clear = of_video(lambda number: b"\x10\x10\2\0\x9d\1\x2a\x10\0\x08\0" + draw.randbytes(80))
    dtls = [ethernet(0x0800, ipv4(udp(b"\x16\xfe\xfd" + b"\0" * 30)))]
    with tempfile.NamedTemporaryFile("w", suffix=".sdp") as text:
        text.write("\r\n".join(TEXT))
        text.flush()
        row, said = ["--pt", "96=VP8/90000"], ["--sdp", text.name]
        for name, frames, arguments, wanted in [
                ("noise beside DTLS", dtls + noise, row, 3), ("noise with a fingerprint", noise, said, 3),
                ("noise alone", noise, row, 0), ("pictures beside DTLS", dtls + clear, row, 0),
                ("pictures with a fingerprint", clear, said, 0)]:
            status, told, *_ = ran(program, pcap_of(frames), arguments)
            counts.same(f"{name}, {build}", (wanted, wanted == 3), (status, "encrypted" in told.split("nearly")[0]))


def in_kinds(datagrams):
    """Captures of these datagrams, 20 ms apart, of each kind of file, each longer than a piece that is read at once."""
    frames = [plain(datagram) for datagram in datagrams]
    out = files.block(0x0A0D0D0A, struct.pack("<IHHq", 0x1A2B3C4D, 1, 0, -1))
    out += files.block(1, struct.pack("<HHI", 1, 0, 0))
    yield "pcapng", out + b"".join(files.block(6, struct.pack("<IIIII", 0, 0, 20000 * n, len(f), len(f)) + f)
                                   for n, f in enumerate(frames))
    yield "pcap", pcap_of(frames)
    yield "rtpdump", b"#!rtpplay1.0 0.0.0.0/0\n" + b"\0" * 16 + b"".join(
        struct.pack(">HHI", len(d) + 8, len(d), 20 * n) + d for n, d in enumerate(datagrams))
    yield "lines", "".join(f"{20 * n} {d.hex()}\n" for n, d in enumerate(datagrams)).encode()


def long_sound(count):
    """Packets of the stream with a thousand bytes each."""
    draw = drawn("long sound")
    return [packet(number, payload=b"\x68" + draw.randbytes(1000)) for number in range(count)]


def pieces(counts, build, program):
    """A capture that is read in pieces gives what it gives in one, and takes memory for what waits and not for itself:
    one of 34 MB is recorded within 24 MB. A line that is none is told by its number."""
    datagrams = long_sound(4000)
    wanted = files.opus_file(OWN, 2, [datagram[12:] for datagram in datagrams], [960] * len(datagrams))
    for kind, capture in in_kinds(datagrams):
        status, said, _, _, found = ran(program, capture, [*ROWS, "--mkv", "all.mkv"])
        counts.check(f"{kind} in pieces, {build}", (status, found) == (0, wanted), f"{status}: {said[-300:]}")
        if kind == "pcap":
            long = pcap_of(map(plain, long_sound(32000)))
            status, said, *_ = ran(program, long, [*ROWS, "--mkv", "all.mkv"], 24_000_000)
            counts.check(f"memory for pieces, {build}", status == 0, f"{status}: {said[-300:]}")
    status, said, *_ = ran(program, capture + b"no line\n", ROWS)
    counts.check(f"a line that is none, {build}", status == 1 and "line 4001 " in said, said[-300:])


def bundled_only(counts, build, program):
    """A section of port 0 is read if it is offered in the bundle only, and else counts as rejected."""
    section = ["m=audio 0 UDP/TLS/RTP/SAVPF 111", "a=rtpmap:111 opus/48000/2"]
    for more, wanted in [(["a=bundle-only"], 0), ([], 3)]:
        with tempfile.NamedTemporaryFile("w", suffix=".sdp") as text:
            text.write("\r\n".join(TEXT[:4] + section + more + [""]))
            text.flush()
            status, said, *_ = ran(program, pcap([]), ["--sdp", text.name])
            counts.check(f"bundled only, {build}: {wanted}", status == wanted, f"{status}: {said[-300:]}")


SETS = [b"\x67\x42\xc0\x1f\xd9", b"\x68\xce\x3c\x80"]
LIST = files.listed(SETS)
# Values of `sprop-parameter-sets`: nothing; no base64, not padded, of another alphabet, with a blank; units of nothing;
# a slice, a unit of one byte, and one with a start code; and lists of a megabyte.
NO_SETS = ["", "====", "Z0LAH9k", LIST[:-1], "Z0L-H9k_", LIST.replace(",", ", "), LIST + ",", ",", ",,,", "ZYiE",
           "Zw==", LIST + "," + files.listed([b"\x67\0\0\1\x65"]), "A" * 1_000_000, "," * 1_000_000,
           ",".join([LIST] * 60_000)]


def session_sets(counts, build, program):
    """Parameter sets of a session text begin the file of a stream without; those that can't be read are told, and the
    file is as without them."""
    nals = [b"\x65\x88\x84", b"\x41\x9a\2"]
    capture = pcap_of(plain(files.rtp(91, 96, n, 3000 * n, 1, nal)) for n, nal in enumerate(nals))
    for place, value in enumerate([LIST, *NO_SETS]):
        lines = ["m=video 9 RTP/AVP 96", "a=rtpmap:96 H264/90000", f"a=fmtp:96 sprop-parameter-sets={value}"]
        wanted = b"".join(b"\0\0\0\1" + nal for nal in (SETS if place == 0 else []) + nals)
        with tempfile.NamedTemporaryFile("w", suffix=".sdp") as text:
            text.write("\r\n".join(TEXT[:4] + lines + [""]))
            text.flush()
            arguments = ["--sdp", text.name, "--mkv", "all.mkv"]
            name = f"sets {place} of a text, {build}"
            status, said, seconds, memory, found = ran(program, capture, arguments, None, "0000005b-96.h264")
            counts.check(f"{name} end with 0", status == 0, f"{status}: {said[-300:]}")
            counts.check(f"{name} are told", ("sets are passed over" in said) == (place > 0), said[-300:])
            counts.check(f"{name} begin the file", found == wanted, found.hex()[:300])
            counts.check(f"{name} take at most {SECONDS} s", seconds <= SECONDS, f"{seconds:.1f} s")
            counts.check(f"{name} take at most 200 MB", memory <= BYTES, f"{memory / 1e6:.0f} MB")


def of_sources(count):
    """Two packets of each SSRC."""
    return [plain(packet(n, 1 + number)) for number in range(count) for n in range(2)]


def of_repaired_sources(count):
    """Two packets of each SSRC, and then a repair for each, which no text groups with one."""
    frames = [plain(packet(2 * n, 1 + number, 96)) for number in range(count) for n in range(2)]
    return frames + [plain(packet(1, 1 + count + number, 97, payload=b"\0\1\x10\0")) for number in range(count)]


def many_sources(counts, build, program):
    """Twice as many SSRCs take about twice as long."""
    for kind in (of_sources, of_repaired_sources):
        name, took = kind.__name__.replace("_", " "), []
        for count in (10000, 20000):
            capture, arguments = pcap_of(kind(count)), [*ROWS, "--list", "--most-streams", "30000"]
            status, said, seconds, *_ = ran(program, capture, arguments)
            is_listed = said.count("SSRC") == count
            counts.check(f"{count} {name}, {build}", status == 0 and is_listed, f"{status}: {said[-300:]}")
            took.append(seconds)
        counts.check(f"twice {name}, {build}", took[1] < 3 * took[0] + 0.2, f"{took[0]:.2f} and {took[1]:.2f} s")


def pcap_of(frames):
    out = struct.pack("<IHHIIII", 0xA1B2C3D4, 2, 4, 0, 0, 65535, 1)
    return out + b"".join(struct.pack("<IIII", n, 0, len(f), len(f)) + f for n, f in enumerate(frames))


def main():
    counts = Counts()
    captures = [(flood.__name__.replace("_", " "), pcap(many(flood))) for flood in FLOODS]
    captures += [(f"shapes {seed}", pcap(shapes(drawn(seed)))) for seed in range(3)] + [("interfaces", interfaces())]
    for build, program in built.built(counts, PROGRAM):
        for name, capture in captures:
            tried(counts, f"{name}, {build}", program, capture)
        encrypted(counts, build, program)
        pieces(counts, build, program)
        bundled_only(counts, build, program)
        session_sets(counts, build, program)
        many_sources(counts, build, program)
        status, said, *_ = ran(program, b"\x1f\x8b\x08" + b"\0" * 30, ROWS)
        counts.check(f"gzip is refused by name, {build}", status == 1 and "gzip" in said, f"{status}: {said}")
    counts.end()


if __name__ == "__main__":
    main()
