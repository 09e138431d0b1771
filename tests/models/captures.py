"""Captures in lines of hexadecimal written again as files of pcap, pcapng and rtpdump.

    python3 tests/models/captures.py LINES OUT.pcap|OUT.pcapng|OUT.rtpdump

The packets of pcap and pcapng have one of six frames in turn: Ethernet with none, one or two tags of virtual networks,
over IPv4 or over IPv6 with and without extension headers. Between them stand packets that a reader passes over: one
without UDP, a fragment, one that the capture cut, a STUN request and a report of RTCP. pcap is little-endian with
microseconds; pcapng is big-endian, with an interface of nanoseconds and Ethernet and one of 2^-20 seconds and raw IP,
and has enhanced, simple and old packet blocks.
"""
import struct
import sys


def datagrams(path):
    """Each line's milliseconds and bytes."""
    for line in open(path):
        if not line.startswith("#") and line.strip():
            time, text = line.split()
            yield int(time), bytes.fromhex(text)


def udp(payload):
    return struct.pack(">HHHH", 40000, 40002, 8 + len(payload), 0) + payload


def ipv4(body, protocol=17, fragment=0):
    head = struct.pack(">BBHHHBBH4s4s", 0x45, 0, 20 + len(body), 1, fragment, 64, protocol, 0, b"\x7f\0\0\1", b"\x7f\0\0\1")
    return head + body


def ipv6(body, extensions=b"", first=17):
    head = struct.pack(">IHBB", 0x60000000, len(extensions) + len(body), first, 64)
    return head + b"\0" * 15 + b"\1" + b"\0" * 15 + b"\1" + extensions + body


def ip(number, payload):
    """The packet of a datagram, one of three in turn."""
    if number % 3 == 0:
        return 0x0800, ipv4(udp(payload))
    if number % 3 == 1:
        return 0x86DD, ipv6(udp(payload))
    hop_by_hop = bytes([60, 0, 1, 4, 0, 0, 0, 0])
    destination = bytes([17, 1, 1, 12]) + b"\0" * 12
    return 0x86DD, ipv6(udp(payload), hop_by_hop + destination, 0)


def ethernet(kind, packet, tags):
    """A frame, filled up to 60 bytes as a link fills it."""
    head = b"\2\0\0\0\0\1\2\0\0\0\0\2"
    for tag in tags:
        head += struct.pack(">HH", tag, 7)
    return (head + struct.pack(">H", kind) + packet).ljust(60, b"\xee")


TAGS = [(), (0x8100,), (0x88A8, 0x8100)]


def frames(path):
    """Each frame with its time, and how many bytes of it a capture keeps."""
    for number, (time, payload) in enumerate(datagrams(path)):
        kind, packet = ip(number, payload)
        yield time, ethernet(kind, packet, TAGS[number // 3 % 3]), None
        if number % 20 == 3:
            yield time, ethernet(0x0806, b"\0\1\x08\0\6\4\0\1" + b"\0" * 20, ()), None
            yield time, ethernet(0x0800, ipv4(b"\0" * 64, 17, 0x2000), ()), None
            yield time, ethernet(kind, packet, ()), 70
            yield time, ethernet(0x0800, ipv4(udp(b"\0\1\0\0\x21\x12\xa4\x42" + b"\1" * 12)), ()), None
            yield time, ethernet(0x0800, ipv4(udp(b"\x80\xc9\0\1\0\0\0\1")), ()), None


def pcap(path):
    out = struct.pack("<IHHIIII", 0xA1B2C3D4, 2, 4, 0, 0, 65535, 1)
    for time, frame, kept in frames(path):
        part = frame[:kept]
        out += struct.pack("<IIII", time // 1000, time % 1000 * 1000, len(part), len(frame)) + part
    return out


def block(kind, body):
    body += b"\0" * (-len(body) % 4)
    return struct.pack(">II", kind, 12 + len(body)) + body + struct.pack(">I", 12 + len(body))


def pcapng(path):
    out = block(0x0A0D0D0A, struct.pack(">IHHq", 0x1A2B3C4D, 1, 0, -1))
    out += block(1, struct.pack(">HHI", 1, 0, 0) + struct.pack(">HHB3xHH", 9, 1, 9, 0, 0))
    out += block(1, struct.pack(">HHI", 101, 0, 0) + struct.pack(">HH4sHHB3xHH", 2, 4, b"eth0", 9, 1, 0x94, 0, 0))
    out += block(0x0BAD, b"a block of another kind")
    for number, (time, payload) in enumerate(datagrams(path)):
        kind, packet = ip(number, payload)
        if number % 4 == 0:
            frame = ethernet(kind, packet, TAGS[number // 4 % 3])
            ticks = time * 1000000
            head = struct.pack(">IIIII", 0, ticks >> 32, ticks & 0xFFFFFFFF, len(frame), len(frame))
            out += block(6, head + frame)
        elif number % 4 == 1:
            frame = ethernet(kind, packet, ())
            out += block(3, struct.pack(">I", len(frame)) + frame)
        elif number % 4 == 2:
            ticks = time * (1 << 20) // 1000
            head = struct.pack(">HHIIII", 1, 0, ticks >> 32, ticks & 0xFFFFFFFF, len(packet), len(packet))
            out += block(2, head + packet)
        else:
            ticks = time * (1 << 20) // 1000
            head = struct.pack(">IIIII", 1, ticks >> 32, ticks & 0xFFFFFFFF, len(packet), len(packet))
            out += block(6, head + packet)
    return out


def rtpdump(path):
    out = b"#!rtpplay1.0 127.0.0.1/40000\n" + struct.pack(">IIIHH", 0, 0, 0x7F000001, 40000, 0)
    for time, payload in datagrams(path):
        out += struct.pack(">HHI", 8 + len(payload), len(payload), time) + payload
    return out


if __name__ == "__main__":
    lines, out = sys.argv[1:]
    write = {"pcap": pcap, "pcapng": pcapng, "rtpdump": rtpdump}[out.rsplit(".", 1)[1]]
    open(out, "wb").write(write(lines))
