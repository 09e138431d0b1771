"""A capture whose datagrams are inside other packets, by the standards alone; tests/models/files.py writes it.

Each packet of a stream comes another way: in a PPPoE session, in GRE, in VXLAN, in fragments of IPv4 and IPv6,
relayed by a TURN server, and in fragments inside tunnels. After them come fragments of which no datagram is made.
"""
import struct

ADDRESSES = b"\x0a\0\0\1", b"\x0a\0\0\2"
LONG_ADDRESSES = b"\xfd" + b"\0" * 14 + b"\1", b"\xfd" + b"\0" * 14 + b"\2"


def udp(payload, source=41000, destination=41002):
    """RFC 768."""
    return struct.pack(">HHHH", source, destination, 8 + len(payload), 0) + payload


def ipv4(body, protocol=17, identification=0, offset=0, more=False):
    """RFC 791 3.1; an offset counts eights of bytes."""
    place = offset // 8 | (0x2000 if more else 0)
    front = struct.pack(">BBHHHBBH", 0x45, 0, 20 + len(body), identification, place, 64, protocol, 0)
    return front + b"".join(ADDRESSES) + body


def ipv6(body, first=17):
    """RFC 8200 3."""
    return struct.pack(">IHBB", 6 << 28, len(body), first, 64) + b"".join(LONG_ADDRESSES) + body


def ipv6_fragment(body, identification, offset, more):
    """A fragment header behind eight bytes of options for each hop (RFC 8200 4.3 and 4.5)."""
    hops = bytes([44, 0, 1, 4, 0, 0, 0, 0])
    return ipv6(hops + struct.pack(">BBHI", 17, 0, offset | more, identification) + body, 0)


def ethernet(kind, body):
    """A frame, filled up to 60 bytes as a link fills it (IEEE 802.3)."""
    return (b"\2\0\0\0\0\1\2\0\0\0\0\2" + struct.pack(">H", kind) + body).ljust(60, b"\xee")


def pppoe(protocol, body):
    """RFC 2516 4: version and type, code, session, length; then PPP's protocol."""
    return struct.pack(">BBHHH", 0x11, 0, 7, 2 + len(body), protocol) + body


def gre(kind, body, flags=0):
    """RFC 2784 2 and RFC 2890 2: a word for each of checksum, key and sequence number that a flag tells of."""
    words = bin(flags & 0xB000).count("1")
    return struct.pack(">HH", flags, kind) + b"\x5a\0\0\1" * words + body


def vxlan(frame):
    """RFC 7348 5: the flag I, the network's number in 24 bits."""
    return udp(struct.pack(">BxxxI", 8, 77 << 8) + frame, 50000, 4789)


def channel_data(payload, number=0x4001):
    """RFC 8656 12.4, and three bytes of padding."""
    return struct.pack(">HH", number, len(payload)) + payload + b"\0" * 3


def attribute(kind, value):
    """RFC 8489 14."""
    return struct.pack(">HH", kind, len(value)) + value + b"\0" * (-len(value) % 4)


def indication(kind, payload):
    """A Send or a Data indication: the peer's address, and the datagram (RFC 8656 11.1, 11.3, 18.3 and 18.4)."""
    attributes = attribute(0x12, b"\0\1\x81\x1b\x2b\x12\xa4\x43") + attribute(0x13, payload)
    return struct.pack(">HHI", kind, len(attributes), 0x2112A442) + b"transaction!" + attributes


def cut(body, places):
    """Parts of a packet's payload with their places, each but the last a multiple of eight bytes long."""
    ends = [*places[1:], len(body)]
    return [(start, body[start:end], end < len(body)) for start, end in zip(places, ends)]


def fragments_of_ipv4(body, identification, places):
    return [ethernet(0x0800, ipv4(part, 17, identification, start, more)) for start, part, more in cut(body, places)]


def fragments_of_ipv6(body, identification, places):
    parts = cut(body, places)
    return [ethernet(0x86DD, ipv6_fragment(part, identification, start, more)) for start, part, more in parts]


def ways(datagrams):
    """The frames of each datagram, the last of which completes it."""
    whole = [ipv4(udp(datagram)) for datagram in datagrams]
    yield [ethernet(0x8864, pppoe(0x21, whole[0]))]
    yield [ethernet(0x8100, b"\0\7\x88\x64" + pppoe(0x57, ipv6(udp(datagrams[1]))))]
    yield [ethernet(0x0800, ipv4(gre(0x0800, whole[2]), 47))]
    yield [ethernet(0x86DD, ipv6(gre(0x86DD, ipv6(udp(datagrams[3])), 0xB000), 47))]
    yield [ethernet(0x0800, ipv4(gre(0x6558, ethernet(0x0800, whole[4]), 0x2000), 47))]
    yield [ethernet(0x0800, ipv4(vxlan(ethernet(0x0800, whole[5]))))]
    yield [ethernet(0x0800, ipv4(gre(0x0800, ipv4(vxlan(ethernet(0x0800, whole[6])))), 47))]
    first, middle, last = fragments_of_ipv4(udp(datagrams[7]), 500, [0, 16, 24])
    yield [last, middle, middle, first]
    yield fragments_of_ipv6(udp(datagrams[8]), 0x10001, [0, 24])
    yield fragments_of_ipv4(vxlan(ethernet(0x0800, whole[9])), 501, [0, 40, 80])
    yield [ethernet(0x0800, ipv4(udp(channel_data(datagrams[10]))))]
    yield [ethernet(0x0800, ipv4(udp(indication(0x17, datagrams[11]))))]
    yield [ethernet(0x86DD, ipv6(udp(indication(0x16, datagrams[12]))))]
    parts = cut(udp(datagrams[13]), [0, 16])
    yield [ethernet(0x0800, ipv4(gre(0x0800, ipv4(part, 17, 502, start, more)), 47)) for start, part, more in parts]
    yield [ethernet(0x0800, ipv4(vxlan(frame))) for frame in fragments_of_ipv6(udp(datagrams[14]), 0x10003, [0, 24])]


WAYS = 15


def lost_fragments():
    """Two that overlap, one whose others never come, and one that the capture cut: each with the bytes it keeps."""
    body = udp(b"\x80" * 40)
    across = fragments_of_ipv4(body, 600, [0, 24])[0], fragments_of_ipv4(body, 600, [0, 16])[1]
    return [(frame, None) for frame in across] + [
        (fragments_of_ipv4(body, 601, [0, 24])[1], None),
        (fragments_of_ipv6(body, 0x10002, [0, 24])[0], 80),
    ]


# What rtprecord counts of them: without others, repeated, overlapping, cut.
COUNTS = (1, 1, 2, 1)

RELAYED = 3


def pcap(streams):
    """A little-endian file with microseconds, and when each datagram is complete."""
    (stream,) = streams
    out, times = struct.pack("<IHHIIII", 0xA1B2C3D4, 2, 4, 0, 0, 65535, 1), []
    second = 1400000000
    for frames in ways(stream.datagrams):
        for frame in frames:
            second += 1
            out += struct.pack("<IIII", second, 654321, len(frame), len(frame)) + frame
        times.append(f"{second}.654321")
    for frame, kept in lost_fragments():
        part = frame[:kept]
        out += struct.pack("<IIII", second, 700000, len(part), len(frame)) + part
    return out, [times]
