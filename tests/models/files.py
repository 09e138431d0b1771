"""Files of recorded streams, and the captures that they are recorded from, by the standards alone.

    python3 tests/models/files.py          prints the rows: datagrams in hexadecimal, and the file that they become
    python3 tests/models/files.py FOLDER   writes the captures and the session text of the rows to a folder
    python3 tests/models/files.py --told   prints what rtprecord has to say in its stored run, which has two streams of
                                           a browser before those of the rows

Checksums of Ogg are by a table (RFC 3533 6, the CRC's table of its generator), lengths and positions by hand.
"""
import base64
import hashlib
import os
import struct
import sys

import tunnels

HERE = os.path.dirname(os.path.abspath(__file__))

# The remainder of each byte by the generator 04c11db7, the most significant bit first.
TABLE = []
for byte in range(256):
    rest = byte << 24
    for _ in range(8):
        rest = (rest << 1) ^ (0x04C11DB7 if rest & 0x80000000 else 0)
        rest &= 0xFFFFFFFF
    TABLE.append(rest)


def checksum(page):
    rest = 0
    for byte in page:
        rest = ((rest << 8) & 0xFFFFFFFF) ^ TABLE[(rest >> 24) ^ byte]
    return rest


def page(flags, granule, serial, sequence, packet):
    """A page of Ogg with one packet (RFC 3533 6)."""
    lacing = [255] * (len(packet) // 255) + [len(packet) % 255]
    fields = struct.pack("<BQIII", flags, granule, serial, sequence, 0)
    whole = b"OggS\0" + fields + bytes([len(lacing)]) + bytes(lacing) + packet
    return whole[:22] + struct.pack("<I", checksum(whole)) + whole[26:]


def opus_file(serial, channels, packets, samples):
    """Packets with the samples of each, at 48,000 a second (RFC 7845 3 to 5)."""
    head = opus_head(channels)
    tags = b"OpusTags" + struct.pack("<I", 11) + b"media_files" + struct.pack("<I", 0)
    out = page(2, 0, serial, 0, head) + page(0, 0, serial, 1, tags)
    granule = 0
    for number, packet in enumerate(packets):
        granule += samples[number]
        out += page(4 if number == len(packets) - 1 else 0, granule, serial, number + 2, packet)
    return out


def ivf_file(codec, width, height, frames):
    """Frames with their times in ticks of 1/90000 s; the length is that of all, the last as long as the mean."""
    span = frames[-1][0]
    ticks = span + span // (len(frames) - 1)
    out = b"DKIF" + struct.pack("<HH4sHHIIII", 0, 32, codec, width, height, 90000, 1, ticks, 0)
    for time, frame in frames:
        out += struct.pack("<IQ", len(frame), time) + frame
    return out


def wav_file(form, per_byte, sound):
    """A WAVEFORMATEX of one channel and 8,000 bytes a second; a chunk of odd length has a byte after it."""
    chunks = b"WAVEfmt " + struct.pack("<I", len(form)) + form
    chunks += b"fact" + struct.pack("<II", 4, len(sound) * per_byte)
    chunks += b"data" + struct.pack("<I", len(sound)) + sound + b"\0" * (len(sound) % 2)
    return b"RIFF" + struct.pack("<I", len(chunks)) + chunks


def amr_wb_file(frames):
    return b"#!AMR-WB\n" + b"".join(frames)


def superframe(layers):
    """The frames of a picture, and the index after them (VP9 bitstream specification, Annex B)."""
    width = (max(len(layer) for layer in layers).bit_length() + 7) // 8
    mark = bytes([0b11000000 | (width - 1) << 3 | len(layers) - 1])
    sizes = b"".join(len(layer).to_bytes(width, "little") for layer in layers)
    return b"".join(layers) + mark + sizes + mark


def element(number, content):
    """An element of EBML, with the length of its content in eight bytes (RFC 8794 4 and 5)."""
    name = number.to_bytes((number.bit_length() + 7) // 8, "big")
    return name + (2**56 + len(content)).to_bytes(8, "big") + content


def uint(number, value):
    return element(number, value.to_bytes(8, "big"))


def text(number, value):
    return element(number, value.encode())


def real(number, value):
    return element(number, struct.pack(">d", value))


def mkv_track(number, track):
    """The codec's name and private data, delay and preroll in nanoseconds, and what it carries (RFC 9559 5.1.4)."""
    name, private, delay, preroll, sizes = track
    if name.startswith("V"):
        kind, media = 1, element(0xE0, uint(0xB0, sizes[0]) + uint(0xBA, sizes[1]))
    else:
        kind, media = 2, element(0xE1, real(0xB5, sizes[0]) + uint(0x9F, sizes[1]))
    front = uint(0xD7, number) + uint(0x73C5, number) + uint(0x83, kind) + uint(0x9C, 0) + text(0x86, name)
    if private:
        front += element(0x63A2, private)
    return element(0xAE, front + uint(0x56AA, delay) + uint(0x56BB, preroll) + media)


def mkv_file(duration, tracks, blocks):
    """Blocks of a track's number, a time in milliseconds, whether they are keys, and their bytes (RFC 9559)."""
    out = uint(0x4286, 1) + uint(0x42F7, 1) + uint(0x42F2, 4) + uint(0x42F3, 8)
    out = element(0x1A45DFA3, out + text(0x4282, "matroska") + uint(0x4287, 4) + uint(0x4285, 2))
    info = uint(0x2AD7B1, 10**6) + real(0x4489, duration) + text(0x4D80, "media_files") + text(0x5741, "media_files")
    segment = element(0x1549A966, info)
    segment += element(0x1654AE6B, b"".join(mkv_track(number, it) for number, it in enumerate(tracks, 1)))
    clusters = [[0, b""]]
    for track, time, is_key, content in blocks:
        if clusters[-1][0] != time // 1000:
            clusters.append([time // 1000, b""])
        head = bytes([0x80 | track]) + struct.pack(">hB", time % 1000, 0x80 if is_key else 0)
        clusters[-1][1] += element(0xA3, head + content)
    for second, content in clusters:
        segment += element(0x1F43B675, uint(0xE7, 1000 * second) + content)
    return out + element(0x18538067, segment)


def rtp(ssrc, pt, number, time, marker, payload, padding=0):
    first, second = 0x80 | (0x20 if padding else 0), marker << 7 | pt
    head = struct.pack(">BBHII", first, second, number & 0xFFFF, time & 0xFFFFFFFF, ssrc)
    return head + payload + (b"\0" * (padding - 1) + bytes([padding]) if padding else b"")


def fields(*parts):
    """Numbers of so many bits each, and zeros up to a whole byte."""
    bits = "".join(f"{number:0{width}b}" for number, width in parts)
    bits += "0" * (-len(bits) % 8)
    return int(bits, 2).to_bytes(len(bits) // 8, "big")


class Stream:
    """A stream: its datagrams in the order in which they come, and what rtprecord says of it."""

    def __init__(self, ssrc, pt, codec, rate, ending, keyframes, lost, repairs=0):
        self.ssrc, self.pt, self.codec, self.rate, self.ending = ssrc, pt, codec, rate, ending
        self.keyframes, self.lost, self.repairs, self.late = keyframes, lost, repairs, 0
        self.datagrams, self.file, self.track = [], b"", None
        # Each unit's time in ticks after the first, whether it can be decoded alone, and its bytes in a track.
        self.units = []
        # The parameter sets that only the session text has.
        self.sets = []


def vp8():
    """A key frame of 16 by 8, one frame that is lost, and one more. Their times pass 2^32."""
    key = bytes.fromhex("100200" "9d012a" "10000800" "aa55")
    later = bytes.fromhex("3100aabbcc")
    it = Stream(0x11111111, 96, "VP8", 90000, "ivf", 1, 1)
    starts = 0xFFFFF000
    sent = [(65534, 0, key), (65535, 3000, later), (1, 9000, later + b"\1")]
    for number, time, frame in sent:
        it.datagrams.append(rtp(it.ssrc, it.pt, number, starts + time, 1, b"\x10" + frame))
        it.units.append((time, frame is key, frame))
    it.file = ivf_file(b"VP80", 16, 8, [(time, frame) for _, time, frame in sent])
    it.track = ("V_VP8", b"", 0, 0, (16, 8))
    return it


def vp9():
    """A picture of two layers, each of two packets, then one of one layer. The first begins as a key frame does."""
    head = fields((2, 2), (0, 4), (1, 1), (0, 1), (0x498342, 24), (1, 3), (0, 1), (31, 16), (17, 16))
    low, high, later = head + b"\1" * 300, head + b"\2" * 40, b"\x86\0\x40\x92"
    it = Stream(0x22222222, 98, "VP9", 90000, "ivf", 0, 0)
    number = 500

    def send(part, spatial, content, marker, time):
        nonlocal number
        # I and L are set; B and E by the part; a picture's number of 7 bits; the layers, and TL0PICIDX.
        descriptor = bytes([0b10100000 | part, 7, spatial << 1, 3])
        it.datagrams.append(rtp(it.ssrc, it.pt, number, time, marker, descriptor + content))
        number += 1

    begin, end = 8, 4
    send(begin, 0, low[:200], 0, 90000)
    send(end, 0, low[200:], 0, 90000)
    send(begin, 1, high[:20], 0, 90000)
    send(end, 1, high[20:], 1, 90000)
    send(begin | end, 0, later, 1, 93000)
    it.units = [(0, True, superframe([low, high])), (3000, False, later)]
    it.file = ivf_file(b"VP90", 32, 18, [(time, unit) for time, _, unit in it.units])
    it.track = ("V_VP9", b"", 0, 0, (32, 18))
    return it


def av1():
    """Two temporal units, of which the file delimits each; their OBUs get a size."""
    # Profile 0; no times, no delays; one operating point of level 4; 10 bits of width and of height, 300 by 200.
    points = [(0, 3), (0, 1), (0, 1), (0, 1), (0, 1), (0, 5), (0, 12), (4, 5)]
    sizes = [(9, 4), (9, 4), (299, 10), (199, 10), (0, 1)]
    # Superblocks and filters; no order of pictures; tools of screens chosen, and integer vectors; three more tools;
    # eight bits of colours, sampled at half, with a place of 2.
    tools = [(7, 3), (0, 4), (0, 1), (1, 1), (1, 1), (7, 3)]
    colours = [(0, 1), (0, 1), (0, 1), (0, 1), (2, 2), (0, 1), (0, 1), (1, 1)]
    content = fields(*points, *sizes, *tools, *colours)
    header, frame, later = b"\x08" + content, b"\x30" + b"\x10\x20\x30", b"\x30" + b"\x40\x50"
    it = Stream(0x33333333, 45, "AV1", 90000, "ivf", 1, 0)

    def sized(obu):
        return bytes([obu[0] | 2, len(obu) - 1]) + obu[1:]

    # W is 2 and N is set in the first; W is 1 in the second.
    first = b"\x28" + bytes([len(header)]) + header + frame
    it.datagrams = [rtp(it.ssrc, it.pt, 9, 1000, 1, first), rtp(it.ssrc, it.pt, 10, 4000, 1, b"\x10" + later)]
    it.units = [(0, True, sized(header) + sized(frame)), (3000, False, sized(later))]
    it.file = ivf_file(b"AV01", 300, 200, [(time, b"\x12\0" + unit) for time, _, unit in it.units])
    # Marker and version; profile and level; tier, depth, twelve bits, no colours, both samplings and the place.
    told = fields((1, 1), (1, 7), (0, 3), (4, 5), (0, 4), (3, 2), (2, 2), (0, 8))
    it.track = ("V_AV1", told + sized(header), 0, 0, (300, 200))
    return it


def h264():
    """Parameter sets in one packet, a picture in two, and one that is lost and comes as a repair."""
    # Baseline, level 3.1; codes of 0, 0, 2 and 1; 2 by 1 macroblocks, of which two columns are cut off at the right.
    sps = b"\x67\x42\xc0\x1f" + fields(
        *[(1, 1), (1, 1), (3, 3), (2, 3), (0, 1), (2, 3), (1, 1), (1, 1)],
        *[(1, 1), (1, 1), (1, 1), (2, 3), (1, 1), (1, 1), (0, 1), (1, 1)],
    )
    pps, idr, later = b"\x68\xce\x3c\x80", b"\x65" + b"\x88\x99" * 4, b"\x41\x9a\x02"
    it = Stream(0x44444444, 102, "H264", 90000, "h264", 1, 0, 1)
    sets = b"\x18" + struct.pack(">H", len(sps)) + sps + struct.pack(">H", len(pps)) + pps
    it.datagrams = [
        rtp(it.ssrc, it.pt, 100, 3000, 0, sets),
        rtp(it.ssrc, it.pt, 101, 3000, 0, b"\x7c\x85" + idr[1:5]),
        rtp(it.ssrc, it.pt, 102, 3000, 1, b"\x7c\x45" + idr[5:]),
        rtp(it.ssrc, it.pt, 104, 9000, 1, later + b"\x05"),
        # A repair is a packet of its own, which begins with the number of the one that it wraps (RFC 4588 4); and one
        # of padding alone.
        rtp(0x44444455, 103, 7, 6000, 1, struct.pack(">H", 103) + later),
        rtp(0x44444455, 103, 8, 6000, 0, b"", 20),
    ]
    units = [(0, [sps, pps, idr]), (3000, [later]), (6000, [later + b"\x05"])]
    it.file = b"".join(b"\0\0\0\1" + nal for _, nals in units for nal in nals)
    it.units = [(t, t == 0, b"".join(struct.pack(">I", len(nal)) + nal for nal in nals)) for t, nals in units]
    record = b"\1" + sps[1:4] + b"\xff\xe1" + struct.pack(">H", len(sps)) + sps
    record += b"\1" + struct.pack(">H", len(pps)) + pps
    it.track = ("V_MPEG4/ISO/AVC", record, 0, 0, (30, 16))
    return it


def code(number):
    """A number of as many bits as it needs, less one, after as many zeros (H.265 9.2)."""
    return number + 1, 2 * (number + 1).bit_length() - 1


def escaped(unit):
    """A unit with a byte of 3 after two zeros, where a byte of at most 3 would follow (H.265 7.4.1)."""
    out, zeros = b"", 0
    for byte in unit:
        if zeros == 2 and byte < 4:
            out, zeros = out + b"\3", 0
        out, zeros = out + bytes([byte]), zeros + 1 if byte == 0 else 0
    return out


def coded(ssrc, pt, codec, ending, sets, nals):
    """NAL units, each a picture in a packet, of which the first is a key frame, behind sets of the session text."""
    it = Stream(ssrc, pt, codec, 90000, ending, 1, 0)
    it.datagrams = [rtp(ssrc, pt, n, 3000 * n, 1, nal) for n, nal in enumerate(nals)]
    it.units = [(3000 * n, n == 0, struct.pack(">I", len(nal)) + nal) for n, nal in enumerate(nals)]
    it.file, it.sets = b"".join(b"\0\0\0\1" + nal for nal in sets + nals), sets
    return it


def listed(units):
    """Units as session texts have them (RFC 6184 8.1)."""
    return ",".join(base64.b64encode(unit).decode() for unit in units)


# Main profile and its flags, progressive and of frames alone; level 2.
H265_GENERAL = b"\1\x60\0\0\0\x90\0\0\0\0\0\x3c"
# One temporal layer, which nests; set 0, colours at half, 64 by 40, of which 2 and 4 are cut off, all of 8 bits.
H265_SPS = escaped(b"\x42\1" + fields((0, 4), (0, 3), (1, 1)) + H265_GENERAL + fields(
    *[code(0), code(1), code(64), code(40), (1, 1), code(0), code(1), code(1), code(1)],
    *[code(0), code(0), code(4), (1, 1)],
))
H265_SETS = [b"\x40\1\x0c\1\xff\xff", H265_SPS, b"\x44\1\xc1\x72", b"\x44\1\xa1\x73\x80"]


def h265():
    """Pictures whose parameter sets only the session text has, two of them of pictures. One is lost, and comes as a
    repair that no text groups with the stream."""
    nals = [b"\x26\1\xaf\x10", b"\2\1\xd0\x20", b"\2\1\xd0\x30\x31"]
    it = coded(0xBBBBBBBB, 104, "H265", "h265", H265_SETS, nals)
    del it.datagrams[1]
    it.datagrams.append(rtp(0xBBBBBBCC, 107, 9, 3000, 1, struct.pack(">H", 1) + nals[1]))
    it.repairs = 1
    # Version; the general fields; no segments, no parallelism; colours, depths, rates; one layer that nests, lengths of
    # four bytes; three kinds of sets.
    record = b"\1" + H265_GENERAL + b"\xf0\0\xfc\xfd\xf8\xf8\0\0\x0f\3"
    for kind, sets in ((32, H265_SETS[:1]), (33, H265_SETS[1:2]), (34, H265_SETS[2:])):
        record += struct.pack(">BH", kind, len(sets)) + b"".join(struct.pack(">H", len(one)) + one for one in sets)
    it.track = ("V_MPEGH/ISO/HEVC", record, 0, 0, (62, 36))
    return it


H266_SETS = [b"\0\x79\0\x0d\2", b"\0\x81\0\0\x48"]


def h266():
    """Pictures whose parameter sets only the session text has, as of a codec without a track."""
    return coded(0xCCCCCCCC, 105, "H266", "h266", H266_SETS, [b"\0\x39\xc4", b"\0\1\xd0\x20"])


def h264_untold():
    """Pictures whose parameter sets in the session text can't be read."""
    return coded(0xDDDDDDDD, 106, "H264", "h264", [], [b"\x65\x88\x84", b"\x41\x9a\2"])


def opus_head(channels):
    return b"OpusHead" + struct.pack("<BBHIhB", 1, channels, 312, 48000, 0, 0)


def opus_track(channels):
    """What a player skips is 312 samples; after a seek it decodes 80 ms (RFC 7845 4.6)."""
    return ("A_OPUS", opus_head(channels), 312 * 10**9 // 48000, 80 * 10**6, (48000, channels, "audio"))


def opus():
    """Hybrid packets of 20 ms and of 10 ms, packets of three frames of 5 ms, and one that is lost (RFC 6716 3.1)."""
    packets = [b"\x68\1\2\3", b"\x60\4", b"\xcb\3\5\6", b"\xcb\3", b"\xcb\3\7\x08"]
    samples = [960, 480, 720, 720, 720]
    it = Stream(0x55555555, 111, "opus", 48000, "opus", 0, 1)
    time = 0
    for number, packet in enumerate(packets):
        if number != 3:
            it.datagrams.append(rtp(it.ssrc, it.pt, 40 + number, 5000 + time, 0, packet))
            it.units.append((time, True, packet))
        time += samples[number]
    it.file = opus_file(it.ssrc, 2, packets, samples)
    it.track = opus_track(2)
    return it


def opus_inside():
    """A packet for each way in which a datagram comes inside other packets."""
    it = Stream(0xAAAAAAAA, 111, "opus", 48000, "opus", 0, 0)
    packets = [b"\x68" + bytes(range(number, number + 30)) for number in range(tunnels.WAYS)]
    for number, packet in enumerate(packets):
        it.datagrams.append(rtp(it.ssrc, it.pt, 900 + number, 960 * number, 0, packet))
        it.units.append((960 * number, True, packet))
    it.file = opus_file(it.ssrc, 2, packets, [960] * len(packets))
    it.track = opus_track(2)
    return it


def wave_format(tag, rate, bits):
    return struct.pack("<HHIIHHH", tag, 1, rate, 8000, 1, bits, 0)


def sound(ssrc, pt, codec, tag, rate, bits, per_byte, quiet):
    """Two packets with a gap of four bytes between them."""
    it = Stream(ssrc, pt, codec, 8000, "wav", 0, 0)
    first, second = b"\1\2\3", b"\4\5\6\7"
    it.datagrams = [rtp(ssrc, pt, 1, 800, 1, first), rtp(ssrc, pt, 2, 807, 0, second)]
    it.units = [(0, True, first), (7, True, second)]
    it.file = wav_file(wave_format(tag, rate, bits), per_byte, first + bytes([quiet]) * 4 + second)
    it.track = ("A_MS/ACM", wave_format(tag, rate, bits), 0, 0, (rate, 1, "audio"))
    return it


def amr_wb():
    """Two frames in a packet, one frame that is lost, and comfort noise (RFC 4867 4.4 and 5.3)."""
    speech, noise = bytes(range(17)), b"\x99" * 5
    it = Stream(0x99999999, 97, "AMR-WB", 16000, "awb", 0, 1)
    it.datagrams = [
        rtp(it.ssrc, it.pt, 3, 0, 1, b"\xf0\x84\x04" + speech + speech),
        rtp(it.ssrc, it.pt, 5, 960, 0, b"\xf0\x4c" + noise),
    ]
    stored = [b"\x04" + speech + b"\x04" + speech, b"\x7c", b"\x4c" + noise]
    it.units = [(0, True, stored[0]), (960, True, stored[2])]
    it.file = amr_wb_file(stored)
    return it


PCMU = lambda: sound(0x66666666, 0, "PCMU", 7, 8000, 8, 1, 0xFF)
PCMA = lambda: sound(0x77777777, 8, "PCMA", 6, 8000, 8, 1, 0xD5)
G722 = lambda: sound(0x88888888, 9, "G722", 0x028F, 16000, 4, 2, 0xFA)


def udp(payload):
    return struct.pack(">HHHH", 41000, 41002, 8 + len(payload), 0) + payload


def ipv4(body):
    return struct.pack(">BBHHHBBH4s4s", 0x45, 0, 20 + len(body), 1, 0, 64, 17, 0, b"\x7f\0\0\1", b"\x7f\0\0\1") + body


def ipv6_authenticated(body):
    """An authentication header of 24 bytes, of which its length counts words less two (RFC 4302 2.2)."""
    authentication = bytes([17, 4, 0, 0]) + b"\x11" * 20
    packet = struct.pack(">IHBB", 0x60000000, len(authentication) + len(body), 51, 64)
    return packet + b"\0" * 15 + b"\1" + b"\0" * 15 + b"\1" + authentication + body


def ethernet(body):
    return b"\2\0\0\0\0\1\2\0\0\0\0\2\x08\0" + body


def loopback(body):
    """IPv6 on a system of BSD, whose four bytes are those of its address family."""
    return struct.pack(">I", 24) + body


def block(kind, body):
    body += b"\0" * (-len(body) % 4)
    return struct.pack("<II", kind, 12 + len(body)) + body + struct.pack("<I", 12 + len(body))


def pcapng(streams):
    """Three interfaces: nanoseconds; 2^-10 seconds behind two options; and microseconds, as none is said."""
    out = block(0x0A0D0D0A, struct.pack("<IHHq", 0x1A2B3C4D, 1, 0, -1))
    out += block(1, struct.pack("<HHI", 1, 0, 0) + struct.pack("<HHB3xHH", 9, 1, 9, 0, 0))
    comment = struct.pack("<HH", 1, 5) + b"three\0\0\0"
    out += block(1, struct.pack("<HHI", 101, 0, 0) + comment + struct.pack("<HHB3xHH", 9, 1, 0x8A, 0, 0))
    out += block(1, struct.pack("<HHI", 108, 0, 0))
    told = []
    for number, stream in enumerate(streams):
        times = []
        for place, datagram in enumerate(stream.datagrams):
            seconds = 1700000000 + number * 10 + place
            interface = number % 3
            ticks = [seconds * 10**9 + 123456789, seconds * 1024 + 512, seconds * 10**6 + 250000][interface]
            fraction = [123456, 500000, 250000][interface]
            body = udp(datagram)
            frame = [ethernet(ipv4(body)), ipv4(body), loopback(ipv6_authenticated(body))][interface]
            head = struct.pack("<IIIII", interface, ticks >> 32, ticks & 0xFFFFFFFF, len(frame), len(frame))
            out += block(6, head + frame)
            times.append(f"{seconds}.{fraction:06}")
        told.append(times)
    return out, told


def pcap_of_nanoseconds(streams):
    out = struct.pack(">IHHIIII", 0xA1B23C4D, 2, 4, 0, 0, 65535, 108)
    told = []
    for number, stream in enumerate(streams):
        times = []
        for place, datagram in enumerate(stream.datagrams):
            seconds = 1600000000 + number * 10 + place
            frame = loopback(ipv6_authenticated(udp(datagram)))
            out += struct.pack(">IIII", seconds, 987654321, len(frame), len(frame)) + frame
            times.append(f"{seconds}.987654")
        told.append(times)
    return out, told


def rtpdump(streams):
    """Records whose length counts their header of eight bytes, and beside it the datagram's own length."""
    out = b"#!rtpplay1.0 127.0.0.1/41000\n" + struct.pack(">IIIHH", 1500000000, 0, 0x7F000001, 41000, 0)
    told = []
    for number, stream in enumerate(streams):
        times = []
        for place, datagram in enumerate(stream.datagrams):
            time = number * 100 + place * 20 + 7
            out += struct.pack(">HHI", 8 + len(datagram), len(datagram), time) + datagram
            times.append(f"{time // 1000}.{time % 1000 * 1000:06}")
        told.append(times)
    return out, told


def lines(streams):
    out, told = b"# milliseconds, and a datagram\n", []
    for number, stream in enumerate(streams):
        times = []
        for place, datagram in enumerate(stream.datagrams):
            time = 60000 + number * 1000 + place * 20
            out += f"{time} {datagram.hex()}\n".encode()
            times.append(f"{time // 1000}.{time % 1000 * 1000:06}")
        told.append(times)
    return out, told


TEXT = """SDP:
v=0
o=- 0 0 IN IP4 127.0.0.1
s=-
c=IN IP4 127.0.0.1
t=0 0
m=video 41002 RTP/AVP 96 98 45 102 103 104 105 106 107 111
a=rtpmap:96 VP8/90000
a=rtpmap:98 VP9/90000
a=rtpmap:45 AV1/90000
a=rtpmap:102 H264/90000
a=fmtp:102 packetization-mode=1; sprop-parameter-sets=Z0LAH9k=,aM48gA==; profile-level-id=42c01f
a=rtpmap:103 rtx/90000
a=fmtp:103 apt=102
a=rtpmap:104 H265/90000
a=fmtp:104 sprop-vps={}; sprop-sps={}; sprop-pps={}
a=rtpmap:107 rtx/90000
a=fmtp:107 apt=104
a=rtpmap:105 H266/90000
a=fmtp:105 Sprop-PPS={}; sprop-sps={}
a=rtpmap:106 H264/90000
a=fmtp:106 packetization-mode=1; sprop-parameter-sets=Z0LAH9k=,aM48gA=
a=ssrc-group:FID 1145324612 1145324629
m=text 41004 RTP/AVP 98
a=rtpmap:98 t140/1000
m=audio 41002/2 RTP/AVPF 0 8 9 111
a=rtpmap:111 opus/48000/2
""".format(*map(listed, (H265_SETS[:1], H265_SETS[1:2], H265_SETS[2:], H266_SETS[1:], H266_SETS[:1])))


def captures():
    """Each capture's name, bytes and streams, with the times at which their packets come."""
    sets = [
        ("rows.pcapng", pcapng, [vp8(), vp9(), av1(), h264()]),
        ("rows.pcap", pcap_of_nanoseconds, [opus(), PCMU()]),
        ("rows.rtpdump", rtpdump, [PCMA(), G722()]),
        ("rows.hex", lines, [amr_wb(), h265(), h266(), h264_untold()]),
        ("rows.tunnels.pcap", tunnels.pcap, [opus_inside()]),
    ]
    for name, write, streams in sets:
        data, times = write(streams)
        yield name, data, list(zip(streams, times)), "pcap" in name


def datagrams_in(path):
    """The milliseconds and the bytes of each line, by its SSRC the header's fields, and the payload."""
    for line in open(path):
        if not line.startswith("#") and line.strip():
            time, content = line.split()
            content = bytes.fromhex(content)
            if content[1] < 192 or content[1] > 223:
                yield int(time), content


def payload_of(datagram):
    """The payload after contributing sources and an extension, without padding (RFC 3550 5.1)."""
    at = 12 + 4 * (datagram[0] & 15)
    if datagram[0] & 0x10:
        at += 4 + 4 * struct.unpack(">H", datagram[at + 2 : at + 4])[0]
    end = len(datagram) - (datagram[-1] if datagram[0] & 0x20 else 0)
    return datagram[at:end]


def vp8_part(payload):
    """A payload without its descriptor (RFC 7741 4.2)."""
    at = 1
    if payload[0] & 0x80:
        told, at = payload[1], 2
        if told & 0x80:
            at += 2 if payload[at] & 0x80 else 1
        at += bool(told & 0x40) + bool(told & 0x30)
    return payload[at:]


def browser_vp8():
    """A browser's pictures: packets of one time are a frame."""
    it = Stream(0x0DA50375, 96, "VP8", 90000, "ivf", 0, 0)
    path = os.path.join(HERE, "../../crates/examples/data/chromium-vp8.hex")
    frames, times = {}, []
    for time, datagram in datagrams_in(path):
        it.datagrams.append(datagram)
        times.append(time)
        at = struct.unpack(">I", datagram[4:8])[0]
        frames.setdefault(at, []).append(vp8_part(payload_of(datagram)))
    first = min(frames)
    for at in sorted(frames):
        frame = b"".join(frames[at])
        it.units.append((at - first, frame[0] % 2 == 0, frame))
    it.keyframes = sum(is_key for _, is_key, _ in it.units)
    width, height = struct.unpack("<HH", it.units[0][2][6:10])
    it.file = ivf_file(b"VP80", width, height, [(time, frame) for time, _, frame in it.units])
    it.track, it.late = ("V_VP8", b"", 0, 0, (width, height)), 2 * len(it.datagrams)
    return it, [f"{time // 1000}.{time % 1000 * 1000:06}" for time in times]


def browser_opus():
    """A browser's sound: packets of 20 ms, none of which is lost."""
    it = Stream(0x8B88359C, 111, "opus", 48000, "opus", 0, 0)
    times = []
    for time, datagram in datagrams_in(os.path.join(HERE, "../../crates/rtprecord/data/opus.hex")):
        it.datagrams.append(datagram)
        times.append(time)
        it.units.append((struct.unpack(">I", datagram[4:8])[0], True, payload_of(datagram)))
    first = it.units[0][0]
    it.units = [(at - first, is_key, unit) for at, is_key, unit in it.units]
    it.file = opus_file(it.ssrc, 2, [unit for _, _, unit in it.units], [960] * len(it.units))
    it.track = opus_track(2)
    return it, [f"{time // 1000}.{time % 1000 * 1000:06}" for time in times]


def told_of(it, times, has_ports):
    """What rtprecord says of a stream."""
    media = [d for d in it.datagrams if struct.unpack(">I", d[8:12])[0] == it.ssrc]
    port, middle = (" to port 41002", "-41002") if has_ports else ("", "")
    taken = len(media) + it.repairs
    print(
        f"SSRC {it.ssrc:08x}{port}: {taken} taken, {it.repairs} of them repairs, {it.lost} lost, {it.late} late,"
        " 0 damaged, 0 of padding alone"
    )
    print(
        f"  type {it.pt} {it.codec}/{it.rate}: {taken} datagrams, {len(it.units)} units, {it.keyframes} keyframes,"
        f" 0 unreadable, {it.units[-1][0] * 1000 // it.rate} ms"
    )
    print(f"    from {times[0]} to {times[len(media) - 1]} s by the capture's clock")
    if it.sets:
        print(f"    it begins with {len(it.sets)} parameter sets of a session text")
    name = f"./{it.ssrc:08x}{middle}-{it.pt}.{it.ending}"
    print(f"    {name}: {len(it.file)} bytes, SHA-256 {hashlib.sha256(it.file).hexdigest()}")


def in_one_file(streams):
    """The file of all streams, each as far behind the first as its first packet came."""
    begins = [int(times[0].replace(".", "")) for _, times in streams]
    tracks, blocks, end = [], [], 0
    for (it, _), begin in zip(streams, begins):
        tracks.append(it.track)
        starts = begin - min(begins)
        for at, is_key, unit in it.units:
            blocks.append((len(tracks), (starts + at * 10**6 // it.rate) // 1000, is_key, unit))
        last = blocks[-1][1]
        end = max(end, last + (last - starts // 1000) // (len(it.units) - 1))
    return mkv_file(end, tracks, sorted(blocks, key=lambda block: block[1]))


def told():
    """What rtprecord says in its stored run."""
    streams = [(browser_vp8(), False), (browser_opus(), False)]
    for _, _, some, has_ports in captures():
        streams += [(one, has_ports) for one in some]
    for (it, times), has_ports in streams:
        told_of(it, times, has_ports)
    whole = in_one_file([one for one, _ in streams if one[0].track])
    print(f"call.mkv: {len(whole)} bytes, SHA-256 {hashlib.sha256(whole).hexdigest()}")
    for (it, _), _ in streams:
        if not it.track:
            print(f"  without SSRC {it.ssrc:08x}: its codec has no track, or its units lack what a track needs")
    # of a browser's capture five fragments are the same, whose others never come
    counts = [sum(pair) for pair in zip(tunnels.COUNTS, (1, 4, 0, 0))]
    print(f"packets passed over: 5 without UDP, {sum(counts)} fragments, 5 cut, 0 malformed")
    told = [f"{count} {why}" for count, why in zip(counts, ("without others", "repeated", "overlapping"))]
    print(f"fragments passed over: {', '.join(told)}, {counts[3]} cut")
    print("datagrams passed over: 5 STUN, 0 DTLS, 5 RTCP, 0 of types without a row, 0 others")
    print(f"datagrams that TURN relays: {tunnels.RELAYED}")
    print("repairs passed over: 1 of padding, 0 of no known stream")


def rows():
    for name, _, streams, _ in captures():
        for it, _ in streams:
            print(f"{it.codec}, in {name}")
            for datagram in it.datagrams:
                print(f"  datagram {datagram.hex()}")
            print(f"  file {it.file.hex()}")


if __name__ == "__main__":
    if len(sys.argv) == 1:
        rows()
    elif sys.argv[1] == "--told":
        told()
    else:
        for name, data, _, _ in captures():
            open(os.path.join(sys.argv[1], name), "wb").write(data)
        open(os.path.join(sys.argv[1], "rows.sdp"), "w").write(TEXT)
