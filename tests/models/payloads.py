#!/usr/bin/env python3
"""Payloads of small frames, packed from the layouts of the standards alone.

`lines.py` takes frames and their packets from here. It shares no code with the packetizers and depacketizers: a
payload here is a list of fields, each a value and its width in bits, written one behind the other with the most
significant bit first.
"""

import math


def joined(fields):
    """The bytes of fields of (value, width), filled up with zeros to a whole byte."""
    text = ""
    for value, width in fields:
        assert 0 <= value < 1 << width, (value, width)
        text += format(value, f"0{width}b") if width else ""
    text += "0" * (-len(text) % 8)
    return bytes(int(text[i : i + 8], 2) for i in range(0, len(text), 8))


def pieces(frame, size):
    """The frame cut into pieces of this size, and a shorter last one."""
    return [frame[i : i + size] for i in range(0, len(frame), size)]


# VP8: RFC 7741 4.2. The frame begins with the frame tag of RFC 6386 9.1, whose lowest bit is clear in a
# keyframe.


def vp8_descriptor(start, pid=0, non_reference=0, picture=None, tl0=None, tid=None, key=None):
    """`picture` is a pair of the id and whether it has 15 bits, `tid` a pair of TID and Y."""
    extended = any(field is not None for field in (picture, tl0, tid, key))
    # X R N S R PID
    fields = [(int(extended), 1), (0, 1), (non_reference, 1), (start, 1), (0, 1), (pid, 3)]
    if extended:
        # I L T K RSV
        fields += [(int(field is not None), 1) for field in (picture, tl0, tid, key)] + [(0, 4)]
    if picture is not None:
        number, long = picture
        fields += [(int(long), 1), (number, 15 if long else 7)]
    if tl0 is not None:
        fields += [(tl0, 8)]
    if tid is not None or key is not None:
        number, sync = tid or (0, 0)
        fields += [(number, 2), (sync, 1), (key or 0, 5)]
    return joined(fields)


def vp8_packets(frame, limit, **described):
    size = limit - len(vp8_descriptor(1, **described))
    return [vp8_descriptor(int(i == 0), **described) + p for i, p in enumerate(pieces(frame, size))]


def option(value):
    return "None" if value is None else f"Some({value})"


def flag(value):
    return str(value).lower()


def vp8_told(is_keyframe, picture_id=None, tl0=None):
    ids = f"picture_id: {option(picture_id)}, tl0_pic_idx: {option(tl0)}"
    return f"Vp8(Vp8CodecExtra {{ is_keyframe: {flag(is_keyframe)}, {ids} }})"


def vp8():
    """Each case: format, what it is, the limit at which it is packed, if it is, frame, packets, what is told."""
    # version 0, shown, a first partition of 9 bytes; then the start code and 16 by 16 samples
    tag = (9 << 5) | (1 << 4)
    keyframe = tag.to_bytes(3, "little") + bytes.fromhex("9d012a10001000") + bytes(range(0xA0, 0xAC))
    other = (tag | 1).to_bytes(3, "little") + bytes(range(0x50, 0x5B))
    yield "VP8", "keyframe without an id", 12, keyframe, vp8_packets(keyframe, 12), vp8_told(True)
    packets = vp8_packets(keyframe, 12, picture=(17, False))
    yield "VP8 id=17", "id of 7 bits", 12, keyframe, packets, vp8_told(True, 17)
    packets = vp8_packets(other, 13, picture=(4711, True))
    yield "VP8 id=4711", "id of 15 bits", 13, other, packets, vp8_told(False, 4711)
    layered = dict(picture=(4712, True), tl0=200, tid=(2, 1), key=21)
    yield "VP8", "layers", None, keyframe, vp8_packets(keyframe, 16, **layered), vp8_told(True, 4712, 200)
    layered = dict(tl0=9, tid=(1, 0), non_reference=1)
    packets = vp8_packets(other, 12, **layered)
    yield "VP8", "layers without an id", None, other, packets, vp8_told(False, None, 9)
    # The second partition begins with the third packet.
    parts = [(1, 0, keyframe[:8]), (0, 0, keyframe[8:12]), (1, 1, keyframe[12:18]), (0, 1, keyframe[18:])]
    packets = [vp8_descriptor(s, pid, picture=(5, False), key=30) + p for s, pid, p in parts]
    yield "VP8", "two partitions", None, keyframe, packets, vp8_told(True, 5)


# VP9: RFC 9628 4.2.


def vp9_descriptor(
    begin, end, flexible, picture=None, layer=None, tl0=0, diffs=None, structure=None, z=0
):
    """`layer` is TID, U, SID and D; `structure` is the fields of a scalability structure."""
    # I P L F B E V Z
    flags = [picture is not None, diffs is not None, layer is not None, flexible, begin, end]
    fields = [(int(flag), 1) for flag in flags + [structure is not None, z]]
    if picture is not None:
        number, long = picture
        fields += [(int(long), 1), (number, 15 if long else 7)]
    if layer is not None:
        tid, up, sid, depends = layer
        fields += [(tid, 3), (up, 1), (sid, 3), (depends, 1)]
        if not flexible:
            fields += [(tl0, 8)]
    if diffs is not None and flexible:
        for i, diff in enumerate(diffs):
            fields += [(diff, 7), (int(i + 1 < len(diffs)), 1)]
    return joined(fields + (structure or []))


def vp9_structure(sizes, group):
    """N_S, Y and G with what they announce: sizes are of each layer, a picture is TID, U and its differences."""
    fields = [(len(sizes) - 1, 3), (1, 1), (int(group is not None), 1), (0, 3)]
    for width, height in sizes:
        fields += [(width, 16), (height, 16)]
    if group is not None:
        fields += [(len(group), 8)]
        for tid, up, diffs in group:
            fields += [(tid, 3), (up, 1), (len(diffs), 2), (0, 2)] + [(diff, 8) for diff in diffs]
    return fields


def vp9_packets(frame, limit, structure=None, **described):
    """The structure stands in the first packet alone."""
    cut, packets, begin = frame, [], True
    while cut:
        shape = dict(described, structure=structure if begin else None)
        size = limit - len(vp9_descriptor(begin, False, **shape))
        piece, cut = cut[:size], cut[size:]
        packets.append(vp9_descriptor(begin, not cut, **shape) + piece)
        begin = False
    return packets


def vp9_told(picture_id):
    return f"Vp9(Vp9CodecExtra {{ picture_id: {option(picture_id)} }})"


def vp9():
    frame = bytes.fromhex("824983420000f0") + bytes(range(0x10, 0x1F))
    flexible = dict(flexible=True, picture=(300, True))
    yield "VP9 id=300", "flexible", 12, frame, vp9_packets(frame, 12, **flexible), vp9_told(300)
    flexible["picture"] = (301, True)
    yield "VP9 id=301", "flexible", 40, frame, vp9_packets(frame, 40, **flexible), vp9_told(301)
    deltas = dict(flexible=True, picture=(77, False), layer=(2, 1, 1, 1), diffs=[1, 2, 127])
    yield "VP9", "flexible, three references", None, frame, vp9_packets(frame, 15, **deltas), vp9_told(77)
    fixed = dict(flexible=False, picture=(32767, True), layer=(3, 0, 0, 0), tl0=254, diffs=[])
    yield "VP9", "layers by TL0PICIDX", None, frame, vp9_packets(frame, 14, **fixed), vp9_told(32767)
    structure = vp9_structure([(320, 180), (640, 360)], [(0, 0, []), (1, 1, [1, 2])])
    fixed = dict(flexible=False, picture=(4, False), layer=(0, 0, 1, 1), tl0=3, z=1)
    packets = vp9_packets(frame, 24, structure=structure, **fixed)
    yield "VP9", "scalability structure", None, frame, packets, vp9_told(4)
    bare = dict(flexible=False, structure=vp9_structure([(64, 64)], None))
    yield "VP9", "sizes alone", None, frame, vp9_packets(frame, 20, **bare), vp9_told(None)


# AMR-WB: RFC 4867 4.3 and 4.4. A frame in a file is a header byte and its speech bits in whole bytes (5.3).

# The speech bits of each frame type (3GPP TS 26.201); 10 to 13 are for later use.
AMR_WB_BITS = {0: 132, 1: 177, 2: 253, 3: 285, 4: 317, 5: 365, 6: 397, 7: 461, 8: 477, 9: 40, 14: 0, 15: 0}


def speech(frame_type, seed):
    """Bits of no meaning."""
    bits, state = [], seed
    for _ in range(AMR_WB_BITS[frame_type]):
        state = (state * 1103515245 + 12345) % 2**31
        bits.append(((state >> 16) & 1, 1))
    return frame_type, bits


def amr_wb_aligned(request, frames):
    # CMR and four reserved bits, then F FT Q P P for each frame, then each frame's bits in whole bytes
    out = joined([(request, 4), (0, 4)])
    for i, (frame_type, _) in enumerate(frames):
        out += joined([(int(i + 1 < len(frames)), 1), (frame_type, 4), (1, 1), (0, 2)])
    for _, bits in frames:
        out += joined(bits)
    return out


def amr_wb_efficient(request, frames):
    fields = [(request, 4)]
    for i, (frame_type, _) in enumerate(frames):
        fields += [(int(i + 1 < len(frames)), 1), (frame_type, 4), (1, 1)]
    for _, bits in frames:
        fields += bits
    return joined(fields)


def amr_wb_stored(frames):
    out = b""
    for frame_type, bits in frames:
        out += joined([(0, 1), (frame_type, 4), (1, 1), (0, 2)]) + joined(bits)
    return out


def amr_wb():
    for name, request, frames in [
        ("one frame of type 0", 15, [speech(0, 7)]),
        ("one frame of type 9", 15, [speech(9, 8)]),
        ("frames of types 9, 14, 0 and 9", 2, [speech(9, 1), speech(14, 0), speech(0, 2), speech(9, 3)]),
    ]:
        stored = amr_wb_stored(frames)
        limit = 20 if len(frames) == 1 else None
        yield "AMR-WB aligned", name, limit, stored, [amr_wb_aligned(request, frames)], "None"
        yield "AMR-WB", name, limit, stored, [amr_wb_efficient(request, frames)], "None"


# Telephone events: RFC 4733 2.3, and several reports in one packet, each behind the one before it (2.5.1.5).


def report(event, end, volume, duration, reserved=0):
    # event, E, R, volume, duration in ticks
    return joined([(event, 8), (end, 1), (reserved, 1), (volume, 6), (duration, 16)])


def tele_told(event, end, volume, ticks):
    """A tick of 8,000 Hz is an eighth of a millisecond."""
    fields = f"event: {event}, end: {flag(end)}, volume: {volume}, duration: {ticks * 125000}"
    return f"Tele(TelephoneEvent {{ {fields} }})"


def telephone():
    one = report(11, 1, 63, 65535)
    yield "telephone-event", "event 11 at its end", 12, one, [one], tele_told(11, True, 63, 65535)
    two = report(16, 1, 0, 800) + report(3, 0, 36, 160)
    told = tele_told(16, True, 0, 800)
    yield "telephone-event", "events 16 and 3", 12, two, [two], f"first {told}"
    packets = [report(3, 0, 36, 160, reserved=1)]
    yield "telephone-event", "R set", None, report(3, 0, 36, 160), packets, tele_told(3, False, 36, 160)


# Opus: RFC 7587 4.2, a payload is one Opus packet. G.711: RFC 3551 4.5.14, a payload is its samples' bytes.


def mu_law(sample):
    """A sample of 14 bits by the definition of G.711: sign, segment, step, all inverted."""
    sign = 0x80 if sample >= 0 else 0
    size = min(abs(sample), 8158) + 33
    segment = size.bit_length() - 6
    return sign | (0x7F & ~(segment << 4 | (size >> (segment + 1)) & 15))


def plain():
    # a TOC byte: configuration 31 (CELT, 20 ms), mono, one frame; then its bytes
    opus = joined([(31, 5), (0, 1), (0, 2)]) + bytes(range(0xC0, 0xCB))
    yield "opus", "one packet", 12, opus, [opus], "None"
    tone = bytes(mu_law(round(8000 * math.sin(2 * math.pi * i / 8))) for i in range(20))
    for codec in ("PCMU", "PCMA", "G722"):
        yield codec, "bytes of a tone of 1 kHz", 8, tone, pieces(tone, 8), "None"
