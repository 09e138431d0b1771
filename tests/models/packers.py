"""Packets of samples one after the other, with what a sender keeps between them: picture ids, decoding order numbers,
parameter sets that wait. The layouts are those of `payloads.py`, `h26x.py` and `av1.py`."""

from dataclasses import dataclass

import av1
import h26x
import payloads
from payloads import joined


@dataclass
class Packet:
    """A payload, its marker, whether a unit ends with it, and the parts of the unit that begin in it."""

    payload: bytes
    marker: bool
    tail: bool
    parts: list


def of_audio(packets, units):
    """Each is a unit of its own, without a marker."""
    return [Packet(payload, False, True, [unit]) for payload, unit in zip(packets, units)]


def of_picture(packets):
    """A unit ends with the marker, which the last packet has; each is (payload, parts)."""
    last = len(packets) - 1
    return [Packet(payload, i == last, i == last, parts) for i, (payload, parts) in enumerate(packets)]


class Pieces:
    """Opus, G.711 and G.722 (RFC 7587 4.2, RFC 3551 4.5), comfort noise (RFC 3389 4)."""

    def __init__(self, case, limit, picture):
        self.limit = limit

    def pack(self, sample):
        pieces = payloads.pieces(sample.bytes, self.limit)
        return of_audio(pieces, pieces)


class Events(Pieces):
    """The reports of a sample in one packet, of which the first is the unit (RFC 4733 2.3)."""

    def pack(self, sample):
        return of_audio([sample.bytes], [sample.bytes[:4]])


class AmrWb:
    """RFC 4867 4.3 and 4.4, without a mode request, which is 15."""

    def __init__(self, case, limit, picture):
        self.aligned = "octet-align=1" in case.fmtp

    def pack(self, sample):
        write = payloads.amr_wb_aligned if self.aligned else payloads.amr_wb_efficient
        return of_audio([write(15, sample.content)], [sample.bytes])


class Vp8:
    """The id rises by one a frame, modulo 32,768; no frame tells the id 0 (docs/GUIDE.md, `for_browsers`)."""

    def __init__(self, case, limit, picture):
        self.limit, self.tells, self.id = limit, picture != "-", int(picture) if picture != "-" else 0

    def pack(self, sample):
        described = {"picture": (self.id, self.id >= 128)} if self.tells and self.id else {}
        packets = payloads.vp8_packets(sample.bytes, self.limit, **described)
        self.id = (self.id + 1) % 32768
        return of_picture([(p, [] if i else [sample.bytes]) for i, p in enumerate(packets)])


class Vp9(Vp8):
    """Each frame has an id of 15 bits, from 0 on where none is given."""

    def pack(self, sample):
        packets = payloads.vp9_packets(sample.bytes, self.limit, flexible=True, picture=(self.id, True))
        self.id = (self.id + 1) % 32768
        return of_picture([(p, [] if i else [sample.bytes]) for i, p in enumerate(packets)])


class Av1:
    """Each packet has the longest prefix of what is left that fits: elements behind their sizes, but for the last of
    at most three (RTP payload format for AV1, 4.4 and 4.5)."""

    def __init__(self, case, limit, picture):
        self.limit = limit

    def pack(self, sample):
        kept = [unit for unit in sample.content if unit.kind not in av1.UNSENT]
        is_key = any(unit.kind == av1.SEQUENCE_HEADER for unit in kept)
        left, packets, is_cut = [(unit.element, [unit.stored]) for unit in kept], [], False
        while left:
            most = min(self.limit - 1, sum(len(text) for text, _ in left))
            size = max(n for n in range(1, most + 1) if 1 + len(self.body(front(left, n))) <= self.limit)
            elements, begun = front(left, size), is_cut
            left, is_cut = behind(left, size)
            count = len(elements) if len(elements) <= 3 else 0
            # Z Y W N and three reserved bits
            fields = [(begun, 1), (is_cut, 1), (count, 2), (is_key and not packets, 1), (0, 3)]
            payload = joined([(int(value), width) for value, width in fields]) + self.body(elements)
            packets.append((payload, [part for _, parts in elements for part in parts]))
        return of_picture(packets)

    @staticmethod
    def body(elements):
        sized = [av1.size(len(element)) + element for element, _ in elements]
        if 0 < len(sized) <= 3:
            sized[-1] = elements[-1][0]
        return b"".join(sized)


def front(texts, size):
    """The first so many bytes of texts, as texts, each with what begins with it."""
    out = []
    for text, parts in texts:
        if size > 0:
            out.append((text[:size], parts))
        size -= len(text)
    return out


def behind(texts, size):
    """What is behind them, and whether the cut is within a text."""
    while texts and size >= len(texts[0][0]):
        size, texts = size - len(texts[0][0]), texts[1:]
    if not size:
        return texts, False
    return [(texts[0][0][size:], []), *texts[1:]], True


class H26x:
    """Delimiters and filler aren't sent; the latest parameter set of each type waits, and once those that are needed
    do, all leave in one aggregate in front of the next other unit, or are dropped where they pass the limit."""

    def __init__(self, case, limit, picture):
        self.codec = {"H264": h26x.H264, "H265": h26x.H265, "H266": h26x.H266}[case.codec]
        self.needed = self.codec.sets[1:] if case.codec == "H266" else self.codec.sets
        self.limit, self.waiting = limit, {}
        self.don = 0 if "sprop-max-don-diff" in case.fmtp else None

    def pack(self, sample):
        packets = []
        for unit in sample.content:
            kind = self.codec.fields(unit)["type"]
            if kind in self.codec.sets:
                self.waiting[kind] = unit
            elif kind not in self.codec.unsent:
                packets += self.together() + self.alone(unit)
        return of_picture(packets)

    def numbers(self, count):
        """The decoding order numbers of so many units that leave."""
        if self.don is None:
            return None
        self.don += count
        return range(self.don - count, self.don)

    def together(self):
        if not self.waiting.keys() >= set(self.needed):
            return []
        sets, self.waiting = [self.waiting[kind] for kind in sorted(self.waiting)], {}
        before = self.don
        packet = h26x.aggregated(self.codec, sets, self.numbers(len(sets)))
        if len(packet) > self.limit:
            self.don = before
            return []
        return [(packet, [h26x.START + unit for unit in sets])]

    def alone(self, unit):
        numbers = self.numbers(1)
        don = numbers and numbers[0]
        packet = h26x.single(self.codec, unit, don)
        if len(packet) <= self.limit:
            return [(packet, [h26x.START + unit])]
        packets = h26x.fragments(self.codec, unit, h26x.full(self.codec, unit, self.limit, don), don)
        return [(p, [] if i else [h26x.START + unit]) for i, p in enumerate(packets)]


PACKERS = {"AMR-WB": AmrWb, "telephone-event": Events, "VP8": Vp8, "VP9": Vp9, "AV1": Av1,
           "H264": H26x, "H265": H26x, "H266": H26x}
