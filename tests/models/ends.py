"""A sending stream and a receiving one, after the definitions of whole runs and the standards: datagrams of samples,
the numbers and the window of a receiver (RFC 3550 A.1, RFC 3711 3.3.2), and its buffer."""

from collections import Counter
from dataclasses import dataclass

from packers import PACKERS, Packet, Pieces
from payloads import joined
from readers import READERS, Audio, Fault


@dataclass
class Datagram:
    number: int
    time: int
    packet: Packet
    bytes: bytes


@dataclass
class Canonical:
    """What a receiver is to get of a sample's packets from one head to the tail: their numbers, the time, the parts."""

    first: int
    size: int
    time: int
    parts: list


class Sender:
    """Stream 0 of an end, of SSRC 44 and type 111, or 63 with redundancy."""

    def __init__(self, case, first, limit, distances, picture):
        self.case, self.number, self.limit = case, first, limit
        self.distances = [int(word) for word in distances.split(",")] if case.red else None
        self.packer = PACKERS.get(case.codec, Pieces)(case, limit - int(case.red), picture)
        self.kept, self.canonical = [], []
        # how many repairs were made, and the most bytes of a datagram
        self.repairs, self.most = 0, 1400

    def push(self, time, sample):
        """The datagrams of a sample. TIME counts at the row's clock, its low 32 bits at that of RTP are sent."""
        ticks = time * self.case.rtp_clock // self.case.clock % 2**32
        sent, open_units = [], []
        for packet in self.packer.pack(sample):
            payload = self.with_older(packet.payload, ticks) if self.case.red else packet.payload
            sent.append(Datagram(self.number, ticks, packet, self.header(packet, ticks) + payload))
            self.number += 1
            open_units.append(packet)
            if packet.tail:
                parts = [part for p in open_units for part in p.parts]
                first = self.number - len(open_units)
                self.canonical.append(Canonical(first, len(open_units), ticks, parts))
                open_units = []
        return sent

    def can_repair(self, datagram):
        return len(datagram.bytes) + 2 <= self.most

    def repair(self, datagram):
        """The datagram under SSRC 45, type 97 and the next number of repairs, its own number behind the header; none
        where that passes the limit (RFC 4588 4)."""
        if not self.can_repair(datagram):
            return None
        text, size = datagram.bytes, header_size(datagram.bytes)
        number, self.repairs = self.repairs % 65536, self.repairs + 1
        head = bytes([text[0], text[1] & 128 | 97]) + number.to_bytes(2, "big") + text[4:8] + (45).to_bytes(4, "big")
        return head + text[12:size] + text[2:4] + text[size:]

    def header(self, packet, ticks):
        """RFC 3550 5.1: V, P, X, CC; M, type; number, timestamp, SSRC."""
        fields = [(2, 2), (0, 1), (0, 1), (0, 4), (int(packet.marker), 1), (63 if self.case.red else 111, 7)]
        return joined([*fields, (self.number % 65536, 16), (ticks, 32), (44, 32)])

    def with_older(self, payload, ticks):
        """The payload behind those at the distances that have room, the deepest first (RFC 2198 3)."""
        levels = [self.kept[d - 1] for d in self.distances if d <= len(self.kept)]
        levels = [((ticks - time) % 2**32, older) for time, older in levels]
        room, blocks = self.limit - 1 - len(payload), []
        for offset, older in levels:
            if offset < 1 << 14 and len(older) < 1 << 10:
                room -= 4 + len(older)
                if room < 0:
                    break
                blocks.insert(0, (offset, older))
        self.kept = [(ticks, payload), *self.kept][:8]
        heads = [joined([(1, 1), (111, 7), (offset, 14), (len(older), 10)]) for offset, older in blocks]
        return b"".join([*heads, joined([(0, 1), (111, 7)]), *[older for _, older in blocks], payload])


def header_size(text):
    """Of version 2, with CSRC words and the extension's words; none where these pass the end (RFC 3550 5.1, 5.3.1)."""
    if len(text) < 12 or text[0] >> 6 != 2:
        return None
    size = 12 + 4 * (text[0] & 15)
    if text[0] & 16:
        if len(text) < size + 4:
            return None
        size += 4 + 4 * int.from_bytes(text[size + 2 : size + 4], "big")
    return size if len(text) >= size else None


def primary(payload):
    """The primary payload of RED, where it is of type 111 (RFC 2198 3); at most 32 older ones are read."""
    lengths = []
    while payload and payload[0] & 128:
        if len(payload) < 4 or len(lengths) == 32:
            return None
        lengths.append((payload[2] & 3) << 8 | payload[3])
        payload = payload[4:]
    if len(payload) < 1 + sum(lengths) or payload[0] != 111:
        return None
    return payload[1 + sum(lengths) :]


def unpadded(text):
    """What stands behind the header, without padding; nothing where that doesn't fit (RFC 3550 5.1)."""
    payload = text[header_size(text) :]
    if text[0] & 32:
        # the last byte says how many bytes of padding there are, itself among them
        count = payload[-1] if payload else 0
        if not 0 < count <= len(payload):
            return None
        payload = payload[: len(payload) - count]
    return payload


def payload_of(text):
    """What a datagram of the stream brings behind its header, or nothing where it is damaged."""
    payload = unpadded(text)
    if payload is None:
        return None
    return (primary(payload) if text[1] & 127 == 63 else payload) or None


class Receiver:
    """Stream 0 of the other end, which holds back so many frames, and at most so many packets."""

    def __init__(self, case, hold_back, most=4096):
        self.types, self.reader = (111, 63) if case.red else (111,), READERS.get(case.codec, Audio)(case)
        self.hold_back, self.most, self.greatest, self.taken = hold_back, most, None, set()
        self.held, self.cutoff, self.units, self.counts = {}, None, [], Counter()
        self.has_dropped = False
        # the SSRC and type of repairs, where there are any
        self.repairs = None

    def said(self, reply):
        self.counts[reply.split()[0]] += 1
        return reply

    def other(self, text):
        """Bytes that the sender didn't send, which may bring a payload."""
        if header_size(text) is None:
            return self.said("unreadable")
        if (int.from_bytes(text[8:12], "big"), text[1] & 127) == self.repairs:
            return self.repaired(text)
        if text[1] & 127 not in self.types or text[8:12] != bytes([0, 0, 0, 44]):
            return self.said("foreign")
        payload = payload_of(text)
        if payload is None:
            return self.said("damaged")
        packet = Packet(payload, text[1] > 127, False, [])
        low, time = int.from_bytes(text[2:4], "big"), int.from_bytes(text[4:8], "big")
        return self.arrive(Datagram(low, time, packet, text))

    def repaired(self, text):
        """A repair, which brings the payload behind its two bytes, under their number (RFC 4588 4)."""
        payload = unpadded(text)
        if payload is None or len(payload) < 3:
            return self.said("damaged")
        packet = Packet(payload[2:], text[1] > 127, False, [])
        number, time = int.from_bytes(payload[:2], "big"), int.from_bytes(text[4:8], "big")
        return self.arrive(Datagram(number, time, packet, text))

    def widened(self, low):
        """The number with these 16 bits that is nearest to the greatest; of two as near the one of its 65,536."""
        if self.greatest is None:
            return low
        start = self.greatest // 65536 * 65536
        near = [start + low + turn for turn in (0, -65536, 65536)]
        return min(near, key=lambda number: abs(number - self.greatest)) % 2**64

    def arrive(self, datagram):
        number = self.widened(datagram.number % 65536)
        if self.greatest is not None and (number + 1024 <= self.greatest or number in self.taken):
            return self.said("refused")
        self.taken.add(number)
        self.greatest = number if self.greatest is None else max(self.greatest, number)
        if self.cutoff is None or number > self.cutoff:
            self.held[number] = datagram
            if len(self.held) > self.most:
                self.has_dropped = True
                del self.held[min(self.held)]
        return self.said(f"taken 0 {number}")

    def frames(self):
        """The complete frames: to each tail the longest run of one time from a head on, in which no other tail is."""
        tails = {number for number, d in self.held.items() if self.reader.tail(d.packet.marker)}
        for last in sorted(tails):
            run = [last]
            while (before := self.held.get(run[0] - 1)) and before.time == self.held[last].time:
                if run[0] - 1 in tails:
                    break
                run.insert(0, run[0] - 1)
            heads = [number for number in run if self.reader.head(self.held[number].packet.payload)]
            if heads:
                yield heads[0], last

    def poll(self):
        frames = self.frames()
        first, last = next(frames, (None, None))
        if first is None:
            return self.said("none")
        if self.cutoff not in (None, first - 1) and 1 + sum(1 for _ in frames) <= self.hold_back:
            return self.said("none")
        frame, self.cutoff = [self.held[number] for number in range(first, last + 1)], last
        self.held = {number: datagram for number, datagram in self.held.items() if number > last}
        try:
            unit = b"".join([self.reader.read(datagram.packet.payload) for datagram in frame])
        except Fault:
            return self.said("fault Payload")
        self.units.append((first, last, frame[0].time, unit))
        return self.said(f"unit {first} {last} {frame[0].time} {unit.hex() or '-'}")


def check(canonical, units, is_tame):
    """What the headline says of the units of a run: all of them, or of some a final run of their parts, in order."""
    left = list(canonical)
    for first, last, time, unit in units:
        while left and left[0].first + left[0].size <= first:
            left.pop(0)
        sent = left.pop(0)
        assert (last + 1, time) == (sent.first + sent.size, sent.time)
        assert unit in [b"".join(sent.parts[k:]) for k in range(len(sent.parts))]
        assert not is_tame or (first, unit) == (sent.first, b"".join(sent.parts))
    assert not is_tame or len(units) == len(canonical)
