#!/usr/bin/env python3
"""Packets of H.264, H.265 and H.266 access units, packed from the layouts of the standards alone.

`lines.py` takes units and their packets from here. It shares no code with the packetizers and depacketizers: a header
here is a list of fields, each a value and its width in bits, as in `payloads.py`. Layouts: RFC 6184 5.6, 5.7.1 and 5.8; RFC 7798 4.4.1 to 4.4.3; RFC 9328 4.3.1 to 4.3.3.
"""

from payloads import joined, pieces

START = bytes([0, 0, 0, 1])


class H264:
    """F, NRI and type in one byte. No packet has a decoding order number."""

    sets, unsent, size = [7, 8], [9, 12], 1

    @staticmethod
    def fields(unit):
        return {"f": unit[0] >> 7, "nri": unit[0] >> 5 & 3, "type": unit[0] & 31}

    @classmethod
    def header(cls, units, kind):
        """F is set where a unit's is, and NRI is the greatest (RFC 6184 5.7)."""
        all_fields = [cls.fields(u) for u in units]
        f, nri = (max(fields[k] for fields in all_fields) for k in ("f", "nri"))
        return joined([(f, 1), (nri, 2), (kind, 5)])

    aggregate, fragment = 24, 28

    @classmethod
    def fu_header(cls, unit, start, end, last):
        return joined([(start, 1), (end, 1), (0, 1), (cls.fields(unit)["type"], 5)])


class H265:
    """F, type, layer and TID in two bytes."""

    sets, unsent, size = [32, 33, 34], [35, 38], 2
    aggregate, fragment, dond = 48, 49, True

    @staticmethod
    def fields(unit):
        word = unit[0] << 8 | unit[1]
        return {"f": word >> 15, "type": word >> 9 & 63, "layer": word >> 3 & 63, "tid": word & 7}

    @classmethod
    def shared(cls, units):
        """F is set where a unit's is; layer and TID are the least (RFC 7798 4.4.2, RFC 9328 4.3.2)."""
        all_fields = [cls.fields(u) for u in units]
        f = max(fields["f"] for fields in all_fields)
        return f, *(min(fields[k] for fields in all_fields) for k in ("layer", "tid"))

    @classmethod
    def header(cls, units, kind):
        f, layer, tid = cls.shared(units)
        return joined([(f, 1), (kind, 6), (layer, 6), (tid, 3)])

    @classmethod
    def fu_header(cls, unit, start, end, last):
        return joined([(start, 1), (end, 1), (cls.fields(unit)["type"], 6)])


class H266(H265):
    """F, Z, layer; type and TID."""

    sets, unsent = [14, 15, 16], [20, 25]
    aggregate, fragment, dond = 28, 29, False

    @staticmethod
    def fields(unit):
        word = unit[0] << 8 | unit[1]
        return {"f": word >> 15, "layer": word >> 8 & 63, "type": word >> 3 & 31, "tid": word & 7}

    @classmethod
    def header(cls, units, kind):
        f, layer, tid = cls.shared(units)
        return joined([(f, 1), (0, 1), (layer, 6), (kind, 5), (tid, 3)])

    @classmethod
    def fu_header(cls, unit, start, end, last):
        """P is set at the end of a picture's last unit."""
        fields = [(start, 1), (end, 1), (int(last and end), 1), (cls.fields(unit)["type"], 5)]
        return joined(fields)


def number(don):
    """A decoding order number, where the packets have them."""
    return b"" if don is None else (don % 65536).to_bytes(2, "big")


def single(codec, unit, don=None):
    return unit[: codec.size] + number(don) + unit[codec.size :]


def aggregated(codec, units, dons=None):
    """One aggregate. `dons` are the units' decoding order numbers, of which each is above the one before it."""
    out = codec.header(units, codec.aggregate)
    for i, unit in enumerate(units):
        if dons is not None and i == 0:
            out += number(dons[0])
        elif dons is not None and codec.dond:
            out += joined([(dons[i] - dons[i - 1] - 1, 8)])
        out += joined([(len(unit), 16)]) + unit
    return out


def fragments(codec, unit, sizes, don=None, last=False):
    """The unit without its header, cut into these sizes."""
    assert sum(sizes) == len(unit) - codec.size and len(sizes) > 1
    out, place = [], codec.size
    for i, size in enumerate(sizes):
        start, end = int(i == 0), int(i + 1 == len(sizes))
        head = codec.header([unit], codec.fragment) + codec.fu_header(unit, start, end, last)
        out.append(head + (number(don) if start else b"") + unit[place : place + size])
        place += size
    return out


def full(codec, unit, limit, don=None):
    """Sizes of fragments that are full, and the rest."""
    room, rest = limit - codec.size - 1, len(unit) - codec.size
    first = min(rest, room - len(number(don)))
    return [first] + [len(p) for p in pieces(bytes(rest - first), room)]


def by_profile(codec, units, limit, first_don=None):
    """As this project packs: parameter sets in one aggregate in front of the next unit, each other unit alone,
    in full fragments where it passes the limit; delimiters, filler and sets that don't fit are not sent."""
    packets, waiting, don = [], [], first_don
    for unit in units:
        kind = codec.fields(unit)["type"]
        if kind in codec.unsent:
            continue
        if kind in codec.sets:
            waiting.append(unit)
            continue
        if waiting:
            dons = None if don is None else range(don, don + len(waiting))
            together = aggregated(codec, waiting, dons)
            waiting = []
            if len(together) <= limit:
                packets.append(together)
                don = None if don is None else dons.stop
        packets += [single(codec, unit, don)]
        if len(packets[-1]) > limit:
            packets[-1:] = fragments(codec, unit, full(codec, unit, limit, don), don)
        don = None if don is None else don + 1
    return packets


def written(units):
    return b"".join(START + unit for unit in units).hex()


def filled(header, size, seed):
    """A unit of this header and so many bytes, without a start code in it."""
    return bytes.fromhex(header) + bytes((37 * i + seed) % 200 + 16 for i in range(size))


def h264():
    """For each case what it is, whether there are decoding order numbers, the units with which it is packed, if it is,
    the limit, the units that come back, and the packets."""
    sets = [filled("67", 9, 1), filled("68", 3, 2)]
    slices = [filled("65", 20, 3), filled("65", 33, 4), filled("65", 7, 5)]
    frame = sets + slices
    units = [filled("09", 1, 0)] + frame + [filled("0c", 4, 0)]
    for limit in (1200, 19):
        yield "by the profile", False, units, limit, frame, by_profile(H264, units, limit)
    yield "by the profile, sets that do not fit", False, units, 18, slices, by_profile(H264, units, 18)
    sent = [aggregated(H264, sets + slices[:1]), single(H264, slices[1]), single(H264, slices[2])]
    yield "sets and a slice in one aggregate", False, None, 0, frame, sent
    yield "all in one aggregate", False, None, 0, frame, [aggregated(H264, frame)]
    low = [filled("06", 5, 6), filled("41", 30, 7), filled("01", 12, 8)]
    sent = [single(H264, low[0])] + fragments(H264, low[1], [1, 17, 12])
    sent += fragments(H264, low[2], [11, 1])
    yield "uneven fragments of NRI 2 and 0", False, None, 0, low, sent
    sent = [aggregated(H264, [low[0], low[2]])] + fragments(H264, low[1], [29, 1])
    yield "fragments behind an aggregate of NRI 0", False, None, 0, [low[0], low[2], low[1]], sent


def of_two_bytes(codec, headers):
    """H.265 and H.266: headers of a delimiter, filler, the three sets, SEI, a slice of a keyframe, and two other
    slices, of temporal id 2 and of layer 1."""
    delimiter, filler, vps, sps, pps, sei, key, high, layered = headers
    sets = [filled(vps, 7, 1), filled(sps, 11, 2), filled(pps, 4, 3)]
    frame = sets + [filled(sei, 6, 4), filled(key, 45, 5), filled(key, 13, 6)]
    units = [filled(delimiter, 1, 0)] + frame + [filled(filler, 4, 0)]
    for limit in (1200, 36):
        yield "by the profile", False, units, limit, frame, by_profile(codec, units, limit)
    yield "by the profile, sets that do not fit", False, units, 35, frame[3:], by_profile(codec, units, 35)
    yield "by the profile with numbers", True, units, 40, frame, by_profile(codec, units, 40, first_don=0)
    yield "all in one aggregate", False, None, 0, frame, [aggregated(codec, frame)]
    other = [filled(high, 10, 7), filled(layered, 18, 8), filled(high, 5, 9)]
    sent = [aggregated(codec, other[:2])] + fragments(codec, other[2], [2, 3], last=True)
    yield "layers in an aggregate, and fragments", False, None, 0, other, sent
    sent = [aggregated(codec, other, [65533, 65534, 65536])]
    yield "numbers in an aggregate", True, None, 0, other, sent
    sent = [single(codec, other[0], 65535)] + fragments(codec, other[1], [1, 16, 1], 65536, last=True)
    sent += [single(codec, other[2], 65537)]
    yield "numbers of single units and fragments", True, None, 0, other, sent


def h265():
    return of_two_bytes(H265, ["4601", "4c01", "4001", "4201", "4401", "4e01", "2601", "0203", "020b"])


def h266():
    return of_two_bytes(H266, ["00a1", "00c9", "0071", "0079", "0081", "00b9", "0039", "000b", "010a"])
