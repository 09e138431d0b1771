"""The rows that are tried under schedules, and samples of each codec that a seed draws."""

from dataclasses import dataclass

import av1
import h26x
import headers
import payloads
from payloads import joined


@dataclass
class Case:
    """A codec with its settings, as its row says them; how many samples a run has, and between which numbers the most
    bytes of a payload are drawn."""

    name: str
    codec: str
    clock: int
    channels: str = "-"
    fmtp: str = "-"
    red: bool = False
    count: int = 52
    limits: tuple = (4, 24)

    @property
    def kind(self):
        return "video" if self.codec in ("VP8", "VP9", "AV1", "H264", "H265", "H266") else "audio"

    @property
    def wild(self):
        """Which part of so many samples a wild run has."""
        return 1 if self.kind == "video" else 0.4

    @property
    def rtp_clock(self):
        """G.722 is sampled at 16,000 Hz and counted at 8,000 (RFC 3551 4.5.2)."""
        return 8000 if self.codec == "G722" else self.clock

    @property
    def row(self):
        return f"{self.codec} {self.clock} {self.channels} {self.fmtp}"


def video(name, codec, fmtp="-", count=15, limits=(20, 60)):
    return Case(name, codec, 90000, "-", fmtp, False, count, limits)


CASES = [
    Case("opus", "opus", 48000, "2", "minptime=10;useinbandfec=1"),
    Case("opus with redundancy", "opus", 48000, "2", "minptime=10;useinbandfec=1", True, limits=(8, 50)),
    Case("PCMU", "PCMU", 8000, count=170),
    Case("PCMA", "PCMA", 8000),
    Case("PCMA with redundancy", "PCMA", 8000, red=True, limits=(8, 50)),
    Case("G722", "G722", 16000),
    Case("CN", "CN", 8000, limits=(24, 30)),
    Case("AMR-WB", "AMR-WB", 16000, limits=(70, 80)),
    Case("AMR-WB octet-aligned", "AMR-WB", 16000, fmtp="octet-align=1", limits=(70, 80)),
    Case("telephone-event", "telephone-event", 8000, fmtp="0-16", limits=(8, 12)),
    video("VP8", "VP8"),
    video("VP9", "VP9", "profile-id=0"),
    video("AV1", "AV1"),
    video("H264", "H264", "packetization-mode=1;profile-level-id=42001f"),
    video("H265", "H265"),
    video("H265 with decoding order numbers", "H265", "sprop-max-don-diff=1"),
    video("H266", "H266"),
    video("H266 with decoding order numbers", "H266", "sprop-max-don-diff=1"),
]


@dataclass
class Sample:
    """Its bytes, and what it is made of, where a packer needs that."""

    bytes: bytes
    content: object = None


def sound(draw):
    return Sample(draw.randbytes(draw.randint(1, draw.choice([3, 24]))))


def speech(draw):
    """A frame of each type that `payloads.py` has, the shortest mostly, those without speech among them."""
    frames = [payloads.speech(draw.choice([9, 9, 9, 14, 15, 0, 1]), draw.randrange(1 << 20))]
    return Sample(payloads.amr_wb_stored(frames), frames)


def event(draw):
    reports = [payloads.report(draw.randrange(17), draw.randrange(2), draw.randrange(64), draw.randrange(1 << 16))
               for _ in range(draw.choice([1, 1, 2]))]
    return Sample(b"".join(reports))


def picture(draw):
    return Sample(draw.randbytes(draw.choice([1, draw.randint(2, 90), draw.randint(90, 250)])))


@dataclass
class Obu:
    """A unit of AV1: its type, its bytes without their size, and with it."""

    kind: int
    element: bytes
    stored: bytes


def obu(draw, kind, most):
    """A header with an extension or without, and a payload (AV1 bitstream specification 5.3)."""
    extended, payload = draw.randrange(4) == 0, draw.randbytes(draw.randrange(most))
    extension = draw.randbytes(1) if extended else b""
    heads = [joined([(0, 1), (kind, 4), (int(extended), 1), (sized, 1), (0, 1)]) for sized in (0, 1)]
    return Obu(kind, heads[0] + extension + payload, heads[1] + extension + av1.size(len(payload)) + payload)


def temporal_unit(draw):
    """A delimiter, a sequence header at times, metadata, padding and frames; the last may have no size."""
    kinds = [(2, 1)] * draw.randrange(2) + [(1, 14)] * (draw.randrange(4) == 0)
    kinds += [(draw.choice([5, 15, 8, 3, 6]), draw.choice([1, 6, 150])) for _ in range(draw.randint(1, 6))]
    units = [obu(draw, kind, most) for kind, most in kinds]
    text = b"".join(unit.stored for unit in units[:-1])
    return Sample(text + (units[-1].stored if draw.randrange(3) else units[-1].element), units)


# Headers of a delimiter, filler, parameter sets in the order of their types, and other units.
UNITS = {
    "H264": ("09", "0c", ["67", "68"], ["06", "65", "41", "01", "6d"]),
    "H265": ("4601", "4c01", ["4001", "4201", "4401"], ["4e01", "2601", "0201", "0203", "020a"]),
    "H266": ("00a1", "00c9", ["0071", "0079", "0081"], ["00b9", "0039", "0001", "0003", "0102"]),
}


def nal_unit(draw, header, most):
    """Bytes behind a header, of which zeros stand alone, and none at the end."""
    body = draw.randbytes(draw.randint(1, most))
    body = bytes(b or 1 if i % 2 or i + 1 == len(body) else b for i, b in enumerate(body))
    return bytes.fromhex(header) + body


def access_unit(draw, codec):
    """Units behind start codes of three bytes or four; one alone stands without any at times."""
    delimiter, filler, sets, others = UNITS[codec]
    if draw.randrange(12) == 0:
        unit = nal_unit(draw, draw.choice(others), 90)
        return Sample(unit, [unit])
    kinds = [delimiter] * draw.randrange(2)
    if draw.randrange(3) == 0:
        kinds += [header for header in sets if draw.randrange(8)] + [draw.choice(sets)] * (draw.randrange(6) == 0)
    kinds += [draw.choice(others) for _ in range(draw.choice([0, 1, 1, 2, 3]))] + [filler] * (draw.randrange(6) == 0)
    units = [nal_unit(draw, kind, 12 if kind in sets else draw.choice([3, 40, 130])) for kind in kinds]
    text = b"".join(h26x.START[draw.randrange(2):] + unit for unit in units)
    assert headers.cut(text) == (" ".join(unit.hex() for unit in units) or "-")
    return Sample(text, units)


DRAWS = {"AMR-WB": speech, "telephone-event": event, "VP8": picture, "VP9": picture, "AV1": temporal_unit}


def draw_sample(draw, case):
    if case.codec in UNITS:
        return access_unit(draw, case.codec)
    return DRAWS.get(case.codec, sound)(draw)


def draw_samples(draw, case, count):
    """Samples with their times, which rise, pass 2^32 in some runs, at times stay, and at times leap."""
    time = draw.choice([0, draw.randrange(1 << 32), (1 << 32) - 5000])
    for_each = []
    while len(for_each) < count:
        sample = draw_sample(draw, case)
        if sample.bytes:
            for_each.append((time, sample))
        time += draw.choice([160, 160, 160, 960, 960, 3000, 0, draw.choice([16383, 16384, 20000])])
    return for_each
