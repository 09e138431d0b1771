"""Packets of video with fields drawn by a seed, and what each says of its frame: whether a frame can begin or end with
it, whether it shows a key frame, and its layers. Each is laid out by the standards' fields, which say what is told."""

from random import Random

import av1
import h26x
from payloads import joined, vp8_descriptor, vp9_descriptor

drawn = Random(33)


def flip():
    return drawn.random() < 0.5


def said(is_head, is_tail, is_key, spatial=None, temporal=None):
    told = [word for word, is_so in (("head", is_head), ("tail", is_tail), ("key", is_key)) if is_so]
    told += [f"{name}={value}" for name, value in (("spatial", spatial), ("temporal", temporal)) if value is not None]
    return " ".join(["says", *told])


def line(packet, marker):
    return f"info {packet.hex()} {int(marker)}"


def picture():
    return drawn.choice([None, (drawn.randrange(128), False), (drawn.randrange(32768), True)])


def vp8():
    """RFC 7741 4.2 and 4.3: a key frame has the low bit of its first byte clear."""
    for _ in range(40):
        start, pid, frame = int(flip()), drawn.choice([0, 0, 1]), drawn.randrange(256)
        tid = (drawn.randrange(4), int(flip())) if flip() else None
        shape = dict(picture=picture(), tl0=drawn.randrange(256) if flip() else None, tid=tid,
                     key=drawn.randrange(32) if flip() else None)
        packet, marker = vp8_descriptor(start, pid, **shape) + bytes([frame, 7]), flip()
        is_key = start == 1 and pid == 0 and frame % 2 == 0
        yield line(packet, marker), said(start == 1, marker, is_key, None, tid and tid[0])


def vp9():
    """RFC 9628 4.2: a key frame isn't predicted from other pictures, and is of the lowest spatial layer."""
    for _ in range(40):
        begin, end, flexible, is_predicted, marker = (flip() for _ in range(5))
        layer = (drawn.randrange(8), int(flip()), drawn.choice([0, 0, 1, 2, 7]), int(flip())) if flip() else None
        diffs = [drawn.randrange(1, 128)] if is_predicted else None
        packet = vp9_descriptor(begin, end, flexible, picture(), layer, drawn.randrange(256), diffs) + b"\x82\x49"
        is_key = not is_predicted and (layer is None or layer[2] == 0)
        layers = (layer[2], layer[0]) if layer else (None, None)
        yield line(packet, marker), said(begin, marker, is_key, *layers)


def of_av1():
    """RTP payload format for AV1, 4.4: Z, Y, W and N; the first element of W elements has no size if it is alone."""
    for _ in range(40):
        goes_on, is_open, count, is_first, marker = flip(), flip(), drawn.randrange(4), flip(), flip()
        layers = (drawn.randrange(4), drawn.randrange(8)) if flip() else None
        # forbidden bit, type, extension flag, has_size_field, reserved bit; then temporal id, spatial id, reserved bits
        unit = joined([(0, 1), (drawn.choice([1, 3, 6]), 4), (int(layers is not None), 1), (0, 2)])
        if layers:
            unit += joined([(layers[1], 3), (layers[0], 2), (0, 3)])
        unit += bytes(drawn.choice([1, 5, 150]))
        head = joined([(int(goes_on), 1), (int(is_open), 1), (count, 2), (int(is_first), 1), (0, 3)])
        rest = unit if count == 1 else av1.size(len(unit)) + unit + bytes([1, 0x30])
        told = layers if layers and not goes_on else (None, None)
        yield line(head + rest, marker), said(not goes_on, marker, is_first, *told)


def of_units(codec, kinds, is_key, header):
    """A NAL unit alone, as a fragment that begins or goes on, and in an aggregate behind another unit."""
    for kind in kinds:
        unit = header(kind) + bytes([1, 2, 3, 4])
        fields, marker = codec.fields(unit), flip()
        layers = (fields["layer"], fields["tid"] - 1) if "layer" in fields else (None, None)
        first, then = h26x.fragments(codec, unit, [2, 2])
        other = header(min(kinds)) + b"\x09"
        both = h26x.aggregated(codec, [other, unit])
        shows_other = is_key(min(kinds))
        yield line(unit, marker), said(True, marker, is_key(kind), *layers)
        yield line(first, marker), said(True, marker, is_key(kind), *layers)
        yield line(then, marker), said(False, marker, False, *layers)
        yield line(both, marker), said(True, marker, is_key(kind) or shows_other, *layers)


def rows():
    yield "# what a packet says of its frame: VP8, VP9, AV1, H.264, H.265, H.266, audio", None
    for name, cases in (("VP8", vp8), ("VP9", vp9), ("AV1", of_av1)):
        yield f"codec {name}", None
        yield from cases()
    yield "codec H264", None
    yield from of_units(h26x.H264, [1, 5, 6, 7, 8], lambda kind: kind == 5, lambda kind: bytes([0x60 | kind]))
    layer, tid = 5, 3
    for codec, kinds, keys in ((h26x.H265, [1, 15, 16, 19, 23, 24, 33], range(16, 24)),
                               (h26x.H266, [1, 6, 7, 9, 10, 15], range(7, 10))):
        yield f"codec {codec.__name__}", None
        yield from of_units(codec, kinds, lambda kind, keys=keys: kind in keys, lambda kind, codec=codec: (
            joined([(0, 1), (kind, 6), (layer, 6), (tid, 3)]) if codec is h26x.H265 else
            joined([(0, 2), (layer, 6), (kind, 5), (tid, 3)])))
    for name in ("OPUS", "PCMU", "G722"):
        yield f"codec {name}", None
        yield "info f8ff 0", said(True, True, False)
