#!/usr/bin/env python3
"""Writes what `crates/payload_lines` and `crates/wire_lines` read and must answer: samples and packets that were packed
from the layouts of the standards alone, beside rows that were put together by hand.

Run it with `python3 tests/models/lines.py`. A row is a line and its answer; a row without one answers itself. The
packers are `h26x.py`, `av1.py` and `payloads.py`; `layers.py` draws the fields of single packets; headers and tables
are in `headers.py`, rows by hand in `rows.py`, `parts.py` and `wire.py`, the units of encoders in `*_units.txt`.
"""

from pathlib import Path

import av1
import h26x
import headers
import layers
import payloads
from parts import BOXED, FIELDS, WHOLES
from rows import BY_HAND, told
from wire import HEADERS, NUMBERS

HERE = Path(__file__).parent
CRATES = HERE.parents[1] / "crates"


def spelled(packets, marker=True):
    return " ".join(p.hex() for p in packets) + ("*" if marker else "")


def of_units(codec, module, key_type, cases):
    """Access units of H.264, H.265 and H.266."""
    for what, numbers, packed, limit, units, packets in cases:
        yield f"# {codec}, {what}", None
        yield f"codec {codec} numbers={int(numbers)}", None
        if packed is not None:
            yield f"pack {limit} {h26x.written(packed)}", spelled(packets)
        is_key = any(module.fields(u)["type"] in key_type for u in units)
        yield f"read {spelled(packets)}", f"{h26x.written(units)} {told(codec, is_key)}"


def encoded(codec, module, key_type):
    """Access units of an encoder, at three limits, with numbers and without."""
    for line in (HERE / f"{codec.lower()}_units.txt").read_text().splitlines():
        if line.startswith("#"):
            yield line, None
            continue
        words = line.split()
        units = [bytes.fromhex(word) for word in words if word not in ("000001", "00000001")]
        sent = [u for u in units if module.fields(u)["type"] not in module.unsent]
        is_key = any(module.fields(u)["type"] in key_type for u in sent)
        for limit in (1200, 100, 80):
            for first in (None,) if codec == "H264" else (None, 0):
                packets = h26x.by_profile(module, units, limit, first)
                yield f"codec {codec} numbers={int(first is not None)}", None
                yield f"pack {limit} {''.join(words)}", spelled(packets)
                yield f"read {spelled(packets)}", f"{h26x.written(sent)} {told(codec, is_key)}"


def of_frames(cases):
    """Frames of VP8 and VP9, speech, events and plain audio."""
    for codec, what, limit, frame, packets, extra in cases:
        is_video = codec.startswith("VP")
        yield f"# {codec.split()[0]}, {what}", None
        yield f"codec {codec}", None
        if limit is not None:
            yield f"pack {limit} {frame.hex()}", spelled(packets, is_video)
        given = frame[:4] if extra.startswith("first ") else frame
        yield f"read {spelled(packets, is_video)}", f"{given.hex()} {extra.removeprefix('first ')}"


def of_packets():
    """Samples and packets of each codec."""
    yield from BY_HAND
    yield from WHOLES
    idr, irap, h266_irap = [5], range(16, 24), range(7, 10)
    yield from of_units("H264", h26x.H264, idr, h26x.h264())
    yield from of_units("H265", h26x.H265, irap, h26x.h265())
    yield from of_units("H266", h26x.H266, h266_irap, h26x.h266())
    yield from encoded("H264", h26x.H264, idr)
    yield from encoded("H265", h26x.H265, irap)
    yield from av1.sizes()
    yield from av1.encoded(HERE / "av1_units.txt")
    for cases in (payloads.vp8, payloads.vp9, payloads.amr_wb, payloads.telephone, payloads.plain):
        yield from of_frames(cases())


def write(crate, rows):
    rows = list(rows)
    (CRATES / crate / "stdin").write_text("".join(f"{line}\n" for line, _ in rows))
    (CRATES / crate / "stdout").write_text("".join(f"{line if answer is None else answer}\n" for line, answer in rows))


if __name__ == "__main__":
    write("payload_lines", [*of_packets(), *layers.rows(), *BOXED, *FIELDS, *headers.rows()])
    write("wire_lines", [*HEADERS, *NUMBERS])
