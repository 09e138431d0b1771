"""Texts cut at start codes, headers of H.26x units, and profiles and levels, from the layouts and tables of the
standards alone. Each row is a line and its answer."""

import random
import re

from payloads import flag, joined

NONE = "fault no profile, tier and level"


def cut(text):
    """ITU-T H.264 annex B: what stands between start codes."""
    stretches = re.split(b"\x00\x00+\x01", text)
    units = [unit.hex() for unit in (stretches[1:] or stretches) if unit]
    return " ".join(units) or "-"


def texts():
    yield "# Texts that are cut at their start codes (ITU-T H.264 annex B)", None
    yield "units -", "-"
    for text, units in [
        ("0000016507000000014108", "6507 4108"),
        ("0909000000000001650000000000000141", "65 41"),
        ("000001650000", "650000"),
        ("00000100000165000001", "65"),
        ("000001010001000002", "010001000002"),
        ("65000001", "-"),
        ("00", "00"),
        ("0000", "0000"),
        ("0001", "0001"),
    ]:
        assert cut(bytes.fromhex(text)) == units
        yield f"units {text}", units
    yield "# Texts of 00, 01 and 02 that were split by the regular expression 00 00+ 01", None
    draw = random.Random(2026)
    for weights in [(6, 3, 1), (8, 2, 1), (5, 5, 1), (10, 2, 1)] * 6:
        text = bytes(draw.choices([0, 1, 2], weights, k=60))
        yield f"units {text.hex()}", cut(text)


def h265_kind(nalu_type):
    """RFC 7798 4.4 and ITU-T H.265 table 7-1."""
    packets = {48: "aggregate", 49: "fragment", 50: "PACI", 19: "IDR", 20: "IDR"}
    otherwise = "IRAP" if 16 <= nalu_type <= 23 else "VCL" if nalu_type < 32 else "other"
    return packets.get(nalu_type, otherwise)


def h265_headers():
    yield "# Headers of H.265 (RFC 7798 1.1.4): kind, F, type, layer, TID, and the header of the last three", None
    types = [(nalu_type, 0, 1) for nalu_type in (15, 16, 18, 20, 21, 23, 24, 31, 32, 48, 49, 50, 51)]
    for nalu_type, layer, tid in [(19, 5, 1), *types, (63, 63, 7), (0, 0, 0)]:
        word = joined([(0, 1), (nalu_type, 6), (layer, 6), (tid, 3)]).hex()
        yield f"header H265 {word}", f"{h265_kind(nalu_type)} {nalu_type} {layer} {tid} {word}"
    yield "header H265 a601", "IDR F 19 0 1 2601"
    yield "# The same of fragments (RFC 7798 4.4.3): S, E and type", None
    for start, end, nalu_type in [(1, 0, 19), (0, 1, 19), (0, 0, 1), (1, 1, 63)]:
        byte = joined([(start, 1), (end, 1), (nalu_type, 6)]).hex()
        yield f"header H265 {byte}", f"{flag(bool(start))} {flag(bool(end))} {nalu_type} {byte}"


def h266_headers():
    yield "# Headers of H.266 (RFC 9328 1.1.4): kind, F, Z, type, layer, TID, and the header of the last three", None
    kinds = {28: "aggregate", 29: "fragment", 7: "IRAP", 8: "IRAP", 9: "IRAP"}
    for f, z, layer, nalu_type, tid in [
        (0, 0, 5, 7, 1),
        (1, 1, 5, 7, 1),
        (1, 0, 5, 7, 1),
        (0, 1, 5, 7, 1),
        (0, 0, 0, 28, 1),
        (0, 0, 0, 29, 1),
        (0, 0, 0, 6, 1),
        (0, 0, 0, 9, 1),
        (0, 0, 0, 10, 1),
        (0, 0, 63, 31, 7),
    ]:
        behind = [(layer, 6), (nalu_type, 5), (tid, 3)]
        word, plain = joined([(f, 1), (z, 1), *behind]).hex(), joined([(0, 2), *behind]).hex()
        marks = "F " * f + "Z " * z
        yield f"header H266 {word}", f"{kinds.get(nalu_type, 'other')} {marks}{nalu_type} {layer} {tid} {plain}"
    yield "# The same of fragments (RFC 9328 4.3.3): S, E, P and type", None
    for start, end, last, nalu_type in [(1, 0, 1, 7), (0, 1, 0, 7), (0, 0, 0, 31)]:
        byte = joined([(start, 1), (end, 1), (last, 1), (nalu_type, 5)]).hex()
        yield f"header H266 {byte}", f"{flag(bool(start))} {flag(bool(end))} {flag(bool(last))} {nalu_type} {byte}"


# RFC 6184 8.1, table 5: profile_idc, and profile_iop from its highest bit on, where x is either.
H264_PROFILES = [
    (0x42, "x1xx0000", "ConstrainedBaseline"),
    (0x4D, "1xxx0000", "ConstrainedBaseline"),
    (0x58, "11xx0000", "ConstrainedBaseline"),
    (0x42, "x0xx0000", "Baseline"),
    (0x58, "10xx0000", "Baseline"),
    (0x4D, "0x0x0000", "Main"),
    (0x64, "00000000", "High"),
    (0x64, "00001100", "ConstrainedHigh"),
    (0xF4, "00000000", "High444Predictive"),
]


def level_name(level, part):
    return f"Level{level}_{part}" if part else f"Level{level}"


def levels(greatest_parts):
    return [(level + 1, part) for level, greatest in enumerate(greatest_parts) for part in range(greatest + 1)]


def h264_profiles():
    yield "# Profiles of H.264 at level 3.1: all 39 of the patterns of RFC 6184 8.1, table 5", None
    for number in range(1 << 16):
        idc, iop = divmod(number, 256)
        for row_idc, digits, name in H264_PROFILES:
            if row_idc == idc and all(want in ("x", bit) for want, bit in zip(digits, f"{iop:08b}")):
                yield f"profile H264 {number:04x}1f", f"{name} Level3_1"
    yield "# Numbers of session texts, and those that are off the tables", None
    yield "profile H264 640034", "High Level5_2"
    yield "profile H264 640c29", "ConstrainedHigh Level4_1"
    yield "profile H264 f4003e", "High444Predictive Level6_2"
    yield "profile H264 42000a", "Baseline Level1"
    for number in ("420009", "43001f", "64081f", "0142001f", "ffffffff"):
        yield f"profile H264 {number}", f"fault profile-level-id {int(number, 16)} is not known"


def h264_bytes():
    yield "# level_idc is ten times the level: all 19 with their places, and numbers of none", None
    for place, (level, part) in enumerate(levels((3, 2, 2, 2, 2, 2))):
        yield f"level {10 * level + part}", f"{level_name(level, part)} {place}"
    for number in (0, 9, 14, 23, 33, 63, 255):
        yield f"level {number}", f"fault no level has level_idc {number}"
    yield "# profile_idc", None
    for number in sorted({idc for idc, _, _ in H264_PROFILES}):
        yield f"idc {number}", f"X{number:02X}"
    for number in (0, 65, 67, 110, 122):
        yield f"idc {number}", f"fault no profile has profile_idc {number}"


H265_PROFILES = [
    "Main",
    "Main10",
    "MainStillPicture",
    "FormatRangeExtensions",
    "HighThroughput",
    "MultiviewMain",
    "ScalableMain",
    "ThreeDMain",
    "ScreenContentCoding",
    "ScreenContentCodingExtensions",
    "HighThroughputScreenContentCoding",
]


def h265_profiles():
    yield "# H.265 (RFC 7798 7.1): level-id is thirty times the level; absent, the values are 1, 0 and 93", None
    yield "profile H265 - - -", "Main Main Level3_1"
    yield "profile H265 +2 1 180", "Main10 High Level6"
    for number, name in enumerate(H265_PROFILES, 1):
        yield f"profile H265 {number} 0 93", f"{name} Main Level3_1"
    for level, part in levels((0, 1, 1, 1, 2, 2)):
        yield f"profile H265 1 1 {30 * level + 3 * part}", f"Main High {level_name(level, part)}"
    for values in ("0 0 93", "12 0 93", "257 - -", "1 2 93", "- +-1 -", "- - 31", "- - 51", "- - 255"):
        yield f"profile H265 {values}", NONE


def h266_profiles():
    yield "# H.266 (RFC 9328 7.1): level-id is sixteen times the level and three a part; absent, they are 1, 0 and 51", None
    yield "profile H266 - - -", "Main10 Main Level3_1"
    yield "profile H266 33 - 255", "Main10_444 Main Level15_5"
    for level, part in levels((0, 1, 1, 1, 2, 3)):
        yield f"profile H266 1 1 {16 * level + 3 * part}", f"Main10 High {level_name(level, part)}"
    for values in ("0 0 51", "2 0 51", "34 0 51", "257 - -", "1 2 51", "- - 17", "- - 93"):
        yield f"profile H266 {values}", NONE


def rows():
    yield from texts()
    yield "# Units that an aggregate of H.264 shows, by their type", None
    for nalu_type, is_shown in ((7, "yes"), (5, "yes"), (8, "no")):
        yield f"shows {nalu_type} 7800016700016500", is_shown
    for part in (h265_headers, h266_headers, h264_profiles, h264_bytes, h265_profiles, h266_profiles):
        yield from part()
