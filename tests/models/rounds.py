"""What `crates/sdp_lines` reads and must answer of rows: rounds, worked out with an array of marks from the rules of
negotiation alone, beside rounds that were put together by hand, and rows and configs by hand. `texts.py` writes it.
Random rounds come from a fixed seed.
"""

import copy
import random
from dataclasses import dataclass, field
from typing import Optional

PREFERRED = [*range(96, 128), *range(80, 96), 77, 78, *range(35, 72)]
AUDIO = ["opus", "PCMU", "PCMA", "G722", "CN", "AMR-WB"]
KEYS = ["minptime", "stereo", "sprop-stereo", "useinbandfec", "usedtx", "level-asymmetry-allowed", "packetization-mode",
        "profile-level-id", "profile-id", "profile", "level-idx", "tier", "h265", "h266", "sprop-max-don-diff",
        "events", "octet-align", "mode-set"]
FLAGS = {"stereo", "sprop-stereo", "useinbandfec", "usedtx", "level-asymmetry-allowed", "octet-align"}
LEVELS = {"H264": [10, 11, 12, 13, 20, 21, 22, 30, 31, 32, 40, 41, 42, 50, 51, 52, 60, 61, 62],
          "H265": [30, 60, 63, 90, 93, 120, 123, 150, 153, 156, 180, 183, 186],
          "H266": [16, 32, 35, 48, 51, 64, 67, 80, 83, 86, 96, 99, 102, 105, 255]}


class Refused(Exception):
    pass


@dataclass
class Spec:
    codec: str
    clock: int
    channels: Optional[int] = None
    fmt: dict = field(default_factory=dict)


@dataclass
class Row:
    pt: int
    rtx: Optional[int]
    red: Optional[int]
    cc: bool
    spec: Spec
    locked: bool = False


def fmt_text(fmt):
    parts = []
    for key in KEYS:
        if key not in fmt:
            continue
        value = fmt[key]
        if key in ("h265", "h266"):
            parts.append("profile-id=%d;tier-flag=%d;level-id=%d" % value)
        elif key == "events":
            parts.append(f"0-{value}")
        elif key == "profile-level-id":
            parts.append(f"{key}={value:06x}")
        elif key == "mode-set":
            parts.append(f"{key}=" + ",".join(str(m) for m in range(9) if value >> m & 1))
        else:
            parts.append(f"{key}={int(value)}")
    return ";".join(parts)


def dash(value):
    return "-" if value is None else str(value)


def spec_words(s):
    return f"{s.codec} {s.clock} {dash(s.channels)} {fmt_text(s.fmt) or '-'}"


def row_words(r):
    return f"{r.pt} {dash(r.rtx)} {dash(r.red)} {'cc' if r.cc else '-'} {spec_words(r.spec)}"


def row_answer(r):
    lock, cc = "locked" if r.locked else "open", "cc" if r.cc else "-"
    return (f"{r.pt} {dash(r.rtx)} {dash(r.red)} {lock} {cc} {r.spec.codec} {dash(r.spec.channels)} "
            f"{fmt_text(r.spec.fmt)}")


def h264_profile(idc, iop):
    """RFC 6184, table 5; x stands for either bit."""
    for name, number, digits in [("CB", 0x42, "x1xx0000"), ("CB", 0x4D, "1xxx0000"), ("CB", 0x58, "11xx0000"),
                                 ("B", 0x42, "x0xx0000"), ("B", 0x58, "10xx0000"), ("M", 0x4D, "0x0x0000"),
                                 ("H", 0x64, "00000000"), ("CH", 0x64, "00001100"), ("H444", 0xF4, "00000000")]:
        if idc == number and all(d in ("x", b) for d, b in zip(digits, f"{iop:08b}")):
            return name
    return None


def h264_level(number):
    if number is None:
        return "B", 0
    if number > 0xFFFFFF:
        return None
    profile = h264_profile(number >> 16, number >> 8 & 255)
    level = number & 255
    if profile is None or level not in LEVELS["H264"]:
        return None
    return profile, LEVELS["H264"].index(level)


def h26x_score(key, codec, a, b):
    if key in a and key in b:
        (p, t, l), (q, u, m) = a[key], b[key]
        if (p, t) != (q, u):
            return None
        return 100 - abs(LEVELS[codec].index(l) - LEVELS[codec].index(m))

    def profile(f):
        return f[key][0] if key in f else f.get("profile-id", 1) % 256

    return 90 if profile(a) == profile(b) else None


def score(a, b):
    if a == b and a.codec != "AMR-WB":
        return 100
    if a.codec != b.codec or a.codec == "unknown" or a.clock != b.clock:
        return None
    f, g = a.fmt, b.fmt
    if a.codec == "telephone-event":
        return 100
    if a.codec == "AMR-WB":
        if not {a.channels, b.channels} <= {None, 1}:
            return None
        if f.get("octet-align", False) != g.get("octet-align", False):
            return None
        m, n = f.get("mode-set"), g.get("mode-set")
        if m is None and n is None:
            return 100
        return None if m is not None and n is not None and m != n else 99
    if a.channels != b.channels:
        return None
    if a.codec == "opus":
        points = 100
        for key, loss in [("minptime", 1), ("useinbandfec", 2), ("usedtx", 4)]:
            points -= loss * (f.get(key) != g.get(key))
        for key in ("stereo", "sprop-stereo"):
            points -= 8 * (f.get(key, False) != g.get(key, False))
        return points
    if a.codec == "H264":
        if f.get("packetization-mode", 0) != g.get("packetization-mode", 0):
            return None
        p, q = h264_level(f.get("profile-level-id")), h264_level(g.get("profile-level-id"))
        if p is None or q is None or p[0] != q[0]:
            return None
        return 100 - abs(p[1] - q[1])
    if a.codec in ("H265", "H266"):
        return h26x_score(a.codec.lower(), a.codec, f, g)
    if a.codec == "VP9":
        return 100 if f.get("profile-id", 0) == g.get("profile-id", 0) else None
    if a.codec == "AV1":
        same = all(f.get(k, d) == g.get(k, d) for k, d in [("profile", 0), ("level-idx", 5), ("tier", 0)])
        return 100 if same else None
    return None


def settle_format(p, best):
    f, g = p.spec.fmt, best.spec.fmt
    codec = p.spec.codec
    if codec == "telephone-event":
        f["events"] = min(f.get("events", 16), g.get("events", 16))
    if codec in ("H265", "H266"):
        key = codec.lower()
        ours = f.pop(key, None)
        f.pop("profile-id", None)
        if key in g:
            profile, tier, level = g[key]
            if ours is not None:
                level = min(level, ours[2])
            f[key] = (profile, tier, level)
        elif "profile-id" in g:
            f["profile-id"] = g["profile-id"]
        if "sprop-max-don-diff" in g:
            f["sprop-max-don-diff"] = g["sprop-max-don-diff"]
    if codec == "AMR-WB":
        p.spec.channels = best.spec.channels
        f.pop("octet-align", None)
        if "octet-align" in g:
            f["octet-align"] = g["octet-align"]
        if "mode-set" not in f and "mode-set" in g:
            f["mode-set"] = g["mode-set"]


class Marks:
    """Which types are claimed: an array of marks."""

    def __init__(self, rows):
        self.claimed = [False] * 128
        self.unlocked = {t for r in rows if not r.locked for t in (r.pt, r.rtx, r.red) if t is not None}

    def is_claimed(self, pt, refusal):
        if pt > 127:
            raise Refused(f"{refusal} {pt}")
        return self.claimed[pt]

    def claim(self, pt, refusal):
        if self.is_claimed(pt, refusal):
            raise Refused(f"{refusal} {pt}")
        self.claimed[pt] = True

    def free(self):
        return next((t for t in PREFERRED if not self.claimed[t] and t not in self.unlocked), None)

    def found(self):
        free = self.free()
        if free is None:
            raise Refused("NoFreeType")
        return free


def best_of(p, remote, marks, dictated):
    best, points = None, None
    for r in remote:
        if p.spec.codec == "AMR-WB" and not p.locked and dictated and marks.is_claimed(r.pt, "TypeTaken"):
            continue
        s = score(p.spec, r.spec)
        if s is not None and (points is None or s >= points):
            best, points = r, s
    return best


def settle_type(marks, dictated, theirs, ours, refusal):
    if marks.is_claimed(theirs, refusal) and not dictated:
        theirs = ours if ours is not None and not marks.is_claimed(ours, refusal) else marks.found()
    marks.claim(theirs, refusal)
    return theirs


def meet(p, remote, marks, dictated):
    best = best_of(p, remote, marks, dictated)
    if best is None:
        return
    if not p.locked:
        p.cc = p.cc and best.cc
    settle_format(p, best)
    if p.locked:
        return
    p.pt = settle_type(marks, dictated, best.pt, p.pt, "TypeTaken")
    p.rtx = None if best.rtx is None else settle_type(marks, dictated, best.rtx, p.rtx, "ResendTaken")
    red = best.red if p.red is not None and p.spec.codec in AUDIO else None
    if red is not None and marks.is_claimed(red, "TypeTaken"):
        red = None if dictated else marks.free()
    if red is not None:
        marks.claim(red, "TypeTaken")
    p.red, p.locked = red, True


def move_away(p, marks):
    if marks.is_claimed(p.pt, "TypeTaken"):
        p.pt = marks.found()
        marks.claim(p.pt, "TypeTaken")
    if p.red is not None and marks.is_claimed(p.red, "TypeTaken"):
        p.red = marks.free()
        if p.red is not None:
            marks.claim(p.red, "TypeTaken")
    if p.rtx is not None and marks.is_claimed(p.rtx, "ResendTaken"):
        p.rtx = marks.found()
        marks.claim(p.rtx, "ResendTaken")


def run_round(own, remote, direction):
    """The rows after a round and its answer; a refused one leaves the rows."""
    rows, marks = copy.deepcopy(own), None
    marks = Marks(rows)
    dictated = direction in ("recvonly", "sendrecv")
    try:
        for p in rows:
            if p.locked:
                marks.claim(p.pt, "TypeTaken")
                if p.rtx is not None:
                    marks.claim(p.rtx, "ResendTaken")
                if p.red is not None:
                    marks.claim(p.red, "TypeTaken")
        for p in rows:
            meet(p, remote, marks, dictated)
        for p in rows:
            if not p.locked:
                move_away(p, marks)
    except Refused as refusal:
        return own, str(refusal)
    return rows, "ok"


def lines_of(name, own, rounds):
    """The lines of some rounds on the same rows, and their answers."""
    yield f"# {name}", None
    yield "fresh", "ok"
    for r in own:
        yield f"{'locked' if r.locked else 'own'} {row_words(r)}", "ok"
    for remote, direction in rounds:
        yield "other", "ok"
        for r in remote:
            yield f"remote {row_words(r)}", "ok"
        own, answer = run_round(own, remote, direction)
        yield f"round {direction}", answer + "".join(f" | {row_answer(r)}" for r in own)


def video(codec, pt, rtx, locked=False, **fmt):
    return Row(pt, rtx, None, True, Spec(codec, 90000, None, {k.replace("_", "-"): v for k, v in fmt.items()}), locked)


def h264(pt, rtx, number, mode=1, locked=False):
    return video("H264", pt, rtx, locked, packetization_mode=mode, profile_level_id=number)


def audio(codec, pt, clock, red=None, channels=None, locked=False, rtx=None, cc=True, **fmt):
    spec = Spec(codec, clock, channels, {k.replace("_", "-"): v for k, v in fmt.items()})
    return Row(pt, rtx, red, cc, spec, locked)


def scores():
    """How well two rows match, by hand."""
    one, other = "H264 90000 - packetization-mode=1;profile-level-id=", "opus 48000 2 "
    yield "# Scores", None
    yield f"score {one}42e01f {one}42e028", "98"
    yield f"score {one}42e01f {one}42001f", "none"
    yield f"score {other}minptime=10;useinbandfec=1 {other}-", "97"
    yield "score H265 90000 - profile-id=257 H265 90000 - profile-id=1;tier-flag=1;level-id=30", "90"
    yield "score telephone-event 8000 1 0-15 telephone-event 8000 - 0-4", "100"
    yield "score AMR-WB 16000 1 octet-align=1 AMR-WB 16000 - octet-align=1;mode-set=1", "99"
    yield "score AMR-WB 16000 0 - AMR-WB 16000 1 -", "none"


def by_hand():
    """Worked rounds, with answers by hand."""
    yield "# H.264 is locked at 108 and 109, Opus meets one at 109: moved where the other end only sends", None
    yield "fresh", "ok"
    yield "locked 108 109 - cc H264 90000 - profile-level-id=42e01f", "ok"
    yield "own 111 - - cc opus 48000 2 -", "ok"
    yield "remote 109 - - cc opus 48000 2 -", "ok"
    yield "round sendrecv", ("TypeTaken 109 | 108 109 - locked cc H264 - profile-level-id=42e01f"
                             " | 111 - - open cc opus 2 ")
    yield "round sendonly", ("ok | 108 109 - locked cc H264 - profile-level-id=42e01f"
                             " | 111 - - locked cc opus 2 ")
    yield "# A row is found by its type, and not by that of its retransmissions", None
    yield "find 111", "opus"
    yield "find 108", "H264"
    yield "find 109", "none"
    yield "# A type of retransmissions that a locked row has is refused, and nothing changes", None
    yield "fresh", "ok"
    yield "locked 96 97 - cc VP8 90000 - -", "ok"
    yield "own 108 109 - cc H264 90000 - profile-level-id=42e01f", "ok"
    yield "remote 108 97 - cc H264 90000 - profile-level-id=42e01f", "ok"
    yield "round sendrecv", ("ResendTaken 97 | 96 97 - locked cc VP8 - "
                             " | 108 109 - open cc H264 - profile-level-id=42e01f")
    yield "# A dictated RED type that is claimed gives none", None
    yield "fresh", "ok"
    yield "own 9 - 62 cc G722 16000 - -", "ok"
    yield "own 0 - 61 cc PCMU 8000 - -", "ok"
    yield "remote 9 - 63 cc G722 16000 - -", "ok"
    yield "remote 0 - 63 cc PCMU 8000 - -", "ok"
    yield "round sendrecv", "ok | 9 - 63 locked cc G722 -  | 0 - - locked cc PCMU - "


def default_rows(*names):
    """The default rows of these codecs, in this order; `red` behind a name gives them a RED type."""
    asym = {"level_asymmetry_allowed": True}
    for name in names:
        codec, _, red = name.partition(" ")
        if codec == "opus":
            yield audio(codec, 111, 48000, red and 63 or None, channels=2, minptime=10, useinbandfec=True)
        elif codec in ("PCMU", "PCMA", "G722"):
            pt, clock, red_type = {"PCMU": (0, 8000, 61), "PCMA": (8, 8000, 60), "G722": (9, 16000, 62)}[codec]
            yield audio(codec, pt, clock, red and red_type or None)
        elif codec == "CN":
            yield audio(codec, 13, 8000)
        elif codec == "AMR-WB":
            yield audio(codec, 122, 16000, channels=1, octet_align=True)
        elif codec == "H264":
            for pt, rtx, mode, number in [(127, 121, 1, 0x42001F), (125, 107, 0, 0x42001F), (108, 109, 1, 0x42E01F),
                                          (124, 120, 0, 0x42E01F), (123, 119, 1, 0x4D001F), (35, 36, 0, 0x4D001F),
                                          (114, 115, 1, 0x64001F)]:
                yield video(codec, pt, rtx, packetization_mode=mode, profile_level_id=number, **asym)
        elif codec == "H265":
            yield video(codec, 102, 103, h265=(1, 0, 180))
        elif codec == "H266":
            yield video(codec, 104, 105, h266=(1, 0, 96))
        elif codec == "VP9":
            yield video(codec, 98, 99, profile_id=0)
            yield video(codec, 100, 101, profile_id=2)
        else:
            yield video(codec, *{"VP8": (96, 97), "AV1": (45, 46)}[codec])


def formats():
    """Format parameters that a text gives: the text, and the parameters alone."""
    yield "# Format parameters, read and printed", None
    for text, fmt in [("octet-align=1; mode-set=0, 1,2;max-red=220", {"octet-align": True, "mode-set": 7}),
                      ("profile-level-id=1f;packetization-mode=1", {"packetization-mode": 1, "profile-level-id": 0x1F}),
                      ("0-16;useinbandfec=1", {"useinbandfec": True, "events": 16}),
                      ("mode-set=0,9", {}), (" 0-16 ", {"events": 16}), ("0-+1", {}),
                      ("MinPTime=10;minptime=x;profile-id=2", {"minptime": 10, "profile-id": 2}),
                      ("tier=1;tier=x;level-id=93;profile-id=1", {"h265": (1, 0, 93)})]:
        yield f"format {text}", fmt_text(fmt)


def feedback_and_equality():
    """Each flag is put by its own setter; rows are equal where all but their locks are."""
    flags = ["cc", "nack", "pli", "fir", "remb"]
    yield "# Feedback of a new row, and with one flag off", None
    for off in ["-", *flags]:
        yield f"feedback {off} VP8 90000 - -", " ".join("-" if flag == off else flag for flag in flags)
    yield "feedback - opus 48000 2 -", "cc - - - -"
    yield "# Equality ignores the lock", None
    row, with_red = "96 - - cc VP8 90000 - -", "96 - 63 cc VP8 90000 - -"
    yield f"equal open {row} locked {row}", "equal"
    yield f"equal open {row} open {with_red}", "unequal"


def alone():
    """Rows and formats that come alone."""
    return [*scores(), *formats(), *feedback_and_equality()]


def counted(rows):
    return str(len(rows)) + "".join(f" | {row_answer(r)}" for r in rows)


def enabled(*names):
    """The lines that enable these codecs, and the rows that an end has then, if it had none."""
    for name in names:
        yield f"enable {name}" + ("" if name.endswith(" red") else " -"), "ok"
    yield "rows", counted(list(default_rows(*names)))


def of_level(codec, numbers):
    """The parameters of a profile, tier and level by their numbers; where one is off its table (RFC 7798 7.1, RFC 9328
    7.2 and the standards' annexes A), those of main profile and tier at level 3.1."""
    profiles, usual = {"H265": (range(1, 12), (1, 0, 93)), "H266": ((1, 33), (1, 0, 51))}[codec]
    profile, tier, level = numbers
    is_known = profile in profiles and tier in (0, 1) and level in LEVELS[codec]
    return {codec.lower(): numbers if is_known else usual}


def numbered(codec, pt, rtx, *numbers):
    """The line that adds a row of video by its numbers, and the row."""
    if codec == "H264":
        mode, number = numbers
        return (f"video {codec} {pt} {dash(rtx)} {mode} {number:x}",
                video(codec, pt, rtx, level_asymmetry_allowed=True, packetization_mode=mode, profile_level_id=number))
    words = " ".join(map(str, numbers))
    return f"video {codec} {pt} {dash(rtx)} {words}", video(codec, pt, rtx, **of_level(codec, numbers))


def rows_of_numbers():
    """Rows of video by their numbers, and a round with such rows."""
    levels = {"H265": [(1, 0, 180), (2, 1, 93), (11, 1, 186), (1, 0, 30), (0, 0, 120), (12, 0, 120), (2, 2, 120),
                       (2, 1, 94), (255, 255, 255)],
              "H266": [(1, 0, 96), (33, 1, 255), (33, 0, 16), (0, 0, 80), (2, 0, 80), (1, 2, 80), (33, 1, 93),
                       (34, 0, 80)]}
    added = [numbered("H264", *given) for given in [
        (127, 121, 1, 0x42001F), (125, None, 0, 0x64001F), (108, 108, 0, 0), (109, 200, 1, 0xF4000A),
        (200, None, 1, 0xFFFFFFFF)]]
    added += [numbered(codec, pt, pt + 16, *numbers)
              for codec, listed in levels.items() for pt, numbers in enumerate(listed, 35)]
    yield "# Rows of video by their numbers; where one is off its table, main profile and tier at level 3.1", None
    yield "fresh", "ok"
    yield from [(line, "ok") for line, _ in added]
    yield "rows", counted([row for _, row in added])
    added = [numbered("H265", 102, 103, 2, 1, 93), numbered("H266", 104, None, 7, 0, 96),
             numbered("H264", 108, 109, 0, 0x42E01F)]
    remote = [video("H265", 45, None, h265=(2, 0, 93)), video("H265", 46, 47, h265=(2, 1, 63)),
              video("H266", 48, 49, h266=(1, 0, 48)), h264(50, 51, 0x42C01E, 0)]
    yield "# Such rows meet others of their profile and tier", None
    yield "fresh", "ok"
    yield from [(line, "ok") for line, _ in added]
    yield from [(f"remote {row_words(row)}", "ok") for row in remote]
    after, answer = run_round([row for _, row in added], remote, "sendrecv")
    yield "round sendrecv", answer + "".join(f" | {row_answer(row)}" for row in after)
    yield "# Rows of other codecs aren't given by numbers, and each word has to be there and to fit", None
    for line in ["video", "video VP8 96 97", "video H264 96 97 1", "video H264 96 97 1 42e01g",
                 "video H264 96 97 1 100000000", "video H265 96 97 1 0", "video H265 96 97 1 0 256",
                 "video H266 96 256 1 0 51", "video H266 - 97 1 0 51"]:
        yield line, "fault"
    yield "rows", counted(after)


def configs():
    """Default rows of codecs, and the distances of redundancy."""
    opus, = default_rows("opus")
    vp8, = default_rows("VP8")
    yield "# Opus is replaced, behind all others, and dropped", None
    yield "fresh", "ok"
    for line in ["enable opus red", "enable VP8 -", "enable opus -"]:
        yield line, "ok"
    yield "rows", counted([vp8, opus])
    yield "disable opus -", "ok"
    yield "rows", counted([vp8])
    yield "clear", "ok"
    yield "rows", "0"
    yield "# Audio and video are enabled", None
    yield "fresh", "ok"
    yield from enabled("PCMU red", "PCMA red", "G722 red", "CN", "AMR-WB")
    yield "fresh", "ok"
    yield from enabled("H265", "H266", "opus red")
    yield "fresh", "ok"
    yield from enabled("H264", "VP9", "AV1")
    yield "add 126 telephone-event 8000 - -", "ok"
    yield "rows", counted([*default_rows("H264", "VP9", "AV1"), audio("telephone-event", 126, 8000)])
    yield from rows_of_numbers()
    yield "# Distances are put in order", None
    yield "distances", "[1]"
    yield "distances 5 1 0 3 3 1 999", "[1, 3, 5]"
    yield "distances 4 2", "[1, 2, 4]"


def rows_move_away():
    """Rows that aren't met move away from the types of those that are; where a type is claimed an own one is taken."""
    yield from lines_of("An own type in place of a claimed one",
                        [audio("opus", 96, 48000, locked=True), audio("CN", 97, 16000)],
                        [([audio("CN", 96, 16000)], "sendonly")])
    yield from lines_of("Own types in place of claimed ones",
                        [h264(96, 97, 0x42E01F, locked=True), video("VP8", 110, 111)],
                        [([video("VP8", 96, 97)], "sendonly")])
    own = list(default_rows("opus", "VP8", "H264", "H265", "VP9", "AV1"))
    remote = [h264(103, 104, 0x42001F), h264(109, 114, 0x42E01F), h264(117, 118, 0x4D001F)]
    after, answer = run_round(own, remote, "sendonly")
    kinds = [(r.pt, r.rtx, r.locked) for r in after]
    assert answer == "ok"
    assert kinds[1] == (96, 97, False) and kinds[2] == (103, 104, True) and kinds[4] == (109, 114, True)
    assert kinds[6] == (117, 118, True) and kinds[8] == (105, 115, False) and kinds[9] == (102, 106, False)
    yield "# The default rows", None
    yield "fresh", "ok"
    yield "defaults", "ok"
    yield "round inactive", "ok" + "".join(f" | {row_answer(r)}" for r in own)
    for r in remote:
        yield f"remote {row_words(r)}", "ok"
    yield "round sendonly", "ok" + "".join(f" | {row_answer(r)}" for r in after)


def no_type_is_left():
    """44 rows of comfort noise take all preferred types, and one more row finds none."""
    own = [audio("CN", PREFERRED[n], n + 1, rtx=PREFERRED[44 + n] if n < 43 else None) for n in range(44)]
    locked, answer = run_round(own, copy.deepcopy(own), "sendrecv")
    assert answer == "ok" and all(r.locked for r in locked)
    full = locked + [audio("opus", 111, 48000, channels=2)]
    assert run_round(full, [], "sendrecv")[1] == "NoFreeType"
    yield from lines_of("No type is left", own, [(copy.deepcopy(own), "sendrecv")])
    yield f"own {row_words(full[-1])}", "ok"
    yield "other", "ok"
    yield "round sendrecv", "NoFreeType" + "".join(f" | {row_answer(r)}" for r in full)


def random_spec(rng):
    codec = rng.choice(["opus", "opus", "PCMU", "G722", "CN", "AMR-WB", "AMR-WB", "H264", "H264", "H265", "H266", "VP8",
                        "VP9", "AV1", "telephone-event"])
    def some(**choices):
        return {k.replace("_", "-"): rng.choice(v) for k, v in choices.items() if rng.random() < 0.5}
    if codec == "opus":
        return Spec(codec, 48000, rng.choice([2, 2, 2, None]), some(minptime=[10, 20], stereo=[True, False],
                    sprop_stereo=[True, False], useinbandfec=[True, False], usedtx=[True, False]))
    if codec == "AMR-WB":
        return Spec(codec, 16000, rng.choice([1, None, None, 2]), some(octet_align=[True, False], mode_set=[1, 7]))
    if codec == "telephone-event":
        return Spec(codec, rng.choice([8000, 8000, 48000]), rng.choice([None, 1]), some(events=[4, 15, 16]))
    if codec in AUDIO:
        clock = {"G722": 16000, "PCMU": 8000}.get(codec) or rng.choice([8000, 16000])
        return Spec(codec, clock)
    if codec == "H264":
        fmt = some(packetization_mode=[0, 1], profile_level_id=[0x42001F, 0x42E01F, 0x42E028, 0x4D801F, 0x64001F, 0x12],
                   level_asymmetry_allowed=[True])
        return Spec(codec, 90000, None, fmt)
    if codec == "H265":
        fmt = rng.choice([{}, {"profile-id": rng.choice([1, 2, 257])},
                          {"h265": (rng.choice([1, 2]), rng.choice([0, 0, 1]), rng.choice([93, 120, 180]))}])
        return Spec(codec, 90000, None, {**fmt, **some(sprop_max_don_diff=[0, 3])})
    if codec == "H266":
        fmt = rng.choice([{}, {"profile-id": rng.choice([1, 33])}, {"h266": (1, 0, rng.choice([51, 96]))}])
        return Spec(codec, 90000, None, {**fmt, **some(sprop_max_don_diff=[0, 3])})
    if codec == "VP9":
        return Spec(codec, 90000, None, some(profile_id=[0, 2]))
    if codec == "AV1":
        return Spec(codec, 90000, None, some(profile=[0, 1], level_idx=[5, 8], tier=[0]))
    return Spec(codec, 90000)


def random_row(rng, types):
    def kind(chance):
        return rng.choice(types) if rng.random() < chance else None
    spec = random_spec(rng)
    is_audio = spec.codec in AUDIO
    pt = rng.choice(types) if rng.random() > 0.02 else rng.choice([128, 200])
    return Row(pt, None if is_audio else kind(0.6), kind(0.6) if is_audio else None, rng.random() < 0.7, spec)


def random_rounds(seed, count):
    rng = random.Random(seed)
    for n in range(count):
        types = rng.sample(range(128), rng.randint(6, 40))
        own, taken = [], set()
        for _ in range(rng.randint(1, 6)):
            row = random_row(rng, types)
            marks = [t for t in (row.pt, row.rtx, row.red) if t is not None]
            is_fresh = not taken & set(marks) and len(set(marks)) == len(marks)
            row.locked = rng.random() < 0.3 and (is_fresh or rng.random() < 0.05)
            if row.locked:
                taken |= set(marks)
            own.append(row)
        rounds = []
        for _ in range(rng.randint(1, 3)):
            remote = [random_row(rng, types) for _ in range(rng.randint(0, 4))]
            for r in rng.sample(own, min(len(own), 2)):
                near = copy.deepcopy(r)
                near.pt = rng.choice([near.pt, rng.choice(types)])
                remote.append(near)
            rounds.append((remote, rng.choice(["sendonly", "recvonly", "sendrecv", "inactive"])))
        yield from lines_of(f"Random rounds {n}", own, rounds)


def of_ends():
    """Rounds of the rows of two ends, and the rows and configs of one."""
    return [*by_hand(), *configs(), *rows_move_away(), *no_type_is_left(), *random_rounds(1, 300)]
