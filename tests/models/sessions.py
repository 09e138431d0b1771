"""A reader of session texts by regular expressions, a line a form, after RFC 8866 and the standards of each attribute,
with the choices that docs/SESSION_TEXTS.md tells: what each line says, as it is printed, the faults of a section, and
its rows. It shares no code with the project.
"""

import re
import unicodedata
from dataclasses import dataclass, field

CODECS = {name.lower(): name for name in [
    "opus", "PCMU", "PCMA", "G722", "CN", "AMR-WB", "H264", "H265", "H266", "VP8", "VP9", "AV1", "telephone-event",
    "rtx", "red"]}
AUDIO = ["opus", "PCMU", "PCMA", "G722", "CN", "AMR-WB"]
VIDEO = ["H264", "H265", "H266", "VP8", "VP9", "AV1"]
STATIC = {0: ("PCMU", 8000), 8: ("PCMA", 8000), 9: ("G722", 8000), 13: ("CN", 8000)}
DIRECTIONS = ["sendrecv", "sendonly", "recvonly", "inactive"]
FLAGS = ["stereo", "sprop-stereo", "useinbandfec", "usedtx", "level-asymmetry-allowed", "octet-align"]
BYTES = ["minptime", "packetization-mode", "profile", "level-idx", "tier"]
ORDER = ["minptime", "stereo", "sprop-stereo", "useinbandfec", "usedtx", "level-asymmetry-allowed",
         "packetization-mode", "profile-level-id", "profile-id", "profile", "level-idx", "tier", "h265", "h266",
         "sprop-max-don-diff", "events", "octet-align", "mode-set"]
OF_LEVELS = ["profile-id", "tier-flag", "level-id"]
# Unicode's White_Space: `str.strip` alone takes U+001C to U+001F for blanks too
BLANKS = "".join(map(chr, [*range(9, 14), 32, 0x85, 0xA0, 0x1680, *range(0x2000, 0x200B), 0x2028, 0x2029, 0x202F,
                           0x205F, 0x3000]))
LEVELS = {"h265": (range(1, 12), [30, 60, 63, 90, 93, 120, 123, 150, 153, 156, 180, 183, 186], 93),
          "h266": ([1, 33], [16, 32, 35, 48, 51, 64, 67, 80, 83, 86, 96, 99, 102, 105, 255], 51)}


@dataclass
class Attribute:
    kind: str
    text: str
    value: object = None


@dataclass
class Section:
    typ: str
    disabled: bool
    proto: str
    types: list
    bandwidth: str
    attributes: list = field(default_factory=list)

    def of(self, kind):
        return [a.value for a in self.attributes if a.kind == kind]

    def head(self):
        listed = " ".join(map(str, self.types)) or "0"
        formats = "webrtc-datachannel" if self.typ == "application" else listed
        return f"m={self.typ} {0 if self.disabled else 9} {self.proto} {formats}"


@dataclass
class Session:
    number: int
    bandwidth: str
    attributes: list
    sections: list = field(default_factory=list)

    def of(self, kind):
        return [a.value for a in self.attributes if a.kind == kind]


def lower(text):
    """Names are compared by small letters of ASCII: U+212A, which `str.lower` makes a `k`, is none."""
    return re.sub("[A-Z]", lambda m: m[0].lower(), text)


def trimmed(text):
    return text.strip(BLANKS)


def number(text, bits):
    """A number as programs read it, a plus in front or not, and zeros, however many."""
    m = re.fullmatch(r"\+?0*([0-9]{1,20})", text)
    return int(m[1]) if m and int(m[1]) < 1 << bits else None


def payload_type(text):
    value = number(text, 8)
    return value if value is not None and value <= 127 else None


def numbers(text, mark, bits):
    found = [number(part, bits) for part in text.split(mark)]
    return None if None in found else found


def cut_name(text, most):
    """A name of at most so many bytes: letters and digits of ASCII and underscores, the rest as underscores."""
    taken = text.encode()[:most]
    return "".join(chr(b) if b < 128 and (chr(b).isalnum() or b == 95) else "_" for b in taken)


def is_name(text):
    return text != "" and all(unicodedata.category(c)[0] in "LN" for c in text)


def group(value):
    value = value[:-1] if value.endswith(" ") else value
    typ, *mids = value.split(" ")
    if typ == "" or "" in mids:
        return None
    mids = [cut_name(m, 16) for m in mids]
    return " ".join(["group:" + typ, *mids]), (typ, mids)


def msid_semantic(value):
    words = value.removeprefix(" ").split(" ")
    if len(words) < 2 or "" in words:
        return None
    return "msid-semantic: " + " ".join(words), words


def fingerprint(value):
    m = re.fullmatch(r"([^ ]+) ([0-9A-Fa-f]{2}(?::[0-9A-Fa-f]{2})*)", value)
    return m and (f"fingerprint:{m[1]} {m[2].upper()}", (m[1], m[2].upper()))


def one_of(*words):
    return lambda value: (f"setup:{value}", value) if value in words else None


CANDIDATE = re.compile(
    r"([^ ]+) ([^ ]+) ([^ ]+) ([^ ]+) ([^ ]+) ([^ ]+) typ (host|prflx|srflx|relay)"
    r"(?: raddr ([^ ]+) rport ([^ ]+))?(?: tcptype (active|passive|so))?(?: generation [^ ]+)?(?: network-id [^ ]+)?"
    r"(?: ufrag ([^ ]+))?(?: network-cost [^ ]+)?")


# How a candidate was found (RFC 8839 5.1).
FOUND = {"host": "local", "srflx": "told by a server", "prflx": "told by the peer", "relay": "of a relay"}


def candidate(value):
    m = CANDIDATE.fullmatch(value)
    if not m:
        return None
    foundation, component, proto, priority, address, port, kind, raddr, rport, tcptype, ufrag = m.groups()
    read = [number(component, 16), number(priority, 32), number(port, 16), number(rport or "0", 16)]
    if None in read or lower(proto) not in ("udp", "tcp", "ssltcp", "tls"):
        return None
    text = f"candidate:{foundation} {read[0]} {lower(proto)} {read[1]} {address} {read[2]} typ {kind}"
    text += f" raddr {raddr} rport {read[3]}" if raddr else ""
    text += f" tcptype {tcptype}" if tcptype else ""
    text += f" ufrag {ufrag}" if ufrag else ""
    related = f"{raddr} port {read[3]}" if raddr else "-"
    return text, (address, read[2], lower(proto), FOUND[kind], related, tcptype or "-", ufrag or "-")


def whole(name):
    return lambda value: (f"{name}:{value}", value) if value else None


def sized(name, bits):
    def read(value):
        n = number(value, bits)
        return None if n is None else (f"{name}:{n}", n)
    return read


def mid(value):
    return (f"mid:{cut_name(value, 16)}", cut_name(value, 16)) if value else None


def extmap(value):
    m = re.fullmatch(r"([^ /]+)(?:/[^ ]+)? ([^ ]+)(?: .+)?", value)
    n = m and number(m[1], 8)
    return None if n is None else (f"extmap:{n} {m[2]}", (n, m[2]))


def msid(value):
    m = re.fullmatch(r"([^ ]+) (.+)", value)
    return m and (f"msid:{value}", value)


def rtpmap(value):
    m = re.fullmatch(r"([^ ]+) ([^/]+)/([^/]+)(?:/(.+))?", value)
    if not m:
        return None
    pt, rate, channels = payload_type(m[1]), number(m[3], 32), number(m[4] or "1", 8)
    if pt is None or not rate or channels is None:
        return None
    codec = CODECS.get(lower(m[2]), "unknown")
    channels = None if m[4] is None else channels
    return f"rtpmap:{pt} {codec}/{rate}" + (f"/{channels}" if m[4] else ""), (pt, codec, rate, channels)


def rtcp_fb(value):
    m = re.fullmatch(r"([^ ]+) (.+)", value)
    pt = m and payload_type(m[1])
    return None if pt is None else (f"rtcp-fb:{pt} {m[2]}", (pt, m[2]))


def param(key, value):
    """A parameter by its key: the key and what it is, none where it says nothing that is known."""
    key, byte, word = lower(key), number(value, 8), number(value, 32)
    if key in FLAGS:
        return key, int(value == "1")
    if key in BYTES or key == "apt":
        return None if byte is None else (key, byte)
    if key == "profile-level-id":
        hexadecimal = re.fullmatch(r"\+?[0-9A-Fa-f]+", value) and int(value, 16) < 1 << 32
        return (key, int(value, 16)) if hexadecimal else word and (key, word)
    if key == "profile-id":
        return None if word is None else (key, word)
    if key == "sprop-max-don-diff":
        return (key, word) if word is not None and word <= 32767 else None
    if key == "mode-set":
        modes = numbers(",".join(trimmed(mode) for mode in value.split(",")), ",", 8)
        return (key, sum(1 << m for m in set(modes))) if modes is not None and max(modes) <= 8 else None
    unsupported = [("crc", "1"), ("robust-sorting", "1"), ("mode-change-period", "2")]
    return ("unsupported", 0) if (key, value) in unsupported or key == "interleaving" else None


def level(given):
    """A profile, tier and level of H.265, else of H.266, by their keys."""
    for name, (profiles, levels, usual) in LEVELS.items():
        read = [number(given.get(key, str(other)), 8)
                for key, other in zip(OF_LEVELS, [1, 0, usual])]
        if read[0] in profiles and read[1] in (0, 1) and read[2] in levels:
            return [(name, tuple(read))]
    return []


def params_of(pairs):
    if not any(lower(key) in OF_LEVELS[1:] for key, _ in pairs):
        return [param(*pair) for pair in pairs]
    once = {}
    for key, value in pairs:
        once[lower(key)] = value
    return level(once) + [param(*pair) for pair in once.items() if pair[0] not in OF_LEVELS]


def param_text(given):
    if given is None or given[0] == "unsupported":
        return ""
    key, value = given
    if key in LEVELS:
        return "profile-id=%d;tier-flag=%d;level-id=%d" % value
    if key == "mode-set":
        return "mode-set=" + ",".join(str(m) for m in range(9) if value >> m & 1)
    texts = {"events": f"0-{value}", "red": f"{value}/{value}", "profile-level-id": f"{key}={value:06x}"}
    return texts.get(key, f"{key}={value}")


def fmtp_params(text):
    pairs, at = [], 0
    pair = re.compile(r"[ \t]*([^= \t]+)=([^; \t]+)[ \t]*(?:;|\Z)")
    while m := pair.match(text, at):
        pairs.append((m[1], m[2]))
        at = m.end()
    if pairs and not text[at:].strip(" \t"):
        return params_of(pairs)
    types = numbers(text, "/", 8)
    if "/" in text and types is not None:
        return [("red", types[0])]
    m = re.fullmatch(r"0-0*([0-9]{1,3})", text)
    return [("events", int(m[1]))] if m and int(m[1]) < 256 else [None]


def fmtp(value):
    first, blank, text = value.partition(" ")
    pt = payload_type(first)
    if pt is None:
        return None
    params = fmtp_params(text) if blank else [None]
    return f"fmtp:{pt} " + ";".join(map(param_text, params)) if params else None, (pt, params)


def restrictions(text):
    pairs, at = [], 0
    pair = re.compile(r"[ \t]*([^= \t]+)=([^; \t]+)(?:;|\Z)")
    while m := pair.match(text, at):
        pairs.append(f"{m[1]}={m[2]}")
        at = m.end()
    return None if at < len(text) or text.endswith(";") else pairs


def rid(value):
    m = re.fullmatch(r"([^ ]+) (send|recv)(?: (?:pt=([^ ]*)(?: (.+))?|(|[^p].*)))?", value)
    if not m or not is_name(m[1]):
        return None
    pt = payload_type(m[3]) if m[3] is not None else None
    pairs = restrictions(m[4] or m[5] or "")
    if pairs is None or (m[3] is not None and pt is None):
        return None
    types = "" if pt is None else f" pt={pt}"
    text = f"rid:{m[1]} {m[2]}{types}" + ((";" if types else " ") + ";".join(pairs) if pairs else "")
    return text, m[1]


def simulcast(value):
    m = re.fullmatch(r"(send|recv) ([^ ]+)(?: (send|recv) ([^ ]+))?", value)
    if not m or m[1] == m[3]:
        return None
    layers = {m[1]: m[2], m[3]: m[4]}
    layers = {way: [alternatives.split(",") for alternatives in text.split(";")] for way, text in layers.items() if way}
    if not all(is_name(name.removeprefix("~")) for way in layers.values() for many in way for name in many):
        return None
    first = {way: ";".join(many[0] for many in groups) for way, groups in layers.items()}
    ways = [f"{way} {first[way]}" for way in ("send", "recv") if way in first]
    return "simulcast:" + " ".join(ways), (first.get("send", ""), first.get("recv", ""))


def ssrc_group(value):
    semantics, _, listed = value.partition(" ")
    sources = numbers(listed, " ", 32)
    if semantics == "" or sources is None:
        return None
    return f"ssrc-group:{semantics} " + " ".join(map(str, sources)), (semantics, sources)


def ssrc(value):
    m = re.fullmatch(r"([^ ]+) ([^:]+):(.+)", value)
    source = m and number(m[1], 32)
    return None if source is None else (f"ssrc:{source} {m[2]}:{m[3]}", (source, m[2], m[3]))


BOTH = {"ice-ufrag": whole("ice-ufrag"), "ice-pwd": whole("ice-pwd"), "ice-options": whole("ice-options"),
        "fingerprint": fingerprint, "setup": one_of("actpass", "active", "passive"), "candidate": candidate}
OF_SESSION = {**BOTH, "group": group, "msid-semantic": msid_semantic}
OF_SECTION = {**BOTH, "mid": mid, "sctp-port": sized("sctp-port", 16), "sctp-init": whole("sctp-init"),
              "max-message-size": sized("max-message-size", 64), "extmap": extmap, "msid": msid, "rtcp": whole("rtcp"),
              "rtpmap": rtpmap, "rtcp-fb": rtcp_fb, "fmtp": fmtp, "rid": rid, "simulcast": simulcast,
              "ssrc-group": ssrc_group, "ssrc": ssrc}
WORDS_OF_SESSION = ["ice-lite", "end-of-candidates"]
WORDS_OF_SECTION = [*DIRECTIONS, "rtcp-mux", "rtcp-mux-only", "rtcp-rsize", "end-of-candidates"]


def attribute(text, kinds, words):
    if text in words:
        return Attribute(text, "a=" + text, True)
    kind, colon, value = text.partition(":")
    said = kinds[kind](value) if colon and kind in kinds else None
    if said:
        return Attribute(kind, f"a={said[0]}" if said[0] is not None else "", said[1])
    return Attribute("unused", "a=" + text) if text else None


class Lines:
    """The lines of a text, and how far they are read."""

    def __init__(self, text):
        self.text, self.at = text, 0

    def take(self, pattern, made=lambda m: m):
        """What is made of the next line, if the line is of this form, and something is made of it."""
        line = re.compile(r"([^\r\n]+)(?:\r?\n|\Z)").match(self.text, self.at)
        m = line and re.fullmatch(pattern, line[1])
        value = made(m) if m else None
        if value is not None:
            self.at = line.end()
        return value

    def many(self, pattern, made=lambda m: m):
        found = []
        while (value := self.take(pattern, made)) is not None:
            found.append(value)
        return found

    def left(self):
        return len(self.text[self.at:].encode())


def bandwidth(lines):
    return lines.take(r"b=([^:]+):(.+)", lambda m: f"{m[1]}:{m[2]}")


def session_of(lines):
    """The session in front of the sections, or none."""
    if not lines.take("v=0"):
        return None
    origin = lines.take(r"o=[^ ]+ ([0-9]+) .+", lambda m: number(m[1], 64))
    if origin is None or not lines.take("s=.+"):
        return None
    lines.many("[iuepczk]=.+")
    given = bandwidth(lines)
    if not lines.take("t=0 0"):
        return None
    lines.many("r=.+")
    return Session(origin, given, lines.many("a=(.*)", lambda m: attribute(m[1], OF_SESSION, WORDS_OF_SESSION)))


def section_head(m):
    typ, port, proto, listed = m.groups()
    known = ("audio", "video", "application")
    if typ not in known and typ.startswith(known):
        return None
    proto = {"DTLS/SCTP": "UDP/DTLS/SCTP"}.get(proto, proto)
    return None if listed.startswith(" ") else Section(typ, port == "0", proto, numbers(listed, " ", 8) or [], None)


def section_of(lines):
    section = lines.take("m=([^ ]+) ([^ ]+) (UDP/TLS/RTP/SAVPF|DTLS/SCTP|UDP/DTLS/SCTP) (.*)", section_head)
    if section is None:
        return None
    lines.take("c=.+")
    section.bandwidth = bandwidth(lines)
    section.attributes = lines.many("a=(.*)", lambda m: attribute(m[1], OF_SECTION, WORDS_OF_SECTION))
    return section


def fault_of(section):
    """What is wrong with a section first, or none."""
    mapped = [pt for pt, *_ in section.of("rtpmap")]
    is_rtp = section.proto == "UDP/TLS/RTP/SAVPF"
    apts = {}
    for pt, params in section.of("fmtp"):
        apts.setdefault(pt, set()).update(p[1] for p in params if p and p[0] == "apt")
    tests = [
        ("a section without a=mid", not section.of("mid")),
        ("a section with several a=mid", len(section.of("mid")) > 1),
        ("a section with several a=setup", len(section.of("setup")) > 1),
        ("a section without exactly one direction",
         is_rtp and len([a for a in section.attributes if a.kind in DIRECTIONS]) != 1),
        ("a section without payload types", is_rtp and not section.types and not section.disabled),
        ("a section with a payload type that isn't mapped once",
         any(mapped.count(pt) != 1 and not (pt in STATIC and pt not in mapped) for pt in section.types)),
        ("a section with a payload type that repairs several", any(len(named) > 1 for named in apts.values()))]
    return next((words for words, is_so in tests if is_so), None)


def faulty_line(text):
    """The line at which a text can't be read on, with its number and what is wrong there, or none."""
    lines = Lines(text)

    def line_at(at, fault):
        line = text[at:].split("\n")[0].removesuffix("\r")
        return f"line {text[:at].count(chr(10)) + 1}: {fault}" + (f": {line}" if line else "")

    if session_of(lines) is None:
        read_on = text[:lines.at].count("\n")
        return line_at(lines.at, ["not v=0", "no valid o=", "no s= with a name", "not t=0 0"][min(read_on, 3)])
    at = lines.at
    while (section := section_of(lines)) is not None:
        if (fault := fault_of(section)) is not None:
            return line_at(at, fault)
        at = lines.at
    return line_at(at, "fits nowhere") if lines.left() else None


def read(text):
    """A session text and the bytes that are left, or none."""
    lines = Lines(text)
    session = session_of(lines)
    if session is None:
        return None
    while (section := section_of(lines)) is not None:
        session.sections.append(section)
    return None if any(map(fault_of, session.sections)) else (session, lines.left())


def printed(session):
    """The text that a session is printed as."""
    yield from ["v=0", f"o=str0m-0.25.0 {session.number} 2 IN IP4 0.0.0.0", "s=-"]
    yield from [f"b={session.bandwidth}"] * (session.bandwidth is not None)
    yield "t=0 0"
    yield from [a.text for a in session.attributes if a.text]
    for section in session.sections:
        yield from [section.head(), "c=IN IP4 0.0.0.0"]
        yield from [f"b={section.bandwidth}"] * (section.bandwidth is not None)
        yield from [a.text for a in section.attributes if a.text]


def format_text(given):
    return [param_text((key, given[key])) for key in ORDER if key in given]


def format_of(section, codec, pt):
    """The format that the lines of a type give, or none where it is declined."""
    lines = [params for given, params in section.of("fmtp") if given == pt]
    if codec == "telephone-event":
        if not lines:
            return {"events": 16}
        is_range = len(lines) == 1 and len(lines[0]) == 1 and lines[0][0] and lines[0][0][0] == "events"
        return dict(lines[0]) if is_range else None
    given = [p for params in lines for p in params if p]
    if codec == "AMR-WB" and any(key == "unsupported" for key, _ in given):
        return None
    return {key: value for key, value in given if key not in ("events", "red", "apt", "unsupported")}


def rows(section):
    """The rows that a section lists, as they are told."""
    maps = section.of("rtpmap")
    mapped = [pt for pt, *_ in maps]
    for pt in dict.fromkeys(section.types):
        if pt in STATIC and pt not in mapped:
            maps = [*maps, (pt, *STATIC[pt], None)]
    links = {"rtx": {}, "red": {}}
    for by, params in section.of("fmtp"):
        for codec, key in [("rtx", "apt"), ("red", "red")]:
            if any(pt == by and name == codec for pt, name, *_ in maps):
                links[codec].update({p[1]: by for p in params if p and p[0] == key})
    for pt, codec, rate, channels in maps:
        is_tele = codec == "telephone-event" and pt in section.types
        given = format_of(section, codec, pt)
        if not (codec in AUDIO or codec in VIDEO or is_tele) or given is None:
            continue
        if codec == "G722":
            rate, channels = 16000, None if channels == 1 else channels
        asked = [value for given_pt, value in section.of("rtcp-fb") if given_pt == pt]
        flags = [name if words in asked or (codec in VIDEO and name != "cc") else "-" for name, words in [
            ("cc", "transport-cc"), ("nack", "nack"), ("pli", "nack pli"), ("fir", "ccm fir"), ("remb", "goog-remb")]]
        red = links["red"].get(pt) if codec in AUDIO else None
        told = [pt, codec, rate, channels, ";".join(format_text(given)) or None, *flags, links["rtx"].get(pt), red]
        yield " ".join("-" if part is None else str(part) for part in told)
