#!/usr/bin/env python3
"""Holds the stored run of `browser_lines` beside what the standards say of answers, of offers and of rejected sections.

Each text that a browser gets for its offer has the offer's sections in their order and under their names (RFC 3264 6,
RFC 8829 5.3.1). One that the end never sees, as it is of data, of port 0, has no request, or has no codec in common,
is rejected: of port 0, without direction both ways, without lines of the transport, and in no bundle (RFC 9143 7.3.3).
Each other one has a direction that the offer and the request allow (RFC 3264 6.1), types of this section of the offer
alone, in its order and with the meaning that they have there (RFC 3264 6.1): codec, profile, mode of packets, the type
that they repair or add redundancy to, and feedback (RFC 4588 8.1, RFC 2198 5, RFC 4585 4.2); extensions of the offer
alone (RFC 8285 6), and the transport's lines behind its name. One whose codecs an earlier section has under other
types may only receive. What the end agreed on in a section is what its text lists. What an end is handed has each
parameter that it knows, and no other (RFC 8866 6.15). An end's own offer has the sections of the last text in their
places, except where the last exchange has port 0: there are the new ones, in order, and those that are left follow
(RFC 3264 8.1, RFC 8829 5.2.2). The version of `o=` is that of the last text where the two are the same, and the next
one where they aren't (RFC 3264 8). Sources have the CNAME, and sections that send the tracks, that were given (RFC
7022, RFC 8830 2). Prints what isn't so, and ends with status 1 then. It shares no code with the project.
"""
import re
import sys
from pathlib import Path

CRATE = Path(__file__).resolve().parent.parent.parent / "crates" / "browser_lines"
WAYS = {"sendrecv": (True, True), "sendonly": (True, False), "recvonly": (False, True), "inactive": (False, False)}
TRANSPORT = ("ice-ufrag", "ice-pwd", "ice-options", "candidate", "end-of-candidates", "fingerprint", "setup", "rtcp-mux")


def parts(text):
    """The lines before the first section, and those of each section."""
    lines = [line.rstrip("\r") for line in text.split("\n") if line.strip()]
    starts = [k for k, line in enumerate(lines) if line.startswith("m=")] + [len(lines)]
    return lines[:starts[0]], [lines[a:b] for a, b in zip(starts, starts[1:])]


def named(sections):
    """The sections of a browser, each with a name: one without has that of its place."""
    return [lines if values(lines, "mid") else lines + [f"a=mid:place_{k}"] for k, lines in enumerate(sections)]


def values(lines, name):
    """What stands behind `a=NAME:`, or an empty text behind `a=NAME`, a line each."""
    return [(line[len(name) + 2:])[1:] for line in lines if re.fullmatch(rf"a={re.escape(name)}(:.*)?", line)]


def way(lines):
    return next((WAYS[word] for word in (line[2:] for line in lines) if word in WAYS), WAYS["sendrecv"])


def meanings(lines):
    """What each listed type means: its `a=rtpmap` in small letters, without the one channel that goes without saying
    (RFC 8866 6.6)."""
    maps = dict(value.split(" ", 1) for value in values(lines, "rtpmap"))
    return {pt: maps.get(pt, "").lower().removesuffix("/1") for pt in lines[0].split()[3:]}


def bundle(lines):
    return [value.split()[1:] for value in values(lines, "group") if value.startswith("BUNDLE")]


def parameters(text):
    """The keys in small letters, each with its value, of the parts that have one."""
    pairs = [part.split("=", 1) for part in text.split(";") if re.fullmatch(r"[ \t]*[^ \t=]+=[^ \t]+[ \t]*", part)]
    return [(key.strip().lower(), value.strip()) for key, value in pairs]


def formats(lines, pt):
    return dict(pair for value in values(lines, "fmtp") if value.split(" ", 1)[0] == pt
                for pair in parameters(value.partition(" ")[2]))


def shape(lines, pt):
    """What both sides have alike: profile and mode of packets (RFC 6184 8.2.2, RFC 9628 7, RFC 7798 7.1)."""
    codec, said = meanings(lines)[pt].split("/")[0], formats(lines, pt)
    if codec == "h264":
        return said.get("packetization-mode", "0"), said.get("profile-level-id", "42")[:2]
    if codec in ("vp9", "h265", "av1"):
        return (said.get("profile" if codec == "av1" else "profile-id", {"h265": "1"}.get(codec, "0")),)
    if codec == "rtx":
        return (said.get("apt"),)
    if codec == "red":
        return tuple(value.split(" ")[1].split("/")[0] for value in values(lines, "fmtp") if value.split(" ")[0] == pt)
    return ()


def feedback(lines, pt):
    return {value.split(" ", 1)[1] for value in values(lines, "rtcp-fb") if value.split(" ", 1)[0] in (pt, "*")}


KNOWN = {"minptime", "stereo", "sprop-stereo", "useinbandfec", "usedtx", "level-asymmetry-allowed", "tier-flag",
         "packetization-mode", "profile-level-id", "profile-id", "profile", "level-idx", "tier", "level-id", "apt",
         "sprop-max-don-diff", "octet-align", "mode-set"}
CODECS = {"opus", "pcmu", "pcma", "g722", "cn", "telephone-event", "vp8", "vp9", "av1", "h264", "h265"}


def in_use(offered, bundled):
    """Whether a section of an offer is audio or video, and not rejected (RFC 9143 6 has port 0 with `bundle-only`), nor
    outside of the bundle, with a transport of its own (RFC 9143 7.3)."""
    kind, port = offered[0][2:].split()[:2]
    named = values(offered, "mid")[0] in bundled
    return (kind in ("audio", "video") and (named or not bundled)
            and (port != "0" or (named and bool(values(offered, "bundle-only")))))


def requests_of(command, words, offered, bundled):
    """The request for each section: by place, or, of `ask`, by its name or kind."""
    if command == "offer":
        return words + [None] * len(offered)
    asked = [word.split("=", 1) for word in words]
    given = []
    for lines in offered:
        names = [values(lines, "mid")[0], lines[0][2:].split()[0]] if in_use(lines, bundled) else []
        found = next((a for name in names for a in asked if a[0] == name), None)
        if found:
            asked.remove(found)
        given.append(found[1] if found else None)
    return given


def is_seen(offered, request, bundled):
    """Whether the end sees the section of an offer."""
    has_codec = any(meaning.split("/")[0] in CODECS for meaning in meanings(offered).values())
    return in_use(offered, bundled) and request not in (None, "reject") and has_codec


def faults_of_rejected(given):
    """What a rejected section must not have."""
    if given[0].split()[1] != "0":
        yield "its port isn't 0"
    if given[0].startswith(("m=audio", "m=video")) and way(given) != (False, False):
        yield "it isn't inactive"
    yield from (f"it has a={name}" for name in TRANSPORT if values(given, name))


def faults_of_transport(given):
    name = next(k for k, line in enumerate(given) if line.startswith("a=mid:"))
    behind = [re.match(r"a=([^:]*)", line).group(1) for line in given[name + 1:name + 7]]
    if given[0].split()[1] != "9" or behind[:2] != ["ice-ufrag", "ice-pwd"]:
        yield "the transport doesn't stand behind its name"


def is_renamed(offered, earlier):
    """Whether an earlier section has a codec of this one under a type that this one doesn't have."""
    here, there = meanings(offered), [meanings(lines) for lines in earlier]
    return any(meaning in maps.values() and maps.get(pt) != meaning for pt, meaning in here.items() for maps in there)


def faults_of_kept(offered, request, given, renamed):
    """What a section that is answered must not say."""
    yield from faults_of_transport(given)
    (they_send, they_receive), (sends, receives) = way(offered), WAYS[request.split(":")[0]]
    ways = [(sends and they_receive, receives and they_send)]
    if renamed:
        ways.append((False, receives and they_send))
    if way(given) not in ways:
        yield "another direction"
    there, here = meanings(offered), meanings(given)
    for pt, meaning in here.items():
        if pt not in there or meaning != there[pt] or shape(given, pt) != shape(offered, pt):
            yield f"type {pt} means something else in the offer"
        for words in feedback(given, pt) - feedback(offered, pt):
            yield f"type {pt} has {words}, which isn't offered"
    if list(here) != [pt for pt in there if pt in here]:
        yield "types in another order"
    extensions = {value.split()[0].split("/")[0]: value.split()[1] for value in values(offered, "extmap")}
    for value in values(given, "extmap"):
        if extensions.get(value.split()[0]) != value.split()[1]:
            yield f"extension {value} isn't in the offer"


def faults_of_sections(command, words, head, offered, given):
    """What is wrong with the sections of a text that a browser gets for its offer."""
    bundled = sum(bundle(head), [])
    if [values(lines, "mid") for lines in offered] != [values(lines, "mid") for lines in given]:
        yield "other sections, or in another order"
        return
    requests = requests_of(command, words, offered, bundled)
    for place, (there, request, here) in enumerate(zip(offered, requests, given)):
        earlier = [lines for lines, asked in zip(offered[:place], requests) if is_seen(lines, asked, bundled)]
        renamed = is_renamed(there, earlier)
        if is_seen(there, request, bundled) and not (renamed and here[0].split()[1] == "0"
                                                     and not WAYS[request.split(":")[0]][1]):
            yield from faults_of_kept(there, request, here, renamed)
        else:
            yield from faults_of_rejected(here)


def types(lines):
    """The types of a section, as `96 rtx 97`."""
    maps = meanings(lines)
    linked = {role: {formats(lines, pt).get("apt") or (shape(lines, pt) + ("",))[0]: pt for pt, meaning in maps.items()
                     if meaning.split("/")[0] == role} for role in ("rtx", "red")}
    return [pt + "".join(f" {role} {linked[role][pt]}" for role in linked if pt in linked[role])
            for pt, meaning in maps.items() if meaning.split("/")[0] in CODECS]


def faults_of_agreed(text, listed):
    """What an end agreed on in the sections of the last text that it gave a browser, which are in use."""
    sections = {values(lines, "mid")[0]: lines for lines in parts(text)[1] if lines[0].split()[1] != "0"}
    for line in listed:
        name, _, said = line.strip().partition(":")
        if name in sections and sorted(re.findall(r"\d+(?: (?:rtx|red) \d+)*", said)) != sorted(types(sections[name])):
            yield f"section {name} isn't agreed on as it is listed"


def faults_of_handed(offer, text):
    """What isn't handed on of known parameters, or is of others."""
    there = {values(lines, "mid")[0]: lines for lines in named(parts(offer)[1])}
    for lines in parts(text)[1]:
        old = there.get(values(lines, "mid")[0], [])
        for value in values(lines, "fmtp"):
            pt, _, said = value.partition(" ")
            before = [v.partition(" ")[2] for v in values(old, "fmtp") if v.partition(" ")[0] == pt]
            if any(k in KNOWN for k, _ in parameters(before[0] if before else "")) \
                    and not all(k in KNOWN for k, _ in parameters(said)):
                yield f"type {pt} has unknown parameters"
            wanted = {k for k, v in parameters(before[0] if before else "") if k in KNOWN and v != "999"}
            if wanted != {k for k, _ in parameters(said)}:
                yield f"type {pt} has other parameters"


def faults_of_own(call, words, given):
    """What is wrong with the sections of an end's own offer, in which those that no exchange had are new."""
    new = [mid for mid in (word.split(":")[0] for word in words) if mid not in call.known]
    wanted = list(call.names)
    for place in call.rejected:
        if new:
            wanted[place] = new.pop(0)
    if [values(lines, "mid")[0] for lines in given] != wanted + new:
        yield "other places"
    for lines in given:
        yield from faults_of_rejected(lines) if lines[0].split()[1] == "0" else faults_of_transport(lines)


def faults_of_identity(identity, given):
    """What is wrong with CNAMEs and tracks."""
    cname, tracks = identity
    for lines in given:
        for value in values(lines, "ssrc"):
            if value.split(" ", 1)[1] != f"cname:{cname}":
                yield f"another CNAME in {value}"
        if values(lines, "msid") != (tracks.get(values(lines, "mid")[0], []) if way(lines)[0] else []):
            yield "other tracks"


def version_of(text):
    return int(re.search(r"^o=\S+ \d+ (\d+) ", text, re.MULTILINE).group(1))


def without_version(text):
    return re.sub(r"^(o=\S+ \d+) \d+ ", r"\1 ", text, flags=re.MULTILINE)


class Call:
    """What is known of an end and its browser."""

    def __init__(self):
        self.text, self.names, self.identity = None, [], ("str0m", {})
        self.rejected, self.known, self.own = [], set(), []

    def exchanged(self, names, sections):
        """An exchange whose answer has these sections, under these names; those in use are the end's from then on."""
        self.names = names
        self.rejected = [k for k, lines in enumerate(sections) if lines[0].split()[1] == "0"]
        self.known |= {name for k, name in enumerate(names) if k not in self.rejected}

    def faults(self, command, words, text):
        """What is wrong with a text for the browser."""
        head, given = parts(text)
        if command == "own":
            yield from faults_of_own(self, words, given)
            self.own = [word.split(":")[0] for word in words]
        else:
            offer = (CRATE / "data" / words[0]).read_text(encoding="utf-8")
            offer_head, offered = parts(offer)
            offered = named(offered)
            yield from faults_of_sections(command, words[1:], offer_head, offered, given)
            if values(offer_head, "extmap-allow-mixed") and not values(head, "extmap-allow-mixed"):
                yield "extensions may no longer be mixed"
            self.exchanged([values(lines, "mid")[0] for lines in given], given)
        if bundle(head) != [[values(lines, "mid")[0] for lines in given if lines[0].split()[1] != "0"]]:
            yield "the bundle doesn't name the sections in use"
        yield from faults_of_identity(self.identity, given)
        same = self.text and without_version(self.text) == without_version(text)
        if self.text and version_of(text) != version_of(self.text) + (0 if same else 1):
            yield "another version"
        self.text = text


def main():
    run = (CRATE / "stdout").read_text(encoding="utf-8")
    count, wrong, call = 0, False, Call()
    for line, text in re.findall(r"^([^ \n][^\n]*)\n((?:  [^\n]*\n)*)", run, re.MULTILINE):
        command, *words = line.split()
        if command == "end":
            call = Call()
        elif command == "identity":
            call.identity = (words[1], {})
        elif command == "track":
            call.identity[1].setdefault(words[0], []).append(" ".join(words[1:]))
        elif command in ("agreed", "handed") and not text.startswith("  refused"):
            shown = re.sub(r"^  ", "", text, flags=re.MULTILINE)
            for fault in (faults_of_agreed(call.text or "", shown.split("\n")[:-1]) if command == "agreed" else
                          faults_of_handed((CRATE / "data" / words[0]).read_text(encoding="utf-8"), shown)):
                print(f"{line}: {fault}")
                wrong = True
        elif command == "answer" and not text.startswith("  refused"):
            given = parts((CRATE / "data" / words[0]).read_text(encoding="utf-8"))[1]
            call.exchanged([values(lines, "mid")[0] for lines in given], given)
            call.known |= set(call.own)
        elif command in ("offer", "ask", "own") and text and not text.startswith("  refused"):
            count += 1
            for fault in call.faults(command, words, re.sub(r"^  ", "", text, flags=re.MULTILINE)):
                print(f"{line}: {fault}")
                wrong = True
    print(f"{count} texts")
    sys.exit(wrong)


if __name__ == "__main__":
    main()
