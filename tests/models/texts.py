#!/usr/bin/env python3
"""Writes what `crates/sdp_lines` reads and must answer: commands on session texts and their replies, which are kept in
`texts.txt` beside this script, each command behind `> ` and its reply below it. They are copied part by part, each with
the comment above it. Before that each reply is compared with what the reader of `sessions.py`, which shares no code
with the project, says of the text. Behind them stand rows and formats that come alone, and rounds (`rounds.py`).

Run it with `python3 tests/models/texts.py`. It tells which replies differ, and writes nothing then.
"""

import re
import sys
from pathlib import Path

import rounds
import sessions
from sessions import DIRECTIONS, ORDER, fingerprint, lower, param, param_text, printed, read, trimmed

CRATE = Path(__file__).resolve().parents[2] / "crates/sdp_lines"
READ = CRATE / "data"
ALONE = ("candidate", "fingerprint", "setup", "parameters")
PARTS = (("text", "prefixes", "session", "faulty"), ("printed", "offer", "answer"),
         ("attributes", "directed", "listed"), ("says",), ALONE)  # a command that isn't known stands in the first
TEXTS = Path(__file__).with_name("texts.txt")


def first(values):
    return values[0] if values else None


def preference(name):
    return {"sha-256": 0, "sha-1": 1}.get(lower(name), 2)


def preferred(prints):
    best = min(prints, key=lambda p: preference(p[0]), default=None)
    return best and " ".join(best)


def creds(part):
    pair = [first(part.of("ice-ufrag")), first(part.of("ice-pwd"))]
    return None if None in pair else " ".join(pair)


def directions(section):
    return [a.kind for a in section.attributes if a.kind in DIRECTIONS]


def candidates(session):
    parts = [session, *session.sections]
    return list(dict.fromkeys(a.text[2:] for p in parts for a in p.attributes if a.kind == "candidate"))


def bundled(session):
    return first([mids for typ, mids in session.of("group") if typ == "BUNDLE"])


def sctp_init(session):
    data = first([s for s in session.sections if s.typ == "application"])
    return data and first(data.of("sctp-init"))


def is_whole(session):
    mids = [s.of("mid")[0] for s in session.sections]
    group = first([mids for _, mids in session.of("group")])
    if group is None or len(set(mids)) < len(mids):
        return False
    return group == [m for m, s in zip(mids, session.sections) if not s.disabled or m in group]


def sources(section):
    said = {source: {} for source, *_ in section.of("ssrc")}
    repaired = [pair for word, pair in section.of("ssrc-group") if lower(word) == "fid" and len(pair) == 2]
    for source, word, value in section.of("ssrc"):
        words = value.split(" ")
        if lower(word) == "cname":
            said[source]["of"] = value
        if lower(word) == "msid":
            said[source]["in"] = words[0]
            said[source].update({"track": words[1]} if len(words) > 1 else {})
    for source, repairing in repaired:
        said.setdefault(repairing, {})["repairs"] = source
    for source, words in said.items():
        told = [(word, words.get(word)) for word in ("repairs", "of", "in", "track")]
        given = [(word, v if word in ("repairs", "of") else trimmed(v)) for word, v in told if v is not None]
        yield f"    source {source}" + "".join(
            f" {word} {v}" for word, v in given if v != "-" or word not in ("in", "track"))


def said_text(session, left):
    def unused(part):
        return sum(a.kind == "unused" for a in part.attributes)
    yield (f"session {session.number}, {len(session.attributes)} attributes, {unused(session)} unused, "
           f"{left} bytes left")
    for s in session.sections:
        yield f"  section: {len(s.types)} types, {len(s.attributes)} attributes, {unused(s)} unused"
        yield from sources(s)
    apart = "" if is_whole(session) else ", parts apart"
    yield (f"  whole: {len(candidates(session))} candidates, {len(bundled(session) or [])} bundled, "
           f"sctp-init {sctp_init(session) or 'none'}{apart}")


def said_printed(text, session):
    lines, own = list(printed(session)), re.split("\r?\n", text)
    again = read("".join(line + "\r\n" for line in lines))
    is_alike = again is not None and again[1] == 0 and list(printed(again[0])) == lines
    kept = sum(line in own for line in lines)
    yield (f"{kept} of {len(lines)} lines as they stood, read again {'alike' if is_alike else 'otherwise'}, "
           "the same true, a copy the same true")


def said_attributes(session):
    yield f"{len(session.sections)} sections"
    for part in [session, *session.sections]:
        if part is not session:
            yield "  " + part.head()
        for a in part.attributes:
            yield f"    {'unused ' if a.kind == 'unused' else ''}{a.text or '-'}"


def said_rows(session):
    yield f"{len(session.sections)} sections"
    for s in session.sections:
        listed = list(sessions.rows(s))
        yield f"  section: {len(listed)} rows"
        yield from ("    " + row for row in listed)


def given(before, pairs):
    return [f"{before}{word} {value}" for word, value in pairs if value is not None]


def said_says(session):
    yield f"{len(session.sections)} sections"
    yield from given("  session: ", [("ice", creds(session)), ("fingerprint", preferred(session.of("fingerprint"))),
                                     ("setup", first(session.of("setup")))])
    yield from [f"  session: {word}" for word in ("ice-lite", "end-of-candidates") if session.of(word)]
    yield from [f"  session: {n} candidates" for n in [len(session.of("candidate"))] if n]
    for s in session.sections:
        yield f"  section {s.of('mid')[0]}: direction {first(directions(s)) or 'inactive'}"
        yield from given("    ", [("msid", first(s.of("msid")))])
        for groups in s.of("simulcast")[-1:]:
            for way, layers in zip(("send", "recv"), groups):
                yield from [f"    simulcast {way} {layer}" for layer in layers.split(";") if layer]
        yield from given("    ", [
            ("ice", creds(s)), ("fingerprint", preferred(s.of("fingerprint"))), ("setup", first(s.of("setup"))),
            ("sctp-init", first(s.of("sctp-init"))), ("max-message-size", first(s.of("max-message-size")))])
        yield from ["    end-of-candidates"] * bool(s.of("end-of-candidates"))
        yield from [f"    extmap {n} {uri}" for n, uri in s.of("extmap")]
        yield from [f"    rid {sessions.cut_name(name, 8)}" for name in s.of("rid")]
        yield from [f"    restricted {name}" for name in s.of("rid")]
        yield from [f"    {n} candidates" for n in [len(s.of("candidate"))] if n]
    prints = first([p.of("fingerprint") for p in [session, *session.sections] if p.of("fingerprint")]) or []
    parts = [session, *session.sections]
    yield from given("  whole: ", [
        ("ice", first([c for p in parts if (c := creds(p))])), ("fingerprint", preferred(prints)),
        ("setup", first([v for p in parts for v in p.of("setup")])), ("sctp-init", sctp_init(session))])
    if (mids := bundled(session)) is not None:
        yield "  whole: " + " ".join(["bundle", *mids])
    yield from [f"  whole: {c}" for c in candidates(session)]


def said_directed(session, word):
    yield f"{len(session.sections)} sections"
    for s in session.sections:
        ways = directions(s)
        ways[:1] = [word if word in DIRECTIONS else "inactive"] * bool(ways)
        yield "  section: " + " ".join([first(ways) or "inactive", *(f"a={way}" for way in ways)])


def of_text(command, word, text):
    if command == "session":
        lines = sessions.Lines(text)
        session = sessions.session_of(lines)
        if session is None:
            return ["no session text"]
        width = f"bandwidth {session.bandwidth}, " if session.bandwidth else ""
        return [f"session {session.number}, {width}{len(session.attributes)} attributes, {lines.left()} bytes left"]
    if command == "prefixes":
        fronts = [text[:n] for n in range(len(text) + 1)]
        count = sum(read(front) is not None for front in fronts)
        return [f"{count} prefixes are session texts, {len(fronts) - count} are none"]
    if command == "faulty":
        return [sessions.faulty_line(text) or "read to its end"]
    if (said := read(text)) is None:
        return ["no session text"]
    session, left = said
    count = len(session.sections)
    return {"text": lambda: list(said_text(session, left)), "printed": lambda: list(said_printed(text, session)),
            "attributes": lambda: list(said_attributes(session)),
            "listed": lambda: list(said_rows(session)), "says": lambda: list(said_says(session)),
            "directed": lambda: list(said_directed(session, word)),
            "offer": lambda: [f"an offer of {count} sections, printed as its text true"],
            "answer": lambda: [f"an answer of {count} sections, printed as its text true"]}[command]()


def of_candidate(text):
    if (said := sessions.candidate(text)) is None:
        return "no candidate"
    return "{}: at {}, port {}, by {}, {}, from {}, opened {}, of {}".format(said[0], *said[1])


def of_fingerprint(text):
    name, blank, digest = text.partition(" ")
    parts = digest.split(":")
    if not blank or not all(re.fullmatch(r"\+?[0-9A-Fa-f]+", p) and int(p, 16) < 256 for p in parts):
        return "no fingerprint"
    is_line = fingerprint(text) is not None
    tail = "the same as of a line true, by its hash true" if is_line else "none of a line"
    return f"{name} {':'.join(f'{int(p, 16):02X}' for p in parts)}, place {preference(name)}, {tail}"


def of_setup(own, other):
    """RFC 4145 4.1: who is asked to choose chooses the other part; two of one part don't meet."""
    turned = {"actpass": "actpass", "active": "passive", "passive": "active"}
    if own not in turned or other not in turned:
        return "no setup"
    chosen = "-" if own == other else turned[other] if own == "actpass" else own
    return f"{own}, inverted {turned[own]}, towards {other} {chosen}"


def of_parameters(text):
    pairs = [[trimmed(word) for word in part.split("=")][:2] for part in text.split(";")]
    keyed = [pair for pair in pairs if len(pair) == 2]
    found = {}
    if any(lower(key) in ("tier-flag", "level-id") for key, _ in keyed):
        keyed = list({lower(key): value for key, value in keyed}.items())
        found.update(sessions.level(dict(keyed)))
        keyed = [pair for pair in keyed if pair[0] != "profile-id"]
    for part in pairs:
        if len(part) == 1 and (m := re.fullmatch("0-0*([0-9]{1,3})", part[0])) and int(m[1]) < 256:
            found["events"] = int(m[1])
    found.update(p for key, value in keyed if (p := param(key, value)) and p[0] in ORDER)
    return " ".join(param_text((key, found[key])) for key in ORDER if key in found) or "-"


def part_of(command):
    return next((part for part in PARTS if command in part), PARTS[0])


def reply(line):
    """What a line is answered by, after the standards; a comment by itself."""
    command, _, rest = line.partition(" ")
    alone = {"candidate": of_candidate, "fingerprint": of_fingerprint, "parameters": of_parameters}
    if command in ("", "#"):
        return [line]
    if command in alone:
        return [alone[command](rest)]
    name, _, word = rest.partition(" ")
    if command == "setup":
        return [of_setup(name, word)]
    path = READ / name
    if not any(command in part for part in PARTS) or not path.is_file():
        return ["fault"]
    told = of_text(command, word, path.read_bytes().decode())
    return [f"{name}: {told[0]}", *told[1:]]


def commands_of(part, kept):
    """The commands of a part, each comment in front of the first one that stands below it."""
    comment = None
    for line, told in kept:
        word = line.split(" ")[0]
        if word == "#":
            comment = line, told
        elif part_of(word) == part:
            yield from [comment] if comment else []
            yield line, told
            comment = None


def main():
    kept = []
    for line in TEXTS.read_text().splitlines():
        if line.startswith("> "):
            kept.append((line[2:], []))
        else:
            kept[-1][1].append(line)
    differing = [(command, told, reply(command)) for command, told in kept if told != reply(command)]
    for command, told, wanted in differing:
        print(f"> {command}", *(f"  kept {line}" for line in told if line not in wanted),
              *(f"  read {line}" for line in wanted if line not in told), sep="\n")
    if differing:
        sys.exit(1)
    rows = [row for part in PARTS for row in commands_of(part, kept)]
    rows += [(line, [line if answer is None else answer]) for line, answer in [*rounds.alone(), *rounds.of_ends()]]
    (CRATE / "stdin").write_text("".join(f"{command}\n" for command, _ in rows))
    (CRATE / "stdout").write_text("".join(f"{line}\n" for _, told in rows for line in told))
    print(len(rows), "lines")


if __name__ == "__main__":
    main()
