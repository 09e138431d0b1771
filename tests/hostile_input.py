#!/usr/bin/env python3
"""Hostile bytes, texts and rows at the built programs: worked rows 30 to 36; every list of at most two bytes at the
readers of payloads; every byte changed in an offer and in two datagrams; two lists of datagrams that differ in foreign
bytes alone. What must come is written here, or worked out by the models in tests/models, which share no code with the
project. Run it behind `rt ci`.
"""

import random
from itertools import product

import built
from built import Counts, hexed, replies

import headers
import rounds
import schedules
import sessions
from ends import Receiver
from readers import READERS, Audio, Fault
from samples import CASES

OPUS = next(case for case in CASES if case.name == "opus")
REDUNDANT_OPUS = next(case for case in CASES if case.name == "opus with redundancy")

# Row 4's second datagram: H.264 of type 102 and SSRC 44, number 1001, time 6000, with the marker.
H264_DATAGRAM = bytes.fromhex("80e603e9000017700000002c050405")
H264_ROW = "H264 90000 - level-asymmetry-allowed=1;packetization-mode=1;profile-level-id=42e01f"

# Row 16's offer.
FEEDBACK = ["transport-cc", "goog-remb", "ccm fir", "nack", "nack pli"]
OFFER = ["v=0", "o=str0m-0.25.0 1 2 IN IP4 0.0.0.0", "s=-", "t=0 0", "a=group:BUNDLE 0",
         "m=video 9 UDP/TLS/RTP/SAVPF 96", "c=IN IP4 0.0.0.0", "a=mid:0", "a=sendrecv", "a=rtpmap:96 VP8/90000",
         *[f"a=rtcp-fb:96 {words}" for words in FEEDBACK], "a=ssrc:44 cname:str0m"]
VP8_END = ["row b 100 - - VP8 90000 - -", "end b 2"]
VP8_SECTION = "0:video:sendrecv:45"

# Row 24's datagrams: two Opus payloads through RED, the second behind the first.
RED_DATAGRAMS = [bytes.fromhex(text) for text in ("803f0000000003e80000002c6f010203",
                                                  "803f0001000007a80000002cef0f00036f0102030405")]


def crlf(lines):
    return "".join(f"{line}\r\n" for line in lines).encode()


def opus_datagram(number, payload=b"\x01", time=0):
    return bytes([0x80, 111]) + number.to_bytes(2, "big") + time.to_bytes(4, "big") + b"\0\0\0\x2c" + payload


def receives(end, datagrams):
    return [f"receive {end} {hexed(datagram)}" for datagram in datagrams]


def row_30(counts, build, program):
    """Each prefix of a datagram, at a fresh stream."""
    ends = [f"row {end} 102 - - {H264_ROW}" for end in "ab"] + ["end a 1", "end b 2"]
    agreed = ["connect 0:video:sendrecv:44 / 0:video:sendrecv:45"]
    for length in range(len(H264_DATAGRAM) + 1):
        prefix = H264_DATAGRAM[:length]
        lines = [*ends, *agreed, "open b 0 44 102 127", *receives("b", [prefix]), "poll b 0"]
        found = replies(program, lines)[-2:]
        unit = f"unit 1001 1001 6000 00000001{prefix[12:].hex()}"
        wanted = (["unreadable", "none"] if length < 12 else ["damaged", "none"] if length == 12
                  else ["taken 0 1001", unit])
        counts.same(f"row 30, the first {length} bytes, {build}", wanted, found)
        if length == 13:
            counts.same(f"row 30, the unit of 13 bytes, {build}", "unit 1001 1001 6000 0000000105", found[-1])


def row_31(counts, build, program):
    """An offer that is cut at the end of a line."""
    answered = answer_text("sendrecv", feedback=FEEDBACK[1:])
    for last, wanted in [("s=-", "refused Unreadable"), ("t=0 0", "refused NotCorresponding"),
                         ("a=sendrecv", "refused Unreadable"), ("a=rtpmap:96 VP8/90000", f"text {answered.hex()}")]:
        text = crlf(OFFER[:OFFER.index(last) + 1])
        found = replies(program, [*VP8_END, f"answer b {text.hex()} {VP8_SECTION}"])
        counts.same(f"row 31, cut after {last}, {build}", wanted, found[-1])
    counts.check("row 31, no transport-cc is answered", b"transport-cc" not in answered)


def row_32(counts, build, program):
    """4,097 numbers without a poll: the buffer holds 4,096, and the lowest was dropped."""
    datagrams = [opus_datagram(number) for number in range(4097)]
    lines = ["fixed b", "open b 0 44 111 127", *receives("b", datagrams), *["poll b 0"] * 4097]
    wanted = [f"taken 0 {number}" for number in range(4097)]
    wanted += [f"unit {number} {number} 0 01" for number in range(1, 4097)] + ["none"]
    counts.same(f"row 32, {build}", wanted, replies(program, lines)[2:])


def row_41(counts, build, program):
    """The same numbers where 8,192 may be held: none was dropped."""
    datagrams = [opus_datagram(number) for number in range(4097)]
    lines = ["fixed b", "open b 0 44 111 127 8192", *receives("b", datagrams), *["poll b 0"] * 4098]
    wanted = [f"taken 0 {number}" for number in range(4097)]
    wanted += [f"unit {number} {number} 0 01" for number in range(4097)] + ["none"]
    counts.same(f"row 41, {build}", wanted, replies(program, lines)[2:])


def row_33(counts, build, program):
    """A gap at number 1 stays one: 4,097 numbers behind it were taken, so 1 is too late."""
    lines = ["fixed b", "open b 0 44 111 127", *receives("b", [opus_datagram(0)]), "poll b 0"]
    lines += receives("b", [opus_datagram(number) for number in [*range(2, 4099), 1]]) + ["poll b 0"] * 4097
    wanted = ["taken 0 0", "unit 0 0 0 01", *[f"taken 0 {number}" for number in range(2, 4099)], "refused"]
    wanted += [f"unit {number} {number} 0 01" for number in range(3, 4099)] + ["none"]
    counts.same(f"row 33, {build}", wanted, replies(program, lines)[2:])


def row_34(counts, build, program):
    """A type of retransmissions that a locked row has."""
    own = [rounds.video("VP8", 96, 97, True), rounds.h264(108, 109, 0x42E01F)]
    remote = [rounds.h264(108, 97, 0x42E01F)]
    refused_round(counts, f"row 34, {build}", program, own, remote, "ResendTaken 97")


def row_35(counts, build, program):
    """No type is left: 44 rows of comfort noise have the 87 types of the preferred ranges, and Opus 111 is claimed."""
    types = list(rounds.PREFERRED)
    own = []
    for clock in range(1, 45):
        pt, rtx = types.pop(0), types.pop(0) if types else None
        own.append(rounds.audio("CN", pt, clock, rtx=rtx, locked=True))
    counts.check("row 35 uses up the preferred types", not types and len(rounds.PREFERRED) == 87)
    own.append(rounds.audio("opus", 111, 48000, channels=2))
    refused_round(counts, f"row 35, {build}", program, own, [], "NoFreeType")


def refused_round(counts, name, program, own, remote, refusal):
    """A round is refused, and all rows are as before."""
    lines = ["fresh", *[f"{'locked' if row.locked else 'own'} {rounds.row_words(row)}" for row in own]]
    lines += [f"remote {rounds.row_words(row)}" for row in remote] + ["rows", "round sendrecv", "rows"]
    found = replies(program, lines)
    # a list of rows is as many lines as rows, or one: what stands before the refusal and behind it is the same
    said = [line for line in found if line != "ok"]
    at = next((place for place, line in enumerate(said) if refusal in line), None)
    counts.check(name, at is not None and said[:at] == said[at + 1:] != [], built.shortened(said))
    counts.same(f"{name}, by the model", refusal, rounds.run_round(own, remote, "sendrecv")[1])


def row_36(counts, build, program):
    """Each other type under the SSRC of a plain stream, with a marker and without."""
    foreign = [bytes([0x80, pt + marker]) + opus_datagram(1)[2:]
               for pt in range(128) if pt != 111 for marker in (0, 128)]
    lines = ["fixed b", "open b 0 44 111 127", *receives("b", [opus_datagram(0), *foreign, opus_datagram(1)])]
    lines += ["poll b 0"] * 3
    wanted = ["taken 0 0", *["foreign"] * len(foreign), "taken 0 1", "unit 0 0 0 01", "unit 1 1 0 01", "none"]
    counts.same(f"row 36, {build}", wanted, replies(program, lines)[2:])


def short_lists():
    """Every list of at most two bytes."""
    return [bytes(part) for length in range(3) for part in product(range(256), repeat=length)]


# Which fault a reader has where it has one, of a list of at most two bytes.
FAULTS = {"AMR-WB": "ErrAmrWbCorruptedPacket", "telephone-event": "InvalidTelephoneEvent",
          "VP8": "ErrVP8CorruptedPacket", "VP9": "ErrVP9CorruptedPacket", "AV1": "ErrAv1CorruptedPacket"}
OPTIONS = {"AMR-WB octet-aligned": " aligned", "H265 with decoding order numbers": " numbers=1",
           "H266 with decoding order numbers": " numbers=1"}


def fault_of(case, payload):
    """The fault of a list that can't be read (RFC 6184, 7798 and 9328 for the units of H.26x)."""
    if case.codec in ("AMR-WB", "telephone-event"):
        return FAULTS[case.codec]
    if not payload:
        return "ErrShortPacket"
    if case.codec == "H264":
        return "ErrShortPacket" if payload[0] & 31 in (24, 28) else "NaluTypeIsNotHandled"
    if case.codec in ("H265", "H266"):
        return fault_of_unit(case, payload)
    return "ErrShortPacket" if case.codec == "AV1" and len(payload) < 2 else FAULTS[case.codec]


def fault_of_unit(case, payload):
    """Of H.265 and H.266, whose header is two bytes. A single unit without a body and a fragment without its header
    are cut short, which comes before the forbidden bit, and that before a type that no packet has."""
    if len(payload) < 2:
        return "ErrShortPacket"
    kind, aggregate = (payload[0] >> 1 & 63, 48) if case.codec == "H265" else (payload[1] >> 3, 28)
    if kind < aggregate or kind == aggregate + 1:
        return "ErrShortPacket"
    return f"Err{case.codec}CorruptedPacket" if payload[0] > 127 else "NaluTypeIsNotHandled"


def read_alone(case, payload):
    """What the model says of a list at a reader with no open fragment: the bytes, and the fault behind them."""
    try:
        if not payload and READERS.get(case.codec, Audio) is Audio or case.codec == "telephone-event" and not payload:
            raise Fault
        return READERS.get(case.codec, Audio)(case).read(payload).hex() or "-", None
    except (Fault, IndexError):
        return "-", fault_of(case, payload)


def short_payloads(counts, build, program):
    """Every list of at most two bytes, at the depacketizer of each codec."""
    lists = short_lists()
    for case in CASES:
        if case.red:
            continue
        lines = [f"codec {case.codec}{OPTIONS.get(case.name, '')}", *[f"read {hexed(part)}" for part in lists]]
        found = replies(program, lines)[1:]
        wrong = [(hexed(part), line) for part, line in zip(lists, found) if not is_read(case, part, line)]
        counts.check(f"lists of at most two bytes, {case.name}, {build}", len(found) == len(lists) and not wrong,
                     f"{len(wrong)} of {len(found)} differ, first {wrong[:2]}")


def is_read(case, payload, line):
    """Whether a line of the program says what the model does: the bytes, and the name of the fault."""
    read, _, fault = line.partition(", then ")
    wanted, wanted_fault = read_alone(case, payload)
    return read.split(" ")[0] == wanted and fault.split("(")[0] == (wanted_fault or "")


def red_alone(payload):
    """RFC 2198 3: without F the primary payload alone; with F four bytes and the next header are wanted."""
    if not payload or payload[0] > 127:
        return "fault corrupted redundant packet"
    return f"{payload[0]}@0={hexed(payload[1:])}*"


def short_lists_elsewhere(counts, build, payloads, wire):
    """The same at the reader of redundancy, at padding, and at the cutter of units."""
    lists = short_lists()
    padded = [hexed(p[: len(p) - p[-1]]) if p and 0 < p[-1] <= len(p) else "none" for p in lists]
    for name, program, command, wanted in [
            ("redundancy", payloads, "red read", [red_alone(part) for part in lists]),
            ("units", payloads, "units", [headers.cut(part) for part in lists]),
            ("padding", wire, "padded", padded),
            ("no padding", wire, "unpadded", [hexed(part) for part in lists])]:
        found = [line.strip() for line in replies(program, [f"{command} {hexed(part)}" for part in lists])]
        wrong = [(hexed(part), got, want) for part, got, want in zip(lists, found, wanted) if got != want]
        counts.check(f"lists of at most two bytes, {name}, {build}", len(found) == len(lists) and not wrong,
                     f"{len(wrong)} of {len(found)} differ, first {wrong[:2]}")


def other_values(byte):
    """At least four other values of a byte: near ones, a blank, a line's end, and one that ends UTF-8."""
    return sorted({byte ^ 1, byte ^ 16, byte ^ 32, 0x20, 0x0A, 0xC3} - {byte})


def answer_text(direction, feedback, types=96):
    """The answer of session 2 to an offer of one VP8 row."""
    lines = ["v=0", "o=str0m-0.25.0 2 2 IN IP4 0.0.0.0", "s=-", "t=0 0", "a=group:BUNDLE 0",
             f"m=video 9 UDP/TLS/RTP/SAVPF {types}", "c=IN IP4 0.0.0.0", "a=mid:0", f"a={direction}",
             f"a=rtpmap:{types} VP8/90000", *[f"a=rtcp-fb:{types} {words}" for words in feedback],
             "a=ssrc:45 cname:str0m"]
    return crlf(lines)


class Answered:
    """What the end of row 16 answers to a text: a refusal, or a text and whether a stream of SSRC 44 can be opened."""

    def __init__(self, text):
        self.text, self.can_open = None, "refused NoSection"
        self.reply = self.decide(text)

    def decide(self, data):
        try:
            found = sessions.read(data.decode())
        except UnicodeDecodeError:
            return "error line"
        if found is None:
            return "refused Unreadable"
        parts = found[0].sections
        if any(p.proto != "UDP/TLS/RTP/SAVPF" or p.typ not in ("audio", "video") or p.disabled for p in parts):
            return "refused NotMedia"
        if [(p.typ, p.of("mid")[0]) for p in parts] != [("video", "0")]:
            return "refused NotCorresponding"
        return self.by_round(parts[0])

    def by_round(self, part):
        """The round of the end's row against those of the section (tests/models/rounds.py)."""
        offered = next(a.kind for a in part.attributes if a.kind in sessions.DIRECTIONS)
        remote = [row_told(line) for line in sessions.rows(part)]
        own, said = rounds.run_round([rounds.video("VP8", 100, None)], remote, offered)
        if said != "ok":
            return "refused Round"
        listed = [row for row in remote if row.spec.codec == "VP8" and row.spec.clock == 90000]
        if not own[0].locked or not listed:
            return "refused NoCommonRow"
        sends, hears = offered in ("sendrecv", "recvonly"), offered in ("sendrecv", "sendonly")
        direction = {(True, True): "sendrecv", (True, False): "sendonly", (False, True): "recvonly"}.get(
            (sends, hears), "inactive")
        names = {source for source, *_ in part.of("ssrc")}
        self.can_open = ("refused WrongDirection" if not hears
                         else "receiver 0" if 44 in names else "refused SsrcNotNamed")
        feedback = FEEDBACK if own[0].cc else FEEDBACK[1:]
        return f"text {answer_text(direction, feedback, own[0].pt).hex()}"


def row_told(line):
    """A row as tests/models/sessions.py tells it, for tests/models/rounds.py; without a format."""
    pt, codec, clock, channels, _, cc, *_, rtx, red = line.split(" ")
    number = [None if word == "-" else int(word) for word in (rtx, red, channels)]
    return rounds.Row(int(pt), number[0], number[1], cc == "cc", rounds.Spec(codec, int(clock), number[2]))


def changed_offers(counts, build, program):
    """Every byte of row 16's offer changed in turn; what is answered, and whether a stream can be opened then."""
    whole, texts = crlf(OFFER), []
    for place, byte in enumerate(whole):
        texts += [(place, whole[:place] + bytes([value]) + whole[place + 1:]) for value in other_values(byte)]
    lines = []
    for _, text in [(None, whole), *texts]:
        lines += [*VP8_END, f"answer b {text.hex()} {VP8_SECTION}", "open b 0 44 96 127"]
    found = replies(program, lines)
    wrong = []
    for at, (place, text) in enumerate([("none", whole), *texts]):
        model = Answered(text)
        opened = model.can_open
        if model.reply.startswith("text") and b"a=rtpmap:96 " not in bytes.fromhex(model.reply[5:]):
            opened = "refused RowNotAgreed"
        wanted = ["ok", "ok", model.reply, opened]
        if found[4 * at : 4 * at + 4] != wanted:
            wrong.append((place, text[place : place + 1] if at else b"", found[4 * at : 4 * at + 4][2:], wanted[2:]))
    counts.check(f"{len(texts)} changed offers of row 16, {build}", len(found) == len(lines) and not wrong,
                 f"{len(wrong)} differ, first {built.shortened(wrong[:2])}")


def changed_datagrams(counts, build, program):
    """Every byte of row 24's datagrams changed in turn, to 16 other values: both arrive, and the stream is polled."""
    row = "opus 48000 2 minptime=10;useinbandfec=1"
    ends = [f"row a 111 - 63 {row}", "end a 1", f"row b 111 - 63 {row}", "end b 2",
            "connect 0:audio:sendrecv:44 / 0:audio:sendrecv:45", "open b 0 44 111 127"]
    lines, wanted = [], []
    for which, datagram in enumerate(RED_DATAGRAMS):
        for place, byte in enumerate(datagram):
            for mask in (1, 2, 4, 8, 16, 32, 64, 128, 3, 5, 15, 51, 85, 170, 240, 255):
                pair = list(RED_DATAGRAMS)
                pair[which] = datagram[:place] + bytes([byte ^ mask]) + datagram[place + 1:]
                model = Receiver(REDUNDANT_OPUS, 127)
                lines += [*ends, *receives("b", pair), *["poll b 0"] * 3]
                wanted.append([model.other(part) for part in pair] + [model.poll() for _ in range(3)])
    found = replies(program, lines)
    # of each run the ends' lines print 7 lines, the two texts of connect among them
    runs = [found[at + 7 : at + 12] for at in range(0, len(found), 12)]
    wrong = [(at, got, want) for at, (got, want) in enumerate(zip(runs, wanted)) if got != want]
    counts.check(f"{len(wanted)} changed datagrams of row 24, {build}", len(runs) == len(wanted) and not wrong,
                 f"{len(wrong)} differ, first {wrong[:2]}")


def foreign_bytes_change_nothing(counts, build, program):
    """Lists of datagrams and polls that differ in foreign bytes alone: the stream's answers are the same."""
    for seed in range(20):
        draw = random.Random(f"foreign {seed}")
        own = [opus_datagram(draw.randrange(40), draw.randbytes(draw.randrange(1, 9)), draw.randrange(9))
               for _ in range(60)]
        answers = []
        for _ in range(2):
            lines = ["fixed b", f"open b 0 44 111 {seed}"]
            kept = []
            for at, datagram in enumerate(own):
                others = [plain_foreign(draw) for _ in range(draw.randrange(4))]
                kept += [False] * len(others) + [True] * 2
                lines += [*receives("b", [*others, datagram]), "poll b 0"]
            found = replies(program, lines)[2:]
            answers.append([line for line, is_own in zip(found, kept) if is_own])
            others = {line for line, is_own in zip(found, kept) if not is_own}
            counts.check(f"foreign bytes are no stream's, seed {seed}, {build}", others <= {"foreign", "unreadable"},
                         str(others))
        counts.same(f"foreign bytes change nothing, seed {seed}, {build}", answers[0], answers[1])


def plain_foreign(draw):
    """Bytes that no plain stream of SSRC 44 and type 111 hears."""
    while True:
        data = schedules.other_bytes(draw)
        if data[1:2] not in (b"\x6f", b"\xef") or data[8:12] != b"\0\0\0\x2c":
            return data


def main():
    counts = Counts()
    for build, program in built.built(counts, built.LINES):
        for test in (row_30, row_31, row_32, row_33, row_36, row_41, changed_offers, changed_datagrams,
                     foreign_bytes_change_nothing):
            test(counts, build, program)
    for build, program in built.built(counts, built.TEXTS_AND_ROWS):
        row_34(counts, build, program)
        row_35(counts, build, program)
    wire = dict(built.built(counts, built.HEADERS))
    for build, program in built.built(counts, built.PAYLOADS):
        short_payloads(counts, build, program)
        if build in wire:
            short_lists_elsewhere(counts, build, program, wire[build])
    counts.end()


if __name__ == "__main__":
    main()
