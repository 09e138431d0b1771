#!/usr/bin/env python3
"""Writes the last part of what `crates/rtpexplain` reads and must print: ends of each codec and layout under schedules
that are drawn from seeds.

    python3 tests/models/schedules.py write                        # anew into stdin and stdout of crates/rtpexplain
    python3 tests/models/schedules.py compare SEED.. [-- PROGRAM]  # draws others, runs the program, and compares

PROGRAM is a built `rtpexplain`; without one `rt try` runs it. A run is a pair of ends that agree by texts, samples, and
a `play` of them: of every codec one that is tame, one that is sane, and one that is neither. Behind it two more
samples, or ten with redundancy, are sent and received line by line.

All replies are worked out here, from the standards and the definitions of whole runs, by no code of the project: the
texts of offer and answer, the payloads of each sample (the layouts are those of `payloads.py`, `h26x.py` and `av1.py`;
which picture id or decoding order number stands in a packet, which parameter sets wait and what redundancy a packet
has is worked out in `packers.py` and `ends.py`) and the headers before them, the receiver's numbers and window, its
buffer, and the bytes of each unit, as `readers.py` reads them. The model asserts of itself that a tame run gives every
unit, and a sane one a legal selection. To sane runs come datagrams of the stream that are damaged, which change
nothing, and one run of many short packets has leaps over nearly 32,768 numbers past 65,536; in two, which are drawn to
be compared alone, more than 4,096 packets wait. To the third run of each codec come datagrams under the stream's SSRC
and types that it didn't send, with any numbers and payloads. Of each video codec a tame and a sane run follow in which
some datagrams come as repairs (RFC 4588), again or in place of what was sent: some that would pass the limit, and some
of places past the list. What is never made: header extensions that are agreed on, and forms for browsers.
"""

import random
import re
import subprocess
import sys
from collections import Counter
from itertools import zip_longest
from pathlib import Path

from ends import Receiver, Sender, check
from payloads import joined
from samples import CASES, Sample, draw_samples

CRATE = Path(__file__).parents[2] / "crates" / "rtpexplain"
MARK = "# Schedules drawn by tests/models/schedules.py"
REASONS = {
    "refused": "its number came before, or is 1,024 or more below the greatest",
    "foreign": "no receiving stream has this SSRC and payload type",
    "unreadable": "no RTP header stands in front",
    "refused LimitTooSmall":
        "MTU and a header with all values pass LIMIT, or a packet that is sent on or a repair's two bytes more do",
    "damaged": "its padding or its redundancy can't be read, or its payload is empty or of another type",
    "fault Payload": "a packet of the frame isn't of its format; the frame is done with",
}


class Page:
    """The lines, and what is printed of them, from a line number on; what became of each end."""

    def __init__(self, number, ends):
        self.number, self.ends, self.lines, self.printed = number, ends, [], []

    def line(self, text, *replies):
        self.lines.append(text)
        self.printed.append(f"{self.number} {text}")
        for reply in replies:
            self.printed.append(f"  {reply}")
            if reply in REASONS:
                self.printed.append(f"  line {self.number}: {REASONS[reply]}")
        self.number += 1

    def make(self, end, text, told):
        """The line makes an end anew; `told` is what is to be said of it in the end."""
        self.line(text, "ok")
        self.printed += [f"  {line}" for line in self.ends[end]]
        self.ends[end] = told


class Told:
    """What became of the stream of a pair of ends; sender and receiver are known once they are opened."""

    def __init__(self, end):
        self.end, self.tx, self.rx, self.printed = end, None, None, 0

    def __iter__(self):
        stream = f"of {self.end}: SSRC 44, type 111,"
        if self.tx:
            yield f"sender 0 {stream} {self.printed} datagrams printed"
        if self.rx:
            counts = ", ".join(f"{self.rx.counts[word]} {word}" for word in ("taken", "refused", "damaged"))
            faults = self.rx.counts["fault"]
            is_known = not faults and not self.rx.has_dropped
            held = f", {len(self.rx.held)} packets held" if is_known else ""
            yield f"receiver 0 {stream} {counts}, {self.rx.counts['unit']} units, {faults} faults{held}"
        others = self.rx.counts if self.rx else Counter()
        yield f"end {self.end}: {others['foreign']} foreign, {others['unreadable']} unreadable"


def feedback(case):
    """What is asked of a row's feedback: of video all that is known, of audio the congestion control's."""
    return ["transport-cc"] + (["goog-remb", "ccm fir", "nack", "nack pli"] if case.kind == "video" else [])


def session_text(case, number, ssrc, repair=None):
    """The lines of an offer or answer with one section of one row (docs/SESSION_TEXTS.md), where `repair` repairs
    `ssrc` (RFC 4588 8.3 and 8.6, RFC 5576 4.2)."""
    channels = f"/{case.channels}" if case.channels != "-" else ""
    types = "111 63" if case.red else "111 97" if repair else "111"
    yield from ["v=0", f"o=str0m-0.25.0 {number} 2 IN IP4 0.0.0.0", "s=-", "t=0 0", "a=group:BUNDLE 0"]
    yield from [f"m={case.kind} 9 UDP/TLS/RTP/SAVPF {types}", "c=IN IP4 0.0.0.0", "a=mid:0", "a=sendrecv"]
    yield f"a=rtpmap:111 {case.codec}/{case.rtp_clock}{channels}"
    yield from [f"a=rtcp-fb:111 {words}" for words in feedback(case)]
    if case.fmtp != "-":
        yield f"a=fmtp:111 {case.fmtp}"
    if case.red:
        yield from [f"a=rtpmap:63 red/{case.rtp_clock}{channels}", "a=fmtp:63 111/111"]
    if repair:
        yield from [f"a=rtpmap:97 rtx/{case.rtp_clock}", "a=fmtp:97 apt=111", f"a=ssrc-group:FID {ssrc} {repair}"]
    yield from [f"a=ssrc:{number} cname:str0m" for number in (ssrc, repair) if number]


def agree(page, case, sources=((44,), (45,))):
    """Lines that make two ends, and have them agree, each with a source, and one that repairs it where there is."""
    told = {}
    repair_type = 97 if len(sources[0]) > 1 else "-"
    for end, number in ("a", 1), ("b", 2):
        page.line(f"row {end} 111 {repair_type} {63 if case.red else '-'} {case.row}", "ok")
        told[end] = Told(end)
        page.make(end, f"end {end} {number}", told[end])
    texts = []
    for number, of_end in enumerate(sources, 1):
        texts += ["text", *[f"  {line}" for line in session_text(case, number, *of_end)]]
    sections = [f"0:{case.kind}:sendrecv:{'+'.join(map(str, of_end))}" for of_end in sources]
    page.line(f"connect {' / '.join(sections)}", *texts)
    return told


def drawn_held(draw):
    """A number of packets that may be held at most, and the word that says it: none for 4,096."""
    held = draw.choice([4096, 4096, 16384, draw.randint(4097, 16383)])
    return held, f" {held}" if held > 4096 or draw.randrange(2) else ""


def open_streams(page, draw, case, told, least, hold_back):
    first = max(least, draw.choice([0, 1, 32767, draw.randrange(32768)]))
    distances = draw.choice(["1", "1,3", "2,4,8"]) if case.red else "-"
    picture = draw.choice(["-", "126", "32766", "5"]) if case.codec in ("VP8", "VP9") else "-"
    tx = Sender(case, first, draw.randint(*case.limits), distances, picture)
    held, word = drawn_held(draw)
    rx = Receiver(case, hold_back, held)
    page.line(f"send a 0 44 111 {first} {tx.limit} 1400 {distances} {picture}", "sender 0")
    page.line(f"open b 0 44 111 {hold_back}{word}", "receiver 0")
    told["a"].tx, told["b"].rx = tx, rx
    return tx, rx


def other_bytes(draw):
    """Bytes that aren't of the stream: none of SSRC 44 and type 111 or 63."""
    kind = draw.randrange(4)
    if kind == 0:
        return bytes([draw.randrange(128)]) + draw.randbytes(draw.randrange(20))
    if kind == 1:
        return bytes([draw.randrange(128, 192), 111]) + draw.randbytes(draw.randrange(10))
    pt, ssrc = (draw.choice([111, 63, 239]), 45) if kind == 2 else (draw.choice([5, 127, 133]), 44)
    head = bytes([draw.choice([0x80, 0x80, 0x81, 0x8F, 0x90, 0xA0]), pt]) + draw.randbytes(6)
    return head + ssrc.to_bytes(4, "big") + draw.randbytes(draw.randrange(20))


def damaged_bytes(draw, case):
    """A datagram of the stream that brings no payload: none is there, the padding doesn't fit (RFC 3550 5.1), or, with
    redundancy, a block passes the end or the primary payload is of another type (RFC 2198 3)."""
    number, time = draw.randbytes(2), draw.randbytes(4)
    first, pt, payload = draw.choice([
        (0x80, 111, b""),
        (0xA0, 111, draw.randbytes(draw.randrange(9)) + bytes([draw.choice([0, 10, 255])])),
        (0xA0, 239, draw.randbytes(4) + bytes([5])),
        (0x80, 63, bytes([0x80 + 111, 0, 0, 9, 111, 1])) if case.red else (0xA0, 111, b""),
        (0x80, 63, bytes([5]) + draw.randbytes(3)) if case.red else (0x80, 239, b""),
    ])
    return bytes([first, pt]) + number + time + (44).to_bytes(4, "big") + payload


def changed(draw, payload):
    """A payload with other bits in front, without its end, with more behind it, or another one."""
    count = draw.randint(1, 4)
    mask = bytes(draw.choice([0, 1 << draw.randrange(8), draw.randrange(256)]) for _ in range(count))
    front = bytes(byte ^ bits for byte, bits in zip(payload, mask))
    return draw.choice([front + payload[count:], payload[: draw.randint(1, 12)], payload + draw.randbytes(3),
                        draw.randbytes(draw.randint(1, 9)), payload])


def forged_bytes(draw, case, sent, place, greatest):
    """A datagram of the stream's SSRC and a type of its own, with CSRC words, an extension or padding at times: in
    place of one of the next, or with another time and a number around the greatest, or, in the last third, with any."""
    model = draw.choice(sent[place : place + 3])
    low, time, payload = model.number % 65536, model.time, changed(draw, model.packet.payload)
    if draw.randrange(6) == 0:
        low, time = (greatest + draw.randint(-1200, 2)) % 65536, draw.randrange(1 << 32)
    if 3 * place > 2 * len(sent) and draw.randrange(12) == 0:
        low = draw.randrange(65536)
    csrcs, extension, padding = draw.choice([0, 0, 2]), draw.choice([b"", b"", b"\xbe\xde\0\1\x10\xff\0\0"]), b""
    is_red = case.red and draw.randrange(2)
    if is_red:
        older = draw.randbytes(draw.randrange(6))
        head = joined([(1, 1), (draw.choice([111, 0]), 7), (draw.randrange(1 << 14), 14), (len(older), 10)])
        payload = draw.choice([bytes([111]) + payload, head + bytes([111]) + older + payload])
    if draw.randrange(4) == 0:
        padding = bytes(draw.randrange(4))
        padding += bytes([len(padding) + 1])
    marker = model.packet.marker if draw.randrange(3) else not model.packet.marker
    fields = [(2, 2), (int(padding != b""), 1), (int(extension != b""), 1), (csrcs, 4), (int(marker), 1)]
    fields += [(63 if is_red else 111, 7), (low, 16), (time, 32), (44, 32)]
    return joined(fields) + draw.randbytes(4 * csrcs) + extension + payload + padding


def wild_items(draw, case, sent, rx):
    """Datagrams of the sender nearly in order, some lost, some from anywhere; forged and damaged ones and other bytes
    before them and behind; and polls."""
    for place in range(len(sent)):
        if draw.randrange(2):
            forged = forged_bytes(draw, case, sent, place, rx.greatest or sent[0].number)
            yield draw.choice([*[forged] * 6, damaged_bytes(draw, case), other_bytes(draw)])
        if draw.randrange(16):
            yield place
        if draw.randrange(8) == 0:
            yield min(len(sent) - 1, place + draw.randrange(4)) if draw.randrange(9) else draw.randrange(len(sent))
        if draw.randrange(2):
            yield "p"


def orders(draw, count):
    """Blocks of at most 1,024 places, in order, shuffled, or with the first one last: none is later than one that is
    1,024 above it."""
    start = 0
    while start < count:
        block = list(range(start, min(count, start + draw.choice([1024, draw.randint(1, 1024), draw.randint(1, 128)]))))
        way = draw.randrange(3)
        if way == 0:
            draw.shuffle(block)
        yield from block[1:] + block[:1] if way == 1 else block
        start += len(block)


def tame_items(draw, count, opening, polls_last):
    """Every place, some again, other bytes, and polls behind the first unit."""
    came = set()
    for place in orders(draw, count):
        yield place
        came.add(place)
        if draw.randrange(12) == 0:
            yield draw.choice(sorted(came))
        if draw.randrange(20) == 0:
            yield other_bytes(draw)
        if not polls_last and came >= set(range(opening)) and draw.randrange(2):
            yield "p"


def sane_items(draw, case, count):
    """Places that are lost alone and in a row, that come again and late, other and damaged bytes, polls at any time."""
    lost = {place for place in range(count) if draw.randrange(24) == 0}
    gap = draw.randrange(count)
    lost |= set(range(gap, min(count, gap + draw.randrange(12))))
    for place in orders(draw, count):
        if place not in lost:
            yield place
        if draw.randrange(10) == 0:
            yield max(0, place - draw.randrange(1500))
        if draw.randrange(20) == 0:
            yield other_bytes(draw) if draw.randrange(3) else damaged_bytes(draw, case)
        if draw.randrange(3) == 0:
            yield "p"


def far_items(draw, count):
    """Leaps over 32,767 numbers, onto 65,536 and past it, places around it in any order, and late ones, of which one is
    1,024 below the greatest and one 1,023."""
    near = list(range(32745, 32795))
    draw.shuffle(near)
    for place in [1, 0, 2, 32769, *near, 32800, 31776, 31777, 33, 40, 32760, 32900, 133, 32773, 32772, count - 1]:
        yield place
        if draw.randrange(3) == 0:
            yield "p"


def damaged_repair(draw):
    """A repair of the stream that wraps no payload, or whose padding doesn't fit (RFC 4588 4)."""
    first, payload = draw.choice([(0x80, draw.randbytes(draw.randrange(3))), (0xA0, draw.randbytes(3) + bytes([9]))])
    return bytes([first, draw.choice([97, 225])]) + draw.randbytes(6) + (45).to_bytes(4, "big") + payload


def repaired(draw, sent, tx, items):
    """The same with repairs in place of some datagrams, behind others, and of places past the list."""
    for item in items:
        if not isinstance(item, int):
            yield item
            continue
        if draw.randrange(2) and tx.can_repair(sent[item]):
            yield "r", item
        else:
            yield item
        if draw.randrange(6) == 0:
            yield draw.choice([("r", item), ("r", item), ("r", len(sent) + draw.randrange(3)), damaged_repair(draw)])


def play(page, tx, rx, samples, items):
    """The line of a schedule, with polls until two in a row answer None at the end."""
    for time, sample in samples:
        page.line(f"queue {time} {sample.bytes.hex()}", "ok")
    sent = [datagram for time, sample in samples for datagram in tx.push(time, sample)]
    words, replies = [], []

    def step(word, reply):
        words.append(word)
        replies.append(reply)

    for item in items(sent):
        if item == "p":
            step("p", rx.poll())
        elif isinstance(item, bytes):
            step(f"f{item.hex()}", rx.other(item))
        elif isinstance(item, tuple):
            place = item[1]
            words.append(f"r{place}")
            if place < len(sent):
                replies.append(rx.arrive(sent[place]) if tx.repair(sent[place]) else "refused LimitTooSmall")
        else:
            step(f"a{item}", rx.arrive(sent[item]))
    while replies[-2:] != ["none", "none"]:
        step("p", rx.poll())
    page.line(f"play 0 0 {' '.join(words)}", *replies)


def by_lines(page, told, tx, rx, samples):
    """The same line by line: each datagram to the byte, received and polled."""
    for time, sample in samples:
        sent = tx.push(time, sample)
        page.line(f"sample a 0 {time} {sample.bytes.hex()}", *[f"datagram {d.bytes.hex()}" for d in sent], "ok")
        told["a"].printed += len(sent)
        for datagram in sent:
            page.line(f"receive b {datagram.bytes.hex()}", rx.arrive(datagram))
            page.line("poll b 0", rx.poll())


def by_repairs(page, told, tx, rx, samples):
    """Datagrams line by line, each with its repair behind it or before it."""
    for time, sample in samples:
        sent = tx.push(time, sample)
        page.line(f"sample a 0 {time} {sample.bytes.hex()}", *[f"datagram {d.bytes.hex()}" for d in sent], "ok")
        told["a"].printed += len(sent)
        for place, datagram in enumerate(sent):
            repair = tx.repair(datagram)
            answer = f"datagram {repair.hex()}" if repair else "refused LimitTooSmall"
            page.line(f"repair a 0 {datagram.bytes.hex()}", answer)
            ways = [datagram.bytes, repair] if place % 2 else [repair, datagram.bytes]
            told["a"].printed += bool(repair)
            for bytes_ in filter(None, ways):
                reply = rx.arrive(datagram)
                page.line(f"receive b {bytes_.hex()}", reply)
                # which stream refused a repair isn't seen at its lines
                rx.counts["refused"] -= reply == "refused" and bytes_ == repair
            page.line("poll b 0", rx.poll())


def repaired_run(page, case, kind, seed, size):
    draw = random.Random(f"{case.name} repaired {kind} {seed}")
    page.line("")
    page.line(f"# {case.name}, {kind} with repairs, seed {seed}")
    told = agree(page, case, ((44, 45), (46, 47)))
    tx, rx = Sender(case, draw.randrange(32768), draw.randint(*case.limits), "-", "-"), Receiver(case, 1023)
    tx.most, rx.repairs = 12 + tx.limit + draw.choice([0, 1, 2, 40]), (45, 97)
    page.line(f"send a 0 44 111 {tx.number} {tx.limit} {tx.most} - -", "sender 0")
    page.line("open b 0 44 111 1023", "receiver 0")
    told["a"].tx, told["b"].rx = tx, rx
    samples = draw_samples(draw, case, int(case.count * size) + 2)

    def items(sent):
        if kind == "sane":
            return repaired(draw, sent, tx, sane_items(draw, case, len(sent)))
        return repaired(draw, sent, tx, tame_items(draw, len(sent), tx.canonical[0].size, False))

    play(page, tx, rx, samples[:-2], items)
    check(tx.canonical, rx.units, kind == "tame")
    by_repairs(page, told, tx, rx, samples[-2:])


def run(page, case, kind, seed, size):
    draw = random.Random(f"{case.name} {kind} {seed}")
    page.line("")
    page.line(f"# {case.name}, {kind}, seed {seed}")
    told = agree(page, case)
    polls_last = kind == "tame" and draw.randrange(4) == 0
    hold_back = draw.randrange(1024 if polls_last else 12) if polls_last or kind != "tame" else 1023
    # what is less than 0 is nearly 2^64, and all later numbers are refused then
    least = 1300 if kind == "wild" and draw.randrange(6) else 0
    tx, rx = open_streams(page, draw, case, told, least, hold_back)
    behind = 10 if case.red else 2
    samples = draw_samples(draw, case, int(case.count * size * (case.wild if kind == "wild" else 1)) + behind)

    def items(sent):
        if kind == "wild":
            return wild_items(draw, case, sent, rx)
        if kind == "sane":
            return sane_items(draw, case, len(sent))
        return tame_items(draw, len(sent), tx.canonical[0].size, polls_last)

    play(page, tx, rx, samples[:-behind], items)
    if kind != "wild":
        check(tx.canonical, rx.units, kind == "tame")
    by_lines(page, told, tx, rx, samples[-behind:])


def far_run(page, seed):
    """A sample of PCMU whose packets have a byte each, from number 32,767 on, which is the greatest FIRST."""
    draw = random.Random(f"far {seed}")
    case = next(case for case in CASES if case.name == "PCMU")
    page.line("")
    page.line(f"# Numbers past 65,536, seed {seed}")
    told = agree(page, case)
    tx, rx = Sender(case, 32767, 1, "-", "-"), Receiver(case, 4)
    page.line("send a 0 44 111 32767 1 1400 - -", "sender 0")
    page.line("open b 0 44 111 4", "receiver 0")
    told["a"].tx, told["b"].rx = tx, rx
    play(page, tx, rx, [(960, Sample(draw.randbytes(32950)))], lambda sent: far_items(draw, len(sent)))
    check(tx.canonical, rx.units, False)


def held_run(page, seed, kind):
    """More than 4,096 packets of PCMU wait for the polls behind them, in blocks of 1,024: as many as may be held at
    most, or some more, of which the lowest are dropped."""
    draw = random.Random(f"held {kind} {seed}")
    case = next(case for case in CASES if case.name == "PCMU")
    count = draw.randint(4200, 4800)
    held = draw.randint(count, 16384) if kind == "tame" else draw.randint(4096, count - 1)
    page.line("")
    page.line(f"# {count} packets wait where {held} may, seed {seed}")
    told = agree(page, case)
    tx, rx = Sender(case, draw.choice([0, 32767]), 1, "-", "-"), Receiver(case, 1023, held)
    page.line(f"send a 0 44 111 {tx.number} 1 1400 - -", "sender 0")
    page.line(f"open b 0 44 111 1023 {held}", "receiver 0")
    told["a"].tx, told["b"].rx = tx, rx
    play(page, tx, rx, [(960, Sample(draw.randbytes(count)))], lambda sent: orders(draw, len(sent)))
    check(tx.canonical, rx.units, kind == "tame")


def runs(page, seeds, size=1.0, is_stored=False):
    page.line(MARK)
    for seed in seeds:
        for case in CASES:
            for kind in ("tame", "sane", "wild"):
                run(page, case, kind, seed, size)
        for case in CASES:
            for kind in ("tame", "sane") if case.kind == "video" else ():
                repaired_run(page, case, kind, seed, size)
        far_run(page, seed)
        for kind in () if is_stored else ("tame", "sane"):
            held_run(page, seed, kind)
    tail = [f"  {line}" for end in "ab" for line in page.ends[end]]
    return "\n".join(page.lines) + "\n", "\n".join([*page.printed, "at the end", *tail]) + "\n"


def told_before(printed, end):
    """What became of an end of the lines by hand, which is said at its next making, or at the end."""
    found = re.search(rf"(  (sender|receiver) \d+ of {end}: .*\n)*  end {end}: .*\n", printed)
    return [line[2:] for line in found[0].splitlines()] if found else []


def write():
    # by bytes, since a line by hand ends with a carriage return
    stdin, stdout = ((CRATE / name).read_bytes().decode() for name in ("stdin", "stdout"))
    by_hand = stdin.partition(MARK)[0]
    front = re.split(rf"^\d+ {MARK}\n|^at the end\n", stdout, maxsplit=1, flags=re.M)[0]
    ends = {end: told_before(stdout[len(front):], end) for end in "ab"}
    lines, printed = runs(Page(by_hand.count("\n") + 1, ends), [1], is_stored=True)
    (CRATE / "stdin").write_bytes((by_hand + lines).encode())
    (CRATE / "stdout").write_bytes((front + printed).encode())


def compare(words):
    seeds, _, program = " ".join(words).partition("--")
    command = program.split() or ["rt", "try"]
    for seed in seeds.split():
        lines, printed = runs(Page(1, {"a": [], "b": []}), [seed])
        found = subprocess.run(command, cwd=CRATE, input=lines, capture_output=True, text=True)
        print(f"seed {seed}: {difference(printed, found.stdout) or 'as the model says'}", flush=True)
        if found.returncode != 0:
            print(f"status {found.returncode}: {found.stderr}", flush=True)


def difference(wanted, found):
    """The first line in which the output differs."""
    pairs = zip_longest(wanted.splitlines(), found.splitlines())
    told = (f"line {n} of the output is {got!r}, not {want!r}" for n, (want, got) in enumerate(pairs, 1) if want != got)
    return next(told, None)


if __name__ == "__main__":
    if sys.argv[1:] == ["write"]:
        write()
    elif sys.argv[1:2] == ["compare"] and len(sys.argv) > 2:
        compare(sys.argv[2:])
    else:
        sys.exit(__doc__)
