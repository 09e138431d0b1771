"""same.py SEED COUNT: what same.mjs says, of the native library over bindings/python."""

import hashlib
import sys

from jilqamur import End, Refused, Row, Section
from jilqamur.codes import Code
from jilqamur.ends import Verdict

state = int(sys.argv[1])


def random(below):
    global state
    state = (state * 6364136223846793005 + 1442695040888963407) & 0xffffffffffffffff
    return (state >> 33) % below


sum_ = hashlib.sha256()


def say(*words):
    sum_.update((" ".join(map(str, words)) + "\n").encode())


def told(taken):
    say(taken.name if isinstance(taken, Verdict) else f"{taken.stream} {taken.number}")


for codec, clock, video in [("opus", 48000, False), ("VP8", 90000, True), ("H264", 90000, True), ("VP9", 90000, True),
                            ("AV1", 90000, True), ("H265", 90000, True)]:
    rows = [Row(100, codec, clock, **({} if video else {"channels": 2}))]
    a, b = End(rows, session=1), End(rows, session=2)
    offer = a.offer([Section("0", video, ssrcs=[44])])
    answer = b.answer(offer, [Section("0", video, ssrcs=[45])])
    a.accept(answer)
    say(offer, answer)
    sender, receiver = a.open_sender("0", 44, 100, first=30000), b.open_receiver("0", 44, 100, 3)
    late = []
    for k in range(int(sys.argv[2])):
        sample = bytearray(random(256) for _ in range(1 + random(5000 if video else 300)))
        head = {"H264": [0, 0, 0, 1, 0x65], "H265": [0, 0, 0, 1, 0x26, 1]}.get(codec, [])[:len(sample)]
        sample[:len(head)] = head
        datagrams = []
        try:
            datagrams = a.push_sample(sender, 960 * k, bytes(sample))
        except Refused as refused:
            say("refused", int(refused.code))
        for datagram in map(bytearray, datagrams):
            say(datagram.hex())
            what = random(20)
            if what == 0:
                continue
            if what == 1:
                late.append(datagram)
                continue
            if what == 2:
                at = random(len(datagram))
                datagram[at] ^= 1 << random(8)
            told(b.receive(bytes(datagram)))
        if random(4) == 0:
            for datagram in late:
                told(b.receive(bytes(datagram)))
            late = []
        for unit in b.units(receiver):
            say(unit.first, unit.last, unit.time, int(unit.is_keyframe), unit.data.hex())
        say(",".join(map(str, b.missing(receiver))))
    print(codec, sum_.hexdigest()[:16])
