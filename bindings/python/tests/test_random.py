"""Calls of all kinds in random order, with arguments of all kinds, from several threads at the same objects: each
returns or raises. `JILQAMUR_CALLS` says how many, `JILQAMUR_SECONDS` for how long at most, and `JILQAMUR_SEED` which
ones."""

import inspect
import os
import random
import sys
import threading
import time
import unittest
from collections.abc import Callable
from functools import cache
from typing import Any

import jilqamur
from jilqamur import (Depacketizer, Direction, End, ExtensionIds, Format, Forwarder, Header, NackRequester,
                      PacketHistory, Packetizer, Receiver, Row, Section, SectionRequest, Sender, Setup, Values,
                      Window)

CALLS = int(os.environ.get("JILQAMUR_CALLS", "20000"))
SEED = int(os.environ.get("JILQAMUR_SEED", "1"))
SECONDS = float(os.environ.get("JILQAMUR_SECONDS", "60"))
THREADS = 4

FUNCTIONS = ("read_header", "write_header", "read_values", "payload_of", "packet_info", "faulty_line", "widen")
OWNERS = (End, Window, Packetizer, Depacketizer, Sender, Receiver, Forwarder, PacketHistory, NackRequester)
CODECS = ("opus", "PCMU", "G722", "CN", "AMR-WB", "telephone-event", "VP8", "VP9", "AV1", "H264", "H265", "H266",
          "none")


@cache
def parameters_of(function: Callable[..., Any]) -> list[tuple[str, bool]]:
    """The names of parameters, and whether each has to be given."""
    return [(name, parameter.default is inspect.Parameter.empty)
            for name, parameter in inspect.signature(function).parameters.items() if name != "self"]


class Maker:
    """Makes arguments by the names that parameters have: most are sound, and some are anything."""

    def __init__(self, seed: int) -> None:
        self.random = random.Random(seed)
        self.datagrams: list[bytes] = []
        self.texts: list[str] = []

    def number(self, high: int) -> Any:
        pick = self.random.random
        if pick() < 0.03:
            return self.random.choice([-1, high + 1, 1 << 64, -(1 << 63), 10 ** 300, 1.5, "1", None, b"1", [], True])
        if pick() < 0.6:
            return self.random.randrange(min(4, high + 1))
        return self.random.choice([high, high - 1, high // 2, self.random.randint(0, high)])

    def data(self) -> Any:
        pick = self.random.random()
        if pick < 0.03:
            return self.random.choice([7, 10 ** 10, None, "text", [1], object(), 1.5])
        if pick < 0.6 and self.datagrams:
            found = bytearray(self.random.choice(self.datagrams))
            if self.random.random() < 0.3 and found:
                found[self.random.randrange(len(found))] ^= 1 << self.random.randrange(8)
            return self.random.choice([bytes, bytearray, memoryview])(bytes(found))
        size = self.random.choice([0, 1, 2, 12, 13, 40, 200, 1500, 5000])
        head = self.random.choice([b"", b"\0\0\0\1\x65", b"\x10", b"\x82\x49\x83\x42", b"\x0a\x01"])
        return (head + self.random.randbytes(size))[:max(size, 1)]

    def text(self) -> Any:
        pick = self.random.random()
        if pick < 0.03:
            return self.random.choice([7, None, b"\xff", "\ud800", [], "v=0\r\n" * 100, "x" * 5000])
        if pick < 0.7 and self.texts:
            found = self.random.choice(self.texts)
            if self.random.random() < 0.3:
                at = self.random.randrange(len(found))
                line = self.random.choice(["", "\r\n", "a=mid:x\r\n", "m=audio 9 RTP/AVP 0\r\n"])
                found = found[:at] + line + found[at + 1:]
            return found
        return self.random.choice(["", "v=0\r\n", "a", "x" * 17, "v=0\r\no=- 1 2 IN IP4 0.0.0.0\r\ns=-\r\nt=0 0\r\n"])

    def mid(self) -> Any:
        if self.random.random() < 0.05:
            return self.random.choice(["", "a-b", "x" * 17, "\ud800", 7, None])
        return self.random.choice(["a", "v", "a", "v", "b"])

    def ssrcs(self) -> Any:
        return [self.number(0xffffffff) if self.random.random() < 0.1 else self.random.randrange(8)
                for _ in range(self.random.randrange(3))]

    def repairs(self) -> Any:
        return {self.random.randrange(8): self.number(0xffffffff)} if self.random.random() < 0.2 else {}

    def direction(self) -> Any:
        return 7 if self.random.random() < 0.01 else self.random.choice(list(Direction))

    def section(self) -> Any:
        if self.random.random() < 0.01:
            return self.random.choice([None, 7, "a"])
        mid = self.mid()
        return Section(mid, mid == "v", self.direction(), self.ssrcs(), self.repairs())

    def request(self) -> Any:
        if self.random.random() < 0.2:
            return self.random.choice([None, None, 7])
        return SectionRequest(self.direction(), self.ssrcs(), self.repairs())

    def row(self) -> Any:
        if self.random.random() < 0.02:
            return self.random.choice([None, 7])
        codec = self.random.choice(CODECS)
        return Row(self.number(127), codec, self.random.choice([8000, 16000, 48000, 90000, self.number(0xffffffff)]),
                   channels=self.random.choice([None, None, 2, self.number(255)]),
                   resend=self.random.choice([None, self.number(127)]),
                   red=self.random.choice([None, self.number(127)]),
                   format=self.random.choice(["", "", "minptime=10", "octet-align=1", "x" * 300, "\r\n"]))

    def values(self) -> Any:
        if self.random.random() < 0.5:
            return Values()
        return Values(**{name: self.number(255) for name in self.random.sample(
            ["audio_level", "voice_activity", "abs_send_time", "transport_cc", "video_orientation", "play_delay_min",
             "play_delay_max", "video_content_type", "capture_time", "clock_offset"], 3)})

    def header(self) -> Any:
        if self.random.random() < 0.02:
            return self.random.choice([None, 7, ExtensionIds()])
        return Header(has_padding=self.random.random() < 0.5, payload_type=self.number(127), ssrc=self.number(9),
                      csrc_count=self.number(15), csrc=tuple(self.number(3) for _ in range(3)))

    def argument(self, name: str) -> Any:
        makers: dict[str, Callable[[], Any]] = {
            "mid": self.mid, "ssrc": lambda: self.random.randrange(8), "values": self.values, "header": self.header,
            "sections": lambda: [self.section() for _ in range(self.random.randrange(3))],
            "requests": lambda: [self.request() for _ in range(self.random.randrange(3))],
            "rows": lambda: [self.row() for _ in range(self.random.randrange(4))],
            "extensions": lambda: {uri: self.number(16) for uri in self.random.sample(
                [*jilqamur.EXTENSIONS.values(), "urn:x y", "\ud800"], 2)},
            "ids": lambda: ExtensionIds(**{name: self.number(16) for name in ("mid", "audio_level", "rid")}),
            "format": lambda: Format(self.random.choice([48000, 90000, 8000, self.number(0xffffffff)]),
                                     self.random.choice([None, True, False]),
                                     self.random.choice([None, self.number(9)])),
            "codec": lambda: self.random.choice([*CODECS, self.text()]), "distances": lambda: self.random.choice(
                [None, [1, 3], [9], self.data(), [self.number(255)]]),
            "mtu": lambda: self.random.choice([2, 30, 1200, self.number(1 << 64)]),
            "limit": lambda: self.random.choice([60, 1400, self.number(1 << 64)]),
            "held": lambda: self.random.choice([4096, 4096, 16384, self.number(1 << 64)]),
            "setup": lambda: self.random.choice([*Setup, self.number(255)]),
            "hash": lambda: self.random.choice(["sha-256", self.text()]),
            "ufrag": lambda: self.random.choice(["abcd", self.text()]),
            "password": lambda: self.random.choice(["p" * 22, self.text()]),
            "payload_type": lambda: self.random.choice([111, 96, 111, 96, self.number(127)]),
            "stream": lambda: self.random.choice([0, 0, 1, 1, 2, 3, self.number((1 << 64) - 1)]),
            "number": lambda: self.random.choice([self.number((1 << 64) - 1), self.random.randrange(200)]),
            "missing": lambda: [self.number((1 << 64) - 1) if self.random.random() < 0.1 else 3 * k
                                for k in range(self.random.randrange(5))],
        }
        if name in makers:
            return makers[name]()
        if name in ("datagram", "sample", "payload", "behind", "digest"):
            return self.data()
        if name in ("offer", "answer", "own", "said") or name == "session" and self.random.random() < 0.5:
            return self.text()
        return self.number({"low": 0xffff, "sequence_number": 0xffff, "picture_id": 0x7fff,
                            "timestamp": 0xffffffff, "at": 0xffffffff, "most": 0xffffffff,
                            "most_bytes": 0xffffffff}.get(name, (1 << 64) - 1))

    def given(self, call: Callable[..., Any]) -> tuple[list[Any], dict[str, Any]]:
        args, named = [], {}
        for name, is_needed in parameters_of(getattr(call, "__func__", call)):
            if is_needed:
                args.append(self.argument(name))
            elif self.random.random() < 0.4:
                named[name] = self.argument(name)
        return args, named

    def keep(self, told: Any) -> None:
        """Keeps texts and datagrams, for later calls."""
        for each in told if isinstance(told, list) else [told]:
            if isinstance(each, bytes) and 12 <= len(each) <= 2000:
                self.datagrams.append(each)
            elif isinstance(each, str) and each.startswith("v=0"):
                self.texts.append(each)
        del self.datagrams[:-200], self.texts[:-20]


def pair(ends: list[Any]) -> None:
    """Two ends that agreed, for what needs streams."""
    a, b = (End([Row(111, "opus", 48000, channels=2), Row(96, "VP8", 90000, resend=97)],
                {jilqamur.EXTENSIONS["mid"]: 3}, session) for session in (1, 2))
    wanted = [[Section("a", False, ssrcs=[ssrc, ssrc + 6]),
               Section("v", True, ssrcs=[ssrc + 1], repairs={ssrc + 1: ssrc + 2})] for ssrc in (1, 4)]
    a.accept(b.answer(a.offer(wanted[0]), wanted[1]))
    a.open_sender("a", 1, 111), a.open_sender("v", 2, 96, mtu=30, limit=60)
    b.open_receiver("a", 1, 111, 2), b.open_receiver("v", 2, 96, 2)
    ends[:] = [*ends[-6:], a, b]


METHODS = {kind: [name for name, _ in inspect.getmembers(kind, inspect.isfunction) if not name.startswith("_")]
           for kind in OWNERS}


def run(seed: int, count: int, owners: dict[type, list[Any]], done: list[int], names: set[str]) -> None:
    maker, calls, raised = Maker(seed), 0, 0
    end = time.monotonic() + SECONDS
    while calls < count and time.monotonic() < end:
        pick = maker.random.random()
        kind = maker.random.choice([End, End, End, *OWNERS])
        name = ""
        try:
            if pick < 0.002:
                pair(owners[End])
            elif pick < 0.02:
                name = kind.__name__
                args, named = maker.given(kind.__init__)
                owners[kind] = [*owners[kind][-6:], kind(*args, **named)]
            elif pick < 0.1:
                name = maker.random.choice(FUNCTIONS)
                call = getattr(jilqamur, name)
                args, named = maker.given(call)
                call(*args, **named)
            elif owners[kind]:
                method = maker.random.choice(METHODS[kind])
                if method == "close" and maker.random.random() < 0.9:
                    continue
                name = f"{kind.__name__}.{method}"
                call = getattr(maker.random.choice(owners[kind]), method)
                args, named = maker.given(call)
                told = call(*args, **named)
                maker.keep(list(told) if inspect.isgenerator(told) else told)
            else:
                continue
            names.add(name)
        except Exception:
            raised += 1
        calls += 1
    done.append(calls)
    done.append(-raised)


class Random(unittest.TestCase):
    def test_random_calls(self) -> None:
        owners: dict[type, list[Any]] = {kind: [] for kind in OWNERS}
        pair(owners[End])
        done: list[int] = []
        names: set[str] = set()
        sys.setswitchinterval(1e-5)
        threads = [threading.Thread(target=run, args=(SEED * THREADS + k, CALLS // THREADS, owners, done, names))
                   for k in range(THREADS)]
        for thread in threads:
            thread.start()
        for thread in threads:
            thread.join()
        calls, raised = sum(n for n in done if n > 0), -sum(n for n in done if n < 0)
        wanted = {f"{kind.__name__}.{name}" for kind in OWNERS for name in METHODS[kind]} | set(FUNCTIONS)
        if CALLS >= 200000:
            self.assertEqual(wanted - names, set(), "some calls never returned")
        self.assertEqual(len(done), 2 * THREADS)
        print(f"{calls} calls from {THREADS} threads, seed {SEED}: {raised} raised", file=sys.stderr)


if __name__ == "__main__":
    unittest.main()
