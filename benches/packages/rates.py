"""What crates/benchmarks does, by the Python package: samples into datagrams, and datagrams received and polled."""

import sys
import time
from collections.abc import Callable

from jilqamur import End, Row, Section

MTU = 1200
SLICES = 60

H264 = "packetization-mode=1;profile-level-id=42001f"
LINES = [("opus", Row(111, "opus", 48000, channels=2), False, b"", 120),
         *((name, Row(111, name, 90000, format=form), True, head, size) for size in (12000, 196000)
           for name, form, head in (("VP8", "", b""), ("VP9", "profile-id=0", b"\x82\x49\x83\x42"),
                                    ("H264", H264, b"\0\0\0\1\x65")))]


def fastest(part: Callable[[], object]) -> int:
    least = 1 << 62
    for _ in range(SLICES):
        start = time.perf_counter_ns()
        part()
        least = min(least, time.perf_counter_ns() - start)
    return least


def agreed(row: Row, is_video: bool) -> tuple[End, End]:
    a, b = End([row], session=1), End([row], session=2)
    a.accept(b.answer(a.offer([Section("0", is_video, ssrcs=[44])]), [Section("0", is_video, ssrcs=[45])]))
    a.open_sender("0", 44, 111, mtu=MTU, limit=MTU + 200, picture_id=1 if is_video else None)
    b.open_receiver("0", 44, 111, hold_back=4)
    return a, b


def measure(name: str, row: Row, is_video: bool, head: bytes, size: int) -> None:
    a, b = agreed(row, is_video)
    sample = head + bytes([8]) * (size - len(head))
    rounds = max(1, 20000 // size)
    ticks = 0
    sent: list[list[bytes]] = []

    def send() -> None:
        nonlocal ticks, sent
        sent = []
        for _ in range(rounds):
            ticks += 960
            sent.append(a.push_sample(0, ticks, sample))

    def receive() -> None:
        for datagrams in sent:
            for datagram in datagrams:
                for unit in b.receive_units(datagram)[1]:
                    if len(unit.data) != size:
                        sys.exit("a unit isn't the sample")

    nanos = fastest(send)
    print(f"{name}, {size} bytes: {size * rounds * 1000 / nanos:.1f} MB a second sent", file=sys.stderr)
    least = 1 << 62
    for _ in range(SLICES):
        send()
        start = time.perf_counter_ns()
        receive()
        least = min(least, time.perf_counter_ns() - start)
    print(f"{name}, {size} bytes: {size * rounds * 1000 / least:.1f} MB a second received and polled", file=sys.stderr)


for line in LINES:
    measure(*line)
