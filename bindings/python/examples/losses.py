"""What becomes of video over a path that loses datagrams, with and without retransmissions: one end sends 300 frames to
another over a path that loses some, by a seed; after each frame the receiver asks for what is missing. Prints how many
frames arrive at each rate of loss, and draws both lines into a file where matplotlib is there.

    python3 losses.py [SEED] [FILE.png]
"""

import random
import sys

from jilqamur import End, Row, Section, Taken

VP8 = Row(96, "VP8", 90000, resend=97)
FRAMES = 300


def ends() -> tuple[End, End]:
    """Two ends that agreed on VP8 with retransmissions; the first one sends stream 0, the second one receives it."""
    a, b = End([VP8], session=1), End([VP8], session=2)
    offer = a.offer([Section("0", is_video=True, ssrcs=[44], repairs={44: 45})])
    a.accept(b.answer(offer, [Section("0", is_video=True, ssrcs=[46])]))
    a.open_sender("0", 44, 96, mtu=300)
    b.open_receiver("0", 44, 96, hold_back=8)
    return a, b


def arrived(rate: float, repairs: bool, chance: random.Random) -> int:
    """How many of the frames arrive."""
    a, b = ends()
    count = 0

    def receive(datagram: bytes) -> int:
        if chance.random() < rate:
            return 0
        taken = b.receive(datagram)
        return sum(1 for _ in b.units(taken.stream)) if isinstance(taken, Taken) else 0

    for frame in range(FRAMES):
        datagrams = a.push_sample(0, 3000 * frame, bytes([0x10]) + chance.randbytes(900))
        missing = []
        for datagram in datagrams:
            if chance.random() < rate:
                missing.append(datagram)
            else:
                b.receive(datagram)
        count += sum(1 for _ in b.units(0))
        for datagram in missing if repairs else ():
            count += receive(a.repair(0, datagram))
    while b.drain(0):
        count += 1
    return count


def main() -> None:
    seed = int(sys.argv[1]) if sys.argv[1:] else 1
    rates = [percent / 100 for percent in (0, 1, 2, 5, 10, 20)]
    plain = [arrived(rate, False, random.Random(seed)) for rate in rates]
    repaired = [arrived(rate, True, random.Random(seed)) for rate in rates]
    for rate, without, with_repairs in zip(rates, plain, repaired):
        print(f"{rate:4.0%} lost: {without:3d} of {FRAMES} frames, {with_repairs:3d} with retransmissions")
    if not sys.argv[2:]:
        return
    try:
        from matplotlib import pyplot
    except ImportError:
        print("no picture: matplotlib isn't there")
        return
    pyplot.plot(rates, plain, label="without retransmissions")
    pyplot.plot(rates, repaired, label="with retransmissions")
    pyplot.xlabel("datagrams lost")
    pyplot.ylabel(f"frames of {FRAMES} that arrive")
    pyplot.legend()
    pyplot.savefig(sys.argv[2])


if __name__ == "__main__":
    main()
