"""Two ends over UDP in one loop of asyncio, without encryption: one sends ten samples, the other prints its units."""

import asyncio

from jilqamur import End, Row, Section, Taken

OPUS = Row(111, "opus", 48000, channels=2)
SAMPLES = 10


class Receiving(asyncio.DatagramProtocol):
    """Hands datagrams to an end, and its units to a queue."""

    def __init__(self, end: End, units: asyncio.Queue) -> None:
        self.end, self.units = end, units

    def datagram_received(self, data: bytes, _address: tuple[str, int]) -> None:
        taken = self.end.receive(data)
        if isinstance(taken, Taken):
            for unit in self.end.units(taken.stream):
                self.units.put_nowait(unit)


def agreed() -> tuple[End, End]:
    """Two ends that agree on Opus: stream 0 of the first one sends to stream 0 of the second one."""
    a, b = End([OPUS], session=1), End([OPUS], session=2)
    offer = a.offer([Section("0", is_video=False, ssrcs=[44])])
    a.accept(b.answer(offer, [Section("0", is_video=False, ssrcs=[45])]))
    a.open_sender("0", 44, 111, first=1000)
    b.open_receiver("0", 44, 111, hold_back=2)
    return a, b


async def send(end: End, transport: asyncio.DatagramTransport) -> None:
    for k in range(SAMPLES):
        for datagram in end.push_sample(0, 960 * k, bytes([k, 2, 3])):
            transport.sendto(datagram)
        await asyncio.sleep(0.02)


async def main() -> None:
    a, b = agreed()
    loop, units = asyncio.get_running_loop(), asyncio.Queue()
    inward, _ = await loop.create_datagram_endpoint(lambda: Receiving(b, units), local_addr=("127.0.0.1", 0))
    address = inward.get_extra_info("sockname")
    outward, _ = await loop.create_datagram_endpoint(asyncio.DatagramProtocol, remote_addr=address)
    sending = asyncio.create_task(send(a, outward))
    for _ in range(SAMPLES):
        unit = await asyncio.wait_for(units.get(), timeout=5)
        print(f"at {unit.time}: {list(unit.data)}")
    await sending
    for transport in (inward, outward):
        transport.close()


if __name__ == "__main__":
    asyncio.run(main())
