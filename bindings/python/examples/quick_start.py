"""Two ends agree on Opus; one sends three samples, and the other prints them."""

from jilqamur import End, Row, Section, Taken

OPUS = Row(111, "opus", 48000, channels=2, format="minptime=10;useinbandfec=1")


def main() -> None:
    a, b = End([OPUS], session=1), End([OPUS], session=2)
    offer = a.offer([Section("0", is_video=False, ssrcs=[44])])  # the two texts are all that travels
    a.accept(b.answer(offer, [Section("0", is_video=False, ssrcs=[45])]))
    sender = a.open_sender("0", 44, 111, first=1000)
    b.open_receiver("0", 44, 111, hold_back=4)
    for k in range(3):
        # The datagrams of a sample would go out to the network; here they go to b.
        for datagram in a.push_sample(sender, 960 * k, bytes([k, 2, 3])):
            taken = b.receive(datagram)
            if isinstance(taken, Taken):
                for unit in b.units(taken.stream):
                    print(f"at {unit.time}: {list(unit.data)}")


if __name__ == "__main__":
    main()
