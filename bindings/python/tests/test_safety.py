"""No argument and no thread ends the process or is taken for another one: each is taken as it is, or an exception."""

import copy
import pickle
import threading
import unittest
from collections.abc import Callable

from jilqamur import (Code, Depacketizer, Direction, End, ExtensionIds, Format, Forwarder, Header, NackRequester,
                      PacketHistory, Packetizer, Place, Receiver, Refused, Row, Section, SectionRequest, Sender,
                      Setup, Taken, Values, Window, packet_info, payload_of, read_header, read_values, widen,
                      write_header)

from test_calls import MID, OPUS, PLAIN, agreed

TRANSPORT = {"ufrag": "abcd", "password": "passwordpasswordpassword", "digest": bytes([0xab, 0xcd])}
RATE = Format(48000)


def end_of(row: Row) -> End:
    return End([row])


class Widths(unittest.TestCase):
    """Each number with the least one above its field, and one below it; the exception names the argument."""

    def check(self, name: str, bits: int, call: Callable[[int], object], is_signed: bool = False) -> None:
        least = -(1 << bits - 1) if is_signed else 0
        for number in (least - 1, least + (1 << bits), 10 ** 5000, -1 << 70):
            with self.assertRaises(OverflowError, msg=f"{name}={number.bit_length()} bits") as raised:
                call(number)
            self.assertIn(name, str(raised.exception))
        for other in ("1", 1.5, b"1", *([] if name in MAY_BE_NONE else [None])):
            with self.assertRaises(TypeError, msg=f"{name}={other!r}"):
                call(other)  # type: ignore[arg-type]

    def test_rows_and_ends(self) -> None:
        self.check("payload_type", 8, lambda n: end_of(Row(n, "opus", 48000)))
        self.check("clock_rate", 32, lambda n: end_of(Row(111, "opus", n)))
        self.check("channels", 8, lambda n: end_of(Row(111, "opus", 48000, channels=n)))
        self.check("resend", 8, lambda n: end_of(Row(111, "opus", 48000, resend=n)))
        self.check("red", 8, lambda n: end_of(Row(111, "opus", 48000, red=n)))
        self.check("session", 64, lambda n: End([OPUS], session=n))
        self.check("extensions", 8, lambda n: End([OPUS], {MID: n}))

    def test_sections(self) -> None:
        a, _ = agreed()
        self.check("ssrcs", 32, lambda n: a.offer([Section("a", False, ssrcs=[n])]))
        self.check("ssrcs", 32, lambda n: a.answer_browser("", [SectionRequest(ssrcs=[1, n])]))
        self.check("repairs", 32, lambda n: a.offer([Section("a", False, ssrcs=[1], repairs={n: 1})]))
        self.check("repairs", 32, lambda n: a.answer("", [Section("a", False, ssrcs=[1], repairs={1: n})]))
        self.check("setup", 8, lambda n: a.for_browser("", n, **TRANSPORT))  # type: ignore[arg-type]

    def test_opening(self) -> None:
        a, b = agreed()
        for call in (a.open_sender, lambda *given: b.open_receiver(*given, 2),
                     lambda *given: b.open_unsignalled(*given, 2)):
            self.check("ssrc", 32, lambda n: call("a", n, 111))
            self.check("payload_type", 8, lambda n: call("a", 10, n))
        for name, bits in (("first", 64), ("mtu", 64), ("limit", 64), ("picture_id", 16)):
            self.check(name, bits, lambda n: a.open_sender("a", 10, 111, **{name: n}))
        self.check("distances", 8, lambda n: a.open_sender("a", 10, 111, distances=[1, n]))
        for name in ("hold_back", "held"):
            self.check(name, 64, lambda n: b.open_receiver("a", 10, 111, **{"hold_back": 2, name: n}))
            self.check(name, 64, lambda n: b.open_unsignalled("a", 10, 111, **{"hold_back": 2, name: n}))

    def test_streams_of_ends(self) -> None:
        a, b = agreed()
        for call in (lambda n: a.push_sample(n, 0, b"1"), lambda n: a.repair(n, PLAIN), b.poll, b.drain, b.missing,
                     lambda n: list(b.units(n)), lambda n: b.take_number(n, 1), lambda n: b.is_passed(n, 1),
                     lambda n: b.pass_to(n, 1), lambda n: b.pass_empty(n, 1), lambda n: b.keep_within(n, 1),
                     a.next_number, lambda n: a.skip_to(n, 1), a.close_sender, b.close_receiver,
                     lambda n: a.send_packet(n, 1, 1, True, b"1")):
            self.check("stream", 64, call)
        self.check("ticks", 64, lambda n: a.push_sample(0, n, b"1"))
        self.check("low", 16, lambda n: b.take_number(0, n))
        for call in (b.is_passed, b.pass_to, b.pass_empty, a.skip_to,
                     lambda at, n: a.send_packet(at, n, 1, True, b"1")):
            self.check("number", 64, lambda n: call(0, n))
        self.check("count", 64, lambda n: b.keep_within(0, n))
        self.check("timestamp", 32, lambda n: a.send_packet(0, 1, n, True, b"1"))

    def test_values(self) -> None:
        a, _ = agreed()
        for name, bits, is_signed in VALUES:
            self.check(name, bits, lambda n: a.push_sample(0, 0, b"1", Values(**{name: n})), is_signed)
            self.check(name, bits, lambda n: a.send_packet(0, 1, 1, True, b"1", Values(**{name: n})), is_signed)

    def test_codecs(self) -> None:
        self.check("clock_rate", 32, lambda n: Packetizer("VP8", Format(n)))
        self.check("max_don_diff", 16, lambda n: Packetizer("H265", Format(90000, max_don_diff=n)))
        self.check("picture_id", 16, lambda n: Packetizer("VP8", Format(90000), picture_id=n))
        self.check("mtu", 64, lambda n: Packetizer("VP8", Format(90000)).packetize(n, b"1"))
        for kind in (Depacketizer, Receiver):
            self.check("hold_back", 64, lambda n: kind("VP8", Format(90000), n))
            self.check("held", 64, lambda n: kind("VP8", Format(90000), 2, n))
        depacketizer = Depacketizer("VP8", Format(90000), 2)
        self.check("number", 64, lambda n: depacketizer.push(n, 1, True, b"1"))
        self.check("timestamp", 32, lambda n: depacketizer.push(1, n, True, b"1"))
        for name, bits in (("ssrc", 32), ("payload_type", 8), ("mtu", 64), ("first", 64), ("limit", 64),
                           ("picture_id", 16)):
            given = {"ssrc": 1, "payload_type": 1, "mtu": 1200}
            self.check(name, bits, lambda n: Sender("opus", RATE, **{**given, name: n}))
        self.check("ticks", 64, lambda n: Sender("opus", RATE, 1, 1, 1200).push_sample(n, b"1"))
        receiver = Receiver("opus", RATE, 2)
        self.check("sequence_number", 16, lambda n: receiver.push(n, 1, True, b"1"))
        self.check("timestamp", 32, lambda n: receiver.push(1, n, True, b"1"))

    def test_headers_and_numbers(self) -> None:
        for name, bits in (("payload_type", 8), ("sequence_number", 16), ("timestamp", 32), ("ssrc", 32),
                           ("csrc_count", 32), ("header_len", 64)):
            self.check(name, bits, lambda n: write_header(Header(**{name: n})))
            self.check(name, bits, lambda n: setattr(Header(), name, n))
        self.check("csrc", 32, lambda n: Header(csrc=(1, n)))
        self.check("csrc", 32, lambda n: Header().csrc.__setitem__(3, n))
        self.check("csrc", 32, lambda n: Header().csrc.__setitem__(slice(0, 2), [1, n]))
        for name in ("audio_level", "abs_send_time", "mid", "repaired_rid"):
            self.check(name, 8, lambda n: read_values(PLAIN, ExtensionIds(**{name: n})))
        self.check("previous", 64, lambda n: widen(n, 1))
        self.check("low", 16, lambda n: widen(1, n))

    def test_nacks(self) -> None:
        self.check("most", 32, lambda n: PacketHistory(n, 1))
        self.check("most_bytes", 32, lambda n: PacketHistory(1, n))
        self.check("most", 32, lambda n: NackRequester(n, 1))
        self.check("delay", 64, lambda n: NackRequester(1, n))
        history, requester = PacketHistory(9, 99), NackRequester(1, 1)
        self.check("number", 64, lambda n: history.keep(n, b"1"))
        self.check("low", 16, history.asked)
        self.check("missing", 64, lambda n: requester.ask([n], 1, 1))
        self.check("now", 64, lambda n: requester.ask([1], n, 1))
        self.check("round_trip", 64, lambda n: requester.ask([1], 1, n))

    def test_forwarders(self) -> None:
        self.check("first", 64, Forwarder)
        forwarder = Forwarder(1)
        for call in (lambda *given: forwarder.switch(*given, 1), forwarder.place,
                     lambda *given: forwarder.forward(*given, True)):
            self.check("source", 64, lambda n: call(n, 1, 1))
            self.check("number", 64, lambda n: call(1, n, 1))
            self.check("timestamp", 32, lambda n: call(1, 1, n))
        self.check("at", 32, lambda n: forwarder.switch(1, 1, 1, n))
        self.check("number", 64, forwarder.skip_to)
        self.check("number", 64, forwarder.end_at)


VALUES = (("audio_level", 8, True), ("abs_send_time", 64, False), ("transport_cc", 16, False),
          ("video_orientation", 8, False), ("play_delay_min", 16, False), ("play_delay_max", 16, False),
          ("video_content_type", 8, False), ("capture_time", 64, False), ("clock_offset", 64, True))
MAY_BE_NONE = {"picture_id", "channels", "resend", "red", "limit", "max_don_diff", *(value[0] for value in VALUES)}


class Bytes(unittest.TestCase):
    def calls(self) -> list[Callable[[object], object]]:
        a, b = agreed()
        depacketizer, receiver = Depacketizer("VP8", Format(90000), 2), Receiver("opus", RATE, 2)
        return [a.receive, a.receive_units, a.arrival, lambda it: a.push_sample(0, 0, it), lambda it: a.repair(0, it),
                lambda it: a.send_packet(0, 1, 1, True, it), read_header, lambda it: read_values(it, ExtensionIds()),
                lambda it: payload_of(Header(), it), lambda it: packet_info("VP8", it, True), Window().receive,
                lambda it: Packetizer("VP8", Format(90000)).packetize(9, it),
                lambda it: depacketizer.push(1, 1, True, it), lambda it: receiver.push(1, 1, True, it),
                lambda it: Sender("opus", RATE, 1, 1, 1200).push_sample(0, it),
                lambda it: a.for_browser("", Setup.ACTPASS, "abcd", "p" * 22, it)]

    def test_what_has_no_bytes_is_refused(self) -> None:
        for call in self.calls():
            for given in (7, 10 ** 10, None, "text", [1, 2], object(), 1.5):
                with self.assertRaises(TypeError, msg=repr(given)):
                    call(given)

    def test_what_has_bytes_is_taken(self) -> None:
        for given in (bytearray(PLAIN), memoryview(PLAIN), memoryview(bytes(2 * len(PLAIN)))[::2], b""):
            for call in self.calls():
                try:
                    call(given)
                except Refused:
                    pass
        self.assertEqual(repr(read_header(memoryview(PLAIN))), repr(read_header(PLAIN)))

    def test_texts_are_texts(self) -> None:
        a, _ = agreed()
        for call in (lambda it: a.answer(it, []), a.accept, a.accept_browser, lambda it: a.answer_browser(it, []),
                     lambda it: a.open_sender(it, 10, 111), lambda it: End([Row(1, it, 8000)]),
                     lambda it: Packetizer(it, Format(8000)), lambda it: packet_info(it, b"1", True)):
            for given in (7, 10 ** 10, None, [1], object()):
                with self.assertRaises(TypeError, msg=repr(given)):
                    call(given)
        for values in (None, 7, {}, Format(8000)):
            for call in (lambda: a.push_sample(0, 0, b"1", values), lambda: a.send_packet(0, 1, 1, True, b"1", values)):
                with self.assertRaises(TypeError):
                    call()
        for direction in (7, "sendrecv", (True, True), None):
            with self.assertRaises(TypeError):
                a.offer([Section("a", False, direction)])  # type: ignore[arg-type]


class Threads(unittest.TestCase):
    def together(self, run: Callable[[int], None], count: int = 8) -> list[BaseException]:
        raised: list[BaseException] = []

        def guarded(k: int) -> None:
            try:
                run(k)
            except BaseException as error:
                raised.append(error)

        threads = [threading.Thread(target=guarded, args=(k,)) for k in range(count)]
        for thread in threads:
            thread.start()
        for thread in threads:
            thread.join()
        return raised

    def test_eight_threads_at_one_end(self) -> None:
        a, b = agreed()
        heard: list[bytes] = []
        sent = {(k, turn): bytes([k, turn & 255, turn >> 8]) * (k + 1) for k in range(8) for turn in range(300)}

        def run(k: int) -> None:
            for turn in range(300):
                [datagram] = a.push_sample(0, turn, sample := sent[k, turn])
                if not datagram.endswith(sample):
                    raise AssertionError("a datagram of another thread's sample")
                taken, units = b.receive_units(datagram)
                heard.extend(unit.data for unit in units)
                if isinstance(taken, Taken):
                    heard.extend(unit.data for unit in b.units(taken.stream))
                b.missing(0)
                a.agreed_sections()
                a.push_sample(1, turn, bytes([0x10] * 100))

        self.assertEqual(self.together(run), [])
        while (unit := b.drain(0)) is not None:
            heard.append(unit.data)
        # A datagram whose thread slept is passed over, as one that comes late.
        self.assertEqual((len(set(heard)), set(heard) - set(sent.values())), (len(heard), set()))
        self.assertGreater(len(heard), 100)

    def test_eight_threads_at_one_codec(self) -> None:
        packetizer, depacketizer = Packetizer("VP8", Format(90000)), Depacketizer("VP8", Format(90000), 2)

        def run(k: int) -> None:
            for turn in range(300):
                packets = packetizer.packetize(10, bytes([0x10, k] * 20))
                if {packet.payload[-1] for packet in packets} - {0x10, k}:
                    raise AssertionError("a packet of another thread's sample")
                for packet in packets:
                    depacketizer.push(turn, turn, packet.marker, packet.payload)
                try:
                    depacketizer.pop()
                except Refused:
                    pass

        self.assertEqual(self.together(run), [])

    def test_close_beside_calls(self) -> None:
        for _ in range(40):
            a, b = agreed()

            def run(k: int) -> None:
                if k == 0:
                    a.close()
                    return
                for turn in range(50):
                    try:
                        for datagram in a.push_sample(0, turn, b"abc"):
                            b.receive(datagram)
                        b.poll(0)
                    except Refused as refused:
                        if refused.code != Code.CLOSED:
                            raise

            self.assertEqual(self.together(run, 4), [])


class Closed(unittest.TestCase):
    def test_a_closed_object_raises(self) -> None:
        a, b = agreed()
        a.close()
        a.close()
        calls = (lambda: a.offer([]), lambda: a.answer("", []), lambda: a.accept(""), a.withdraw, a.remote,
                 a.agreed_sections, lambda: a.push_sample(0, 0, b"1"), lambda: a.receive(PLAIN), lambda: a.poll(0),
                 lambda: list(a.units(0)), a.values, lambda: a.arrival(PLAIN), lambda: a.missing(0),
                 lambda: a.is_passed(0, 1), lambda: a.next_number(0), lambda: a.close_sender(0),
                 lambda: a.answer_browser("", []), lambda: a.receive_units(PLAIN))
        window, sender, receiver = Window(), Sender("opus", RATE, 1, 1, 1200), Receiver("opus", RATE, 2)
        packetizer, depacketizer = Packetizer("opus", RATE), Depacketizer("opus", RATE, 2)
        history, requester = PacketHistory(1, 1), NackRequester(1, 1)
        with Forwarder(1) as forwarder:
            forwarder.next()
        for owner in (window, sender, receiver, packetizer, depacketizer, history, requester):
            owner.close()
        for call in (*calls, lambda: window.receive(PLAIN), lambda: sender.push_sample(0, b"1"), receiver.poll,
                     receiver.drain, lambda: receiver.push(1, 1, True, b"1"), lambda: packetizer.packetize(9, b"1"),
                     depacketizer.pop, lambda: depacketizer.push(1, 1, True, b"1"), forwarder.next,
                     lambda: forwarder.place(1, 1, 1), lambda: forwarder.switch(1, 1, 1, 1),
                     lambda: history.keep(1, b"1"), lambda: history.asked(1), lambda: requester.ask([1], 1, 1)):
            with self.assertRaises(Refused) as raised:
                call()
            self.assertEqual(raised.exception.code, Code.CLOSED)

    def test_an_object_is_not_copied_nor_opened_twice(self) -> None:
        a, _ = agreed()
        for call in (lambda: copy.copy(a), lambda: copy.deepcopy(a), lambda: pickle.dumps(a)):
            with self.assertRaises(TypeError):
                call()
        with self.assertRaises(Refused) as raised:
            a.__init__([OPUS])  # type: ignore[misc]
        self.assertEqual(raised.exception.code, Code.IN_USE)
        with self.assertRaises(Refused) as raised:
            End.__new__(End).poll(0)
        self.assertEqual(raised.exception.code, Code.CLOSED)


class Gathered(unittest.TestCase):
    """A call that raises uses up what was gathered for it."""

    def offered(self) -> str:
        browser = End([OPUS], session=1)
        return browser.for_browser(browser.offer([Section("0", False, ssrcs=[44])]), Setup.ACTPASS, **TRANSPORT)

    def test_requests(self) -> None:
        offer, end = self.offered(), End([OPUS], session=2)
        good, bad = SectionRequest(Direction.RECVONLY), SectionRequest(ssrcs=[1 << 32])
        for requests in ([good, bad], [good, 7], [good, SectionRequest(direction=7)]):
            with self.assertRaises((OverflowError, TypeError, AttributeError)):
                end.answer_browser(offer, requests)  # type: ignore[arg-type]
        with self.assertRaises(TypeError):
            end.answer_browser(7, [good])  # type: ignore[arg-type]
        end.answer_browser(offer, [SectionRequest(Direction.SENDRECV, ssrcs=[45])])
        self.assertEqual(end.agreed_sections()[0].direction, Direction.SENDRECV)

    def test_sections(self) -> None:
        end = End([OPUS])
        good = Section("x", False, ssrcs=[1], repairs={1: 2})
        for bad in (Section("y", False, ssrcs=[1 << 32]), 7, Section("y" * 17, False), Section("y", False, 7),
                    Section(7, False), Section("y", False, ssrcs=[5], repairs={5: 1 << 40})):
            with self.assertRaises((OverflowError, TypeError, AttributeError, Refused)):
                end.offer([good, bad])  # type: ignore[list-item, arg-type]
        self.assertEqual(end.offer([Section("z", False, ssrcs=[3])]).count("a=mid:"), 1)

    def test_what_a_handler_interrupts(self) -> None:
        end = End([OPUS])

        class Stop(BaseException):
            pass

        def stop() -> None:
            raise Stop

        from jilqamur.library import lib
        plain, calls = lib.end_section, []

        def section(*given: object) -> int:
            calls.append(1)
            return stop() if len(calls) == 2 else plain(*given)  # type: ignore[func-returns-value]

        lib.end_section = section
        try:
            with self.assertRaises(Stop):
                end.offer([Section("x", False), Section("y", False)])
        finally:
            lib.end_section = plain
        self.assertEqual(end.offer([Section("z", False)]).count("a=mid:"), 1)


class Places(unittest.TestCase):
    def refused(self, call: Callable[[], object], code: Code, place: Place | None) -> str:
        with self.assertRaises(Refused) as raised:
            call()
        self.assertEqual((raised.exception.code, raised.exception.place), (code, place))
        return str(raised.exception)

    def test_rows_and_extensions(self) -> None:
        said = self.refused(lambda: End([OPUS, Row(0, "PCMU", 8000), Row(111, "VP8", 90000)]), Code.TYPES_NOT_DISTINCT,
                            Place(codec="VP8", payload_type=111))
        self.assertEqual(said, "a payload type stands for two things (row VP8 at type 111)")
        self.refused(lambda: End([OPUS, Row(9, "G722", 44100)]), Code.ROW_NOT_PLAIN,
                     Place(codec="G722", payload_type=9))
        self.refused(lambda: End([Row(9, "G722", 0)]), Code.OUT_OF_RANGE, Place(codec="G722", payload_type=9))
        said = self.refused(lambda: End(extensions={"urn:a": 17}), Code.OUT_OF_RANGE, Place(extension=17, uri="urn:a"))
        self.assertEqual(said, "a number is out of range (extension urn:a at id 17)")
        self.refused(lambda: End([OPUS], {"urn:a": 1, "urn:b c": 2}), Code.NOT_WRITABLE,
                     Place(extension=2, uri="urn:b c"))

    def test_a_refusal_goes_to_other_processes(self) -> None:
        refused = pickle.loads(pickle.dumps(Refused(Code.NO_STREAM, Place(stream=7))))
        self.assertEqual((refused.code, refused.place, str(refused)),
                         (Code.NO_STREAM, Place(stream=7), "no such stream is open (stream 7)"))

    def test_sections_and_streams(self) -> None:
        end = End([OPUS])
        said = self.refused(lambda: end.offer([Section("v", True, ssrcs=[44])]), Code.NO_COMMON_ROW, Place(mids=("v",)))
        self.assertEqual(said, "a section would list no row (section v)")
        said = self.refused(lambda: end.push_sample(7, 0, b"1"), Code.NO_STREAM, Place(stream=7))
        self.assertEqual(said, "no such stream is open (stream 7)")
        said = self.refused(lambda: end.open_receiver("0", 44, 111, 2), Code.NO_SECTION,
                            Place(mids=("0",), ssrc=44, payload_type=111))
        self.assertEqual(said, "no such section is agreed (section 0, SSRC 44, type 111)")
        self.refused(lambda: end.accept("v=0\r\n"), Code.TEXT_UNREADABLE, None)
        said = self.refused(lambda: Sender("flac", RATE, 1, 111, 1200), Code.OUT_OF_RANGE, Place(codec="flac"))
        self.assertEqual(said, "a number is out of range (codec flac)")
        two = [Section("v", True), Section("w", True)]
        said = self.refused(lambda: end.offer(two), Code.NO_COMMON_ROW, Place(mids=("v", "w")))
        self.assertIn("(sections v, w)", said)

    def test_mids_that_would_be_changed_are_refused(self) -> None:
        a, b = agreed()
        for mid in ("a" * 17, "a-b", "a b", "ä", "a\n"):
            at = Place(mids=(mid,), ssrc=10, payload_type=111)
            self.refused(lambda: a.offer([Section(mid, False)]), Code.MID_NOT_KEPT, Place(mids=(mid,)))
            self.refused(lambda: b.answer("", [Section(mid, False)]), Code.MID_NOT_KEPT, Place(mids=(mid,)))
            self.refused(lambda: a.open_sender(mid, 10, 111), Code.MID_NOT_KEPT, at)
            self.refused(lambda: b.open_receiver(mid, 10, 111, 2), Code.MID_NOT_KEPT, at)
            self.refused(lambda: b.open_unsignalled(mid, 10, 111, 2), Code.MID_NOT_KEPT, at)
            self.refused(lambda: a.push_sample(0, 0, b"1", mid=mid), Code.MID_NOT_KEPT, Place(mids=(mid,)))
            self.refused(lambda: a.send_packet(0, 1, 1, True, b"1", mid=mid), Code.MID_NOT_KEPT, Place(mids=(mid,)))
        self.assertIn("a=mid:abcdefghij_12345", End([OPUS]).offer([Section("abcdefghij_12345", False)]))

    def test_an_mtu_of_0_is_refused(self) -> None:
        self.refused(lambda: Packetizer("VP8", Format(90000)).packetize(0, b"1"), Code.OUT_OF_RANGE, None)
        a, _ = agreed()
        self.refused(lambda: a.open_sender("a", 10, 111, mtu=0), Code.OUT_OF_RANGE,
                     Place(mids=("a",), ssrc=10, payload_type=111))


if __name__ == "__main__":
    unittest.main()
