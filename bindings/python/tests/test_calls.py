"""Each call of the package, with values that are known from outside."""

import threading
import unittest
from pathlib import Path

from jilqamur import (Arrival, Code, Depacketizer, Direction, EXTENSIONS, End, Event, ExtensionIds, FaultyLine,
                      Format, Forwarder, Header, LineFault, NackRequester, PacketHistory, PacketInfo, Packetizer,
                      Placed, Receiver, Refused, Row, Section, SectionRequest, Sender, Setup, Taken, Values, Verdict,
                      Window, faulty_line, packet_info, payload_of, read_header, read_values, widen, write_header)

PLAIN = bytes([0x90, 0xe0, 0, 7, 0, 0, 3, 0xc0, 0, 0, 0, 44, 0xbe, 0xde, 0, 2, 0x10, 0x9e, 0x31, 97, 118, 0x50, 104, 0,
               1, 2, 3, 4])
OPUS = Row(111, "opus", 48000, channels=2)
VP8 = Row(96, "VP8", 90000, resend=97)
MID = EXTENSIONS["mid"]


def agreed() -> tuple[End, End]:
    """Two ends that agreed on audio and video; the first sends streams 0 and 1, which the second receives."""
    a, b = (End([OPUS, VP8], {MID: 3}, session) for session in (1, 2))
    wanted = [[Section("a", False, ssrcs=[ssrc]), Section("v", True, ssrcs=[ssrc + 1], repairs={ssrc + 1: ssrc + 2})]
              for ssrc in (10, 20)]
    a.accept(b.answer(a.offer(wanted[0]), wanted[1]))
    streams = (a.open_sender("a", 10, 111, first=100), a.open_sender("v", 11, 96, first=100, mtu=30, limit=60),
               b.open_receiver("a", 10, 111, 2), b.open_receiver("v", 11, 96, 2))
    assert streams == (0, 1, 0, 1)
    return a, b


def talking(row: Row, extensions: dict[str, int] | None = None, is_video: bool = False) -> tuple[End, End]:
    """Two ends that agreed on one section; no stream is open."""
    a, b = (End([row], extensions, session) for session in (1, 2))
    a.accept(b.answer(a.offer([Section("0", is_video, ssrcs=[1])]), [Section("0", is_video, ssrcs=[2])]))
    return a, b


class Headers(unittest.TestCase):
    def test_a_header_is_read_and_written(self) -> None:
        header = read_header(PLAIN)
        self.assertEqual((header.marker, header.payload_type, header.sequence_number, header.timestamp, header.ssrc,
                          header.header_len), (True, 96, 7, 960, 44, 24))
        self.assertEqual(payload_of(header, PLAIN[24:]), bytes([1, 2, 3, 4]))
        written = write_header(Header(has_padding=True, payload_type=5, sequence_number=258, timestamp=3, ssrc=9))
        self.assertEqual(written.hex(), "a00501020000000300000009")
        self.assertEqual(payload_of(Header(has_padding=True), bytes([9, 8, 0, 0, 3])), bytes([9, 8]))

    def test_a_packet_tells_of_its_frame(self) -> None:
        vp8 = packet_info("VP8", bytes([0x90, 0x20, 0x80, 0x10]), True)
        self.assertEqual(vp8, PacketInfo(True, True, True, None, 2))
        self.assertEqual(packet_info("VP9", bytes([0x28, 0xa3, 0, 1]), False), PacketInfo(True, False, False, 1, 5))
        with self.assertRaises(Refused) as raised:
            packet_info("rtx", b"1", False)
        self.assertEqual(raised.exception.code, Code.OUT_OF_RANGE)

    def test_a_faulty_line_is_told(self) -> None:
        head = "v=0\r\no=- 1 2 IN IP4 0.0.0.0\r\ns=-\r\nt=0 0\r\n"
        self.assertIsNone(faulty_line(head))
        self.assertEqual(faulty_line("v=1\r\n"), FaultyLine(1, "v=1", LineFault.VERSION))
        self.assertEqual(str(faulty_line(head + "x=1\r\ny=2\r\n")), "line 5: fits nowhere: x=1")
        section = "m=audio 9 UDP/TLS/RTP/SAVPF 0"
        self.assertEqual(faulty_line(f"{head}{section}\r\na=sendrecv\r\n"),
                         FaultyLine(5, section, LineFault.MISSING_MID))
        with self.assertRaises(Refused) as raised:
            faulty_line(b"v=0\xff")
        self.assertEqual(raised.exception.code, Code.NOT_TEXT)

    def test_refusals_have_codes(self) -> None:
        for call, code in ((lambda: read_header(b"x"), Code.UNREADABLE),
                           (lambda: write_header(Header(payload_type=128)), Code.UNWRITABLE),
                           (lambda: payload_of(Header(has_padding=True), b"\0"), Code.DAMAGED),
                           (lambda: read_values(PLAIN, ExtensionIds(mid=17)), Code.OUT_OF_RANGE)):
            with self.assertRaises(Refused) as raised:
                call()
            self.assertEqual(raised.exception.code, code)

    def test_values_and_names_are_read_by_ids(self) -> None:
        values, names = read_values(PLAIN, ExtensionIds(audio_level=1, mid=3, rid=5))
        self.assertEqual((values.audio_level, values.voice_activity), (-30, True))
        self.assertEqual((names.mid, names.rid, names.repaired_rid), ("av", "h", None))

    def test_numbers_are_widened(self) -> None:
        self.assertEqual((widen(65534, 3), widen(65540, 65535)), (65539, 65535))
        with Window() as window:
            taken = [window.receive(bytes([0x80, 0, *low, 0, 0, 0, 0, 0, 0, 0, 0])) for low in
                     ((255, 255), (0, 1), (255, 255))]
        self.assertEqual(taken, [65535, 65537, None])


class Codecs(unittest.TestCase):
    def test_a_frame_is_cut_and_put_together(self) -> None:
        frame = bytes([0x10, *range(1, 30)])
        packets = Packetizer("VP8", Format(90000), picture_id=300).packetize(12, frame)
        self.assertEqual([packet.marker for packet in packets], [False] * (len(packets) - 1) + [True])
        self.assertTrue(all(len(packet.payload) <= 12 for packet in packets))
        depacketizer = Depacketizer("VP8", Format(90000), 2)
        for number, packet in reversed(list(enumerate(packets))):
            depacketizer.push(70000 + number, 9000, packet.marker, packet.payload)
        unit = depacketizer.pop()
        assert unit is not None
        self.assertEqual((unit.data, unit.first, unit.time, unit.is_keyframe, unit.picture_id),
                         (frame, 70000, 9000, True, 300))
        depacketizer.push(80000, 12000, packets[0].marker, packets[0].payload)
        self.assertIsNone(depacketizer.drain())

    def test_telephone_events_are_told(self) -> None:
        depacketizer = Depacketizer("telephone-event", Format(8000), 0)
        depacketizer.push(1, 160, True, bytes([5, 0x8a, 0x03, 0x20]))
        unit = depacketizer.pop()
        assert unit is not None
        self.assertEqual(unit.event, Event(5, True, 10, 100_000_000))

    def test_streams_without_an_end(self) -> None:
        sender = Sender("opus", Format(48000), ssrc=44, payload_type=111, mtu=1200, first=65535)
        datagrams = sender.push_sample(960, b"abc")
        self.assertEqual([datagram.hex() for datagram in datagrams], ["806fffff000003c00000002c616263"])
        receiver = Receiver("opus", Format(48000), 3)
        self.assertEqual([receiver.push(low, 0, False, bytes([low & 255])) for low in (65535, 1, 1)],
                         [65535, 65537, None])
        self.assertEqual([unit.data for unit in receiver.units()], [b"\xff"])
        drained = receiver.drain()
        assert drained is not None
        self.assertEqual((drained.data, drained.first), (b"\x01", 65537))

    def test_what_a_receiver_misses_and_gives_up(self) -> None:
        receiver = Receiver("opus", Format(48000), 3)
        for low in (1, 3):
            receiver.push(low, 0, False, bytes([low] * 3))
        self.assertEqual([unit.first for unit in receiver.units()], [1])
        self.assertEqual(receiver.missing(), [2])
        receiver.keep_within(3)
        self.assertEqual(receiver.missing(), [2])
        receiver.keep_within(2)
        self.assertEqual(receiver.missing(), [])
        receiver.push(5, 0, False, b"\x05")
        self.assertEqual(receiver.missing(), [4])
        receiver.pass_to(4)
        self.assertEqual([unit.first for unit in receiver.units()], [5])

    def test_a_codec_without_a_format_is_refused(self) -> None:
        with self.assertRaises(Refused) as raised:
            Packetizer("none", Format(90000))
        self.assertEqual(raised.exception.code, Code.OUT_OF_RANGE)


class Ends(unittest.TestCase):
    def test_what_is_agreed_is_told(self) -> None:
        a, _ = agreed()
        audio, video = a.agreed_sections()
        self.assertEqual((audio.mid, audio.direction, audio.rows, audio.ssrcs),
                         ("a", Direction.SENDRECV, (OPUS,), (20,)))
        self.assertEqual((video.is_video, video.rows, video.ssrcs), (True, (VP8,), (21,)))

    def test_samples_arrive_with_their_values(self) -> None:
        a, b = agreed()
        [datagram] = a.push_sample(0, 960, b"abc", mid="a")
        self.assertEqual(b.receive(datagram), Taken(0, 100))
        self.assertEqual(b.receive(datagram), Verdict.REFUSED)
        self.assertEqual([(unit.time, unit.data) for unit in b.units(0)], [(960, b"abc")])
        self.assertEqual(b.values(), Values())
        self.assertEqual(read_values(datagram, ExtensionIds(mid=3))[1].mid, "a")
        self.assertEqual(b.receive(b"x"), Verdict.UNREADABLE)
        self.assertEqual(b.receive(bytes([*datagram[:11], 99, *datagram[12:]])), Verdict.FOREIGN)

    def test_a_lost_datagram_is_retransmitted(self) -> None:
        a, b = agreed()
        frame = bytes([0x10, *range(1, 50)])
        lost, *others = a.push_sample(1, 3000, frame)
        for datagram in others:
            b.receive(datagram)
        self.assertIsNone(b.poll(1))
        repair = a.repair(1, lost)
        self.assertEqual((read_header(repair).ssrc, read_header(repair).payload_type), (12, 97))
        sent = lost[read_header(lost).header_len:]
        self.assertEqual(repair[read_header(repair).header_len:], lost[2:4] + sent)
        self.assertEqual(b.receive(repair), Taken(1, 100))
        self.assertEqual([unit.data for unit in b.units(1)], [frame])
        with self.assertRaises(Refused) as raised:
            a.repair(0, lost)
        self.assertEqual(raised.exception.code, Code.NO_REPAIR)

    def test_the_rest_is_drained(self) -> None:
        a, b = agreed()
        for k in range(3):
            [datagram] = a.push_sample(0, 960 * k, bytes([k]))
            if k != 1:
                b.receive(datagram)
        self.assertEqual([unit.data for unit in b.units(0)], [b"\0"])
        drained = b.drain(0)
        assert drained is not None
        self.assertEqual((drained.data, b.drain(0)), (b"\2", None))

    def test_a_browser_is_answered(self) -> None:
        a, b = (End([OPUS], session=session) for session in (1, 2))
        transport = {"ufrag": "abcd", "password": "passwordpasswordpassword", "digest": bytes([0xab, 0xcd])}
        own = a.offer([Section("0", False, ssrcs=[44])])
        offer = a.for_browser(own, Setup.ACTPASS, **transport)
        answered = b.answer_browser(offer, [SectionRequest(ssrcs=[45])])
        answer = b.for_browser(answered, Setup.PASSIVE, **transport, is_lite=True)
        a.accept_browser(answer)
        remote = a.remote()
        self.assertEqual((remote.ufrag, remote.password, remote.fingerprint, remote.setup, remote.is_lite),
                         ("abcd", transport["password"], "sha-256 AB:CD", Setup.PASSIVE, True))
        self.assertEqual(a.agreed_sections()[0].ssrcs, (45,))
        self.assertEqual((remote.candidates, b.remote().own_setup), ((), Setup.PASSIVE))
        a.take_types(answer)
        self.assertEqual(len(a.agreed_sections()[0].rows), 1)
        a.take_types(answer.replace("opus/48000/2", "none/48000/2"))
        self.assertEqual(len(a.agreed_sections()[0].rows), 0)
        with self.assertRaises(Refused) as raised:
            a.take_types("v=0\r\n")
        self.assertEqual(raised.exception.code, Code.TEXT_UNREADABLE)

    def test_an_offer_is_given_up(self) -> None:
        a, _ = agreed()
        self.assertFalse(a.withdraw())
        a.offer([Section("a", False, ssrcs=[10]), Section("v", True, ssrcs=[11])])
        self.assertTrue(a.withdraw())

    def test_g722_has_the_clock_rate_of_texts(self) -> None:
        a = End([Row(9, "G722", 8000)], session=1)
        self.assertIn("a=rtpmap:9 G722/8000", a.offer([Section("0", False, ssrcs=[1])]))

    def test_default_rows(self) -> None:
        offer = End(default_rows=True).offer([Section("0", True, Direction.SENDONLY, [7])])
        self.assertIn("VP8/90000", offer)


class EachThing(unittest.TestCase):
    """Each number and each flag that calls are given, and that they tell."""

    SENT = Values(audio_level=-5, voice_activity=True, abs_send_time=1_500_000, transport_cc=77, video_orientation=3,
                  play_delay_min=1, play_delay_max=4095, video_content_type=1, capture_time=1 << 40, clock_offset=-9)
    IDS = ExtensionIds(**{name: number for number, name in enumerate(EXTENSIONS, 1)})

    def test_values_travel(self) -> None:
        a, b = talking(OPUS, {uri: number for number, uri in enumerate(EXTENSIONS.values(), 1)})
        a.open_sender("0", 1, 111)
        b.open_receiver("0", 1, 111, 2)
        [datagram] = a.push_sample(0, 960, b"abc", self.SENT, "0")
        sent_on = a.send_packet(0, 700, 5, False, b"abc", self.SENT, "0")
        for each in (datagram, sent_on):
            arrival = b.arrival(each)
            assert isinstance(arrival, Arrival)
            self.assertEqual((arrival.values, arrival.payload), (self.SENT, b"abc"))
            self.assertEqual(read_values(each, self.IDS)[0], self.SENT)
        b.receive(datagram)
        self.assertEqual([unit.data for unit in b.units(0)], [b"abc"])
        self.assertEqual(b.values(), self.SENT)

    def test_no_value_is_told_in_place_of_none(self) -> None:
        a, b = talking(OPUS, {uri: number for number, uri in enumerate(EXTENSIONS.values(), 1)})
        a.open_sender("0", 1, 111)
        b.open_receiver("0", 1, 111, 2)
        for datagram in (a.push_sample(0, 960, b"abc")[0], a.send_packet(0, 700, 5, False, b"abc")):
            self.assertEqual(read_values(datagram, self.IDS)[0], Values())
            arrival = b.arrival(datagram)
            assert isinstance(arrival, Arrival)
            self.assertEqual(arrival.values, Values())

    def test_what_units_tell(self) -> None:
        # VP8's descriptor with picture id 5 and TL0PICIDX 7 (RFC 7741 4.2).
        frame = bytes([0x90, 0xe0, 5, 7, 0x20, 0x10, 1, 2])
        reports = bytes([5, 0x8a, 0x03, 0x20])
        wanted = Event(5, True, 10, 100_000_000)
        receiver = Receiver("VP8", Format(90000), 2)
        receiver.push(1, 0, True, frame)
        unit = receiver.poll()
        assert unit is not None
        self.assertEqual((unit.picture_id, unit.base_layer, unit.event, unit.data), (5, 7, None, frame[5:]))
        receiver = Receiver("telephone-event", Format(8000), 0)
        receiver.push(1, 160, True, reports)
        unit = receiver.poll()
        assert unit is not None
        self.assertEqual((unit.event, unit.picture_id, unit.base_layer), (wanted, None, None))
        depacketizer = Depacketizer("VP8", Format(90000), 2)
        depacketizer.push(1, 0, True, frame)
        unit = depacketizer.pop()
        assert unit is not None
        self.assertEqual((unit.picture_id, unit.base_layer, unit.event), (5, 7, None))
        events = Row(96, "telephone-event", 8000, format="0-16")
        for row, is_video, payload, told in ((Row(96, "VP8", 90000), True, frame, (5, 7, None)),
                                             (events, False, reports, (None, None, wanted))):
            a, b = talking(row, is_video=is_video)
            a.open_sender("0", 1, 96)
            b.open_receiver("0", 1, 96, 2)
            b.receive(a.send_packet(0, 1, 160, True, payload))
            [unit] = b.units(0)
            self.assertEqual((unit.picture_id, unit.base_layer, unit.event), told)

    def test_picture_ids_and_forms_for_browsers(self) -> None:
        frame = bytes([0x10, 1, 2, 3])
        descriptors = {(None, False): "10", (0, False): "10", (0, True): "908000", (300, False): "9080812c"}
        for (picture_id, for_browsers), head in descriptors.items():
            wanted = bytes.fromhex(head)
            packetizer = Packetizer("VP8", Format(90000), picture_id=picture_id, for_browsers=for_browsers)
            self.assertEqual(packetizer.packetize(100, frame)[0].payload, wanted + frame)
            sender = Sender("VP8", Format(90000), 1, 96, 100, picture_id=picture_id, for_browsers=for_browsers)
            self.assertEqual(sender.push_sample(0, frame)[0][12:], wanted + frame)
            a, _ = talking(Row(96, "VP8", 90000), is_video=True)
            a.open_sender("0", 1, 96, picture_id=picture_id, for_browsers=for_browsers)
            self.assertEqual(a.push_sample(0, 0, frame)[0][12:], wanted + frame)

    def test_formats(self) -> None:
        speech = bytes([0x44, *range(59), 0x38])  # of 477 bits
        unit = bytes([0, 0, 0, 1, 0x26, 1, *range(40)])
        for codec, sample, formats in (
                ("AMR-WB", speech, [Format(16000), Format(16000, octet_align=False), Format(16000, octet_align=True)]),
                ("H265", unit, [Format(90000), Format(90000, max_don_diff=0), Format(90000, max_don_diff=1)])):
            payloads = [Packetizer(codec, form).packetize(1200, sample)[0].payload for form in formats]
            self.assertEqual((payloads[0] == payloads[1], payloads[0] == payloads[2]), (True, False))
            for form, payload in zip(formats, payloads):
                sent = Sender(codec, form, 1, 96, 1200).push_sample(0, sample)
                self.assertEqual([datagram[12:] for datagram in sent], [payload])
                depacketizer, receiver = Depacketizer(codec, form, 2), Receiver(codec, form, 2)
                depacketizer.push(1, 0, True, payload)
                receiver.push(1, 0, True, payload)
                for found in (depacketizer.pop(), receiver.poll()):
                    assert found is not None
                    self.assertEqual(found.data, sample)

    def test_redundancy(self) -> None:
        a, _ = talking(Row(111, "opus", 48000, channels=2, red=63))
        a.open_sender("0", 1, 111, distances=[1, 2])
        sent = [a.push_sample(0, 960 * k, bytes([k]))[0][12:] for k in range(3)]
        # The type, and 14 bits of offset and 10 of length of each older payload (RFC 2198 3).
        self.assertEqual(sent[2].hex(), "ef1e0001ef0f00016f000102")

    def test_unsignalled_streams(self) -> None:
        a, b = (End([OPUS], session=session) for session in (1, 2))
        a.accept(b.answer(a.offer([Section("0", False)]), [Section("0", False, ssrcs=[2])]))
        b.open_sender("0", 2, 111)
        [first, second, third, fourth] = [b.push_sample(0, 960 * k, bytes([k]))[0] for k in range(4)]
        with self.assertRaises(Refused) as raised:
            a.open_unsignalled("0", 7, 111, 1)
        self.assertEqual(raised.exception.code, Code.SSRC_NOT_NAMED)
        c = End([OPUS], session=3)
        c.accept(End([OPUS], session=4).answer(c.offer([Section("0", False, ssrcs=[9])]), [Section("0", False)]))
        c.open_sender("0", 9, 111)
        self.assertEqual((c.open_unsignalled("0", 7, 111, 1), c.open_unsignalled("0", 2, 111, 0)), (1, 2))
        self.assertEqual(c.receive(first), Taken(2, 0))
        self.assertEqual([unit.data for unit in c.units(2)], [b"\0"])
        sender = Sender("opus", Format(48000), ssrc=7, payload_type=111, mtu=100)
        held = [sender.push_sample(960 * k, bytes([k]))[0] for k in range(4)]
        self.assertEqual([c.receive(held[0]), c.receive(held[2])], [Taken(1, 0), Taken(1, 2)])
        self.assertEqual([unit.data for unit in c.units(1)], [b"\0"])  # one frame is held back
        self.assertEqual(c.receive(held[3]), Taken(1, 3))
        self.assertEqual([unit.data for unit in c.units(1)], [b"\2", b"\3"])

    def test_candidates(self) -> None:
        browser, end = End([OPUS], session=1), End([OPUS], session=2)
        own = browser.offer([Section("0", False, ssrcs=[44])])
        offer = browser.for_browser(own, Setup.ACTPASS, "abcd", "passwordpasswordpassword", bytes([1]))
        wanted = [f"candidate:{k} 1 udp 2122260223 192.0.2.{k} {5000 + k} typ host" for k in (1, 2)]
        end.answer_browser(offer + "".join(f"a={line}\r\n" for line in wanted), [SectionRequest()])
        self.assertEqual(end.remote().candidates, tuple(wanted))

    def test_memory_is_given_back(self) -> None:
        a, b = agreed()
        datagrams = [a.push_sample(0, 960 * k, bytes([k]) * 10)[0] for k in range(6)]
        for k in (0, 2, 4):
            b.receive(datagrams[k])
        self.assertEqual([unit.data[0] for unit in b.units(0)], [0])
        self.assertEqual((b.missing(0), b.is_passed(0, 102)), ([101, 103], False))
        b.keep_within(0, 10)
        self.assertEqual((b.missing(0), b.is_passed(0, 102)), ([103], True))

    def test_a_rest_that_is_not_read(self) -> None:
        head = "v=0\r\no=- 1 2 IN IP4 0.0.0.0\r\ns=-\r\nt=0 0\r\n"
        line = "x=" + "1" * 300
        self.assertEqual(faulty_line(f"{head}{line}\r\n"), FaultyLine(5, line, LineFault.STRAY))


class Nacks(unittest.TestCase):
    def test_what_was_sent_is_kept(self) -> None:
        history, few = PacketHistory(4, 24), PacketHistory(2, 1000)
        datagram = bytes(range(1, 10))
        for number, size in zip(range(65533, 65538), (5, 1, 7, 8, 9)):
            history.keep(number, datagram[:size])
            few.keep(number, datagram[:size])
        history.keep(65536, b"xy")
        history.keep(65534, b"")
        lows = (65533, 65534, 65535, 0, 1)
        self.assertEqual([history.asked(low) for low in lows], [None, None, *(datagram[:size] for size in (7, 8, 9))])
        self.assertEqual([few.asked(low) for low in lows], [None, None, None, datagram[:8], datagram])
        history.keep(70000, bytes(3000))
        self.assertEqual([history.asked(low) for low in (1, 70000 - 65536)], [None, None])
        few.keep(131072, bytes(900))
        self.assertEqual([few.asked(low) for low in (0, 1)], [bytes(900), datagram])

    def test_what_to_ask_for(self) -> None:
        requester = NackRequester(2, 10)
        self.assertEqual(requester.ask([], 0, 50), [])
        calls = (([70, 71, 75], 100, []), ([70, 71, 75], 109, []), ([71, 75], 110, [71, 75]), ([71, 75], 159, []),
                 ([70, 71, 75], 160, [71, 75]), ([70, 71, 75], 210, [70]))
        for missing, now, told in calls:
            self.assertEqual(requester.ask(missing, now, 50), told)
        for numbers in ([3, 3], [4, 3]):
            with self.assertRaises(Refused) as raised:
                requester.ask(numbers, 300, 50)
            self.assertEqual(raised.exception.code, Code.OUT_OF_RANGE)


class Forwarding(unittest.TestCase):
    def test_padding_and_cut_frames(self) -> None:
        forwarder = Forwarder(1000)
        forwarder.switch(7, 500, 90000, 3000)
        self.assertEqual(forwarder.forward(7, 500, 90000, True), Placed(1000, 3000))
        self.assertEqual((forwarder.pass_empty(7, 501), forwarder.pass_empty(7, 504)), (True, False))
        self.assertEqual(forwarder.forward(7, 502, 93000, False), Placed(1001, 6000))
        forwarder.switch(8, 1, 0, 0)
        self.assertEqual(forwarder.forward(8, 1, 0, True), Placed(1003, 0))

    def test_sources_become_one_stream(self) -> None:
        forwarder = Forwarder(1000)
        self.assertIsNone(forwarder.place(7, 500, 0))
        forwarder.switch(7, 500, 90000, 3000)
        self.assertEqual(forwarder.forward(7, 502, 93000, True), Placed(1002, 6000))
        self.assertEqual((forwarder.place(7, 504, 96000), forwarder.next()), (Placed(1004, 9000), 1003))
        forwarder.skip_to(510)
        self.assertEqual(forwarder.forward(7, 511, 99000, True), Placed(1004, 12000))
        forwarder.end_at(514)
        self.assertEqual(forwarder.next(), 1007)

    def test_a_packet_is_sent_on(self) -> None:
        a, b = agreed()
        [datagram] = a.push_sample(0, 960, b"abc", mid="a")
        arrival = b.arrival(datagram)
        assert isinstance(arrival, Arrival)
        self.assertEqual((arrival.stream, arrival.low, arrival.timestamp, arrival.payload), (0, 100, 960, b"abc"))
        self.assertEqual((b.take_number(0, arrival.low), b.take_number(0, arrival.low)), (100, None))
        self.assertEqual(b.arrival(b"x"), Verdict.UNREADABLE)
        sent = read_header(a.send_packet(0, 500, 77, True, arrival.payload, arrival.values, "a"))
        self.assertEqual((sent.sequence_number, sent.timestamp, sent.marker, sent.ssrc), (500, 77, True, 10))
        with self.assertRaises(Refused) as raised:
            a.send_packet(0, 500, 77, True, b"")
        self.assertEqual(raised.exception.code, Code.NO_PAYLOAD)


class Numbers(unittest.TestCase):
    def test_missing_numbers_are_told_and_passed(self) -> None:
        a, b = agreed()
        self.assertEqual((b.missing(0), b.is_passed(0, 100)), ([], False))
        [first] = a.push_sample(0, 960, b"abc")
        self.assertEqual(b.receive(first), Taken(0, 100))
        self.assertIsNotNone(b.poll(0))
        self.assertEqual((b.is_passed(0, 100), b.is_passed(0, 101), a.next_number(0)), (True, False, 101))
        a.skip_to(0, 104)
        [later] = a.push_sample(0, 1920, b"def")
        self.assertEqual((b.receive(later), b.missing(0)), (Taken(0, 104), [101, 102, 103]))
        self.assertIsNone(b.poll(0))
        b.pass_to(0, 103)
        self.assertEqual((b.missing(0), b.poll(0).data), ([], b"def"))
        self.assertEqual((b.pass_empty(0, 105), b.pass_empty(0, 107), b.is_passed(0, 105)), (True, False, True))
        a.skip_to(0, 106)
        [last] = a.push_sample(0, 2880, b"ghi")
        b.receive(last)
        b.keep_within(0, 3)
        self.assertEqual(b.poll(0).data, b"ghi")

    def test_a_closed_stream_is_none(self) -> None:
        a, b = agreed()
        a.close_sender(0)
        b.close_receiver(0)
        for call in (a.next_number, a.close_sender, b.missing, b.close_receiver, b.poll):
            with self.assertRaises(Refused) as raised:
                call(0)
            self.assertEqual(raised.exception.code, Code.NO_STREAM)


class Threads(unittest.TestCase):
    def test_ends_of_many_threads_share_nothing(self) -> None:
        heard: list[bytes] = []

        def run(k: int) -> None:
            a, b = agreed()
            for ticks in range(50):
                b.receive(a.push_sample(0, ticks, bytes([k, ticks]))[0])
            heard.extend(unit.data for unit in b.units(0))

        threads = [threading.Thread(target=run, args=(k,)) for k in range(4)]
        for thread in threads:
            thread.start()
        for thread in threads:
            thread.join()
        self.assertEqual(sorted(heard), [bytes([k, ticks]) for k in range(4) for ticks in range(50)])


class HeaderOfC(unittest.TestCase):
    def test_calls_are_those_of_the_header(self) -> None:
        above = Path(__file__).resolve().parents[2]
        headers = [it for it in (above / "include/jilqamur.h", above / "c/include/jilqamur.h") if it.is_file()]
        if not headers:
            self.skipTest("there is no header beside the package")
        from jilqamur.library import CALLS
        self.assertEqual({name for name in CALLS if f" jilqamur_{name}(" not in headers[0].read_text()}, set())


if __name__ == "__main__":
    unittest.main()
