//! Calls of all kinds in random order, with arguments of all kinds, from several threads: each returns, or panics in a
//! way that is caught. `JILQAMUR_CALLS` says how many, `JILQAMUR_SECONDS` for how long at most, and `JILQAMUR_SEED`
//! which ones.

use jilqamur::{
    Depacketizer, Direction, End, EndError, ExtensionIds, FaultyLine, Format, ForwardedPacket, Forwarder, Header, Kind,
    MIN_HELD, NackRequester, PacketHistory, PacketInfo, Packetizer, PacketizerParams, Receiver, Row, Section,
    SectionRequest, Sender, SenderParams, Setup, StreamParams, Transport, Values, Window, widen,
};
use std::panic::{AssertUnwindSafe, catch_unwind};
use std::sync::{Arc, Mutex};
use std::time::{Duration, Instant};
use std::{env, thread};

const THREADS: u64 = 4;
const CODECS: [&str; 13] =
    ["opus", "PCMU", "G722", "CN", "AMR-WB", "telephone-event", "VP8", "VP9", "AV1", "H264", "H265", "H266", "none"];

/// Makes arguments: most are sound, and some are anything.
struct Maker {
    state: u64,
    datagrams: Vec<Vec<u8>>,
    texts: Vec<String>,
}

impl Maker {
    fn next(&mut self) -> u64 {
        // SplitMix64.
        self.state = self.state.wrapping_add(0x9e37_79b9_7f4a_7c15);
        let mixed = (self.state ^ (self.state >> 30)).wrapping_mul(0xbf58_476d_1ce4_e5b9);
        let mixed = (mixed ^ (mixed >> 27)).wrapping_mul(0x94d0_49bb_1331_11eb);
        mixed ^ (mixed >> 31)
    }

    fn below(&mut self, count: usize) -> usize {
        (self.next() % count as u64) as usize
    }

    fn one<T: Copy>(&mut self, of: &[T]) -> T {
        of[self.below(of.len())]
    }

    fn number(&mut self) -> u64 {
        let any = self.next();
        let small = self.next() % 200;
        self.one(&[0, 1, 2, 3, small, 100, 1 << 15, 1 << 62, u64::MAX, any])
    }

    fn size(&mut self) -> usize {
        let any = self.number() as usize;
        self.one(&[30, 60, 1200, 1400, any])
    }

    fn stream(&mut self) -> usize {
        let any = self.number() as usize;
        self.one(&[0, 0, 1, 1, 2, 3, any])
    }

    fn option<T>(&mut self, value: impl FnOnce(&mut Maker) -> T) -> Option<T> {
        (self.below(2) == 0).then(|| value(self))
    }

    fn bytes(&mut self) -> Vec<u8> {
        if !self.datagrams.is_empty() && self.below(3) > 0 {
            let at = self.below(self.datagrams.len());
            let mut datagram = self.datagrams[at].clone();
            if self.below(3) == 0 && !datagram.is_empty() {
                let (at, bit) = (self.below(datagram.len()), self.below(8));
                datagram[at] ^= 1 << bit;
            }
            return datagram;
        }
        let head: &[u8] = self.one(&[&b""[..], b"\0\0\0\x01\x65", b"\x10", b"\x82\x49\x83\x42"]);
        let rest = self.one(&[0, 1, 12, 40, 1500, 5000]);
        let mut bytes = head.to_vec();
        bytes.extend((0..rest).map(|_| self.next() as u8));
        bytes
    }

    fn text(&mut self) -> String {
        if !self.texts.is_empty() && self.below(4) > 0 {
            let at = self.below(self.texts.len());
            let mut text = self.texts[at].clone();
            if self.below(3) == 0 {
                let at = self.below(text.len() + 1);
                text.insert_str(at, self.one(&["\r\n", "a=mid:x\r\n", "m=audio 9 RTP/AVP 0\r\n", "\u{7f}"]));
            }
            return text;
        }
        self.one(&["", "v=0\r\n", "abcd", "x", "v=0\r\no=- 1 2 IN IP4 0.0.0.0\r\ns=-\r\nt=0 0\r\n"]).into()
    }

    fn mid(&mut self) -> &'static str {
        self.one(&["a", "v", "a", "v", "b", "", "a-b", "abcdefghij_123456"])
    }

    fn direction(&mut self) -> Direction {
        self.one(&[Direction::SendRecv, Direction::SendOnly, Direction::RecvOnly, Direction::Inactive])
    }

    fn values(&mut self) -> Values {
        Values {
            audio_level: self.option(|m| m.next() as i8),
            voice_activity: self.option(|m| m.below(2) == 0),
            abs_send_time: self.option(Maker::number),
            transport_cc: self.option(|m| m.next() as u16),
            video_orientation: self.option(|m| m.next() as u8),
            play_delay_min: self.option(|m| m.next() as u16),
            play_delay_max: self.option(|m| m.next() as u16),
            video_content_type: self.option(|m| m.next() as u8),
            capture_time: self.option(Maker::number),
            clock_offset: self.option(|m| m.next() as i64),
        }
    }

    fn format(&mut self) -> Format {
        let any = self.next() as u32;
        let format = Format::new(self.one(&[48_000, 90_000, 8000, 0, any]));
        match self.below(3) {
            0 => format.with_octet_align(true),
            1 => format.with_max_don_diff(self.number() as u16),
            _ => format,
        }
    }

    fn keep(&mut self, datagrams: impl IntoIterator<Item = Vec<u8>>) {
        self.datagrams.extend(datagrams);
        if self.datagrams.len() > 200 {
            self.datagrams.drain(..100);
        }
    }

    fn keep_text(&mut self, text: Result<String, EndError>) {
        self.texts.extend(text.ok().filter(|text| text.is_ascii()));
        if self.texts.len() > 20 {
            self.texts.drain(..10);
        }
    }
}

/// What threads share: each takes one out, and puts it back.
#[derive(Default)]
struct Shared {
    ends: Mutex<Vec<End>>,
    others: Mutex<Vec<Other>>,
}

enum Other {
    Window(Window),
    Packetizer(Packetizer),
    Depacketizer(Depacketizer),
    Sender(Sender),
    Receiver(Receiver),
    Forwarder(Forwarder),
    History(PacketHistory),
    Requester(NackRequester),
}

fn agreed() -> Result<(End, End), EndError> {
    let end = |session| {
        let rows = End::builder().codec("opus", 111).row(Row::new(96, 90_000).with_resend(97), "VP8", "");
        rows.extension(3, "urn:ietf:params:rtp-hdrext:sdes:mid").session(session).build()
    };
    let (mut a, mut b) = (end(1)?, end(2)?);
    let section = |mid, kind, ssrcs, repairs| Section { mid, kind, direction: Direction::SendRecv, ssrcs, repairs };
    let offer = a.offer(&[section("a", Kind::Audio, &[1, 6], &[]), section("v", Kind::Video, &[2, 7], &[(2, 3)])])?;
    let answer = b.answer(&offer, &[section("a", Kind::Audio, &[4], &[]), section("v", Kind::Video, &[5], &[])])?;
    a.accept(&answer)?;
    a.open_sender("a", 1, 111, StreamParams::new(100, 1200, 1400), None)?;
    a.open_sender("v", 2, 96, StreamParams::new(100, 30, 60), None)?;
    b.open_receiver("a", 1, 111, 2, MIN_HELD)?;
    b.open_receiver("v", 2, 96, 2, MIN_HELD)?;
    Ok((a, b))
}

/// One random call of an end about its texts.
fn exchange(end: &mut End, m: &mut Maker) {
    let (mids, texts) = ([m.mid(), m.mid()], [m.text(), m.text(), m.text()]);
    let (ssrcs, repairs) = ([m.below(9) as u32], [(m.below(9) as u32, m.below(9) as u32)]);
    let repairs = if m.below(4) == 0 { &repairs[..] } else { &[] };
    let direction = m.direction();
    let sections = mids.map(|mid| {
        let kind = if mid == "v" { Kind::Video } else { Kind::Audio };
        Section { mid, kind, direction, ssrcs: &ssrcs, repairs }
    });
    let sections = &sections[..m.below(3)];
    let request = SectionRequest::Accept { direction, ssrcs: &ssrcs, repairs };
    match m.below(10) {
        0 => m.keep_text(end.offer(sections)),
        1 | 2 => m.keep_text(end.answer(&texts[0], sections)),
        3 => drop(end.accept(&texts[0])),
        4 => drop(end.withdraw()),
        5 => drop(end.agreed_sections()),
        6 => {
            let requests = &[request, SectionRequest::Reject, request][..m.below(4)];
            m.keep_text(end.answer_browser(&texts[0], requests));
        }
        7 => drop(end.accept_browser(&texts[0])),
        8 => drop(end.remote()),
        _ => {
            let (setup, digest) = (m.one(&[Setup::ActPass, Setup::Active, Setup::Passive]), m.bytes());
            let password = if m.below(2) == 0 { "passwordpasswordpassword" } else { &texts[1] };
            let transport = Transport {
                ufrag: "abcd",
                password,
                hash: "sha-256",
                digest: &digest,
                setup,
                is_lite: m.below(2) == 0,
            };
            m.keep_text(end.for_browser(&texts[2], &transport));
        }
    }
}

/// One random call of an end about its streams.
fn stream(end: &mut End, m: &mut Maker) {
    let (stream, number, bytes, mid) = (m.stream(), m.number(), m.bytes(), m.mid());
    let (ssrc, payload_type) = (m.below(9) as u32, m.one(&[111, 96, 97, 255]));
    let (hold_back, held) = (m.number() as usize, m.one(&[MIN_HELD, 16384, 0, usize::MAX]));
    let values = m.values();
    let mid_or_none = m.option(Maker::mid);
    match m.below(24) {
        0 => {
            let params = StreamParams::new(m.number(), m.size(), m.size());
            let params = if m.below(2) == 0 { params.with_picture_id(m.next() as u16) } else { params };
            drop(end.open_sender(mid, ssrc, payload_type, params, m.one(&[None, Some(&[1, 3][..]), Some(&[9])])));
        }
        1 => drop(end.open_receiver(mid, ssrc, payload_type, hold_back, held)),
        2 => drop(end.open_unsignalled(mid, ssrc, payload_type, hold_back, held)),
        3..=6 => {
            let sent = end.push_sample_with(stream, number, &bytes, mid_or_none, &values).map(Vec::from_iter);
            m.keep(sent.into_iter().flatten());
        }
        7 => m.keep(end.repair(stream, &bytes)),
        8..=11 => drop(end.receive(&bytes)),
        12 => drop(end.poll(stream)),
        13 => drop(end.drain(stream)),
        14 => drop(end.units(stream).count()),
        15 => drop((end.values(), end.missing(stream))),
        16 => drop(end.arrival(&bytes)),
        17 => drop(end.take_number(stream, number as u16)),
        18 => {
            let packet = ForwardedPacket { number, timestamp: number as u32, marker: false, payload: &bytes };
            m.keep(end.send_packet(stream, &packet, &values, mid_or_none));
        }
        19 => drop((end.is_passed(stream, number), end.pass_to(stream, number))),
        20 => drop((end.pass_empty(stream, number), end.keep_within(stream, number as usize))),
        21 => drop((end.next_number(stream), end.skip_to(stream, number))),
        22 if m.below(10) == 0 => drop((end.close_sender(stream), end.close_receiver(stream))),
        _ => {
            let row = Row::new(payload_type, number as u32).with_channels(2);
            drop((end.row(&row, m.one(&CODECS), "x=1"), end.extension(number as u8, "urn:a"), end.default_rows()));
            if m.below(20) == 0 {
                drop(end.make(number));
            }
        }
    }
}

/// One random call of a value of another kind.
fn other(other: &mut Other, m: &mut Maker) {
    let (number, bytes, time, marker) = (m.number(), m.bytes(), m.next() as u32, m.below(2) == 0);
    match (other, m.below(3)) {
        (Other::Window(window), _) => drop(window.receive(&bytes)),
        (Other::Packetizer(packetizer), _) => {
            let mtu = m.size();
            let packets: Vec<_> = packetizer.packetize(mtu, &bytes).into_iter().flatten().collect();
            m.keep(packets.into_iter().map(|packet| packet.payload));
        }
        (Other::Depacketizer(depacketizer), 0) => drop(depacketizer.push(number, time, marker, &bytes)),
        (Other::Depacketizer(depacketizer), 1) => drop(depacketizer.pop()),
        (Other::Depacketizer(depacketizer), _) => drop(depacketizer.drain()),
        (Other::Sender(sender), _) => m.keep(sender.push_sample(number, &bytes).into_iter().flatten()),
        (Other::Receiver(receiver), 0) => drop(receiver.push(number as u16, time, marker, &bytes)),
        (Other::Receiver(receiver), 1) => drop(receiver.poll()),
        (Other::Receiver(receiver), _) => drop(receiver.drain()),
        (Other::Forwarder(forwarder), 0) => drop(forwarder.switch(number & 3, number, time, time)),
        (Other::Forwarder(forwarder), 1) => {
            let _ =
                (forwarder.place(number & 3, number, time), forwarder.forward(number & 3, number, time, time & 1 == 0));
        }
        (Other::Forwarder(forwarder), _) => {
            forwarder.end_at(number);
            drop((forwarder.skip_to(number), forwarder.next()));
        }
        (Other::History(history), 0) => m.keep(history.asked(number as u16)),
        (Other::History(history), _) => drop(history.keep(number, &bytes)),
        (Other::Requester(requester), _) => {
            let missing: Vec<_> = bytes.iter().map(|byte| u64::from(*byte)).collect();
            let sorted: Vec<_> = (0..missing.len() as u64).map(|k| number.wrapping_add(k)).collect();
            let _ = (requester.ask(&missing, number, 5), requester.ask(&sorted, number, u64::from(time)));
        }
    }
}

/// A new value of another kind, if it isn't refused.
fn opened(m: &mut Maker) -> Option<Other> {
    let (codec, format, size) = (m.one(&CODECS), m.format(), m.size());
    let (hold_back, held) = (m.number() as usize, m.one(&[MIN_HELD, 16384, 0]));
    match m.below(8) {
        0 => Window::new().ok().map(Other::Window),
        1 => Packetizer::new(codec, format, PacketizerParams::new().with_picture_id(m.next() as u16 >> m.below(2)))
            .ok()
            .map(Other::Packetizer),
        2 => Depacketizer::new(codec, format, hold_back, held).ok().map(Other::Depacketizer),
        3 => {
            let params = SenderParams::new(44, m.one(&[96, 200]), size).with_first(m.number());
            Sender::new(codec, format, params).ok().map(Other::Sender)
        }
        4 => Receiver::new(codec, format, hold_back, held).ok().map(Other::Receiver),
        5 => Forwarder::new(m.number()).ok().map(Other::Forwarder),
        6 => PacketHistory::new(m.next() as u32 & 15, m.next() as u32 & 4095).ok().map(Other::History),
        _ => NackRequester::new(m.next() as u32 & 3, m.number()).ok().map(Other::Requester),
    }
}

fn plain(m: &mut Maker) {
    let (bytes, text) = (m.bytes(), m.text());
    if let Ok((header, rest)) = Header::read(&bytes) {
        let header = Header { csrc_count: m.below(20) as u32, has_padding: m.below(2) == 0, ..header };
        let _ = (header.payload(rest), header.write(&mut [0; 40]));
    }
    let ids = ExtensionIds { mid: m.below(18) as u8, audio_level: m.below(18) as u8, ..ExtensionIds::default() };
    drop((ids.read(&bytes), widen(m.number(), m.next() as u16)));
    drop((PacketInfo::of(m.one(&CODECS), &bytes, m.below(2) == 0), FaultyLine::find(&text)));
}

/// Takes a value that another thread may have used before, calls it, and puts it back.
fn on_one<T>(values: &Mutex<Vec<T>>, m: &mut Maker, call: impl FnOnce(&mut T, &mut Maker)) {
    let taken = {
        let mut values = values.lock().expect("nothing panics with the lock");
        let at = m.below(values.len().max(1));
        (at < values.len()).then(|| values.swap_remove(at))
    };
    let Some(mut value) = taken else { return };
    call(&mut value, m);
    let mut values = values.lock().expect("nothing panics with the lock");
    values.push(value);
    if values.len() > 40 {
        values.drain(..10);
    }
}

fn any(shared: &Shared, m: &mut Maker) {
    match m.below(1000) {
        0 | 1 => {
            let (a, b) = agreed().expect("two ends agree");
            shared.ends.lock().expect("nothing panics with the lock").extend([a, b]);
        }
        2..=30 => shared.others.lock().expect("nothing panics with the lock").extend(opened(m)),
        31..=100 => plain(m),
        101..=300 => on_one(&shared.others, m, other),
        301..=450 => on_one(&shared.ends, m, exchange),
        _ => on_one(&shared.ends, m, stream),
    }
}

fn from_environment(name: &str, otherwise: u64) -> u64 {
    env::var(name).ok().and_then(|told| told.parse().ok()).unwrap_or(otherwise)
}

#[test]
fn random_calls_return() {
    let (calls, seed) = (from_environment("JILQAMUR_CALLS", 20_000), from_environment("JILQAMUR_SEED", 1));
    let seconds = from_environment("JILQAMUR_SECONDS", 60);
    let shared = Arc::new(Shared::default());
    let threads: Vec<_> = (0..THREADS)
        .map(|thread| {
            let shared = Arc::clone(&shared);
            thread::spawn(move || {
                let mut m = Maker { state: seed * THREADS + thread, datagrams: Vec::new(), texts: Vec::new() };
                let end = Instant::now() + Duration::from_secs(seconds);
                (0..calls / THREADS)
                    .take_while(|_| Instant::now() < end)
                    .filter(|_| catch_unwind(AssertUnwindSafe(|| any(&shared, &mut m))).is_err())
                    .count()
            })
        })
        .collect();
    let panics: usize = threads.into_iter().map(|thread| thread.join().expect("each panic is caught")).sum();
    println!("{calls} calls from {THREADS} threads, seed {seed}: {panics} panics");
    assert_eq!(panics, 0);
}
