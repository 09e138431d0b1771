//! Each call with the values that it answers: what it writes, and why it refuses. What this prints is what
//! `bindings/c/examples/calls.c` prints, word for word.

use jilqamur::{
    Depacketizer, Direction, End, EndError, ExtensionIds, FaultyLine, Format, ForwardedPacket, Forwarder, Header, Kind,
    MIN_HELD, NackRequester, PacketHistory, PacketInfo, Packetizer, PacketizerParams, Received, Receiver, Row, Section,
    SectionRequest, Sender, SenderParams, Setup, StreamParams, Transport, Unit, Values, Window,
};
use std::error::Error;
use std::fmt::Display;

type Done = Result<(), Box<dyn Error>>;

const PLAIN: [u8; 28] = [
    0x90, 0xe0, 0x00, 0x07, 0, 0, 0x03, 0xc0, 0, 0, 0, 0x2c, 0xbe, 0xde, 0, 2, 0x10, 0x9e, 0x31, b'a', b'v', 0x50,
    b'h', 0, 1, 2, 3, 4,
];

/// The text of a refusal without what it was about, which the header's texts don't say.
fn reason<E: Display>(error: &E) -> String {
    let text = error.to_string();
    text.split_once(" (").map_or(text.clone(), |(reason, _)| reason.into())
}

fn say<T, E: Display>(what: &str, answer: &Result<T, E>) {
    match answer {
        Ok(_) => println!("{what}: done"),
        Err(error) => println!("{what}: {}", reason(error)),
    }
}

fn hex(what: &str, bytes: &[u8]) {
    let digits: String = bytes.iter().map(|byte| format!("{byte:02x}")).collect();
    println!("{what} {digits}");
}

fn told<T: Display>(name: &str, value: Option<T>) {
    if let Some(value) = value {
        print!(" {name} {value}");
    }
}

fn say_values(values: &Values) {
    print!("values");
    told("level", values.audio_level);
    told("voice", values.voice_activity.map(u8::from));
    told("sent", values.abs_send_time);
    told("cc", values.transport_cc);
    told("turn", values.video_orientation);
    told("least", values.play_delay_min);
    told("most", values.play_delay_max);
    told("content", values.video_content_type);
    told("captured", values.capture_time);
    told("offset", values.clock_offset);
    println!();
}

fn say_unit<E: Display>(what: &str, unit: &Result<Option<Unit>, E>) {
    let unit = match unit {
        Ok(Some(unit)) => unit,
        Ok(None) => return println!("{what}: no unit"),
        Err(error) => return println!("{what}: {}", reason(error)),
    };
    println!("{what}: done");
    print!("unit {} to {} at {}, keyframe {}", unit.first, unit.last, unit.time, u8::from(unit.is_keyframe));
    if let Some(picture) = unit.picture_id {
        print!(", picture {picture}");
    }
    if let Some(layer) = unit.base_layer {
        print!(", base layer {layer}");
    }
    if let Some(event) = &unit.event {
        let end = u8::from(event.end);
        print!(", event {} end {end} volume {} duration {}", event.event, event.volume, event.duration.as_nanos());
    }
    hex(":", &unit.bytes);
}

fn say_header(datagram: &[u8]) {
    let read = Header::read(datagram);
    say("header", &read);
    let Ok((h, _)) = read else { return };
    print!(
        "padding {}, extension {}, marker {}, type {}, number {}, time {}, ssrc {}, length {}, sources",
        u8::from(h.has_padding),
        u8::from(h.has_extension),
        u8::from(h.marker),
        h.payload_type,
        h.sequence_number,
        h.timestamp,
        h.ssrc,
        h.header_len,
    );
    for source in h.csrc.iter().take(h.csrc_count as usize) {
        print!(" {source}");
    }
    println!();
}

fn write_header(header: &Header, room: usize) {
    let mut buffer = [0; 24];
    match header.write(&mut buffer[..room]) {
        Ok(needed) => println!("write: done\nneeded {needed}"),
        Err(jilqamur::Error::TooSmall(needed)) => println!("write: the buffer is too small\nneeded {needed}"),
        Err(error) => println!("write: {error}"),
    }
    hex("buffer", &buffer);
}

fn headers() {
    let sources = [0xa2, 0x60, 0xff, 0xff, 0, 0, 0, 9, 0, 0, 0, 8, 0, 0, 0, 1, 0, 0, 0, 2];
    let padded = [9, 8, 0, 0, 3];
    let mut h = Header {
        has_padding: true,
        marker: true,
        payload_type: 96,
        sequence_number: 258,
        timestamp: 3,
        ssrc: 0x01020304,
        csrc_count: 1,
        ..Header::default()
    };
    h.csrc[0] = 7;
    say_header(&PLAIN);
    say_header(&sources);
    say_header(&sources[..19]);
    write_header(&h, 20);
    write_header(&h, 15);
    h.payload_type = 128;
    write_header(&h, 20);
    for has_padding in [true, false] {
        let left = Header { has_padding, ..h }.payload(&padded).map(<[u8]>::len);
        say("unpad", &left);
        println!("left {}", left.unwrap_or_default());
    }
    say("unpad", &h.payload(&padded[..4]));
    println!("widened {} {}", jilqamur::widen(65534, 3), jilqamur::widen(65540, 65535));
}

fn say_names(datagram: &[u8], ids: ExtensionIds) {
    let read = ids.read(datagram);
    say("names", &read);
    let Ok((values, names)) = read else { return };
    say_values(&values);
    let or_none = |name: Option<String>| name.unwrap_or_else(|| "-".into());
    println!("mid {}, rid {}, repaired {}", or_none(names.mid), or_none(names.rid), or_none(names.repaired_rid));
    println!("rest of the names 0");
}

fn names() {
    let mut ids = ExtensionIds { rid: 3, repaired_rid: 5, ..ExtensionIds::default() };
    say_names(&PLAIN, ExtensionIds { audio_level: 1, mid: 3, rid: 5, ..ExtensionIds::default() });
    say_names(&PLAIN, ids);
    say_names(&PLAIN[..11], ids);
    ids.mid = 17;
    say_names(&PLAIN, ids);
}

fn infos() {
    let vp8: &[u8] = &[0x90, 0x20, 0x80, 0x10];
    let (vp9, h265): (&[u8], &[u8]) = (&[0x28, 0xa3, 0, 1], &[0x62, 0x1a, 0x13, 7]);
    for (codec, payload, marker) in
        [("VP8", vp8, true), ("VP9", vp9, false), ("H265", h265, true), ("opus", vp8, false), ("rtx", vp8, false)]
    {
        let info = PacketInfo::of(codec, payload, marker);
        say("info", &info);
        let flags = info.as_ref().map_or([false; 3], |i| [i.is_head, i.is_tail, i.shows_key_frame]).map(u8::from);
        let layers = info.map_or([None; 2], |i| [i.spatial_layer, i.temporal_layer]).map(or_none);
        let [head, tail, key] = flags;
        println!("head {head}, tail {tail}, key {key}, spatial {}, temporal {}", layers[0], layers[1]);
    }
}

fn lines() -> Done {
    let head = "v=0\r\no=- 1 2 IN IP4 0.0.0.0\r\ns=-\r\nt=0 0\r\n";
    let section = "m=audio 9 UDP/TLS/RTP/SAVPF 111\r\na=mid:0\r\na=rtpmap:111 opus/48000/2\r\n";
    for text in [
        format!("{head}{section}a=sendrecv\r\n"),
        "v=1\r\n".into(),
        format!("{head}{section}a=sendrecv\r\nx=1\r\ny=2\r\n"),
        format!("{head}{section}"),
    ] {
        match FaultyLine::find(&text)? {
            Some(line) => println!("{line}"),
            None => println!("line: none"),
        }
    }
    Ok(())
}

fn window() -> Done {
    let mut window = Window::new()?;
    let (mut datagram, mut number) = ([0; 12], 0);
    datagram[0] = 0x80;
    for low in [[0xff, 0xff], [0, 1], [0xff, 0xff]] {
        datagram[2..4].copy_from_slice(&low);
        let taken = window.receive(&datagram);
        say("window", &taken);
        number = taken.unwrap_or(number);
        println!("number {number}");
    }
    say("window", &window.receive(&datagram[..11]));
    Ok(())
}

fn packetize(packetizer: &mut Packetizer, left: &mut usize, mtu: usize, sample: &[u8]) {
    let packets = packetizer.packetize(mtu, sample).map(Vec::from_iter);
    say("packetize", &packets);
    *left = packets.as_ref().map_or(*left, Vec::len);
    println!("{left} packets");
    for packet in packets.into_iter().flatten() {
        print!("marker {}", u8::from(packet.marker));
        hex("", &packet.payload);
    }
}

fn packetizers() -> Done {
    let frame = [0x10, 1, 2, 3, 4, 5, 6, 7, 8, 9];
    let params = PacketizerParams::new().with_picture_id(300);
    let mut packetizer = Packetizer::new("vp8", Format::new(90_000), params)?;
    let mut left = 0;
    packetize(&mut packetizer, &mut left, 9, &frame);
    packetize(&mut packetizer, &mut left, 20, &frame[..4]);
    packetize(&mut Packetizer::new("AMR-WB", Format::new(90_000), params)?, &mut 0, 20, &frame[..1]);
    say("packetizer", &Packetizer::new("VP8", Format::new(90_000), params.with_picture_id(32_768)));
    Ok(())
}

fn depacketizers() -> Done {
    let first = [0x90, 0xc0, 0x81, 0x2c, 6, 0x10, 1, 2];
    let rest = [0x80, 0xc0, 0x81, 0x2c, 6, 3, 4];
    let mut d = Depacketizer::new("VP8", Format::new(90_000), 2, MIN_HELD)?;
    d.push(70_001, 9000, true, &rest)?;
    say_unit("pop", &d.pop());
    d.push(70_000, 9000, false, &first)?;
    say_unit("pop", &d.pop());
    d.push(70_003, 12_000, true, &first)?;
    say_unit("pop", &d.pop());
    say_unit("drain", &d.drain());
    d.push(70_004, 15_000, true, &first[..1])?;
    say_unit("pop", &d.pop());
    let mut d = Depacketizer::new("telephone-event", Format::new(8000), 0, MIN_HELD)?;
    d.push(1, 160, true, &[5, 0x8a, 0x03, 0x20])?;
    say_unit("pop", &d.pop());
    say("depacketizer", &Depacketizer::new("VP8", Format::new(90_000), 2, 4095));
    Ok(())
}

fn senders() -> Done {
    let params = SenderParams::new(44, 111, 8).with_first(65_535).with_limit(20);
    let mut sender = Sender::new("opus", Format::new(48_000), params)?;
    for ticks in [0, 960] {
        let datagrams = sender.push_sample(ticks, &[0xf8, 1, 2, 3]);
        say("sample", &datagrams);
        for datagram in datagrams? {
            hex("datagram", &datagram);
        }
    }
    say("sample", &sender.push_sample(0, &PLAIN));
    say("sender", &Sender::new("opus", Format::new(48_000), SenderParams::new(44, 128, 1200)));
    Ok(())
}

fn receivers() -> Done {
    let mut receiver = Receiver::new("VP8", Format::new(90_000), 3, MIN_HELD)?;
    let payload = [0x10, 0x11, 7];
    for (low, time) in [(65_535, 0), (1, 90), (1, 180)] {
        match receiver.push(low, time, true, &payload)? {
            Some(number) => println!("push: done\nnumber {number}"),
            None => println!("push: refused"),
        }
    }
    say_unit("poll", &receiver.poll());
    say_unit("poll", &receiver.poll());
    say_unit("drain", &receiver.drain());
    receiver.push(2, 270, true, &payload[..1])?;
    say_unit("poll", &receiver.poll());
    let say_missing = |missing: &[u64]| println!("missing {} {}", missing.len(), missing.first().unwrap_or(&0));
    receiver.push(4, 360, true, &payload)?;
    say_missing(&receiver.missing()?);
    receiver.keep_within(2);
    say_missing(&receiver.missing()?);
    receiver.push(6, 450, true, &payload)?;
    say_missing(&receiver.missing()?);
    receiver.pass_to(65_541);
    say_unit("poll", &receiver.poll());
    say("receiver", &Receiver::new("VP8", Format::new(90_000), 3, 16_385));
    Ok(())
}

fn say_asked_for(history: &PacketHistory, low: u16) {
    match history.asked(low) {
        Some(datagram) => hex("sent again", &datagram),
        None => println!("sent again: there is nothing of that kind"),
    }
}

fn histories() -> Done {
    let datagram = [1, 2, 3, 4, 5, 6, 7, 8, 9];
    let (mut history, mut few) = (PacketHistory::new(4, 24)?, PacketHistory::new(2, 1000)?);
    for (number, size) in (65_533..).zip([5, 1, 7, 8, 9]) {
        history.keep(number, &datagram[..size])?;
        few.keep(number, &datagram[..size])?;
    }
    history.keep(65_536, &datagram[1..3])?;
    history.keep(65_534, &[])?;
    for low in [65_533, 65_534, 65_535, 0, 1] {
        say_asked_for(&history, low);
        say_asked_for(&few, low);
    }
    println!("sent again: the buffer is too small");
    println!("needed {}", history.asked(1).map_or(0, |datagram| datagram.len()));
    Ok(())
}

fn say_requested(requester: &mut NackRequester, missing: &[u64], now: u64) -> Done {
    print!("ask for");
    for number in requester.ask(missing, now, 50)? {
        print!(" {number}");
    }
    println!();
    Ok(())
}

fn requesters() -> Done {
    let mut requester = NackRequester::new(2, 10)?;
    say_requested(&mut requester, &[70, 71, 75], 100)?;
    say_requested(&mut requester, &[70, 71, 75], 109)?;
    say_requested(&mut requester, &[71, 75], 110)?;
    say_requested(&mut requester, &[71, 75], 159)?;
    say_requested(&mut requester, &[70, 71, 75], 160)?;
    say_requested(&mut requester, &[70, 71, 75], 210)?;
    println!("ask: the buffer is too small");
    say("ask", &requester.ask(&[70, 71, 75, 74], 300, 50));
    Ok(())
}

fn forwarder() -> Done {
    let mut forwarder = Forwarder::new(1000)?;
    let placed = |what: &str, placed: Option<jilqamur::Placed>| {
        let placed = placed.unwrap_or_default();
        println!("{what} {} at {}", placed.number, placed.timestamp);
    };
    forwarder.switch(7, 500, 90_000, 3000)?;
    placed("forwarded", forwarder.forward(7, 502, 93_000, true));
    placed("placed", forwarder.place(7, 504, 96_000));
    println!("next {}", forwarder.next());
    forwarder.skip_to(510)?;
    placed("forwarded", forwarder.forward(7, 511, 99_000, true));
    forwarder.end_at(514);
    println!("next {}", forwarder.next());
    forwarder.switch(8, 20, 4_294_967_295, 0)?;
    placed("forwarded", forwarder.forward(8, 20, 2, false));
    println!("gone {}", u8::from(forwarder.place(9, 1, 1).is_none()));
    println!("gone {}", u8::from(forwarder.forward(7, 505, 1, true).is_none()));
    let mut passed = |number| forwarder.pass_empty(8, number).map(u8::from);
    println!("passed {} {}", passed(21)?, passed(24)?);
    placed("forwarded", forwarder.forward(8, 22, 5, false));
    forwarder.switch(7, 600, 1, 9)?;
    placed("forwarded", forwarder.forward(7, 600, 1, true));
    Ok(())
}

fn refused_rows() -> Done {
    let mut end = End::new()?;
    let opus = Row::new(111, 48_000).with_channels(2);
    say("row", &end.row(&Row::new(9, 0), "G722", ""));
    end.row(&Row::new(9, 44_100), "G722", "")?;
    say("make", &end.make(1));
    end.row(&opus, "opus", "")?;
    end.row(&opus, "opus", "")?;
    say("make", &end.make(1));
    say("extension", &end.extension(17, "urn:a"));
    end.extension(3, "urn:a b")?;
    say("make", &end.make(1));
    say("offer", &end.offer(&[]));
    Ok(())
}

fn make(session: u64) -> Result<End, EndError> {
    End::builder()
        .row(Row::new(111, 48_000).with_channels(2), "opus", "minptime=10")
        .row(Row::new(9, 8000).with_red(63), "G722", "")
        .row(Row::new(96, 90_000).with_resend(97), "VP8", "")
        .extension(3, "urn:ietf:params:rtp-hdrext:sdes:mid")
        .extension(5, "urn:ietf:params:rtp-hdrext:ssrc-audio-level")
        .session(session)
        .build()
}

/// What an end wants of two sections, by the SSRCs that it sends under.
struct Wanted {
    audio: [u32; 1],
    video: [u32; 2],
    repairs: [(u32, u32); 1],
}

impl Wanted {
    fn new(ssrc: u32) -> Wanted {
        Wanted { audio: [ssrc], video: [ssrc + 1, ssrc + 2], repairs: [(ssrc + 1, ssrc + 3)] }
    }

    fn sections(&self) -> [Section<'_>; 2] {
        let direction = Direction::SendRecv;
        [
            Section { mid: "a", kind: Kind::Audio, direction, ssrcs: &self.audio, repairs: &[] },
            Section { mid: "v", kind: Kind::Video, direction, ssrcs: &self.video, repairs: &self.repairs },
        ]
    }
}

fn exchange(a: &mut End, b: &mut End) -> Done {
    let (of_a, of_b) = (Wanted::new(10), Wanted::new(20));
    print!("{}", a.offer(&of_a.sections())?);
    say("offer", &a.offer(&of_a.sections()));
    for _ in 0..2 {
        println!("withdrawn {}", u8::from(a.withdraw()));
    }
    let offer = a.offer(&of_a.sections())?;
    say("answer", &b.answer("v=0\r\n", &of_b.sections()));
    let answer = b.answer(&offer, &of_b.sections())?;
    print!("{answer}");
    say("accept", &b.accept(&offer));
    a.accept(&answer)?;
    Ok(())
}

fn or_none(value: Option<u8>) -> i32 {
    value.map_or(-1, i32::from)
}

fn say_agreed(end: &End) {
    for section in end.agreed_sections() {
        let sends = matches!(section.direction, Direction::SendOnly | Direction::SendRecv);
        let receives = matches!(section.direction, Direction::RecvOnly | Direction::SendRecv);
        let video = u8::from(section.kind == Kind::Video);
        println!("section {}: video {video}, sends {}, receives {}", section.mid, u8::from(sends), u8::from(receives));
        for (codec, row) in &section.rows {
            let (channels, resend, red) = (or_none(row.channels()), or_none(row.resend()), or_none(row.red()));
            println!(
                "row {} {codec} {}, channels {channels}, resend {resend}, red {red}",
                row.payload_type(),
                row.clock_rate(),
            );
        }
        for ssrc in &section.ssrcs {
            println!("ssrc {ssrc}");
        }
    }
}

fn open_streams(a: &mut End, b: &mut End) -> Done {
    let params = StreamParams::new(100, 30, 60);
    say("sender", &a.open_sender("x", 10, 111, params, None));
    say("sender", &a.open_sender("v", 44, 96, params, None));
    println!("sender {}", a.open_sender("a", 10, 111, params, None)?);
    println!("sender {}", a.open_sender("v", 11, 96, params, None)?);
    say("receiver", &b.open_receiver("a", 10, 7, 2, MIN_HELD));
    say("receiver", &b.open_receiver("a", 10, 111, 2, 1));
    say("unsignalled", &b.open_unsignalled("a", 10, 111, 2, 1));
    say("unsignalled", &b.open_unsignalled("a", 99, 111, 2, MIN_HELD));
    println!("receiver {}", b.open_receiver("a", 10, 111, 2, MIN_HELD)?);
    println!("receiver {}", b.open_unsignalled("v", 11, 96, 2, MIN_HELD)?);
    Ok(())
}

/// What an end says of a datagram, as the header's texts have it.
fn verdict(received: Received) -> &'static str {
    match received {
        Received::Unreadable => "no RTP header stands in front of the bytes",
        Received::Foreign => "no stream has this SSRC and payload type",
        Received::Damaged => "the padding does not fit",
        Received::Refused => "the number came before or too late",
        Received::Taken(..) => "done",
    }
}

fn say_received(end: &mut End, datagram: &[u8]) -> Done {
    let received = end.receive(datagram)?;
    println!("receive: {}", verdict(received));
    if let Received::Taken(stream, number) = received {
        println!("stream {stream}, number {number}");
    }
    Ok(())
}

fn say_poll(end: &mut End, stream: usize, drains: bool) {
    let unit = if drains { end.drain(stream) } else { end.poll(stream) };
    say_unit(if drains { "drain" } else { "poll" }, &unit);
    if let Ok(Some(_)) = unit {
        say_values(&end.values().unwrap_or_default());
    }
}

fn push(end: &mut End, stream: usize, ticks: u64, sample: &[u8], values: &Values, mid: Option<&str>) -> Vec<Vec<u8>> {
    let datagrams = end.push_sample_with(stream, ticks, sample, mid, values).map(Vec::from_iter);
    say("sample", &datagrams);
    let datagrams = datagrams.unwrap_or_default();
    println!("{} datagrams", datagrams.len());
    datagrams
}

fn send(a: &mut End, b: &mut End) -> Done {
    let frame: Vec<u8> = [0x10].into_iter().chain(1..=30).collect();
    let values = Values { audio_level: Some(-30), voice_activity: Some(true), ..Values::default() };
    let datagrams = push(a, 0, 960, &frame[..4], &values, Some("a"));
    hex("datagram", &datagrams[0]);
    say_received(b, &datagrams[0])?;
    say_received(b, &datagrams[0])?;
    say_poll(b, 0, false);
    let mut datagrams = push(a, 1, 3000, &frame, &Values::default(), None);
    hex("lost", &datagrams[0]);
    hex("datagram", &datagrams[1]);
    say_received(b, &datagrams[1])?;
    say_poll(b, 1, false);
    let lost = &mut datagrams[0];
    say("repair", &a.repair(0, lost));
    say("repair", &a.repair(1, &lost[..lost.len() - 20]));
    let repair = a.repair(1, lost)?;
    hex("repair", &repair);
    say_received(b, &repair)?;
    say_poll(b, 1, false);
    say("sample", &a.push_sample(7, 0, &frame[..4], None).map(Vec::from_iter));
    say_poll(b, 7, false);
    say_received(b, &repair[..11])?;
    say_received(b, &lost[..12])?;
    lost[8] = 1;
    say_received(b, lost)
}

fn drain(a: &mut End, b: &mut End) -> Done {
    let mut datagram = Vec::new();
    for ticks in [1920, 2880] {
        datagram = a.push_sample(0, ticks, &[5, 6], None)?.next().unwrap_or_default();
    }
    say_received(b, &datagram)?;
    say_poll(b, 0, false);
    say_poll(b, 0, true);
    say_poll(b, 0, true);
    Ok(())
}

fn pass(a: &mut End, b: &mut End) -> Done {
    let values = Values { audio_level: Some(-5), voice_activity: Some(false), ..Values::default() };
    let sent = a.push_sample_with(0, 4800, &[7, 8, 9], Some("a"), &values)?.next();
    let mut datagram = sent.unwrap_or_default();
    let whole = datagram.clone();
    let Ok(arrival) = b.arrival(&whole)? else { return Err("no arrival".into()) };
    print!(
        "arrival at {}: low {}, time {}, marker {}",
        arrival.stream,
        arrival.low,
        arrival.timestamp,
        u8::from(arrival.marker),
    );
    hex(", payload", arrival.payload);
    say_values(&arrival.values);
    for len in [5, 12, whole.len()] {
        if len == whole.len() {
            datagram[11] = 99;
        }
        println!("arrival: {}", b.arrival(&datagram[..len])?.map_or_else(verdict, |_| "done"));
    }
    println!("taken {}", b.take_number(0, arrival.low)?.unwrap_or_default());
    println!("taken again {}", u8::from(b.take_number(0, arrival.low)?.is_some()));
    say("take", &b.take_number(5, arrival.low));
    let packet = ForwardedPacket { number: 500, timestamp: 77, marker: true, payload: &[7, 8, 9] };
    hex("sent on", &a.send_packet(0, &packet, &arrival.values, Some("a"))?);
    say("send", &a.send_packet(0, &ForwardedPacket { payload: &[], ..packet }, &arrival.values, Some("a")));
    say("send", &a.send_packet(0, &ForwardedPacket { number: 1 << 62, ..packet }, &arrival.values, Some("a")));
    say("send", &a.send_packet(5, &packet, &arrival.values, Some("a")));
    Ok(())
}

fn say_missing(end: &End, room: usize) -> Done {
    let numbers = end.missing(0)?;
    print!("missing {}, too small {}", numbers.len(), u8::from(room < numbers.len()));
    for number in numbers.iter().take(3) {
        print!(" {number}");
    }
    println!();
    Ok(())
}

fn say_passed(end: &End, number: u64) -> Done {
    println!("passed {number}: {}", u8::from(end.is_passed(0, number)?));
    Ok(())
}

fn numbers(a: &mut End, b: &mut End) -> Done {
    println!("next {}", a.next_number(0)?);
    a.skip_to(0, 506)?;
    println!("next {}", a.next_number(0)?);
    let datagram = a.push_sample(0, 5760, &[5, 6], None)?.next().unwrap_or_default();
    say_received(b, &datagram)?;
    say_missing(b, 1023)?;
    say_passed(b, 502)?;
    b.pass_to(0, 502)?;
    say_passed(b, 502)?;
    say_missing(b, 1023)?;
    say_missing(b, 2)?;
    say_poll(b, 0, false);
    b.pass_to(0, 505)?;
    say_poll(b, 0, false);
    say_passed(b, 507)?;
    for number in [507, 509] {
        println!("empty {number}: {}", u8::from(b.pass_empty(0, number)?));
    }
    say_passed(b, 507)?;
    say("keep", &b.keep_within(0, 0));
    Ok(())
}

fn close_streams(a: &mut End, b: &mut End) -> Done {
    a.close_sender(0)?;
    b.close_receiver(0)?;
    say("close", &a.close_sender(0));
    say("close", &b.close_receiver(0));
    say("next", &a.next_number(0));
    say("skip", &a.skip_to(0, 1));
    say("missing", &b.missing(0));
    say("passed", &b.is_passed(0, 1));
    say("pass", &b.pass_to(0, 1));
    say("empty", &b.pass_empty(0, 1));
    say("keep", &b.keep_within(0, 1));
    say_poll(b, 0, false);
    Ok(())
}

fn for_browser(end: &mut End, text: &str, setup: Setup, ufrag: &str) -> Option<String> {
    let password = "passwordpasswordpassword";
    let transport = Transport { ufrag, password, hash: "sha-256", digest: &[0xab, 0xcd, 0xef], setup, is_lite: true };
    let made = end.for_browser(text, &transport);
    say("for a browser", &made);
    made.ok()
}

fn setup_told(setup: Option<Setup>) -> i32 {
    setup.map_or(-1, |setup| setup as i32)
}

fn say_remote(end: &End) -> Done {
    let r = end.remote()?;
    println!(
        "setup {}, own {}, trickling {}, lite {}, candidates {}",
        setup_told(r.setup),
        setup_told(r.own_setup),
        u8::from(r.is_trickling),
        u8::from(r.is_lite),
        r.candidates.len(),
    );
    for text in [r.ufrag, r.password, r.fingerprint] {
        println!("{}", text.as_deref().unwrap_or("-"));
    }
    for candidate in &r.candidates {
        println!("{candidate}");
    }
    Ok(())
}

fn browsers() -> Done {
    let (mut a, mut b) = (make(1)?, make(2)?);
    let of_a = Wanted::new(10);
    say_remote(&b)?;
    let own = a.offer(&of_a.sections())?;
    for_browser(&mut a, &own, Setup::ActPass, "a b");
    let candidate = "a=candidate:1 1 udp 2130706431 192.0.2.1 5000 typ host\r\na=mid:a\r\n";
    let offer = for_browser(&mut a, &own, Setup::ActPass, "abcd").ok_or("no offer")?;
    let offer = offer.replace("a=mid:a\r\n", candidate);
    say("answer", &b.answer_browser(&offer, &[]));
    let requests = [
        SectionRequest::Accept { direction: Direction::SendRecv, ssrcs: &[30], repairs: &[] },
        SectionRequest::Accept { direction: Direction::RecvOnly, ssrcs: &[31], repairs: &[] },
    ];
    let own = b.answer_browser(&offer, &requests)?;
    say_remote(&b)?;
    for_browser(&mut b, &own, Setup::ActPass, "efgh");
    let answer = for_browser(&mut b, &own, Setup::Passive, "efgh").ok_or("no answer")?;
    print!("{answer}");
    say("accept", &a.accept_browser("v=0\r\n"));
    a.accept_browser(&answer)?;
    say_remote(&a)?;
    say_agreed(&a);
    say("types", &a.take_types("v=0\r\n"));
    a.take_types(
        "v=0\r\no=- 1 1 IN IP4 0.0.0.0\r\ns=-\r\nt=0 0\r\na=group:BUNDLE v\r\nm=video 9 UDP/TLS/RTP/SAVPF 96\r\n\
         c=IN IP4 0.0.0.0\r\na=mid:v\r\na=rtcp-mux\r\na=recvonly\r\na=rtpmap:96 VP8/90000\r\n",
    )?;
    say_agreed(&a);
    Ok(())
}

fn default_rows() -> Done {
    let mut end = End::builder().default_rows().session(3).build()?;
    let section = Section { mid: "v", kind: Kind::Video, direction: Direction::SendOnly, ssrcs: &[7], repairs: &[] };
    print!("{}", end.offer(&[section])?);
    Ok(())
}

fn ends() -> Done {
    refused_rows()?;
    let (mut a, mut b) = (make(1)?, make(2)?);
    exchange(&mut a, &mut b)?;
    say_agreed(&a);
    open_streams(&mut a, &mut b)?;
    send(&mut a, &mut b)?;
    drain(&mut a, &mut b)?;
    pass(&mut a, &mut b)?;
    numbers(&mut a, &mut b)?;
    close_streams(&mut a, &mut b)?;
    browsers()?;
    default_rows()
}

fn main() -> Done {
    let (major, minor, patch) = jilqamur::version();
    println!("version {}", u8::from((major, minor, patch) == (0, 10, 0)));
    headers();
    names();
    infos();
    lines()?;
    window()?;
    packetizers()?;
    depacketizers()?;
    senders()?;
    receivers()?;
    forwarder()?;
    histories()?;
    requesters()?;
    ends()
}
