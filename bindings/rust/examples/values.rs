//! An end tells what it agreed on, and sends a sample with values of header extensions, of which a later one has some
//! alone; another end tells what came.

use jilqamur::{Direction, End, EndError, Kind, MIN_HELD, Received, Row, Section, StreamParams, Values};

const URIS: [&str; 7] = [
    "urn:ietf:params:rtp-hdrext:ssrc-audio-level",
    "http://www.webrtc.org/experiments/rtp-hdrext/abs-send-time",
    "http://www.ietf.org/id/draft-holmer-rmcat-transport-wide-cc-extensions-01",
    "urn:3gpp:video-orientation",
    "http://www.webrtc.org/experiments/rtp-hdrext/playout-delay",
    "http://www.webrtc.org/experiments/rtp-hdrext/video-content-type",
    "http://www.webrtc.org/experiments/rtp-hdrext/abs-capture-time",
];

/// An end of Opus and of all extensions.
fn made(session: u64) -> Result<End, EndError> {
    let mut end = End::new()?;
    end.row(&Row::new(111, 48_000).with_channels(2), "opus", "")?;
    for (id, uri) in (1..).zip(URIS) {
        end.extension(id, uri)?;
    }
    end.make(session)?;
    Ok(end)
}

fn section(ssrcs: &[u32]) -> Section<'_> {
    Section { mid: "0", kind: Kind::Audio, direction: Direction::SendRecv, ssrcs, repairs: &[] }
}

/// Prints the agreed sections, their rows, and the SSRCs that the other end names.
fn print_agreed(end: &mut End) {
    for section in end.agreed_sections() {
        let kind = if section.kind == Kind::Video { "video" } else { "audio" };
        let sends = u8::from(matches!(section.direction, Direction::SendOnly | Direction::SendRecv));
        let receives = u8::from(matches!(section.direction, Direction::RecvOnly | Direction::SendRecv));
        println!("section {}: {kind}, sends {sends}, receives {receives}", section.mid);
        for (codec, row) in &section.rows {
            println!("type {}: {codec} {}", row.payload_type(), row.clock_rate());
        }
        for ssrc in &section.ssrcs {
            println!("ssrc {ssrc}");
        }
    }
}

fn told<T: std::fmt::Display>(name: &str, value: Option<T>) {
    if let Some(value) = value {
        println!("{name} {value}");
    }
}

fn print(values: &Values) {
    told("audio_level", values.audio_level);
    told("voice_activity", values.voice_activity.map(u8::from));
    told("abs_send_time", values.abs_send_time);
    told("transport_cc", values.transport_cc);
    told("video_orientation", values.video_orientation);
    told("play_delay_min", values.play_delay_min);
    told("play_delay_max", values.play_delay_max);
    told("video_content_type", values.video_content_type);
    told("capture_time", values.capture_time);
    told("clock_offset", values.clock_offset);
}

/// Sends a sample with these values, and prints those of the unit that it becomes.
fn send(a: &mut End, b: &mut End, ticks: u64, values: &Values) -> Result<(), Box<dyn std::error::Error>> {
    let datagrams: Vec<Vec<u8>> = a.push_sample_with(0, ticks, &[1, 2, 3], None, values)?.collect();
    let Received::Taken(stream, number) = b.receive(&datagrams[0])? else {
        return Err("not taken".into());
    };
    b.poll(stream)?.ok_or("no unit")?;
    println!("unit {number}");
    print(&b.values().ok_or("no values")?);
    Ok(())
}

fn main() -> Result<(), Box<dyn std::error::Error>> {
    let (mut a, mut b) = (made(0)?, made(1)?);
    let offer = a.offer(&[section(&[44])])?;
    let answer = b.answer(&offer, &[section(&[45])])?;
    a.accept(&answer)?;
    a.open_sender("0", 44, 111, StreamParams::new(100, 1100, 1200), None)?;
    b.open_receiver("0", 44, 111, 2, MIN_HELD)?;
    print_agreed(&mut b);
    assert_eq!(b.values(), None);
    let all = Values {
        audio_level: Some(-30),
        voice_activity: Some(true),
        abs_send_time: Some(1_500_000),
        transport_cc: Some(65_535),
        video_orientation: Some(3),
        play_delay_min: Some(10),
        play_delay_max: Some(4095),
        video_content_type: Some(1),
        capture_time: Some(0x1234_5678_9abc_def0),
        clock_offset: Some(-7),
    };
    let some = Values { transport_cc: Some(7), capture_time: Some(9), ..Values::default() };
    send(&mut a, &mut b, 0, &all)?;
    send(&mut a, &mut b, 960, &some)
}
