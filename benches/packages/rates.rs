//! What benches/packages/go does, by the Rust package: samples into datagrams, and datagrams received and polled, in
//! memory that is used again.

use jilqamur::{Direction, End, EndError, Kind, MIN_HELD, Received, Row, Section, StreamParams, Unit};
use std::time::Instant;

const MTU: usize = 1200;
const SLICES: usize = 300;

struct Line {
    codec: &'static str,
    row: Row,
    format: &'static str,
    kind: Kind,
    head: &'static [u8],
    size: usize,
}

fn section(kind: Kind, ssrcs: &[u32]) -> [Section<'_>; 1] {
    [Section { mid: "0", kind, direction: Direction::SendRecv, ssrcs, repairs: &[] }]
}

fn agreed(line: &Line) -> Result<(End, End), EndError> {
    let mut a = End::builder().row(line.row, line.codec, line.format).session(1).build()?;
    let mut b = End::builder().row(line.row, line.codec, line.format).session(2).build()?;
    let offer = a.offer(&section(line.kind, &[44]))?;
    let answer = b.answer(&offer, &section(line.kind, &[45]))?;
    a.accept(&answer)?;
    let params = StreamParams::new(0, MTU, MTU + 200);
    let params = if line.kind == Kind::Video { params.with_picture_id(1) } else { params };
    a.open_sender("0", 44, 111, params, None)?;
    b.open_receiver("0", 44, 111, 4, MIN_HELD)?;
    Ok((a, b))
}

fn measure(line: &Line) -> Result<(), EndError> {
    let mut sample = vec![8; line.size];
    sample[..line.head.len()].copy_from_slice(line.head);
    let rounds = (200_000 / line.size).clamp(1, 1000);
    let rate = |nanos: u128| line.size as u128 * rounds as u128 * 1000 / nanos.max(1);
    let (mut a, mut b) = agreed(line)?;
    let (mut sent_in, mut received_in, mut ticks, mut bytes) = (u128::MAX, u128::MAX, 0, 0);
    let (mut sent, mut unit) = (vec![Vec::<Vec<u8>>::new(); rounds], Unit::default());
    for _ in 0..SLICES {
        let start = Instant::now();
        for datagrams in &mut sent {
            ticks += 960;
            let (mut pushed, mut next) = (a.push_sample(0, ticks, &sample, None)?, 0);
            while pushed.len() > 0 {
                if next == datagrams.len() {
                    datagrams.push(Vec::new());
                }
                pushed.next_into(&mut datagrams[next]);
                next += 1;
            }
            datagrams.truncate(next);
        }
        sent_in = sent_in.min(start.elapsed().as_nanos());
        let start = Instant::now();
        for datagram in sent.iter().flatten() {
            if let Received::Taken(stream, _) = b.receive(datagram)? {
                while b.poll_into(stream, &mut unit)? {
                    bytes = unit.bytes.len();
                }
            }
        }
        received_in = received_in.min(start.elapsed().as_nanos());
    }
    println!("{}: {} bytes, {bytes} in a unit", line.codec, line.size);
    eprintln!("{}, {} bytes: {} MB a second sent", line.codec, line.size, rate(sent_in));
    eprintln!("{}, {} bytes: {} MB a second received and polled", line.codec, line.size, rate(received_in));
    Ok(())
}

fn main() -> Result<(), EndError> {
    let video =
        |codec, format, head, size| Line { codec, row: Row::new(111, 90_000), format, kind: Kind::Video, head, size };
    for size in [12_000, 196_000] {
        measure(&video("VP8", "", b"", size))?;
        measure(&video("VP9", "profile-id=0", b"\x82\x49\x83\x42", size))?;
        measure(&video("H264", "packetization-mode=1;profile-level-id=42001f", b"\0\0\0\x01\x65", size))?;
    }
    let row = Row::new(111, 48_000).with_channels(2);
    measure(&Line { codec: "opus", row, format: "", kind: Kind::Audio, head: b"", size: 120 })
}
