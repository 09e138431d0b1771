//! A stream that begins with a key frame, though datagrams of the frames before it come, and its own come late: whoever
//! joins a call or records one shows nothing that can't be decoded.

use jilqamur::{Direction, End, EndError, Kind, MIN_HELD, PacketInfo, Received, Section, StreamParams};

/// Takes a datagram, and tells whether units may be polled: once a key frame has begun. What came before it is passed.
fn receive(end: &mut End, has_begun: bool, datagram: &[u8]) -> Result<bool, EndError> {
    let Ok(arrival) = end.arrival(datagram)? else { return Ok(has_begun) };
    let info = PacketInfo::of("VP8", arrival.payload, arrival.marker)?;
    let Received::Taken(stream, number) = end.receive(datagram)? else { return Ok(has_begun) };
    if has_begun || !(info.is_head && info.shows_key_frame) {
        return Ok(has_begun); // if none comes, ask for one (PLI)
    }
    if number > 0 {
        end.pass_to(stream, number - 1)?;
    }
    Ok(true)
}

/// Two ends that agree on VP8: stream 0 of the first sends to stream 0 of the second.
fn connected() -> Result<(End, End), EndError> {
    let vp8 = |session| End::builder().codec("VP8", 96).session(session).build();
    let video = |direction, ssrcs| Section { mid: "0", kind: Kind::Video, direction, ssrcs, repairs: &[] };
    let (mut a, mut b) = (vp8(1)?, vp8(2)?);
    let offer = a.offer(&[video(Direction::SendOnly, &[44])])?;
    let answer = b.answer(&offer, &[video(Direction::RecvOnly, &[])])?;
    a.accept(&answer)?;
    a.open_sender("0", 44, 96, StreamParams::new(1000, 500, 700), None)?;
    b.open_receiver("0", 44, 96, 15, MIN_HELD)?;
    Ok((a, b))
}

fn main() -> Result<(), EndError> {
    let (mut a, mut b) = connected()?;
    let mut sent: Vec<Vec<u8>> = Vec::new();
    for k in 0..6_u8 {
        let tag = if k == 2 { 0x10 } else { 0x11 }; // the first bit of a VP8 frame: 0 for a key frame
        let frame = [&[tag, k], &[0; 700][..]].concat();
        sent.extend(a.sender(0).push_sample(3000 * u64::from(k), &frame)?);
    }
    sent[4..8].swap(1, 3); // the key frame's second packet comes after the first one of the next frame
    let mut has_begun = false;
    for datagram in &sent {
        has_begun = receive(&mut b, has_begun, datagram)?;
        while let Some(unit) = if has_begun { b.poll(0)? } else { None } {
            let kind = if unit.is_keyframe { "a key frame" } else { "predicted" };
            println!("numbers {} to {}: frame {}, {kind}", unit.first, unit.last, unit.bytes[1]);
        }
    }
    Ok(())
}
