//! A forwarder by packets: a viewer sees one of two publishers, and then the other one from its next key frame on. The
//! middle puts no frames together, and each of its ends has SSRCs, payload types and header extensions of its own.

use jilqamur::{
    Direction, End, EndError, ForwardedPacket, Forwarder, Kind, MIN_HELD, PacketInfo, Received, Section, StreamParams,
    Values,
};

/// What the middle sends to a viewer: the end that faces it, whose stream 0 sends, and the publisher that it sees.
struct Viewer {
    end: End,
    forwarder: Forwarder,
    wanted: u64,
    seen: Option<u64>,
    next_time: u32,
}

impl Viewer {
    /// A datagram of a publisher as it is for the viewer; None if the viewer doesn't get it. `from` is the end that
    /// faces the publisher.
    fn datagram(&mut self, publisher: u64, from: &mut End, datagram: &[u8]) -> Result<Option<Vec<u8>>, EndError> {
        let Ok(arrival) = from.arrival(datagram)? else { return Ok(None) };
        let Some(number) = from.receiver(arrival.stream).take_number(arrival.low)? else { return Ok(None) };
        let info = PacketInfo::of("VP8", arrival.payload, arrival.marker)?;
        let is_other = publisher == self.wanted && self.seen != Some(publisher);
        if is_other && info.is_head && info.shows_key_frame {
            self.forwarder.switch(publisher, number, arrival.timestamp, self.next_time)?;
            self.seen = Some(publisher);
        }
        let placed = self.forwarder.forward(publisher, number, arrival.timestamp, info.is_tail);
        let Some(placed) = placed else { return Ok(None) };
        self.next_time = placed.timestamp.wrapping_add(3000); // by the clock, if publishers pause
        let packet = ForwardedPacket {
            number: placed.number,
            timestamp: placed.timestamp,
            marker: arrival.marker,
            payload: arrival.payload,
        };
        // These two are of the way to the middle, and not of the way to the viewer.
        let values = Values { abs_send_time: None, transport_cc: None, ..arrival.values };
        self.end.sender(0).send_packet(&packet, &values, Some("0")).map(Some)
    }
}

/// Two ends that agree on VP8: stream 0 of the first sends to stream 0 of the second.
fn connected(payload_type: u8, ssrc: u32) -> Result<(End, End), EndError> {
    let vp8 = |session| End::builder().codec("VP8", payload_type).session(session).build();
    let video = |direction, ssrcs| Section { mid: "0", kind: Kind::Video, direction, ssrcs, repairs: &[] };
    let (mut a, mut b) = (vp8(1)?, vp8(2)?);
    let ssrcs = [ssrc];
    let offer = a.offer(&[video(Direction::SendOnly, &ssrcs)])?;
    let answer = b.answer(&offer, &[video(Direction::RecvOnly, &[])])?;
    a.accept(&answer)?;
    a.open_sender("0", ssrc, payload_type, StreamParams::new(1000, 1200, 1400), None)?;
    b.open_receiver("0", ssrc, payload_type, 15, MIN_HELD)?;
    Ok((a, b))
}

fn main() -> Result<(), EndError> {
    let mut publishers = [connected(96, 44)?, connected(98, 55)?];
    let (end, mut seeing) = connected(100, 66)?;
    let mut viewer = Viewer { end, forwarder: Forwarder::new(0)?, wanted: 0, seen: None, next_time: 0 };
    for k in 0..8_u8 {
        viewer.wanted = u64::from(k >= 3); // from here on the viewer wants to see the second publisher
        for (publisher, (sending, facing)) in (0..).zip(&mut publishers) {
            let tag = if k % 5 == 0 { 0x10 } else { 0x11 }; // each fifth frame is a key frame
            let frame = [tag, publisher as u8, k];
            let sent: Vec<Vec<u8>> = sending.sender(0).push_sample(3000 * u64::from(k), &frame)?.collect();
            for datagram in sent {
                let Some(datagram) = viewer.datagram(publisher, facing, &datagram)? else { continue };
                let Received::Taken(stream, number) = seeing.receive(&datagram)? else { continue };
                for unit in seeing.receiver(stream).units() {
                    let unit = unit?;
                    println!("number {number} at {}: frame {} of {}", unit.time, unit.bytes[2], unit.bytes[1]);
                }
            }
        }
    }
    Ok(())
}
