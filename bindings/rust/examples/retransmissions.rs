//! What the transport does for lost video: the receiver asks for missing datagrams (NACK, RFC 4585 6.2.1), the sender
//! repeats them out of a history, and what can't be repaired any more is answered with a key frame (PLI, RFC 4585
//! 6.3.1).

use jilqamur::{
    Direction, End, EndError, Kind, MIN_HELD, NackRequester, PacketHistory, Received, Row, Section, StreamParams,
};

/// A history of about a second: at most so many datagrams, and so many bytes.
fn history() -> Result<PacketHistory, EndError> {
    PacketHistory::new(500, 1 << 20)
}

/// The datagrams of a sample, kept under their numbers.
fn sent(end: &mut End, history: &mut PacketHistory, ticks: u64, sample: &[u8]) -> Result<Vec<Vec<u8>>, EndError> {
    let first = end.next_number(0)?;
    let datagrams: Vec<Vec<u8>> = end.sender(0).push_sample(ticks, sample)?.collect();
    for (number, datagram) in (first..).zip(&datagrams) {
        history.keep(number, datagram)?;
    }
    Ok(datagrams)
}

/// The retransmissions of what a NACK asks for, as far as it is still kept.
fn repairs(end: &mut End, history: &PacketHistory, nack: &[u8]) -> Result<Vec<Vec<u8>>, EndError> {
    let kept = asked(nack).into_iter().filter_map(|low| history.asked(low));
    kept.map(|datagram| end.sender(0).repair(&datagram)).collect()
}

/// A packet of RTCP feedback (RFC 4585 6.1): its format and type, the own SSRC, the SSRC of the media, and the rest.
fn feedback(format: u8, kind: u8, own: u32, media: u32, rest: &[u8]) -> Vec<u8> {
    let words = (2 + rest.len() / 4) as u16;
    let head = [0x80 | format, kind, (words >> 8) as u8, words as u8];
    [&head, &own.to_be_bytes()[..], &media.to_be_bytes(), rest].concat()
}

/// Asks for datagrams, each with an entry of its own.
fn nack(own: u32, media: u32, missing: &[u64]) -> Vec<u8> {
    let entry = |number: &u64| [(number >> 8) as u8, *number as u8, 0, 0];
    feedback(1, 205, own, media, &missing.iter().flat_map(entry).collect::<Vec<u8>>())
}

/// The numbers that a NACK asks for: of each entry its number, and those of the 16 after it whose bits are set.
fn asked(nack: &[u8]) -> Vec<u16> {
    let entries = nack.get(12..).unwrap_or_default().chunks_exact(4);
    let numbers = |entry: &[u8]| {
        let (low, bits) = (u16::from_be_bytes([entry[0], entry[1]]), u16::from_be_bytes([entry[2], entry[3]]));
        (0..17).filter(move |k| *k == 0 || bits >> (k - 1) & 1 == 1).map(move |k| low.wrapping_add(k))
    };
    entries.flat_map(numbers).collect()
}

/// Asks for a key frame.
fn pli(own: u32, media: u32) -> Vec<u8> {
    feedback(1, 206, own, media, &[])
}

/// Whether units may be shown: not from a hole on to the next key frame.
#[derive(Default)]
struct Picture {
    last: Option<u64>,
    waits: bool,
}

impl Picture {
    /// Whether to show a unit; if not, ask for a key frame.
    fn shows(&mut self, first: u64, last: u64, is_keyframe: bool) -> bool {
        let has_hole = self.last.is_none_or(|before| first != before + 1);
        self.waits = !is_keyframe && (self.waits || has_hole);
        self.last = Some(last);
        !self.waits
    }
}

/// Two ends that agree on VP8 with retransmissions, under SSRC 45 of what SSRC 44 sends; both streams are number 0.
fn agreed() -> Result<(End, End), EndError> {
    let vp8 = |session| End::builder().row(Row::new(96, 90_000).with_resend(97), "VP8", "").session(session).build();
    let direction = Direction::SendRecv;
    let (mut a, mut b) = (vp8(1)?, vp8(2)?);
    let of_a = Section { mid: "0", kind: Kind::Video, direction, ssrcs: &[44], repairs: &[(44, 45)] };
    let of_b = Section { mid: "0", kind: Kind::Video, direction, ssrcs: &[46], repairs: &[(46, 47)] };
    let offer = a.offer(&[of_a])?;
    let answer = b.answer(&offer, &[of_b])?;
    a.accept(&answer)?;
    a.open_sender("0", 44, 96, StreamParams::new(1000, 500, 700), None)?;
    b.open_receiver("0", 44, 96, 2, MIN_HELD)?;
    Ok((a, b))
}

/// Takes a datagram, and shows what is due; the answer is whether a key frame is wanted.
fn receive(b: &mut End, datagram: &[u8], picture: &mut Picture) -> Result<bool, EndError> {
    let Received::Taken(stream, _) = b.receive(datagram)? else { return Ok(false) };
    for unit in b.receiver(stream).units() {
        let unit = unit?;
        let shows = picture.shows(unit.first, unit.last, unit.is_keyframe);
        println!("at {}: {}", unit.time, if shows { "shown" } else { "waits for a key frame" });
    }
    Ok(picture.waits)
}

fn main() -> Result<(), EndError> {
    let (mut a, mut b) = agreed()?;
    let (mut history_of_a, mut picture) = (history()?, Picture::default());
    let mut requester = NackRequester::new(3, 0)?; // in order, nothing comes late: each number is asked for at once
    let mut wants_key = true;
    for k in 0..10_u64 {
        let tag = if wants_key { 0x10 } else { 0x11 }; // the first bit of a VP8 frame: 0 for a key frame
        for (place, datagram) in sent(&mut a, &mut history_of_a, 3000 * k, &[tag; 900])?.iter().enumerate() {
            if k % 4 != 1 || place != 0 {
                wants_key = receive(&mut b, datagram, &mut picture)?; // else it is lost on the way
            }
        }
        if k == 5 {
            history_of_a = history()?; // as if more than a second had passed
        }
        let wanted = requester.ask(&b.missing(0)?, 3000 * k, 9000)?; // a round trip of 100 ms
        for repair in repairs(&mut a, &history_of_a, &nack(46, 44, &wanted))? {
            println!("at {}: repaired", 3000 * k);
            wants_key = receive(&mut b, &repair, &mut picture)?;
        }
        if wants_key {
            println!("at {}: PLI of {} bytes", 3000 * k, pli(46, 44).len());
        }
    }
    Ok(())
}
