//! Two ends agree on Opus by an offer and an answer, and one sends three samples to the other: `crates/quick_start` in
//! Rust.

use jilqamur::{Direction, End, EndError, Kind, MIN_HELD, Reason, Received, Row, Section, StreamParams};

/// An end that has Opus at payload type 111.
fn opus_end(session: u64) -> Result<End, EndError> {
    let mut end = End::new()?;
    end.row(&Row::new(111, 48_000).with_channels(2), "opus", "minptime=10;useinbandfec=1")?;
    end.make(session)?;
    Ok(end)
}

/// One section, `0`, of audio in both directions, with these SSRCs.
fn audio(ssrcs: &[u32]) -> [Section<'_>; 1] {
    [Section { mid: "0", kind: Kind::Audio, direction: Direction::SendRecv, ssrcs, repairs: &[] }]
}

/// Takes a datagram from the network in, and prints the frames that are due then.
fn receive(end: &mut End, datagram: &[u8]) -> Result<(), EndError> {
    let Received::Taken(stream, _) = end.receive(datagram)? else {
        return Ok(()); // it belongs to no stream, is damaged or came before
    };
    for unit in end.receiver(stream).units() {
        match unit {
            Ok(unit) => println!("at {}: {:?}", unit.time, unit.bytes),
            Err(refused) if refused.reason() == Reason::Payload => {} // the codec can't read this frame: go on
            Err(refused) => return Err(refused),
        }
    }
    Ok(())
}

fn main() -> Result<(), EndError> {
    let (mut a, mut b) = (opus_end(1)?, opus_end(2)?);
    let offer = a.offer(&audio(&[44]))?; // the two texts are all that travels
    let answer = b.answer(&offer, &audio(&[45]))?;
    a.accept(&answer)?;
    let stream = a.open_sender("0", 44, 111, StreamParams::new(1000, 1200, 1400), None)?;
    b.open_receiver("0", 44, 111, 4, MIN_HELD)?;
    for k in 0..3 {
        // The datagrams of a sample would go out to the network; here they go to b.
        for datagram in a.sender(stream).push_sample(960 * u64::from(k), &[k, 2, 3])? {
            receive(&mut b, &datagram)?;
        }
    }
    Ok(())
}
