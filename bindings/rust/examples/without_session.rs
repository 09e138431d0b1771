//! Frames to datagrams and back without a session text: both sides know the codec, the SSRC and the payload type.

use jilqamur::{Format, Header, MIN_HELD, Receiver, Sender, SenderParams};

fn main() -> Result<(), Box<dyn std::error::Error>> {
    let format = Format::new(90_000);
    let mut sender = Sender::new("VP8", format, SenderParams::new(44, 96, 1200))?;
    let mut receiver = Receiver::new("VP8", format, 15, MIN_HELD)?;
    for (ticks, frame) in [(0, vec![0x10; 2000]), (3000, vec![0x11; 700])] {
        for datagram in sender.push_sample(ticks, &frame)? {
            let (header, rest) = Header::read(&datagram)?; // here it came over the network
            receiver.push(header.sequence_number, header.timestamp, header.marker, header.payload(rest)?)?;
        }
        while let Some(unit) = receiver.poll()? {
            println!("at {}: {} bytes, keyframe {}", unit.time, unit.bytes.len(), unit.is_keyframe);
        }
    }
    Ok(())
}
