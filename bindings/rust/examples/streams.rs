//! Packetizes samples and prints their datagrams, and reads datagrams into units, of one codec, without an end: reads
//! the lines `sample E N TICKS HEX`, `receive E HEX` and `poll E N` of rtplines, and prints what rtplines prints at
//! ends with one such stream each. The arguments are CODEC CLOCK PT SSRC MTU PICTUREID HOLDBACK.

use jilqamur::{EndError, Format, Header, MIN_HELD, Reason, Receiver, Sender, SenderParams, Unit};
use std::io::{self, BufRead};

fn from_hex(text: &str) -> Vec<u8> {
    let digits = text.as_bytes();
    digits.chunks_exact(2).filter_map(|pair| u8::from_str_radix(std::str::from_utf8(pair).ok()?, 16).ok()).collect()
}

fn hex(bytes: &[u8]) -> String {
    bytes.iter().map(|byte| format!("{byte:02x}")).collect()
}

fn sample(sender: &mut Sender, ticks: u64, sample: &[u8]) {
    match sender.push_sample(ticks, sample) {
        Ok(datagrams) => {
            for datagram in datagrams {
                println!("datagram {}", hex(&datagram));
            }
            println!("ok");
        }
        Err(refused) => println!("refused {:?}", refused.reason()),
    }
}

fn receive(receiver: &mut Receiver, payload_type: u8, ssrc: u32, datagram: &[u8]) -> Result<String, EndError> {
    let Ok((header, behind)) = Header::read(datagram) else {
        return Ok("unreadable".into());
    };
    if header.ssrc != ssrc || header.payload_type != payload_type {
        return Ok("foreign".into());
    }
    let payload = match header.payload(behind) {
        Ok(payload) if !payload.is_empty() => payload,
        _ => return Ok("damaged".into()),
    };
    let taken = receiver.push(header.sequence_number, header.timestamp, header.marker, payload)?;
    Ok(taken.map_or("refused".into(), |number| format!("taken 0 {number}")))
}

fn poll(receiver: &mut Receiver) -> Result<(), EndError> {
    match receiver.poll() {
        Ok(None) => println!("none"),
        Ok(Some(Unit { first, last, time, bytes, .. })) => println!("unit {first} {last} {time} {}", hex(&bytes)),
        Err(refused) if refused.reason() == Reason::Payload => println!("fault Payload"),
        Err(refused) => return Err(refused),
    }
    Ok(())
}

fn main() -> Result<(), Box<dyn std::error::Error>> {
    let words: Vec<String> = std::env::args().skip(1).collect();
    let [codec, clock, payload_type, ssrc, mtu, picture_id, hold_back] = &words[..] else {
        return Err("CODEC CLOCK PT SSRC MTU PICTUREID HOLDBACK".into());
    };
    let (payload_type, ssrc) = (payload_type.parse()?, ssrc.parse()?);
    let format = Format::new(clock.parse()?);
    let params = SenderParams::new(ssrc, payload_type, mtu.parse()?).with_picture_id(picture_id.parse()?);
    let mut sender = Sender::new(codec, format, params)?;
    let mut receiver = Receiver::new(codec, format, hold_back.parse()?, MIN_HELD)?;
    for line in io::stdin().lock().lines() {
        let line = line?;
        let words: Vec<&str> = line.split(' ').collect();
        match words[..] {
            ["sample", _, _, ticks, bytes] => sample(&mut sender, ticks.parse()?, &from_hex(bytes)),
            ["receive", _, datagram] => {
                println!("{}", receive(&mut receiver, payload_type, ssrc, &from_hex(datagram))?);
            }
            ["poll", ..] => poll(&mut receiver)?,
            _ => {}
        }
    }
    Ok(())
}
