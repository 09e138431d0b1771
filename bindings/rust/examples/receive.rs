//! Reads lines as `receive E HEX`, and says of each datagram what `rtplines` says of it at an end whose one receiving
//! stream has the SSRC and the payload type that are given.

use jilqamur::{Error, Header, Window};
use std::io::{self, BufRead};

fn from_hex(text: &str) -> Vec<u8> {
    let digits = text.as_bytes();
    digits.chunks_exact(2).filter_map(|pair| u8::from_str_radix(std::str::from_utf8(pair).ok()?, 16).ok()).collect()
}

fn verdict(window: &mut Window, ssrc: u32, payload_type: u8, datagram: &[u8]) -> Result<String, Error> {
    let (header, behind) = Header::read(datagram)?;
    if header.ssrc != ssrc || header.payload_type != payload_type {
        return Ok("foreign".into());
    }
    if header.payload(behind)?.is_empty() {
        return Err(Error::Damaged);
    }
    Ok(format!("taken 0 {}", window.receive(datagram)?))
}

fn main() -> Result<(), Box<dyn std::error::Error>> {
    let mut words = std::env::args().skip(1);
    let ssrc = words.next().ok_or("an SSRC is missing")?.parse()?;
    let payload_type = words.next().ok_or("a payload type is missing")?.parse()?;
    let mut window = Window::new()?;
    for line in io::stdin().lock().lines() {
        let line = line?;
        let Some(hex) = line.strip_prefix("receive ").and_then(|rest| rest.get(2..)) else {
            continue;
        };
        match verdict(&mut window, ssrc, payload_type, &from_hex(hex)) {
            Ok(said) => println!("{said}"),
            Err(Error::Unreadable) => println!("unreadable"),
            Err(Error::Damaged) => println!("damaged"),
            Err(Error::Refused) => println!("refused"),
            Err(other) => return Err(other.into()),
        }
    }
    Ok(())
}
