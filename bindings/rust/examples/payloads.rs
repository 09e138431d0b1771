//! Reads a capture through replay window and depacketizer, a line `MS HEX` for each datagram, and prints what came of
//! each stream of one payload type, as crates/examples does; then each unit is packetized and read again, and
//! what came of that is printed too. The arguments are FILE CODEC TYPE; the clock rate is 48,000, which telephone
//! events alone go by.

use jilqamur::{Depacketizer, Error, Fault, Format, Header, MIN_HELD, Packetizer, PacketizerParams, Unit, Window};
use std::io::{self, BufRead};

const HOLD_BACK: usize = 127;
const MTU: usize = 1200;

#[derive(Default)]
struct Counts {
    taken: u64,
    padding: u64,
    refused: u64,
    faults: u64,
    units: u64,
    bytes: usize,
    keyframes: u64,
    drained: u64,
    packets: u64,
    again: u64,
    bytes_again: usize,
    begins_with_keyframe: bool,
}

struct Stream {
    ssrc: u32,
    window: Window,
    depacketizer: Depacketizer,
    packetizer: Packetizer,
    second: Depacketizer,
    counts: Counts,
}

impl Stream {
    fn new(ssrc: u32, codec: &str) -> Result<Stream, Box<dyn std::error::Error>> {
        let format = Format::new(48_000);
        Ok(Stream {
            ssrc,
            window: Window::new()?,
            depacketizer: Depacketizer::new(codec, format, HOLD_BACK, MIN_HELD)?,
            packetizer: Packetizer::new(codec, format, PacketizerParams::new().with_picture_id(1))?,
            second: Depacketizer::new(codec, format, 0, MIN_HELD)?,
            counts: Counts::default(),
        })
    }

    /// Packetizes a unit, and reads the packets.
    fn send_again(&mut self, unit: &Unit) -> Result<(), Fault> {
        let Ok(packets) = self.packetizer.packetize(MTU, &unit.bytes) else {
            return Ok(());
        };
        for packet in packets {
            self.second.push(self.counts.packets, unit.time, packet.marker, &packet.payload)?;
            self.counts.packets += 1;
        }
        for unit in self.second.units().map_while(Result::ok) {
            self.counts.again += 1;
            self.counts.bytes_again += unit.bytes.len();
        }
        Ok(())
    }

    fn add(&mut self, unit: &Unit) -> Result<(), Fault> {
        if self.counts.units == 0 {
            self.counts.begins_with_keyframe = unit.is_keyframe;
        }
        self.counts.units += 1;
        self.counts.bytes += unit.bytes.len();
        self.counts.keyframes += u64::from(unit.is_keyframe);
        self.send_again(unit)
    }

    /// Takes the units that `next` hands out; the answer is how many there were.
    fn take_units(&mut self, next: fn(&mut Depacketizer) -> Result<Option<Unit>, Fault>) -> Result<u64, Fault> {
        let before = self.counts.units;
        loop {
            match next(&mut self.depacketizer) {
                Ok(None) => return Ok(self.counts.units - before),
                Ok(Some(unit)) => self.add(&unit)?,
                Err(Fault::Memory) => return Err(Fault::Memory),
                Err(_) => self.counts.faults += 1,
            }
        }
    }

    fn receive(&mut self, header: &Header, behind: &[u8], datagram: &[u8]) -> Result<(), Box<dyn std::error::Error>> {
        match header.payload(behind) {
            Err(_) => self.counts.faults += 1,
            Ok([]) => self.counts.padding += 1,
            Ok(payload) => match self.window.receive(datagram) {
                Ok(number) => {
                    self.depacketizer.push(number, header.timestamp, header.marker, payload)?;
                    self.counts.taken += 1;
                    self.take_units(Depacketizer::pop)?;
                }
                Err(Error::Refused) => self.counts.refused += 1,
                Err(error) => return Err(error.into()),
            },
        }
        Ok(())
    }

    fn report(&self) {
        let c = &self.counts;
        println!(
            "  SSRC {}: {} taken, {} of padding alone, {} refused, {} faults",
            self.ssrc, c.taken, c.padding, c.refused, c.faults
        );
        println!(
            "  {} units of {} bytes, {} at the end alone; {} keyframes, the first unit {}",
            c.units, c.bytes, c.drained, c.keyframes, c.begins_with_keyframe
        );
        println!("  again: {} packets, {} units of {} bytes", c.packets, c.again, c.bytes_again);
    }
}

fn from_hex(text: &str) -> Vec<u8> {
    let digits = text.as_bytes();
    digits.chunks_exact(2).filter_map(|pair| u8::from_str_radix(std::str::from_utf8(pair).ok()?, 16).ok()).collect()
}

fn main() -> Result<(), Box<dyn std::error::Error>> {
    let words: Vec<String> = std::env::args().skip(1).collect();
    let [file, codec, payload_type] = &words[..] else {
        return Err("FILE CODEC TYPE".into());
    };
    println!("{file} {codec} {payload_type}");
    let payload_type: u8 = payload_type.parse()?;
    let mut streams: Vec<Stream> = Vec::new();
    for line in io::stdin().lock().lines() {
        let line = line?;
        let Some((_, hex)) = line.split_once(' ').filter(|_| !line.starts_with('#')) else {
            continue;
        };
        let datagram = from_hex(hex);
        let Ok((header, behind)) = Header::read(&datagram) else {
            continue;
        };
        if header.payload_type != payload_type {
            continue;
        }
        let place = match streams.iter().position(|stream| stream.ssrc == header.ssrc) {
            Some(place) => place,
            None => {
                streams.push(Stream::new(header.ssrc, codec)?);
                streams.len() - 1
            }
        };
        streams[place].receive(&header, behind, &datagram)?;
    }
    for stream in &mut streams {
        stream.counts.drained = stream.take_units(Depacketizer::drain)?;
        stream.report();
    }
    Ok(())
}
