//! Writes the datagrams of a stream as `rtprecord` reads them, a line `MILLISECONDS HEX` for each that comes decrypted.
//! `rtprecord FILE --pt 111=opus/48000/2` then makes a file that plays.

use jilqamur::{Format, Sender, SenderParams};
use std::io::{self, Write};

/// A silent frame of Opus of 20 ms (RFC 6716 3.1: CELT, fullband, mono, one frame).
const SILENCE: [u8; 3] = [0xf8, 0xff, 0xfe];

/// Adds a datagram and when it came to a record.
fn write_line(to: &mut impl Write, milliseconds: u64, datagram: &[u8]) -> io::Result<()> {
    write!(to, "{milliseconds} ")?;
    for byte in datagram {
        write!(to, "{byte:02x}")?;
    }
    writeln!(to)
}

fn main() -> Result<(), Box<dyn std::error::Error>> {
    let mut sender = Sender::new("opus", Format::new(48_000), SenderParams::new(44, 111, 1200))?;
    let mut out = io::stdout().lock();
    for k in 0..5 {
        for datagram in sender.push_sample(960 * k, &SILENCE)? {
            write_line(&mut out, 20 * k, &datagram)?;
        }
    }
    Ok(())
}
