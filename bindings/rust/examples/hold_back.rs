//! What the hold-back does to frames after a loss, what a forged datagram does, and what a sender that restarts needs.

use jilqamur::{EndError, Format, MIN_HELD, Receiver};

/// Prints when each packet's unit comes, of ten packets of 20 ms of which the third is lost.
fn lost(hold_back: usize) -> Result<(), EndError> {
    let mut receiver = Receiver::new("opus", Format::new(48_000), hold_back, MIN_HELD)?;
    print!("hold-back {hold_back:2}:");
    for number in (0..10_u16).filter(|number| *number != 2) {
        receiver.push(number, 960 * u32::from(number), true, &[number as u8])?;
        while let Some(unit) = receiver.poll()? {
            print!(" {}+{}", unit.bytes[0], number - u16::from(unit.bytes[0]));
        }
    }
    print!(" |");
    while let Some(unit) = receiver.drain()? {
        print!(" {}", unit.bytes[0]); // at the end of the stream
    }
    println!();
    Ok(())
}

/// A number far ahead makes the window refuse what the sender sends from then on, until it comes that far itself.
fn forged() -> Result<(), EndError> {
    let mut receiver = Receiver::new("opus", Format::new(48_000), 2, MIN_HELD)?;
    for number in [100, 101, 101 + 32_767, 102, 103] {
        let taken = receiver.push(number, 0, true, &[1])?;
        println!("number {number}: {}", taken.map_or("refused".into(), |number| format!("taken as {number}")));
    }
    Ok(())
}

/// A sender that restarts under the same SSRC with other numbers needs a new stream.
fn restarted() -> Result<(), EndError> {
    let mut receiver = Receiver::new("opus", Format::new(48_000), 2, MIN_HELD)?;
    receiver.push(40_000, 0, true, &[1])?;
    println!("restarted at 20,000, old stream: {:?}", receiver.push(20_000, 0, true, &[2])?);
    let mut receiver = Receiver::new("opus", Format::new(48_000), 2, MIN_HELD)?;
    println!("restarted at 20,000, new stream: {:?}", receiver.push(20_000, 0, true, &[2])?);
    Ok(())
}

fn main() -> Result<(), EndError> {
    for hold_back in [0, 2, 15] {
        lost(hold_back)?;
    }
    forged()?;
    restarted()
}
