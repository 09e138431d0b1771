//! Two ends on two threads over UDP (`std::net`), without encryption: one sends, the other one receives.

use jilqamur::{Direction, End, EndError, Kind, MIN_HELD, Reason, Received, Section, StreamParams};
use std::error::Error;
use std::net::UdpSocket;
use std::thread;
use std::time::Duration;

const SAMPLES: u64 = 10;

fn audio(ssrcs: &[u32]) -> [Section<'_>; 1] {
    [Section { mid: "0", kind: Kind::Audio, direction: Direction::SendRecv, ssrcs, repairs: &[] }]
}

/// Two ends that agree on Opus, and their streams. Between two machines the texts go by a channel of your own.
fn agreed() -> Result<(End, End), EndError> {
    let mut a = End::builder().codec("opus", 111).session(1).build()?;
    let mut b = End::builder().codec("opus", 111).session(2).build()?;
    let offer = a.offer(&audio(&[44]))?;
    let answer = b.answer(&offer, &audio(&[45]))?;
    a.accept(&answer)?;
    a.open_sender("0", 44, 111, StreamParams::new(1000, 1200, 1400), None)?;
    b.open_receiver("0", 44, 111, 2, MIN_HELD)?;
    Ok((a, b))
}

/// Sends a sample of 20 ms each 20 ms.
fn send(mut end: End, socket: &UdpSocket) -> Result<(), Box<dyn Error + Send + Sync>> {
    for k in 0..SAMPLES {
        for datagram in end.sender(0).push_sample(960 * k, &[k as u8, 2, 3])? {
            socket.send(&datagram)?;
        }
        thread::sleep(Duration::from_millis(20));
    }
    Ok(())
}

/// Prints the units of what arrives, until nothing arrives for as long as the socket waits.
fn receive(mut end: End, socket: &UdpSocket) -> Result<(), Box<dyn Error + Send + Sync>> {
    let mut buffer = [0; 1500];
    while let Ok(len) = socket.recv(&mut buffer) {
        let Received::Taken(stream, _) = end.receive(&buffer[..len])? else {
            continue; // it belongs to no stream, is damaged or came before
        };
        for unit in end.receiver(stream).units() {
            match unit {
                Ok(unit) => println!("at {}: {:?}", unit.time, unit.bytes),
                Err(refused) if refused.reason() == Reason::Payload => {} // a frame that can't be read
                Err(refused) => return Err(refused.into()),
            }
        }
    }
    Ok(())
}

fn main() -> Result<(), Box<dyn Error + Send + Sync>> {
    let (a, b) = agreed()?;
    let (from, to) = (UdpSocket::bind("127.0.0.1:0")?, UdpSocket::bind("127.0.0.1:0")?);
    from.connect(to.local_addr()?)?;
    to.set_read_timeout(Some(Duration::from_secs(1)))?;
    let receiving = thread::spawn(move || receive(b, &to));
    send(a, &from)?;
    receiving.join().expect("no panic")
}
