//! A task for each end, over UDP: samples go in by a channel, units come out by another one. Nothing is encrypted.

use jilqamur::{Direction, End, EndError, Kind, MIN_HELD, Reason, Received, Section, StreamParams};
use std::error::Error;
use tokio::net::UdpSocket;
use tokio::sync::mpsc;

type Failure = Box<dyn Error + Send + Sync>;

/// A sample, and its time in ticks of the row's clock.
type Sample = (u64, Vec<u8>);

/// Owns an end: sends the samples of its stream 0, and hands out the units of what arrives, until the samples end.
async fn run(
    mut end: End,
    socket: UdpSocket,
    mut samples: mpsc::Receiver<Sample>,
    units: mpsc::Sender<Vec<u8>>,
) -> Result<(), Failure> {
    let mut buffer = [0; 1500];
    loop {
        tokio::select! {
            sample = samples.recv() => {
                let Some((ticks, bytes)) = sample else { return Ok(()) };
                for datagram in end.sender(0).push_sample(ticks, &bytes)? {
                    socket.send(&datagram).await?;
                }
            }
            len = socket.recv(&mut buffer) => {
                if let Received::Taken(stream, _) = end.receive(&buffer[..len?])? {
                    for unit in end.receiver(stream).units() {
                        match unit {
                            Ok(unit) => units.send(unit.bytes).await?,
                            Err(refused) if refused.reason() == Reason::Payload => {} // a frame that can't be read
                            Err(refused) => return Err(refused.into()),
                        }
                    }
                }
            }
        }
    }
}

/// Two ends that agree on Opus; stream 0 of each sends, and stream 1 receives what the other one sends.
fn agreed() -> Result<(End, End), EndError> {
    let audio = |ssrcs| [Section { mid: "0", kind: Kind::Audio, direction: Direction::SendRecv, ssrcs, repairs: &[] }];
    let mut a = End::builder().codec("opus", 111).session(1).build()?;
    let mut b = End::builder().codec("opus", 111).session(2).build()?;
    let offer = a.offer(&audio(&[44]))?;
    let answer = b.answer(&offer, &audio(&[45]))?;
    a.accept(&answer)?;
    for (end, own, other) in [(&mut a, 44, 45), (&mut b, 45, 44)] {
        end.open_sender("0", own, 111, StreamParams::new(1000, 1200, 1400), None)?;
        end.open_receiver("0", other, 111, 2, MIN_HELD)?;
    }
    Ok((a, b))
}

#[tokio::main]
async fn main() -> Result<(), Failure> {
    let (a, b) = agreed()?;
    let (of_a, of_b) = (UdpSocket::bind("127.0.0.1:0").await?, UdpSocket::bind("127.0.0.1:0").await?);
    of_a.connect(of_b.local_addr()?).await?;
    of_b.connect(of_a.local_addr()?).await?;
    let (to_a, samples_of_a) = mpsc::channel(16);
    let (to_b, samples_of_b) = mpsc::channel(16);
    let (from_a, mut units_of_a) = mpsc::channel(16);
    let (from_b, mut units_of_b) = mpsc::channel(16);
    let tasks = [tokio::spawn(run(a, of_a, samples_of_a, from_a)), tokio::spawn(run(b, of_b, samples_of_b, from_b))];
    for k in 0..5_u8 {
        to_a.send((960 * u64::from(k), vec![k, 1])).await?;
        to_b.send((960 * u64::from(k), vec![k, 2])).await?;
        println!("{:?} {:?}", units_of_a.recv().await, units_of_b.recv().await);
    }
    drop((to_a, to_b));
    for task in tasks {
        task.await??;
    }
    Ok(())
}
