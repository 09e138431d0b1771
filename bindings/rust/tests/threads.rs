//! Values move to other threads, and calls of different ones overlap.

use jilqamur::{
    Depacketizer, Direction, End, EndError, Forwarder, Kind, MIN_HELD, NackRequester, PacketHistory, Packetizer,
    Received, Receiver, Section, Sender, StreamParams, Unit, Window,
};
use std::sync::mpsc;
use std::thread;

fn is_send<T: Send>() {}

fn audio(ssrcs: &[u32]) -> [Section<'_>; 1] {
    [Section { mid: "0", kind: Kind::Audio, direction: Direction::SendRecv, ssrcs, repairs: &[] }]
}

fn agreed() -> Result<(End, End), EndError> {
    let mut a = End::builder().codec("opus", 111).session(1).build()?;
    let mut b = End::builder().codec("opus", 111).session(2).build()?;
    let offer = a.offer(&audio(&[44]))?;
    let answer = b.answer(&offer, &audio(&[45]))?;
    a.accept(&answer)?;
    a.open_sender("0", 44, 111, StreamParams::new(0, 1200, 1400), None)?;
    b.open_receiver("0", 44, 111, 2, MIN_HELD)?;
    Ok((a, b))
}

#[test]
fn each_handle_may_be_sent() {
    is_send::<End>();
    is_send::<Window>();
    is_send::<Sender>();
    is_send::<Receiver>();
    is_send::<Packetizer>();
    is_send::<Depacketizer>();
    is_send::<Forwarder>();
    is_send::<PacketHistory>();
    is_send::<NackRequester>();
}

/// One end sends on a thread of its own and the other receives on a second one; the receiver then goes back to the
/// first thread, and is dropped there.
#[test]
fn an_end_moves_to_a_thread_and_back() -> Result<(), EndError> {
    let (mut a, mut b) = agreed()?;
    let (datagrams, arriving) = mpsc::channel::<Vec<u8>>();
    let sending = thread::spawn(move || {
        for k in 0..100_u8 {
            for datagram in a.push_sample(0, 960 * u64::from(k), &[k, 1, 2], None)? {
                datagrams.send(datagram).expect("the receiver waits");
            }
        }
        Ok::<End, EndError>(a)
    });
    let receiving = thread::spawn(move || {
        let mut samples = Vec::new();
        for datagram in arriving {
            assert!(matches!(b.receive(&datagram)?, Received::Taken(0, _)));
            while let Some(unit) = b.poll(0)? {
                samples.push((unit.time, unit.bytes));
            }
        }
        Ok::<(End, Vec<(u32, Vec<u8>)>), EndError>((b, samples))
    });
    let mut a = sending.join().expect("no panic")?;
    let (mut b, samples) = receiving.join().expect("no panic")?;
    let wanted: Vec<_> = (0..100_u8).map(|k| (960 * u32::from(k), vec![k, 1, 2])).collect();
    assert_eq!(samples, wanted);
    let datagram = a.push_sample(0, 96_000, &[7], None)?.next().expect("one datagram");
    b.receive(&datagram)?;
    assert_eq!(b.poll(0)?.expect("a unit").bytes, [7]);
    Ok(())
}

/// Many ends at once, each made, used and dropped on its own thread.
#[test]
fn ends_of_many_threads_share_nothing() {
    let threads: Vec<_> = (0..8)
        .map(|_| {
            thread::spawn(|| {
                for _ in 0..20 {
                    let (mut a, mut b) = agreed()?;
                    let datagram = a.push_sample(0, 0, &[1, 2, 3], None)?.next().expect("one datagram");
                    b.receive(&datagram)?;
                    assert_eq!(b.poll(0)?.expect("a unit").bytes, [1, 2, 3]);
                }
                Ok::<(), EndError>(())
            })
        })
        .collect();
    for thread in threads {
        thread.join().expect("no panic").expect("no refusal");
    }
}

/// Memory is used again, whatever the sizes are.
#[test]
fn datagrams_and_units_go_into_the_same_memory() -> Result<(), EndError> {
    let (mut a, mut b) = agreed()?;
    let (mut datagram, mut unit) = (Vec::new(), Unit::default());
    for (k, size) in [1_usize, 1200, 3, 900, 7].into_iter().enumerate() {
        let sample = vec![k as u8 + 1; size];
        let mut datagrams = a.push_sample(0, 960 * k as u64, &sample, None)?;
        assert!(datagrams.next_into(&mut datagram));
        assert!(!datagrams.next_into(&mut datagram));
        assert!(matches!(b.receive(&datagram)?, Received::Taken(0, _)));
        assert!(b.poll_into(0, &mut unit)?);
        assert_eq!((unit.bytes.as_slice(), unit.time as usize), (sample.as_slice(), 960 * k));
        assert!(!b.poll_into(0, &mut unit)?);
        assert_eq!(unit.bytes, sample);
    }
    Ok(())
}
