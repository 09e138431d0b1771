//! Packets that are sent on without putting frames together.

use crate::datagrams::fetched;
use crate::ends::End;
use crate::error::code;
use crate::params::Received;
use crate::refused::{EndError, Place, done, done_of, keeps_mid};
use crate::sys;
use crate::values::Values;

/// How a datagram arrives at a receiving stream of an end.
///
/// ```
/// use jilqamur::{Direction, End, Kind, MIN_HELD, Section, StreamParams};
/// # let mut a = End::builder().codec("opus", 111).session(1).build()?;
/// # let mut b = End::builder().codec("opus", 111).session(2).build()?;
/// # let audio = |ssrcs| Section { mid: "0", kind: Kind::Audio, direction: Direction::SendRecv, ssrcs, repairs: &[] };
/// # let offer = a.offer(&[audio(&[44])])?;
/// # let answer = b.answer(&offer, &[audio(&[45])])?;
/// # a.accept(&answer)?;
/// # let stream = a.open_sender("0", 44, 111, StreamParams::new(1000, 1200, 1400), None)?;
/// # let datagram = a.push_sample(stream, 960, &[1, 2, 3], None)?.next().expect("one datagram");
/// # b.open_receiver("0", 44, 111, 2, MIN_HELD)?;
/// let arrival = b.arrival(&datagram)?.expect("a stream would take it");
/// assert_eq!((arrival.low, arrival.timestamp, arrival.payload), (1000, 960, &[1, 2, 3][..]));
/// assert_eq!(b.take_number(arrival.stream, arrival.low)?, Some(1000));
/// # Ok::<(), jilqamur::EndError>(())
/// ```
#[derive(Clone, Copy, Debug, PartialEq, Eq)]
pub struct Arrival<'a> {
    /// The number of the stream.
    pub stream: usize,
    /// The low 16 bits of its sequence number.
    pub low: u16,
    /// Its RTP timestamp.
    pub timestamp: u32,
    /// Its marker bit.
    pub marker: bool,
    /// Its payload, without padding and redundancy.
    pub payload: &'a [u8],
    /// The values of its header extensions.
    pub values: Values,
}

/// A packet as a sending stream sends it on.
///
/// ```
/// use jilqamur::{Direction, End, ForwardedPacket, Header, Kind, Section, StreamParams, Values};
/// # let mut a = End::builder().codec("opus", 111).session(1).build()?;
/// # let mut b = End::builder().codec("opus", 111).session(2).build()?;
/// # let audio = |ssrcs| Section { mid: "0", kind: Kind::Audio, direction: Direction::SendRecv, ssrcs, repairs: &[] };
/// # let offer = a.offer(&[audio(&[44])])?;
/// # let answer = b.answer(&offer, &[audio(&[45])])?;
/// # a.accept(&answer)?;
/// # let stream = a.open_sender("0", 44, 111, StreamParams::new(1000, 1200, 1400), None)?;
/// let packet = ForwardedPacket { number: 2000, timestamp: 960, marker: true, payload: &[1, 2, 3] };
/// let datagram = a.sender(stream).send_packet(&packet, &Values::default(), None)?;
/// let (header, payload) = Header::read(&datagram).expect("a header");
/// assert_eq!((header.ssrc, header.sequence_number, payload), (44, 2000, &[1, 2, 3][..]));
/// # Ok::<(), jilqamur::EndError>(())
/// ```
#[derive(Clone, Copy, Debug, PartialEq, Eq)]
pub struct ForwardedPacket<'a> {
    /// The sequence number, 64 bits wide, below 2^62.
    pub number: u64,
    /// The RTP timestamp.
    pub timestamp: u32,
    /// The marker bit.
    pub marker: bool,
    /// The payload, of at least one byte.
    pub payload: &'a [u8],
}

impl End {
    /// How a datagram arrives at the receiving stream that would take it, without taking it. A retransmission tells
    /// what it wraps. `Err` is what [`End::receive`] says of any other datagram.
    ///
    /// # Errors
    /// `NotMade`.
    pub fn arrival<'a>(&self, datagram: &'a [u8]) -> Result<Result<Arrival<'a>, Received>, EndError> {
        let (mut stream, mut told, mut values) = (0, sys::Arrival::default(), sys::Values::default());
        // SAFETY: the handle is open, pointer and length are those of one slice, and what is written are places of
        // their own.
        let answer = unsafe {
            sys::jilqamur_end_arrival(
                self.0.raw(),
                datagram.as_ptr(),
                datagram.len(),
                &mut stream,
                &mut told,
                &mut values,
            )
        };
        Ok(match answer {
            code::UNREADABLE => Err(Received::Unreadable),
            code::FOREIGN => Err(Received::Foreign),
            code::DAMAGED => Err(Received::Damaged),
            code::REFUSED => Err(Received::Refused),
            _ => {
                done(answer)?;
                Ok(Arrival {
                    stream,
                    low: told.low,
                    timestamp: told.timestamp,
                    marker: told.marker,
                    payload: &datagram[told.start..told.end],
                    values: Values::of(&values),
                })
            }
        })
    }

    /// Takes only the number of a datagram that arrived at a receiving stream, by its low 16 bits, and returns it
    /// widened; nothing waits to be polled. None if it came before, or is 1,024 or more below the greatest.
    ///
    /// # Errors
    /// `NotMade` or `NoStream`.
    pub fn take_number(&mut self, stream: usize, low: u16) -> Result<Option<u64>, EndError> {
        let mut number = 0;
        // SAFETY: the handle is open, and what is written is a place of its own.
        let answer = unsafe { sys::jilqamur_end_take_number(self.0.raw(), stream, low, &mut number) };
        if answer == code::REFUSED {
            return Ok(None);
        }
        done_of(answer, stream)?;
        Ok(Some(number))
    }

    /// One packet of another stream as a datagram of a sending stream, with the values that are given and the section's
    /// mid if it is given, each if the agreed map has an id for it. Numbers may come in any order; the stream's samples
    /// are numbered above them.
    ///
    /// # Errors
    /// `MidNotKept`, `NotMade` or `NoStream`; else the first that applies of `AddsRedundancy`, `NumberTooLarge`,
    /// `NoPayload` and `LimitTooSmall`; or `Memory`. Nothing has changed.
    pub fn send_packet(
        &mut self,
        stream: usize,
        packet: &ForwardedPacket<'_>,
        values: &Values,
        mid: Option<&str>,
    ) -> Result<Vec<u8>, EndError> {
        let (mid, values) = (mid.unwrap_or(""), values.given());
        keeps_mid(mid, || Place::section(mid))?;
        // SAFETY: the handle is open, and pointers and lengths are those of one slice each.
        let answer = unsafe {
            sys::jilqamur_end_send_packet(
                self.0.raw(),
                stream,
                packet.number,
                packet.timestamp,
                packet.marker,
                &values,
                mid.as_ptr(),
                mid.len(),
                packet.payload.as_ptr(),
                packet.payload.len(),
            )
        };
        done_of(answer, stream)?;
        Ok(fetched(|buffer, len, needed| {
            // SAFETY: the handle is open, and pointer and length are those of one slice.
            unsafe { sys::jilqamur_end_datagram(self.0.raw(), 0, buffer, len, needed) }
        }))
    }
}

/// The number and timestamp under which a packet is sent on.
///
/// ```
/// use jilqamur::{Forwarder, Placed};
/// let mut forwarder = Forwarder::new(1)?;
/// forwarder.switch(7, 500, 90_000, 3000)?;
/// assert_eq!(forwarder.place(7, 500, 90_000), Some(Placed { number: 1, timestamp: 3000 }));
/// # Ok::<(), jilqamur::EndError>(())
/// ```
#[repr(C)]
#[derive(Clone, Copy, Debug, Default, PartialEq, Eq)]
pub struct Placed {
    /// The sequence number, 64 bits wide.
    pub number: u64,
    /// The RTP timestamp.
    pub timestamp: u32,
}

/// Numbers and times the packets of several sources as those of one stream: the packets of a source keep their
/// distances, and each piece of a source begins above the numbers that were given before. Packets that come late are
/// sent on where they belong, as long as the last 64 pieces are kept. A source is any number that its user gives it.
///
/// ```
/// let mut forwarder = jilqamur::Forwarder::new(1)?;
/// forwarder.switch(7, 500, 90_000, 3_000)?;
/// let placed = forwarder.forward(7, 502, 93_000, true).expect("it is sent on");
/// assert_eq!((placed.number, placed.timestamp), (3, 6_000));
/// assert_eq!(forwarder.next(), 4);
/// # Ok::<(), jilqamur::EndError>(())
/// ```
#[derive(Debug)]
pub struct Forwarder(sys::Handle);

impl Forwarder {
    /// One that sends nothing on, and whose first packet will get the number `first`.
    ///
    /// # Errors
    /// `Memory`.
    pub fn new(first: u64) -> Result<Forwarder, EndError> {
        let forwarder = sys::Handle::closed();
        // SAFETY: the handle is closed.
        done(unsafe { sys::jilqamur_forwarder_open(forwarder.raw(), first) })?;
        Ok(Forwarder(forwarder))
    }

    /// Goes over to a source, from its packet of this number and timestamp on, which gets the timestamp `at` and the
    /// next number; one number is left free before it if the last packet wasn't sent on as the end of its frame.
    ///
    /// # Errors
    /// `Memory`; nothing has changed.
    pub fn switch(&mut self, source: u64, number: u64, timestamp: u32, at: u32) -> Result<(), EndError> {
        // SAFETY: the handle is open.
        done(unsafe { sys::jilqamur_forwarder_switch(self.0.raw(), source, number, timestamp, at) })
    }

    /// Leaves out what the source that is sent on last sends before the packet of this number, which gets the next
    /// number. Before the first switch it does nothing.
    ///
    /// # Errors
    /// `Memory`; nothing has changed.
    pub fn skip_to(&mut self, number: u64) -> Result<(), EndError> {
        // SAFETY: the handle is open.
        done(unsafe { sys::jilqamur_forwarder_skip_to(self.0.raw(), number) })
    }

    /// Says that what is sent on of the last source ends before its packet of this number: the next piece begins where
    /// that packet would be, and packets before it may still come.
    pub fn end_at(&mut self, number: u64) {
        // SAFETY: the handle is open.
        unsafe { sys::jilqamur_forwarder_end_at(self.0.raw(), number) };
    }

    /// Under which number and timestamp a source's packet of these is sent on. None if it isn't.
    #[must_use]
    pub fn place(&self, source: u64, number: u64, timestamp: u32) -> Option<Placed> {
        let mut placed = Placed::default();
        // SAFETY: the handle is open, and what is written is a place of its own.
        let answer = unsafe { sys::jilqamur_forwarder_place(self.0.raw(), source, number, timestamp, &mut placed) };
        (answer == code::OK).then_some(placed)
    }

    /// The same, and the number is given: the next piece begins above it. `ends` says whether the packet is the last
    /// one of its frame: for video [`PacketInfo`](crate::PacketInfo) tells it, for audio it is true.
    pub fn forward(&mut self, source: u64, number: u64, timestamp: u32, ends: bool) -> Option<Placed> {
        let mut placed = Placed::default();
        let at = self.0.raw();
        // SAFETY: the handle is open, and what is written is a place of its own.
        let answer = unsafe { sys::jilqamur_forwarder_forward(at, source, number, timestamp, ends, &mut placed) };
        (answer == code::OK).then_some(placed)
    }

    /// Leaves a source's packet out that carries nothing to send on, as one of only padding, between two frames. If it
    /// would get the next number, the source's packet after it gets that number, and true is returned. Otherwise
    /// nothing changes: call this again after the packets before it.
    ///
    /// # Errors
    /// `Memory`; nothing has changed.
    pub fn pass_empty(&mut self, source: u64, number: u64) -> Result<bool, EndError> {
        // SAFETY: the handle is open.
        match unsafe { sys::jilqamur_forwarder_pass_empty(self.0.raw(), source, number) } {
            code::NOTHING => Ok(false),
            answer => done(answer).map(|()| true),
        }
    }

    /// The first number above all those that were given.
    #[must_use]
    pub fn next(&self) -> u64 {
        let mut next = 0;
        // SAFETY: the handle is open, and what is written is a place of its own.
        unsafe { sys::jilqamur_forwarder_next(self.0.raw(), &mut next) };
        next
    }
}

impl Drop for Forwarder {
    fn drop(&mut self) {
        // SAFETY: the handle is open, and is not used again.
        unsafe { sys::jilqamur_forwarder_close(self.0.raw()) };
    }
}
