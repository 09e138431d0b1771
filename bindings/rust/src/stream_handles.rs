//! Streams of an end, borrowed from it.

use crate::datagrams::Datagrams;
use crate::ends::End;
use crate::forwarding::ForwardedPacket;
use crate::refused::EndError;
use crate::units::Unit;
use crate::values::Values;

/// A sending stream of an end; [`End::sender`] borrows it.
///
/// ```
/// use jilqamur::{Direction, End, Kind, Reason, Section, StreamParams};
/// # let mut a = End::builder().codec("opus", 111).session(1).build()?;
/// # let mut b = End::builder().codec("opus", 111).session(2).build()?;
/// # let audio = |ssrcs| Section { mid: "0", kind: Kind::Audio, direction: Direction::SendRecv, ssrcs, repairs: &[] };
/// # let offer = a.offer(&[audio(&[44])])?;
/// # let answer = b.answer(&offer, &[audio(&[45])])?;
/// # a.accept(&answer)?;
/// let number = a.open_sender("0", 44, 111, StreamParams::new(1000, 1200, 1400), None)?;
/// let mut sender = a.sender(number);
/// let datagrams: Vec<Vec<u8>> = sender.push_sample(960, &[1, 2, 3])?.collect();
/// assert_eq!(datagrams.len(), 1);
/// let refused = sender.repair(&datagrams[0]).expect_err("no pair for repairs is agreed");
/// assert_eq!(refused.reason(), Reason::NoRepair);
/// # Ok::<(), jilqamur::EndError>(())
/// ```
#[derive(Debug)]
pub struct SendingStream<'e> {
    end: &'e mut End,
    number: usize,
}

impl SendingStream<'_> {
    /// Its number at the end.
    #[must_use]
    pub fn number(&self) -> usize {
        self.number
    }

    /// The datagrams of a sample at a time in ticks of the row's clock.
    ///
    /// # Errors
    /// As [`End::push_sample`].
    pub fn push_sample(&mut self, ticks: u64, sample: &[u8]) -> Result<Datagrams<'_>, EndError> {
        self.end.push_sample(self.number, ticks, sample, None)
    }

    /// The same, with values of header extensions, and the section's mid if it is given.
    ///
    /// # Errors
    /// As [`End::push_sample_with`].
    pub fn push_sample_with(
        &mut self,
        ticks: u64,
        sample: &[u8],
        mid: Option<&str>,
        values: &Values,
    ) -> Result<Datagrams<'_>, EndError> {
        self.end.push_sample_with(self.number, ticks, sample, mid, values)
    }

    /// The retransmission of a datagram that the stream sent (RFC 4588 4).
    ///
    /// # Errors
    /// As [`End::repair`].
    pub fn repair(&mut self, datagram: &[u8]) -> Result<Vec<u8>, EndError> {
        self.end.repair(self.number, datagram)
    }

    /// One packet of another stream as a datagram of this one.
    ///
    /// # Errors
    /// As [`End::send_packet`].
    pub fn send_packet(
        &mut self,
        packet: &ForwardedPacket<'_>,
        values: &Values,
        mid: Option<&str>,
    ) -> Result<Vec<u8>, EndError> {
        self.end.send_packet(self.number, packet, values, mid)
    }

    /// The number that the next datagram of a sample gets.
    ///
    /// # Errors
    /// As [`End::next_number`].
    pub fn next_number(&self) -> Result<u64, EndError> {
        self.end.next_number(self.number)
    }

    /// Leaves the numbers from the next one up to this one out.
    ///
    /// # Errors
    /// As [`End::skip_to`].
    pub fn skip_to(&mut self, number: u64) -> Result<(), EndError> {
        self.end.skip_to(self.number, number)
    }

    /// Closes the stream.
    ///
    /// # Errors
    /// As [`End::close_sender`].
    pub fn close(self) -> Result<(), EndError> {
        self.end.close_sender(self.number)
    }
}

/// A receiving stream of an end; [`End::receiver`] borrows it.
///
/// ```
/// use jilqamur::{Direction, End, Kind, MIN_HELD, Received, Section, StreamParams};
/// # let mut a = End::builder().codec("opus", 111).session(1).build()?;
/// # let mut b = End::builder().codec("opus", 111).session(2).build()?;
/// # let audio = |ssrcs| Section { mid: "0", kind: Kind::Audio, direction: Direction::SendRecv, ssrcs, repairs: &[] };
/// # let offer = a.offer(&[audio(&[44])])?;
/// # let answer = b.answer(&offer, &[audio(&[45])])?;
/// # a.accept(&answer)?;
/// # let sender = a.open_sender("0", 44, 111, StreamParams::new(1000, 1200, 1400), None)?;
/// # let datagram = a.sender(sender).push_sample(960, &[1, 2, 3])?.next().expect("one datagram");
/// let number = b.open_receiver("0", 44, 111, 2, MIN_HELD)?;
/// assert_eq!(b.receive(&datagram)?, Received::Taken(number, 1000));
/// for unit in b.receiver(number).units() {
///     assert_eq!(unit?.bytes, [1, 2, 3]);
/// }
/// # Ok::<(), jilqamur::EndError>(())
/// ```
#[derive(Debug)]
pub struct ReceivingStream<'e> {
    end: &'e mut End,
    number: usize,
}

impl<'e> ReceivingStream<'e> {
    /// Its number at the end.
    #[must_use]
    pub fn number(&self) -> usize {
        self.number
    }

    /// The next unit, if one is ready.
    ///
    /// # Errors
    /// As [`End::poll`].
    pub fn poll(&mut self) -> Result<Option<Unit>, EndError> {
        self.end.poll(self.number)
    }

    /// The next complete unit, even if a datagram before it is missing: for the end of a stream.
    ///
    /// # Errors
    /// As [`End::drain`].
    pub fn drain(&mut self) -> Result<Option<Unit>, EndError> {
        self.end.drain(self.number)
    }

    /// All units that are ready, and faults between them.
    pub fn units(self) -> impl Iterator<Item = Result<Unit, EndError>> + use<'e> {
        self.end.units(self.number)
    }

    /// The values of the header extensions of the last datagram of the unit that the end handed out last, of this
    /// stream or another one. None before the first.
    #[must_use]
    pub fn values(&self) -> Option<Values> {
        self.end.values()
    }

    /// Takes only the number of a datagram that arrived at the stream, by its low 16 bits, and returns it widened.
    ///
    /// # Errors
    /// As [`End::take_number`].
    pub fn take_number(&mut self, low: u16) -> Result<Option<u64>, EndError> {
        self.end.take_number(self.number, low)
    }

    /// The missing numbers, in increasing order.
    ///
    /// # Errors
    /// As [`End::missing`].
    pub fn missing(&self) -> Result<Vec<u64>, EndError> {
        self.end.missing(self.number)
    }

    /// Whether a datagram of this number is of no use any more.
    ///
    /// # Errors
    /// As [`End::is_passed`].
    pub fn is_passed(&self, number: u64) -> Result<bool, EndError> {
        self.end.is_passed(self.number, number)
    }

    /// Passes all numbers up to this one.
    ///
    /// # Errors
    /// As [`End::pass_to`].
    pub fn pass_to(&mut self, number: u64) -> Result<(), EndError> {
        self.end.pass_to(self.number, number)
    }

    /// Says that a number carries nothing for the stream; whether it was the next, and is passed.
    ///
    /// # Errors
    /// As [`End::pass_empty`].
    pub fn pass_empty(&mut self, number: u64) -> Result<bool, EndError> {
        self.end.pass_empty(self.number, number)
    }

    /// Keeps at most so many bytes of payloads that wait, and of an open fragment.
    ///
    /// # Errors
    /// As [`End::keep_within`].
    pub fn keep_within(&mut self, bytes: usize) -> Result<(), EndError> {
        self.end.keep_within(self.number, bytes)
    }

    /// Closes the stream.
    ///
    /// # Errors
    /// As [`End::close_receiver`].
    pub fn close(self) -> Result<(), EndError> {
        self.end.close_receiver(self.number)
    }
}

impl End {
    /// The sending stream of this number, which [`End::open_sender`] returned. If there is none, its calls are refused
    /// as `NoStream`.
    pub fn sender(&mut self, number: usize) -> SendingStream<'_> {
        SendingStream { end: self, number }
    }

    /// The receiving stream of this number, which [`End::open_receiver`] or [`Received::Taken`](crate::Received::Taken)
    /// returned. If there is none, its calls are refused as `NoStream`.
    pub fn receiver(&mut self, number: usize) -> ReceivingStream<'_> {
        ReceivingStream { end: self, number }
    }
}
