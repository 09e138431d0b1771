//! Streams that go by a codec's name, without an end.

use crate::datagrams::fetched;
use crate::error::code;
use crate::numbers::MOST_MISSING;
use crate::refused::{EndError, Place, done, done_at};
use crate::sys;
use crate::units::{Unit, handed_out};

/// How payloads are read and written, beside their codec.
///
/// ```
/// use jilqamur::{Format, MIN_HELD, Receiver};
/// let format = Format::new(16_000).with_octet_align(true);
/// Receiver::new("AMR-WB", format, 2, MIN_HELD)?;
/// # Ok::<(), jilqamur::EndError>(())
/// ```
#[repr(C)]
#[derive(Clone, Copy, Debug, PartialEq, Eq)]
pub struct Format {
    clock_rate: u32,
    has_octet_align: bool,
    octet_align: bool,
    has_max_don_diff: bool,
    max_don_diff: u16,
}

impl Format {
    /// Of this clock rate, in ticks a second, at least 1.
    #[must_use]
    pub fn new(clock_rate: u32) -> Format {
        Format { clock_rate, has_octet_align: false, octet_align: false, has_max_don_diff: false, max_don_diff: 0 }
    }

    /// With AMR-WB octet-aligned or not (RFC 4867 8.1).
    #[must_use]
    pub fn with_octet_align(self, octet_align: bool) -> Format {
        Format { has_octet_align: true, octet_align, ..self }
    }

    /// With this `sprop-max-don-diff` of H.265 and H.266.
    #[must_use]
    pub fn with_max_don_diff(self, max_don_diff: u16) -> Format {
        Format { has_max_don_diff: true, max_don_diff, ..self }
    }
}

/// How a sending stream numbers and cuts its samples.
///
/// ```
/// use jilqamur::{Format, Sender, SenderParams};
/// let params = SenderParams::new(44, 96, 1200).with_first(1000).with_picture_id(1);
/// Sender::new("VP8", Format::new(90_000), params)?;
/// # Ok::<(), jilqamur::EndError>(())
/// ```
#[repr(C)]
#[derive(Clone, Copy, Debug, PartialEq, Eq)]
pub struct SenderParams {
    ssrc: u32,
    payload_type: u8,
    first: u64,
    mtu: usize,
    limit: usize,
    has_picture_id: bool,
    picture_id: u16,
    for_browsers: bool,
}

impl SenderParams {
    /// Of this SSRC and payload type (0 to 127), from the sequence number 0 on, with at most `mtu` bytes of payload in
    /// a datagram (at least 1), and 12 of header.
    #[must_use]
    pub fn new(ssrc: u32, payload_type: u8, mtu: usize) -> SenderParams {
        SenderParams {
            ssrc,
            payload_type,
            first: 0,
            mtu,
            limit: mtu.saturating_add(12),
            has_picture_id: false,
            picture_id: 0,
            for_browsers: false,
        }
    }

    /// From this sequence number on.
    #[must_use]
    pub fn with_first(self, first: u64) -> SenderParams {
        SenderParams { first, ..self }
    }

    /// With at most this many bytes in a datagram.
    #[must_use]
    pub fn with_limit(self, limit: usize) -> SenderParams {
        SenderParams { limit, ..self }
    }

    /// With pictures counted from this id, at most 32,767, in a video codec.
    #[must_use]
    pub fn with_picture_id(self, picture_id: u16) -> SenderParams {
        SenderParams { has_picture_id: true, picture_id, ..self }
    }

    /// With payloads of the forms that browsers want.
    #[must_use]
    pub fn for_browsers(self) -> SenderParams {
        SenderParams { for_browsers: true, ..self }
    }
}

/// A sending stream.
///
/// ```
/// use jilqamur::{Format, Header, Sender, SenderParams};
/// let mut sender = Sender::new("opus", Format::new(48_000), SenderParams::new(44, 111, 1200))?;
/// let datagrams = sender.push_sample(960, &[1, 2, 3])?;
/// let (header, payload) = Header::read(&datagrams[0])?;
/// assert_eq!((header.timestamp, payload), (960, &[1, 2, 3][..]));
/// # Ok::<(), Box<dyn std::error::Error>>(())
/// ```
#[derive(Debug)]
pub struct Sender(sys::Handle);

impl Sender {
    /// A stream of the codec of this name that sent nothing, without header extensions.
    ///
    /// # Errors
    /// `OutOfRange` or `Memory`.
    pub fn new(codec: &str, format: Format, params: SenderParams) -> Result<Sender, EndError> {
        let sender = sys::Handle::closed();
        // SAFETY: the handle is closed, and pointer and length are those of one slice.
        let answer = unsafe { sys::jilqamur_sender_open(sender.raw(), &params, &format, codec.as_ptr(), codec.len()) };
        done_at(answer, || Place::Codec(codec.into()))?;
        Ok(Sender(sender))
    }

    /// The datagrams of a sample at a time in ticks of the stream's clock.
    ///
    /// # Errors
    /// The first that holds of `StreamFailed`, `TimeTooLarge`, `LimitTooSmall` and `Payload`, and nothing has changed;
    /// or `Memory`, and the stream sends no more.
    pub fn push_sample(&mut self, ticks: u64, sample: &[u8]) -> Result<Vec<Vec<u8>>, EndError> {
        let mut count = 0;
        // SAFETY: the handle is open, and pointer and length are those of one slice.
        done(unsafe {
            sys::jilqamur_sender_push_sample(self.0.raw(), ticks, sample.as_ptr(), sample.len(), &mut count)
        })?;
        let datagram = |index| {
            fetched(|buffer, len, needed| {
                // SAFETY: the handle is open, and pointer and length are those of one slice.
                unsafe { sys::jilqamur_sender_datagram(self.0.raw(), index, buffer, len, needed) }
            })
        };
        Ok((0..count).map(datagram).collect())
    }
}

impl Drop for Sender {
    fn drop(&mut self) {
        // SAFETY: the handle is open, and is not used again.
        unsafe { sys::jilqamur_sender_close(self.0.raw()) };
    }
}

/// A receiving stream.
///
/// ```
/// use jilqamur::{Format, Header, MIN_HELD, Receiver, Sender, SenderParams};
/// let format = Format::new(90_000);
/// let mut sender = Sender::new("VP8", format, SenderParams::new(44, 96, 1200))?;
/// let mut receiver = Receiver::new("VP8", format, 15, MIN_HELD)?;
/// for datagram in sender.push_sample(3000, &[0x10; 2000])? {
///     let (header, rest) = Header::read(&datagram)?;
///     receiver.push(header.sequence_number, header.timestamp, header.marker, header.payload(rest)?)?;
/// }
/// assert_eq!(receiver.poll()?.expect("a frame").bytes, [0x10; 2000]);
/// # Ok::<(), Box<dyn std::error::Error>>(())
/// ```
#[derive(Debug)]
pub struct Receiver(sys::Handle);

impl Receiver {
    /// A stream of the codec of this name that took nothing. Past a missing packet a unit is handed out only once more
    /// than `hold_back` frames are complete. At most `held` packets wait, [`MIN_HELD`](crate::MIN_HELD) to
    /// [`MAX_HELD`](crate::MAX_HELD).
    ///
    /// # Errors
    /// `OutOfRange` or `Memory`.
    pub fn new(codec: &str, format: Format, hold_back: usize, held: usize) -> Result<Receiver, EndError> {
        let receiver = sys::Handle::closed();
        // SAFETY: the handle is closed, and pointer and length are those of one slice.
        let answer = unsafe {
            sys::jilqamur_receiver_open(receiver.raw(), &format, codec.as_ptr(), codec.len(), hold_back, held)
        };
        done_at(answer, || Place::Codec(codec.into()))?;
        Ok(Receiver(receiver))
    }

    /// Takes a packet in, by the low bits of its number, its timestamp, its marker and its payload without padding, and
    /// returns its widened number; None if that came before, or is 1,024 or more below the greatest.
    ///
    /// # Errors
    /// `Memory`; nothing has changed.
    pub fn push(
        &mut self,
        sequence_number: u16,
        timestamp: u32,
        marker: bool,
        payload: &[u8],
    ) -> Result<Option<u64>, EndError> {
        let mut number = 0;
        // SAFETY: the handle is open, and pointer and length are those of one slice.
        let answer = unsafe {
            sys::jilqamur_receiver_push(
                self.0.raw(),
                sequence_number,
                timestamp,
                marker,
                payload.as_ptr(),
                payload.len(),
                &mut number,
            )
        };
        if answer == code::REFUSED {
            return Ok(None);
        }
        done(answer)?;
        Ok(Some(number))
    }

    /// The next unit, if one is ready.
    ///
    /// # Errors
    /// `Payload`, and the frame is passed over; or `Memory`, and it stays.
    pub fn poll(&mut self) -> Result<Option<Unit>, EndError> {
        // SAFETY: the handle is open.
        let answer = unsafe { sys::jilqamur_receiver_poll(self.0.raw()) };
        handed_out(&self.0, answer, done, sys::jilqamur_receiver_unit)
    }

    /// The same, whether or not a packet before the lowest complete unit is missing: for the end of a stream.
    ///
    /// # Errors
    /// As [`Receiver::poll`].
    pub fn drain(&mut self) -> Result<Option<Unit>, EndError> {
        // SAFETY: the handle is open.
        let answer = unsafe { sys::jilqamur_receiver_drain(self.0.raw()) };
        handed_out(&self.0, answer, done, sys::jilqamur_receiver_unit)
    }

    /// The missing numbers, in increasing order, as [`End::missing`](crate::End::missing) those of an end's stream.
    ///
    /// # Errors
    /// `Memory`.
    pub fn missing(&self) -> Result<Vec<u64>, EndError> {
        let (mut numbers, mut needed) = (vec![0; MOST_MISSING], 0);
        let (at, len) = (numbers.as_mut_ptr(), numbers.len());
        // SAFETY: the handle is open, pointer and length are those of one slice, and the count is a place of its own.
        done(unsafe { sys::jilqamur_receiver_missing(self.0.raw(), at, len, &mut needed) })?;
        numbers.truncate(needed);
        Ok(numbers)
    }

    /// Passes all numbers up to this one: what waits of them is dropped, and the frame after it is next.
    pub fn pass_to(&mut self, number: u64) {
        // SAFETY: the handle is open.
        unsafe { sys::jilqamur_receiver_pass_to(self.0.raw(), number) };
    }

    /// Gives memory back: of the packets that wait those with the highest numbers stay, whose payloads have at most so
    /// many bytes together, and a fragment of more is given up. A call each time so many bytes came in keeps the stream
    /// within twice as many, whatever a peer sends.
    pub fn keep_within(&mut self, bytes: usize) {
        // SAFETY: the handle is open.
        unsafe { sys::jilqamur_receiver_keep_within(self.0.raw(), bytes) };
    }
}

impl Drop for Receiver {
    fn drop(&mut self) {
        // SAFETY: the handle is open, and is not used again.
        unsafe { sys::jilqamur_receiver_close(self.0.raw()) };
    }
}
