//! Ends that send samples and receive units.

use crate::datagrams::{Datagrams, fetched};
use crate::error::{Reason, code};
use crate::params::{Received, Row, StreamParams};
use crate::refused::{EndError, Place, done, done_at, done_of, keeps_mid};
use crate::sys;
use crate::units::{Unit, handed_out, handed_out_into};
use crate::values::Values;

/// An end of a session: what it offers, what it agreed on with the other end, and its streams.
///
/// ```
/// use jilqamur::{Direction, End, Kind, MIN_HELD, Received, Section, StreamParams};
/// let mut a = End::builder().codec("opus", 111).session(1).build()?;
/// let mut b = End::builder().codec("opus", 111).session(2).build()?;
/// let audio = |ssrcs| Section { mid: "0", kind: Kind::Audio, direction: Direction::SendRecv, ssrcs, repairs: &[] };
/// let offer = a.offer(&[audio(&[44])])?; // the two texts are all that travels
/// let answer = b.answer(&offer, &[audio(&[45])])?;
/// a.accept(&answer)?;
/// let sender = a.open_sender("0", 44, 111, StreamParams::new(1000, 1200, 1400), None)?;
/// let receiver = b.open_receiver("0", 44, 111, 2, MIN_HELD)?;
/// for datagram in a.sender(sender).push_sample(960, &[1, 2, 3])? {
///     assert_eq!(b.receive(&datagram)?, Received::Taken(receiver, 1000));
/// }
/// assert_eq!(b.receiver(receiver).poll()?.expect("a unit").bytes, [1, 2, 3]);
/// # Ok::<(), jilqamur::EndError>(())
/// ```
///
/// It may move to another thread, as all handles of this crate, but isn't shared between threads:
///
/// ```compile_fail
/// fn shared<T: Sync>() {}
/// shared::<jilqamur::End>();
/// ```
#[derive(Debug)]
pub struct End(pub(crate) sys::Handle);

impl End {
    /// One whose draft is empty; [`End::make`] makes the end once rows are in the draft.
    ///
    /// # Errors
    /// `Memory`.
    pub fn new() -> Result<End, EndError> {
        let end = sys::Handle::closed();
        // SAFETY: the handle is closed.
        done(unsafe { sys::jilqamur_end_open(end.raw()) })?;
        Ok(End(end))
    }

    /// Puts a row into the draft: a codec's name, and what follows the type in its `a=fmtp` line.
    ///
    /// # Errors
    /// `OutOfRange` or `Memory`; nothing has changed.
    pub fn row(&mut self, row: &Row, codec: &str, format: &str) -> Result<(), EndError> {
        // SAFETY: the handle is open, and pointers and lengths are those of one slice each.
        let answer = unsafe {
            sys::jilqamur_end_row(self.0.raw(), row, codec.as_ptr(), codec.len(), format.as_ptr(), format.len())
        };
        done_at(answer, || Place::row(codec, row.payload_type()))
    }

    /// Puts the default rows of Opus, VP8, H.264, H.265, VP9 and AV1 into the draft.
    ///
    /// # Errors
    /// `Memory`; nothing has changed.
    pub fn default_rows(&mut self) -> Result<(), EndError> {
        // SAFETY: the handle is open.
        done(unsafe { sys::jilqamur_end_default_rows(self.0.raw()) })
    }

    /// Gives a header extension a number, 1 to 16, in the draft.
    ///
    /// # Errors
    /// `OutOfRange` or `Memory`; nothing has changed.
    pub fn extension(&mut self, id: u8, uri: &str) -> Result<(), EndError> {
        // SAFETY: the handle is open, and pointer and length are those of one slice.
        let answer = unsafe { sys::jilqamur_end_extension(self.0.raw(), id, uri.as_ptr(), uri.len()) };
        done_at(answer, || Place::Extension { id, uri: uri.into() })
    }

    /// Makes a new end of the draft, which is empty afterwards, under this session number.
    ///
    /// # Errors
    /// The first that holds of `RowNotPlain`, `TypesNotDistinct` and `NotWritable`; or `Memory`. The end stays.
    pub fn make(&mut self, session: u64) -> Result<(), EndError> {
        // SAFETY: the handle is open.
        done(unsafe { sys::jilqamur_end_make(self.0.raw(), session) })
    }

    /// Opens a sending stream of this SSRC for the agreed row of a payload type, and returns its number. `distances`
    /// are how many payloads back redundancy reaches: rising, 1 to 8, for a row with a RED type.
    ///
    /// # Errors
    /// `MidNotKept`, `NotMade`, `OutOfRange`, `NoSection`, `RowNotAgreed`, `RowDiffers`, `WrongDirection`,
    /// `SsrcNotNamed`, `AlreadyOpen` or `Memory`; nothing has changed.
    pub fn open_sender(
        &mut self,
        mid: &str,
        ssrc: u32,
        payload_type: u8,
        params: StreamParams,
        distances: Option<&[u8]>,
    ) -> Result<usize, EndError> {
        keeps_mid(mid, || Place::opening(mid, ssrc, payload_type))?;
        let params = params.with_redundancy(distances.is_some());
        let distances = distances.unwrap_or(&[]);
        let mut stream = 0;
        // SAFETY: the handle is open, and pointers and lengths are those of one slice each.
        let answer = unsafe {
            sys::jilqamur_end_open_sender(
                self.0.raw(),
                mid.as_ptr(),
                mid.len(),
                ssrc,
                payload_type,
                &params,
                distances.as_ptr(),
                distances.len(),
                &mut stream,
            )
        };
        done_at(answer, || Place::opening(mid, ssrc, payload_type))?;
        Ok(stream)
    }

    /// Opens a receiving stream in the same way. Past a missing datagram a unit is handed out only once more than
    /// `hold_back` frames are complete. At most `held` packets wait, [`MIN_HELD`](crate::MIN_HELD) to
    /// [`MAX_HELD`](crate::MAX_HELD).
    ///
    /// # Errors
    /// As [`End::open_sender`]; `OutOfRange` if `held` is another number.
    pub fn open_receiver(
        &mut self,
        mid: &str,
        ssrc: u32,
        payload_type: u8,
        hold_back: usize,
        held: usize,
    ) -> Result<usize, EndError> {
        keeps_mid(mid, || Place::opening(mid, ssrc, payload_type))?;
        let mut stream = 0;
        // SAFETY: the handle is open, and pointer and length are those of one slice.
        let answer = unsafe {
            sys::jilqamur_end_open_receiver(
                self.0.raw(),
                mid.as_ptr(),
                mid.len(),
                ssrc,
                payload_type,
                hold_back,
                held,
                &mut stream,
            )
        };
        done_at(answer, || Place::opening(mid, ssrc, payload_type))?;
        Ok(stream)
    }

    /// Opens a receiving stream as [`End::open_receiver`], in a section whose sender names this SSRC or no SSRC at all,
    /// as one whose simulcast streams `a=rid` alone tells apart (RFC 8853 6.1): the SSRC is that of a datagram that
    /// came and was foreign.
    ///
    /// # Errors
    /// As [`End::open_receiver`]; `SsrcNotNamed` if the section names SSRCs, and not this one.
    pub fn open_unsignalled(
        &mut self,
        mid: &str,
        ssrc: u32,
        payload_type: u8,
        hold_back: usize,
        held: usize,
    ) -> Result<usize, EndError> {
        keeps_mid(mid, || Place::opening(mid, ssrc, payload_type))?;
        let mut stream = 0;
        // SAFETY: the handle is open, and pointer and length are those of one slice.
        let answer = unsafe {
            sys::jilqamur_end_open_unsignalled(
                self.0.raw(),
                mid.as_ptr(),
                mid.len(),
                ssrc,
                payload_type,
                hold_back,
                held,
                &mut stream,
            )
        };
        done_at(answer, || Place::opening(mid, ssrc, payload_type))?;
        Ok(stream)
    }

    /// The datagrams of a sample at a time in ticks of the row's clock; they carry the section's name if it is given
    /// and the agreed map has a number for it.
    ///
    /// # Errors
    /// `MidNotKept`, `NotMade`, `NoStream`, `StreamFailed`, `TimeTooLarge`, `LimitTooSmall` or `Payload`, and nothing
    /// has changed; or
    /// `Memory`, and the stream sends no more.
    pub fn push_sample(
        &mut self,
        stream: usize,
        ticks: u64,
        sample: &[u8],
        mid: Option<&str>,
    ) -> Result<Datagrams<'_>, EndError> {
        self.push(stream, ticks, sample, mid, &sys::Values::default())
    }

    /// The same, with values of header extensions: each is carried if the agreed map has a number for it.
    ///
    /// # Errors
    /// As [`End::push_sample`].
    pub fn push_sample_with(
        &mut self,
        stream: usize,
        ticks: u64,
        sample: &[u8],
        mid: Option<&str>,
        values: &Values,
    ) -> Result<Datagrams<'_>, EndError> {
        self.push(stream, ticks, sample, mid, &values.given())
    }

    fn push(
        &mut self,
        stream: usize,
        ticks: u64,
        sample: &[u8],
        mid: Option<&str>,
        values: &sys::Values,
    ) -> Result<Datagrams<'_>, EndError> {
        let mid = mid.unwrap_or("");
        keeps_mid(mid, || Place::section(mid))?;
        let mut count = 0;
        // SAFETY: the handle is open, and pointers and lengths are those of one slice each.
        let answer = unsafe {
            sys::jilqamur_end_push_sample(
                self.0.raw(),
                stream,
                ticks,
                values,
                mid.as_ptr(),
                mid.len(),
                sample.as_ptr(),
                sample.len(),
                &mut count,
            )
        };
        done_of(answer, stream)?;
        Ok(Datagrams::new(self, count))
    }

    /// A datagram that a stream sent, sent again under the SSRC and the type of its repairs (RFC 4588 4).
    ///
    /// # Errors
    /// `NotMade`, `NoStream`; else the first that holds of `NoRepair`, `NotOwn` and `LimitTooSmall`, or `Memory`.
    /// Nothing has changed.
    pub fn repair(&mut self, stream: usize, datagram: &[u8]) -> Result<Vec<u8>, EndError> {
        // SAFETY: the handle is open, and pointer and length are those of one slice.
        let answer = unsafe { sys::jilqamur_end_repair(self.0.raw(), stream, datagram.as_ptr(), datagram.len()) };
        done_of(answer, stream)?;
        Ok(fetched(|buffer, len, needed| {
            // SAFETY: the handle is open, and pointer and length are those of one slice.
            unsafe { sys::jilqamur_end_datagram(self.0.raw(), 0, buffer, len, needed) }
        }))
    }

    /// Takes a datagram in, and says what it is.
    ///
    /// # Errors
    /// `NotMade` or `Memory`; the end is unchanged.
    pub fn receive(&mut self, datagram: &[u8]) -> Result<Received, EndError> {
        let (mut stream, mut number) = (0, 0);
        // SAFETY: the handle is open, and pointer and length are those of one slice.
        let answer = unsafe {
            sys::jilqamur_end_receive(self.0.raw(), datagram.as_ptr(), datagram.len(), &mut stream, &mut number)
        };
        match answer {
            code::OK => Ok(Received::Taken(stream, number)),
            code::UNREADABLE => Ok(Received::Unreadable),
            code::DAMAGED => Ok(Received::Damaged),
            code::REFUSED => Ok(Received::Refused),
            code::FOREIGN => Ok(Received::Foreign),
            _ => Err(EndError::new(Reason::of(answer), None)),
        }
    }

    /// The next unit of a receiving stream, if one is ready.
    ///
    /// # Errors
    /// `NotMade` or `NoStream`; `Payload`, and the frame is passed over; or `Memory`, and it stays.
    pub fn poll(&mut self, stream: usize) -> Result<Option<Unit>, EndError> {
        // SAFETY: the handle is open.
        let answer = unsafe { sys::jilqamur_end_poll(self.0.raw(), stream) };
        handed_out(&self.0, answer, |answer| done_of(answer, stream), sys::jilqamur_end_unit)
    }

    /// Polls as [`End::poll`], and puts the unit in place of another one, whose memory is used again; false if none is
    /// ready, and the other one is unchanged.
    ///
    /// ```
    /// use jilqamur::{End, Reason, Unit};
    /// let mut end = End::builder().codec("opus", 111).build()?;
    /// let mut unit = Unit::default();
    /// assert_eq!(end.poll_into(0, &mut unit).expect_err("no stream is open").reason(), Reason::NoStream);
    /// # Ok::<(), jilqamur::EndError>(())
    /// ```
    ///
    /// # Errors
    /// As [`End::poll`].
    pub fn poll_into(&mut self, stream: usize, unit: &mut Unit) -> Result<bool, EndError> {
        // SAFETY: the handle is open.
        let answer = unsafe { sys::jilqamur_end_poll(self.0.raw(), stream) };
        handed_out_into(&self.0, answer, |answer| done_of(answer, stream), sys::jilqamur_end_unit, unit)
    }

    /// The next unit, whether or not a datagram before the lowest complete one is missing: for the end of a stream.
    ///
    /// # Errors
    /// As [`End::poll`].
    pub fn drain(&mut self, stream: usize) -> Result<Option<Unit>, EndError> {
        // SAFETY: the handle is open.
        let answer = unsafe { sys::jilqamur_end_drain(self.0.raw(), stream) };
        handed_out(&self.0, answer, |answer| done_of(answer, stream), sys::jilqamur_end_unit)
    }

    /// All units of a receiving stream that are ready, and faults between them.
    pub fn units(&mut self, stream: usize) -> impl Iterator<Item = Result<Unit, EndError>> + '_ {
        let mut is_over = false;
        std::iter::from_fn(move || {
            if is_over {
                return None;
            }
            let unit = self.poll(stream).transpose();
            is_over = match &unit {
                Some(Err(refused)) => refused.reason() != Reason::Payload,
                unit => unit.is_none(),
            };
            unit
        })
    }

    /// The values of the header extensions of the last datagram of the unit that was handed out last. None before the
    /// first.
    pub fn values(&self) -> Option<Values> {
        let mut told = sys::Values::default();
        // SAFETY: the handle is open, and what is written is a place of its own.
        let answer = unsafe { sys::jilqamur_end_values(self.0.raw(), &mut told) };
        (answer == code::OK).then(|| Values::of(&told))
    }
}

impl Drop for End {
    fn drop(&mut self) {
        // SAFETY: the handle is open, and is not used again.
        unsafe { sys::jilqamur_end_close(self.0.raw()) };
    }
}
