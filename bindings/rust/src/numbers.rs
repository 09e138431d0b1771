//! Sequence numbers of an end's streams, and streams that are closed.

use crate::ends::End;
use crate::error::code;
use crate::refused::{EndError, done_of};
use crate::sys;

/// The most numbers that can be missing.
pub(crate) const MOST_MISSING: usize = 1023;

impl End {
    /// The missing numbers of a receiving stream, in increasing order: those after the last unit's, or, before any
    /// unit, after the lowest packet that waits, that were not taken, below the greatest that was and within the
    /// replay window. These are what a generic NACK may ask for (RFC 4585 6.2.1); they are at most 1,023.
    ///
    /// # Errors
    /// `NotMade` or `NoStream`; or `Memory`.
    pub fn missing(&self, stream: usize) -> Result<Vec<u64>, EndError> {
        let (mut numbers, mut needed) = (vec![0; MOST_MISSING], 0);
        // SAFETY: the handle is open, pointer and length are those of one slice, and the count is a place of its own.
        let answer = unsafe {
            sys::jilqamur_end_missing(self.0.raw(), stream, numbers.as_mut_ptr(), numbers.len(), &mut needed)
        };
        done_of(answer, stream)?;
        numbers.truncate(needed);
        Ok(numbers)
    }

    /// Whether a number of a receiving stream is passed: a unit with this number or one above it was handed out, or a
    /// frame with it was refused. A datagram of such a number is of no use any more.
    ///
    /// # Errors
    /// `NotMade` or `NoStream`.
    pub fn is_passed(&self, stream: usize, number: u64) -> Result<bool, EndError> {
        // SAFETY: the handle is open.
        let answer = unsafe { sys::jilqamur_end_is_passed(self.0.raw(), stream, number) };
        if answer == code::NOTHING {
            return Ok(false);
        }
        done_of(answer, stream)?;
        Ok(true)
    }

    /// Passes all numbers of a receiving stream up to this one: what waits of them is dropped, an open fragment is
    /// given up, and the frame after the number is next, so that hold-back protects it. So a stream begins with a key
    /// frame, goes on at once after a loss that nobody repairs, and gives back what it holds. A number that is passed
    /// already changes nothing.
    ///
    /// # Errors
    /// `NotMade` or `NoStream`.
    pub fn pass_to(&mut self, stream: usize, number: u64) -> Result<(), EndError> {
        // SAFETY: the handle is open.
        done_of(unsafe { sys::jilqamur_end_pass_to(self.0.raw(), stream, number) }, stream)
    }

    /// Tells a receiving stream that a number carries nothing for it, as one of padding alone (RFC 3550 5.1), or of
    /// another payload type of its SSRC. Returns whether it was the next after the last that is passed, and is now
    /// passed, so that no frame waits for it; if not, it may be told again after the next unit.
    ///
    /// # Errors
    /// `NotMade` or `NoStream`.
    pub fn pass_empty(&mut self, stream: usize, number: u64) -> Result<bool, EndError> {
        // SAFETY: the handle is open.
        let answer = unsafe { sys::jilqamur_end_pass_empty(self.0.raw(), stream, number) };
        if answer == code::NOTHING {
            return Ok(false);
        }
        done_of(answer, stream)?;
        Ok(true)
    }

    /// Gives memory of a receiving stream back: of the packets that wait those with the highest numbers stay, whose
    /// payloads have at most `bytes` bytes together, and the numbers below them are passed; a fragment that is open
    /// between units is given up if any packet went, or if it has more bytes. A call each time so many bytes came in
    /// keeps the stream within twice as many, whatever a peer sends.
    ///
    /// # Errors
    /// `NotMade` or `NoStream`.
    pub fn keep_within(&mut self, stream: usize, bytes: usize) -> Result<(), EndError> {
        // SAFETY: the handle is open.
        done_of(unsafe { sys::jilqamur_end_keep_within(self.0.raw(), stream, bytes) }, stream)
    }

    /// The number that the next datagram of a sending stream's samples gets.
    ///
    /// # Errors
    /// `NotMade` or `NoStream`.
    pub fn next_number(&self, stream: usize) -> Result<u64, EndError> {
        let mut next = 0;
        // SAFETY: the handle is open, and what is written is a place of its own.
        done_of(unsafe { sys::jilqamur_end_next_number(self.0.raw(), stream, &mut next) }, stream)?;
        Ok(next)
    }

    /// Leaves numbers of a sending stream out: its samples never send those from its next number up to this one. A
    /// number that isn't above the next one changes nothing. With [`End::next_number`], streams of one SSRC and several
    /// payload types are numbered as one (RFC 3550 5.1).
    ///
    /// # Errors
    /// `NotMade` or `NoStream`.
    pub fn skip_to(&mut self, stream: usize, number: u64) -> Result<(), EndError> {
        // SAFETY: the handle is open.
        done_of(unsafe { sys::jilqamur_end_skip_to(self.0.raw(), stream, number) }, stream)
    }

    /// Closes a sending stream: what it holds is given back, and its SSRC can be opened again, with new numbers. The
    /// stream's own number isn't used again.
    ///
    /// # Errors
    /// `NotMade` or `NoStream`.
    pub fn close_sender(&mut self, stream: usize) -> Result<(), EndError> {
        // SAFETY: the handle is open.
        done_of(unsafe { sys::jilqamur_end_close_sender(self.0.raw(), stream) }, stream)
    }

    /// Closes a receiving stream: what it holds is given back, and its SSRC can be opened again, as one that nothing
    /// came of. The stream's own number isn't used again, and its datagrams are `Foreign` from then on.
    ///
    /// # Errors
    /// `NotMade` or `NoStream`.
    pub fn close_receiver(&mut self, stream: usize) -> Result<(), EndError> {
        // SAFETY: the handle is open.
        done_of(unsafe { sys::jilqamur_end_close_receiver(self.0.raw(), stream) }, stream)
    }
}
