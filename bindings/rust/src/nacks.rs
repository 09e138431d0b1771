//! Generic NACKs (RFC 4585 6.2.1): what was sent, kept to be sent again, and what to ask for now.

use crate::error::code;
use crate::refused::{EndError, done};
use crate::sys;

/// The datagrams that a stream sent last, by number, kept to be sent again when a NACK asks for them. It holds exactly
/// those with the greatest numbers that fit its bounds, in whatever order they were kept.
///
/// ```
/// let mut history = jilqamur::PacketHistory::new(2, 1000)?;
/// for number in [65_535, 65_536, 65_537] {
///     history.keep(number, &[number as u8])?;
/// }
/// assert_eq!(history.asked(0), Some(vec![0]));
/// assert_eq!(history.asked(65_535), None);
/// # Ok::<(), jilqamur::EndError>(())
/// ```
#[derive(Debug)]
pub struct PacketHistory(sys::Handle);

impl PacketHistory {
    /// One that keeps nothing yet, and will keep at most `most` datagrams of at most `most_bytes` bytes together.
    ///
    /// # Errors
    /// `Memory`.
    pub fn new(most: u32, most_bytes: u32) -> Result<PacketHistory, EndError> {
        let history = sys::Handle::closed();
        // SAFETY: the handle is closed.
        done(unsafe { sys::jilqamur_history_open(history.raw(), most, most_bytes) })?;
        Ok(PacketHistory(history))
    }

    /// Keeps a copy of a datagram under its number, 64 bits wide; one that is held under this number stays. Of more
    /// than fit the lowest numbers go, and up to a number that went nothing is kept any more.
    ///
    /// # Errors
    /// `Memory`; nothing has changed.
    pub fn keep(&mut self, number: u64, datagram: &[u8]) -> Result<(), EndError> {
        // SAFETY: the handle is open, and pointer and length are those of one slice.
        done(unsafe { sys::jilqamur_history_keep(self.0.raw(), number, datagram.as_ptr(), datagram.len()) })
    }

    /// The datagram that a NACK asks for by the low 16 bits of its number (PID): the one that is held under the
    /// greatest number of these bits that isn't above the newest held. None if it isn't held.
    #[must_use]
    pub fn asked(&self, low: u16) -> Option<Vec<u8>> {
        let (mut datagram, mut needed) = (vec![0; 1500], 0);
        loop {
            // SAFETY: the handle is open, pointer and length are those of one slice, and the count is a place of its
            // own.
            let answer = unsafe {
                sys::jilqamur_history_asked(self.0.raw(), low, datagram.as_mut_ptr(), datagram.len(), &mut needed)
            };
            match answer {
                code::OK => {
                    datagram.truncate(needed);
                    return Some(datagram);
                }
                code::TOO_SMALL => datagram.resize(needed, 0),
                _ => return None,
            }
        }
    }
}

impl Drop for PacketHistory {
    fn drop(&mut self) {
        // SAFETY: the handle is open, and is not used again.
        unsafe { sys::jilqamur_history_close(self.0.raw()) };
    }
}

/// What a receiver asks for by NACKs: each missing number at most so many times, not before it may be late, and not
/// again before a round trip has gone by.
///
/// ```
/// let mut requester = jilqamur::NackRequester::new(2, 10)?;
/// assert_eq!(requester.ask(&[7, 8], 0, 50)?, []);
/// assert_eq!(requester.ask(&[7, 8, 9], 10, 50)?, [7, 8]);
/// assert_eq!(requester.ask(&[8, 9], 60, 50)?, [8, 9]);
/// # Ok::<(), jilqamur::EndError>(())
/// ```
#[derive(Debug)]
pub struct NackRequester(sys::Handle);

impl NackRequester {
    /// One that asks for each missing number at most `most` times, the first time `delay` ticks after it is missing.
    ///
    /// # Errors
    /// `Memory`.
    pub fn new(most: u32, delay: u64) -> Result<NackRequester, EndError> {
        let requester = sys::Handle::closed();
        // SAFETY: the handle is closed.
        done(unsafe { sys::jilqamur_requester_open(requester.raw(), most, delay) })?;
        Ok(NackRequester(requester))
    }

    /// The numbers to ask for now, of those that are missing now, as [`End::missing`](crate::End::missing) tells them.
    /// `now` and `round_trip` are ticks of the caller's clock, such as microseconds. A number that isn't missing any
    /// more is forgotten.
    ///
    /// # Errors
    /// `OutOfRange` if the missing numbers don't rise, or `Memory`; nothing has changed.
    pub fn ask(&mut self, missing: &[u64], now: u64, round_trip: u64) -> Result<Vec<u64>, EndError> {
        let (mut numbers, mut needed) = (vec![0; missing.len()], 0);
        // SAFETY: the handle is open, pointers and lengths are those of one slice each, and the count is a place of its
        // own.
        done(unsafe {
            sys::jilqamur_requester_ask(
                self.0.raw(),
                missing.as_ptr(),
                missing.len(),
                now,
                round_trip,
                numbers.as_mut_ptr(),
                numbers.len(),
                &mut needed,
            )
        })?;
        numbers.truncate(needed);
        Ok(numbers)
    }
}

impl Drop for NackRequester {
    fn drop(&mut self) {
        // SAFETY: the handle is open, and is not used again.
        unsafe { sys::jilqamur_requester_close(self.0.raw()) };
    }
}
