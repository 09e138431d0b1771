//! The datagrams of samples, and what calls copy.

use crate::ends::End;
use crate::error::code;
use crate::sys;
use std::mem::MaybeUninit;
use std::slice;

/// How many bytes a first call offers: few datagrams and texts have more.
const ROOM: usize = 1500;

/// What a call copies, nothing if it is refused: it is called with some room first, and again if that is too small.
pub(crate) fn fetched(mut call: impl FnMut(*mut u8, usize, &mut usize) -> u32) -> Vec<u8> {
    let mut room = MaybeUninit::<[u8; ROOM]>::uninit();
    let mut needed = 0;
    match call(room.as_mut_ptr().cast(), ROOM, &mut needed) {
        // SAFETY: the call wrote so many bytes.
        code::OK => unsafe { slice::from_raw_parts(room.as_ptr().cast::<u8>(), needed) }.to_vec(),
        code::TOO_SMALL => {
            let mut bytes = Vec::with_capacity(needed);
            if call(bytes.as_mut_ptr(), needed, &mut needed) == code::OK {
                // SAFETY: the call wrote so many bytes.
                unsafe { bytes.set_len(needed) };
            }
            bytes
        }
        _ => Vec::new(),
    }
}

/// Copies what a call copies in place of what a buffer holds, whose memory is used again.
pub(crate) fn fetched_into(buffer: &mut Vec<u8>, mut call: impl FnMut(*mut u8, usize, &mut usize) -> u32) {
    buffer.clear();
    let mut needed = 0;
    let mut answer = call(buffer.spare_capacity_mut().as_mut_ptr().cast(), buffer.capacity(), &mut needed);
    if answer == code::TOO_SMALL {
        buffer.reserve(needed);
        answer = call(buffer.spare_capacity_mut().as_mut_ptr().cast(), buffer.capacity(), &mut needed);
    }
    if answer == code::OK {
        // SAFETY: the call wrote so many bytes.
        unsafe { buffer.set_len(needed) };
    }
}

/// The datagrams of a sample, in order.
///
/// ```
/// use jilqamur::{Direction, End, Kind, Section, StreamParams};
/// # let mut a = End::builder().codec("opus", 111).session(1).build()?;
/// # let mut b = End::builder().codec("opus", 111).session(2).build()?;
/// # let audio = |ssrcs| Section { mid: "0", kind: Kind::Audio, direction: Direction::SendRecv, ssrcs, repairs: &[] };
/// # let offer = a.offer(&[audio(&[44])])?;
/// # let answer = b.answer(&offer, &[audio(&[45])])?;
/// # a.accept(&answer)?;
/// # let stream = a.open_sender("0", 44, 111, StreamParams::new(1000, 1200, 1400), None)?;
/// let datagrams = a.push_sample(stream, 0, &[1; 2000], None)?;
/// assert_eq!(datagrams.len(), 2); // of at most 1,200 bytes of payload each
/// # Ok::<(), jilqamur::EndError>(())
/// ```
#[derive(Debug)]
pub struct Datagrams<'a> {
    end: &'a mut End,
    next: usize,
    count: usize,
}

impl<'a> Datagrams<'a> {
    /// So many datagrams that an end left.
    pub(crate) fn new(end: &'a mut End, count: usize) -> Datagrams<'a> {
        Datagrams { end, next: 0, count }
    }

    /// Copies the next datagram in place of what a buffer holds, whose memory is used again; false after the last one.
    ///
    /// ```
    /// # use jilqamur::{Direction, End, Kind, Section, StreamParams};
    /// # let mut a = End::builder().codec("opus", 111).session(1).build()?;
    /// # let mut b = End::builder().codec("opus", 111).session(2).build()?;
    /// # let direction = Direction::SendRecv;
    /// # let audio = |ssrcs| Section { mid: "0", kind: Kind::Audio, direction, ssrcs, repairs: &[] };
    /// # let offer = a.offer(&[audio(&[44])])?;
    /// # let answer = b.answer(&offer, &[audio(&[45])])?;
    /// # a.accept(&answer)?;
    /// # let stream = a.open_sender("0", 44, 111, StreamParams::new(1000, 1200, 1400), None)?;
    /// let (mut datagram, mut bytes) = (Vec::new(), 0);
    /// let mut datagrams = a.push_sample(stream, 0, &[1; 2000], None)?;
    /// while datagrams.next_into(&mut datagram) {
    ///     bytes += datagram.len();
    /// }
    /// assert_eq!(bytes, 2024); // two headers
    /// # Ok::<(), jilqamur::EndError>(())
    /// ```
    pub fn next_into(&mut self, buffer: &mut Vec<u8>) -> bool {
        if self.next == self.count {
            return false;
        }
        let (end, index) = (&self.end.0, self.next);
        self.next += 1;
        fetched_into(buffer, |buffer, len, needed| {
            // SAFETY: the handle is open, and pointer and length are those of one slice.
            unsafe { sys::jilqamur_end_datagram(end.raw(), index, buffer, len, needed) }
        });
        true
    }
}

impl Iterator for Datagrams<'_> {
    type Item = Vec<u8>;

    fn next(&mut self) -> Option<Vec<u8>> {
        if self.next == self.count {
            return None;
        }
        let (end, index) = (&self.end.0, self.next);
        self.next += 1;
        Some(fetched(|buffer, len, needed| {
            // SAFETY: the handle is open, and pointer and length are those of one slice.
            unsafe { sys::jilqamur_end_datagram(end.raw(), index, buffer, len, needed) }
        }))
    }

    fn size_hint(&self) -> (usize, Option<usize>) {
        let left = self.count - self.next;
        (left, Some(left))
    }
}

impl ExactSizeIterator for Datagrams<'_> {}
