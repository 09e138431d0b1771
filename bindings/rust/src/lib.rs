//! RTP headers, padding, sequence numbers and replay windows (RFC 3550), packetizers and depacketizers by codec, ends
//! that exchange offers and answers, send samples and receive units, and streams by codec, from a proved library.
//!
//! Start at [`End`], or without session texts at [`Sender`] and [`Receiver`]; [`Packetizer`] and [`Depacketizer`] know
//! no headers, and [`Forwarder`] sends packets on. A refused call changes nothing but what its documentation names, and
//! its [`EndError`] says why, and what it was about.
//!
//! A sample is the codec's bytes of a frame or an audio packet: of AV1 the OBUs of a temporal unit, of which only the
//! last may have no size; of H.264, H.265 and H.266 an access unit with start codes, not lengths; of AMR-WB a header
//! byte and the speech (RFC 4867 5.3). Units come out in the same forms: each OBU with its size, each NAL unit after
//! `00 00 00 01`.
//!
//! Handles ([`End`], [`Window`], [`Sender`] and the others) are `Send` and not `Sync`: one may move to another thread,
//! and has one call at a time; handles share nothing with each other.

#![warn(missing_docs)]

use crate::error::code;
use std::fmt;

mod browsers;
mod builder;
mod datagrams;
mod ends;
mod error;
mod exchanges;
mod faulty_lines;
mod forwarding;
mod nacks;
mod numbers;
mod packet_info;
mod params;
mod payloads;
mod refused;
mod stream_handles;
mod streams;
mod sys;
mod units;
mod values;
mod version;

pub use browsers::{Remote, SectionRequest, Setup, Transport};
pub use builder::Builder;
pub use datagrams::Datagrams;
pub use ends::End;
pub use error::Reason;
pub use faulty_lines::{FaultyLine, LineFault};
pub use forwarding::{Arrival, ForwardedPacket, Forwarder, Placed};
pub use nacks::{NackRequester, PacketHistory};
pub use packet_info::PacketInfo;
pub use params::{AgreedSection, Direction, Kind, Received, Row, Section, StreamParams};
pub use payloads::{Depacketizer, Fault, Packet, Packetizer, PacketizerParams};
pub use refused::{EndError, Place};
pub use stream_handles::{ReceivingStream, SendingStream};
pub use streams::{Format, Receiver, Sender, SenderParams};
pub use units::{TelephoneEvent, Unit};
pub use values::{ExtensionIds, Names, Values};
pub use version::version;

/// The least number of packets that a stream may be opened to hold at most.
pub const MIN_HELD: usize = 4096;

/// The greatest number of packets that a stream may be opened to hold at most.
pub const MAX_HELD: usize = 16384;

/// Why a call is refused.
///
/// ```
/// use jilqamur::{Error, Header};
/// assert_eq!(Header::read(&[0x80]), Err(Error::Unreadable));
/// assert_eq!(Header::default().write(&mut [0; 4]), Err(Error::TooSmall(12)));
/// ```
#[derive(Clone, Copy, Debug, PartialEq, Eq)]
#[non_exhaustive]
pub enum Error {
    /// Out of memory.
    Memory,
    /// The bytes begin with no RTP header.
    Unreadable,
    /// The padding does not fit.
    Damaged,
    /// The number came before, or is 1,024 or more below the greatest.
    Refused,
    /// A payload type above 127, or more than 15 contributing sources.
    Unwritable,
    /// The buffer is shorter than the header, whose length in bytes this is.
    TooSmall(usize),
    /// An id of a header extension is above 16.
    OutOfRange,
}

impl fmt::Display for Error {
    fn fmt(&self, f: &mut fmt::Formatter<'_>) -> fmt::Result {
        match self {
            Error::Memory => f.write_str("out of memory"),
            Error::Unreadable => f.write_str("no RTP header stands in front of the bytes"),
            Error::Damaged => f.write_str("the padding does not fit"),
            Error::Refused => f.write_str("the number came before or too late"),
            Error::Unwritable => f.write_str("the payload type or the count of sources is too large"),
            Error::TooSmall(needed) => write!(f, "the buffer is too small: {needed} bytes are needed"),
            Error::OutOfRange => f.write_str("a number is out of range"),
        }
    }
}

impl std::error::Error for Error {}

/// The header of an RTP packet, without the values of its extensions.
///
/// ```
/// use jilqamur::Header;
/// let header = Header { marker: true, payload_type: 96, sequence_number: 7, ssrc: 44, ..Header::default() };
/// let mut datagram = [0; 15];
/// assert_eq!(header.write(&mut datagram)?, 12);
/// let (read, rest) = Header::read(&datagram)?;
/// assert_eq!((read.sequence_number, read.ssrc), (7, 44));
/// assert_eq!(read.payload(rest)?, [0, 0, 0]);
/// # Ok::<(), jilqamur::Error>(())
/// ```
#[repr(C)]
#[derive(Clone, Copy, Debug, Default, PartialEq, Eq)]
pub struct Header {
    /// Whether padding follows the payload.
    pub has_padding: bool,
    /// Whether there is an extension block; one that is written is empty.
    pub has_extension: bool,
    /// The marker bit.
    pub marker: bool,
    /// The payload type, 0 to 127.
    pub payload_type: u8,
    /// The low 16 bits of the sequence number.
    pub sequence_number: u16,
    /// The low 32 bits of the media time, in ticks of the payload type's clock.
    pub timestamp: u32,
    /// The stream's source.
    pub ssrc: u32,
    /// How many contributing sources there are, 0 to 15.
    pub csrc_count: u32,
    /// The contributing sources; the places past `csrc_count` are 0 in a header that was read.
    pub csrc: [u32; 15],
    /// The length of a header that was read, in bytes; not looked at in one that is written.
    pub header_len: usize,
}

impl Header {
    /// The header of a datagram, and what follows it.
    ///
    /// # Errors
    /// `Unreadable`.
    pub fn read(datagram: &[u8]) -> Result<(Header, &[u8]), Error> {
        let mut header = Header::default();
        // SAFETY: pointer and length are those of one slice, and the header is a place of its own.
        let answer = unsafe { sys::jilqamur_header_read(datagram.as_ptr(), datagram.len(), &mut header) };
        if answer != code::OK {
            return Err(Error::Unreadable);
        }
        Ok((header, &datagram[header.header_len..]))
    }

    /// Writes the header to the front of a buffer, and returns its length in bytes.
    ///
    /// # Errors
    /// `Unwritable` or `TooSmall`; the buffer is unchanged.
    pub fn write(&self, buffer: &mut [u8]) -> Result<usize, Error> {
        let mut needed = 0;
        // SAFETY: pointer and length are those of one slice, and nothing that is written overlaps.
        let answer = unsafe { sys::jilqamur_header_write(self, buffer.as_mut_ptr(), buffer.len(), &mut needed) };
        match answer {
            code::OK => Ok(needed),
            code::TOO_SMALL => Err(Error::TooSmall(needed)),
            _ => Err(Error::Unwritable),
        }
    }

    /// The payload in what follows this header.
    ///
    /// # Errors
    /// `Damaged`.
    pub fn payload<'a>(&self, rest: &'a [u8]) -> Result<&'a [u8], Error> {
        let mut len = 0;
        // SAFETY: pointer and length are those of one slice, and the length is a place of its own.
        let answer = unsafe { sys::jilqamur_payload_unpad(self.has_padding, rest.as_ptr(), rest.len(), &mut len) };
        if answer == code::OK { Ok(&rest[..len]) } else { Err(Error::Damaged) }
    }
}

/// The number nearest to the previous one with these low 16 bits, modulo 2^64.
#[must_use]
pub fn widen(previous: u64, low: u16) -> u64 {
    // SAFETY: the function takes every pair of numbers.
    unsafe { sys::jilqamur_number_widen(previous, low) }
}

/// The replay window of a stream.
///
/// ```
/// use jilqamur::{Error, Window};
/// let mut window = Window::new()?;
/// let datagram = [0x80, 96, 0, 7, 0, 0, 0, 0, 0, 0, 0, 44];
/// assert_eq!(window.receive(&datagram)?, 7);
/// assert_eq!(window.receive(&datagram), Err(Error::Refused)); // it came before
/// # Ok::<(), Error>(())
/// ```
#[derive(Debug)]
pub struct Window(sys::Handle);

impl Window {
    /// A window that no number came to.
    ///
    /// # Errors
    /// `Memory`.
    pub fn new() -> Result<Window, Error> {
        let window = sys::Handle::closed();
        // SAFETY: the handle is closed.
        let answer = unsafe { sys::jilqamur_window_open(window.raw()) };
        if answer == code::OK { Ok(Window(window)) } else { Err(Error::Memory) }
    }

    /// Takes a datagram in, and returns its widened number, which is recorded. The payload and the SSRC are not
    /// looked at.
    ///
    /// # Errors
    /// `Unreadable` or `Refused`; the window is unchanged.
    pub fn receive(&mut self, datagram: &[u8]) -> Result<u64, Error> {
        let mut number = 0;
        // SAFETY: the handle is open, and pointer and length are those of one slice.
        let answer =
            unsafe { sys::jilqamur_window_receive(self.0.raw(), datagram.as_ptr(), datagram.len(), &mut number) };
        match answer {
            code::OK => Ok(number),
            code::UNREADABLE => Err(Error::Unreadable),
            _ => Err(Error::Refused),
        }
    }

    /// The numbers of datagrams that are taken in one after the other, or why one isn't.
    pub fn numbers<'a, I, D>(&'a mut self, datagrams: I) -> impl Iterator<Item = Result<u64, Error>> + 'a
    where
        I: IntoIterator<Item = D> + 'a,
        D: AsRef<[u8]>,
    {
        datagrams.into_iter().map(move |datagram| self.receive(datagram.as_ref()))
    }
}

impl Drop for Window {
    fn drop(&mut self) {
        // SAFETY: the handle is open, and is not used again.
        unsafe { sys::jilqamur_window_close(self.0.raw()) };
    }
}
