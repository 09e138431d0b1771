//! Refused calls of ends and streams: why, and what about.

use crate::error::{Reason, code};
use std::fmt;

/// What a refused call was about, as far as the library tells it.
///
/// ```
/// use jilqamur::{End, Place};
/// let refused = End::builder().extension(17, "urn:a").build().expect_err("ids are 1 to 16");
/// assert_eq!(refused.place(), Some(&Place::Extension { id: 17, uri: "urn:a".into() }));
/// ```
#[derive(Clone, Debug, PartialEq, Eq)]
#[non_exhaustive]
pub enum Place {
    /// A row, by its codec's name and its payload type.
    Row {
        /// The codec's name.
        codec: String,
        /// The payload type.
        payload_type: u8,
    },
    /// A header extension.
    Extension {
        /// Its id.
        id: u8,
        /// Its URI.
        uri: String,
    },
    /// One of these sections, by their mids.
    Sections(Vec<String>),
    /// A stream that was to be opened.
    Opening {
        /// The mid of its section.
        mid: String,
        /// Its SSRC.
        ssrc: u32,
        /// Its payload type.
        payload_type: u8,
    },
    /// A stream, by its number.
    Stream(usize),
    /// A codec, by its name.
    Codec(String),
}

impl Place {
    pub(crate) fn opening(mid: &str, ssrc: u32, payload_type: u8) -> Place {
        Place::Opening { mid: mid.into(), ssrc, payload_type }
    }

    pub(crate) fn section(mid: &str) -> Place {
        Place::Sections(vec![mid.into()])
    }

    pub(crate) fn row(codec: &str, payload_type: u8) -> Place {
        Place::Row { codec: codec.into(), payload_type }
    }
}

impl fmt::Display for Place {
    fn fmt(&self, f: &mut fmt::Formatter<'_>) -> fmt::Result {
        match self {
            Place::Row { codec, payload_type } => write!(f, "row {codec} at type {payload_type}"),
            Place::Extension { id, uri } => write!(f, "extension {uri} at id {id}"),
            Place::Sections(mids) if mids.len() == 1 => write!(f, "section {}", mids[0]),
            Place::Sections(mids) => write!(f, "sections {}", mids.join(", ")),
            Place::Opening { mid, ssrc, payload_type } => {
                write!(f, "section {mid}, SSRC {ssrc}, type {payload_type}")
            }
            Place::Stream(number) => write!(f, "stream {number}"),
            Place::Codec(name) => write!(f, "codec {name}"),
        }
    }
}

/// Why a call of an end or a stream is refused, and what it was about.
///
/// ```
/// use jilqamur::{End, MIN_HELD, Place, Reason};
/// let mut end = End::builder().codec("opus", 111).build()?;
/// let refused = end.open_receiver("0", 44, 111, 2, MIN_HELD).expect_err("nothing is agreed");
/// assert_eq!(refused.reason(), Reason::NoSection);
/// assert_eq!(refused.to_string(), "no such section is agreed (section 0, SSRC 44, type 111)");
/// # Ok::<(), jilqamur::EndError>(())
/// ```
#[derive(Clone, Debug, PartialEq, Eq)]
pub struct EndError {
    reason: Reason,
    place: Option<Place>,
}

impl EndError {
    pub(crate) fn new(reason: Reason, place: Option<Place>) -> EndError {
        let is_of_the_end = matches!(
            reason,
            Reason::Memory | Reason::NotMade | Reason::OutOfTurn | Reason::TextUnreadable | Reason::RestUnread
        );
        EndError { reason, place: place.filter(|_| !is_of_the_end) }
    }

    /// Why the call is refused.
    #[must_use]
    pub fn reason(&self) -> Reason {
        self.reason
    }

    /// What it was about; None if that isn't known, or if it is the whole end.
    #[must_use]
    pub fn place(&self) -> Option<&Place> {
        self.place.as_ref()
    }
}

impl fmt::Display for EndError {
    fn fmt(&self, f: &mut fmt::Formatter<'_>) -> fmt::Result {
        match &self.place {
            Some(place) => write!(f, "{} ({place})", self.reason),
            None => write!(f, "{}", self.reason),
        }
    }
}

impl std::error::Error for EndError {}

/// What a call answers that is about nothing in particular.
pub(crate) fn done(answer: u32) -> Result<(), EndError> {
    if answer == code::OK { Ok(()) } else { Err(EndError::new(Reason::of(answer), None)) }
}

/// What a call answers that is about a row, a section or a stream.
pub(crate) fn done_at(answer: u32, place: impl FnOnce() -> Place) -> Result<(), EndError> {
    if answer == code::OK { Ok(()) } else { Err(EndError::new(Reason::of(answer), Some(place()))) }
}

/// What a call answers that is about a stream of an end.
pub(crate) fn done_of(answer: u32, stream: usize) -> Result<(), EndError> {
    done_at(answer, || Place::Stream(stream))
}

/// Refuses a mid that would be cut or changed: it has at most 16 bytes, each a letter, a digit or `_`.
pub(crate) fn keeps_mid(mid: &str, place: impl FnOnce() -> Place) -> Result<(), EndError> {
    let is_kept = mid.len() <= 16 && mid.bytes().all(|byte| byte.is_ascii_alphanumeric() || byte == b'_');
    if is_kept { Ok(()) } else { Err(EndError::new(Reason::MidNotKept, Some(place()))) }
}
