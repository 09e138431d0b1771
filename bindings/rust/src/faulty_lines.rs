//! The line at which a session text can't be read on.

use crate::Error;
use crate::datagrams::fetched;
use crate::error::code;
use crate::sys;
use std::fmt;

/// What is wrong with a line of a session text (RFC 8866 5); those from `MissingMid` on are those of the line `m=` of a
/// section.
#[derive(Clone, Copy, Debug, PartialEq, Eq)]
#[non_exhaustive]
pub enum LineFault {
    /// It isn't the line `v=0` that a text begins with.
    Version,
    /// It isn't a valid line `o=`, which is the second.
    Origin,
    /// It isn't a line `s=` with a name, which is the third.
    Name,
    /// It isn't the line `t=0 0`, nor one that may precede it.
    Times,
    /// It is none of the lines that may follow the one before it.
    Stray,
    /// The section has no `a=mid`.
    MissingMid,
    /// The section has several `a=mid`.
    SeveralMids,
    /// The section has several `a=setup`.
    SeveralSetups,
    /// The section doesn't have exactly one direction.
    Directions,
    /// The section has no payload types.
    NoPayloadType,
    /// A payload type isn't mapped exactly once.
    RtpMaps,
    /// A payload type repairs several others.
    ConflictingApts,
}

/// Each fault, by its number, with its text.
const FAULTS: [(LineFault, &str); 12] = [
    (LineFault::Version, "not v=0"),
    (LineFault::Origin, "no valid o="),
    (LineFault::Name, "no s= with a name"),
    (LineFault::Times, "not t=0 0"),
    (LineFault::Stray, "fits nowhere"),
    (LineFault::MissingMid, "a section without a=mid"),
    (LineFault::SeveralMids, "a section with several a=mid"),
    (LineFault::SeveralSetups, "a section with several a=setup"),
    (LineFault::Directions, "a section without exactly one direction"),
    (LineFault::NoPayloadType, "a section without payload types"),
    (LineFault::RtpMaps, "a section with a payload type that isn't mapped once"),
    (LineFault::ConflictingApts, "a section with a payload type that repairs several"),
];

impl LineFault {
    fn of(number: u32) -> LineFault {
        match FAULTS.get(number as usize) {
            Some((fault, _)) => *fault,
            None => unreachable!("the library tells fault {number}"),
        }
    }
}

impl fmt::Display for LineFault {
    fn fmt(&self, f: &mut fmt::Formatter<'_>) -> fmt::Result {
        let text = FAULTS.iter().find(|(fault, _)| fault == self).map_or("", |(_, text)| text);
        f.write_str(text)
    }
}

/// The line at which a session text can't be read on.
///
/// ```
/// use jilqamur::{FaultyLine, LineFault};
/// let text = "v=0\r\no=- 1 2 IN IP4 0.0.0.0\r\ns=-\r\nt=0 0\r\nx=1\r\n";
/// let line = FaultyLine::find(text)?.expect("the last line fits nowhere");
/// assert_eq!((line.number, line.fault), (5, LineFault::Stray));
/// assert_eq!(line.to_string(), "line 5: fits nowhere: x=1");
/// # Ok::<(), jilqamur::Error>(())
/// ```
#[derive(Clone, Debug, PartialEq, Eq)]
pub struct FaultyLine {
    /// Its number, counted from 1.
    pub number: usize,
    /// The line, without its end; empty if the text ends before it.
    pub text: String,
    /// What is wrong with it.
    pub fault: LineFault,
}

impl FaultyLine {
    /// The line at which a session text can't be read on: the first that fails if the text isn't read, or else the
    /// first of the rest that isn't read. None if the text is read to its end.
    ///
    /// # Errors
    /// `Memory`.
    pub fn find(text: &str) -> Result<Option<FaultyLine>, Error> {
        let (mut number, mut fault, mut answer) = (0, 0, code::OK);
        let line = fetched(|buffer, len, needed| {
            // SAFETY: pointers and lengths are those of one text or slice each, and what is written are places of
            // their own.
            answer = unsafe {
                sys::jilqamur_faulty_line(text.as_ptr(), text.len(), buffer, len, needed, &mut number, &mut fault)
            };
            answer
        });
        match answer {
            code::OK => Ok(Some(FaultyLine {
                number,
                text: String::from_utf8_lossy(&line).into_owned(),
                fault: LineFault::of(fault),
            })),
            code::NOTHING => Ok(None),
            _ => Err(Error::Memory),
        }
    }
}

impl fmt::Display for FaultyLine {
    fn fmt(&self, f: &mut fmt::Formatter<'_>) -> fmt::Result {
        write!(f, "line {}: {}: {}", self.number, self.fault, self.text)
    }
}
