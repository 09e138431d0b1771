//! Why calls are refused.

use std::fmt;

/// What calls answer, as `jilqamur.h` numbers it.
#[allow(dead_code)] // some of them the types here rule out
pub(crate) mod code {
    pub(crate) const OK: u32 = 0;
    pub(crate) const MEMORY: u32 = 1;
    pub(crate) const IN_USE: u32 = 2;
    pub(crate) const CLOSED: u32 = 3;
    pub(crate) const UNREADABLE: u32 = 4;
    pub(crate) const DAMAGED: u32 = 5;
    pub(crate) const REFUSED: u32 = 6;
    pub(crate) const UNWRITABLE: u32 = 7;
    pub(crate) const TOO_SMALL: u32 = 8;
    pub(crate) const NOT_TEXT: u32 = 9;
    pub(crate) const OUT_OF_RANGE: u32 = 10;
    pub(crate) const NOT_MADE: u32 = 11;
    pub(crate) const NOTHING: u32 = 12;
    pub(crate) const FOREIGN: u32 = 13;
    pub(crate) const NO_STREAM: u32 = 14;
    pub(crate) const ROW_NOT_PLAIN: u32 = 15;
    pub(crate) const TYPES_NOT_DISTINCT: u32 = 16;
    pub(crate) const NOT_WRITABLE: u32 = 17;
    pub(crate) const TEXT_UNREADABLE: u32 = 18;
    pub(crate) const OUT_OF_TURN: u32 = 19;
    pub(crate) const NOT_MEDIA: u32 = 20;
    pub(crate) const NOT_CORRESPONDING: u32 = 21;
    pub(crate) const ROUND: u32 = 22;
    pub(crate) const NO_COMMON_ROW: u32 = 23;
    pub(crate) const NO_SECTION: u32 = 24;
    pub(crate) const ROW_NOT_AGREED: u32 = 25;
    pub(crate) const ROW_DIFFERS: u32 = 26;
    pub(crate) const WRONG_DIRECTION: u32 = 27;
    pub(crate) const SSRC_NOT_NAMED: u32 = 28;
    pub(crate) const ALREADY_OPEN: u32 = 29;
    pub(crate) const STREAM_FAILED: u32 = 30;
    pub(crate) const TIME_TOO_LARGE: u32 = 31;
    pub(crate) const LIMIT_TOO_SMALL: u32 = 32;
    pub(crate) const PAYLOAD: u32 = 33;
    pub(crate) const PACKET_TOO_SHORT: u32 = 34;
    pub(crate) const SAMPLE_TOO_LARGE: u32 = 35;
    pub(crate) const TOO_MANY_REFERENCES: u32 = 36;
    pub(crate) const H265_CORRUPTED: u32 = 37;
    pub(crate) const H266_CORRUPTED: u32 = 38;
    pub(crate) const AGGREGATE_CUT_SHORT: u32 = 39;
    pub(crate) const UNIT_TYPE_NOT_HANDLED: u32 = 40;
    pub(crate) const VP8_CORRUPTED: u32 = 41;
    pub(crate) const VP9_CORRUPTED: u32 = 42;
    pub(crate) const AV1_CORRUPTED: u32 = 43;
    pub(crate) const RED_CORRUPTED: u32 = 44;
    pub(crate) const EVENT_INVALID: u32 = 45;
    pub(crate) const AMR_WB_CORRUPTED: u32 = 46;
    pub(crate) const NO_REPAIR: u32 = 47;
    pub(crate) const NOT_OWN: u32 = 48;
    pub(crate) const REST_UNREAD: u32 = 49;
    pub(crate) const MID_NOT_KEPT: u32 = 50;
    pub(crate) const MID_TWICE: u32 = 51;
    pub(crate) const SECTION_REJECTED: u32 = 52;
    pub(crate) const SEVERAL_BUNDLES: u32 = 53;
    pub(crate) const OUTSIDE_BUNDLE: u32 = 54;
    pub(crate) const NOTHING_LEFT: u32 = 55;
    pub(crate) const KEYS_ALONE: u32 = 56;
    pub(crate) const UFRAG_NOT_FIT: u32 = 57;
    pub(crate) const PASSWORD_NOT_FIT: u32 = 58;
    pub(crate) const SETUP_NOT_FIT: u32 = 59;
    pub(crate) const ADDS_REDUNDANCY: u32 = 60;
    pub(crate) const NUMBER_TOO_LARGE: u32 = 61;
    pub(crate) const NO_PAYLOAD: u32 = 62;
}

/// Why a call of an end or a stream is refused, by the number that `jilqamur.h` gives it.
///
/// ```
/// use jilqamur::{End, Reason};
/// let mut end = End::new()?;
/// let refused = end.accept("v=0").expect_err("there is no end yet");
/// assert_eq!(refused.reason(), Reason::NotMade);
/// assert_eq!(Reason::NotMade.to_string(), "the end was not made yet");
/// # Ok::<(), jilqamur::EndError>(())
/// ```
#[derive(Clone, Copy, Debug, PartialEq, Eq)]
#[non_exhaustive]
pub enum Reason {
    /// Out of memory.
    Memory,
    /// A number is off the range that is written at it.
    OutOfRange,
    /// The end was not made yet.
    NotMade,
    /// No stream of that direction has this number.
    NoStream,
    /// A row is of a kind that an end can't agree on.
    RowNotPlain,
    /// A payload type means two things.
    TypesNotDistinct,
    /// The text of an offer or an answer, or a header extension's URI, can't be written.
    NotWritable,
    /// The text isn't that of an offer or an answer.
    TextUnreadable,
    /// An offer is pending, or none is.
    OutOfTurn,
    /// A section of the text is no media.
    NotMedia,
    /// The sections don't correspond.
    NotCorresponding,
    /// The rows can't be settled against the other end's.
    Round,
    /// A section would list no row.
    NoCommonRow,
    /// No section of this name is agreed.
    NoSection,
    /// No row of this type is agreed.
    RowNotAgreed,
    /// The end's own row differs from the agreed one.
    RowDiffers,
    /// The section does not flow this way.
    WrongDirection,
    /// The sender's section does not name this SSRC.
    SsrcNotNamed,
    /// Such a stream is open already.
    AlreadyOpen,
    /// The stream sends no more.
    StreamFailed,
    /// The time does not fit 64 bits at the stream's clock.
    TimeTooLarge,
    /// A datagram would pass the limit.
    LimitTooSmall,
    /// The codec refuses the sample or the payload.
    Payload,
    /// The stream has no pair for repairs, or sends redundancy.
    NoRepair,
    /// The datagram isn't one that the stream sent.
    NotOwn,
    /// A line of a browser's text fits nowhere, and what follows would be lost.
    RestUnread,
    /// A section's name has more than 16 bytes, or other signs than ASCII letters, digits and `_`.
    MidNotKept,
    /// Two sections have one name.
    MidTwice,
    /// The browser rejects a section: the offer is to be withdrawn, and made without it.
    SectionRejected,
    /// There are several bundles, and so several transports (RFC 9143).
    SeveralBundles,
    /// A section is in no bundle, and so has a transport of its own.
    OutsideBundle,
    /// No section is left for the end.
    NothingLeft,
    /// A section has keys, and there is no fingerprint for it.
    KeysAlone,
    /// The name of ICE isn't 4 to 256 letters, digits, `+` and `/` (RFC 8839 5.4).
    UfragNotFit,
    /// The password of ICE isn't 22 to 256 of them.
    PasswordNotFit,
    /// The part in the connection isn't one that may be said (RFC 8842 5.3).
    SetupNotFit,
    /// The stream adds redundancy (RFC 2198), and sends no packet on.
    AddsRedundancy,
    /// The sequence number is 2^62 or above.
    NumberTooLarge,
    /// The packet has no payload.
    NoPayload,
}

/// Each reason with its number and what it means.
const REASONS: [(u32, Reason, &str); 39] = [
    (code::MEMORY, Reason::Memory, "out of memory"),
    (code::OUT_OF_RANGE, Reason::OutOfRange, "a number is out of range"),
    (code::NOT_MADE, Reason::NotMade, "the end was not made yet"),
    (code::NO_STREAM, Reason::NoStream, "no such stream is open"),
    (code::ROW_NOT_PLAIN, Reason::RowNotPlain, "a row is not plain"),
    (code::TYPES_NOT_DISTINCT, Reason::TypesNotDistinct, "a payload type stands for two things"),
    (code::NOT_WRITABLE, Reason::NotWritable, "the text can't be written"),
    (code::TEXT_UNREADABLE, Reason::TextUnreadable, "the text can't be read"),
    (code::OUT_OF_TURN, Reason::OutOfTurn, "this call is out of turn"),
    (code::NOT_MEDIA, Reason::NotMedia, "a section is no media"),
    (code::NOT_CORRESPONDING, Reason::NotCorresponding, "the sections do not correspond"),
    (code::ROUND, Reason::Round, "the rows can't be settled"),
    (code::NO_COMMON_ROW, Reason::NoCommonRow, "a section would list no row"),
    (code::NO_SECTION, Reason::NoSection, "no such section is agreed"),
    (code::ROW_NOT_AGREED, Reason::RowNotAgreed, "no row of this type is agreed"),
    (code::ROW_DIFFERS, Reason::RowDiffers, "the end's own row differs from the agreed one"),
    (code::WRONG_DIRECTION, Reason::WrongDirection, "the section does not flow this way"),
    (code::SSRC_NOT_NAMED, Reason::SsrcNotNamed, "the sender's section does not name this SSRC"),
    (code::ALREADY_OPEN, Reason::AlreadyOpen, "such a stream is open already"),
    (code::STREAM_FAILED, Reason::StreamFailed, "the stream sends no more"),
    (code::TIME_TOO_LARGE, Reason::TimeTooLarge, "the time is too large"),
    (code::LIMIT_TOO_SMALL, Reason::LimitTooSmall, "a datagram would pass the limit"),
    (code::PAYLOAD, Reason::Payload, "the payload is refused"),
    (code::NO_REPAIR, Reason::NoRepair, "the stream has no pair for repairs"),
    (code::NOT_OWN, Reason::NotOwn, "the stream did not send this datagram"),
    (code::REST_UNREAD, Reason::RestUnread, "the text has a rest that can't be read"),
    (code::MID_NOT_KEPT, Reason::MidNotKept, "the name of a section can't be kept"),
    (code::MID_TWICE, Reason::MidTwice, "two sections have one name"),
    (code::SECTION_REJECTED, Reason::SectionRejected, "a section is rejected"),
    (code::SEVERAL_BUNDLES, Reason::SeveralBundles, "there are several bundles"),
    (code::OUTSIDE_BUNDLE, Reason::OutsideBundle, "a section is outside of the bundle"),
    (code::NOTHING_LEFT, Reason::NothingLeft, "no section is left"),
    (code::KEYS_ALONE, Reason::KeysAlone, "a section has keys and no fingerprint"),
    (code::UFRAG_NOT_FIT, Reason::UfragNotFit, "the name of ICE doesn't fit"),
    (code::PASSWORD_NOT_FIT, Reason::PasswordNotFit, "the password of ICE doesn't fit"),
    (code::SETUP_NOT_FIT, Reason::SetupNotFit, "the setup doesn't fit"),
    (code::ADDS_REDUNDANCY, Reason::AddsRedundancy, "the stream adds redundancy"),
    (code::NUMBER_TOO_LARGE, Reason::NumberTooLarge, "the number is too large"),
    (code::NO_PAYLOAD, Reason::NoPayload, "there is no payload"),
];

impl Reason {
    /// The reason of this number, which is none of those that the types here rule out.
    pub(crate) fn of(answer: u32) -> Reason {
        match REASONS.iter().find(|(number, ..)| *number == answer) {
            Some((_, reason, _)) => *reason,
            None => unreachable!("the library answers {answer}"),
        }
    }
}

impl fmt::Display for Reason {
    fn fmt(&self, f: &mut fmt::Formatter<'_>) -> fmt::Result {
        let text = REASONS.iter().find(|(_, reason, _)| reason == self).map_or("", |(.., text)| text);
        f.write_str(text)
    }
}
