//! What ends and streams are made of, and what they tell.

/// The numbers of a row: a payload type, and what it means.
///
/// ```
/// use jilqamur::Row;
/// let row = Row::new(96, 90_000).with_resend(97);
/// assert_eq!((row.payload_type(), row.resend(), row.red()), (96, Some(97), None));
/// ```
#[repr(C)]
#[derive(Clone, Copy, Debug, Default, PartialEq, Eq)]
pub struct Row {
    payload_type: u8,
    has_resend: bool,
    resend: u8,
    has_red: bool,
    red: u8,
    clock_rate: u32,
    has_channels: bool,
    channels: u8,
}

impl Row {
    /// A row of this type (0 to 127) and clock rate (at least 1), without channels, retransmissions and redundancy.
    #[must_use]
    pub fn new(payload_type: u8, clock_rate: u32) -> Row {
        Row { payload_type, clock_rate, ..Row::default() }
    }

    /// Its payload type.
    #[must_use]
    pub fn payload_type(&self) -> u8 {
        self.payload_type
    }

    /// Its ticks a second.
    #[must_use]
    pub fn clock_rate(&self) -> u32 {
        self.clock_rate
    }

    /// How many channels it has, if it names them.
    #[must_use]
    pub fn channels(&self) -> Option<u8> {
        self.has_channels.then_some(self.channels)
    }

    /// The type of its retransmissions, if it has them (RFC 4588).
    #[must_use]
    pub fn resend(&self) -> Option<u8> {
        self.has_resend.then_some(self.resend)
    }

    /// Its RED type, if it has redundancy (RFC 2198).
    #[must_use]
    pub fn red(&self) -> Option<u8> {
        self.has_red.then_some(self.red)
    }

    /// The same row with this many channels.
    #[must_use]
    pub fn with_channels(self, channels: u8) -> Row {
        Row { has_channels: true, channels, ..self }
    }

    /// The same row, retransmitted under this type (RFC 4588).
    #[must_use]
    pub fn with_resend(self, resend: u8) -> Row {
        Row { has_resend: true, resend, ..self }
    }

    /// The same row with this RED type (RFC 2198).
    #[must_use]
    pub fn with_red(self, red: u8) -> Row {
        Row { has_red: true, red, ..self }
    }
}

/// Audio or video.
///
/// ```
/// use jilqamur::{Direction, End, Kind, Section};
/// let mut end = End::builder().codec("VP8", 96).build()?;
/// let direction = Direction::SendOnly;
/// let offer = end.offer(&[Section { mid: "v", kind: Kind::Video, direction, ssrcs: &[44], repairs: &[] }])?;
/// assert!(offer.contains("m=video"));
/// # Ok::<(), jilqamur::EndError>(())
/// ```
#[derive(Clone, Copy, Debug, PartialEq, Eq)]
pub enum Kind {
    /// Audio.
    Audio,
    /// Video.
    Video,
}

/// Which way media flows, as an end sees it.
///
/// ```
/// use jilqamur::{Direction, End, Kind, Section};
/// let mut a = End::builder().codec("opus", 111).session(1).build()?;
/// let mut b = End::builder().codec("opus", 111).session(2).build()?;
/// let audio = |direction| Section { mid: "0", kind: Kind::Audio, direction, ssrcs: &[], repairs: &[] };
/// let offer = a.offer(&[audio(Direction::SendOnly)])?;
/// b.answer(&offer, &[audio(Direction::SendRecv)])?;
/// assert_eq!(b.agreed_sections()[0].direction, Direction::RecvOnly);
/// # Ok::<(), jilqamur::EndError>(())
/// ```
#[derive(Clone, Copy, Debug, PartialEq, Eq)]
pub enum Direction {
    /// Sends and does not receive.
    SendOnly,
    /// Receives and does not send.
    RecvOnly,
    /// Sends and receives.
    SendRecv,
    /// Neither sends nor receives.
    Inactive,
}

impl Direction {
    /// Whether it sends, and whether it receives.
    pub(crate) fn flow(self) -> (bool, bool) {
        match self {
            Direction::SendOnly => (true, false),
            Direction::RecvOnly => (false, true),
            Direction::SendRecv => (true, true),
            Direction::Inactive => (false, false),
        }
    }
}

/// A section as an end wants it.
///
/// ```
/// use jilqamur::{Direction, End, Kind, Row, Section};
/// let mut end = End::builder().row(Row::new(96, 90_000).with_resend(97), "VP8", "").build()?;
/// let direction = Direction::SendRecv;
/// let offer = end.offer(&[Section { mid: "v", kind: Kind::Video, direction, ssrcs: &[44], repairs: &[(44, 45)] }])?;
/// assert!(offer.contains("a=ssrc-group:FID 44 45"));
/// # Ok::<(), jilqamur::EndError>(())
/// ```
#[derive(Clone, Copy, Debug)]
pub struct Section<'a> {
    /// The name (RFC 5888), of at most 16 bytes, each a letter, a digit or `_`.
    pub mid: &'a str,
    /// Audio or video.
    pub kind: Kind,
    /// Which way media shall flow.
    pub direction: Direction,
    /// The SSRCs that the end sends under.
    pub ssrcs: &'a [u32],
    /// Pairs of one of them and the SSRC under which its datagrams are sent again (RFC 4588 8.3). Each repairs another
    /// one of `ssrcs`, and none is one of them.
    pub repairs: &'a [(u32, u32)],
}

/// A section that an end agreed on.
///
/// ```
/// use jilqamur::{Direction, End, Kind, Section};
/// # let mut a = End::builder().codec("opus", 111).session(1).build()?;
/// # let mut b = End::builder().codec("opus", 111).session(2).build()?;
/// # let audio = |ssrcs| Section { mid: "0", kind: Kind::Audio, direction: Direction::SendRecv, ssrcs, repairs: &[] };
/// # let offer = a.offer(&[audio(&[44])])?;
/// # let answer = b.answer(&offer, &[audio(&[45])])?;
/// # a.accept(&answer)?;
/// let section = &a.agreed_sections()[0];
/// let (codec, row) = &section.rows[0];
/// assert_eq!((section.mid.as_str(), codec.as_str(), row.payload_type()), ("0", "opus", 111));
/// assert_eq!(section.ssrcs, [45]); // the other end sends under it
/// # Ok::<(), jilqamur::EndError>(())
/// ```
#[derive(Clone, Debug, PartialEq, Eq)]
pub struct AgreedSection {
    /// The name.
    pub mid: String,
    /// Audio or video.
    pub kind: Kind,
    /// Which way media flows, as the end sees it.
    pub direction: Direction,
    /// The rows that both ends have, each with its codec's name.
    pub rows: Vec<(String, Row)>,
    /// The SSRCs that the other end names.
    pub ssrcs: Vec<u32>,
}

/// How a sending stream numbers and cuts its samples.
///
/// ```
/// use jilqamur::{Direction, End, Kind, Section, StreamParams};
/// # let mut a = End::builder().codec("VP8", 96).session(1).build()?;
/// # let mut b = End::builder().codec("VP8", 96).session(2).build()?;
/// # let video = |ssrcs| Section { mid: "0", kind: Kind::Video, direction: Direction::SendRecv, ssrcs, repairs: &[] };
/// # let offer = a.offer(&[video(&[44])])?;
/// # let answer = b.answer(&offer, &[video(&[45])])?;
/// # a.accept(&answer)?;
/// let params = StreamParams::new(1000, 1200, 1400).with_picture_id(1).for_browsers();
/// a.open_sender("0", 44, 96, params, None)?;
/// # Ok::<(), jilqamur::EndError>(())
/// ```
#[repr(C)]
#[derive(Clone, Copy, Debug, PartialEq, Eq)]
pub struct StreamParams {
    first: u64,
    mtu: usize,
    limit: usize,
    has_red: bool,
    has_picture_id: bool,
    picture_id: u16,
    for_browsers: bool,
}

impl StreamParams {
    /// From this sequence number on (below 32,768), with at most `mtu` bytes of payload in a datagram (at least 1) and
    /// at most `limit` bytes in all.
    #[must_use]
    pub fn new(first: u64, mtu: usize, limit: usize) -> StreamParams {
        StreamParams { first, mtu, limit, has_red: false, has_picture_id: false, picture_id: 0, for_browsers: false }
    }

    /// With pictures counted from this id, at most 32,767, in a video row.
    #[must_use]
    pub fn with_picture_id(self, picture_id: u16) -> StreamParams {
        StreamParams { has_picture_id: true, picture_id, ..self }
    }

    pub(crate) fn with_redundancy(self, has_red: bool) -> StreamParams {
        StreamParams { has_red, ..self }
    }

    /// With payloads of the forms that browsers want.
    #[must_use]
    pub fn for_browsers(self) -> StreamParams {
        StreamParams { for_browsers: true, ..self }
    }
}

/// What an end says of a datagram.
///
/// ```
/// use jilqamur::{End, Received};
/// let mut end = End::builder().codec("opus", 111).build()?;
/// assert_eq!(end.receive(&[1, 2])?, Received::Unreadable);
/// assert_eq!(end.receive(&[0x80; 12])?, Received::Foreign); // no stream is open
/// # Ok::<(), jilqamur::EndError>(())
/// ```
#[derive(Clone, Copy, Debug, PartialEq, Eq)]
pub enum Received {
    /// It begins with no RTP header.
    Unreadable,
    /// No receiving stream has its SSRC and payload type.
    Foreign,
    /// Its padding does not fit, its payload is empty, or redundancy in it can't be read or has another type.
    Damaged,
    /// Its number was taken before, or is 1,024 or more below the greatest one taken.
    Refused,
    /// The receiving stream of this number took it under this widened sequence number.
    Taken(usize, u64),
}
