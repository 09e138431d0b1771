//! Ends made step by step.

use crate::ends::End;
use crate::error::Reason;
use crate::params::Row;
use crate::refused::{EndError, Place};

/// The codecs that [`Builder::codec`] knows: name, clock rate and channels.
const CODECS: [(&str, u32, Option<u8>); 13] = [
    ("opus", 48_000, Some(2)),
    ("PCMU", 8_000, None),
    ("PCMA", 8_000, None),
    ("G722", 8_000, None),
    ("CN", 8_000, None),
    ("AMR-WB", 16_000, None),
    ("telephone-event", 8_000, None),
    ("VP8", 90_000, None),
    ("VP9", 90_000, None),
    ("AV1", 90_000, None),
    ("H264", 90_000, None),
    ("H265", 90_000, None),
    ("H266", 90_000, None),
];

/// What an end is made of; [`End::builder`] begins it.
///
/// ```
/// use jilqamur::{End, Row};
/// let end = End::builder()
///     .codec("opus", 111)
///     .codec("PCMU", 0)
///     .row(Row::new(96, 90_000).with_resend(97), "VP8", "")
///     .extension(1, "urn:ietf:params:rtp-hdrext:sdes:mid")
///     .session(7)
///     .build()?;
/// assert!(end.agreed_sections().is_empty());
/// # Ok::<(), jilqamur::EndError>(())
/// ```
#[derive(Clone, Debug, Default)]
#[must_use]
pub struct Builder {
    rows: Vec<(Row, String, String)>,
    has_default_rows: bool,
    extensions: Vec<(u8, String)>,
    session: u64,
    unknown: Option<Place>,
}

impl Builder {
    /// A codec by its name, in any case, at this payload type, with its usual clock rate and channels, and without
    /// format parameters: opus, PCMU, PCMA, G722, CN, AMR-WB, telephone-event, VP8, VP9, AV1, H264, H265 or H266.
    pub fn codec(mut self, name: &str, payload_type: u8) -> Builder {
        let Some((name, clock_rate, channels)) = CODECS.iter().find(|known| known.0.eq_ignore_ascii_case(name)) else {
            self.unknown.get_or_insert_with(|| Place::row(name, payload_type));
            return self;
        };
        let row = Row::new(payload_type, *clock_rate);
        self.row(channels.map_or(row, |channels| row.with_channels(channels)), name, "")
    }

    /// A row: a codec's name, and what follows the type in its `a=fmtp` line.
    pub fn row(mut self, row: Row, codec: &str, format: &str) -> Builder {
        self.rows.push((row, codec.into(), format.into()));
        self
    }

    /// The default rows of Opus, VP8, H.264, H.265, VP9 and AV1, after those that are given.
    pub fn default_rows(mut self) -> Builder {
        self.has_default_rows = true;
        self
    }

    /// The id of a header extension, 1 to 16, by its URI.
    pub fn extension(mut self, id: u8, uri: &str) -> Builder {
        self.extensions.push((id, uri.into()));
        self
    }

    /// The number of the session in the texts (RFC 8866 5.2); 0 if it isn't given.
    pub fn session(mut self, session: u64) -> Builder {
        self.session = session;
        self
    }

    /// The end.
    ///
    /// # Errors
    /// `OutOfRange` for a codec that isn't known, a clock rate of 0 or an id that isn't 1 to 16; else those of
    /// [`End::make`]. The error names the first row or extension for which the end is refused.
    pub fn build(self) -> Result<End, EndError> {
        if self.unknown.is_some() {
            return Err(EndError::new(Reason::OutOfRange, self.unknown));
        }
        self.made(self.rows.len(), self.has_default_rows, self.extensions.len()).map_err(|refused| {
            let place = refused.place().cloned().or_else(|| self.culprit(refused.reason()));
            EndError::new(refused.reason(), place)
        })
    }

    /// An end of the first rows and the first extensions.
    fn made(&self, rows: usize, has_default_rows: bool, extensions: usize) -> Result<End, EndError> {
        let mut end = End::new()?;
        for (row, codec, format) in &self.rows[..rows] {
            end.row(row, codec, format)?;
        }
        if has_default_rows {
            end.default_rows()?;
        }
        for (id, uri) in &self.extensions[..extensions] {
            end.extension(*id, uri)?;
        }
        end.make(self.session)?;
        Ok(end)
    }

    /// The first row, or else the first extension, with which an end is refused for this reason.
    fn culprit(&self, reason: Reason) -> Option<Place> {
        let is_refused =
            |rows, extensions| self.made(rows, false, extensions).is_err_and(|refused| refused.reason() == reason);
        if let Some(last) = (0..self.rows.len()).find(|last| is_refused(last + 1, 0)) {
            let (row, codec, _) = &self.rows[last];
            return Some(Place::row(codec, row.payload_type()));
        }
        let last = (0..self.extensions.len()).find(|last| is_refused(0, last + 1))?;
        let (id, uri) = &self.extensions[last];
        Some(Place::Extension { id: *id, uri: uri.clone() })
    }
}

impl End {
    /// Begins an end: its codecs and header extensions, and then [`Builder::build`].
    pub fn builder() -> Builder {
        Builder::default()
    }
}
