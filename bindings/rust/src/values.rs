//! Values of header extensions.

use crate::Error;
use crate::error::code;
use crate::sys;

/// The values of header extensions (RFC 8285), but the names of sections and streams.
///
/// ```
/// use jilqamur::{Direction, End, Kind, Section, StreamParams, Values};
/// # let mut a = End::builder().codec("opus", 111).session(1).build()?;
/// # let mut b = End::builder().codec("opus", 111).session(2).build()?;
/// # let audio = |ssrcs| Section { mid: "0", kind: Kind::Audio, direction: Direction::SendRecv, ssrcs, repairs: &[] };
/// # let offer = a.offer(&[audio(&[44])])?;
/// # let answer = b.answer(&offer, &[audio(&[45])])?;
/// # a.accept(&answer)?;
/// # let stream = a.open_sender("0", 44, 111, StreamParams::new(1000, 1200, 1400), None)?;
/// let values = Values { audio_level: Some(-30), voice_activity: Some(true), ..Values::default() };
/// a.sender(stream).push_sample_with(960, &[1, 2, 3], Some("0"), &values)?;
/// # Ok::<(), jilqamur::EndError>(())
/// ```
#[derive(Clone, Copy, Debug, Default, PartialEq, Eq)]
pub struct Values {
    /// The audio level in dBov, -127 to 0; it is carried only with `voice_activity` (RFC 6464).
    pub audio_level: Option<i8>,
    /// Whether the audio has voice; it is carried only with `audio_level` (RFC 6464).
    pub voice_activity: Option<bool>,
    /// When the packet left, in microseconds. It is carried modulo 64 seconds, in units of 2^-18 seconds.
    pub abs_send_time: Option<u64>,
    /// The number that counts over all streams of a transport.
    pub transport_cc: Option<u16>,
    /// How the picture is turned, by the low two bits (3GPP TS 26.114 7.4.5).
    pub video_orientation: Option<u8>,
    /// The least delay until play, in 10 ms, 0 to 4095; it is carried only with `play_delay_max`.
    pub play_delay_min: Option<u16>,
    /// The greatest delay until play, in 10 ms, 0 to 4095; it is carried only with `play_delay_min`.
    pub play_delay_max: Option<u16>,
    /// What the video shows.
    pub video_content_type: Option<u8>,
    /// When the frame was captured: NTP time, in seconds with 32 bits before and 32 after the point.
    pub capture_time: Option<u64>,
    /// How far the sender's clock is ahead of the capturer's, in seconds with 32 bits after the point; it is carried
    /// only with `capture_time`.
    pub clock_offset: Option<i64>,
}

impl Values {
    pub(crate) fn given(&self) -> sys::Values {
        sys::Values {
            has_audio_level: self.audio_level.is_some(),
            audio_level: self.audio_level.unwrap_or_default(),
            has_voice_activity: self.voice_activity.is_some(),
            voice_activity: self.voice_activity.unwrap_or_default(),
            has_abs_send_time: self.abs_send_time.is_some(),
            abs_send_time: self.abs_send_time.unwrap_or_default(),
            has_transport_cc: self.transport_cc.is_some(),
            transport_cc: self.transport_cc.unwrap_or_default(),
            has_video_orientation: self.video_orientation.is_some(),
            video_orientation: self.video_orientation.unwrap_or_default(),
            has_play_delay_min: self.play_delay_min.is_some(),
            play_delay_min: self.play_delay_min.unwrap_or_default(),
            has_play_delay_max: self.play_delay_max.is_some(),
            play_delay_max: self.play_delay_max.unwrap_or_default(),
            has_video_content_type: self.video_content_type.is_some(),
            video_content_type: self.video_content_type.unwrap_or_default(),
            has_capture_time: self.capture_time.is_some(),
            capture_time: self.capture_time.unwrap_or_default(),
            has_clock_offset: self.clock_offset.is_some(),
            clock_offset: self.clock_offset.unwrap_or_default(),
        }
    }

    pub(crate) fn of(told: &sys::Values) -> Values {
        Values {
            audio_level: told.has_audio_level.then_some(told.audio_level),
            voice_activity: told.has_voice_activity.then_some(told.voice_activity),
            abs_send_time: told.has_abs_send_time.then_some(told.abs_send_time),
            transport_cc: told.has_transport_cc.then_some(told.transport_cc),
            video_orientation: told.has_video_orientation.then_some(told.video_orientation),
            play_delay_min: told.has_play_delay_min.then_some(told.play_delay_min),
            play_delay_max: told.has_play_delay_max.then_some(told.play_delay_max),
            video_content_type: told.has_video_content_type.then_some(told.video_content_type),
            capture_time: told.has_capture_time.then_some(told.capture_time),
            clock_offset: told.has_clock_offset.then_some(told.clock_offset),
        }
    }
}

/// The ids of header extensions (RFC 8285), 1 to 16; 0 for one that has none. Of two with one id the later one has it.
///
/// ```
/// use jilqamur::ExtensionIds;
/// let datagram = [
///     0x90, 111, 0, 7, 0, 0, 3, 0xc0, 0, 0, 0, 44, // the header, and then its extensions
///     0xbe, 0xde, 0, 2, 0x10, 0x9e, 0x31, b'a', b'v', 0x50, b'h', 0,
/// ];
/// let ids = ExtensionIds { audio_level: 1, mid: 3, ..ExtensionIds::default() };
/// let (values, names) = ids.read(&datagram)?;
/// assert_eq!((values.audio_level, names.mid.as_deref()), (Some(-30), Some("av")));
/// # Ok::<(), jilqamur::Error>(())
/// ```
#[repr(C)]
#[derive(Clone, Copy, Debug, Default, PartialEq, Eq)]
pub struct ExtensionIds {
    /// The audio level and voice activity: `urn:ietf:params:rtp-hdrext:ssrc-audio-level`.
    pub audio_level: u8,
    /// `http://www.webrtc.org/experiments/rtp-hdrext/abs-send-time`.
    pub abs_send_time: u8,
    /// `http://www.ietf.org/id/draft-holmer-rmcat-transport-wide-cc-extensions-01`.
    pub transport_cc: u8,
    /// `urn:3gpp:video-orientation`.
    pub video_orientation: u8,
    /// `http://www.webrtc.org/experiments/rtp-hdrext/playout-delay`.
    pub play_delay: u8,
    /// `http://www.webrtc.org/experiments/rtp-hdrext/video-content-type`.
    pub video_content_type: u8,
    /// `http://www.webrtc.org/experiments/rtp-hdrext/abs-capture-time`.
    pub capture_time: u8,
    /// The section's mid: `urn:ietf:params:rtp-hdrext:sdes:mid`.
    pub mid: u8,
    /// The stream's id: `urn:ietf:params:rtp-hdrext:sdes:rtp-stream-id`.
    pub rid: u8,
    /// That of a stream that is repaired: `urn:ietf:params:rtp-hdrext:sdes:repaired-rtp-stream-id`.
    pub repaired_rid: u8,
}

/// The names of section and stream that a datagram carries.
///
/// ```
/// use jilqamur::ExtensionIds;
/// # let datagram = [
/// #     0x90, 111, 0, 7, 0, 0, 3, 0xc0, 0, 0, 0, 44, // the header, and then its extensions
/// #     0xbe, 0xde, 0, 2, 0x10, 0x9e, 0x31, b'a', b'v', 0x50, b'h', 0,
/// # ];
/// let (_, names) = ExtensionIds { mid: 3, rid: 5, ..ExtensionIds::default() }.read(&datagram)?;
/// assert_eq!((names.mid.as_deref(), names.rid.as_deref()), (Some("av"), Some("h")));
/// # Ok::<(), jilqamur::Error>(())
/// ```
#[derive(Clone, Debug, Default, PartialEq, Eq)]
pub struct Names {
    /// The mid (RFC 9143 15).
    pub mid: Option<String>,
    /// The RID (RFC 8852 4.1).
    pub rid: Option<String>,
    /// The RID of a stream that is repaired (RFC 8852 4.2).
    pub repaired_rid: Option<String>,
}

fn name(has: bool, bytes: &[u8], len: u8) -> Option<String> {
    has.then(|| String::from_utf8_lossy(&bytes[..usize::from(len)]).into_owned())
}

impl ExtensionIds {
    /// The values of the header extensions of a datagram, read by these ids, and the names of its section and
    /// stream.
    ///
    /// # Errors
    /// `OutOfRange` if an id is above 16, or `Unreadable`.
    pub fn read(&self, datagram: &[u8]) -> Result<(Values, Names), Error> {
        let (mut values, mut names) = (sys::Values::default(), sys::Names::default());
        // SAFETY: pointer and length are those of one slice, and what is written are places of their own.
        let answer =
            unsafe { sys::jilqamur_header_values(datagram.as_ptr(), datagram.len(), self, &mut values, &mut names) };
        match answer {
            code::OK => {
                let names = Names {
                    mid: name(names.has_mid, &names.mid, names.mid_len),
                    rid: name(names.has_rid, &names.rid, names.rid_len),
                    repaired_rid: name(names.has_repaired_rid, &names.repaired_rid, names.repaired_rid_len),
                };
                Ok((Values::of(&values), names))
            }
            code::OUT_OF_RANGE => Err(Error::OutOfRange),
            _ => Err(Error::Unreadable),
        }
    }
}
