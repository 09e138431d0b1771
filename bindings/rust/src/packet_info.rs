//! What a packet says of its frame.

use crate::refused::{EndError, done};
use crate::sys;

/// What a packet says of its frame, without the frame being put together.
///
/// ```
/// use jilqamur::PacketInfo;
/// // VP8: a descriptor with TID 2, in front of the first byte of a key frame
/// let info = PacketInfo::of("VP8", &[0x90, 0x20, 0x80, 0x10], true)?;
/// assert!(info.is_head && info.is_tail && info.shows_key_frame);
/// assert_eq!(info.temporal_layer, Some(2));
/// # Ok::<(), jilqamur::EndError>(())
/// ```
#[derive(Clone, Copy, Debug, PartialEq, Eq)]
pub struct PacketInfo {
    /// Whether a frame can begin with it. A packet of H.264, H.265 or H.266 begins a NAL unit: it begins a frame if the
    /// packet before it ended one.
    pub is_head: bool,
    /// Whether a frame ends with it.
    pub is_tail: bool,
    /// Whether it shows that its frame is a key frame: of VP8 and AV1 its first packet, of VP9 each one, of H.264,
    /// H.265 and H.266 those that show a slice of the picture. Audio has no key frames.
    pub shows_key_frame: bool,
    /// The spatial layer, from 0, if it is told.
    pub spatial_layer: Option<u8>,
    /// The temporal layer, from 0, if it is told.
    pub temporal_layer: Option<u8>,
}

impl PacketInfo {
    /// What a packet of the codec of this name, with this payload, without padding, and marker bit says of its frame.
    ///
    /// # Errors
    /// `OutOfRange` for a name of no codec with a payload format.
    pub fn of(codec: &str, payload: &[u8], marker: bool) -> Result<PacketInfo, EndError> {
        let mut told = sys::PacketInfo::default();
        // SAFETY: pointers and lengths are those of one text or slice each, and what is written is a place of its own.
        done(unsafe {
            sys::jilqamur_payload_info(codec.as_ptr(), codec.len(), payload.as_ptr(), payload.len(), marker, &mut told)
        })?;
        Ok(PacketInfo {
            is_head: told.is_head,
            is_tail: told.is_tail,
            shows_key_frame: told.shows_key_frame,
            spatial_layer: told.has_spatial_layer.then_some(told.spatial_layer),
            temporal_layer: told.has_temporal_layer.then_some(told.temporal_layer),
        })
    }
}
