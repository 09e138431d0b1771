//! Units, as polls hand them out.

use crate::datagrams::{fetched, fetched_into};
use crate::error::code;
use crate::sys;
use std::mem;
use std::time::Duration;

/// One report of a telephone event (RFC 4733 2.3).
///
/// ```
/// use jilqamur::{Format, MIN_HELD, Receiver, TelephoneEvent};
/// use std::time::Duration;
/// let mut receiver = Receiver::new("telephone-event", Format::new(8000), 0, MIN_HELD)?;
/// receiver.push(1, 160, true, &[5, 0x8a, 3, 0x20])?;
/// let event = TelephoneEvent { event: 5, end: true, volume: 10, duration: Duration::from_millis(100) };
/// assert_eq!(receiver.poll()?.expect("a unit").event, Some(event));
/// # Ok::<(), jilqamur::EndError>(())
/// ```
#[derive(Clone, Copy, Debug, PartialEq, Eq)]
pub struct TelephoneEvent {
    /// The event: 0 to 15 are the keys 0 to 9, *, #, A to D.
    pub event: u8,
    /// Whether it has ended.
    pub end: bool,
    /// The power of the tone below 0 dBm0, in dB, 0 to 63.
    pub volume: u8,
    /// How long it has lasted.
    pub duration: Duration,
}

/// A video frame or an audio packet.
///
/// ```
/// use jilqamur::{Format, MIN_HELD, Receiver, Unit};
/// let mut receiver = Receiver::new("opus", Format::new(48_000), 2, MIN_HELD)?;
/// receiver.push(7, 960, true, &[1, 2, 3])?;
/// let Unit { first, last, time, bytes, .. } = receiver.poll()?.expect("a unit");
/// assert_eq!((first, last, time, bytes), (7, 7, 960, vec![1, 2, 3]));
/// # Ok::<(), jilqamur::EndError>(())
/// ```
#[derive(Clone, Debug, Default, PartialEq, Eq)]
pub struct Unit {
    /// The widened sequence number of its first datagram.
    pub first: u64,
    /// That of its last datagram.
    pub last: u64,
    /// The RTP timestamp, in ticks of the row's clock, of G.722 at 8,000 Hz.
    pub time: u32,
    /// Whether the codec says that it is a keyframe; VP9 and audio never do.
    pub is_keyframe: bool,
    /// The picture id, of 7 or 15 bits, if VP8 or VP9 gives one (RFC 7741 4.2, RFC 9628 4.2).
    pub picture_id: Option<u16>,
    /// The index of the temporal base layer frame, TL0PICIDX, if VP8 gives one (RFC 7741 4.2).
    pub base_layer: Option<u8>,
    /// The first report of a packet of telephone events (RFC 4733 2.3).
    pub event: Option<TelephoneEvent>,
    /// The bytes.
    pub bytes: Vec<u8>,
}

impl Unit {
    pub(crate) fn of(told: sys::Unit, bytes: Vec<u8>) -> Unit {
        Unit {
            first: told.first,
            last: told.last,
            time: told.time,
            is_keyframe: told.is_keyframe,
            picture_id: told.has_picture_id.then_some(told.picture_id),
            base_layer: told.has_base_layer.then_some(told.base_layer),
            event: told.has_event.then_some(TelephoneEvent {
                event: told.event,
                end: told.event_end,
                volume: told.event_volume,
                duration: Duration::from_nanos(told.event_duration),
            }),
            bytes,
        }
    }
}

/// Copies the bytes of the unit that a handle keeps, and tells the rest of it.
type CopyUnit = unsafe extern "C" fn(*mut sys::RawHandle, *mut u8, usize, *mut usize, *mut sys::Unit) -> u32;

/// What a poll of an open handle handed out, by its answer.
pub(crate) fn handed_out<E>(
    handle: &sys::Handle,
    answer: u32,
    done: impl FnOnce(u32) -> Result<(), E>,
    copy: CopyUnit,
) -> Result<Option<Unit>, E> {
    if answer == code::NOTHING {
        return Ok(None);
    }
    done(answer)?;
    let mut told = sys::Unit::default();
    let bytes = fetched(|buffer, len, needed| {
        // SAFETY: the handle is open, and what is written are places of their own.
        unsafe { copy(handle.raw(), buffer, len, needed, &mut told) }
    });
    Ok(Some(Unit::of(told, bytes)))
}

/// The same in place of a unit, whose memory is used again; false if none was handed out.
pub(crate) fn handed_out_into<E>(
    handle: &sys::Handle,
    answer: u32,
    done: impl FnOnce(u32) -> Result<(), E>,
    copy: CopyUnit,
    unit: &mut Unit,
) -> Result<bool, E> {
    if answer == code::NOTHING {
        return Ok(false);
    }
    done(answer)?;
    let (mut told, mut bytes) = (sys::Unit::default(), mem::take(&mut unit.bytes));
    fetched_into(&mut bytes, |buffer, len, needed| {
        // SAFETY: the handle is open, and what is written are places of their own.
        unsafe { copy(handle.raw(), buffer, len, needed, &mut told) }
    });
    *unit = Unit::of(told, bytes);
    Ok(true)
}
