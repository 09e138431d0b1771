//! Packetizers and depacketizers that go by a codec's name.

use crate::datagrams::fetched;
use crate::error::code;
use crate::streams::Format;
use crate::sys;
use crate::units::{Unit, handed_out};
use std::fmt;

/// Why a packetizer or a depacketizer refuses, by the number that `jilqamur.h` gives it.
///
/// ```
/// use jilqamur::{Fault, Format, Packetizer, PacketizerParams};
/// let refused = Packetizer::new("nothing", Format::new(90_000), PacketizerParams::new()).expect_err("no such codec");
/// assert_eq!(refused, Fault::OutOfRange);
/// ```
#[derive(Clone, Copy, Debug, PartialEq, Eq)]
#[non_exhaustive]
pub enum Fault {
    /// Out of memory.
    Memory,
    /// A number is off its range, or no payload format has this name.
    OutOfRange,
    /// The packet has fewer bytes than its format needs.
    PacketTooShort,
    /// The sample can't be cut, and passes the limit.
    SampleTooLarge,
    /// A VP9 descriptor lists a fourth reference (RFC 9628 4.2).
    TooManyReferences,
    /// An H.265 packet breaks its format (RFC 7798 4.4).
    H265Corrupted,
    /// An H.266 packet breaks its format (RFC 9328 4.3).
    H266Corrupted,
    /// An aggregated unit passes the end of its packet (RFC 6184 5.7.1).
    AggregateCutShort,
    /// No packet of this unit type is read (RFC 6184 5.2).
    UnitTypeNotHandled,
    /// A VP8 descriptor breaks its format (RFC 7741 4.2).
    Vp8Corrupted,
    /// A VP9 descriptor breaks its format (RFC 9628 4.2).
    Vp9Corrupted,
    /// An AV1 packet breaks its format.
    Av1Corrupted,
    /// A redundant payload breaks its format (RFC 2198 3).
    RedCorrupted,
    /// Reports of telephone events are no nonempty multiple of four bytes (RFC 4733 2.3).
    EventInvalid,
    /// An AMR-WB packet or sample breaks its format (RFC 4867 4.3).
    AmrWbCorrupted,
}

/// Each fault with its number and what it means.
const FAULTS: [(u32, Fault, &str); 15] = [
    (code::MEMORY, Fault::Memory, "out of memory"),
    (code::OUT_OF_RANGE, Fault::OutOfRange, "a number is out of range"),
    (code::PACKET_TOO_SHORT, Fault::PacketTooShort, "the packet is too short"),
    (code::SAMPLE_TOO_LARGE, Fault::SampleTooLarge, "the sample is larger than the limit"),
    (code::TOO_MANY_REFERENCES, Fault::TooManyReferences, "too many references"),
    (code::H265_CORRUPTED, Fault::H265Corrupted, "corrupted H.265 packet"),
    (code::H266_CORRUPTED, Fault::H266Corrupted, "corrupted H.266 packet"),
    (code::AGGREGATE_CUT_SHORT, Fault::AggregateCutShort, "an aggregated unit passes the end of its packet"),
    (code::UNIT_TYPE_NOT_HANDLED, Fault::UnitTypeNotHandled, "a unit of this type is not handled"),
    (code::VP8_CORRUPTED, Fault::Vp8Corrupted, "corrupted VP8 packet"),
    (code::VP9_CORRUPTED, Fault::Vp9Corrupted, "corrupted VP9 packet"),
    (code::AV1_CORRUPTED, Fault::Av1Corrupted, "corrupted AV1 packet"),
    (code::RED_CORRUPTED, Fault::RedCorrupted, "corrupted redundant packet"),
    (code::EVENT_INVALID, Fault::EventInvalid, "invalid telephone event"),
    (code::AMR_WB_CORRUPTED, Fault::AmrWbCorrupted, "corrupted AMR-WB packet"),
];

impl Fault {
    fn of(answer: u32) -> Fault {
        match FAULTS.iter().find(|(number, ..)| *number == answer) {
            Some((_, fault, _)) => *fault,
            None => unreachable!("the library answers {answer}"),
        }
    }
}

impl fmt::Display for Fault {
    fn fmt(&self, f: &mut fmt::Formatter<'_>) -> fmt::Result {
        let text = FAULTS.iter().find(|(_, fault, _)| fault == self).map_or("", |(.., text)| text);
        f.write_str(text)
    }
}

impl std::error::Error for Fault {}

fn done(answer: u32) -> Result<(), Fault> {
    if answer == code::OK { Ok(()) } else { Err(Fault::of(answer)) }
}

/// How a packetizer counts pictures, and which forms it writes.
///
/// ```
/// use jilqamur::{Format, Packetizer, PacketizerParams};
/// let params = PacketizerParams::new().with_picture_id(1).for_browsers();
/// Packetizer::new("VP8", Format::new(90_000), params)?;
/// # Ok::<(), jilqamur::Fault>(())
/// ```
#[repr(C)]
#[derive(Clone, Copy, Debug, Default, PartialEq, Eq)]
pub struct PacketizerParams {
    has_picture_id: bool,
    picture_id: u16,
    for_browsers: bool,
}

impl PacketizerParams {
    /// Without picture ids in VP8 and from 0 on in VP9, in the plain forms.
    #[must_use]
    pub fn new() -> PacketizerParams {
        PacketizerParams::default()
    }

    /// With the pictures of VP8 and VP9 counted from this id, at most 32,767.
    #[must_use]
    pub fn with_picture_id(self, picture_id: u16) -> PacketizerParams {
        PacketizerParams { has_picture_id: true, picture_id, ..self }
    }

    /// With VP8's picture id 0 written, and with VP9's packets telling which frames are predicted.
    #[must_use]
    pub fn for_browsers(self) -> PacketizerParams {
        PacketizerParams { for_browsers: true, ..self }
    }
}

/// A payload, and the marker of its RTP header.
///
/// ```
/// use jilqamur::{Format, Packet, Packetizer, PacketizerParams};
/// let mut packetizer = Packetizer::new("VP8", Format::new(90_000), PacketizerParams::new())?;
/// let packets: Vec<Packet> = packetizer.packetize(1200, &[0x10; 2000])?.collect();
/// assert!(!packets[0].marker && packets[1].marker); // the last one ends the frame
/// # Ok::<(), jilqamur::Fault>(())
/// ```
#[derive(Clone, Debug, PartialEq, Eq)]
pub struct Packet {
    /// The payload.
    pub payload: Vec<u8>,
    /// The marker bit.
    pub marker: bool,
}

/// A packetizer.
///
/// ```
/// use jilqamur::{Format, Packet, Packetizer, PacketizerParams};
/// let mut packetizer = Packetizer::new("VP8", Format::new(90_000), PacketizerParams::new())?;
/// let packets: Vec<Packet> = packetizer.packetize(1200, &[0x10; 2000])?.collect();
/// assert_eq!(packets.len(), 2);
/// # Ok::<(), jilqamur::Fault>(())
/// ```
#[derive(Debug)]
pub struct Packetizer(sys::Handle);

impl Packetizer {
    /// A packetizer of the codec of this name that cut nothing.
    ///
    /// # Errors
    /// `OutOfRange` or `Memory`.
    pub fn new(codec: &str, format: Format, params: PacketizerParams) -> Result<Packetizer, Fault> {
        let packetizer = sys::Handle::closed();
        // SAFETY: the handle is closed, and pointer and length are those of one slice.
        done(unsafe {
            sys::jilqamur_packetizer_open(packetizer.raw(), &params, &format, codec.as_ptr(), codec.len())
        })?;
        Ok(Packetizer(packetizer))
    }

    /// The payloads of a sample, each of at most `mtu` bytes, one after the other.
    ///
    /// # Errors
    /// `OutOfRange` for an `mtu` of 0, why the codec refuses the sample, or `Memory`; nothing has changed.
    pub fn packetize(&mut self, mtu: usize, sample: &[u8]) -> Result<impl Iterator<Item = Packet> + '_, Fault> {
        if mtu == 0 {
            return Err(Fault::OutOfRange);
        }
        let mut count = 0;
        // SAFETY: the handle is open, and pointer and length are those of one slice.
        done(unsafe {
            sys::jilqamur_packetizer_packetize(self.0.raw(), mtu, sample.as_ptr(), sample.len(), &mut count)
        })?;
        Ok((0..count).map(|index| self.packet(index)))
    }

    fn packet(&self, index: usize) -> Packet {
        let mut marker = false;
        let payload = fetched(|buffer, len, needed| {
            // SAFETY: the handle is open, and what is written are places of their own.
            unsafe { sys::jilqamur_packetizer_packet(self.0.raw(), index, buffer, len, needed, &mut marker) }
        });
        Packet { payload, marker }
    }
}

impl Drop for Packetizer {
    fn drop(&mut self) {
        // SAFETY: the handle is open, and is not used again.
        unsafe { sys::jilqamur_packetizer_close(self.0.raw()) };
    }
}

/// A depacketizer after a buffer that puts packets in order.
///
/// ```
/// use jilqamur::{Depacketizer, Format, MIN_HELD, Packet, Packetizer, PacketizerParams};
/// let mut packetizer = Packetizer::new("VP8", Format::new(90_000), PacketizerParams::new())?;
/// let packets: Vec<Packet> = packetizer.packetize(1200, &[0x10; 2000])?.collect();
/// let mut depacketizer = Depacketizer::new("VP8", Format::new(90_000), 15, MIN_HELD)?;
/// for (number, packet) in (70_000..).zip(&packets) {
///     depacketizer.push(number, 3000, packet.marker, &packet.payload)?;
/// }
/// assert_eq!(depacketizer.pop()?.expect("a frame").bytes, [0x10; 2000]);
/// # Ok::<(), jilqamur::Fault>(())
/// ```
#[derive(Debug)]
pub struct Depacketizer(sys::Handle);

impl Depacketizer {
    /// A depacketizer of the codec of this name that took nothing. Past a missing packet a unit is handed out only once
    /// more than `hold_back` frames are complete. At most `held` packets wait, [`MIN_HELD`](crate::MIN_HELD) to
    /// [`MAX_HELD`](crate::MAX_HELD).
    ///
    /// # Errors
    /// `OutOfRange` or `Memory`.
    pub fn new(codec: &str, format: Format, hold_back: usize, held: usize) -> Result<Depacketizer, Fault> {
        let depacketizer = sys::Handle::closed();
        // SAFETY: the handle is closed, and pointer and length are those of one slice.
        done(unsafe {
            sys::jilqamur_depacketizer_open(depacketizer.raw(), &format, codec.as_ptr(), codec.len(), hold_back, held)
        })?;
        Ok(Depacketizer(depacketizer))
    }

    /// Takes a packet in, by its widened sequence number, its timestamp, its marker and its payload without padding.
    /// One whose number is held, or at or below that of the last unit, is passed over.
    ///
    /// # Errors
    /// `Memory`; nothing has changed.
    pub fn push(&mut self, number: u64, timestamp: u32, marker: bool, payload: &[u8]) -> Result<(), Fault> {
        // SAFETY: the handle is open, and pointer and length are those of one slice.
        done(unsafe {
            sys::jilqamur_depacketizer_push(self.0.raw(), number, timestamp, marker, payload.as_ptr(), payload.len())
        })
    }

    /// The next unit, if one is due.
    ///
    /// # Errors
    /// Why a packet of the next frame is refused, and the frame is then passed over; or `Memory`, and it stays.
    pub fn pop(&mut self) -> Result<Option<Unit>, Fault> {
        // SAFETY: the handle is open.
        let answer = unsafe { sys::jilqamur_depacketizer_pop(self.0.raw()) };
        handed_out(&self.0, answer, done, sys::jilqamur_depacketizer_unit)
    }

    /// The same, whether or not a packet before the lowest complete unit is missing: for the end of a stream.
    ///
    /// # Errors
    /// As [`Depacketizer::pop`].
    pub fn drain(&mut self) -> Result<Option<Unit>, Fault> {
        // SAFETY: the handle is open.
        let answer = unsafe { sys::jilqamur_depacketizer_drain(self.0.raw()) };
        handed_out(&self.0, answer, done, sys::jilqamur_depacketizer_unit)
    }

    /// All units that are due, and faults between them.
    pub fn units(&mut self) -> impl Iterator<Item = Result<Unit, Fault>> + '_ {
        let mut is_over = false;
        std::iter::from_fn(move || {
            if is_over {
                return None;
            }
            let unit = self.pop().transpose();
            is_over = matches!(unit, None | Some(Err(Fault::Memory)));
            unit
        })
    }
}

impl Drop for Depacketizer {
    fn drop(&mut self) {
        // SAFETY: the handle is open, and is not used again.
        unsafe { sys::jilqamur_depacketizer_close(self.0.raw()) };
    }
}
