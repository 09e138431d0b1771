//! The exports, as `jilqamur.h` declares them.

use crate::Header;
use crate::forwarding::Placed;
use crate::params::{Row, StreamParams};
use crate::payloads::PacketizerParams;
use crate::streams::{Format, SenderParams};
use crate::values::ExtensionIds;
use std::cell::UnsafeCell;
use std::fmt;
use std::ptr;

/// A handle of any kind, as the library has it. All bytes of one that is closed may be 0.
#[repr(C)]
pub(crate) struct RawHandle {
    full: bool,
    place: *mut u8,
}

/// A handle of any kind. The cell keeps it from being shared between threads, and lets calls that change nothing take
/// `&self`.
pub(crate) struct Handle(UnsafeCell<RawHandle>);

impl Handle {
    /// One that is closed.
    pub(crate) fn closed() -> Handle {
        Handle(UnsafeCell::new(RawHandle { full: false, place: ptr::null_mut() }))
    }

    pub(crate) fn raw(&self) -> *mut RawHandle {
        self.0.get()
    }
}

impl fmt::Debug for Handle {
    fn fmt(&self, f: &mut fmt::Formatter<'_>) -> fmt::Result {
        f.write_str("..")
    }
}

// SAFETY: what a handle holds is memory of malloc and nothing else, and is tied to no thread. It isn't `Sync`, so that
// no two calls of one handle overlap.
unsafe impl Send for Handle {}

/// What is told of an agreed section beside its name.
#[repr(C)]
#[derive(Default)]
pub(crate) struct AgreedParts {
    pub(crate) is_video: bool,
    pub(crate) sends: bool,
    pub(crate) receives: bool,
    pub(crate) rows: usize,
    pub(crate) ssrcs: usize,
}

/// What a browser's last text tells of its transport, beside texts.
#[repr(C)]
#[derive(Default)]
pub(crate) struct RemoteParts {
    pub(crate) has_setup: bool,
    pub(crate) setup: u8,
    pub(crate) has_own_setup: bool,
    pub(crate) own_setup: u8,
    pub(crate) is_trickling: bool,
    pub(crate) is_lite: bool,
    pub(crate) candidates: usize,
}

#[repr(C)]
#[derive(Default)]
pub(crate) struct Unit {
    pub(crate) first: u64,
    pub(crate) last: u64,
    pub(crate) time: u32,
    pub(crate) is_keyframe: bool,
    pub(crate) has_picture_id: bool,
    pub(crate) picture_id: u16,
    pub(crate) has_base_layer: bool,
    pub(crate) base_layer: u8,
    pub(crate) has_event: bool,
    pub(crate) event: u8,
    pub(crate) event_end: bool,
    pub(crate) event_volume: u8,
    pub(crate) event_duration: u64,
}

#[repr(C)]
#[derive(Default)]
pub(crate) struct Values {
    pub(crate) has_audio_level: bool,
    pub(crate) audio_level: i8,
    pub(crate) has_voice_activity: bool,
    pub(crate) voice_activity: bool,
    pub(crate) has_abs_send_time: bool,
    pub(crate) abs_send_time: u64,
    pub(crate) has_transport_cc: bool,
    pub(crate) transport_cc: u16,
    pub(crate) has_video_orientation: bool,
    pub(crate) video_orientation: u8,
    pub(crate) has_play_delay_min: bool,
    pub(crate) play_delay_min: u16,
    pub(crate) has_play_delay_max: bool,
    pub(crate) play_delay_max: u16,
    pub(crate) has_video_content_type: bool,
    pub(crate) video_content_type: u8,
    pub(crate) has_capture_time: bool,
    pub(crate) capture_time: u64,
    pub(crate) has_clock_offset: bool,
    pub(crate) clock_offset: i64,
}

/// What a packet says of its frame.
#[repr(C)]
#[derive(Default)]
pub(crate) struct PacketInfo {
    pub(crate) is_head: bool,
    pub(crate) is_tail: bool,
    pub(crate) shows_key_frame: bool,
    pub(crate) has_spatial_layer: bool,
    pub(crate) spatial_layer: u8,
    pub(crate) has_temporal_layer: bool,
    pub(crate) temporal_layer: u8,
}

/// How a datagram arrives at a receiving stream.
#[repr(C)]
#[derive(Default)]
pub(crate) struct Arrival {
    pub(crate) low: u16,
    pub(crate) timestamp: u32,
    pub(crate) marker: bool,
    pub(crate) start: usize,
    pub(crate) end: usize,
}

/// The names of section and stream that a datagram carries.
#[repr(C)]
#[derive(Default)]
pub(crate) struct Names {
    pub(crate) has_mid: bool,
    pub(crate) mid_len: u8,
    pub(crate) mid: [u8; 16],
    pub(crate) has_rid: bool,
    pub(crate) rid_len: u8,
    pub(crate) rid: [u8; 8],
    pub(crate) has_repaired_rid: bool,
    pub(crate) repaired_rid_len: u8,
    pub(crate) repaired_rid: [u8; 8],
}

unsafe extern "C" {
    pub(crate) fn jilqamur_header_values(
        datagram: *const u8,
        len: usize,
        ids: *const ExtensionIds,
        values: *mut Values,
        names: *mut Names,
    ) -> u32;
    pub(crate) fn jilqamur_end_arrival(
        end: *mut RawHandle,
        datagram: *const u8,
        len: usize,
        stream: *mut usize,
        arrival: *mut Arrival,
        values: *mut Values,
    ) -> u32;
    pub(crate) fn jilqamur_end_take_number(end: *mut RawHandle, stream: usize, low: u16, number: *mut u64) -> u32;
    pub(crate) fn jilqamur_end_send_packet(
        end: *mut RawHandle,
        stream: usize,
        number: u64,
        timestamp: u32,
        marker: bool,
        values: *const Values,
        mid: *const u8,
        mid_len: usize,
        payload: *const u8,
        payload_len: usize,
    ) -> u32;
    pub(crate) fn jilqamur_end_missing(
        end: *mut RawHandle,
        stream: usize,
        numbers: *mut u64,
        len: usize,
        needed: *mut usize,
    ) -> u32;
    pub(crate) fn jilqamur_end_is_passed(end: *mut RawHandle, stream: usize, number: u64) -> u32;
    pub(crate) fn jilqamur_end_pass_to(end: *mut RawHandle, stream: usize, number: u64) -> u32;
    pub(crate) fn jilqamur_end_pass_empty(end: *mut RawHandle, stream: usize, number: u64) -> u32;
    pub(crate) fn jilqamur_end_keep_within(end: *mut RawHandle, stream: usize, bytes: usize) -> u32;
    pub(crate) fn jilqamur_end_next_number(end: *mut RawHandle, stream: usize, next: *mut u64) -> u32;
    pub(crate) fn jilqamur_end_skip_to(end: *mut RawHandle, stream: usize, number: u64) -> u32;
    pub(crate) fn jilqamur_end_close_sender(end: *mut RawHandle, stream: usize) -> u32;
    pub(crate) fn jilqamur_end_close_receiver(end: *mut RawHandle, stream: usize) -> u32;
    pub(crate) fn jilqamur_version() -> u32;
    pub(crate) fn jilqamur_forwarder_open(forwarder: *mut RawHandle, first: u64) -> u32;
    pub(crate) fn jilqamur_forwarder_close(forwarder: *mut RawHandle) -> u32;
    pub(crate) fn jilqamur_forwarder_switch(
        forwarder: *mut RawHandle,
        source: u64,
        number: u64,
        timestamp: u32,
        at: u32,
    ) -> u32;
    pub(crate) fn jilqamur_forwarder_skip_to(forwarder: *mut RawHandle, number: u64) -> u32;
    pub(crate) fn jilqamur_forwarder_end_at(forwarder: *mut RawHandle, number: u64) -> u32;
    pub(crate) fn jilqamur_forwarder_place(
        forwarder: *mut RawHandle,
        source: u64,
        number: u64,
        timestamp: u32,
        placed: *mut Placed,
    ) -> u32;
    pub(crate) fn jilqamur_forwarder_forward(
        forwarder: *mut RawHandle,
        source: u64,
        number: u64,
        timestamp: u32,
        ends: bool,
        placed: *mut Placed,
    ) -> u32;
    pub(crate) fn jilqamur_forwarder_pass_empty(forwarder: *mut RawHandle, source: u64, number: u64) -> u32;
    pub(crate) fn jilqamur_forwarder_next(forwarder: *mut RawHandle, next: *mut u64) -> u32;
    pub(crate) fn jilqamur_history_open(history: *mut RawHandle, most: u32, most_bytes: u32) -> u32;
    pub(crate) fn jilqamur_history_close(history: *mut RawHandle) -> u32;
    pub(crate) fn jilqamur_history_keep(
        history: *mut RawHandle,
        number: u64,
        datagram: *const u8,
        datagram_len: usize,
    ) -> u32;
    pub(crate) fn jilqamur_history_asked(
        history: *mut RawHandle,
        low: u16,
        buffer: *mut u8,
        len: usize,
        needed: *mut usize,
    ) -> u32;
    pub(crate) fn jilqamur_requester_open(requester: *mut RawHandle, most: u32, delay: u64) -> u32;
    pub(crate) fn jilqamur_requester_close(requester: *mut RawHandle) -> u32;
    pub(crate) fn jilqamur_requester_ask(
        requester: *mut RawHandle,
        missing: *const u64,
        missing_len: usize,
        now: u64,
        round_trip: u64,
        numbers: *mut u64,
        len: usize,
        needed: *mut usize,
    ) -> u32;
    pub(crate) fn jilqamur_header_read(datagram: *const u8, len: usize, header: *mut Header) -> u32;
    pub(crate) fn jilqamur_header_write(header: *const Header, buffer: *mut u8, len: usize, needed: *mut usize) -> u32;
    pub(crate) fn jilqamur_payload_unpad(
        has_padding: bool,
        payload: *const u8,
        len: usize,
        unpadded: *mut usize,
    ) -> u32;
    pub(crate) fn jilqamur_payload_info(
        codec: *const u8,
        codec_len: usize,
        payload: *const u8,
        len: usize,
        marker: bool,
        info: *mut PacketInfo,
    ) -> u32;
    pub(crate) fn jilqamur_faulty_line(
        text: *const u8,
        text_len: usize,
        buffer: *mut u8,
        len: usize,
        needed: *mut usize,
        number: *mut usize,
        fault: *mut u32,
    ) -> u32;
    pub(crate) fn jilqamur_number_widen(previous: u64, low: u16) -> u64;
    pub(crate) fn jilqamur_window_open(window: *mut RawHandle) -> u32;
    pub(crate) fn jilqamur_window_receive(
        window: *mut RawHandle,
        datagram: *const u8,
        len: usize,
        number: *mut u64,
    ) -> u32;
    pub(crate) fn jilqamur_window_close(window: *mut RawHandle) -> u32;
    pub(crate) fn jilqamur_packetizer_open(
        packetizer: *mut RawHandle,
        params: *const PacketizerParams,
        format: *const Format,
        codec: *const u8,
        codec_len: usize,
    ) -> u32;
    pub(crate) fn jilqamur_packetizer_close(packetizer: *mut RawHandle) -> u32;
    pub(crate) fn jilqamur_packetizer_packetize(
        packetizer: *mut RawHandle,
        mtu: usize,
        sample: *const u8,
        len: usize,
        count: *mut usize,
    ) -> u32;
    pub(crate) fn jilqamur_packetizer_packet(
        packetizer: *mut RawHandle,
        index: usize,
        buffer: *mut u8,
        len: usize,
        needed: *mut usize,
        marker: *mut bool,
    ) -> u32;
    pub(crate) fn jilqamur_depacketizer_open(
        depacketizer: *mut RawHandle,
        format: *const Format,
        codec: *const u8,
        codec_len: usize,
        hold_back: usize,
        held: usize,
    ) -> u32;
    pub(crate) fn jilqamur_depacketizer_close(depacketizer: *mut RawHandle) -> u32;
    pub(crate) fn jilqamur_depacketizer_push(
        depacketizer: *mut RawHandle,
        number: u64,
        timestamp: u32,
        marker: bool,
        payload: *const u8,
        len: usize,
    ) -> u32;
    pub(crate) fn jilqamur_depacketizer_pop(depacketizer: *mut RawHandle) -> u32;
    pub(crate) fn jilqamur_depacketizer_drain(depacketizer: *mut RawHandle) -> u32;
    pub(crate) fn jilqamur_depacketizer_unit(
        depacketizer: *mut RawHandle,
        buffer: *mut u8,
        len: usize,
        needed: *mut usize,
        unit: *mut Unit,
    ) -> u32;
    pub(crate) fn jilqamur_end_open(end: *mut RawHandle) -> u32;
    pub(crate) fn jilqamur_end_close(end: *mut RawHandle) -> u32;
    pub(crate) fn jilqamur_end_row(
        end: *mut RawHandle,
        row: *const Row,
        codec: *const u8,
        codec_len: usize,
        format: *const u8,
        format_len: usize,
    ) -> u32;
    pub(crate) fn jilqamur_end_default_rows(end: *mut RawHandle) -> u32;
    pub(crate) fn jilqamur_end_extension(end: *mut RawHandle, id: u8, uri: *const u8, len: usize) -> u32;
    pub(crate) fn jilqamur_end_make(end: *mut RawHandle, session: u64) -> u32;
    pub(crate) fn jilqamur_end_section_repair(end: *mut RawHandle, ssrc: u32, repair: u32) -> u32;
    pub(crate) fn jilqamur_end_section(
        end: *mut RawHandle,
        mid: *const u8,
        mid_len: usize,
        is_video: bool,
        sends: bool,
        receives: bool,
        ssrcs: *const u32,
        count: usize,
    ) -> u32;
    pub(crate) fn jilqamur_end_offer(end: *mut RawHandle) -> u32;
    pub(crate) fn jilqamur_end_answer(end: *mut RawHandle, offer: *const u8, len: usize) -> u32;
    pub(crate) fn jilqamur_end_accept(end: *mut RawHandle, answer: *const u8, len: usize) -> u32;
    pub(crate) fn jilqamur_end_take_types(end: *mut RawHandle, text: *const u8, len: usize) -> u32;
    pub(crate) fn jilqamur_end_withdraw(end: *mut RawHandle) -> u32;
    pub(crate) fn jilqamur_end_text(end: *mut RawHandle, buffer: *mut u8, len: usize, needed: *mut usize) -> u32;
    pub(crate) fn jilqamur_end_request(
        end: *mut RawHandle,
        is_accepted: bool,
        sends: bool,
        receives: bool,
        ssrcs: *const u32,
        count: usize,
    ) -> u32;
    pub(crate) fn jilqamur_end_answer_browser(end: *mut RawHandle, offer: *const u8, len: usize) -> u32;
    pub(crate) fn jilqamur_end_accept_browser(end: *mut RawHandle, answer: *const u8, len: usize) -> u32;
    pub(crate) fn jilqamur_end_for_browser(
        end: *mut RawHandle,
        text: *const u8,
        len: usize,
        setup: u8,
        is_lite: bool,
        ufrag: *const u8,
        ufrag_len: usize,
        password: *const u8,
        password_len: usize,
        hash: *const u8,
        hash_len: usize,
        digest: *const u8,
        digest_len: usize,
    ) -> u32;
    pub(crate) fn jilqamur_end_remote(end: *mut RawHandle, remote: *mut RemoteParts) -> u32;
    pub(crate) fn jilqamur_end_remote_text(
        end: *mut RawHandle,
        text: u8,
        buffer: *mut u8,
        len: usize,
        needed: *mut usize,
    ) -> u32;
    pub(crate) fn jilqamur_end_remote_candidate(
        end: *mut RawHandle,
        index: usize,
        buffer: *mut u8,
        len: usize,
        needed: *mut usize,
    ) -> u32;
    pub(crate) fn jilqamur_end_agreed_section(
        end: *mut RawHandle,
        index: usize,
        buffer: *mut u8,
        len: usize,
        needed: *mut usize,
        section: *mut AgreedParts,
    ) -> u32;
    pub(crate) fn jilqamur_end_agreed_row(
        end: *mut RawHandle,
        section: usize,
        index: usize,
        buffer: *mut u8,
        len: usize,
        needed: *mut usize,
        row: *mut Row,
    ) -> u32;
    pub(crate) fn jilqamur_end_agreed_ssrc(end: *mut RawHandle, section: usize, index: usize, ssrc: *mut u32) -> u32;
    pub(crate) fn jilqamur_end_open_sender(
        end: *mut RawHandle,
        mid: *const u8,
        mid_len: usize,
        ssrc: u32,
        payload_type: u8,
        params: *const StreamParams,
        distances: *const u8,
        count: usize,
        stream: *mut usize,
    ) -> u32;
    pub(crate) fn jilqamur_end_open_receiver(
        end: *mut RawHandle,
        mid: *const u8,
        mid_len: usize,
        ssrc: u32,
        payload_type: u8,
        hold_back: usize,
        held: usize,
        stream: *mut usize,
    ) -> u32;
    pub(crate) fn jilqamur_end_open_unsignalled(
        end: *mut RawHandle,
        mid: *const u8,
        mid_len: usize,
        ssrc: u32,
        payload_type: u8,
        hold_back: usize,
        held: usize,
        stream: *mut usize,
    ) -> u32;
    pub(crate) fn jilqamur_end_push_sample(
        end: *mut RawHandle,
        stream: usize,
        ticks: u64,
        values: *const Values,
        mid: *const u8,
        mid_len: usize,
        sample: *const u8,
        sample_len: usize,
        count: *mut usize,
    ) -> u32;
    pub(crate) fn jilqamur_end_repair(end: *mut RawHandle, stream: usize, datagram: *const u8, len: usize) -> u32;
    pub(crate) fn jilqamur_end_datagram(
        end: *mut RawHandle,
        index: usize,
        buffer: *mut u8,
        len: usize,
        needed: *mut usize,
    ) -> u32;
    pub(crate) fn jilqamur_end_receive(
        end: *mut RawHandle,
        datagram: *const u8,
        len: usize,
        stream: *mut usize,
        number: *mut u64,
    ) -> u32;
    pub(crate) fn jilqamur_end_poll(end: *mut RawHandle, stream: usize) -> u32;
    pub(crate) fn jilqamur_end_drain(end: *mut RawHandle, stream: usize) -> u32;
    pub(crate) fn jilqamur_end_unit(
        end: *mut RawHandle,
        buffer: *mut u8,
        len: usize,
        needed: *mut usize,
        unit: *mut Unit,
    ) -> u32;
    pub(crate) fn jilqamur_end_values(end: *mut RawHandle, values: *mut Values) -> u32;
    pub(crate) fn jilqamur_sender_open(
        sender: *mut RawHandle,
        params: *const SenderParams,
        format: *const Format,
        codec: *const u8,
        codec_len: usize,
    ) -> u32;
    pub(crate) fn jilqamur_sender_close(sender: *mut RawHandle) -> u32;
    pub(crate) fn jilqamur_sender_push_sample(
        sender: *mut RawHandle,
        ticks: u64,
        sample: *const u8,
        len: usize,
        count: *mut usize,
    ) -> u32;
    pub(crate) fn jilqamur_sender_datagram(
        sender: *mut RawHandle,
        index: usize,
        buffer: *mut u8,
        len: usize,
        needed: *mut usize,
    ) -> u32;
    pub(crate) fn jilqamur_receiver_open(
        receiver: *mut RawHandle,
        format: *const Format,
        codec: *const u8,
        codec_len: usize,
        hold_back: usize,
        held: usize,
    ) -> u32;
    pub(crate) fn jilqamur_receiver_close(receiver: *mut RawHandle) -> u32;
    pub(crate) fn jilqamur_receiver_push(
        receiver: *mut RawHandle,
        sequence_number: u16,
        timestamp: u32,
        marker: bool,
        payload: *const u8,
        len: usize,
        number: *mut u64,
    ) -> u32;
    pub(crate) fn jilqamur_receiver_poll(receiver: *mut RawHandle) -> u32;
    pub(crate) fn jilqamur_receiver_missing(
        receiver: *mut RawHandle,
        numbers: *mut u64,
        len: usize,
        needed: *mut usize,
    ) -> u32;
    pub(crate) fn jilqamur_receiver_pass_to(receiver: *mut RawHandle, number: u64) -> u32;
    pub(crate) fn jilqamur_receiver_keep_within(receiver: *mut RawHandle, bytes: usize) -> u32;
    pub(crate) fn jilqamur_receiver_drain(receiver: *mut RawHandle) -> u32;
    pub(crate) fn jilqamur_receiver_unit(
        receiver: *mut RawHandle,
        buffer: *mut u8,
        len: usize,
        needed: *mut usize,
        unit: *mut Unit,
    ) -> u32;
}
