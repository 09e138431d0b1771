"""What calls are given and what they tell."""

from ctypes import byref
from dataclasses import dataclass, fields
from enum import IntEnum

from typing import NamedTuple

from .checks import bytes_of, text_of, u16, u64
from .codes import Code, Place, done, done_of
from .library import c_size_t, c_uint32, fetched, fetched_if, lib
from .structs import (ExtensionIds, FormatStruct, Header, NamesStruct, PacketInfoStruct, RowStruct, UnitStruct,
                      ValuesStruct)

new_tuple = tuple.__new__  # makes a named tuple in less time than its own class does

MIN_HELD = 4096
"""The least number of packets that a stream may be opened to hold at most."""

MAX_HELD = 16384
"""The greatest number of packets that a stream may be opened to hold at most."""

EXTENSIONS = {
    "audio_level": "urn:ietf:params:rtp-hdrext:ssrc-audio-level",
    "abs_send_time": "http://www.webrtc.org/experiments/rtp-hdrext/abs-send-time",
    "transport_cc": "http://www.ietf.org/id/draft-holmer-rmcat-transport-wide-cc-extensions-01",
    "video_orientation": "urn:3gpp:video-orientation",
    "play_delay": "http://www.webrtc.org/experiments/rtp-hdrext/playout-delay",
    "video_content_type": "http://www.webrtc.org/experiments/rtp-hdrext/video-content-type",
    "capture_time": "http://www.webrtc.org/experiments/rtp-hdrext/abs-capture-time",
    "mid": "urn:ietf:params:rtp-hdrext:sdes:mid",
    "rid": "urn:ietf:params:rtp-hdrext:sdes:rtp-stream-id",
    "repaired_rid": "urn:ietf:params:rtp-hdrext:sdes:repaired-rtp-stream-id",
}
"""The URIs of header extensions, by the fields of `ExtensionIds`."""


def text(name: str, given: object) -> tuple[bytes, int]:
    """The bytes of a text, and how many there are."""
    found = text_of(name, given)
    return found, len(found)


def data(name: str, given: object) -> tuple[bytes, int]:
    """The same of an argument of bytes."""
    found = bytes_of(name, given)
    return found, len(found)


def given(struct: object, name: str, value: object) -> None:
    """Puts a value that may be absent into a struct with a field that says whether it is there."""
    if value is not None:
        setattr(struct, f"has_{name}", True)
        setattr(struct, name, value)


@dataclass(frozen=True)
class Row:
    """A payload type, and what it stands for. G.722's clock rate is 8,000, as in texts, or 16,000."""

    payload_type: int
    codec: str
    clock_rate: int
    channels: int | None = None
    resend: int | None = None
    red: int | None = None
    format: str = ""

    def struct(self) -> RowStruct:
        told = RowStruct(payload_type=self.payload_type, clock_rate=self.clock_rate)
        for name in ("channels", "resend", "red"):
            given(told, name, getattr(self, name))
        return told

    def place(self) -> Place:
        return Place(codec=self.codec, payload_type=self.payload_type)


@dataclass(frozen=True)
class Format:
    """How payloads are read and written, beside their codec."""

    clock_rate: int
    octet_align: bool | None = None
    max_don_diff: int | None = None

    def struct(self) -> FormatStruct:
        told = FormatStruct(clock_rate=self.clock_rate)
        given(told, "octet_align", self.octet_align)
        given(told, "max_don_diff", self.max_don_diff)
        return told


@dataclass(frozen=True)
class Event:
    """One report of a telephone event (RFC 4733 2.3); the duration is in nanoseconds."""

    event: int
    end: bool
    volume: int
    duration: int


class Unit(NamedTuple):
    """A video frame or an audio packet: its bytes, the widened numbers of its first and last datagram, its RTP
    timestamp, and what its codec tells of it."""

    data: bytes
    first: int
    last: int
    time: int
    is_keyframe: bool
    picture_id: int | None = None
    base_layer: int | None = None
    event: Event | None = None

    @staticmethod
    def of(told: UnitStruct, data: bytes) -> "Unit":
        event = Event(told.event, told.event_end, told.event_volume, told.event_duration) if told.has_event else None
        return new_tuple(Unit, (data, told.first, told.last, told.time, told.is_keyframe,
                                told.picture_id if told.has_picture_id else None,
                                told.base_layer if told.has_base_layer else None, event))


@dataclass(frozen=True)
class Values:
    """The values of header extensions (RFC 8285), except the names of sections and streams. Units are those of
    jilqamur.h."""

    audio_level: int | None = None
    voice_activity: bool | None = None
    abs_send_time: int | None = None
    transport_cc: int | None = None
    video_orientation: int | None = None
    play_delay_min: int | None = None
    play_delay_max: int | None = None
    video_content_type: int | None = None
    capture_time: int | None = None
    clock_offset: int | None = None

    def struct(self) -> ValuesStruct:
        told = ValuesStruct()
        for name in VALUES:
            given(told, name, getattr(self, name))
        return told

    @staticmethod
    def of(told: ValuesStruct) -> "Values":
        return Values(**{name: getattr(told, name) for name in VALUES if getattr(told, f"has_{name}")})


VALUES = tuple(field.name for field in fields(Values))


def struct_of(values: Values) -> ValuesStruct:
    """The values for a call. `TypeError` if they are something else."""
    if not isinstance(values, Values):
        raise TypeError(f"values have to be Values, not {type(values).__name__}")
    return Values.struct(values)


@dataclass(frozen=True)
class Names:
    """The names of section and stream that a datagram carries."""

    mid: str | None = None
    rid: str | None = None
    repaired_rid: str | None = None

    @staticmethod
    def of(told: NamesStruct) -> "Names":
        def name(field: str) -> str | None:
            if not getattr(told, f"has_{field}"):
                return None
            return bytes(getattr(told, field))[:getattr(told, f"{field}_len")].decode()
        return Names(name("mid"), name("rid"), name("repaired_rid"))


def read_header(datagram: bytes) -> Header:
    """The header in front of a datagram. `Refused`, UNREADABLE, if it doesn't begin with one."""
    header = Header()
    done(lib.header_read(*data("datagram", datagram), byref(header)))
    return header


def write_header(header: Header) -> bytes:
    """The bytes of a header. `Refused`, UNWRITABLE."""
    return fetched(lib.header_write, byref(header))


def read_values(datagram: bytes, ids: ExtensionIds) -> tuple[Values, Names]:
    """The values of the header extensions of a datagram, read by these ids, and its names. `Refused`, OUT_OF_RANGE for
    an id above 16, or UNREADABLE."""
    values, names = ValuesStruct(), NamesStruct()
    done(lib.header_values(*data("datagram", datagram), byref(ids), byref(values), byref(names)))
    return Values.of(values), Names.of(names)


def payload_of(header: Header, behind: bytes) -> bytes:
    """The payload in the bytes that follow a header, without padding. `Refused`, DAMAGED."""
    length, behind = c_size_t(), bytes_of("behind", behind)
    done(lib.payload_unpad(header.has_padding, behind, len(behind), byref(length)))
    return behind[:length.value]


@dataclass(frozen=True)
class PacketInfo:
    """What a packet says of its frame: whether a frame can begin and end with it, whether it shows that its frame is a
    key frame, and its layers, from 0, where they are told."""

    is_head: bool
    is_tail: bool
    shows_key_frame: bool
    spatial_layer: int | None
    temporal_layer: int | None


def packet_info(codec: str, payload: bytes, marker: bool) -> PacketInfo:
    """What a packet of the codec of this name, with this payload and marker bit, says of its frame. `Refused`,
    OUT_OF_RANGE, for a name of no codec with a payload format."""
    told = PacketInfoStruct()
    done(lib.payload_info(*text("codec", codec), *data("payload", payload), bool(marker), byref(told)),
         Place(codec=codec))
    return PacketInfo(told.is_head, told.is_tail, told.shows_key_frame,
                      told.spatial_layer if told.has_spatial_layer else None,
                      told.temporal_layer if told.has_temporal_layer else None)


class LineFault(IntEnum):
    """What is wrong with a line of a session text (RFC 8866 5), as jilqamur.h numbers it; those from MISSING_MID
    on are those of the line `m=` of a section."""

    VERSION = 0
    ORIGIN = 1
    NAME = 2
    TIMES = 3
    STRAY = 4
    MISSING_MID = 5
    SEVERAL_MIDS = 6
    SEVERAL_SETUPS = 7
    DIRECTIONS = 8
    NO_PAYLOAD_TYPE = 9
    RTP_MAPS = 10
    CONFLICTING_APTS = 11


FAULT_TEXTS = {
    LineFault.VERSION: "not v=0",
    LineFault.ORIGIN: "no valid o=",
    LineFault.NAME: "no s= with a name",
    LineFault.TIMES: "not t=0 0",
    LineFault.STRAY: "fits nowhere",
    LineFault.MISSING_MID: "a section without a=mid",
    LineFault.SEVERAL_MIDS: "a section with several a=mid",
    LineFault.SEVERAL_SETUPS: "a section with several a=setup",
    LineFault.DIRECTIONS: "a section without exactly one direction",
    LineFault.NO_PAYLOAD_TYPE: "a section without payload types",
    LineFault.RTP_MAPS: "a section with a payload type that isn't mapped once",
    LineFault.CONFLICTING_APTS: "a section with a payload type that repairs several",
}


@dataclass(frozen=True)
class FaultyLine:
    """The line at which a session text can't be read on: its number, counted from 1; the line, without its end, empty
    if the text ends before it; and what is wrong with it."""

    number: int
    line: str
    fault: LineFault

    def __str__(self) -> str:
        return f"line {self.number}: {FAULT_TEXTS[self.fault]}: {self.line}"


def faulty_line(session: str | bytes) -> FaultyLine | None:
    """The line at which a session text can't be read on: the first that fails if the text isn't read, or else the first
    of the rest that isn't read; None if the text is read to its end. `Refused`, NOT_TEXT."""
    number, fault = c_size_t(), c_uint32()
    line = fetched_if(lib.faulty_line, *text("session", session), after=(byref(number), byref(fault)))
    return None if line is None else FaultyLine(number.value, line.decode(), LineFault(fault.value))


def widen(previous: int, low: int) -> int:
    """The number nearest to the previous one with these low 16 bits, modulo 2^64."""
    return lib.number_widen(u64("previous", previous), u16("low", low))


def is_taken(code: int, stream: int | None = None) -> bool:
    """Whether a number was taken; it is raised if the call was refused for another reason than the number."""
    if code == Code.REFUSED:
        return False
    done_of(code, stream)
    return True
