"""The structs of jilqamur.h."""

import ctypes
from ctypes import c_bool, c_int8, c_int64, c_size_t, c_uint8, c_uint16, c_uint32, c_uint64, c_void_p
from functools import lru_cache
from typing import Any

from .checks import U32, within

# The least and the greatest number of each type of a field.
LIMITS = {kind: (0, (1 << 8 * ctypes.sizeof(kind)) - 1) for kind in (c_uint8, c_uint16, c_uint32, c_uint64, c_size_t)}
LIMITS |= {kind: (-(1 << 8 * ctypes.sizeof(kind) - 1), (1 << 8 * ctypes.sizeof(kind) - 1) - 1)
           for kind in (c_int8, c_int64)}


@lru_cache(maxsize=None)
def limits_of(struct: type) -> dict[str, tuple[int, int]]:
    """The least and the greatest number of each field that is a number."""
    fields = [field for each in struct.__mro__ for field in getattr(each, "_fields_", ())]
    return {name: LIMITS[kind] for name, kind in fields if kind in LIMITS}


class Struct(ctypes.Structure):
    """A struct of the header, whose fields take only numbers of their widths."""

    def __setattr__(self, name: str, value: Any) -> None:
        if (limits := limits_of(type(self)).get(name)) is not None:
            value = within(name, value, *limits)
        super().__setattr__(name, value)

    def told(self) -> dict[str, Any]:
        return {field[0]: getattr(self, field[0]) for field in self._fields_}

    def __repr__(self) -> str:
        return f"{type(self).__name__}({', '.join(f'{name}={value!r}' for name, value in self.told().items())})"


class Handle(Struct):
    _fields_ = [("full", c_bool), ("place", c_void_p)]


class Sources(c_uint32 * 15):  # type: ignore[misc]
    """Contributing sources, each of 32 bits."""

    def __setitem__(self, at: Any, value: Any) -> None:
        if isinstance(at, slice):
            value = [within("csrc", each, 0, U32) for each in value]
        else:
            value = within("csrc", value, 0, U32)
        super().__setitem__(at, value)


class Header(Struct):
    """The header of an RTP packet (RFC 3550 5.1), without the values of its extensions."""

    _fields_ = [("has_padding", c_bool), ("has_extension", c_bool), ("marker", c_bool), ("payload_type", c_uint8),
                ("sequence_number", c_uint16), ("timestamp", c_uint32), ("ssrc", c_uint32), ("csrc_count", c_uint32),
                ("csrc", Sources), ("header_len", c_size_t)]

    def __setattr__(self, name: str, value: Any) -> None:
        super().__setattr__(name, Sources(*value) if name == "csrc" and not isinstance(value, Sources) else value)


class FormatStruct(Struct):
    _fields_ = [("clock_rate", c_uint32), ("has_octet_align", c_bool), ("octet_align", c_bool),
                ("has_max_don_diff", c_bool), ("max_don_diff", c_uint16)]


class UnitStruct(Struct):
    _fields_ = [("first", c_uint64), ("last", c_uint64), ("time", c_uint32), ("is_keyframe", c_bool),
                ("has_picture_id", c_bool), ("picture_id", c_uint16), ("has_base_layer", c_bool),
                ("base_layer", c_uint8), ("has_event", c_bool), ("event", c_uint8), ("event_end", c_bool),
                ("event_volume", c_uint8), ("event_duration", c_uint64)]


class PacketizerStruct(Struct):
    _fields_ = [("has_picture_id", c_bool), ("picture_id", c_uint16), ("for_browsers", c_bool)]


class RowStruct(Struct):
    _fields_ = [("payload_type", c_uint8), ("has_resend", c_bool), ("resend", c_uint8), ("has_red", c_bool),
                ("red", c_uint8), ("clock_rate", c_uint32), ("has_channels", c_bool), ("channels", c_uint8)]


class RemoteStruct(Struct):
    _fields_ = [("has_setup", c_bool), ("setup", c_uint8), ("has_own_setup", c_bool), ("own_setup", c_uint8),
                ("is_trickling", c_bool), ("is_lite", c_bool), ("candidates", c_size_t)]


class SectionStruct(Struct):
    _fields_ = [("is_video", c_bool), ("sends", c_bool), ("receives", c_bool), ("rows", c_size_t), ("ssrcs", c_size_t)]


class StreamStruct(Struct):
    _fields_ = [("first", c_uint64), ("mtu", c_size_t), ("limit", c_size_t), ("has_red", c_bool),
                ("has_picture_id", c_bool), ("picture_id", c_uint16), ("for_browsers", c_bool)]


class ValuesStruct(Struct):
    _fields_ = [("has_audio_level", c_bool), ("audio_level", c_int8), ("has_voice_activity", c_bool),
                ("voice_activity", c_bool), ("has_abs_send_time", c_bool), ("abs_send_time", c_uint64),
                ("has_transport_cc", c_bool), ("transport_cc", c_uint16), ("has_video_orientation", c_bool),
                ("video_orientation", c_uint8), ("has_play_delay_min", c_bool), ("play_delay_min", c_uint16),
                ("has_play_delay_max", c_bool), ("play_delay_max", c_uint16), ("has_video_content_type", c_bool),
                ("video_content_type", c_uint8), ("has_capture_time", c_bool), ("capture_time", c_uint64),
                ("has_clock_offset", c_bool), ("clock_offset", c_int64)]


class ExtensionIds(Struct):
    """The ids of header extensions (RFC 8285), 1 to 16; 0 for one that has none. `EXTENSIONS` has their URIs."""

    _fields_ = [(name, c_uint8) for name in ("audio_level", "abs_send_time", "transport_cc", "video_orientation",
                                             "play_delay", "video_content_type", "capture_time", "mid", "rid",
                                             "repaired_rid")]


class NamesStruct(Struct):
    _fields_ = [("has_mid", c_bool), ("mid_len", c_uint8), ("mid", c_uint8 * 16), ("has_rid", c_bool),
                ("rid_len", c_uint8), ("rid", c_uint8 * 8), ("has_repaired_rid", c_bool),
                ("repaired_rid_len", c_uint8), ("repaired_rid", c_uint8 * 8)]


class PacketInfoStruct(Struct):
    _fields_ = [("is_head", c_bool), ("is_tail", c_bool), ("shows_key_frame", c_bool), ("has_spatial_layer", c_bool),
                ("spatial_layer", c_uint8), ("has_temporal_layer", c_bool), ("temporal_layer", c_uint8)]


class ArrivalStruct(Struct):
    _fields_ = [("low", c_uint16), ("timestamp", c_uint32), ("marker", c_bool), ("start", c_size_t), ("end", c_size_t)]


class SenderStruct(Struct):
    _fields_ = [("ssrc", c_uint32), ("payload_type", c_uint8), ("first", c_uint64), ("mtu", c_size_t),
                ("limit", c_size_t), ("has_picture_id", c_bool), ("picture_id", c_uint16), ("for_browsers", c_bool)]


class PlacedStruct(Struct):
    _fields_ = [("number", c_uint64), ("timestamp", c_uint32)]
