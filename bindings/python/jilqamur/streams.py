"""Windows, packetizers, depacketizers, streams by a codec's name, and forwarders."""

from collections.abc import Iterator
from ctypes import byref
from dataclasses import dataclass
from typing import Any, Callable

from .checks import bytes_of, u16, u32, u64
from .codes import Code, Place, Refused, done
from .library import Owner, c_bool, c_size_t, c_uint64, lib, size_at
from .structs import PacketizerStruct, PlacedStruct, SenderStruct, UnitStruct
from .values import MIN_HELD, Format, Unit, data, given, is_taken, text

# The most numbers that can be missing.
MOST_MISSING = 1023


class UnitOwner(Owner):
    """What hands units out."""

    _told: UnitStruct  # what a call tells of a unit
    _told_at: tuple[Any]

    def __new__(cls, *_: object, **__: object) -> Any:
        owner = super().__new__(cls)
        owner._told = UnitStruct()
        owner._told_at = (byref(owner._told),)
        return owner

    def _unit(self, copy: Callable[..., int]) -> Unit:
        """The unit that a poll handed out. The lock is held."""
        return Unit.of(self._told, self._copied(copy, (), self._told_at))

    def _polled(self, poll: Callable[..., int], copy: Callable[..., int]) -> Unit | None:
        """What a poll hands out."""
        with self._lock:
            code = poll(self._at)
            if code == Code.NOTHING:
                return None
            done(code)
            return self._unit(copy)


def picture(params: Any, picture_id: int | None) -> Any:
    """The same parameters with a first picture id, if there is one."""
    given(params, "picture_id", picture_id)
    return params


class Window(Owner):
    """The replay window of a stream."""

    _close = "window_close"

    def __init__(self) -> None:
        super().__init__()
        with self._lock:
            done(lib.window_open(self._at))

    def receive(self, datagram: bytes) -> int | None:
        """The widened number of a datagram, which is recorded; None if it came before, or is 1,024 or more below the
        greatest. `Refused`, UNREADABLE."""
        number = c_uint64()
        with self._lock:
            code = lib.window_receive(self._at, *data("datagram", datagram), byref(number))
        return number.value if is_taken(code) else None


@dataclass(frozen=True)
class Packet:
    """A payload, and the marker bit of its RTP header."""

    payload: bytes
    marker: bool


class Packetizer(Owner):
    """A packetizer of a codec: opus, PCMU, PCMA, G722, CN, AMR-WB, telephone-event, VP8, VP9, AV1, H264, H265 or
    H266."""

    _close = "packetizer_close"

    def __init__(self, codec: str, format: Format, picture_id: int | None = None, for_browsers: bool = False) -> None:
        super().__init__()
        params = picture(PacketizerStruct(for_browsers=bool(for_browsers)), picture_id)
        with self._lock:
            done(lib.packetizer_open(self._at, byref(params), byref(format.struct()), *text("codec", codec)),
                 Place(codec=codec))

    def packetize(self, mtu: int, sample: bytes) -> list[Packet]:
        """The payloads of a sample, each of at most `mtu` bytes. `Refused`, OUT_OF_RANGE for an `mtu` of 0, or why the
        codec doesn't take the sample."""
        sample, mtu = bytes_of("sample", sample), u64("mtu", mtu)
        if mtu == 0:
            raise Refused(Code.OUT_OF_RANGE)
        count, marker = c_size_t(), c_bool()
        after = (byref(marker),)
        with self._lock:
            done(lib.packetizer_packetize(self._at, mtu, sample, len(sample), byref(count)))
            return [Packet(self._copied(lib.bare_packetizer_packet, (size_at(index),), after), marker.value)
                    for index in range(count.value)]


class Depacketizer(UnitOwner):
    """A depacketizer of a codec, after a buffer that puts packets in order. Past a missing packet a unit is handed out
    only once more than `hold_back` frames are complete; at most `held` packets wait."""

    _close = "depacketizer_close"

    def __init__(self, codec: str, format: Format, hold_back: int, held: int = MIN_HELD) -> None:
        super().__init__()
        with self._lock:
            done(lib.depacketizer_open(self._at, byref(format.struct()), *text("codec", codec),
                                       u64("hold_back", hold_back), u64("held", held)), Place(codec=codec))

    def push(self, number: int, timestamp: int, marker: bool, payload: bytes) -> None:
        """Takes a packet by its widened number. One whose number is held, or not above the last unit's, is dropped."""
        with self._lock:
            done(lib.depacketizer_push(self._at, u64("number", number), u32("timestamp", timestamp), bool(marker),
                                       *data("payload", payload)))

    def pop(self) -> Unit | None:
        """The next unit, if one is due. `Refused` says why a packet of the next frame isn't read; that frame is
        dropped."""
        return self._polled(lib.depacketizer_pop, lib.bare_depacketizer_unit)

    def drain(self) -> Unit | None:
        """The same, even if a packet before the first complete frame is missing: for the end of a stream."""
        return self._polled(lib.depacketizer_drain, lib.bare_depacketizer_unit)


class Sender(Owner):
    """A sending stream of a codec, without an end and without header extensions."""

    _close = "sender_close"

    def __init__(self, codec: str, format: Format, ssrc: int, payload_type: int, mtu: int, first: int = 0,
                 limit: int | None = None, picture_id: int | None = None, for_browsers: bool = False) -> None:
        super().__init__()
        params = SenderStruct(ssrc=ssrc, payload_type=payload_type, first=first, mtu=mtu,
                              limit=mtu + 12 if limit is None else limit, for_browsers=bool(for_browsers))
        picture(params, picture_id)
        with self._lock:
            done(lib.sender_open(self._at, byref(params), byref(format.struct()), *text("codec", codec)),
                 Place(codec=codec))

    def push_sample(self, ticks: int, sample: bytes) -> list[bytes]:
        """The datagrams of a sample at a time in ticks of the stream's clock. `Refused`, STREAM_FAILED,
        TIME_TOO_LARGE, LIMIT_TOO_SMALL or PAYLOAD."""
        sample, at, needed = bytes_of("sample", sample), self._at, self._needed
        with self._lock:
            done(lib.bare_sender_push_sample(at, c_uint64(u64("ticks", ticks)), sample, size_at(len(sample)),
                                             self._needed_at))
            return [self._copied(lib.bare_sender_datagram, (size_at(index),)) for index in range(needed.value)]


class Receiver(UnitOwner):
    """A receiving stream of a codec, without an end. `hold_back` and `held` are those of `Depacketizer`."""

    _close = "receiver_close"

    def __init__(self, codec: str, format: Format, hold_back: int, held: int = MIN_HELD) -> None:
        super().__init__()
        with self._lock:
            done(lib.receiver_open(self._at, byref(format.struct()), *text("codec", codec),
                                   u64("hold_back", hold_back), u64("held", held)), Place(codec=codec))

    def push(self, sequence_number: int, timestamp: int, marker: bool, payload: bytes) -> int | None:
        """Takes a packet by the low 16 bits of its number, and returns the widened number; None if it came before, or
        is 1,024 or more below the greatest."""
        number = c_uint64()
        with self._lock:
            code = lib.receiver_push(self._at, u16("sequence_number", sequence_number), u32("timestamp", timestamp),
                                     bool(marker), *data("payload", payload), byref(number))
        return number.value if is_taken(code) else None

    def poll(self) -> Unit | None:
        """The next unit, if one is ready. `Refused`, PAYLOAD, if its frame can't be read; that frame is dropped."""
        return self._polled(lib.bare_receiver_poll, lib.bare_receiver_unit)

    def drain(self) -> Unit | None:
        """The same, even if a packet before the first complete unit is missing: for the end of a stream."""
        return self._polled(lib.receiver_drain, lib.bare_receiver_unit)

    def missing(self) -> list[int]:
        """The missing numbers, in increasing order, at most 1,023: what a generic NACK may ask for (RFC 4585 6.2.1)."""
        numbers, needed = (c_uint64 * MOST_MISSING)(), c_size_t()
        with self._lock:
            done(lib.receiver_missing(self._at, numbers, MOST_MISSING, byref(needed)))
        return numbers[:needed.value]

    def pass_to(self, number: int) -> None:
        """Passes all numbers up to this one: what waits of them is dropped, and the frame after it is next."""
        with self._lock:
            done(lib.receiver_pass_to(self._at, u64("number", number)))

    def keep_within(self, bytes_: int) -> None:
        """Gives memory back: of the packets that wait those with the highest numbers stay, whose payloads have at most
        so many bytes together, and a fragment of more is given up. A call each time so many bytes came in keeps the
        stream within twice as many, whatever a peer sends."""
        with self._lock:
            done(lib.receiver_keep_within(self._at, u64("bytes_", bytes_)))

    def units(self) -> Iterator[Unit]:
        """All units that are ready."""
        while (unit := self.poll()) is not None:
            yield unit


@dataclass(frozen=True)
class Placed:
    """The sequence number, 64 bits wide, and RTP timestamp under which a packet is sent on."""

    number: int
    timestamp: int


class Forwarder(Owner):
    """Numbers and times the packets of several sources as those of one stream, whose first number is `first`."""

    _close = "forwarder_close"

    def __init__(self, first: int) -> None:
        super().__init__()
        with self._lock:
            done(lib.forwarder_open(self._at, u64("first", first)))

    def switch(self, source: int, number: int, timestamp: int, at: int) -> None:
        """Goes over to a source, from its packet of this number and timestamp on, which gets the timestamp `at` and the
        next number."""
        with self._lock:
            done(lib.forwarder_switch(self._at, u64("source", source), u64("number", number),
                                      u32("timestamp", timestamp), u32("at", at)))

    def skip_to(self, number: int) -> None:
        """Leaves out what the last source sends before the packet of this number, which gets the next number."""
        with self._lock:
            done(lib.forwarder_skip_to(self._at, u64("number", number)))

    def end_at(self, number: int) -> None:
        """Says that what is sent on of the last source ends before its packet of this number."""
        with self._lock:
            done(lib.forwarder_end_at(self._at, u64("number", number)))

    def _placed(self, call: Callable[..., int], source: int, number: int, timestamp: int, *more: bool) -> Placed | None:
        told = PlacedStruct()
        with self._lock:
            code = call(self._at, u64("source", source), u64("number", number), u32("timestamp", timestamp), *more,
                        byref(told))
        if code == Code.NOTHING:
            return None
        done(code)
        return Placed(told.number, told.timestamp)

    def place(self, source: int, number: int, timestamp: int) -> Placed | None:
        """Under which number and timestamp a source's packet of these is sent on; None if it isn't."""
        return self._placed(lib.forwarder_place, source, number, timestamp)

    def forward(self, source: int, number: int, timestamp: int, ends: bool) -> Placed | None:
        """The same, and the number is given: the next piece begins above it. `ends` says whether the packet is the last
        one of its frame: for video `PacketInfo` tells it, for audio it is true."""
        return self._placed(lib.forwarder_forward, source, number, timestamp, bool(ends))

    def pass_empty(self, source: int, number: int) -> bool:
        """Leaves a source's packet out that carries nothing to send on, as one of only padding, between two frames. If
        it would get the next number, the source's packet after it gets that number, and True is returned. Otherwise
        nothing changes: call this again after the packets before it."""
        with self._lock:
            code = lib.forwarder_pass_empty(self._at, u64("source", source), u64("number", number))
        if code == Code.NOTHING:
            return False
        done(code)
        return True

    def next(self) -> int:
        """The first number above all those that were given."""
        number = c_uint64()
        with self._lock:
            done(lib.forwarder_next(self._at, byref(number)))
        return number.value
