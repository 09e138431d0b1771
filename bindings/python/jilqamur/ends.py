"""Ends of a session: their streams, and packets that are sent on."""

from collections.abc import Callable, Iterable, Iterator, Mapping, Sequence
from ctypes import byref
from typing import Any

from .checks import U8, bytes_of, each_of, mid_of, u8, u16, u32, u64
from .codes import Code, Place, Refused, done, done_of
from .exchanges import Exchanges
from .library import SIZES, c_size_t, c_uint64, lib, size_at
from .sections import Arrival, Taken, Verdict, opening, verdict_of
from .streams import MOST_MISSING, picture
from .structs import ArrivalStruct, StreamStruct, ValuesStruct
from .values import MIN_HELD, Row, Unit, Values, data, is_taken, new_tuple, struct_of, text

NO_VALUES = Values()
NO_VALUES_AT = byref(ValuesStruct())

PUSH_SAMPLE, DATAGRAM, RECEIVE = lib.bare_end_push_sample, lib.bare_end_datagram, lib.bare_end_receive
POLL, END_UNIT = lib.bare_end_poll, lib.bare_end_unit
OK, NOTHING, PAYLOAD = int(Code.OK), int(Code.NOTHING), int(Code.PAYLOAD)


class End(Exchanges):
    """An end of a session, with these rows and header extensions (ids by URI), under this session number. A call that
    is refused raises `Refused`, and changes nothing; jilqamur.h says which refusals each has. Mids have at most 16
    bytes, each a letter, a digit or _, else MID_NOT_KEPT is raised."""

    _close = "end_close"
    _stream: c_size_t  # what a call says of a datagram that was taken
    _number: c_uint64
    _stream_at: Any
    _number_at: Any

    def __new__(cls, *_: object, **__: object) -> Any:
        owner = super().__new__(cls)
        owner._stream, owner._number = c_size_t(), c_uint64()
        owner._stream_at, owner._number_at = byref(owner._stream), byref(owner._number)
        return owner

    def __init__(self, rows: Iterable[Row] = (), extensions: Mapping[str, int] | None = None, session: int = 0,
                 default_rows: bool = False) -> None:
        super().__init__()
        rows, ids = list(rows), list((extensions or {}).items())
        with self._lock:
            done(lib.end_open(self._at))
            try:
                self._make(rows, bool(default_rows), ids, u64("session", session))
            except Refused as refused:
                place = refused.place or culprit(self, refused.code, rows, ids)
                raise Refused(refused.code, place) from None

    def _make(self, rows: list[Row], default_rows: bool, ids: list[tuple[str, int]], session: int) -> None:
        for row in rows:
            done(lib.end_row(self._at, byref(row.struct()), *text("codec", row.codec), *text("format", row.format)),
                 row.place())
        if default_rows:
            done(lib.end_default_rows(self._at))
        for uri, number in ids:
            done(lib.end_extension(self._at, u8("extensions", number), *text("extensions", uri)),
                 Place(extension=number, uri=uri))
        done(lib.end_make(self._at, session))

    def open_sender(self, mid: str, ssrc: int, payload_type: int, first: int = 0, mtu: int = 1200, limit: int = 1400,
                    distances: Sequence[int] | None = None, picture_id: int | None = None,
                    for_browsers: bool = False) -> int:
        """Opens a sending stream for an agreed row, and returns its number. `distances` are how many payloads back
        redundancy reaches: rising, 1 to 8, for a row with a RED type."""
        params = StreamStruct(first=first, mtu=mtu, limit=limit, has_red=distances is not None,
                              for_browsers=bool(for_browsers))
        picture(params, picture_id)
        name, *named, place = opening(mid, ssrc, payload_type)
        back, stream = bytes(each_of("distances", distances or (), U8)), c_size_t()
        with self._lock:
            done(lib.end_open_sender(self._at, name, len(name), *named, byref(params), back, len(back), byref(stream)),
                 place)
        return stream.value

    def _open(self, call: Callable[..., int], mid: str, ssrc: int, payload_type: int, hold_back: int,
              held: int) -> int:
        name, *named, place = opening(mid, ssrc, payload_type)
        most, stream = (u64("hold_back", hold_back), u64("held", held)), c_size_t()
        with self._lock:
            done(call(self._at, name, len(name), *named, *most, byref(stream)), place)
        return stream.value

    def open_receiver(self, mid: str, ssrc: int, payload_type: int, hold_back: int, held: int = MIN_HELD) -> int:
        """Opens a receiving stream for an agreed row, and returns its number. Past a missing datagram a unit is handed
        out only once more than `hold_back` frames are complete; at most `held` packets wait."""
        return self._open(lib.end_open_receiver, mid, ssrc, payload_type, hold_back, held)

    def open_unsignalled(self, mid: str, ssrc: int, payload_type: int, hold_back: int, held: int = MIN_HELD) -> int:
        """Opens a receiving stream as `open_receiver`, in a section whose sender names this SSRC or no SSRC at all, as
        one whose simulcast streams `a=rid` alone tells apart (RFC 8853 6.1)."""
        return self._open(lib.end_open_unsignalled, mid, ssrc, payload_type, hold_back, held)

    def push_sample(self, stream: int, ticks: int, sample: bytes, values: Values = NO_VALUES,
                    mid: str | None = None) -> list[bytes]:
        """The datagrams of a sample at a time in ticks of the row's clock, with these values of header extensions."""
        number, sample, name = u64("stream", stream), bytes_of("sample", sample), mid_of(mid) if mid else b""
        carried = NO_VALUES_AT if values is NO_VALUES else byref(struct_of(values))
        at, fetch, needed, needed_at = self._at, DATAGRAM, self._needed, self._needed_at
        with self._lock:
            code = PUSH_SAMPLE(at, size_at(number), c_uint64(u64("ticks", ticks)), carried, name,
                               size_at(len(name)), sample, size_at(len(sample)), needed_at)
            done_of(code, number)
            room, size, datagrams = self._room, self._size, []
            for index in range(needed.value):
                if fetch(at, size_at(index), room, size, needed_at):
                    datagrams.append(self._copied(fetch, (size_at(index),)))
                else:
                    datagrams.append(room[:needed.value])
        return datagrams

    def repair(self, stream: int, datagram: bytes) -> bytes:
        """The retransmission of a datagram that a stream sent (RFC 4588 4)."""
        number = u64("stream", stream)
        with self._lock:
            done_of(lib.end_repair(self._at, number, *data("datagram", datagram)), number)
            return self._copied(DATAGRAM, (size_at(0),))

    def receive(self, datagram: bytes) -> Taken | Verdict:
        """Takes a datagram, and says which stream took it, or what it is."""
        if type(datagram) is not bytes:
            datagram = bytes_of("datagram", datagram)
        with self._lock:
            code = RECEIVE(self._at, datagram, size_at(len(datagram)), self._stream_at, self._number_at)
            if code == 0:
                return new_tuple(Taken, (self._stream.value, self._number.value))
        return verdict_of(code)

    def receive_units(self, datagram: bytes) -> tuple[Taken | Verdict, list[Unit]]:
        """Takes a datagram, and returns what `receive` says of it, and the units of its stream that are ready then;
        frames that the codec can't read are passed over. It takes less time than `receive` and `units`."""
        if type(datagram) is not bytes:
            datagram = bytes_of("datagram", datagram)
        found: list[Unit] = []
        with self._lock:
            at, size = self._at, len(datagram)
            size_given = SIZES[size] if size < 2048 else c_size_t(size)
            code = RECEIVE(at, datagram, size_given, self._stream_at, self._number_at)
            if code:
                return verdict_of(code), found
            number = self._stream.value
            taken = new_tuple(Taken, (number, self._number.value))
            stream = size_at(number)
            while (code := POLL(at, stream)) != NOTHING:
                if code == 0:
                    found.append(self._unit(END_UNIT))
                elif code != PAYLOAD:
                    raise Refused(code, Place(stream=number))
        return taken, found

    def _polled_of(self, poll: Callable[..., int], stream: int) -> Unit | None:
        number = u64("stream", stream)
        with self._lock:
            code = poll(self._at, size_at(number))
            if code == 0:
                return self._unit(END_UNIT)
        if code == NOTHING:
            return None
        raise Refused(code, Place(stream=number))

    def poll(self, stream: int) -> Unit | None:
        """The next unit of a receiving stream, if one is ready."""
        return self._polled_of(POLL, stream)

    def drain(self, stream: int) -> Unit | None:
        """The same, even if a datagram before the first complete unit is missing: for the end of a stream."""
        return self._polled_of(lib.bare_end_drain, stream)

    def units(self, stream: int) -> Iterator[Unit]:
        """All units of a receiving stream that are ready; frames that the codec can't read are passed over."""
        while True:
            try:
                unit = self.poll(stream)
            except Refused as refused:
                if refused.code != Code.PAYLOAD:
                    raise
                continue
            if unit is None:
                return
            yield unit

    def values(self) -> Values | None:
        """The values of the header extensions of the last datagram of the unit that was handed out last."""
        told = ValuesStruct()
        with self._lock:
            code = lib.end_values(self._at, byref(told))
        if code == Code.NOTHING:
            return None
        done(code)
        return Values.of(told)

    def arrival(self, datagram: bytes) -> Arrival | Verdict:
        """How a datagram arrives at the receiving stream that would take it, without taking it."""
        datagram = bytes_of("datagram", datagram)
        stream, told, values = c_size_t(), ArrivalStruct(), ValuesStruct()
        with self._lock:
            code = lib.end_arrival(self._at, datagram, len(datagram), byref(stream), byref(told), byref(values))
        if code:
            return verdict_of(code)
        return Arrival(stream.value, told.low, told.timestamp, told.marker, datagram[told.start:told.end],
                       Values.of(values))

    def take_number(self, stream: int, low: int) -> int | None:
        """Takes only the number of a datagram that is sent on, by its low 16 bits; None if it came before, or is 1,024
        or more below the greatest."""
        widened, number = c_uint64(), u64("stream", stream)
        with self._lock:
            code = lib.end_take_number(self._at, number, u16("low", low), byref(widened))
        return widened.value if is_taken(code, number) else None

    def send_packet(self, stream: int, number: int, timestamp: int, marker: bool, payload: bytes,
                    values: Values = NO_VALUES, mid: str | None = None) -> bytes:
        """One packet of another stream as a datagram of a sending stream."""
        name, sender = mid_of(mid) if mid else b"", u64("stream", stream)
        given = [byref(struct_of(values)), name, len(name), *data("payload", payload)]
        with self._lock:
            done_of(lib.end_send_packet(self._at, sender, u64("number", number), u32("timestamp", timestamp),
                                        bool(marker), *given), sender)
            return self._copied(DATAGRAM, (size_at(0),))

    def missing(self, stream: int) -> list[int]:
        """The missing numbers of a receiving stream, in increasing order, at most 1,023: what a generic NACK may ask
        for (RFC 4585 6.2.1)."""
        numbers, needed = (c_uint64 * MOST_MISSING)(), c_size_t()
        self._asked(lib.end_missing, stream, numbers, MOST_MISSING, byref(needed))
        return numbers[:needed.value]

    def _asked(self, call: Callable[..., int], stream: int, *about: Any) -> bool:
        """Calls about a stream, and says whether the answer is other than that there is nothing."""
        number = u64("stream", stream)
        with self._lock:
            code = call(self._at, number, *about)
        if code not in (OK, NOTHING):
            raise Refused(code, Place(stream=number))
        return code == OK

    def is_passed(self, stream: int, number: int) -> bool:
        """Whether a datagram of this number is of no use to a receiving stream any more."""
        return self._asked(lib.end_is_passed, stream, u64("number", number))

    def pass_to(self, stream: int, number: int) -> None:
        """Passes all numbers of a receiving stream up to this one: what waits of them is dropped, and the frame after
        the number is next."""
        self._asked(lib.end_pass_to, stream, u64("number", number))

    def pass_empty(self, stream: int, number: int) -> bool:
        """Tells a receiving stream that a number carries nothing for it, as one of padding alone, or of another payload
        type of its SSRC; whether it was the next after the last that is passed, and is now passed."""
        return self._asked(lib.end_pass_empty, stream, u64("number", number))

    def keep_within(self, stream: int, count: int) -> None:
        """Keeps the packets with the highest numbers whose payloads have at most so many bytes together, and gives an
        open fragment up that has more. A call each time so many bytes came in keeps the stream within twice as many."""
        self._asked(lib.end_keep_within, stream, u64("count", count))

    def next_number(self, stream: int) -> int:
        """The number that the next datagram of a sending stream's samples gets."""
        number = c_uint64()
        self._asked(lib.end_next_number, stream, byref(number))
        return number.value

    def skip_to(self, stream: int, number: int) -> None:
        """Leaves the numbers of a sending stream out from its next one up to this one."""
        self._asked(lib.end_skip_to, stream, u64("number", number))

    def close_sender(self, stream: int) -> None:
        """Closes a sending stream; its SSRC can be opened again."""
        self._asked(lib.end_close_sender, stream)

    def close_receiver(self, stream: int) -> None:
        """Closes a receiving stream; its SSRC can be opened again."""
        self._asked(lib.end_close_receiver, stream)


def culprit(end: End, code: Code, rows: list[Row], ids: list[tuple[str, int]]) -> Place | None:
    """The first row, or else the first extension, for which an end is refused so."""
    def is_refused(some_rows: list[Row], some_ids: list[tuple[str, int]]) -> bool:
        try:
            end._make(some_rows, False, some_ids, 0)
        except Refused as refused:
            return refused.code == code
        return False

    for last, row in enumerate(rows):
        if is_refused(rows[:last + 1], []):
            return row.place()
    for last, (uri, number) in enumerate(ids):
        if is_refused([], ids[:last + 1]):
            return Place(extension=number, uri=uri)
    return None
