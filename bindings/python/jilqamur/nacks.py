"""Generic NACKs (RFC 4585 6.2.1): what was sent, kept to be sent again, and what to ask for now."""

from collections.abc import Iterable
from ctypes import byref

from .checks import U64, each_of, u16, u32, u64
from .codes import done
from .library import Owner, c_size_t, c_uint64, fetched_if, lib
from .values import data


class PacketHistory(Owner):
    """Keeps the datagrams that a stream sent last, by number, to be sent again when a NACK asks for them: exactly those
    with the greatest numbers that fit, at most `most` of at most `most_bytes` bytes together, in whatever order they
    were kept."""

    _close = "history_close"

    def __init__(self, most: int, most_bytes: int) -> None:
        super().__init__()
        with self._lock:
            done(lib.history_open(self._at, u32("most", most), u32("most_bytes", most_bytes)))

    def keep(self, number: int, datagram: bytes) -> None:
        """Keeps a copy of a datagram under its number, 64 bits wide; one that is held under this number stays. Of more
        than fit the lowest numbers go, and up to a number that went nothing is kept any more."""
        with self._lock:
            done(lib.history_keep(self._at, u64("number", number), *data("datagram", datagram)))

    def asked(self, low: int) -> bytes | None:
        """The datagram that a NACK asks for by the low 16 bits of its number (PID): the one that is held under the
        greatest number of these bits that isn't above the newest held. None if it isn't held."""
        with self._lock:
            return fetched_if(lib.history_asked, self._at, u16("low", low))


class NackRequester(Owner):
    """Says what a receiver asks for by NACKs: each missing number at most `most` times, the first time `delay` ticks
    after it is missing, and not again before a round trip has gone by."""

    _close = "requester_close"

    def __init__(self, most: int, delay: int) -> None:
        super().__init__()
        with self._lock:
            done(lib.requester_open(self._at, u32("most", most), u64("delay", delay)))

    def ask(self, missing: Iterable[int], now: int, round_trip: int) -> list[int]:
        """The numbers to ask for now, of those that are missing now, as `missing` of a stream tells them. `now` and
        `round_trip` are ticks of the caller's clock, such as microseconds. A number that isn't missing any more is
        forgotten. `Refused`, OUT_OF_RANGE, if the missing numbers don't rise."""
        numbers = each_of("missing", missing, U64)
        count, needed = len(numbers), c_size_t()
        given, room = (c_uint64 * (count or 1))(*numbers), (c_uint64 * (count or 1))()
        with self._lock:
            done(lib.requester_ask(self._at, given, count, u64("now", now), u64("round_trip", round_trip), room, count,
                                   byref(needed)))
        return room[:needed.value]
