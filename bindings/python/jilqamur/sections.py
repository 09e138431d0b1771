"""Sections, transports and verdicts of ends: what their calls are given and what they tell."""

from collections.abc import Mapping, Sequence
from dataclasses import dataclass, field
from enum import Enum, IntEnum
from typing import Any, NamedTuple

from .checks import U32, each_of, mid_of, u8, u32
from .codes import Code, Place, Refused
from .library import c_uint32
from .values import Row, Values


class Direction(Enum):
    """Which way media flows, as an end sees it: whether it sends, and whether it receives."""

    SENDRECV = (True, True)
    SENDONLY = (True, False)
    RECVONLY = (False, True)
    INACTIVE = (False, False)


class Setup(IntEnum):
    """The part of an end in the connection (RFC 8842 5)."""

    ACTPASS = 0
    ACTIVE = 1
    PASSIVE = 2


@dataclass(frozen=True)
class Section:
    """A section as an end wants it: its mid, audio or video, which way media shall flow, the SSRCs that the end sends
    under, and for some of them the SSRC under which its datagrams are retransmitted (RFC 4588 8.3)."""

    mid: str
    is_video: bool
    direction: Direction = Direction.SENDRECV
    ssrcs: Sequence[int] = ()
    repairs: Mapping[int, int] = field(default_factory=dict)


@dataclass(frozen=True)
class SectionRequest:
    """What an end wants of a section of a browser's offer; `None` in its place rejects the section."""

    direction: Direction = Direction.SENDRECV
    ssrcs: Sequence[int] = ()
    repairs: Mapping[int, int] = field(default_factory=dict)


@dataclass(frozen=True)
class AgreedSection:
    """A section that an end agreed on: the rows that both ends have, and the SSRCs that the other end names."""

    mid: str
    is_video: bool
    direction: Direction
    rows: tuple[Row, ...]
    ssrcs: tuple[int, ...]


@dataclass(frozen=True)
class Remote:
    """What a browser's last text tells of its transport."""

    ufrag: str | None
    password: str | None
    fingerprint: str | None
    setup: Setup | None
    own_setup: Setup | None
    candidates: tuple[str, ...]
    is_trickling: bool
    is_lite: bool


class Verdict(Enum):
    """What an end says of a datagram that no stream takes."""

    UNREADABLE = Code.UNREADABLE
    FOREIGN = Code.FOREIGN
    DAMAGED = Code.DAMAGED
    REFUSED = Code.REFUSED


VERDICTS = {int(verdict.value): verdict for verdict in Verdict}


class Taken(NamedTuple):
    """The stream that took a datagram, and its widened sequence number."""

    stream: int
    number: int


@dataclass(frozen=True)
class Arrival:
    """How a datagram arrives at a receiving stream."""

    stream: int
    low: int
    timestamp: int
    marker: bool
    payload: bytes
    values: Values


def flow(direction: Direction) -> tuple[bool, bool]:
    """Whether it sends, and whether it receives."""
    if not isinstance(direction, Direction):
        raise TypeError(f"direction has to be a Direction, not {type(direction).__name__}")
    return direction.value


def numbers(ssrcs: Sequence[int]) -> tuple[Any, int]:
    """The SSRCs of a section for a call."""
    found = each_of("ssrcs", ssrcs, U32)
    return (c_uint32 * max(len(found), 1))(*found), len(found)


def pairs(repairs: Mapping[int, int]) -> list[tuple[int, int]]:
    """The SSRCs of a section that are repaired, each with that of its repairs."""
    return [(u32("repairs", ssrc), u32("repairs", repair)) for ssrc, repair in repairs.items()]


def verdict_of(code: int) -> Verdict:
    """What an end says of a datagram that it doesn't take."""
    if (verdict := VERDICTS.get(code)) is None:
        raise Refused(code)
    return verdict


def opening(mid: str, ssrc: int, payload_type: int) -> tuple[bytes, int, int, Place]:
    """What names a stream that is to be opened: the mid's bytes, the SSRC and the payload type; and its place."""
    ssrc, payload_type = u32("ssrc", ssrc), u8("payload_type", payload_type)
    place = Place(mids=(mid,), ssrc=ssrc, payload_type=payload_type)
    return mid_of(mid, place), ssrc, payload_type, place
