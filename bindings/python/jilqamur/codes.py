"""What calls of the library answer, by number, and what that means."""

from dataclasses import dataclass
from enum import IntEnum


class Code(IntEnum):
    """What a call answers, as jilqamur.h numbers it."""

    OK = 0
    MEMORY = 1
    IN_USE = 2
    CLOSED = 3
    UNREADABLE = 4
    DAMAGED = 5
    REFUSED = 6
    UNWRITABLE = 7
    TOO_SMALL = 8
    NOT_TEXT = 9
    OUT_OF_RANGE = 10
    NOT_MADE = 11
    NOTHING = 12
    FOREIGN = 13
    NO_STREAM = 14
    ROW_NOT_PLAIN = 15
    TYPES_NOT_DISTINCT = 16
    NOT_WRITABLE = 17
    TEXT_UNREADABLE = 18
    OUT_OF_TURN = 19
    NOT_MEDIA = 20
    NOT_CORRESPONDING = 21
    ROUND = 22
    NO_COMMON_ROW = 23
    NO_SECTION = 24
    ROW_NOT_AGREED = 25
    ROW_DIFFERS = 26
    WRONG_DIRECTION = 27
    SSRC_NOT_NAMED = 28
    ALREADY_OPEN = 29
    STREAM_FAILED = 30
    TIME_TOO_LARGE = 31
    LIMIT_TOO_SMALL = 32
    PAYLOAD = 33
    PACKET_TOO_SHORT = 34
    SAMPLE_TOO_LARGE = 35
    TOO_MANY_REFERENCES = 36
    H265_CORRUPTED = 37
    H266_CORRUPTED = 38
    AGGREGATE_CUT_SHORT = 39
    UNIT_TYPE_NOT_HANDLED = 40
    VP8_CORRUPTED = 41
    VP9_CORRUPTED = 42
    AV1_CORRUPTED = 43
    RED_CORRUPTED = 44
    EVENT_INVALID = 45
    AMR_WB_CORRUPTED = 46
    NO_REPAIR = 47
    NOT_OWN = 48
    REST_UNREAD = 49
    MID_NOT_KEPT = 50
    MID_TWICE = 51
    SECTION_REJECTED = 52
    SEVERAL_BUNDLES = 53
    OUTSIDE_BUNDLE = 54
    NOTHING_LEFT = 55
    KEYS_ALONE = 56
    UFRAG_NOT_FIT = 57
    PASSWORD_NOT_FIT = 58
    SETUP_NOT_FIT = 59
    ADDS_REDUNDANCY = 60
    NUMBER_TOO_LARGE = 61
    NO_PAYLOAD = 62


TEXTS = {
    Code.OK: "done",
    Code.MEMORY: "out of memory",
    Code.IN_USE: "the handle holds an object already",
    Code.CLOSED: "the handle holds no object",
    Code.UNREADABLE: "no RTP header stands in front of the bytes",
    Code.DAMAGED: "the padding does not fit",
    Code.REFUSED: "the number came before or too late",
    Code.UNWRITABLE: "the payload type or the count of sources is too large",
    Code.TOO_SMALL: "the buffer is too small",
    Code.NOT_TEXT: "the bytes are no text",
    Code.OUT_OF_RANGE: "a number is out of range",
    Code.NOT_MADE: "the end was not made yet",
    Code.NOTHING: "there is nothing of that kind",
    Code.FOREIGN: "no stream has this SSRC and payload type",
    Code.NO_STREAM: "no such stream is open",
    Code.ROW_NOT_PLAIN: "a row is not plain",
    Code.TYPES_NOT_DISTINCT: "a payload type stands for two things",
    Code.NOT_WRITABLE: "the text can't be written",
    Code.TEXT_UNREADABLE: "the text can't be read",
    Code.OUT_OF_TURN: "this call is out of turn",
    Code.NOT_MEDIA: "a section is no media",
    Code.NOT_CORRESPONDING: "the sections do not correspond",
    Code.ROUND: "the rows can't be settled",
    Code.NO_COMMON_ROW: "a section would list no row",
    Code.NO_SECTION: "no such section is agreed",
    Code.ROW_NOT_AGREED: "no row of this type is agreed",
    Code.ROW_DIFFERS: "the end's own row differs from the agreed one",
    Code.WRONG_DIRECTION: "the section does not flow this way",
    Code.SSRC_NOT_NAMED: "the sender's section does not name this SSRC",
    Code.ALREADY_OPEN: "such a stream is open already",
    Code.STREAM_FAILED: "the stream sends no more",
    Code.TIME_TOO_LARGE: "the time is too large",
    Code.LIMIT_TOO_SMALL: "a datagram would pass the limit",
    Code.PAYLOAD: "the payload is refused",
    Code.PACKET_TOO_SHORT: "the packet is too short",
    Code.SAMPLE_TOO_LARGE: "the sample is larger than the limit",
    Code.TOO_MANY_REFERENCES: "too many references",
    Code.H265_CORRUPTED: "corrupted H.265 packet",
    Code.H266_CORRUPTED: "corrupted H.266 packet",
    Code.AGGREGATE_CUT_SHORT: "an aggregated unit passes the end of its packet",
    Code.UNIT_TYPE_NOT_HANDLED: "a unit of this type is not handled",
    Code.VP8_CORRUPTED: "corrupted VP8 packet",
    Code.VP9_CORRUPTED: "corrupted VP9 packet",
    Code.AV1_CORRUPTED: "corrupted AV1 packet",
    Code.RED_CORRUPTED: "corrupted redundant packet",
    Code.EVENT_INVALID: "invalid telephone event",
    Code.AMR_WB_CORRUPTED: "corrupted AMR-WB packet",
    Code.NO_REPAIR: "the stream has no pair for repairs",
    Code.NOT_OWN: "the stream did not send this datagram",
    Code.REST_UNREAD: "the text has a rest that can't be read",
    Code.MID_NOT_KEPT: "the name of a section can't be kept",
    Code.MID_TWICE: "two sections have one name",
    Code.SECTION_REJECTED: "a section is rejected",
    Code.SEVERAL_BUNDLES: "there are several bundles",
    Code.OUTSIDE_BUNDLE: "a section is outside of the bundle",
    Code.NOTHING_LEFT: "no section is left",
    Code.KEYS_ALONE: "a section has keys and no fingerprint",
    Code.UFRAG_NOT_FIT: "the name of ICE doesn't fit",
    Code.PASSWORD_NOT_FIT: "the password of ICE doesn't fit",
    Code.SETUP_NOT_FIT: "the setup doesn't fit",
    Code.ADDS_REDUNDANCY: "the stream adds redundancy",
    Code.NUMBER_TOO_LARGE: "the number is too large",
    Code.NO_PAYLOAD: "there is no payload",
}


# What isn't about one row, section or stream, but about the whole end or its text.
OF_THE_END = {Code.MEMORY, Code.NOT_MADE, Code.OUT_OF_TURN, Code.TEXT_UNREADABLE, Code.REST_UNREAD, Code.CLOSED}


@dataclass(frozen=True)
class Place:
    """What a refused call was about: a row (`codec`, `payload_type`), a header extension (`extension`, its id, and
    `uri`), sections (`mids`), a stream that was to be opened (`mids`, `ssrc`, `payload_type`), or one that is open
    (`stream`, its number), or a codec."""

    codec: str | None = None
    payload_type: int | None = None
    extension: int | None = None
    uri: str | None = None
    mids: tuple[str, ...] = ()
    ssrc: int | None = None
    stream: int | None = None

    def __str__(self) -> str:
        if self.codec is not None:
            if self.payload_type is None:
                return f"codec {self.codec}"
            return f"row {self.codec} at type {self.payload_type}"
        if self.extension is not None:
            return f"extension {self.uri} at id {self.extension}"
        if self.ssrc is not None:
            return f"section {self.mids[0]}, SSRC {self.ssrc}, type {self.payload_type}"
        if self.stream is not None:
            return f"stream {self.stream}"
        return f"section{'s' if len(self.mids) > 1 else ''} {', '.join(self.mids)}"


class Refused(Exception):
    """A call was refused: `code` says why, `place` what about, as far as that is known, and the object that was asked
    is as its method tells."""

    def __init__(self, code: int, place: Place | None = None) -> None:
        self.code = Code(code)
        self.place = None if self.code in OF_THE_END else place
        super().__init__(TEXTS[self.code] if self.place is None else f"{TEXTS[self.code]} ({self.place})")

    def __reduce__(self) -> tuple[type["Refused"], tuple[Code, Place | None]]:
        return Refused, (self.code, self.place)


def done(code: int, place: Place | None = None) -> None:
    """Nothing if the call was done; else it is raised why it wasn't, and what about."""
    if code:
        raise Refused(code, place)


def done_of(code: int, stream: int | None) -> None:
    """The same of a call about a stream, by its number."""
    if code:
        raise Refused(code, None if stream is None else Place(stream=stream))
