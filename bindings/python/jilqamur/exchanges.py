"""Offers and answers of ends, with each other and with browsers."""

from collections.abc import Callable, Iterable
from ctypes import byref

from .checks import mid_of, u8
from .codes import Code, Place, done
from .library import c_uint32, fetched, fetched_if, lib
from .sections import AgreedSection, Direction, Remote, Section, SectionRequest, Setup, flow, numbers, pairs
from .streams import UnitOwner
from .structs import RemoteStruct, RowStruct, SectionStruct
from .values import Row, data, text


class Exchanges(UnitOwner):
    """What an end says and hears by texts."""

    def _gathered(self, gather: Callable[[], None], exchange: Callable[..., int], undo: Callable[..., int],
                  offer: tuple[bytes, int] | None, place: Place | None) -> str:
        """The text of an exchange. What was gathered for it is used up, whatever happens."""
        with self._lock:
            try:
                gather()
                code = exchange(self._at) if offer is None else exchange(self._at, *offer)
            except BaseException:
                undo(self._at, b"", 0)
                raise
            done(code, place)
            return self._text()

    def _exchange(self, exchange: Callable[..., int], sections: Iterable[Section],
                  offer: tuple[bytes, int] | None) -> str:
        sections = list(sections)
        place = Place(mids=tuple(section.mid for section in sections))
        given = [(mid_of(section.mid, place), bool(section.is_video), flow(section.direction),
                  numbers(section.ssrcs), pairs(section.repairs)) for section in sections]

        def gather() -> None:
            for mid, is_video, direction, ssrcs, repairs in given:
                for ssrc, repair in repairs:
                    done(lib.end_section_repair(self._at, ssrc, repair))
                done(lib.end_section(self._at, mid, len(mid), is_video, *direction, *ssrcs), place)

        return self._gathered(gather, exchange, lib.end_answer, offer, place)

    def _text(self) -> str:
        return fetched(lib.end_text, self._at).decode()

    def offer(self, sections: Iterable[Section]) -> str:
        """The text of an offer of these sections (RFC 3264 5), which is then pending."""
        return self._exchange(lib.end_offer, sections, None)

    def answer(self, offer: str, sections: Iterable[Section]) -> str:
        """The text of the answer to an offer, with these sections (RFC 3264 6); they are then agreed."""
        return self._exchange(lib.end_answer, sections, text("offer", offer))

    def accept(self, answer: str) -> None:
        """Takes the answer to the pending offer (RFC 3264 7)."""
        with self._lock:
            done(lib.end_accept(self._at, *text("answer", answer)))

    def withdraw(self) -> bool:
        """Gives a pending offer up, and says whether there was one."""
        with self._lock:
            code = lib.end_withdraw(self._at)
        if code != Code.NOTHING:
            done(code)
        return code == Code.OK

    def answer_browser(self, offer: str, requests: Iterable[SectionRequest | None]) -> str:
        """The end's answer to a browser's offer, by a request for each section; `for_browser` makes it one for the
        browser. Sections without a row in common are rejected alone."""
        wanted = [(request is not None, request or SectionRequest(Direction.INACTIVE)) for request in requests]
        given = [(is_accepted, flow(request.direction), numbers(request.ssrcs), pairs(request.repairs))
                 for is_accepted, request in wanted]

        def gather() -> None:
            for is_accepted, direction, ssrcs, repairs in given:
                for ssrc, repair in repairs:
                    done(lib.end_section_repair(self._at, ssrc, repair))
                done(lib.end_request(self._at, is_accepted, *direction, *ssrcs))

        return self._gathered(gather, lib.end_answer_browser, lib.end_answer_browser, text("offer", offer), None)

    def accept_browser(self, answer: str) -> None:
        """Takes a browser's answer to the pending offer."""
        with self._lock:
            done(lib.end_accept_browser(self._at, *text("answer", answer)))

    def for_browser(self, own: str, setup: Setup, ufrag: str, password: str, digest: bytes, hash: str = "sha-256",
                    is_lite: bool = False) -> str:
        """An offer's or answer's text of this end, made one for a browser: with the lines of this transport."""
        given = [*text("ufrag", ufrag), *text("password", password), *text("hash", hash), *data("digest", digest)]
        with self._lock:
            done(lib.end_for_browser(self._at, *text("own", own), u8("setup", setup), bool(is_lite), *given))
            return self._text()

    def take_types(self, said: str) -> None:
        """Takes the payload types of the agreed sections from a text, each from the section of its name: streams that
        are opened from then on have the types, those of retransmissions and those of redundancy that this section
        lists. Hand it what `for_browser` makes of an answer, and a browser's answer after `accept_browser`: a section
        may list fewer types than others."""
        with self._lock:
            done(lib.end_take_types(self._at, *text("said", said)))

    def remote(self) -> Remote:
        """What the last text of a browser tells of its transport."""
        told = RemoteStruct()
        with self._lock:
            done(lib.end_remote(self._at, byref(told)))
            parts = [fetched_if(lib.end_remote_text, self._at, part) for part in range(3)]
            candidates = [fetched(lib.end_remote_candidate, self._at, index) for index in range(told.candidates)]
        ufrag, password, fingerprint = (part if part is None else part.decode() for part in parts)
        return Remote(ufrag, password, fingerprint, Setup(told.setup) if told.has_setup else None,
                      Setup(told.own_setup) if told.has_own_setup else None,
                      tuple(candidate.decode() for candidate in candidates), told.is_trickling, told.is_lite)

    def agreed_sections(self) -> list[AgreedSection]:
        """The sections that were agreed on last, in the order of the texts."""
        found: list[AgreedSection] = []
        with self._lock:
            while (section := self._agreed_section(len(found))) is not None:
                found.append(section)
        return found

    def _agreed_section(self, at: int) -> AgreedSection | None:
        told = SectionStruct()
        mid = fetched_if(lib.end_agreed_section, self._at, at, after=(byref(told),))
        if mid is None:
            return None
        rows = tuple(self._agreed_row(at, index) for index in range(told.rows))
        ssrcs = tuple(self._agreed_ssrc(at, index) for index in range(told.ssrcs))
        return AgreedSection(mid.decode(), told.is_video, Direction((told.sends, told.receives)), rows, ssrcs)

    def _agreed_row(self, section: int, index: int) -> Row:
        told = RowStruct()
        codec = fetched(lib.end_agreed_row, self._at, section, index, after=(byref(told),)).decode()
        maybe = {name: getattr(told, name) if getattr(told, f"has_{name}") else None
                 for name in ("channels", "resend", "red")}
        return Row(told.payload_type, codec, told.clock_rate, **maybe)

    def _agreed_ssrc(self, section: int, index: int) -> int:
        ssrc = c_uint32()
        done(lib.end_agreed_ssrc(self._at, section, index, byref(ssrc)))
        return ssrc.value
