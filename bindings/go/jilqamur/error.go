package jilqamur

// #include "jilqamur.h"
import "C"

import (
	"strconv"
	"strings"
	"unicode/utf8"
)

// An Error is why a call is refused: a code of jilqamur.h, which says for each call which ones it has and in
// which order they are tested. Compare it with the constants below by [errors.Is], since what a call returns may be a
// [Refusal], which tells the place too.
type Error uint32

// The codes.
const (
	ErrMemory             Error = 1  // memory ran out
	ErrInUse              Error = 2  // the handle is open already; no call of this package returns it
	ErrClosed             Error = 3  // the value is closed
	ErrUnreadable         Error = 4  // the bytes don't begin with an RTP header
	ErrDamaged            Error = 5  // padding, an empty payload, or redundancy that can't be read
	ErrRefused            Error = 6  // the number came before, or is 1,024 or more below the greatest
	ErrUnwritable         Error = 7  // a payload type above 127, or more than 15 contributing sources
	ErrTooSmall           Error = 8  // the buffer is too small
	ErrNotText            Error = 9  // the bytes are no UTF-8
	ErrOutOfRange         Error = 10 // a number is out of its range, or a codec has no payload format
	ErrNotMade            Error = 11 // the end was not made yet
	ErrNothing            Error = 12 // there is nothing of that kind
	ErrForeign            Error = 13 // no receiving stream has the SSRC and payload type
	ErrNoStream           Error = 14 // no stream of that direction has this number
	ErrRowNotPlain        Error = 15 // an end can't agree on a row of this kind
	ErrTypesNotDistinct   Error = 16 // a payload type means two things
	ErrNotWritable        Error = 17 // the text of an offer or answer, or a URI, can't be written
	ErrTextUnreadable     Error = 18 // the text isn't that of an offer or an answer
	ErrOutOfTurn          Error = 19 // an offer is pending, or none is
	ErrNotMedia           Error = 20 // a section of the text is neither audio nor video
	ErrNotCorresponding   Error = 21 // the sections don't correspond
	ErrRound              Error = 22 // the rows can't be settled against the other end's
	ErrNoCommonRow        Error = 23 // a section would list no row
	ErrNoSection          Error = 24 // no section of this name is agreed
	ErrRowNotAgreed       Error = 25 // no row of this type is agreed
	ErrRowDiffers         Error = 26 // the end's own row differs from the agreed one
	ErrWrongDirection     Error = 27 // the section does not flow this way
	ErrSSRCNotNamed       Error = 28 // the sender's section does not name this SSRC
	ErrAlreadyOpen        Error = 29 // such a stream is open already
	ErrStreamFailed       Error = 30 // the stream sends no more
	ErrTimeTooLarge       Error = 31 // the time does not fit 64 bits at the stream's clock
	ErrLimitTooSmall      Error = 32 // a datagram would exceed the limit
	ErrPayload            Error = 33 // the codec refuses the sample or the payload
	ErrPacketTooShort     Error = 34 // the packet has fewer bytes than its format needs
	ErrSampleTooLarge     Error = 35 // the sample can't be cut, and exceeds the limit
	ErrTooManyReferences  Error = 36 // a VP9 descriptor lists a fourth reference (RFC 9628, section 4.2)
	ErrH265Corrupted      Error = 37 // an H.265 packet breaks its format (RFC 7798, section 4.4)
	ErrH266Corrupted      Error = 38 // an H.266 packet breaks its format (RFC 9328, section 4.3)
	ErrAggregateCutShort  Error = 39 // an aggregated unit exceeds its packet (RFC 6184, section 5.7.1)
	ErrUnitTypeNotHandled Error = 40 // no packet of this unit type is read (RFC 6184, RFC 7798, RFC 9328)
	ErrVP8Corrupted       Error = 41 // a VP8 descriptor breaks its format (RFC 7741, section 4.2)
	ErrVP9Corrupted       Error = 42 // a VP9 descriptor breaks its format (RFC 9628, section 4.2)
	ErrAV1Corrupted       Error = 43 // an AV1 packet breaks its format
	ErrREDCorrupted       Error = 44 // a redundant payload breaks its format (RFC 2198, section 3)
	ErrEventInvalid       Error = 45 // event reports are no nonempty multiple of four bytes (RFC 4733, section 2.3)
	ErrAMRWBCorrupted     Error = 46 // an AMR-WB packet or sample breaks its format (RFC 4867, section 4.3)
	ErrNoRepair           Error = 47 // the stream has no pair for repairs, or sends redundancy (RFC 4588, section 8.3)
	ErrNotOwn             Error = 48 // the datagram isn't one that the stream sent
	ErrRestUnread         Error = 49 // a line fits nowhere, and what follows would be lost
	ErrMidNotKept         Error = 50 // a mid has more than 16 bytes, or other signs than letters, digits and _
	ErrMidTwice           Error = 51 // two sections have one mid
	ErrSectionRejected    Error = 52 // the browser rejects a section: withdraw the offer, and make it without
	ErrSeveralBundles     Error = 53 // there are several bundles, and so several transports (RFC 9143)
	ErrOutsideBundle      Error = 54 // a section is in no bundle, and so has a transport of its own
	ErrNothingLeft        Error = 55 // no section is left for the end
	ErrKeysAlone          Error = 56 // a section has keys, and there is no fingerprint for it
	ErrUfragNotFit        Error = 57 // the ICE ufrag isn't 4 to 256 letters, digits, + and / (RFC 8839, section 5.4)
	ErrPasswordNotFit     Error = 58 // the ICE password isn't 22 to 256 of them
	ErrSetupNotFit        Error = 59 // the setup isn't one that may be said (RFC 8842, section 5.3)
	ErrAddsRedundancy     Error = 60 // the stream adds redundancy (RFC 2198)
	ErrNumberTooLarge     Error = 61 // the sequence number is 2^62 or above
	ErrNoPayload          Error = 62 // the packet has no payload
)

// names are those of the header without the prefix, by code.
var names = [...]string{
	"OK", "MEMORY", "IN_USE", "CLOSED", "UNREADABLE", "DAMAGED", "REFUSED", "UNWRITABLE", "TOO_SMALL", "NOT_TEXT",
	"OUT_OF_RANGE", "NOT_MADE", "NOTHING", "FOREIGN", "NO_STREAM", "ROW_NOT_PLAIN", "TYPES_NOT_DISTINCT",
	"NOT_WRITABLE", "TEXT_UNREADABLE", "OUT_OF_TURN", "NOT_MEDIA", "NOT_CORRESPONDING", "ROUND", "NO_COMMON_ROW",
	"NO_SECTION", "ROW_NOT_AGREED", "ROW_DIFFERS", "WRONG_DIRECTION", "SSRC_NOT_NAMED", "ALREADY_OPEN",
	"STREAM_FAILED", "TIME_TOO_LARGE", "LIMIT_TOO_SMALL", "PAYLOAD", "PACKET_TOO_SHORT", "SAMPLE_TOO_LARGE",
	"TOO_MANY_REFERENCES", "H265_CORRUPTED", "H266_CORRUPTED", "AGGREGATE_CUT_SHORT", "UNIT_TYPE_NOT_HANDLED",
	"VP8_CORRUPTED", "VP9_CORRUPTED", "AV1_CORRUPTED", "RED_CORRUPTED", "EVENT_INVALID", "AMR_WB_CORRUPTED",
	"NO_REPAIR", "NOT_OWN", "REST_UNREAD", "MID_NOT_KEPT", "MID_TWICE", "SECTION_REJECTED", "SEVERAL_BUNDLES",
	"OUTSIDE_BUNDLE", "NOTHING_LEFT", "KEYS_ALONE", "UFRAG_NOT_FIT", "PASSWORD_NOT_FIT", "SETUP_NOT_FIT",
	"ADDS_REDUNDANCY", "NUMBER_TOO_LARGE", "NO_PAYLOAD",
}

// Name is the code's name in jilqamur.h, as JILQAMUR_NO_SECTION.
func (e Error) Name() string {
	if int(e) < len(names) {
		return "JILQAMUR_" + names[e]
	}
	return "Error(" + strconv.FormatUint(uint64(e), 10) + ")"
}

// Text is what the code means, in words.
func (e Error) Text() string { return C.GoString(C.jilqamur_error_text(C.uint32_t(e))) }

// Error is the text and the name.
func (e Error) Error() string { return "jilqamur: " + e.Text() + " (" + e.Name() + ")" }

// A Place is a row, a header extension, sections, a stream that was to be opened or is open, or a codec.
type Place struct {
	Codec       string           // of a row, or a codec by itself
	PayloadType Optional[uint8]  // of a row, or of a stream that was to be opened
	ID          Optional[uint8]  // of a header extension
	URI         string           // of a header extension
	Mids        []string         // of sections, one of which it is about
	SSRC        Optional[uint32] // of a stream that was to be opened
	Stream      Optional[int]    // the number of a stream
}

// String is the place in words.
func (p Place) String() string {
	number := func(n uint64) string { return strconv.FormatUint(n, 10) }
	switch {
	case p.Codec != "" && p.PayloadType.Valid:
		return "row " + p.Codec + " at type " + number(uint64(p.PayloadType.Value))
	case p.ID.Valid:
		return "extension " + p.URI + " at id " + number(uint64(p.ID.Value))
	case p.Stream.Valid:
		return "stream " + strconv.Itoa(p.Stream.Value)
	case p.SSRC.Valid:
		return "section " + strings.Join(p.Mids, ", ") + ", SSRC " + number(uint64(p.SSRC.Value)) + ", type " +
			number(uint64(p.PayloadType.Value))
	case len(p.Mids) == 1:
		return "section " + p.Mids[0]
	case len(p.Mids) > 1:
		return "sections " + strings.Join(p.Mids, ", ")
	}
	return "codec " + p.Codec
}

// A Refusal is why a call is refused, and what about. [errors.Is] compares it with the codes.
type Refusal struct {
	Code  Error
	Place Place
}

// Error is the text and the place, and the code's name.
func (r *Refusal) Error() string {
	return "jilqamur: " + r.Code.Text() + " (" + r.Place.String() + ", " + r.Code.Name() + ")"
}

// Unwrap is the code.
func (r *Refusal) Unwrap() error { return r.Code }

// at is an error with its place, unless it is about the whole end or its text.
func at(err error, place func() Place) error {
	code, isCode := err.(Error)
	if !isCode {
		return err
	}
	switch code {
	case ErrMemory, ErrClosed, ErrNotMade, ErrOutOfTurn, ErrTextUnreadable, ErrRestUnread:
		return err
	}
	return &Refusal{code, place()}
}

// ofStream is the same of a stream, by its number.
func ofStream(err error, stream int) error {
	return at(err, func() Place { return Place{Stream: Some(stream)} })
}

// ofOpening is the same of a stream that was to be opened.
func ofOpening(err error, mid string, ssrc uint32, payloadType uint8) error {
	return at(err, func() Place {
		return Place{Mids: []string{mid}, SSRC: Some(ssrc), PayloadType: Some(payloadType)}
	})
}

// ofCodec is the same of a codec.
func ofCodec(err error, codec string) error {
	return at(err, func() Place { return Place{Codec: codec} })
}

// keepsMid tells whether a mid is kept as it is: of at most 16 bytes, each a letter, a digit or _. It returns
// [ErrMidNotKept], or [ErrNotText].
func keepsMid(mid string) error {
	if !utf8.ValidString(mid) {
		return ErrNotText
	}
	if len(mid) > 16 {
		return ErrMidNotKept
	}
	for k := 0; k < len(mid); k++ {
		c := mid[k]
		if !(c == '_' || '0' <= c && c <= '9' || 'a' <= c && c <= 'z' || 'A' <= c && c <= 'Z') {
			return ErrMidNotKept
		}
	}
	return nil
}

// done makes an error of what a call answers.
func done(answer C.uint32_t) error {
	if answer == C.JILQAMUR_OK {
		return nil
	}
	return Error(answer)
}
