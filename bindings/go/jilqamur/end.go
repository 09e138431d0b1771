package jilqamur

// #include "jilqamur.h"
import "C"

import "strings"

// The least and the greatest number of packets that a receiving stream or a depacketizer may hold at most.
const (
	MinHeld = 4096
	MaxHeld = 16384
)

// A Kind is audio or video.
type Kind uint8

// The kinds.
const (
	Audio Kind = iota
	Video
)

// String is the word of SDP.
func (k Kind) String() string {
	if k == Video {
		return "video"
	}
	return "audio"
}

// A Direction is which way media flows, as an end sees it.
type Direction uint8

// The directions (RFC 8866, section 6.7).
const (
	SendRecv Direction = iota
	SendOnly
	RecvOnly
	Inactive
)

// Sends tells whether media flows from the end.
func (d Direction) Sends() bool { return d == SendRecv || d == SendOnly }

// Receives tells whether media flows to the end.
func (d Direction) Receives() bool { return d == SendRecv || d == RecvOnly }

// String is the word of SDP.
func (d Direction) String() string {
	switch {
	case d == SendRecv:
		return "sendrecv"
	case d == SendOnly:
		return "sendonly"
	case d == RecvOnly:
		return "recvonly"
	}
	return "inactive"
}

func directionOf(sends, receives C.bool) Direction {
	switch {
	case bool(sends && receives):
		return SendRecv
	case bool(sends):
		return SendOnly
	case bool(receives):
		return RecvOnly
	}
	return Inactive
}

// A Row is a payload type, and what it means.
type Row struct {
	PayloadType uint8           // 0 to 127
	Codec       string          // opus, PCMU, PCMA, G722, CN, AMR-WB, telephone-event, VP8, VP9, AV1, H264, H265, H266
	ClockRate   uint32          // ticks a second, at least 1; of G722 16,000, or 8,000 as in texts
	Channels    Optional[uint8] // how many channels, if the row names them
	Resend      Optional[uint8] // the type of its retransmissions (RFC 4588)
	RED         Optional[uint8] // its RED type (RFC 2198)
	Format      string          // what follows the type in its a=fmtp line; agreed rows don't tell it
}

// clockRates are those of codecs by their names in lower case.
var clockRates = map[string]uint32{
	"opus": 48000, "pcmu": 8000, "pcma": 8000, "g722": 8000, "cn": 8000, "amr-wb": 16000, "telephone-event": 8000,
	"vp8": 90000, "vp9": 90000, "av1": 90000, "h264": 90000, "h265": 90000, "h266": 90000,
}

// NewRow is the row of a codec at this payload type, with its usual clock rate and channels, and without format
// parameters. Names are those of [Row], in any case; it returns [ErrOutOfRange] for any other.
func NewRow(codec string, payloadType uint8) (Row, error) {
	clockRate, isKnown := clockRates[strings.ToLower(codec)]
	if !isKnown {
		return Row{}, ErrOutOfRange
	}
	row := Row{PayloadType: payloadType, Codec: codec, ClockRate: clockRate}
	if strings.EqualFold(codec, "opus") {
		row.Channels = Some(uint8(2))
	}
	return row, nil
}

// An Extension gives the header extension of a URI an id, 1 to 16 (RFC 8285).
type Extension struct {
	ID  uint8
	URI string
}

// A Config is what an end is made of.
type Config struct {
	Rows        []Row       // what it can send and receive
	DefaultRows bool        // whether the default rows of Opus, VP8, H.264, H.265, VP9 and AV1 follow
	Extensions  []Extension // its header extensions; of two with one id the later one has it
	Session     uint64      // the number of the session in its texts (RFC 8866, section 5.2)
}

// An End is an endpoint of a session: what it offers, what it agreed on with the other end, and its streams.
type End struct{ owner owner[C.jilqamur_end] }

func (e *End) own() *owner[C.jilqamur_end] {
	if e == nil {
		return nil
	}
	return &e.owner
}

// NewEnd makes an end that has agreed on nothing. It returns [ErrOutOfRange] for a clock rate of 0 or an id that isn't
// 1 to 16, or [ErrNotText]; else the first that applies of [ErrRowNotPlain], [ErrTypesNotDistinct] and
// [ErrNotWritable]; or [ErrMemory]. The error names the first row or extension for which the end is refused.
func NewEnd(config Config) (*End, error) {
	e, err := opened(config)
	if code, isCode := err.(Error); isCode {
		if place, isFound := config.culprit(code); isFound {
			err = at(err, func() Place { return place })
		}
	}
	return e, err
}

func opened(config Config) (*End, error) {
	e := &End{}
	err := e.owner.open(func(end *C.jilqamur_end) C.uint32_t { return C.jilqamur_end_open(end) },
		func(end *C.jilqamur_end) C.uint32_t { return C.jilqamur_end_close(end) })
	if err == nil {
		if err = e.make(config); err == nil {
			return e, nil
		}
		e.Close()
	}
	return nil, err
}

// culprit is the first row, or else the first extension, with which an end is refused so.
func (c Config) culprit(code Error) (Place, bool) {
	isRefused := func(rows []Row, extensions []Extension) bool {
		e, err := opened(Config{Rows: rows, Extensions: extensions})
		if err == nil {
			e.Close()
		}
		return err == code
	}
	for k, row := range c.Rows {
		if isRefused(c.Rows[:k+1], nil) {
			return row.place(), true
		}
	}
	for k, extension := range c.Extensions {
		if isRefused(nil, c.Extensions[:k+1]) {
			return extension.place(), true
		}
	}
	return Place{}, false
}

func (r Row) place() Place { return Place{Codec: r.Codec, PayloadType: Some(r.PayloadType)} }

func (x Extension) place() Place { return Place{ID: Some(x.ID), URI: x.URI} }

func (e *End) make(config Config) error {
	for _, row := range config.Rows {
		if err := e.row(row); err != nil {
			return at(err, row.place)
		}
	}
	if config.DefaultRows {
		err := e.own().use(func(end *C.jilqamur_end) C.uint32_t { return C.jilqamur_end_default_rows(end) })
		if err != nil {
			return err
		}
	}
	for _, extension := range config.Extensions {
		if err := e.extension(extension); err != nil {
			return at(err, extension.place)
		}
	}
	session := C.uint64_t(config.Session)
	return e.own().use(func(end *C.jilqamur_end) C.uint32_t { return C.jilqamur_end_make(end, session) })
}

func (e *End) row(row Row) error {
	given := C.jilqamur_row{
		payload_type: C.uint8_t(row.PayloadType), clock_rate: C.uint32_t(row.ClockRate),
		has_channels: C.bool(row.Channels.Valid), channels: C.uint8_t(row.Channels.Value),
		has_resend: C.bool(row.Resend.Valid), resend: C.uint8_t(row.Resend.Value),
		has_red: C.bool(row.RED.Valid), red: C.uint8_t(row.RED.Value),
	}
	codec, codecSize := placeOf(row.Codec)
	format, formatSize := placeOf(row.Format)
	return e.own().use(func(end *C.jilqamur_end) C.uint32_t {
		return C.jilqamur_end_row(end, &given, codec, codecSize, format, formatSize)
	})
}

func (e *End) extension(extension Extension) error {
	uri, size := placeOf(extension.URI)
	return e.own().use(func(end *C.jilqamur_end) C.uint32_t {
		return C.jilqamur_end_extension(end, C.uint8_t(extension.ID), uri, size)
	})
}

// Close frees all that the end holds, once a call of another goroutine has ended. It returns [ErrClosed] if it was
// closed.
func (e *End) Close() error { return e.own().close() }
