package jilqamur

// #include "calls.h"
import "C"

// A Format is how payloads are read and written, beside their codec.
type Format struct {
	ClockRate  uint32           // ticks a second, at least 1
	OctetAlign Optional[bool]   // whether AMR-WB is octet-aligned (RFC 4867, section 8.1)
	MaxDonDiff Optional[uint16] // sprop-max-don-diff of H.265 and H.266
}

func (f Format) given() C.jilqamur_format {
	return C.jilqamur_format{
		clock_rate: C.uint32_t(f.ClockRate), has_octet_align: C.bool(f.OctetAlign.Valid),
		octet_align: C.bool(f.OctetAlign.Value), has_max_don_diff: C.bool(f.MaxDonDiff.Valid),
		max_don_diff: C.uint16_t(f.MaxDonDiff.Value),
	}
}

// PacketizerParams say how a packetizer counts pictures, and which forms it writes.
type PacketizerParams struct {
	PictureID   Optional[uint16] // VP8's and VP9's first picture id, at most 32,767; without one VP9 begins at 0
	ForBrowsers bool             // whether VP8 writes the picture id 0, and VP9 tells which frames are predicted
}

// A Packet is a payload, and the marker bit of its RTP header.
type Packet struct {
	Payload []byte
	Marker  bool
}

// A Packetizer cuts samples of a codec into payloads.
type Packetizer struct{ owner owner[C.jilqamur_packetizer] }

func (p *Packetizer) own() *owner[C.jilqamur_packetizer] {
	if p == nil {
		return nil
	}
	return &p.owner
}

// NewPacketizer opens a packetizer of a codec of the names of [Row], in any case. It returns [ErrOutOfRange] for a
// picture id above 32,767, a clock rate of 0 or a codec without a payload format, [ErrNotText] or [ErrMemory].
func NewPacketizer(codec string, format Format, params PacketizerParams) (*Packetizer, error) {
	p := &Packetizer{}
	of, given := format.given(), C.jilqamur_packetizer_params{
		has_picture_id: C.bool(params.PictureID.Valid), picture_id: C.uint16_t(params.PictureID.Value),
		for_browsers: C.bool(params.ForBrowsers),
	}
	name, size := placeOf(codec)
	err := p.owner.open(func(packetizer *C.jilqamur_packetizer) C.uint32_t {
		return C.jilqamur_packetizer_open(packetizer, &given, &of, name, size)
	}, func(packetizer *C.jilqamur_packetizer) C.uint32_t { return C.jilqamur_packetizer_close(packetizer) })
	if err != nil {
		return nil, ofCodec(err, codec)
	}
	return p, nil
}

// Packetize cuts a sample into payloads of at most mtu bytes. It returns [ErrOutOfRange] for an mtu below 1, one of
// [ErrPacketTooShort] to [ErrAMRWBCorrupted] if the codec refuses the sample, or [ErrMemory].
func (p *Packetizer) Packetize(mtu int, sample []byte) ([]Packet, error) {
	owned, err := p.own().lock()
	if err != nil {
		return nil, err
	}
	defer owned.mutex.Unlock()
	if mtu < 1 {
		return nil, ErrOutOfRange
	}
	var count C.size_t
	at, size := place(sample)
	if err := done(C.jilqamur_packetizer_packetize(owned.handle, C.size_t(mtu), at, size, &count)); err != nil {
		return nil, err
	}
	packets := make([]Packet, count)
	var marker C.bool
	for k := range packets {
		payload, err := owned.left.piece(func(at *C.uint8_t, size C.size_t, needed *C.size_t) C.uint32_t {
			return C.jilqamur_packetizer_packet(owned.handle, C.size_t(k), at, size, needed, &marker)
		})
		if err != nil {
			return nil, err
		}
		packets[k] = Packet{payload, bool(marker)}
	}
	return packets, nil
}

// Close frees the packetizer, once a call of another goroutine has ended. It returns [ErrClosed] if it was closed.
func (p *Packetizer) Close() error { return p.own().close() }

// A Depacketizer makes units of payloads of a codec, after a buffer that puts packets in order.
type Depacketizer struct {
	owner owner[C.jilqamur_depacketizer]
}

func (d *Depacketizer) own() *owner[C.jilqamur_depacketizer] {
	if d == nil {
		return nil
	}
	return &d.owner
}

// NewDepacketizer opens a depacketizer of a codec of the names of [Row], in any case. It returns [ErrOutOfRange] for
// parameters out of their ranges, a clock rate of 0 or a codec without a payload format, [ErrNotText] or [ErrMemory].
func NewDepacketizer(codec string, format Format, params ReceiverParams) (*Depacketizer, error) {
	holdBack, held, err := params.sizes()
	if err != nil {
		return nil, err
	}
	d, of := &Depacketizer{}, format.given()
	name, size := placeOf(codec)
	err = d.owner.open(func(depacketizer *C.jilqamur_depacketizer) C.uint32_t {
		return C.jilqamur_depacketizer_open(depacketizer, &of, name, size, holdBack, held)
	}, func(depacketizer *C.jilqamur_depacketizer) C.uint32_t {
		return C.jilqamur_depacketizer_close(depacketizer)
	})
	if err != nil {
		return nil, ofCodec(err, codec)
	}
	return d, nil
}

// Push takes a packet by its widened number ([Widen], [Window.Receive]), RTP timestamp, marker bit and payload without
// padding. One whose number is held, or at or below that of the last frame that was handed out or refused, is passed
// over; of more than may wait the one of the lowest number is dropped. It returns [ErrMemory].
func (d *Depacketizer) Push(number uint64, timestamp uint32, marker bool, payload []byte) error {
	at, size := place(payload)
	return d.own().use(func(depacketizer *C.jilqamur_depacketizer) C.uint32_t {
		return C.jilqamur_depacketizer_push(depacketizer, C.uint64_t(number), C.uint32_t(timestamp), C.bool(marker), at,
			size)
	})
}

// Pop returns the next unit, or nil if none is due. It returns one of [ErrPacketTooShort] to [ErrAMRWBCorrupted] if a
// packet of the next frame is refused, which is then passed over; or [ErrMemory], and the frame stays.
func (d *Depacketizer) Pop() (*Unit, error) {
	return d.unit(func(handle *C.jilqamur_depacketizer, at *C.uint8_t, size C.size_t, needed *C.size_t,
		told *C.jilqamur_unit) C.uint32_t {
		return C.pop_depacketizer(handle, at, size, needed, told)
	})
}

// Drain is the same, even if a packet before the first complete frame is missing: for the end of a stream.
func (d *Depacketizer) Drain() (*Unit, error) {
	return d.unit(func(handle *C.jilqamur_depacketizer, at *C.uint8_t, size C.size_t, needed *C.size_t,
		told *C.jilqamur_unit) C.uint32_t {
		return C.drain_depacketizer(handle, at, size, needed, told)
	})
}

func (d *Depacketizer) unit(poll copying[C.jilqamur_depacketizer]) (*Unit, error) {
	owned, err := d.own().lock()
	if err != nil {
		return nil, err
	}
	defer owned.mutex.Unlock()
	return owned.polled(poll, func(handle *C.jilqamur_depacketizer, at *C.uint8_t, size C.size_t, needed *C.size_t,
		told *C.jilqamur_unit) C.uint32_t {
		return C.jilqamur_depacketizer_unit(handle, at, size, needed, told)
	})
}

// Close frees the depacketizer, once a call of another goroutine has ended. It returns [ErrClosed] if it was closed.
func (d *Depacketizer) Close() error { return d.own().close() }
