package jilqamur

// #include "calls.h"
import "C"

// An Arrival is how a datagram arrives at a receiving stream. A retransmission tells what it wraps.
type Arrival struct {
	Stream    int    // the number of the stream
	Low       uint16 // the low 16 bits of its sequence number
	Timestamp uint32 // its RTP timestamp
	Marker    bool   // its marker bit
	Payload   []byte // its payload: a part of the datagram
	Values    Values // the values of its header extensions
}

// Arrival tells how a datagram arrives at the receiving stream that would take it, without taking it. It returns the
// first that applies of [ErrUnreadable], [ErrForeign] and [ErrDamaged].
func (e *End) Arrival(datagram []byte) (Arrival, error) {
	owned, err := e.own().lock()
	if err != nil {
		return Arrival{}, err
	}
	defer owned.mutex.Unlock()
	var told C.jilqamur_arrival
	stream, values := &owned.left.told.stream, &owned.left.values
	at, size := place(datagram)
	if err := done(C.jilqamur_end_arrival(owned.handle, at, size, stream, &told, values)); err != nil {
		return Arrival{}, err
	}
	return Arrival{
		Stream: int(*stream), Low: uint16(told.low), Timestamp: uint32(told.timestamp), Marker: bool(told.marker),
		Payload: datagram[told.start:told.end], Values: valuesOf(values),
	}, nil
}

// TakeNumber takes only the number of a datagram that is sent on, by its low 16 bits, and returns it widened; nothing
// waits to be polled. It returns [ErrNoStream], or [ErrRefused] if the number came before, or is 1,024 or more below
// the greatest.
func (e *End) TakeNumber(stream int, low uint16) (uint64, error) {
	var number C.uint64_t
	err := e.of(stream, func(end *C.jilqamur_end, of C.size_t) C.uint32_t {
		return C.jilqamur_end_take_number(end, of, C.uint16_t(low), &number)
	})
	return uint64(number), err
}

// A Forwarded is a packet of another stream that is sent on.
type Forwarded struct {
	Placed
	Marker  bool   // the marker bit
	Payload []byte // the payload, of at least one byte
	Values  Values // the values of header extensions that it carries
	Mid     string // the mid that it carries, or none
}

// SendPacket returns a packet of another stream as a datagram of a sending stream. Numbers may come in any order; the
// stream's samples are numbered above them. It returns [ErrNotText], [ErrNoStream], or the first that applies of
// [ErrAddsRedundancy], [ErrNumberTooLarge], [ErrNoPayload] and [ErrLimitTooSmall]; or [ErrMemory].
func (e *End) SendPacket(stream int, packet Forwarded) ([]byte, error) {
	if err := keepsMid(packet.Mid); err != nil {
		return nil, at(err, func() Place { return Place{Mids: []string{packet.Mid}} })
	}
	owned, err := e.own().lock()
	if err != nil {
		return nil, err
	}
	defer owned.mutex.Unlock()
	l := &owned.left
	packet.Values.into(&l.values)
	mid, midSize := placeOf(packet.Mid)
	payload, size := place(packet.Payload)
	answer := C.jilqamur_end_send_packet(owned.handle, C.size_t(stream), C.uint64_t(packet.Number),
		C.uint32_t(packet.Timestamp), C.bool(packet.Marker), &l.values, mid, midSize, payload, size)
	if err := done(answer); err != nil {
		return nil, ofStream(err, stream)
	}
	return datagramOf(owned)
}

// A Placed is the number and timestamp under which a packet is sent on.
type Placed struct {
	Number    uint64 // the sequence number, 64 bits wide
	Timestamp uint32 // the RTP timestamp
}

// A Forwarder numbers and times the packets of several sources as those of one stream: the packets of a source keep
// their distances, and each piece of a source begins above the numbers that were given before. Packets that come late
// are sent on where they belong, as long as the last 64 pieces are kept. A source is any number that its user gives it.
type Forwarder struct{ owner owner[C.jilqamur_forwarder] }

func (f *Forwarder) own() *owner[C.jilqamur_forwarder] {
	if f == nil {
		return nil
	}
	return &f.owner
}

// NewForwarder opens a forwarder that sends nothing on, and whose first packet will get this number.
func NewForwarder(first uint64) (*Forwarder, error) {
	f := &Forwarder{}
	err := f.owner.open(func(forwarder *C.jilqamur_forwarder) C.uint32_t {
		return C.jilqamur_forwarder_open(forwarder, C.uint64_t(first))
	}, func(forwarder *C.jilqamur_forwarder) C.uint32_t { return C.jilqamur_forwarder_close(forwarder) })
	if err != nil {
		return nil, err
	}
	return f, nil
}

// Switch goes over to a source, from its packet of this number and timestamp on, which gets the timestamp at and the
// next number; one number is left free before it if the last packet wasn't sent on as the end of its frame.
func (f *Forwarder) Switch(source, number uint64, timestamp, at uint32) error {
	return f.own().use(func(forwarder *C.jilqamur_forwarder) C.uint32_t {
		return C.jilqamur_forwarder_switch(forwarder, C.uint64_t(source), C.uint64_t(number), C.uint32_t(timestamp),
			C.uint32_t(at))
	})
}

// SkipTo leaves out what the last source sends before the packet of this number, which gets the next number; timestamps
// stay those of the source's clock. Before the first switch it does nothing.
func (f *Forwarder) SkipTo(number uint64) error {
	return f.own().use(func(forwarder *C.jilqamur_forwarder) C.uint32_t {
		return C.jilqamur_forwarder_skip_to(forwarder, C.uint64_t(number))
	})
}

// EndAt says that what is sent on of the last source ends before its packet of this number: the next piece begins where
// that packet would be, and packets before it may still come.
func (f *Forwarder) EndAt(number uint64) error {
	return f.own().use(func(forwarder *C.jilqamur_forwarder) C.uint32_t {
		return C.jilqamur_forwarder_end_at(forwarder, C.uint64_t(number))
	})
}

// Place is the number and timestamp under which a source's packet of these is sent on. It returns [ErrNothing] if the
// packet isn't sent on.
func (f *Forwarder) Place(source, number uint64, timestamp uint32) (Placed, error) {
	var placed C.jilqamur_placed
	err := f.own().use(func(forwarder *C.jilqamur_forwarder) C.uint32_t {
		return C.jilqamur_forwarder_place(forwarder, C.uint64_t(source), C.uint64_t(number), C.uint32_t(timestamp),
			&placed)
	})
	return Placed{uint64(placed.number), uint32(placed.timestamp)}, err
}

// Forward is the same, and the number is given: the next piece begins above it. ends says whether the packet is the
// last one of its frame: for video [PacketInfo] tells it, for audio it is true.
func (f *Forwarder) Forward(source, number uint64, timestamp uint32, ends bool) (Placed, error) {
	var placed C.jilqamur_placed
	err := f.own().use(func(forwarder *C.jilqamur_forwarder) C.uint32_t {
		return C.jilqamur_forwarder_forward(forwarder, C.uint64_t(source), C.uint64_t(number), C.uint32_t(timestamp),
			C.bool(ends), &placed)
	})
	return Placed{uint64(placed.number), uint32(placed.timestamp)}, err
}

// PassEmpty leaves a source's packet out that carries nothing to send on, as one of only padding, between two frames:
// the source's packet after it gets the number that it would have. It returns [ErrNothing] if the packet wouldn't get
// the next number: call it again after the packets before it.
func (f *Forwarder) PassEmpty(source, number uint64) error {
	return f.own().use(func(forwarder *C.jilqamur_forwarder) C.uint32_t {
		return C.jilqamur_forwarder_pass_empty(forwarder, C.uint64_t(source), C.uint64_t(number))
	})
}

// Next is the first number above all those that were given.
func (f *Forwarder) Next() (uint64, error) {
	var next C.uint64_t
	err := f.own().use(func(forwarder *C.jilqamur_forwarder) C.uint32_t {
		return C.jilqamur_forwarder_next(forwarder, &next)
	})
	return uint64(next), err
}

// Close frees the forwarder, once a call of another goroutine has ended. It returns [ErrClosed] if it was closed.
func (f *Forwarder) Close() error { return f.own().close() }
