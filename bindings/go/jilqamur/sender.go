package jilqamur

// #include "calls.h"
import "C"

import "unsafe"

// SenderParams say how a [Sender] numbers and cuts its samples.
type SenderParams struct {
	SSRC        uint32           // the stream's source
	PayloadType uint8            // 0 to 127
	First       uint64           // the first sequence number; from 2^62 on the stream sends no more
	MTU         int              // the most bytes of a payload, at least 1
	Limit       int              // the most bytes of a datagram
	PictureID   Optional[uint16] // VP8's and VP9's first picture id, at most 32,767; without one VP9 begins at 0
	ForBrowsers bool             // whether the payloads have the forms that browsers want
}

// A Sender is a sending stream of a codec, without an end and without header extensions.
type Sender struct{ owner owner[C.jilqamur_sender] }

func (s *Sender) own() *owner[C.jilqamur_sender] {
	if s == nil {
		return nil
	}
	return &s.owner
}

// NewSender opens a stream that has sent nothing, of a codec of the names of [Row], in any case. It returns
// [ErrOutOfRange] for numbers out of their ranges, a clock rate of 0 or a codec without a payload format, [ErrNotText]
// or [ErrMemory].
func NewSender(codec string, format Format, params SenderParams) (*Sender, error) {
	if !areSizes(params.MTU, params.Limit) {
		return nil, ErrOutOfRange
	}
	s := &Sender{}
	of, given := format.given(), C.jilqamur_sender_params{
		ssrc: C.uint32_t(params.SSRC), payload_type: C.uint8_t(params.PayloadType), first: C.uint64_t(params.First),
		mtu: C.size_t(params.MTU), limit: C.size_t(params.Limit), has_picture_id: C.bool(params.PictureID.Valid),
		picture_id: C.uint16_t(params.PictureID.Value), for_browsers: C.bool(params.ForBrowsers),
	}
	name, size := placeOf(codec)
	err := s.owner.open(func(sender *C.jilqamur_sender) C.uint32_t {
		return C.jilqamur_sender_open(sender, &given, &of, name, size)
	}, func(sender *C.jilqamur_sender) C.uint32_t { return C.jilqamur_sender_close(sender) })
	if err != nil {
		return nil, ofCodec(err, codec)
	}
	return s, nil
}

// PushSample sends a sample at a time in ticks of the stream's clock, and returns its datagrams. It returns the first
// that applies of [ErrStreamFailed], [ErrTimeTooLarge], [ErrLimitTooSmall] and [ErrPayload]; or [ErrMemory], and the
// stream sends no more.
func (s *Sender) PushSample(ticks uint64, sample []byte) ([][]byte, error) {
	return s.push(nil, (*left).pieces, ticks, sample)
}

// AppendDatagrams is [Sender.PushSample], and appends the datagrams to a list, each in the memory of an element that
// the list had after its last one, if that has enough: so AppendDatagrams(list[:0], ..) makes no garbage.
func (s *Sender) AppendDatagrams(list [][]byte, ticks uint64, sample []byte) ([][]byte, error) {
	return s.push(list, (*left).piecesInto, ticks, sample)
}

func (s *Sender) push(list [][]byte, pieces func(*left, [][]byte) [][]byte, ticks uint64, sample []byte) ([][]byte,
	error) {
	owned, err := s.own().lock()
	if err != nil {
		return list, err
	}
	defer owned.mutex.Unlock()
	l := &owned.left
	at, size := place(sample)
	bytes, room := l.room()
	ends, most := l.list()
	err = done(C.push_to_sender(owned.handle, C.uint64_t(ticks), at, size, bytes, room, ends, most, &l.told))
	if err != nil {
		return list, err
	}
	l.finish(func() {
		bytes, room := l.room()
		ends, most := l.list()
		C.copy_from_sender(owned.handle, bytes, room, ends, most, &l.told)
	})
	return pieces(l, list), nil
}

// Close frees the stream, once a call of another goroutine has ended. It returns [ErrClosed] if it was closed.
func (s *Sender) Close() error { return s.own().close() }

// A Receiver is a receiving stream of a codec, without an end.
type Receiver struct{ owner owner[C.jilqamur_receiver] }

func (r *Receiver) own() *owner[C.jilqamur_receiver] {
	if r == nil {
		return nil
	}
	return &r.owner
}

// NewReceiver opens a stream that has taken nothing, and returns what [NewSender] returns.
func NewReceiver(codec string, format Format, params ReceiverParams) (*Receiver, error) {
	holdBack, held, err := params.sizes()
	if err != nil {
		return nil, err
	}
	r, of := &Receiver{}, format.given()
	name, size := placeOf(codec)
	err = r.owner.open(func(receiver *C.jilqamur_receiver) C.uint32_t {
		return C.jilqamur_receiver_open(receiver, &of, name, size, holdBack, held)
	}, func(receiver *C.jilqamur_receiver) C.uint32_t { return C.jilqamur_receiver_close(receiver) })
	if err != nil {
		return nil, ofCodec(err, codec)
	}
	return r, nil
}

// Push takes a packet by the fields of its header ([ReadHeader]) and its payload without padding, and returns its
// widened number. It returns [ErrRefused] if that came before, or is 1,024 or more below the greatest, or [ErrMemory].
func (r *Receiver) Push(sequenceNumber uint16, timestamp uint32, marker bool, payload []byte) (uint64, error) {
	owned, err := r.own().lock()
	if err != nil {
		return 0, err
	}
	defer owned.mutex.Unlock()
	return pushed(owned, sequenceNumber, timestamp, marker, payload)
}

func pushed(owned *owned[C.jilqamur_receiver], sequenceNumber uint16, timestamp uint32, marker bool,
	payload []byte) (uint64, error) {
	at, size := place(payload)
	number := &owned.left.told.number
	answer := C.jilqamur_receiver_push(owned.handle, C.uint16_t(sequenceNumber), C.uint32_t(timestamp), C.bool(marker),
		at, size, number)
	if err := done(answer); err != nil {
		return 0, err
	}
	return uint64(*number), nil
}

// Receive takes a datagram: it reads the header, takes the padding off, and pushes the packet. SSRC and payload type
// aren't looked at. It returns [ErrUnreadable], [ErrDamaged] or what [Receiver.Push] returns.
func (r *Receiver) Receive(datagram []byte) (uint64, error) {
	owned, err := r.own().lock()
	if err != nil {
		return 0, err
	}
	defer owned.mutex.Unlock()
	header, err := ReadHeader(datagram)
	if err != nil {
		return 0, err
	}
	payload, err := header.Payload(datagram[header.Len:])
	if err != nil {
		return 0, err
	}
	return pushed(owned, header.SequenceNumber, header.Timestamp, header.Marker, payload)
}

// Poll returns the next unit, or nil if none is ready. It returns [ErrPayload] if a packet of the next frame is
// refused, which is then passed over; or [ErrMemory], and the frame stays.
func (r *Receiver) Poll() (*Unit, error) {
	return r.unit(func(handle *C.jilqamur_receiver, at *C.uint8_t, size C.size_t, needed *C.size_t,
		told *C.jilqamur_unit) C.uint32_t {
		return C.poll_receiver(handle, at, size, needed, told)
	})
}

// Drain is the same, even if a packet before the first complete unit is missing: for the end of a stream.
func (r *Receiver) Drain() (*Unit, error) {
	return r.unit(func(handle *C.jilqamur_receiver, at *C.uint8_t, size C.size_t, needed *C.size_t,
		told *C.jilqamur_unit) C.uint32_t {
		return C.drain_receiver(handle, at, size, needed, told)
	})
}

// Units are all units that are ready. Frames that the codec can't read are passed over.
func (r *Receiver) Units() (found []*Unit, err error) {
	for {
		unit, err := r.Poll()
		switch {
		case err == ErrPayload:
		case err != nil:
			return found, err
		case unit == nil:
			return found, nil
		default:
			found = append(found, unit)
		}
	}
}

func (r *Receiver) unit(poll copying[C.jilqamur_receiver]) (*Unit, error) {
	owned, err := r.own().lock()
	if err != nil {
		return nil, err
	}
	defer owned.mutex.Unlock()
	return owned.polled(poll, func(handle *C.jilqamur_receiver, at *C.uint8_t, size C.size_t, needed *C.size_t,
		told *C.jilqamur_unit) C.uint32_t {
		return C.jilqamur_receiver_unit(handle, at, size, needed, told)
	})
}

// Missing is the missing numbers, in increasing order, as [End.Missing] those of an end's stream.
func (r *Receiver) Missing() ([]uint64, error) {
	var needed C.size_t
	numbers := make([]uint64, mostMissing)
	at := (*C.uint64_t)(unsafe.Pointer(&numbers[0]))
	err := r.own().use(func(receiver *C.jilqamur_receiver) C.uint32_t {
		return C.jilqamur_receiver_missing(receiver, at, mostMissing, &needed)
	})
	if err != nil {
		return nil, err
	}
	return numbers[:needed:needed], nil
}

// PassTo passes all numbers up to this one: what waits of them is dropped, and the frame after it is next.
func (r *Receiver) PassTo(number uint64) error {
	return r.own().use(func(receiver *C.jilqamur_receiver) C.uint32_t {
		return C.jilqamur_receiver_pass_to(receiver, C.uint64_t(number))
	})
}

// KeepWithin gives memory back: of the packets that wait those with the highest numbers stay, whose payloads have at
// most so many bytes together, and a fragment of more is given up. A call each time so many bytes came in keeps the
// stream within twice as many, whatever a peer sends.
func (r *Receiver) KeepWithin(bytes int) error {
	if bytes < 0 {
		return ErrOutOfRange
	}
	return r.own().use(func(receiver *C.jilqamur_receiver) C.uint32_t {
		return C.jilqamur_receiver_keep_within(receiver, C.size_t(bytes))
	})
}

// Close frees the stream, once a call of another goroutine has ended. It returns [ErrClosed] if it was closed.
func (r *Receiver) Close() error { return r.own().close() }
