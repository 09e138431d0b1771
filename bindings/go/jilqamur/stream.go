package jilqamur

// #include "calls.h"
import "C"

// StreamParams say how a sending stream of an end numbers and cuts its samples.
type StreamParams struct {
	First       uint64           // the first sequence number, below 32,768
	MTU         int              // the most bytes of a payload, at least 1, and at least 2 with redundancy
	Limit       int              // the most bytes of a datagram
	Distances   []uint8          // of redundancy (RFC 2198), for a row with a RED type: rising, 1 to 8; none without
	PictureID   Optional[uint16] // VP8's and VP9's first picture id, at most 32,767; without one VP9 begins at 0
	ForBrowsers bool             // whether the payloads have the forms that browsers want
}

// ReceiverParams say how long a receiving stream waits for a missing packet.
type ReceiverParams struct {
	HoldBack int // past a missing packet a unit is handed out only once more frames than this are complete
	Held     int // how many packets wait at most, MinHeld to MaxHeld; 0 for MinHeld
}

// sizes are the parameters for C.
func (p ReceiverParams) sizes() (holdBack, held C.size_t, err error) {
	if p.Held == 0 {
		p.Held = MinHeld
	}
	if !areSizes(p.HoldBack, p.Held) {
		return 0, 0, ErrOutOfRange
	}
	return C.size_t(p.HoldBack), C.size_t(p.Held), nil
}

// OpenSender opens a sending stream of this SSRC for the agreed row of a payload type, and returns its number, counted
// from 0 over the streams of both directions. It returns [ErrNotText], [ErrOutOfRange] for parameters out of their
// ranges, or the first that applies of [ErrNoSection], [ErrRowNotAgreed], [ErrRowDiffers], [ErrWrongDirection],
// [ErrSSRCNotNamed] and [ErrAlreadyOpen]; or [ErrMemory].
func (e *End) OpenSender(mid string, ssrc uint32, payloadType uint8, params StreamParams) (int, error) {
	given := C.jilqamur_stream{
		first: C.uint64_t(params.First), mtu: C.size_t(params.MTU), limit: C.size_t(params.Limit),
		has_red: C.bool(len(params.Distances) > 0), has_picture_id: C.bool(params.PictureID.Valid),
		picture_id: C.uint16_t(params.PictureID.Value), for_browsers: C.bool(params.ForBrowsers),
	}
	distances, count := place(params.Distances)
	return e.open(areSizes(params.MTU, params.Limit), mid, ssrc, payloadType,
		func(end *C.jilqamur_end, name *C.uint8_t, size C.size_t, stream *C.size_t) C.uint32_t {
			return C.jilqamur_end_open_sender(end, name, size, C.uint32_t(ssrc), C.uint8_t(payloadType), &given,
				distances, count, stream)
		})
}

// open opens a stream, unless its parameters aren't sound.
func (e *End) open(isSound bool, mid string, ssrc uint32, payloadType uint8,
	call func(*C.jilqamur_end, *C.uint8_t, C.size_t, *C.size_t) C.uint32_t) (int, error) {
	err := keepsMid(mid)
	if err == nil && !isSound {
		err = ErrOutOfRange
	}
	var stream C.size_t
	if err == nil {
		name, size := placeOf(mid)
		err = e.own().use(func(end *C.jilqamur_end) C.uint32_t { return call(end, name, size, &stream) })
	}
	if err != nil {
		return 0, ofOpening(err, mid, ssrc, payloadType)
	}
	return int(stream), nil
}

// OpenReceiver opens a receiving stream in the same way.
func (e *End) OpenReceiver(mid string, ssrc uint32, payloadType uint8, params ReceiverParams) (int, error) {
	holdBack, held, err := params.sizes()
	return e.open(err == nil, mid, ssrc, payloadType,
		func(end *C.jilqamur_end, name *C.uint8_t, size C.size_t, stream *C.size_t) C.uint32_t {
			return C.jilqamur_end_open_receiver(end, name, size, C.uint32_t(ssrc), C.uint8_t(payloadType), holdBack, held,
				stream)
		})
}

// OpenUnsignalled opens a receiving stream as [End.OpenReceiver], in a section whose sender names this SSRC or no SSRC
// at all, as one whose simulcast streams a=rid alone tells apart (RFC 8853, section 6.1): the SSRC is that of a
// datagram that came and was foreign. It returns [ErrSSRCNotNamed] if the section names SSRCs, and not this one.
func (e *End) OpenUnsignalled(mid string, ssrc uint32, payloadType uint8, params ReceiverParams) (int, error) {
	holdBack, held, err := params.sizes()
	return e.open(err == nil, mid, ssrc, payloadType,
		func(end *C.jilqamur_end, name *C.uint8_t, size C.size_t, stream *C.size_t) C.uint32_t {
			return C.jilqamur_end_open_unsignalled(end, name, size, C.uint32_t(ssrc), C.uint8_t(payloadType), holdBack, held,
				stream)
		})
}

// PushSample sends a sample at a time in ticks of the row's clock, and returns its datagrams, which are parts of one
// block of memory. They carry the values that are given, and the mid if it isn't empty, each if the agreed map has an
// id for it (RFC 8285, RFC 9143 section 15). It returns [ErrNotText] or [ErrMidNotKept], [ErrNoStream], or the first that
// applies of [ErrStreamFailed], [ErrTimeTooLarge], [ErrLimitTooSmall] and [ErrPayload]; or [ErrMemory], and the stream
// sends no more.
func (e *End) PushSample(stream int, ticks uint64, sample []byte, values Values, mid string) ([][]byte, error) {
	owned, err := e.push(stream, ticks, sample, &values, mid)
	if err != nil {
		return nil, err
	}
	defer owned.mutex.Unlock()
	return owned.left.pieces(nil), nil
}

// AppendDatagrams is [End.PushSample], and appends the datagrams to a list, each in the memory of an element that the
// list had after its last one, if that has enough: so AppendDatagrams(list[:0], ..) makes no garbage.
func (e *End) AppendDatagrams(list [][]byte, stream int, ticks uint64, sample []byte, values Values, mid string) (
	[][]byte, error) {
	owned, err := e.push(stream, ticks, sample, &values, mid)
	if err != nil {
		return list, err
	}
	defer owned.mutex.Unlock()
	return owned.left.piecesInto(list), nil
}

// push leaves the datagrams of a sample, and the end locked.
func (e *End) push(stream int, ticks uint64, sample []byte, values *Values, mid string) (*owned[C.jilqamur_end],
	error) {
	if err := keepsMid(mid); err != nil {
		return nil, at(err, func() Place { return Place{Mids: []string{mid}} })
	}
	owned, err := e.own().lock()
	if err != nil {
		return nil, err
	}
	l := &owned.left
	values.into(&l.values)
	name, nameSize := placeOf(mid)
	at, size := place(sample)
	bytes, room := l.room()
	ends, most := l.list()
	answer := C.push_to_end(owned.handle, C.size_t(stream), C.uint64_t(ticks), &l.values, name, nameSize, at, size, bytes,
		room, ends, most, &l.told)
	if answer != C.JILQAMUR_OK {
		owned.mutex.Unlock()
		return nil, ofStream(Error(answer), stream)
	}
	if l.told.copied < l.told.count {
		l.finish(func() {
			bytes, room := l.room()
			ends, most := l.list()
			C.copy_from_end(owned.handle, bytes, room, ends, most, &l.told)
		})
	}
	return owned, nil
}

// datagramOf is the first datagram that a call left.
func datagramOf(owned *owned[C.jilqamur_end]) ([]byte, error) {
	return owned.left.piece(func(at *C.uint8_t, size C.size_t, needed *C.size_t) C.uint32_t {
		return C.jilqamur_end_datagram(owned.handle, 0, at, size, needed)
	})
}

// Repair sends a datagram again, as the stream sent it, under the SSRC and the type of its repairs (RFC 4588, section
// 4). It returns [ErrNoStream], or the first that applies of [ErrNoRepair], [ErrNotOwn] and [ErrLimitTooSmall] if two
// bytes more exceed the stream's limit; or [ErrMemory].
func (e *End) Repair(stream int, datagram []byte) ([]byte, error) {
	owned, err := e.own().lock()
	if err != nil {
		return nil, err
	}
	defer owned.mutex.Unlock()
	at, size := place(datagram)
	if err := done(C.jilqamur_end_repair(owned.handle, C.size_t(stream), at, size)); err != nil {
		return nil, ofStream(err, stream)
	}
	return datagramOf(owned)
}

// Receive takes a datagram, and returns the number of the receiving stream that took it, and its widened sequence
// number. It returns the first that applies of [ErrUnreadable], [ErrForeign], [ErrDamaged] and [ErrRefused], as
// datagrams from the network make it do; or [ErrMemory].
func (e *End) Receive(datagram []byte) (stream int, number uint64, err error) {
	owned, err := e.own().lock()
	if err != nil {
		return 0, 0, err
	}
	defer owned.mutex.Unlock()
	told := &owned.left.told
	at, size := place(datagram)
	if err := done(C.jilqamur_end_receive(owned.handle, at, size, &told.stream, &told.number)); err != nil {
		return 0, 0, err
	}
	return int(told.stream), uint64(told.number), nil
}
