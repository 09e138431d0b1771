package jilqamur

// #include "jilqamur.h"
import "C"

import "unsafe"

// mostMissing is how many numbers can be missing at most.
const mostMissing = 1023

// of makes one call about a stream.
func (e *End) of(stream int, call func(*C.jilqamur_end, C.size_t) C.uint32_t) error {
	err := e.own().use(func(end *C.jilqamur_end) C.uint32_t { return call(end, C.size_t(stream)) })
	if err == nil || err == ErrNothing || err == ErrRefused {
		return err
	}
	return ofStream(err, stream)
}

// Missing is the missing numbers of a receiving stream, in increasing order: those after the last unit's, or, before
// any unit, after the lowest packet that waits, that were not taken, below the greatest that was and within the replay
// window. These are what a generic NACK may ask for (RFC 4585, section 6.2.1). It returns [ErrNoStream], or
// [ErrMemory].
func (e *End) Missing(stream int) ([]uint64, error) {
	var needed C.size_t
	numbers := make([]uint64, mostMissing)
	at := (*C.uint64_t)(unsafe.Pointer(&numbers[0]))
	err := e.of(stream, func(end *C.jilqamur_end, of C.size_t) C.uint32_t {
		return C.jilqamur_end_missing(end, of, at, mostMissing, &needed)
	})
	if err != nil {
		return nil, err
	}
	return numbers[:needed:needed], nil
}

// IsPassed tells whether a number of a receiving stream is passed: a unit with this number or one above it was handed
// out, or a frame with it was refused. A datagram of such a number is of no use any more. It returns [ErrNoStream].
func (e *End) IsPassed(stream int, number uint64) (bool, error) {
	err := e.of(stream, func(end *C.jilqamur_end, of C.size_t) C.uint32_t {
		return C.jilqamur_end_is_passed(end, of, C.uint64_t(number))
	})
	if err == ErrNothing {
		return false, nil
	}
	return err == nil, err
}

// PassTo passes all numbers of a receiving stream up to this one: what waits of them is dropped, an open fragment is
// given up, and the frame after the number is next, so that hold-back protects it. So a stream begins with a key frame,
// and goes on at once after a loss that nobody repairs. It returns [ErrNoStream].
func (e *End) PassTo(stream int, number uint64) error {
	return e.of(stream, func(end *C.jilqamur_end, of C.size_t) C.uint32_t {
		return C.jilqamur_end_pass_to(end, of, C.uint64_t(number))
	})
}

// PassEmpty tells a receiving stream that a number carries nothing for it, as one of padding alone (RFC 3550, section
// 5.1), or of another payload type of its SSRC. It reports whether the number was the next after the last that is
// passed, and is now passed, so that no frame waits for it; if not, it may be told again after the next unit. It
// returns [ErrNoStream].
func (e *End) PassEmpty(stream int, number uint64) (bool, error) {
	err := e.of(stream, func(end *C.jilqamur_end, of C.size_t) C.uint32_t {
		return C.jilqamur_end_pass_empty(end, of, C.uint64_t(number))
	})
	if err == ErrNothing {
		return false, nil
	}
	return err == nil, err
}

// KeepWithin gives memory of a receiving stream back: of the packets that wait those with the highest numbers stay,
// whose payloads have at most so many bytes together, and the numbers below them are passed; a fragment that is open
// between units is given up if any packet went, or if it has more bytes. A call each time so many bytes came in keeps
// the stream within twice as many, whatever a peer sends. It returns [ErrNoStream].
func (e *End) KeepWithin(stream int, bytes uint) error {
	return e.of(stream, func(end *C.jilqamur_end, of C.size_t) C.uint32_t {
		return C.jilqamur_end_keep_within(end, of, C.size_t(bytes))
	})
}

// NextNumber is the number that the next datagram of a sending stream's samples gets. It returns [ErrNoStream].
func (e *End) NextNumber(stream int) (uint64, error) {
	var next C.uint64_t
	err := e.of(stream, func(end *C.jilqamur_end, of C.size_t) C.uint32_t {
		return C.jilqamur_end_next_number(end, of, &next)
	})
	return uint64(next), err
}

// SkipTo leaves numbers of a sending stream out: its samples never send those from its next number up to this one. A
// number that isn't above the next one changes nothing. It returns [ErrNoStream].
func (e *End) SkipTo(stream int, number uint64) error {
	return e.of(stream, func(end *C.jilqamur_end, of C.size_t) C.uint32_t {
		return C.jilqamur_end_skip_to(end, of, C.uint64_t(number))
	})
}

// CloseSender closes a sending stream: what it holds is given back, and its SSRC can be opened again, with new numbers.
// The stream's own number isn't used again. It returns [ErrNoStream].
func (e *End) CloseSender(stream int) error {
	return e.of(stream, func(end *C.jilqamur_end, of C.size_t) C.uint32_t {
		return C.jilqamur_end_close_sender(end, of)
	})
}

// CloseReceiver closes a receiving stream: what it holds is given back, and its SSRC can be opened again, as one that
// nothing came of. The stream's own number isn't used again. It returns [ErrNoStream].
func (e *End) CloseReceiver(stream int) error {
	return e.of(stream, func(end *C.jilqamur_end, of C.size_t) C.uint32_t {
		return C.jilqamur_end_close_receiver(end, of)
	})
}
