package jilqamur

// #include "jilqamur.h"
import "C"

import "unsafe"

// A PacketHistory keeps the datagrams that a stream sent last, by number, to be sent again when a generic NACK asks for
// them (RFC 4585, section 6.2.1): exactly those with the greatest numbers that fit its bounds, in whatever order they
// were kept.
type PacketHistory struct{ owner owner[C.jilqamur_history] }

func (p *PacketHistory) own() *owner[C.jilqamur_history] {
	if p == nil {
		return nil
	}
	return &p.owner
}

// NewPacketHistory opens a history that will keep at most so many datagrams, of at most so many bytes together.
func NewPacketHistory(most, mostBytes uint32) (*PacketHistory, error) {
	p := &PacketHistory{}
	err := p.owner.open(func(history *C.jilqamur_history) C.uint32_t {
		return C.jilqamur_history_open(history, C.uint32_t(most), C.uint32_t(mostBytes))
	}, func(history *C.jilqamur_history) C.uint32_t { return C.jilqamur_history_close(history) })
	if err != nil {
		return nil, err
	}
	return p, nil
}

// Keep keeps a copy of a datagram under its number, 64 bits wide; one that is held under this number stays. Of more
// than fit the lowest numbers go, and up to a number that went nothing is kept any more. It returns [ErrMemory].
func (p *PacketHistory) Keep(number uint64, datagram []byte) error {
	at, size := place(datagram)
	return p.own().use(func(history *C.jilqamur_history) C.uint32_t {
		return C.jilqamur_history_keep(history, C.uint64_t(number), at, size)
	})
}

// Asked is the datagram that a NACK asks for by the low 16 bits of its number (PID): the one that is held under the
// greatest number of these bits that isn't above the newest held. It returns [ErrNothing] if it isn't held.
func (p *PacketHistory) Asked(low uint16) ([]byte, error) {
	owned, err := p.own().lock()
	if err != nil {
		return nil, err
	}
	defer owned.mutex.Unlock()
	return fetched(1500, func(bytes *C.uint8_t, room C.size_t, needed *C.size_t) C.uint32_t {
		return C.jilqamur_history_asked(owned.handle, C.uint16_t(low), bytes, room, needed)
	})
}

// Close frees the history, once a call of another goroutine has ended. It returns [ErrClosed] if it was closed.
func (p *PacketHistory) Close() error { return p.own().close() }

// A NackRequester says what a receiver asks for by generic NACKs (RFC 4585, section 6.2.1): each missing number at most
// so many times, not before it may be late, and not again before a round trip has gone by.
type NackRequester struct{ owner owner[C.jilqamur_requester] }

func (n *NackRequester) own() *owner[C.jilqamur_requester] {
	if n == nil {
		return nil
	}
	return &n.owner
}

// NewNackRequester opens a requester that asks for each missing number at most so many times, the first time delay
// ticks after it is missing.
func NewNackRequester(most uint32, delay uint64) (*NackRequester, error) {
	n := &NackRequester{}
	err := n.owner.open(func(requester *C.jilqamur_requester) C.uint32_t {
		return C.jilqamur_requester_open(requester, C.uint32_t(most), C.uint64_t(delay))
	}, func(requester *C.jilqamur_requester) C.uint32_t { return C.jilqamur_requester_close(requester) })
	if err != nil {
		return nil, err
	}
	return n, nil
}

// Ask is the numbers to ask for now, of those that are missing now, as [End.Missing] tells them. now and roundTrip are
// ticks of the caller's clock, such as microseconds. A number that isn't missing any more is forgotten. It returns
// [ErrOutOfRange] if the missing numbers don't rise, or [ErrMemory], and nothing has changed.
func (n *NackRequester) Ask(missing []uint64, now, roundTrip uint64) ([]uint64, error) {
	var needed C.size_t
	numbers, count := make([]uint64, len(missing)), C.size_t(len(missing))
	from, to := placeOfMissing(missing), placeOfMissing(numbers)
	err := n.own().use(func(requester *C.jilqamur_requester) C.uint32_t {
		return C.jilqamur_requester_ask(requester, from, count, C.uint64_t(now), C.uint64_t(roundTrip), to, count,
			&needed)
	})
	if err != nil {
		return nil, err
	}
	return numbers[:needed:needed], nil
}

// placeOfMissing is where numbers are; of none, where some memory is.
func placeOfMissing(numbers []uint64) *C.uint64_t {
	if len(numbers) == 0 {
		numbers = []uint64{0}
	}
	return (*C.uint64_t)(unsafe.Pointer(&numbers[0]))
}

// Close frees the requester, once a call of another goroutine has ended. It returns [ErrClosed] if it was closed.
func (n *NackRequester) Close() error { return n.own().close() }
