package jilqamur

// #include "jilqamur.h"
import "C"

// A Header is the header of an RTP packet (RFC 3550, section 5.1), without the values of its extensions.
type Header struct {
	HasPadding     bool     // whether padding follows the payload
	HasExtension   bool     // whether there is an extension block; one that is written is empty
	Marker         bool     // the marker bit
	PayloadType    uint8    // 0 to 127
	SequenceNumber uint16   // the low 16 bits of the sequence number
	Timestamp      uint32   // the low 32 bits of the media time, in ticks of the payload type's clock
	SSRC           uint32   // the stream's source
	CSRCs          []uint32 // the contributing sources, at most 15
	Len            int      // the bytes of a header that was read; not used for one that is written
}

// ReadHeader reads the header at the front of a datagram. It returns [ErrUnreadable].
func ReadHeader(datagram []byte) (Header, error) {
	var told C.jilqamur_header
	at, size := place(datagram)
	if err := done(C.jilqamur_header_read(at, size, &told)); err != nil {
		return Header{}, err
	}
	header := Header{
		HasPadding: bool(told.has_padding), HasExtension: bool(told.has_extension), Marker: bool(told.marker),
		PayloadType: uint8(told.payload_type), SequenceNumber: uint16(told.sequence_number),
		Timestamp: uint32(told.timestamp), SSRC: uint32(told.ssrc), Len: int(told.header_len),
	}
	for _, csrc := range told.csrc[:told.csrc_count] {
		header.CSRCs = append(header.CSRCs, uint32(csrc))
	}
	return header, nil
}

// Bytes writes the header. It returns [ErrUnwritable].
func (h Header) Bytes() ([]byte, error) {
	if len(h.CSRCs) > 15 {
		return nil, ErrUnwritable
	}
	given := C.jilqamur_header{
		has_padding: C.bool(h.HasPadding), has_extension: C.bool(h.HasExtension), marker: C.bool(h.Marker),
		payload_type: C.uint8_t(h.PayloadType), sequence_number: C.uint16_t(h.SequenceNumber),
		timestamp: C.uint32_t(h.Timestamp), ssrc: C.uint32_t(h.SSRC), csrc_count: C.uint32_t(len(h.CSRCs)),
	}
	for k, csrc := range h.CSRCs {
		given.csrc[k] = C.uint32_t(csrc)
	}
	return fetched(80, func(at *C.uint8_t, size C.size_t, needed *C.size_t) C.uint32_t {
		return C.jilqamur_header_write(&given, at, size, needed)
	})
}

// Payload is the payload of the bytes that follow the header, without padding: a part of these bytes. It returns
// [ErrDamaged] if the padding doesn't fit.
func (h Header) Payload(following []byte) ([]byte, error) {
	var size C.size_t
	at, all := place(following)
	if err := done(C.jilqamur_payload_unpad(C.bool(h.HasPadding), at, all, &size)); err != nil {
		return nil, err
	}
	return following[:size], nil
}

// Widen is the number nearest to the previous one with these low 16 bits, modulo 2^64.
func Widen(previous uint64, low uint16) uint64 {
	return uint64(C.jilqamur_number_widen(C.uint64_t(previous), C.uint16_t(low)))
}

// A Window is the replay window of a stream (RFC 3711, section 3.3.2, over widened numbers).
type Window struct{ owner owner[C.jilqamur_window] }

func (w *Window) own() *owner[C.jilqamur_window] {
	if w == nil {
		return nil
	}
	return &w.owner
}

// NewWindow opens a window that has seen no number.
func NewWindow() (*Window, error) {
	w := &Window{}
	err := w.owner.open(func(window *C.jilqamur_window) C.uint32_t { return C.jilqamur_window_open(window) },
		func(window *C.jilqamur_window) C.uint32_t { return C.jilqamur_window_close(window) })
	if err != nil {
		return nil, err
	}
	return w, nil
}

// Receive records the widened number of a datagram, and returns it. It returns [ErrUnreadable], or [ErrRefused] if the
// number came before, or is 1,024 or more below the greatest; the window is then unchanged.
func (w *Window) Receive(datagram []byte) (uint64, error) {
	owned, err := w.own().lock()
	if err != nil {
		return 0, err
	}
	defer owned.mutex.Unlock()
	at, size := place(datagram)
	number := &owned.left.told.number
	if err := done(C.jilqamur_window_receive(owned.handle, at, size, number)); err != nil {
		return 0, err
	}
	return uint64(*number), nil
}

// Close frees the window, once a call of another goroutine has ended. It returns [ErrClosed] if it was closed.
func (w *Window) Close() error { return w.own().close() }
