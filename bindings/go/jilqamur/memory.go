package jilqamur

// #include "calls.h"
import "C"

import "unsafe"

// noByte is where no bytes are: a pointer must not be null.
var noByte C.uint8_t

// place is where bytes begin, and how many they are. The library keeps no pointer beyond its call.
func place(bytes []byte) (*C.uint8_t, C.size_t) {
	if len(bytes) == 0 {
		return &noByte, 0
	}
	return (*C.uint8_t)(unsafe.Pointer(&bytes[0])), C.size_t(len(bytes))
}

// placeOf is the same of a text, which the library only reads.
func placeOf(text string) (*C.uint8_t, C.size_t) {
	if len(text) == 0 {
		return &noByte, 0
	}
	return (*C.uint8_t)(*(*unsafe.Pointer)(unsafe.Pointer(&text))), C.size_t(len(text))
}

// placeOfNumbers is the same of SSRCs.
func placeOfNumbers(numbers []uint32) (*C.uint32_t, C.size_t) {
	if len(numbers) == 0 {
		numbers = []uint32{0}
		return (*C.uint32_t)(unsafe.Pointer(&numbers[0])), 0
	}
	return (*C.uint32_t)(unsafe.Pointer(&numbers[0])), C.size_t(len(numbers))
}

// A left is what calls left in memory that is used again: datagrams or units, one after the other.
type left struct {
	bytes  []byte
	ends   []C.size_t // where each of them ends
	units  []C.jilqamur_unit
	values C.jilqamur_values
	told   C.told
	in     joined   // what a batch hands in
	next   C.size_t // the first datagram of a batch's last sample that wasn't copied yet
}

// The least room: for a datagram, and for as many datagrams of a sample, or units that are due at once, as most have.
const (
	leastRoom  = 2048
	leastCount = 16
)

// mostKept is how many bytes are kept for later calls; a frame that needed more gives them back.
const mostKept = 1 << 20

// trim gives back what an earlier call needed beyond mostKept.
func (l *left) trim() {
	if len(l.bytes) > mostKept {
		l.bytes = nil
	}
}

// room is where calls copy to.
func (l *left) room() (*C.uint8_t, C.size_t) {
	if l.bytes == nil {
		l.bytes = make([]byte, leastRoom)
	}
	return (*C.uint8_t)(unsafe.Pointer(&l.bytes[0])), C.size_t(len(l.bytes))
}

// list is where calls write the ends of what they copy.
func (l *left) list() (*C.size_t, C.size_t) {
	if l.ends == nil {
		l.ends = make([]C.size_t, leastCount)
	}
	return &l.ends[0], C.size_t(len(l.ends))
}

// unitList is where calls write what they tell of units, as many as list has.
func (l *left) unitList() *C.jilqamur_unit {
	if len(l.units) < len(l.ends) {
		l.units = make([]C.jilqamur_unit, len(l.ends))
	}
	return &l.units[0]
}

// grow makes room for at least this many bytes, and keeps those that were copied.
func (l *left) grow(size int) {
	room := leastRoom
	for room < size {
		room *= 2
	}
	if room <= len(l.bytes) {
		return
	}
	grown := make([]byte, room)
	copy(grown, l.bytes)
	l.bytes = grown
}

// finish copies the datagrams for which there was no room.
func (l *left) finish(copyOn func()) {
	for l.told.copied < l.told.count {
		copied := l.told.copied
		if len(l.ends) < int(l.told.count) {
			l.ends = append(l.ends, make([]C.size_t, int(l.told.count)-len(l.ends))...)
		}
		l.grow(l.filled() + int(l.told.needed)*int(l.told.count-copied))
		copyOn()
		if l.told.copied == copied {
			return
		}
	}
}

// filled is how many bytes were copied.
func (l *left) filled() int {
	if l.told.copied == 0 {
		return 0
	}
	return int(l.ends[l.told.copied-1])
}

// pieces appends what was copied, all in memory of its own.
func (l *left) pieces(to [][]byte) [][]byte {
	all := append([]byte(nil), l.bytes[:l.filled()]...)
	if to == nil {
		to = make([][]byte, 0, l.told.copied)
	}
	begin := 0
	for _, end := range l.ends[:l.told.copied] {
		to = append(to, all[begin:end:end])
		begin = int(end)
	}
	return to
}

// piecesInto appends what was copied, each piece in the memory of an element after the last one, if that has enough.
func (l *left) piecesInto(to [][]byte) [][]byte {
	begin := 0
	for _, end := range l.ends[:l.told.copied] {
		var memory []byte
		if len(to) < cap(to) {
			memory = to[: len(to)+1 : cap(to)][len(to)][:0]
		}
		to = append(to, append(memory, l.bytes[begin:end]...))
		begin = int(end)
	}
	return to
}

// fetched is what a call copies: it is called with this much room first, and again if that is too small.
func fetched(room int, call func(*C.uint8_t, C.size_t, *C.size_t) C.uint32_t) ([]byte, error) {
	var needed C.size_t
	bytes := make([]byte, room)
	at, size := place(bytes)
	answer := call(at, size, &needed)
	if answer == C.JILQAMUR_TOO_SMALL {
		bytes = make([]byte, needed)
		at, size = place(bytes)
		answer = call(at, size, &needed)
	}
	if answer != C.JILQAMUR_OK {
		return nil, Error(answer)
	}
	return bytes[:needed:needed], nil
}

// fetchedText is the same of a text.
func fetchedText(call func(*C.uint8_t, C.size_t, *C.size_t) C.uint32_t) (string, error) {
	text, err := fetched(64, call)
	return string(text), err
}

// piece is what a call copies into memory that is used again, in memory of its own.
func (l *left) piece(call func(*C.uint8_t, C.size_t, *C.size_t) C.uint32_t) ([]byte, error) {
	at, size := l.room()
	answer := call(at, size, &l.told.needed)
	if answer == C.JILQAMUR_TOO_SMALL {
		l.grow(int(l.told.needed))
		at, size = l.room()
		answer = call(at, size, &l.told.needed)
	}
	if answer != C.JILQAMUR_OK {
		return nil, Error(answer)
	}
	return append(make([]byte, 0, l.told.needed), l.bytes[:l.told.needed]...), nil
}

// areSizes tells whether numbers are sizes; C has no negative ones.
func areSizes(numbers ...int) bool {
	for _, number := range numbers {
		if number < 0 {
			return false
		}
	}
	return true
}

// An Optional is a value that may be absent; the zero one is. Two are equal if both are absent, or if both are there
// with equal values.
type Optional[T any] struct {
	Value T    // the zero value if it is absent
	Valid bool // whether it is there
}

// Some is a value that is there.
func Some[T any](value T) Optional[T] { return Optional[T]{value, true} }

// optional is a value that C tells beside whether it is there.
func optional[T any](isThere C.bool, value T) (o Optional[T]) {
	if isThere {
		o = Some(value)
	}
	return o
}
