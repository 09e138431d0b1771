package jilqamur

// #include "calls.h"
import "C"

// A Sample is a sample of a stream, at a time in ticks of the row's clock.
type Sample struct {
	Ticks uint64
	Bytes []byte
}

// A Received is what came of a datagram of a [Batch].
type Received struct {
	Stream int    // the number of the stream that took it
	Number uint64 // its widened sequence number
	Err    error  // why no stream took it, as [End.Receive] returns it
	Units  []Unit // the units that its stream had ready then; the next use of the batch overwrites them
}

// A Batch is what came of datagrams, in memory that is used again. The zero value is ready for use.
type Batch struct {
	Received []Received // of each datagram, in order
	units    []Unit
	taken    []C.taken
}

// joined are pieces one after the other, and where each of them ends.
type joined struct {
	bytes []byte
	ends  []C.size_t
	ticks []C.uint64_t // of samples
}

func (j *joined) reset() { j.bytes, j.ends, j.ticks = j.bytes[:0], j.ends[:0], j.ticks[:0] }

func (j *joined) add(piece []byte) {
	j.bytes = append(j.bytes, piece...)
	j.ends = append(j.ends, C.size_t(len(j.bytes)))
}

// listOf makes room for the ends of at least this many pieces, and for as many units.
func (l *left) listOf(count int) {
	if len(l.ends) < count {
		l.ends = make([]C.size_t, count)
	}
}

// AppendBatch sends several samples of a stream as [End.AppendDatagrams] sends one, in less time. An error comes with
// the datagrams of the samples before the one that is refused.
func (e *End) AppendBatch(list [][]byte, stream int, samples []Sample, values Values, mid string) ([][]byte, error) {
	if err := keepsMid(mid); err != nil {
		return list, at(err, func() Place { return Place{Mids: []string{mid}} })
	}
	owned, err := e.own().lock()
	if err != nil || len(samples) == 0 {
		if err == nil {
			owned.mutex.Unlock()
		}
		return list, err
	}
	defer owned.mutex.Unlock()
	l := &owned.left
	l.in.reset()
	for _, sample := range samples {
		l.in.add(sample.Bytes)
		l.in.ticks = append(l.in.ticks, C.uint64_t(sample.Ticks))
	}
	values.into(&l.values)
	name, nameSize := placeOf(mid)
	all, _ := place(l.in.bytes)
	l.listOf(len(samples))
	l.grow(len(l.in.bytes) + leastRoom)
	l.told.done, l.told.is_within = 0, false
	for {
		bytes, room := l.room()
		ends, most := l.list()
		answer := C.push_batch(owned.handle, C.size_t(stream), &l.in.ticks[0], all, &l.in.ends[0],
			C.size_t(len(samples)), &l.values, name, nameSize, bytes, room, ends, most, &l.next, &l.told)
		list = l.piecesInto(list)
		if answer != C.JILQAMUR_OK {
			return list, ofStream(Error(answer), stream)
		}
		if !bool(l.told.is_within) {
			return list, nil
		}
		if l.told.copied == 0 {
			l.grow(2 * len(l.bytes))
		}
	}
}

// ReceiveBatch takes several datagrams as [End.AppendReceived] takes one, in less time: batch tells what came of each.
// It returns [ErrMemory] if a poll ran out of memory; the datagrams up to that one were taken.
func (e *End) ReceiveBatch(batch *Batch, datagrams [][]byte) error {
	owned, err := e.own().lock()
	if err != nil {
		return err
	}
	defer owned.mutex.Unlock()
	if batch == nil {
		batch = &Batch{}
	}
	batch.Received, batch.units = batch.Received[:0], batch.units[:0]
	if len(datagrams) == 0 {
		return nil
	}
	l := &owned.left
	l.in.reset()
	for _, datagram := range datagrams {
		l.in.add(datagram)
	}
	if len(batch.taken) < len(datagrams) {
		batch.taken = make([]C.taken, len(datagrams))
	}
	l.listOf(len(datagrams))
	l.grow(len(l.in.bytes) + leastRoom)
	l.told.done, l.told.is_within = 0, false
	for err == nil && (int(l.told.done) < len(datagrams) || bool(l.told.is_within)) {
		err = batch.receive(owned, len(datagrams))
	}
	batch.tell(int(l.told.done))
	return err
}

// receive takes datagrams while there is room for their units.
func (b *Batch) receive(owned *owned[C.jilqamur_end], count int) error {
	l := &owned.left
	bytes, room := l.room()
	ends, most := l.list()
	all, _ := place(l.in.bytes)
	C.receive_batch(owned.handle, all, &l.in.ends[0], C.size_t(count), &b.taken[0], bytes, room, ends, most,
		l.unitList(), &l.told)
	begin := 0
	for k, end := range l.ends[:l.told.copied] {
		b.units = appended(b.units, &l.units[k], l.bytes[begin:end])
		begin = int(end)
	}
	if !bool(l.told.is_within) {
		return nil
	}
	switch answer := l.told.polled; answer {
	case C.JILQAMUR_OK:
		return nil
	case C.JILQAMUR_TOO_SMALL:
		unit, err := l.leftUnit(owned.handle)
		if err == nil {
			b.units = appended(b.units, unit, l.bytes[:l.told.needed])
			b.taken[l.told.done-1].units++
		}
		return err
	default:
		return done(answer)
	}
}

// leftUnit copies the unit for which there was no room.
func (l *left) leftUnit(end *C.jilqamur_end) (*C.jilqamur_unit, error) {
	l.grow(int(l.told.needed))
	bytes, room := l.room()
	unit := l.unitList()
	return unit, done(C.jilqamur_end_unit(end, bytes, room, &l.told.needed, unit))
}

// tell says what came of the first datagrams.
func (b *Batch) tell(count int) {
	begin := 0
	for _, taken := range b.taken[:count] {
		end := begin + int(taken.units)
		received := Received{Units: b.units[begin:end:end]}
		if err := done(taken.answer); err != nil {
			received.Err = err
		} else {
			received.Stream, received.Number = int(taken.stream), uint64(taken.number)
		}
		b.Received = append(b.Received, received)
		begin = end
	}
}
