package jilqamur

// #include "calls.h"
import "C"

import "time"

// An Event is one report of a telephone event (RFC 4733, section 2.3).
type Event struct {
	Event    uint8         // 0 to 15 are the keys 0 to 9, *, #, A to D
	End      bool          // whether it has ended
	Volume   uint8         // the tone's power below 0 dBm0, in dB, 0 to 63
	Duration time.Duration // how long it has lasted
}

// A Unit is a video frame or an audio packet that was received.
type Unit struct {
	Bytes       []byte           // the codec's bytes, in the form of a sample
	First, Last uint64           // the widened sequence numbers of its first and last packet
	Time        uint32           // the RTP timestamp, in ticks of the clock rate, of G722 at 8,000 Hz
	Keyframe    bool             // whether the codec says that it is a key frame; VP9 and audio never do
	PictureID   Optional[uint16] // VP8's and VP9's picture id (RFC 7741, section 4.2, RFC 9628, section 4.2)
	BaseLayer   Optional[uint8]  // VP8's TL0PICIDX (RFC 7741, section 4.2)
	Event       Optional[Event]  // the first report of a packet of telephone events
}

// into writes what C tells of a unit, and copies its bytes to the end of some memory.
func (u *Unit) into(told *C.jilqamur_unit, memory, bytes []byte) {
	*u = Unit{
		Bytes: append(memory, bytes...), First: uint64(told.first), Last: uint64(told.last), Time: uint32(told.time),
		Keyframe: bool(told.is_keyframe),
	}
	if told.has_picture_id {
		u.PictureID = Some(uint16(told.picture_id))
	}
	if told.has_base_layer {
		u.BaseLayer = Some(uint8(told.base_layer))
	}
	if told.has_event {
		u.Event = Some(Event{uint8(told.event), bool(told.event_end), uint8(told.event_volume),
			time.Duration(told.event_duration)})
	}
}

// copying is a call that copies a unit, after a poll or without one.
type copying[H any] func(*H, *C.uint8_t, C.size_t, *C.size_t, *C.jilqamur_unit) C.uint32_t

// polled is what a poll hands out; the other call copies a unit for which there was no room.
func (o *owned[H]) polled(poll, again copying[H]) (*Unit, error) {
	l := &o.left
	bytes, room := l.room()
	l.list()
	told, needed := l.unitList(), &l.told.needed
	answer := poll(o.handle, bytes, room, needed, told)
	if answer == C.JILQAMUR_TOO_SMALL {
		l.grow(int(*needed))
		bytes, room = l.room()
		answer = again(o.handle, bytes, room, needed, told)
	}
	if answer == C.JILQAMUR_NOTHING {
		return nil, nil
	}
	if err := done(answer); err != nil {
		return nil, err
	}
	unit := &Unit{}
	unit.into(told, nil, l.bytes[:*needed])
	return unit, nil
}

// AppendReceived takes a datagram as [End.Receive], and appends the units that its stream has ready then to a list, as
// [End.AppendUnits]. It takes less time than both.
func (e *End) AppendReceived(list []Unit, datagram []byte) (units []Unit, stream int, number uint64, err error) {
	owned, err := e.own().lock()
	if err != nil {
		return list, 0, 0, err
	}
	defer owned.mutex.Unlock()
	l := &owned.left
	at, size := place(datagram)
	bytes, room := l.room()
	ends, most := l.list()
	answer := C.receive_all(owned.handle, at, size, bytes, room, ends, most, l.unitList(), &l.told)
	if err := done(answer); err != nil {
		return list, 0, 0, err
	}
	stream, number = int(l.told.stream), uint64(l.told.number)
	list, err = unitsInto(list, owned, stream, false)
	return list, stream, number, err
}

// AppendUnits appends all units of a receiving stream that are ready to a list, the bytes of each in the memory of a
// unit that the list had after its last one, if that has enough: so AppendUnits(list[:0], ..) makes no garbage. Frames
// that the codec can't read are passed over. An error comes with the units before it.
func (e *End) AppendUnits(list []Unit, stream int) ([]Unit, error) {
	return e.appendUnits(list, stream, false)
}

func (e *End) appendUnits(list []Unit, stream int, isRest bool) ([]Unit, error) {
	owned, err := e.own().lock()
	if err != nil {
		return list, err
	}
	defer owned.mutex.Unlock()
	pollAll(owned, stream, isRest)
	return unitsInto(list, owned, stream, isRest)
}

// pollAll polls a stream while there is room.
func pollAll(owned *owned[C.jilqamur_end], stream int, isRest bool) {
	l := &owned.left
	bytes, room := l.room()
	ends, most := l.list()
	C.poll_all(owned.handle, C.size_t(stream), C.bool(isRest), bytes, room, ends, most, l.unitList(), &l.told)
}

// unitsInto appends the units that were copied, and those for which there was no room.
func unitsInto(list []Unit, owned *owned[C.jilqamur_end], stream int, isRest bool) ([]Unit, error) {
	for l := &owned.left; ; pollAll(owned, stream, isRest) {
		begin := 0
		for k, end := range l.ends[:l.told.copied] {
			list = appended(list, &l.units[k], l.bytes[begin:end])
			begin = int(end)
		}
		switch answer := l.told.polled; answer {
		case C.JILQAMUR_OK:
		case C.JILQAMUR_NOTHING:
			return list, nil
		case C.JILQAMUR_TOO_SMALL:
			told, err := l.leftUnit(owned.handle)
			if err != nil {
				return list, err
			}
			list = appended(list, told, l.bytes[:l.told.needed])
		default:
			return list, ofStream(Error(answer), stream)
		}
	}
}

// appended is a list with a unit more, in the memory of one that it had after its last one.
func appended(list []Unit, told *C.jilqamur_unit, bytes []byte) []Unit {
	if len(list) == cap(list) {
		list = append(list, Unit{})
	} else {
		list = list[:len(list)+1]
	}
	unit := &list[len(list)-1]
	unit.into(told, unit.Bytes[:0], bytes)
	return list
}

// Poll returns the next unit of a receiving stream, or nil if none is ready. It returns [ErrNoStream]; [ErrPayload] if
// a packet of the next frame is refused, which is then passed over; or [ErrMemory], and the frame stays.
func (e *End) Poll(stream int) (*Unit, error) { return e.unit(stream, false) }

// Drain is the same, even if a datagram before the first complete unit is missing: for the end of a stream.
func (e *End) Drain(stream int) (*Unit, error) { return e.unit(stream, true) }

func (e *End) unit(stream int, isRest bool) (*Unit, error) {
	owned, err := e.own().lock()
	if err != nil {
		return nil, err
	}
	defer owned.mutex.Unlock()
	unit, err := owned.polled(func(end *C.jilqamur_end, at *C.uint8_t, size C.size_t, needed *C.size_t,
		told *C.jilqamur_unit) C.uint32_t {
		return C.poll_end(end, C.size_t(stream), C.bool(isRest), at, size, needed, told)
	}, func(end *C.jilqamur_end, at *C.uint8_t, size C.size_t, needed *C.size_t, told *C.jilqamur_unit) C.uint32_t {
		return C.jilqamur_end_unit(end, at, size, needed, told)
	})
	if err != nil {
		return nil, ofStream(err, stream)
	}
	return unit, nil
}

// Units are all units of a receiving stream that are ready. Frames that the codec can't read are passed over. An error
// comes with the units before it.
func (e *End) Units(stream int) ([]*Unit, error) { return e.units(stream, false) }

// Rest are all units that are left at the end of a receiving stream, whatever is missing between them.
func (e *End) Rest(stream int) ([]*Unit, error) { return e.units(stream, true) }

func (e *End) units(stream int, isRest bool) (found []*Unit, err error) {
	list, err := e.appendUnits(nil, stream, isRest)
	if len(list) > 0 {
		found = make([]*Unit, len(list))
		for k := range list {
			found[k] = &list[k]
		}
	}
	return found, err
}

// Values are the values of the header extensions of the last datagram of the unit that was handed out last. It returns
// [ErrNothing] before the first unit.
func (e *End) Values() (Values, error) {
	owned, err := e.own().lock()
	if err != nil {
		return Values{}, err
	}
	defer owned.mutex.Unlock()
	if err := done(C.jilqamur_end_values(owned.handle, &owned.left.values)); err != nil {
		return Values{}, err
	}
	return valuesOf(&owned.left.values), nil
}
