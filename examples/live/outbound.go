package main

import (
	"fmt"
	"time"

	"jilqamur"
)

// outbound is a stream to a browser: the echo of its own, or packets of one other browser after the other.
type outbound struct {
	peer         *peer
	section      *section
	ssrc, repair uint32
	stream       int
	row          jilqamur.Row
	isOpen       bool // whether the sending stream is
	sends        bool // whether the section lets it send now
	store        *store[uint16, []byte]
	packets      uint32
	octets       uint32
	timestamp    uint32 // of what was sent last
	at           time.Time
	first        uint32 // the time of the first unit that was echoed
	source       *inbound
	forwarder    *jilqamur.Forwarder
	isOn         bool // whether the forwarder has gone over to the source
}

// settle opens the sending stream once the section was agreed on.
func (o *outbound) settle(a jilqamur.AgreedSection) (err error) {
	o.sends = a.Direction.Sends()
	if !o.sends || o.isOpen || len(a.Rows) == 0 {
		return nil
	}
	o.row = a.Rows[0]
	o.stream, err = o.peer.end.OpenSender(a.Mid, o.ssrc, o.row.PayloadType,
		jilqamur.StreamParams{First: 1000, MTU: 1200, Limit: 1400, ForBrowsers: true})
	if err == nil {
		o.isOpen = true
	}
	return err
}

// send keeps a datagram for a second, and sends it.
func (o *outbound) send(datagram []byte, timestamp uint32, now time.Time) {
	o.store.put(uint16(datagram[2])<<8|uint16(datagram[3]), datagram, now)
	o.packets++
	o.octets += uint32(len(datagram) - 12)
	o.timestamp, o.at = timestamp, now
	o.peer.send(datagram)
}

// sendAgain sends a datagram again that the browser asks for.
func (o *outbound) sendAgain(number uint16, now time.Time) {
	datagram, isThere := o.store.get(number, now)
	if !isThere {
		return
	}
	if repair, err := o.peer.end.Repair(o.stream, datagram); err == nil {
		datagram = repair // else the stream has no retransmissions
	}
	o.peer.counts[o.section.kind.String()].Again++
	o.peer.room.journal.tell(again, o.peer.id, o.section.kind.String(), uint64(number), 0)
	o.peer.send(datagram)
}

func (p *peer) send(datagram []byte) {
	if err := p.transport.send(datagram, false); err != nil && err != errNotConnected {
		fmt.Println("not sent:", err)
	}
}

// now is the timestamp that the stream has at this time, by the one that was sent last.
func (o *outbound) now(at time.Time) uint32 {
	if o.packets == 0 {
		return o.timestamp
	}
	return o.timestamp + uint32(at.Sub(o.at).Seconds()*float64(o.row.ClockRate))
}
