package main

import (
	"time"

	"github.com/pion/rtcp"

	"jilqamur"
)

// packet is a packet that arrived.
type packet struct {
	timestamp uint32
	marker    bool
	payload   []byte
	values    jilqamur.Values
}

// inbound is a stream from a browser.
type inbound struct {
	peer      *peer
	mid       string
	kind      jilqamur.Kind
	ssrc      uint32
	row       jilqamur.Row
	stream    int
	isActive  bool // whether the section lets the browser send now
	gaps      gaps
	empty     []uint64 // numbers that carry nothing, and are not passed yet
	reception reception
	recent    *store[uint64, packet]
	asked     time.Time // when a key frame was asked for
}

// took counts a packet that was taken under this number.
func (in *inbound) took(number uint64, timestamp uint32, marker bool, now time.Time) {
	counts, room, of := in.peer.counts[in.kind.String()], in.peer.room, in.kind.String()
	counts.Arrived++
	if marker {
		counts.Frames++
	}
	age, wasMissing := in.gaps.took(number, now)
	if wasMissing {
		counts.Repaired++
		room.journal.tell(repaired, in.peer.id, of, number, age)
	} else {
		room.journal.tell(arrived, in.peer.id, of, number, 0)
	}
	in.reception.took(number, timestamp, in.row.ClockRate, now, wasMissing)
}

// askForMissing asks for packets again that are missing (RFC 4585, section 6.2.1), if their repairs are agreed on.
func (in *inbound) askForMissing(now time.Time) {
	if !in.row.Resend.Valid {
		return
	}
	var low []uint16
	for _, number := range in.gaps.due(now) {
		in.peer.counts[in.kind.String()].Asked++
		in.peer.room.journal.tell(asked, in.peer.id, in.kind.String(), number, 0)
		low = append(low, uint16(number))
	}
	if len(low) > 0 {
		in.peer.control(&rtcp.TransportLayerNack{SenderSSRC: in.peer.reporter(), MediaSSRC: in.ssrc,
			Nacks: rtcp.NackPairsFromSequenceNumbers(low)})
	}
}

// askForKeyFrame asks for a key frame, at most each 300 ms.
func (in *inbound) askForKeyFrame(now time.Time) {
	if in.kind != jilqamur.Video || now.Sub(in.asked) < 300*time.Millisecond {
		return
	}
	in.asked = now
	in.peer.room.journal.tell(keyFrame, in.peer.id, in.kind.String(), 0, 0)
	in.peer.control(&rtcp.PictureLossIndication{SenderSSRC: in.peer.reporter(), MediaSSRC: in.ssrc})
}
