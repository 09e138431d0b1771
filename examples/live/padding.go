package main

import (
	"encoding/binary"
	"time"
)

// mostBytes are the bytes of payloads that may wait in a stream, and of a fragment of it.
const mostBytes = 64 << 20

// padded takes a datagram of a stream's SSRC that brought nothing to it, as one of padding alone (RFC 3550, section 5.1):
// its number isn't missing, and no frame waits for it.
func (p *peer) padded(datagram []byte, now time.Time) {
	ssrc, low := binary.BigEndian.Uint32(datagram[8:]), binary.BigEndian.Uint16(datagram[2:])
	for _, in := range p.inbounds {
		if in.ssrc != ssrc {
			continue
		}
		number, err := p.end.TakeNumber(in.stream, low)
		if err != nil {
			return
		}
		in.gaps.took(number, now)
		if p.room.isBridge {
			p.room.passEmpty(in, number)
		} else {
			in.empty = append(in.empty, number)
			in.passEmpty()
			p.echo(in, p.end.Poll, now)
		}
	}
}

// passEmpty passes the numbers that carry nothing, each as soon as it is the next.
func (in *inbound) passEmpty() {
	var left []uint64
	for _, number := range in.empty {
		isNext, err := in.peer.end.PassEmpty(in.stream, number)
		if isPassed, _ := in.peer.end.IsPassed(in.stream, number); err == nil && !isNext && !isPassed {
			left = append(left, number)
		}
	}
	in.empty = left
}
