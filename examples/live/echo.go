package main

import (
	"errors"
	"fmt"
	"time"

	"jilqamur"
)

// echo sends back the units that a poll, or a drain at the end, hands out of a stream.
func (p *peer) echo(in *inbound, next func(int) (*jilqamur.Unit, error), now time.Time) {
	counts := p.counts[in.kind.String()]
	for {
		unit, err := next(in.stream)
		if errors.Is(err, jilqamur.ErrPayload) {
			counts.Faults++
			continue
		}
		if err != nil || unit == nil {
			return
		}
		counts.Units++
		in.passEmpty()
		p.room.journal.tell(handed, p.id, in.kind.String(), unit.First, in.age(unit, now))
		if s := p.sections[in.mid]; s != nil && s.out != nil && s.out.sends {
			if err := s.out.sendBack(unit, now); err != nil {
				fmt.Println("not sent back:", err)
			}
		}
	}
}

// age is how long after its first packet a unit was handed out.
func (in *inbound) age(unit *jilqamur.Unit, now time.Time) time.Duration {
	if first, isThere := in.recent.values[unit.First]; isThere {
		return now.Sub(first.at)
	}
	return 0
}

// sendBack sends a unit as a sample, with the values of its header extensions.
func (o *outbound) sendBack(unit *jilqamur.Unit, now time.Time) error {
	if o.packets == 0 {
		o.first = unit.Time
	}
	values, err := o.peer.end.Values()
	if err != nil {
		return err
	}
	ticks := unit.Time - o.first
	datagrams, err := o.peer.end.PushSample(o.stream, uint64(ticks), unit.Bytes, values, o.section.mid)
	if err != nil {
		return err
	}
	o.peer.counts[o.section.kind.String()].Samples++
	for _, datagram := range datagrams {
		number := uint64(datagram[2])<<8 | uint64(datagram[3])
		o.peer.room.journal.tell(sent, o.peer.id, o.section.kind.String(), number, 0)
		o.send(datagram, ticks, now)
	}
	return nil
}

// rest sends back what is left at the end of all streams.
func (p *peer) rest() {
	for _, in := range p.inbounds {
		p.echo(in, p.end.Drain, time.Now())
	}
}

// offerEcho is what the end offers to a browser that made no offer: audio and video, both ways.
func (p *peer) offerEcho() {
	for _, kind := range []jilqamur.Kind{jilqamur.Audio, jilqamur.Video} {
		p.newSlot(kind).direction = jilqamur.SendRecv
	}
	p.wants = true
}
