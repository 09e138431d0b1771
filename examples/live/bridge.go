package main

import (
	"fmt"
	"time"

	"jilqamur"
)

// assign gives each browser a slot for each stream of the others. A slot whose source has left is inactive until there
// is another source for it; both are offered.
func (r *room) assign() {
	if !r.isBridge {
		return
	}
	for _, p := range r.ordered() {
		for _, s := range p.sections {
			if s.isOwn && s.out.source != nil && s.out.source.isGone() {
				s.out.source, s.out.isOn = nil, false
				p.want(s, jilqamur.Inactive)
			}
		}
		for _, in := range r.sourcesFor(p) {
			if s := p.slotFor(in); s != nil {
				s.out.source, s.out.isOn = in, false
				p.want(s, jilqamur.SendOnly)
			}
		}
	}
}

func (p *peer) want(s *section, direction jilqamur.Direction) {
	s.direction, p.wants = direction, true
}

// isGone tells whether nothing comes of a stream any more: its browser has left, or has stopped its section.
func (in *inbound) isGone() bool {
	s := in.peer.sections[in.mid]
	return in.peer.room.peers[in.peer.id] != in.peer || s == nil || s.isStopped
}

// sourcesFor are the streams of others that have no slot yet.
func (r *room) sourcesFor(p *peer) (sources []*inbound) {
	isShown := map[*inbound]bool{}
	for _, s := range p.sections {
		if s.out != nil && s.out.source != nil {
			isShown[s.out.source] = true
		}
	}
	for _, other := range r.ordered() {
		for stream := 0; stream < 2*len(other.inbounds)+64; stream++ { // in the order of their numbers
			in := other.inbounds[stream]
			if in != nil && other != p && in.isActive && !in.isGone() && !isShown[in] {
				sources = append(sources, in)
			}
		}
	}
	return sources
}

// slotFor is a slot without a source, or a new one.
func (p *peer) slotFor(in *inbound) *section {
	for _, s := range p.sections {
		if s.isOwn && !s.isStopped && s.kind == in.kind && s.out.source == nil {
			return s
		}
	}
	return p.newSlot(in.kind)
}

// forward sends a packet on to each browser that has a slot for its stream.
func (r *room) forward(in *inbound, number uint64, now time.Time) {
	for _, other := range r.peers {
		for _, s := range other.sections {
			if s.out == nil || s.out.source != in || !s.out.isOpen || !s.out.sends {
				continue
			}
			last := number
			if !s.out.isOn {
				if !s.out.begin(in, number, now) {
					continue
				}
				last = in.reception.highest // a repair may come after what follows it
			}
			for n := number; n <= last; n++ {
				if p, isThere := in.recent.get(n, now); isThere {
					s.out.forward(in, n, p, now)
				}
			}
		}
	}
}

// endsFrame tells whether a packet is the last one of its frame.
func (in *inbound) endsFrame(p packet) bool {
	info, err := jilqamur.PacketInfoOf(in.row.Codec, p.payload, p.marker)
	return err != nil || info.IsTail
}

// passEmpty leaves the number of a packet of padding out of what is sent on.
func (r *room) passEmpty(in *inbound, number uint64) {
	for _, other := range r.peers {
		for _, s := range other.sections {
			if s.out != nil && s.out.source == in && s.out.isOn {
				_ = s.out.forwarder.PassEmpty(in.id(), number)
			}
		}
	}
}

// id is the number of a source for forwarders.
func (in *inbound) id() uint64 { return uint64(in.peer.id)<<32 | uint64(in.stream) }

// begin goes over to a source, if its packet of this number begins a key frame or is audio.
func (o *outbound) begin(in *inbound, number uint64, now time.Time) bool {
	p, _ := in.recent.get(number, now)
	if in.kind == jilqamur.Video && !beginsKeyFrame(in.row.Codec, p.payload) {
		return false
	}
	var err error
	if o.forwarder == nil {
		if o.forwarder, err = jilqamur.NewForwarder(1000); err != nil {
			return false
		}
	}
	o.isOn = o.forwarder.Switch(in.id(), number, p.timestamp, o.now(now)) == nil
	return o.isOn
}

// forward sends a packet on, under the number and timestamp of its place.
func (o *outbound) forward(in *inbound, number uint64, p packet, now time.Time) {
	placed, err := o.forwarder.Forward(in.id(), number, p.timestamp, in.endsFrame(p))
	if err != nil {
		return // it comes from before the key frame
	}
	datagram, err := o.peer.end.SendPacket(o.stream, jilqamur.Forwarded{Placed: placed, Marker: p.marker,
		Payload: p.payload, Values: p.values, Mid: o.section.mid})
	if err != nil {
		fmt.Println("not sent on:", err)
		return
	}
	counts := o.peer.counts[o.section.kind.String()]
	counts.Forwarded++
	if p.marker {
		counts.Complete++
	}
	o.peer.room.journal.tell(forwarded, o.peer.id, o.section.kind.String(), placed.Number, 0)
	o.send(datagram, placed.Timestamp, now)
}
