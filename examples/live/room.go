package main

import (
	"errors"
	"fmt"
	"sort"
	"sync"
	"time"

	"jilqamur"
)

// room is where browsers meet: each gets the others' media, or its own back.
type room struct {
	lock       sync.Mutex
	isBridge   bool
	impairment impairment
	journal    *journal
	peers      map[int]*peer
	joined     int
	keep       func(peer int, datagram []byte) // or nil
}

// join takes a browser in.
func (r *room) join(codec string, withRED bool, impaired impairment) (*peer, error) {
	r.lock.Lock()
	r.joined++
	id := r.joined
	r.lock.Unlock()
	made, err := config(uint64(time.Now().Unix())<<8+uint64(id), codec, withRED)
	if err != nil {
		return nil, err
	}
	p := &peer{id: id, room: r, sections: map[string]*section{}, inbounds: map[int]*inbound{},
		counts: map[string]*counts{"audio": {}, "video": {}}}
	if p.end, err = jilqamur.NewEnd(made); err != nil {
		return nil, err
	}
	inward, outward := newHop(impaired, int64(2*id), p.isLost), newHop(impaired, int64(2*id+1), p.isLost)
	if p.transport, err = newTransport(inward, outward); err != nil {
		p.end.Close()
		return nil, err
	}
	p.transport.media = func(datagram []byte) { r.within(func(now time.Time) { p.hear(datagram, now) }) }
	p.transport.control = func(packet []byte) { r.within(func(now time.Time) { p.heed(packet, now) }) }
	r.within(func(now time.Time) {
		p.seen = now
		r.peers[id] = p
		r.assign()
	})
	return p, nil
}

// within does something while nobody else does.
func (r *room) within(do func(now time.Time)) {
	r.lock.Lock()
	defer r.lock.Unlock()
	do(time.Now())
}

// isLost is told of a datagram that a hop of the peer lost. It may be called within the room's lock or outside of it.
func (p *peer) isLost(ssrc uint32, number uint16) {
	go p.room.within(func(time.Time) {
		of := ""
		for _, in := range p.inbounds {
			if in.ssrc == ssrc {
				of = in.kind.String()
			}
		}
		for _, s := range p.sections {
			if s.out != nil && s.out.ssrc == ssrc {
				of = s.kind.String()
			}
		}
		if of != "" { // else it is a repair
			p.counts[of].Lost++
			p.room.journal.tell(lost, p.id, of, uint64(number), 0)
		}
	})
}

// leave lets a browser go, within the lock; what it sent is taken from the others.
func (r *room) leave(p *peer) {
	if r.peers[p.id] == p {
		delete(r.peers, p.id)
		r.assign()
		p.close()
	}
}

// ordered are the peers by their ids.
func (r *room) ordered() (peers []*peer) {
	for _, p := range r.peers {
		peers = append(peers, p)
	}
	sort.Slice(peers, func(a, b int) bool { return peers[a].id < peers[b].id })
	return peers
}

// browsersSection is how a new section of a browser's offer is answered.
func (r *room) browsersSection(p *peer, at place) *section {
	s := &section{mid: at.mid, kind: at.kind, direction: jilqamur.RecvOnly}
	if !r.isBridge {
		s.direction, s.out = jilqamur.SendRecv, p.newOutbound(s)
	}
	return s
}

// hear takes a datagram, and sends on what comes of it.
func (p *peer) hear(datagram []byte, now time.Time) {
	if p.room.peers[p.id] != p {
		return // it has left
	}
	if p.room.keep != nil {
		p.room.keep(p.id, datagram)
	}
	arrival, err := p.end.Arrival(datagram)
	if errors.Is(err, jilqamur.ErrDamaged) {
		p.padded(datagram, now)
	}
	if err != nil {
		return // padding without a payload, or a stream of nobody
	}
	in := p.inbounds[arrival.Stream]
	number := uint64(0)
	if p.room.isBridge {
		number, err = p.end.TakeNumber(arrival.Stream, arrival.Low)
	} else {
		_, number, err = p.end.Receive(datagram)
	}
	if err != nil || in == nil {
		return // it came before, or much too late
	}
	if in.row.RED.Valid && datagram[1]%128 == in.row.RED.Value {
		p.counts[in.kind.String()].Redundant++
	}
	in.took(number, arrival.Timestamp, arrival.Marker, now)
	in.recent.put(number, packet{arrival.Timestamp, arrival.Marker, arrival.Payload, arrival.Values}, now)
	if p.room.isBridge {
		p.room.forward(in, number, now)
	} else {
		p.echo(in, p.end.Poll, now)
	}
}

// askedAgain sends a datagram again, and askedForKeyFrame hands the request on to whoever encodes.
func (r *room) askedAgain(p *peer, ssrc uint32, number uint16, now time.Time) {
	for _, s := range p.sections {
		if s.out != nil && s.out.ssrc == ssrc && s.out.isOpen {
			s.out.sendAgain(number, now)
		}
	}
}

func (r *room) askedForKeyFrame(p *peer, ssrc uint32, now time.Time) {
	for _, s := range p.sections {
		if s.out == nil || s.out.ssrc != ssrc {
			continue
		}
		if s.out.source != nil {
			s.out.source.askForKeyFrame(now)
		}
		for _, in := range p.inbounds {
			if !r.isBridge && in.mid == s.mid && in.isActive {
				in.askForKeyFrame(now)
			}
		}
	}
}

// silence is after which time a page is taken to be closed.
const silence = 30 * time.Second

// tend asks for what is missing, forgets what is old, and reports each second, until the program ends.
func (r *room) tend() {
	for count := 0; ; count++ {
		time.Sleep(20 * time.Millisecond)
		r.within(func(now time.Time) {
			for _, p := range r.ordered() {
				p.tend(now, count%50 == 0)
				if now.Sub(p.seen) > silence {
					r.leave(p)
				}
			}
		})
	}
}

func (p *peer) tend(now time.Time, isWhole bool) {
	for _, in := range p.inbounds {
		if in.isActive {
			in.askForMissing(now)
		}
	}
	for _, s := range p.sections {
		if s.out != nil && s.out.source != nil && s.out.sends && !s.out.isOn {
			s.out.source.askForKeyFrame(now)
		}
	}
	if !isWhole {
		return
	}
	for _, in := range p.inbounds {
		in.recent.sweep(now)
		if err := p.end.KeepWithin(in.stream, mostBytes); err != nil {
			fmt.Println("not kept within bytes:", err)
		}
	}
	for _, s := range p.sections {
		if s.out != nil {
			s.out.store.sweep(now)
		}
	}
	p.report(now)
}

// told is what a page shows of a peer.
func (p *peer) told() map[string]any {
	agreed, slots := []string{}, map[string]string{}
	for _, in := range p.inbounds {
		if in.isActive {
			agreed = append(agreed, fmt.Sprintf("%s %s %d", in.kind, in.row.Codec, in.row.PayloadType))
		}
	}
	sort.Strings(agreed)
	for mid, s := range p.sections {
		if s.out != nil && s.out.source != nil && s.out.sends {
			slots[mid] = fmt.Sprintf("%d", s.out.source.peer.id)
		}
	}
	return map[string]any{"video": *p.counts["video"], "audio": *p.counts["audio"], "agreed": agreed, "from": slots,
		"wants": p.wants, "peers": len(p.room.peers), "id": p.id, "restarts": p.restarts}
}
