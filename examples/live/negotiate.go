package main

import (
	"errors"
	"strings"

	"jilqamur"
)

// place is a section of a browser's text.
type place struct {
	mid     string
	kind    jilqamur.Kind
	isMedia bool // whether it is audio or video, and wasn't stopped
}

// placesOf are the sections of a text in order. Requests go by place.
func placesOf(text string) (places []place) {
	for _, line := range strings.Split(text, "\n") {
		line = strings.TrimSpace(line)
		if strings.HasPrefix(line, "m=") {
			words := strings.Fields(line[2:])
			at := place{}
			if len(words) > 1 {
				at.isMedia = (words[0] == "audio" || words[0] == "video") && words[1] != "0"
			}
			if len(words) > 0 && words[0] == "video" {
				at.kind = jilqamur.Video
			}
			places = append(places, at)
		}
		if mid := strings.TrimPrefix(line, "a=mid:"); mid != line && len(places) > 0 {
			places[len(places)-1].mid = mid
		}
		// With max-bundle later sections have port 0 and are in the bundle all the same (RFC 9143, section 7.3.3).
		if line == "a=bundle-only" && len(places) > 0 {
			places[len(places)-1].isMedia = true
		}
	}
	return places
}

// answer answers the browser's offer.
func (p *peer) answer(offer string) (string, error) {
	var requests []jilqamur.SectionRequest
	fresh := map[string]*section{}
	for _, at := range placesOf(offer) {
		s := p.sections[at.mid]
		if s == nil && at.isMedia {
			s = p.room.browsersSection(p, at)
			fresh[at.mid] = s
		}
		if s == nil || !at.isMedia || s.isStopped {
			requests = append(requests, jilqamur.SectionRequest{Reject: true})
			continue
		}
		ssrcs, repairs := s.names()
		requests = append(requests, jilqamur.SectionRequest{Direction: s.direction, SSRCs: ssrcs, Repairs: repairs})
	}
	own, err := p.end.AnswerBrowser(offer, requests...)
	if err != nil {
		return "", err
	}
	for mid, s := range fresh {
		p.sections[mid] = s
	}
	for _, at := range placesOf(offer) {
		if s := p.sections[at.mid]; s != nil && !at.isMedia {
			s.isStopped = true
		}
	}
	if err := p.settle(); err != nil {
		return "", err
	}
	if err := p.restart(); err != nil {
		return "", err
	}
	answer, err := p.with_transport(own, jilqamur.Passive)
	if err != nil {
		return "", err
	}
	return answer, p.end.TakeTypes(answer) // streams go by what each section lists
}

// restart begins a new ICE session if the browser's offer does (RFC 8839, section 4.4.1.1.1).
func (p *peer) restart() error {
	remote, err := p.end.Remote()
	if err != nil || !p.isReady || remote.Ufrag == p.ufrag {
		return err
	}
	p.ufrag = remote.Ufrag
	p.restarts++
	return p.transport.restart(remote)
}

// offer offers what was agreed on, in its order, and the slots that are new.
func (p *peer) offer() (string, error) {
	p.wants = false
	if err := p.withdraw(); err != nil {
		return "", err
	}
	own, err := p.end.Offer(p.wanted()...)
	if err != nil {
		return "", err
	}
	return p.with_transport(own, jilqamur.ActPass)
}

// wanted are the sections of an offer.
func (p *peer) wanted() (sections []jilqamur.Section) {
	mids, isListed := append([]string{}, p.order...), map[string]bool{}
	for _, mid := range mids {
		isListed[mid] = true
	}
	for number := 1; number <= p.slots; number++ {
		if mid := slotMid(number); p.sections[mid] != nil && !isListed[mid] {
			mids = append(mids, mid)
		}
	}
	for _, mid := range mids {
		s := p.sections[mid]
		if s == nil {
			continue // the end refuses the offer then
		}
		ssrcs, repairs := s.names()
		wanted := jilqamur.Section{Mid: mid, Kind: s.kind, Direction: s.direction, SSRCs: ssrcs, Repairs: repairs}
		if s.isStopped {
			wanted.Direction, wanted.SSRCs, wanted.Repairs = jilqamur.Inactive, nil, nil
		}
		sections = append(sections, wanted)
	}
	return sections
}

// accept takes the browser's answer. If it is refused, the offer is given up, and with it the slots that were new.
func (p *peer) accept(answer string) error {
	err := p.end.AcceptBrowser(answer)
	if err == nil {
		_ = p.end.TakeTypes(answer) // streams go by what each section lists, if the browser's text is read as it is
		return p.settle()
	}
	isAgreed := map[string]bool{}
	for _, mid := range p.order {
		isAgreed[mid] = true
	}
	for mid, s := range p.sections {
		if s.isOwn && !isAgreed[mid] {
			delete(p.sections, mid)
		}
	}
	if withdrawn := p.withdraw(); withdrawn != nil {
		return withdrawn
	}
	return err
}

// withdraw gives an offer up that was never answered, if there is one.
func (p *peer) withdraw() error {
	if err := p.end.Withdraw(); !errors.Is(err, jilqamur.ErrNothing) {
		return err
	}
	return nil
}

// with_transport makes a text of the end one for the browser.
func (p *peer) with_transport(own string, setup jilqamur.Setup) (string, error) {
	transport, err := p.transport.described(setup)
	if err != nil {
		return "", err
	}
	return p.end.ForBrowser(own, transport)
}

// settle opens the streams of what was agreed, and sees what was held or stopped.
func (p *peer) settle() error {
	agreed, err := p.end.AgreedSections()
	if err != nil {
		return err
	}
	p.order = nil
	for _, in := range p.inbounds {
		in.isActive = false
	}
	for _, a := range agreed {
		p.order = append(p.order, a.Mid)
		s := p.sections[a.Mid]
		if s == nil {
			continue
		}
		if a.Direction.Receives() {
			if err := p.openInbounds(a); err != nil {
				return err
			}
		}
		if s.out != nil {
			if err := s.out.settle(a); err != nil {
				return err
			}
		}
	}
	p.room.assign()
	return nil
}

// holdBack is how many frames wait for a missing packet: of a row without repairs there is little to wait for.
func holdBack(row jilqamur.Row) int {
	if row.Resend.Valid {
		return 15
	}
	return 1
}

// openInbounds opens a receiving stream for each SSRC and row that isn't open yet.
func (p *peer) openInbounds(a jilqamur.AgreedSection) error {
	for _, ssrc := range a.SSRCs {
		for _, row := range a.Rows {
			if in := p.inboundOf(ssrc, row.PayloadType); in != nil {
				in.isActive = true
				continue
			}
			params := jilqamur.ReceiverParams{HoldBack: holdBack(row)}
			stream, err := p.end.OpenReceiver(a.Mid, ssrc, row.PayloadType, params)
			if err != nil {
				return err
			}
			p.inbounds[stream] = &inbound{peer: p, mid: a.Mid, kind: a.Kind, ssrc: ssrc, row: row, stream: stream,
				isActive: true, recent: newStore[uint64, packet]()}
		}
	}
	return nil
}

func (p *peer) inboundOf(ssrc uint32, payloadType uint8) *inbound {
	for _, in := range p.inbounds {
		if in.ssrc == ssrc && in.row.PayloadType == payloadType {
			return in
		}
	}
	return nil
}
