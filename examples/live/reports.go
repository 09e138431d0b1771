package main

import (
	"fmt"
	"time"

	"github.com/pion/rtcp"
)

// reception is what a receiver report tells of a stream (RFC 3550, sections 6.4.1 and A.8).
type reception struct {
	first, highest          uint64
	received                uint64
	expectedPrior, hadPrior uint64
	jitter                  float64
	transit                 float64
	lastReport              uint32 // the middle 32 bits of the NTP time of the last sender report
	lastReportAt            time.Time
}

// took counts a packet. Repairs say nothing of the path's jitter.
func (r *reception) took(number uint64, timestamp, clockRate uint32, now time.Time, isRepair bool) {
	if r.received == 0 {
		r.first, r.highest = number, number
	}
	r.received++
	if isRepair || number < r.highest {
		return
	}
	transit := float64(now.UnixNano())/1e9*float64(clockRate) - float64(timestamp)
	if r.received > 1 {
		change := transit - r.transit
		if change < 0 {
			change = -change
		}
		if change < float64(clockRate) { // else the timestamp wrapped
			r.jitter += (change - r.jitter) / 16
		}
	}
	r.highest, r.transit = number, transit
}

// block is the report block.
func (r *reception) block(ssrc uint32, now time.Time) rtcp.ReceptionReport {
	expected := r.highest - r.first + 1
	block := rtcp.ReceptionReport{SSRC: ssrc, LastSequenceNumber: uint32(r.highest), Jitter: uint32(r.jitter)}
	if expected > r.received {
		block.TotalLost = uint32(expected-r.received) & 0xffffff
	}
	wanted, had := expected-r.expectedPrior, r.received-r.hadPrior
	if wanted > had && wanted > 0 {
		block.FractionLost = uint8((wanted - had) * 255 / wanted)
	}
	r.expectedPrior, r.hadPrior = expected, r.received
	if !r.lastReportAt.IsZero() {
		block.LastSenderReport = r.lastReport
		block.Delay = uint32(now.Sub(r.lastReportAt).Seconds() * 65536)
	}
	return block
}

// ntp is a time in seconds since 1900, with 32 bits after the point.
func ntp(at time.Time) uint64 {
	return uint64(at.Unix()+2208988800)<<32 | uint64(at.Nanosecond())<<32/1e9
}

// reporter is the SSRC under which the peer is asked and told.
func (p *peer) reporter() uint32 { return uint32(p.id) << 16 }

// control sends control packets, after a report without blocks (RFC 3550, section 6.1).
func (p *peer) control(packets ...rtcp.Packet) {
	p.compound(append([]rtcp.Packet{&rtcp.ReceiverReport{SSRC: p.reporter()}}, packets...))
}

func (p *peer) compound(packets []rtcp.Packet) {
	bytes, err := rtcp.Marshal(packets)
	if err == nil {
		err = p.transport.send(bytes, true)
	}
	if err != nil && err != errNotConnected {
		fmt.Println("not asked or told:", err)
	}
}

// report sends the receiver report of what arrives and the sender reports of what is sent.
func (p *peer) report(now time.Time) {
	receiver := &rtcp.ReceiverReport{SSRC: p.reporter()}
	for _, in := range p.inbounds {
		if in.isActive && in.reception.received > 0 && len(receiver.Reports) < 31 {
			receiver.Reports = append(receiver.Reports, in.reception.block(in.ssrc, now))
		}
	}
	packets := []rtcp.Packet{receiver}
	named := []rtcp.SourceDescriptionChunk{chunk(p.reporter())}
	for _, s := range p.sections {
		if o := s.out; o != nil && o.isOpen && o.sends && o.packets > 0 {
			packets = append(packets, &rtcp.SenderReport{SSRC: o.ssrc, NTPTime: ntp(now), RTPTime: o.now(now),
				PacketCount: o.packets, OctetCount: o.octets})
			named = append(named, chunk(o.ssrc))
		}
	}
	p.compound(append(packets, &rtcp.SourceDescription{Chunks: named}))
}

// cname is the one that the end's texts say.
const cname = "str0m"

func chunk(ssrc uint32) rtcp.SourceDescriptionChunk {
	name := rtcp.SourceDescriptionItem{Type: rtcp.SDESCNAME, Text: cname}
	return rtcp.SourceDescriptionChunk{Source: ssrc, Items: []rtcp.SourceDescriptionItem{name}}
}

// heed answers what a browser asks for, and takes its reports.
func (p *peer) heed(bytes []byte, now time.Time) {
	packets, err := rtcp.Unmarshal(bytes)
	if err != nil {
		return
	}
	for _, it := range packets {
		switch said := it.(type) {
		case *rtcp.TransportLayerNack:
			for _, pair := range said.Nacks {
				pair.Range(func(number uint16) bool {
					p.room.askedAgain(p, said.MediaSSRC, number, now)
					return true
				})
			}
		case *rtcp.PictureLossIndication:
			p.room.askedForKeyFrame(p, said.MediaSSRC, now)
		case *rtcp.FullIntraRequest:
			for _, entry := range said.FIR {
				p.room.askedForKeyFrame(p, entry.SSRC, now)
			}
		case *rtcp.SenderReport:
			for _, in := range p.inbounds {
				if in.ssrc == said.SSRC {
					in.reception.lastReport, in.reception.lastReportAt = uint32(said.NTPTime>>16), now
				}
			}
		}
	}
}
