package main

import (
	"fmt"
	"time"

	"jilqamur"
)

// peer is a browser in the room, for its whole call. The room's lock protects it.
type peer struct {
	id        int
	room      *room
	end       *jilqamur.End
	transport *transport
	sections  map[string]*section // by mid
	order     []string            // the mids of what was agreed, in the end's order
	inbounds  map[int]*inbound    // by the number of the end's stream
	wants     bool                // whether the end has something to offer
	isReady   bool                // whether the transport was told where the browser is
	ufrag     string              // the browser's, for the ICE session that goes on
	restarts  int                 // how often the browser began a new ICE session
	ssrcs     uint32              // how many SSRCs were given
	slots     int                 // how many sections the end made
	counts    map[string]*counts  // by audio and video
	seen      time.Time           // when its page asked last
}

// section is a media section as the end wants it.
type section struct {
	mid       string
	kind      jilqamur.Kind
	direction jilqamur.Direction
	isOwn     bool      // whether the end made it, and not the browser
	isStopped bool      // whether the browser stopped it for good
	out       *outbound // what is sent in it, or nil
}

// counts are what was counted of a kind of media.
type counts struct {
	Arrived   int `json:"arrived"`   // packets that arrived, repairs among them
	Redundant int `json:"redundant"` // of these, packets with redundancy (RFC 2198)
	Frames    int `json:"frames"`    // frames that ended with one of them, by the marker bit
	Lost      int `json:"lost"`      // packets that the hops lost
	Asked     int `json:"asked"`     // packets that were asked for
	Repaired  int `json:"repaired"`  // packets that then arrived
	Units     int `json:"units"`     // that were handed out
	Faults    int `json:"faults"`    // frames that the codec couldn't read
	Samples   int `json:"samples"`   // that were sent back
	Forwarded int `json:"forwarded"` // packets of others that were sent on
	Complete  int `json:"complete"`  // frames of others that ended with one of them
	Again     int `json:"again"`     // datagrams that were sent again
}

// rows are the payload types of a codec of video and of its retransmissions, and its parameters.
var rows = map[string]struct {
	payloadType, resend uint8
	format              string
}{
	"VP8":  {96, 97, ""},
	"VP9":  {98, 99, "profile-id=0"},
	"AV1":  {45, 46, ""},
	"H264": {108, 109, "level-asymmetry-allowed=1;packetization-mode=1;profile-level-id=42e01f"},
}

// redundant is the type of Opus with redundancy.
const redundant = 63

// config is that of an end of Opus, with redundancy or without, and one codec of video. A Chromium that answers sends the
// first row of an offer, whichever its answer lists: an end has one codec.
func config(session uint64, codec string, withRED bool) (jilqamur.Config, error) {
	chosen, isKnown := rows[codec]
	if !isKnown {
		return jilqamur.Config{}, fmt.Errorf("no codec %q", codec)
	}
	audio, err := jilqamur.NewRow("opus", 111)
	if err != nil {
		return jilqamur.Config{}, err
	}
	audio.Format = "minptime=10;useinbandfec=1"
	if withRED {
		audio.RED = jilqamur.Some[uint8](redundant)
	}
	video, err := jilqamur.NewRow(codec, chosen.payloadType)
	video.Format, video.Resend = chosen.format, jilqamur.Some(chosen.resend)
	return jilqamur.Config{Rows: []jilqamur.Row{audio, video}, Session: session, Extensions: []jilqamur.Extension{
		{ID: 1, URI: jilqamur.URIAudioLevel}, {ID: 4, URI: jilqamur.URIMid}, {ID: 13, URI: jilqamur.URIVideoOrientation},
	}}, err
}

// newSSRC is one that this peer has not had.
func (p *peer) newSSRC() uint32 {
	p.ssrcs++
	return uint32(p.id)<<16 + p.ssrcs
}

// newOutbound has SSRCs of its own, of which video has one for its repairs.
func (p *peer) newOutbound(s *section) *outbound {
	out := &outbound{peer: p, section: s, ssrc: p.newSSRC(), store: newStore[uint16, []byte]()}
	if s.kind == jilqamur.Video {
		out.repair = p.newSSRC()
	}
	return out
}

// names are the SSRCs that a section says, and what repairs what.
func (s *section) names() (ssrcs []uint32, repairs []jilqamur.Repair) {
	if s.out == nil {
		return nil, nil
	}
	if s.out.repair != 0 {
		repairs = []jilqamur.Repair{{SSRC: s.out.ssrc, By: s.out.repair}}
	}
	return []uint32{s.out.ssrc}, repairs
}

// slotMid is the mid of a section that the end makes.
func slotMid(number int) string { return fmt.Sprintf("s%d", number) }

// newSlot makes a section in which media of others is sent to this peer.
func (p *peer) newSlot(kind jilqamur.Kind) *section {
	p.slots++
	s := &section{mid: slotMid(p.slots), kind: kind, direction: jilqamur.SendOnly, isOwn: true}
	s.out = p.newOutbound(s)
	p.sections[s.mid] = s
	return s
}

// close ends the call.
func (p *peer) close() {
	go p.transport.close() // which may wait for a datagram that waits for the room
	for _, s := range p.sections {
		if s.out != nil && s.out.forwarder != nil {
			s.out.forwarder.Close()
		}
	}
	p.end.Close()
}
