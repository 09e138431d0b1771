package main

import (
	"encoding/json"
	"io"
	"time"
)

// What a journal tells of.
const (
	arrived   = "arrived"   // a packet arrived from a browser
	repaired  = "repaired"  // a packet arrived that was missing; age is how long it was
	lost      = "lost"      // a hop lost a packet
	asked     = "asked"     // a packet was asked for again
	handed    = "unit"      // a unit was handed out; age is how long after its first packet
	sent      = "sent"      // a datagram of a sample was sent
	forwarded = "forwarded" // a packet was sent on
	again     = "again"     // a datagram was sent again
	keyFrame  = "key frame" // a key frame was asked for
)

// event is a line of a journal. Age is in milliseconds.
type event struct {
	At     float64 `json:"at"` // milliseconds since the start
	What   string  `json:"what"`
	Peer   int     `json:"peer"`
	Of     string  `json:"of"` // audio or video
	Number uint64  `json:"number,omitempty"`
	Age    float64 `json:"age,omitempty"`
}

// journal writes events as lines of JSON, for the command picture.
type journal struct {
	began time.Time
	to    *json.Encoder // or nil
}

func newJournal(to io.Writer) *journal {
	j := &journal{began: time.Now()}
	if to != nil {
		j.to = json.NewEncoder(to)
	}
	return j
}

// milliseconds are those of a duration, with three digits after the point.
func milliseconds(of time.Duration) float64 { return float64(of.Microseconds()) / 1000 }

// tell writes an event; its caller holds the room's lock.
func (j *journal) tell(what string, peer int, of string, number uint64, age time.Duration) {
	if j.to != nil {
		j.to.Encode(event{milliseconds(time.Since(j.began)), what, peer, of, number, milliseconds(age)})
	}
}
