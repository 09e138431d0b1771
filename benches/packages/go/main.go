// What benches/pion does, by the Go package: samples into datagrams, and datagrams received and polled.
package main

import (
	"fmt"
	"log"
	"os"
	"time"

	"jilqamur"
)

const (
	mtu    = 1200
	slices = 300
)

type line struct {
	name    string
	row     jilqamur.Row
	isVideo bool
	head    string
	size    int
}

func check(err error) {
	if err != nil {
		log.Fatal(err)
	}
}

func fastest(slice func()) int64 {
	least := int64(1) << 62
	for i := 0; i < slices; i++ {
		start := time.Now()
		slice()
		if nanos := time.Since(start).Nanoseconds(); nanos < least {
			least = nanos
		}
	}
	return least
}

func agreed(l line) (a, b *jilqamur.End) {
	a, err := jilqamur.NewEnd(jilqamur.Config{Rows: []jilqamur.Row{l.row}, Session: 1})
	check(err)
	b, err = jilqamur.NewEnd(jilqamur.Config{Rows: []jilqamur.Row{l.row}, Session: 2})
	check(err)
	section := jilqamur.Section{Mid: "0", SSRCs: []uint32{44}}
	if l.isVideo {
		section.Kind = jilqamur.Video
	}
	offer, err := a.Offer(section)
	check(err)
	section.SSRCs = []uint32{45}
	answer, err := b.Answer(offer, section)
	check(err)
	check(a.Accept(answer))
	params := jilqamur.StreamParams{MTU: mtu, Limit: mtu + 200}
	if l.isVideo {
		params.PictureID = jilqamur.Some(uint16(1))
	}
	_, err = a.OpenSender("0", 44, l.row.PayloadType, params)
	check(err)
	_, err = b.OpenReceiver("0", 44, l.row.PayloadType, jilqamur.ReceiverParams{HoldBack: 4})
	check(err)
	return a, b
}

func sampleOf(l line) []byte {
	sample := make([]byte, l.size)
	for i := range sample {
		sample[i] = 8
	}
	copy(sample, l.head)
	return sample
}

// A call is a pair of ends, of which one sends samples to the other: each by itself, or up to 20 in a batch.
type call struct {
	a, b     *jilqamur.End
	sample   []byte
	ticks    uint64
	sent     [][][]byte
	units    []jilqamur.Unit
	batch    jilqamur.Batch
	received int // the bytes of the last unit
}

func (c *call) send() {
	for i := range c.sent {
		c.ticks += 960
		datagrams, err := c.a.AppendDatagrams(c.sent[i][:0], 0, c.ticks, c.sample, jilqamur.Values{}, "")
		check(err)
		c.sent[i] = datagrams
	}
}

func (c *call) receive() {
	for _, datagrams := range c.sent {
		for _, datagram := range datagrams {
			var err error
			c.units, _, _, err = c.b.AppendReceived(c.units[:0], datagram)
			check(err)
			c.count(c.units)
		}
	}
}

func (c *call) count(units []jilqamur.Unit) {
	for k := range units {
		c.received = len(units[k].Bytes)
	}
}

func (c *call) sendBatch(samples int) func() {
	given := make([]jilqamur.Sample, samples)
	return func() {
		for i := range c.sent {
			for k := range given {
				c.ticks += 960
				given[k] = jilqamur.Sample{Ticks: c.ticks, Bytes: c.sample}
			}
			datagrams, err := c.a.AppendBatch(c.sent[i][:0], 0, given, jilqamur.Values{}, "")
			check(err)
			c.sent[i] = datagrams
		}
	}
}

func (c *call) receiveBatch() {
	for _, datagrams := range c.sent {
		check(c.b.ReceiveBatch(&c.batch, datagrams))
		for k := range c.batch.Received {
			check(c.batch.Received[k].Err)
			c.count(c.batch.Received[k].Units)
		}
	}
}

// measure tells how fast samples are sent, and their datagrams received and polled. Each slice sends its own
// datagrams, since an end takes each number once.
func measure(l line) {
	rounds := 200000 / l.size
	if rounds < 1 {
		rounds = 1
	} else if rounds > 1000 {
		rounds = 1000
	}
	c := &call{sample: sampleOf(l)}
	c.sent = make([][][]byte, rounds)
	report(l, "", rounds, c.send, c.receive, c)
	samples := 20
	if rounds < samples {
		samples = rounds
	}
	c.sent = make([][][]byte, rounds/samples)
	report(l, " in batches", len(c.sent)*samples, c.sendBatch(samples), c.receiveBatch, c)
}

func report(l line, how string, samples int, send, receive func(), c *call) {
	rate := func(nanos int64) int64 { return int64(l.size) * int64(samples) * 1000 / nanos }
	c.a, c.b = agreed(l)
	fmt.Fprintf(os.Stderr, "%s%s, %d bytes: %d MB a second sent\n", l.name, how, l.size, rate(fastest(send)))
	c.a, c.b = agreed(l) // numbers that are too far ahead can't be widened
	least := int64(1) << 62
	for i := 0; i < slices; i++ {
		send()
		start := time.Now()
		receive()
		if nanos := time.Since(start).Nanoseconds(); i > 0 && nanos < least {
			least = nanos
		}
	}
	fmt.Printf("%s%s: %d bytes, %d in a unit\n", l.name, how, l.size, c.received)
	fmt.Fprintf(os.Stderr, "%s%s, %d bytes: %d MB a second received and polled\n", l.name, how, l.size, rate(least))
}

func main() {
	row := func(codec, format string) jilqamur.Row {
		row, err := jilqamur.NewRow(codec, 111)
		check(err)
		row.Format = format
		return row
	}
	for _, size := range []int{12000, 196000} {
		measure(line{"VP8", row("VP8", ""), true, "", size})
		measure(line{"VP9", row("VP9", "profile-id=0"), true, "\x82\x49\x83\x42", size})
		measure(line{"H264", row("H264", "packetization-mode=1;profile-level-id=42001f"), true, "\x00\x00\x00\x01\x65", size})
	}
	measure(line{"opus", row("opus", ""), false, "", 120})
}
