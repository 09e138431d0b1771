// What crates/benchmarks does, by pion, where it has both ways: samples into datagrams, and datagrams read and
// put through webrtc's sample builder, which has no replay window.
package main

import (
	"fmt"
	"os"
	"time"

	"github.com/pion/rtp"
	"github.com/pion/rtp/codecs"
	"github.com/pion/webrtc/v3/pkg/media/samplebuilder"
)

const (
	mtu    = 1200
	slices = 300
	turns  = 200
)

type line struct {
	name         string
	payloader    rtp.Payloader
	depacketizer rtp.Depacketizer
	isVideo      bool
	head         string
	size         int
}

func fastest(slice func()) int64 {
	least := int64(1) << 62
	for i := 0; i < slices; i++ {
		start := time.Now()
		slice()
		if nanos := time.Since(start).Nanoseconds(); nanos < least {
			least = nanos
		}
	}
	return least
}

// The datagrams of a sample.
func push(l line, number *uint16, time uint32, sample []byte) [][]byte {
	payloads := l.payloader.Payload(mtu, sample)
	datagrams := make([][]byte, 0, len(payloads))
	for i, payload := range payloads {
		packet := rtp.Packet{Header: rtp.Header{Version: 2, PayloadType: 96, SequenceNumber: *number, Timestamp: time,
			SSRC: 44, Marker: l.isVideo && i == len(payloads)-1}, Payload: payload}
		*number++
		datagram, err := packet.Marshal()
		if err != nil {
			panic(err)
		}
		datagrams = append(datagrams, datagram)
	}
	return datagrams
}

// A datagram of the same bytes under another number and timestamp, since pion keeps what it is handed.
func renumbered(datagram []byte, number, time uint16) []byte {
	bytes := append([]byte(nil), datagram...)
	bytes[2], bytes[3] = byte(number>>8), byte(number)
	bytes[4], bytes[5], bytes[6], bytes[7] = 0, 0, byte(time>>8), byte(time)
	return bytes
}

// Reads a datagram and pops; how many bytes the unit has, 0 without one.
func take(builder *samplebuilder.SampleBuilder, datagram []byte) int {
	packet := &rtp.Packet{}
	if err := packet.Unmarshal(datagram); err != nil {
		panic(err)
	}
	builder.Push(packet)
	if sample := builder.Pop(); sample != nil {
		return len(sample.Data)
	}
	return 0
}

func measure(l line) {
	sample := make([]byte, l.size)
	for i := range sample {
		sample[i] = 8
	}
	copy(sample, l.head)
	rounds := 200000 / l.size
	if rounds < 1 {
		rounds = 1
	} else if rounds > 1000 {
		rounds = 1000
	}
	rate := func(nanos int64) int64 { return int64(l.size) * int64(rounds) * 1000 / nanos }
	var datagrams [][]byte
	number, time := uint16(0), uint32(0)
	nanos := fastest(func() {
		for i := 0; i < rounds; i++ {
			time += 960
			datagrams = push(l, &number, time, sample)
		}
	})
	fmt.Fprintf(os.Stderr, "%s, %d bytes: %d MB a second sent\n", l.name, l.size, rate(nanos))
	builder := samplebuilder.New(1000, l.depacketizer, 90000)
	number, short, bytes := 0, uint16(0), 0
	nanos = fastest(func() {
		for i := 0; i < rounds; i++ {
			short++
			for _, datagram := range datagrams {
				number++
				if n := take(builder, renumbered(datagram, number, short)); n > 0 {
					bytes = n
				}
			}
		}
	})
	fmt.Printf("%s: %d bytes in %d datagrams, %d in a unit\n", l.name, l.size, len(datagrams), bytes)
	fmt.Fprintf(os.Stderr, "%s, %d bytes: %d MB a second received and polled\n", l.name, l.size, rate(nanos))
}

// Every other datagram, of which so many wait: the builder gives one up that is so many numbers old.
func measureWaiting(waiting int) {
	step, late := uint16(2), uint16(2*waiting+1)
	if waiting == 0 {
		step, late = 1, 10
	}
	builder := samplebuilder.New(late, &codecs.OpusPacket{}, 48000)
	datagram := append([]byte{0x80, 111, 0, 0, 0, 0, 0, 0, 0, 0, 0, 44}, make([]byte, 120)...)
	number := uint16(0)
	turn := func() {
		number += step
		take(builder, renumbered(datagram, number, number))
	}
	for i := 0; i <= 2*waiting+10; i++ {
		turn()
	}
	nanos := fastest(func() {
		for i := 0; i < turns; i++ {
			turn()
		}
	})
	fmt.Fprintf(os.Stderr, "%d waiting: %d ns to receive and poll\n", waiting, nanos/turns)
}

// Sends a packet on to some subscribers: a header with SSRC, type and number of each, and the payload after it.
func measureForwarding(name string, size, subscribers int) {
	datagram := append([]byte{0x80, 111, 0, 0, 0, 0, 0, 0, 0, 0, 0, 44}, make([]byte, size)...)
	numbers := make([]uint16, subscribers)
	rounds := 2000 / subscribers
	if rounds < 1 {
		rounds = 1
	}
	bytes, number := 0, uint16(0)
	nanos := fastest(func() {
		for i := 0; i < rounds; i++ {
			number++
			packet := &rtp.Packet{}
			if err := packet.Unmarshal(renumbered(datagram, number, number)); err != nil {
				panic(err)
			}
			for j := range numbers {
				numbers[j]++
				sent := rtp.Packet{Header: packet.Header, Payload: packet.Payload}
				sent.SSRC, sent.PayloadType, sent.SequenceNumber = uint32(j), 96, numbers[j]
				made, err := sent.Marshal()
				if err != nil {
					panic(err)
				}
				bytes = len(made)
			}
		}
	})
	fmt.Printf("%s, %d subscribers: %d bytes in a datagram\n", name, subscribers, bytes)
	fmt.Fprintf(os.Stderr, "%s, %d subscribers: %d ns to send a packet on to one\n", name, subscribers,
		nanos/int64(rounds*subscribers))
}

func main() {
	for _, size := range []int{12000, 196000} {
		measure(line{"VP8", &codecs.VP8Payloader{EnablePictureID: true}, &codecs.VP8Packet{}, true, "", size})
		measure(line{"VP9", &codecs.VP9Payloader{}, &codecs.VP9Packet{}, true, "\x82\x49\x83\x42", size})
		measure(line{"H264", &codecs.H264Payloader{}, &codecs.H264Packet{}, true, "\x00\x00\x00\x01\x65", size})
	}
	measure(line{"opus", &codecs.OpusPayloader{}, &codecs.OpusPacket{}, false, "", 120})
	for _, waiting := range []int{0, 15, 255, 4095} {
		measureWaiting(waiting)
	}
	for _, subscribers := range []int{1, 10, 1000} {
		measureForwarding("opus", 120, subscribers)
		measureForwarding("VP8", 1200, subscribers)
	}
}
