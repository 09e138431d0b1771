package main

import (
	"encoding/binary"
	"flag"
	"math/rand"
	"sync"
	"time"
)

// impairment is what a network does to datagrams. Loss, Repeat and Reorder are percentages.
type impairment struct {
	Loss, Repeat, Reorder float64
	Delay, Jitter         time.Duration
	Seed                  int64
}

// flags lets a command line choose an impairment.
func (i *impairment) flags(set *flag.FlagSet) {
	set.Float64Var(&i.Loss, "loss", 0, "the percentage of datagrams that is lost on each hop")
	set.Float64Var(&i.Repeat, "repeat", 0, "the percentage that arrives twice")
	set.Float64Var(&i.Reorder, "reorder", 0, "the percentage that arrives 20 ms late")
	set.DurationVar(&i.Delay, "delay", 0, "the delay of each datagram")
	set.DurationVar(&i.Jitter, "jitter", 0, "the greatest further delay, which each datagram has a random part of")
	set.Int64Var(&i.Seed, "seed", 1, "the seed of these choices")
}

// hop is one direction of a path, and what it does to datagrams by its seed.
type hop struct {
	impairment
	lock    sync.Mutex
	chance  *rand.Rand
	lost    int
	onLost  func(ssrc uint32, number uint16)
	counted int
}

// newHop makes a hop whose choices differ from those of hops with another number.
func newHop(of impairment, number int64, onLost func(uint32, uint16)) *hop {
	return &hop{impairment: of, chance: rand.New(rand.NewSource(of.Seed*1000 + number)), onLost: onLost}
}

// fate is what happens to the next datagram: how often it arrives, and after which delay.
func (h *hop) fate() (times int, after time.Duration) {
	h.lock.Lock()
	defer h.lock.Unlock()
	lost, repeated, late := h.chance.Float64(), h.chance.Float64(), h.chance.Float64()
	after = h.Delay + time.Duration(h.chance.Float64()*float64(h.Jitter))
	h.counted++
	if lost*100 < h.Loss {
		h.lost++
		return 0, 0
	}
	if late*100 < h.Reorder {
		after += 20 * time.Millisecond
	}
	if repeated*100 < h.Repeat {
		return 2, after
	}
	return 1, after
}

// pass carries an encrypted datagram over the hop. Only the header is readable.
func (h *hop) pass(datagram []byte, deliver func([]byte)) {
	times, after := h.fate()
	if times == 0 && len(datagram) >= 12 && (datagram[1] < 192 || datagram[1] >= 224) {
		h.onLost(binary.BigEndian.Uint32(datagram[8:]), binary.BigEndian.Uint16(datagram[2:]))
	}
	for k := 0; k < times; k++ {
		if after > 0 {
			time.AfterFunc(after, func() { deliver(datagram) })
		} else {
			deliver(datagram)
		}
	}
}
