package main

import "time"

const (
	askAgain = 40 * time.Millisecond // after which a missing packet is asked for again
	mostAsks = 20                    // how often a packet is asked for
	mostGaps = 500                   // how far below the greatest number a packet is asked for
)

// gap is a packet that is missing.
type gap struct {
	since, asked time.Time
	asks         int
}

// gaps are the packets that are missing of a stream, by their widened numbers.
type gaps struct {
	begun   bool
	next    uint64
	missing map[uint64]*gap
}

// took records a number. Of one that was missing it tells for how long.
func (g *gaps) took(number uint64, now time.Time) (age time.Duration, wasMissing bool) {
	if !g.begun {
		g.begun, g.next, g.missing = true, number, map[uint64]*gap{}
	}
	if number < g.next {
		if found := g.missing[number]; found != nil {
			delete(g.missing, number)
			return now.Sub(found.since), true
		}
		return 0, false
	}
	for ; g.next < number; g.next++ {
		if number-g.next <= mostGaps {
			g.missing[g.next] = &gap{since: now}
		}
	}
	g.next = number + 1
	return 0, false
}

// due are the numbers that are to be asked for now.
func (g *gaps) due(now time.Time) (numbers []uint64) {
	for number, missing := range g.missing {
		if missing.asks == mostAsks || number+mostGaps < g.next {
			delete(g.missing, number)
			continue
		}
		if now.Sub(missing.asked) >= askAgain && now.Sub(missing.since) >= 10*time.Millisecond {
			missing.asked = now
			missing.asks++
			numbers = append(numbers, number)
		}
	}
	return numbers
}
