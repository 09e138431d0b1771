package main

import (
	"encoding/json"
	"errors"
	"fmt"
	"io"
	"os"
	"sort"
	"strings"
)

// lane is what a picture shows of one peer's kind of media: events by what they are, in the order of the journal.
type lane struct {
	title  string
	events map[string][]event
}

const (
	width = 960.0 // of a picture, in pixels
	left  = 130.0 // where its time begins
	right = width - 10
	row   = 16.0 // the height of a row of counts
	bins  = 160  // how many bars a row has
)

// span is the time of a journal, in milliseconds.
type span struct{ begin, end float64 }

// part is how much of the time has passed, from 0 to less than 1.
func (s span) part(at float64) float64 { return (at - s.begin) / (s.end - s.begin + 1) }

// x is where a time is drawn.
func (s span) x(at float64) float64 { return left + (right-left)*s.part(at) }

// marks are the rows of a lane: what is counted, and the class of its bars.
var marks = []struct{ what, class string }{
	{arrived, "arrived"}, {lost, "lost"}, {repaired, "repaired"}, {handed, "units"}, {sent, "sent"},
	{forwarded, "sent"}, {again, "again"},
}

const style = `<style>
  svg { color-scheme: light dark; font: 12px system-ui, sans-serif; background: #fff; }
  text { fill: #222; } .axis { stroke: #999; } .arrived, .units { fill: #4878a8; } .sent { fill: #5a9a5a; }
  .lost { fill: #c03030; } .repaired, .again { fill: #c88a1e; } .key { stroke: #8a50b0; }
  @media (prefers-color-scheme: dark) {
    svg { background: #181818; } text { fill: #ddd; } .axis { stroke: #777; } .arrived, .units { fill: #7ab0e0; }
    .sent { fill: #86c586; } .lost { fill: #f07070; } .repaired, .again { fill: #e8b860; } .key { stroke: #c8a0e8; }
  }
</style>
`

// picture draws the journal of this name.
func picture(words []string, to io.Writer) error {
	if len(words) != 1 {
		return errors.New("picture takes the name of a journal")
	}
	file, err := os.Open(words[0])
	if err != nil {
		return err
	}
	defer file.Close()
	lanes, time, err := lanesOf(json.NewDecoder(file))
	if err != nil {
		return err
	}
	height := 60.0
	for _, it := range lanes {
		height += it.height()
	}
	fmt.Fprintf(to, "<svg xmlns=\"http://www.w3.org/2000/svg\" viewBox=\"0 0 %.0f %.0f\" role=\"img\">\n", width, height)
	fmt.Fprintf(to, "<title>Packets, losses, repairs and units of a call, by time</title>\n%s", style)
	top := 10.0
	for _, it := range lanes {
		it.draw(to, top, time)
		top += it.height()
	}
	drawTime(to, top+20, time)
	fmt.Fprintf(to, "<text x=\"4\" y=\"%.0f\">Bars: how many in each piece of time. Upright lines: a key frame was "+
		"asked for.</text>\n", height-8)
	_, err = fmt.Fprintln(to, "</svg>")
	return err
}

// lanesOf reads a journal.
func lanesOf(from *json.Decoder) (lanes []*lane, time span, err error) {
	found := map[string]*lane{}
	for {
		var it event
		if err := from.Decode(&it); err == io.EOF {
			break
		} else if err != nil {
			return nil, time, err
		}
		title := fmt.Sprintf("browser %d, %s", it.Peer, it.Of)
		if found[title] == nil {
			found[title] = &lane{title, map[string][]event{}}
		}
		found[title].events[it.What] = append(found[title].events[it.What], it)
		if len(found) == 0 {
			time = span{it.At, it.At}
		}
		if it.At > time.end {
			time.end = it.At
		}
	}
	for _, it := range found {
		lanes = append(lanes, it)
	}
	sort.Slice(lanes, func(a, b int) bool { return lanes[a].title < lanes[b].title })
	return lanes, time, nil
}

// height is that of the lane with its title, its rows and its ages.
func (l *lane) height() float64 {
	rows := 3
	for _, mark := range marks {
		if len(l.events[mark.what]) > 0 {
			rows++
		}
	}
	return row * float64(rows)
}

// draw shows counts as bars, one row for each kind of event, and below them the ages of repairs and units.
func (l *lane) draw(to io.Writer, top float64, time span) {
	fmt.Fprintf(to, "<text x=\"4\" y=\"%.0f\" font-weight=\"bold\">%s</text>\n", top+12, l.title)
	at := top + 18
	for _, mark := range marks {
		events := l.events[mark.what]
		if len(events) == 0 {
			continue
		}
		fmt.Fprintf(to, "<text x=\"4\" y=\"%.0f\">%s: %d</text>\n", at+11, mark.what, len(events))
		drawBars(to, events, mark.class, at+12, time)
		at += row
	}
	for _, it := range l.events[keyFrame] {
		fmt.Fprintf(to, "<path class=\"key\" d=\"M%.1f %.0fV%.0f\"><title>A key frame was asked for</title></path>\n",
			time.x(it.At), top+16, at)
	}
	l.drawAges(to, at)
}

// drawBars counts events in equal pieces of time.
func drawBars(to io.Writer, events []event, class string, bottom float64, time span) {
	var counts [bins]int
	most := 1
	for _, it := range events {
		at := int(time.part(it.At) * bins)
		counts[at]++
		if counts[at] > most {
			most = counts[at]
		}
	}
	var path strings.Builder
	wide := (right - left) / bins
	for at, count := range counts {
		if count > 0 {
			high := 12 * float64(count) / float64(most)
			fmt.Fprintf(&path, "M%.1f %.1fh%.1fv%.1fh-%.1fz", left+float64(at)*wide, bottom, wide, -high, wide)
		}
	}
	fmt.Fprintf(to, "<path class=\"%s\" d=\"%s\"/>\n", class, path.String())
}

// drawAges says how old packets were when they were repaired, and units when they were handed out.
func (l *lane) drawAges(to io.Writer, top float64) {
	words := []string{}
	for _, what := range []string{repaired, handed} {
		ages := []float64{}
		for _, it := range l.events[what] {
			ages = append(ages, it.Age)
		}
		if len(ages) > 0 {
			sort.Float64s(ages)
			middle, most := ages[len(ages)/2], ages[len(ages)-1]
			words = append(words, fmt.Sprintf("%s after %.0f ms in the middle, at most %.0f ms", what, middle, most))
		}
	}
	fmt.Fprintf(to, "<text x=\"%.0f\" y=\"%.0f\">%s</text>\n", left, top+12, strings.Join(words, "; "))
}

// drawTime marks the seconds since the first event.
func drawTime(to io.Writer, top float64, time span) {
	fmt.Fprintf(to, "<line class=\"axis\" x1=\"%.0f\" x2=\"%.0f\" y1=\"%.0f\" y2=\"%.0f\"/>\n", left, right,
		top-14, top-14)
	step := 1.0
	seconds := (time.end - time.begin) / 1000
	for seconds/step > 20 {
		step *= 5
	}
	for second := 0.0; second <= seconds; second += step {
		fmt.Fprintf(to, "<text x=\"%.1f\" y=\"%.0f\">%.0f s</text>\n", time.x(time.begin+second*1000), top, second)
	}
}
