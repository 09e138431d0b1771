package main

import (
	"encoding/json"
	"errors"
	"fmt"
	"io"
	"net/http"
	"os"
	"path/filepath"
	"strconv"
	"time"

	"jilqamur"
)

// server serves the page, and carries texts between the browsers and the room.
type server struct {
	room       *room
	page       string
	mode       string
	folder     string // for recordings, or none
	browsers   int
	seconds    float64
	began      time.Time // when all browsers had joined
	hasDrained bool
	results    chan []byte
}

// texts are what the page and the program exchange.
type texts struct {
	SDP        string   `json:"sdp,omitempty"`
	Candidates []string `json:"candidates,omitempty"`
}

// The least time for which a page waits after the end, so that what is under way arrives.
const underWay = 2500 * time.Millisecond

// files are those of the page, by their paths.
var files = map[string]string{"/": "page.html", "/page.js": "page.js"}

var errNoPeer = errors.New("no such browser")

// ServeHTTP answers the page.
func (s *server) ServeHTTP(w http.ResponseWriter, r *http.Request) {
	body, err := io.ReadAll(r.Body)
	if err != nil {
		http.Error(w, err.Error(), http.StatusBadRequest)
		return
	}
	if file := files[r.URL.Path]; file != "" {
		http.ServeFile(w, r, filepath.Join(s.page, file))
		return
	}
	said, err := s.answer(r, body)
	if err != nil {
		fmt.Println("refused:", r.URL.Path, err)
		http.Error(w, err.Error(), http.StatusConflict)
		return
	}
	json.NewEncoder(w).Encode(said)
}

func (s *server) answer(r *http.Request, body []byte) (any, error) {
	query := r.URL.Query()
	if r.URL.Path == "/join" {
		return s.join(query.Get("codec"), query.Get("loss"), query.Get("red") != "")
	}
	if r.URL.Path == "/result" {
		s.results <- body
		return nil, nil
	}
	if r.URL.Path == "/elapsed" {
		return s.elapsed(), nil
	}
	var p *peer
	id, _ := strconv.Atoi(query.Get("peer"))
	s.room.within(func(now time.Time) {
		if p = s.room.peers[id]; p != nil {
			p.seen = now
		}
	})
	if p == nil {
		return nil, errNoPeer
	}
	switch r.URL.Path {
	case "/offer":
		return s.exchange(p, body, false)
	case "/pull":
		return s.pull(p)
	case "/answer":
		return s.exchange(p, body, true)
	case "/state":
		return s.state(p), nil
	case "/leave":
		s.room.within(func(time.Time) { s.room.leave(p) })
		return nil, nil
	}
	return nil, fmt.Errorf("no page %s", r.URL.Path)
}

// join takes a browser in, which may choose a codec, a loss and redundancy of audio.
func (s *server) join(codec, loss string, withRED bool) (any, error) {
	impaired := s.room.impairment
	if chosen, err := strconv.ParseFloat(loss, 64); err == nil && chosen >= 0 && chosen <= 100 {
		impaired.Loss = chosen
	}
	p, err := s.room.join(codec, withRED, impaired)
	if err != nil {
		return nil, err
	}
	return map[string]any{"peer": p.id, "mode": s.mode}, nil
}

// exchange takes the browser's offer, which it answers, or its answer.
func (s *server) exchange(p *peer, body []byte, isAnswer bool) (said texts, err error) {
	var from texts
	if err = json.Unmarshal(body, &from); err != nil {
		return said, err
	}
	s.keep(p, "remote.sdp", from.SDP)
	s.room.within(func(time.Time) {
		if isAnswer {
			err = p.accept(from.SDP)
		} else {
			said.SDP, err = p.answer(from.SDP)
		}
	})
	if err != nil {
		return said, err
	}
	s.keep(p, "own.sdp", said.SDP)
	return s.withCandidates(p, said, isAnswer)
}

// withCandidates says where this end is, and connects it to the browser after the first exchange.
func (s *server) withCandidates(p *peer, said texts, hasOffered bool) (texts, error) {
	var err error
	if said.Candidates, err = p.transport.candidates(); err != nil {
		return said, err
	}
	s.room.within(func(time.Time) {
		if p.isReady {
			return
		}
		p.isReady = true
		remote, told := p.end.Remote()
		if err = told; err == nil {
			p.ufrag = remote.Ufrag
			go s.connect(p, hasOffered, remote)
		}
	})
	return said, err
}

// pull is what the end has to offer, if anything.
func (s *server) pull(p *peer) (said texts, err error) {
	s.room.within(func(time.Time) {
		if s.mode == "echo" && len(p.sections) == 0 {
			p.offerEcho()
		}
		if p.wants {
			said.SDP, err = p.offer()
		}
	})
	if err != nil || said.SDP == "" {
		return said, err
	}
	said.Candidates, err = p.transport.candidates()
	return said, err
}

// state is what the page shows, and whether it is to stop sending, or to tell what it counted.
func (s *server) state(p *peer) (said map[string]any) {
	s.room.within(func(now time.Time) {
		said = p.told()
		said["phase"] = s.phase(now)
		said["elapsed"] = s.since(now)
	})
	return said
}

// elapsed is for how many seconds all browsers have been connected; 0 before.
func (s *server) elapsed() (seconds float64) {
	s.room.within(func(now time.Time) { seconds = s.since(now) })
	return seconds
}

func (s *server) since(now time.Time) float64 {
	if s.began.IsZero() {
		return 0
	}
	return now.Sub(s.began).Seconds()
}

// phase is run, stop or tell. A run lasts from when all browsers are connected.
func (s *server) phase(now time.Time) string {
	if s.began.IsZero() {
		connected := 0
		for _, p := range s.room.peers {
			if p.counts["video"].Arrived > 0 {
				connected++
			}
		}
		if connected < s.browsers {
			return "run"
		}
		s.began = now
	}
	if s.seconds == 0 {
		return "run"
	}
	end := s.began.Add(time.Duration(s.seconds * float64(time.Second)))
	switch {
	case now.Before(end):
		return "run"
	case now.Before(end.Add(underWay)):
		return "stop"
	}
	if !s.hasDrained && !s.room.isBridge {
		for _, p := range s.room.peers {
			p.rest()
		}
	}
	s.hasDrained = true
	if now.Before(end.Add(underWay + time.Second)) {
		return "stop"
	}
	return "tell"
}

// connect reaches the browser, with whatever it takes.
func (s *server) connect(p *peer, hasOffered bool, to jilqamur.Remote) {
	if err := p.transport.connect(hasOffered, to); err != nil {
		fmt.Println("not connected:", err)
	}
}

// keep writes a session text to the folder of recordings.
func (s *server) keep(p *peer, name, text string) {
	if s.folder != "" && text != "" {
		os.WriteFile(filepath.Join(s.folder, fmt.Sprintf("%d-%s", p.id, name)), []byte(text), 0o644)
	}
}

// capture lets the room keep each datagram, as lines of a time and hexadecimal.
func (s *server) capture() {
	if s.folder == "" {
		return
	}
	began, files := time.Now(), map[int]*os.File{}
	s.room.keep = func(peer int, datagram []byte) {
		if files[peer] == nil {
			files[peer], _ = os.Create(filepath.Join(s.folder, fmt.Sprintf("%d-capture.hex", peer)))
		}
		fmt.Fprintf(files[peer], "%d %x\n", time.Since(began).Milliseconds(), datagram)
	}
}
