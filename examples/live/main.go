// Calls of browsers over the Go package: an echo of a camera, and a room of several browsers. Pion carries ICE, DTLS
// and SRTP, only on the loopback; the media path is the library for C.
package main

import (
	"flag"
	"fmt"
	"net"
	"net/http"
	"os"
)

const usage = `usage: live COMMAND [flags]

  echo       sends each browser its own audio and video back: units in, samples out
  bridge     sends each browser the audio and video of the others, packet by packet
  picture    draws what a journal of one of these tells: live picture JOURNAL > FILE.svg

live COMMAND -help lists the flags.
`

func main() {
	command := ""
	if len(os.Args) > 1 {
		command = os.Args[1]
	}
	var err error
	switch command {
	case "echo", "bridge":
		err = serve(command, os.Args[2:])
	case "picture":
		err = picture(os.Args[2:], os.Stdout)
	default:
		fmt.Fprint(os.Stderr, usage)
		os.Exit(2)
	}
	if err != nil {
		fmt.Fprintln(os.Stderr, "live:", err)
		os.Exit(1)
	}
}

// serve serves the page, until all results are there.
func serve(command string, words []string) error {
	flags := flag.NewFlagSet(command, flag.ExitOnError)
	address := flags.String("address", "127.0.0.1:8080", "where the page is served")
	page := flags.String("page", ".", "the folder of page.html and page.js")
	log := flags.String("journal", "", "a file for what happens, which the command picture draws")
	record := flags.String("record", "", "a folder for what arrives, as lines of hexadecimal, and for session texts")
	browsers := flags.Int("browsers", 1, "how many browsers a run waits for")
	seconds := flags.Float64("seconds", 0, "how long they then talk; 0 for until they leave")
	wanted := flags.Int("results", 0, "how many results to wait for, of a run with -seconds; 0 for one of each browser")
	r := &room{isBridge: command == "bridge", peers: map[int]*peer{}}
	r.impairment.flags(flags)
	flags.Parse(words)
	journal, err := journalFile(*log)
	if err != nil {
		return err
	}
	r.journal = journal
	s := &server{room: r, page: *page, mode: command, folder: *record, browsers: *browsers, seconds: *seconds,
		results: make(chan []byte)}
	s.capture()
	listener, err := net.Listen("tcp", *address)
	if err != nil {
		return err
	}
	fmt.Printf("http://%s/\n", listener.Addr())
	go r.tend()
	go http.Serve(listener, s)
	if *wanted == 0 {
		*wanted = *browsers
	}
	for count := 0; *seconds == 0 || count < *wanted; count++ {
		fmt.Printf("%s\n", <-s.results)
	}
	return nil
}

func journalFile(name string) (*journal, error) {
	if name == "" {
		return newJournal(nil), nil
	}
	file, err := os.Create(name)
	return newJournal(file), err
}
