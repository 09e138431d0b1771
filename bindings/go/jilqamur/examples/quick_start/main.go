// Two ends agree on Opus; one sends three samples, and the other prints them.
package main

import (
	"fmt"
	"log"
	"strings"

	"jilqamur"
)

// opusEnd is an end that has Opus at payload type 111.
func opusEnd(session uint64) (*jilqamur.End, error) {
	opus, err := jilqamur.NewRow("opus", 111)
	if err != nil {
		return nil, err
	}
	opus.Format = "minptime=10;useinbandfec=1"
	return jilqamur.NewEnd(jilqamur.Config{Rows: []jilqamur.Row{opus}, Session: session})
}

// connect lets two ends agree: the two texts are all that travels. It opens a stream at each.
func connect(a, b *jilqamur.End) (sender int, err error) {
	offer, err := a.Offer(jilqamur.Section{Mid: "0", SSRCs: []uint32{44}})
	if err != nil {
		return 0, err
	}
	answer, err := b.Answer(offer, jilqamur.Section{Mid: "0", SSRCs: []uint32{45}})
	if err != nil {
		return 0, err
	}
	if err := a.Accept(answer); err != nil {
		return 0, err
	}
	if _, err := b.OpenReceiver("0", 44, 111, jilqamur.ReceiverParams{HoldBack: 4}); err != nil {
		return 0, err
	}
	return a.OpenSender("0", 44, 111, jilqamur.StreamParams{First: 1000, MTU: 1200, Limit: 1400})
}

// receive takes a datagram from the network, and prints the frames that are due then.
func receive(end *jilqamur.End, datagram []byte) error {
	stream, _, err := end.Receive(datagram)
	if err != nil {
		return nil // it belongs to no stream, is damaged or came before
	}
	units, err := end.Units(stream)
	for _, unit := range units {
		fmt.Printf("at %d: %s\n", unit.Time, strings.ReplaceAll(fmt.Sprint(unit.Bytes), " ", ", "))
	}
	return err
}

func run() error {
	a, err := opusEnd(1)
	if err != nil {
		return err
	}
	defer a.Close()
	b, err := opusEnd(2)
	if err != nil {
		return err
	}
	defer b.Close()
	sender, err := connect(a, b)
	if err != nil {
		return err
	}
	for k := byte(0); k < 3; k++ {
		datagrams, err := a.PushSample(sender, 960*uint64(k), []byte{k, 2, 3}, jilqamur.Values{}, "")
		if err != nil {
			return err
		}
		for _, datagram := range datagrams { // they would go out to the network; here they go to b
			if err := receive(b, datagram); err != nil {
				return err
			}
		}
	}
	return nil
}

func main() {
	if err := run(); err != nil {
		log.Fatal(err)
	}
}
