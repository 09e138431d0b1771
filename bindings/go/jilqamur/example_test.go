package jilqamur_test

import (
	"errors"
	"fmt"
	"log"

	"jilqamur"
)

// Two ends agree on Opus; one sends three samples, and the other prints them.
func Example() {
	opus := jilqamur.Row{PayloadType: 111, Codec: "opus", ClockRate: 48000, Channels: jilqamur.Some(uint8(2)),
		Format: "minptime=10;useinbandfec=1"}
	a, err := jilqamur.NewEnd(jilqamur.Config{Rows: []jilqamur.Row{opus}, Session: 1})
	check(err)
	b, err := jilqamur.NewEnd(jilqamur.Config{Rows: []jilqamur.Row{opus}, Session: 2})
	check(err)
	offer, err := a.Offer(jilqamur.Section{Mid: "0", SSRCs: []uint32{44}}) // the two texts are all that travels
	check(err)
	answer, err := b.Answer(offer, jilqamur.Section{Mid: "0", SSRCs: []uint32{45}})
	check(err)
	check(a.Accept(answer))
	sender, err := a.OpenSender("0", 44, 111, jilqamur.StreamParams{First: 1000, MTU: 1200, Limit: 1400})
	check(err)
	_, err = b.OpenReceiver("0", 44, 111, jilqamur.ReceiverParams{HoldBack: 4})
	check(err)
	for k := byte(0); k < 3; k++ {
		datagrams, err := a.PushSample(sender, 960*uint64(k), []byte{k, 2, 3}, jilqamur.Values{}, "")
		check(err)
		for _, datagram := range datagrams { // they would go out to the network; here they go to b
			stream, _, err := b.Receive(datagram)
			check(err)
			units, err := b.Units(stream)
			check(err)
			for _, unit := range units {
				fmt.Printf("at %d: %d\n", unit.Time, unit.Bytes)
			}
		}
	}
	// Output:
	// at 0: [0 2 3]
	// at 960: [1 2 3]
	// at 1920: [2 2 3]
}

func check(err error) {
	if err != nil {
		log.Fatal(err)
	}
}

// A sender and a receiver of one codec, without a session text.
func ExampleSender() {
	format := jilqamur.Format{ClockRate: 48000}
	sender, err := jilqamur.NewSender("opus", format,
		jilqamur.SenderParams{SSRC: 44, PayloadType: 111, MTU: 1200, Limit: 1400})
	check(err)
	receiver, err := jilqamur.NewReceiver("opus", format, jilqamur.ReceiverParams{HoldBack: 4})
	check(err)
	datagrams, err := sender.PushSample(960, []byte{1, 2, 3})
	check(err)
	_, err = receiver.Receive(datagrams[0])
	check(err)
	unit, err := receiver.Poll()
	check(err)
	fmt.Println(unit.Time, unit.Bytes)
	// Output: 960 [1 2 3]
}

// Datagrams are sent and received without garbage: each call uses the memory of the one before again.
func ExampleEnd_AppendReceived() {
	opus, err := jilqamur.NewRow("opus", 111)
	check(err)
	a, err := jilqamur.NewEnd(jilqamur.Config{Rows: []jilqamur.Row{opus}, Session: 1})
	check(err)
	b, err := jilqamur.NewEnd(jilqamur.Config{Rows: []jilqamur.Row{opus}, Session: 2})
	check(err)
	offer, err := a.Offer(jilqamur.Section{Mid: "0", SSRCs: []uint32{44}})
	check(err)
	answer, err := b.Answer(offer, jilqamur.Section{Mid: "0"})
	check(err)
	check(a.Accept(answer))
	sender, err := a.OpenSender("0", 44, 111, jilqamur.StreamParams{MTU: 1200, Limit: 1400})
	check(err)
	_, err = b.OpenReceiver("0", 44, 111, jilqamur.ReceiverParams{HoldBack: 4})
	check(err)
	var datagrams [][]byte
	var units []jilqamur.Unit
	for k := byte(0); k < 2; k++ {
		datagrams, err = a.AppendDatagrams(datagrams[:0], sender, 960*uint64(k), []byte{k, 2, 3}, jilqamur.Values{}, "")
		check(err)
		for _, datagram := range datagrams {
			units, _, _, err = b.AppendReceived(units[:0], datagram)
			check(err)
			for _, unit := range units {
				fmt.Println(unit.Time, unit.Bytes)
			}
		}
	}
	// Output:
	// 0 [0 2 3]
	// 960 [1 2 3]
}

// A browser's offer is answered, and the answer made one for the browser.
func ExampleEnd_AnswerBrowser() {
	end, err := jilqamur.NewEnd(jilqamur.Config{DefaultRows: true, Session: 7})
	check(err)
	own, err := end.AnswerBrowser(browsersOffer, jilqamur.SectionRequest{SSRCs: []uint32{44}})
	check(err)
	_, err = end.ForBrowser(own, jilqamur.Transport{Setup: jilqamur.Passive, Ufrag: "abcd",
		Password: "passwordpasswordpassword", Digest: make([]byte, 32)})
	check(err)
	remote, err := end.Remote()
	check(err)
	sections, err := end.AgreedSections()
	check(err)
	fmt.Println(remote.Ufrag, remote.OwnSetup.Value == jilqamur.Passive)
	fmt.Println(sections[0].Mid, sections[0].Kind, sections[0].Direction, sections[0].Rows[0].Codec, sections[0].SSRCs)
	// Output:
	// wxyz true
	// 0 audio sendrecv opus [45]
}

// Packets of one source are sent on as those of one stream.
func ExampleForwarder() {
	forwarder, err := jilqamur.NewForwarder(1)
	check(err)
	check(forwarder.Switch(7, 500, 90000, 3000))
	placed, err := forwarder.Forward(7, 502, 93000, true)
	check(err)
	next, err := forwarder.Next()
	check(err)
	fmt.Println(placed.Number, placed.Timestamp, next)
	// Output: 3 6000 4
}

// Each error has the name and the text of its code.
func ExampleError() {
	_, err := jilqamur.ReadHeader([]byte("x"))
	fmt.Println(errors.Is(err, jilqamur.ErrUnreadable))
	fmt.Println(err)
	// Output:
	// true
	// jilqamur: no RTP header stands in front of the bytes (JILQAMUR_UNREADABLE)
}

const browsersOffer = "v=0\r\no=- 1 2 IN IP4 127.0.0.1\r\ns=-\r\nt=0 0\r\na=group:BUNDLE 0\r\n" +
	"m=audio 9 UDP/TLS/RTP/SAVPF 111\r\nc=IN IP4 0.0.0.0\r\na=mid:0\r\na=sendrecv\r\na=rtcp-mux\r\n" +
	"a=rtpmap:111 opus/48000/2\r\na=fmtp:111 minptime=10;useinbandfec=1\r\na=ice-ufrag:wxyz\r\n" +
	"a=ice-pwd:passwordpasswordpassword\r\na=fingerprint:sha-256 AB:CD\r\na=setup:actpass\r\n" +
	"a=ssrc:45 cname:x\r\n"
