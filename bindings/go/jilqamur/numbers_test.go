package jilqamur

import "testing"

func TestMissingNumbersAreToldAndPassed(t *testing.T) {
	a, b := agreed(t)
	equal(t, must[[]uint64](t)(b.Missing(0)), []uint64{})
	first := must[[][]byte](t)(a.PushSample(0, 960, []byte("abc"), Values{}, ""))
	_, number, err := b.Receive(first[0])
	equal(t, err, nil)
	must[*Unit](t)(b.Poll(0))
	equal(t, must[bool](t)(b.IsPassed(0, number)), true)
	equal(t, must[bool](t)(b.IsPassed(0, number+1)), false)
	equal(t, must[uint64](t)(a.NextNumber(0)), number+1)
	equal(t, a.SkipTo(0, number+4), nil)
	later := must[[][]byte](t)(a.PushSample(0, 1920, []byte("def"), Values{}, ""))
	_, _, err = b.Receive(later[0])
	equal(t, err, nil)
	equal(t, must[[]uint64](t)(b.Missing(0)), []uint64{number + 1, number + 2, number + 3})
	equal(t, b.PassTo(0, number+3), nil)
	equal(t, must[[]uint64](t)(b.Missing(0)), []uint64{})
	equal(t, string(must[*Unit](t)(b.Poll(0)).Bytes), "def")
}

func TestEmptyNumbersArePassed(t *testing.T) {
	a, b := agreed(t)
	first := must[[][]byte](t)(a.PushSample(0, 960, []byte("abc"), Values{}, ""))
	_, number, err := b.Receive(first[0])
	equal(t, err, nil)
	must[*Unit](t)(b.Poll(0))
	equal(t, must[bool](t)(b.PassEmpty(0, number+2)), false)
	equal(t, must[bool](t)(b.PassEmpty(0, number+1)), true)
	equal(t, must[bool](t)(b.IsPassed(0, number+1)), true)
	_, err = b.PassEmpty(9, 1)
	refused(t, err, ErrNoStream)
}

func TestMemoryIsGivenBack(t *testing.T) {
	a, b := agreed(t)
	for k := uint64(0); k < 5; k++ {
		datagrams := must[[][]byte](t)(a.PushSample(0, 960*k, make([]byte, 10), Values{}, ""))
		if k%2 == 0 {
			_, _, err := b.Receive(datagrams[0])
			equal(t, err, nil)
		}
	}
	equal(t, len(must[[]*Unit](t)(b.Units(0))), 1)
	equal(t, must[[]uint64](t)(b.Missing(0)), []uint64{101, 103})
	equal(t, b.KeepWithin(0, 10), nil)
	equal(t, must[[]uint64](t)(b.Missing(0)), []uint64{103})
	refused(t, b.KeepWithin(9, 10), ErrNoStream)
}

func TestUnsignalledStreams(t *testing.T) {
	a, b := made(t, 1), made(t, 2)
	offer := must[string](t)(a.Offer(Section{Mid: "a", SSRCs: []uint32{9}}))
	equal(t, a.Accept(must[string](t)(b.Answer(offer, Section{Mid: "a"}))), nil)
	must[int](t)(a.OpenSender("a", 9, 111, StreamParams{MTU: 1200, Limit: 1400}))
	equal(t, must[int](t)(a.OpenUnsignalled("a", 7, 111, ReceiverParams{HoldBack: 1})), 1)
	_, err := b.OpenUnsignalled("a", 7, 111, ReceiverParams{})
	refused(t, err, ErrSSRCNotNamed)
	params := SenderParams{SSRC: 7, PayloadType: 111, MTU: 100, Limit: 200}
	sender := must[*Sender](t)(NewSender("opus", Format{ClockRate: 48000}, params))
	var heard []byte
	for k := byte(0); k < 4; k++ {
		datagram := must[[][]byte](t)(sender.PushSample(960*uint64(k), []byte{k}))[0]
		if k == 1 {
			continue
		}
		units, stream, number, err := a.AppendReceived(nil, datagram)
		equal(t, []any{stream, number, err}, []any{1, uint64(k), nil})
		equal(t, len(units), int([]byte{1, 0, 0, 2}[k])) // one frame is held back
		for _, unit := range units {
			heard = append(heard, unit.Bytes...)
		}
	}
	equal(t, heard, []byte{0, 2, 3})
}

func TestCandidatesAreTold(t *testing.T) {
	a, b := made(t, 1), made(t, 2)
	own := must[string](t)(a.Offer(Section{Mid: "0", SSRCs: []uint32{44}}))
	transport := Transport{Ufrag: "abcd", Password: "passwordpasswordpassword", Digest: []byte{0xab}}
	offer := must[string](t)(a.ForBrowser(own, transport))
	candidates := []string{"candidate:1 1 udp 2122260223 192.0.2.1 5001 typ host",
		"candidate:2 1 udp 2122260223 192.0.2.2 5002 typ host"}
	must[string](t)(b.AnswerBrowser(offer+"a="+candidates[0]+"\r\na="+candidates[1]+"\r\n", SectionRequest{}))
	equal(t, must[Remote](t)(b.Remote()).Candidates, candidates)
}

func TestAClosedStreamIsNone(t *testing.T) {
	a, b := agreed(t)
	equal(t, a.CloseSender(0), nil)
	equal(t, b.CloseReceiver(0), nil)
	refused(t, a.CloseSender(0), ErrNoStream)
	refused(t, b.CloseReceiver(0), ErrNoStream)
	_, err := a.NextNumber(0)
	refused(t, err, ErrNoStream)
	_, err = b.Missing(0)
	refused(t, err, ErrNoStream)
	refused(t, b.PassTo(0, 1), ErrNoStream)
}

func TestAPacketTellsOfItsFrame(t *testing.T) {
	equal(t, must[PacketInfo](t)(PacketInfoOf("VP8", []byte{0x90, 0x20, 0x80, 0x10}, true)),
		PacketInfo{IsHead: true, IsTail: true, ShowsKeyFrame: true, TemporalLayer: Some(uint8(2))})
	equal(t, must[PacketInfo](t)(PacketInfoOf("VP9", []byte{0x28, 0xa3, 0, 1}, false)),
		PacketInfo{IsHead: true, SpatialLayer: Some(uint8(1)), TemporalLayer: Some(uint8(5))})
	_, err := PacketInfoOf("rtx", []byte{1}, false)
	refused(t, err, ErrOutOfRange)
}
