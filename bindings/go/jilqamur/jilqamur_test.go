package jilqamur

import (
	"bytes"
	"errors"
	"fmt"
	"reflect"
	"strings"
	"sync"
	"testing"
)

var (
	opus = Row{PayloadType: 111, Codec: "opus", ClockRate: 48000, Channels: Some(uint8(2))}
	vp8  = Row{PayloadType: 96, Codec: "VP8", ClockRate: 90000, Resend: Some(uint8(97))}
	// plain is a datagram of SSRC 44 with an audio level under id 1, a mid under 3 and a stream's id under 5.
	plain = []byte{0x90, 0xe0, 0, 7, 0, 0, 3, 0xc0, 0, 0, 0, 44, 0xbe, 0xde, 0, 2, 0x10, 0x9e, 0x31, 97, 118, 0x50, 104,
		0, 1, 2, 3, 4}
)

// must ends the test if a call is refused.
func must[T any](t *testing.T) func(T, error) T {
	t.Helper()
	return func(value T, err error) T {
		t.Helper()
		if err != nil {
			t.Fatal(err)
		}
		return value
	}
}

// equal ends the test if a value isn't the one that is wanted.
func equal(t *testing.T, got, want any) {
	t.Helper()
	if !reflect.DeepEqual(got, want) {
		t.Fatalf("got %v, want %v", got, want)
	}
}

// refused ends the test if a call isn't refused with this code.
func refused(t *testing.T, err error, code Error) {
	t.Helper()
	if !errors.Is(err, code) {
		t.Fatalf("got %v, want %v", err, code)
	}
}

// made is an end of Opus and VP8 that carries the section's mid under id 3.
func made(t *testing.T, session uint64) *End {
	t.Helper()
	return must[*End](t)(NewEnd(Config{Rows: []Row{opus, vp8}, Extensions: []Extension{{3, URIMid}}, Session: session}))
}

// agreed are two ends that agreed on audio and video; the first sends streams 0 and 1, which the second receives.
func agreed(t *testing.T) (a, b *End) {
	t.Helper()
	a, b = made(t, 1), made(t, 2)
	sections := func(ssrc uint32) []Section {
		return []Section{{Mid: "a", SSRCs: []uint32{ssrc}}, {Mid: "v", Kind: Video, SSRCs: []uint32{ssrc + 1},
			Repairs: []Repair{{ssrc + 1, ssrc + 2}}}}
	}
	offer := must[string](t)(a.Offer(sections(10)...))
	answer := must[string](t)(b.Answer(offer, sections(20)...))
	if err := a.Accept(answer); err != nil {
		t.Fatal(err)
	}
	open := must[int](t)
	open(a.OpenSender("a", 10, 111, StreamParams{First: 100, MTU: 1200, Limit: 1400}))
	open(a.OpenSender("v", 11, 96, StreamParams{First: 100, MTU: 30, Limit: 60}))
	open(b.OpenReceiver("a", 10, 111, ReceiverParams{HoldBack: 2}))
	open(b.OpenReceiver("v", 11, 96, ReceiverParams{HoldBack: 2}))
	return a, b
}

// frame is a key frame of VP8 of this many bytes.
func frame(size int) []byte {
	bytes := make([]byte, size)
	for k := range bytes {
		bytes[k] = byte(k)
	}
	bytes[0] = 0x10
	return bytes
}

func TestACallWithTexts(t *testing.T) {
	a, b := agreed(t)
	datagrams := must[[][]byte](t)(a.PushSample(0, 960, []byte("abc"), Values{}, "a"))
	equal(t, len(datagrams), 1)
	stream, number, err := b.Receive(datagrams[0])
	equal(t, []any{stream, number, err}, []any{0, uint64(100), nil})
	_, _, err = b.Receive(datagrams[0])
	refused(t, err, ErrRefused)
	units := must[[]*Unit](t)(b.Units(0))
	equal(t, units, []*Unit{{Bytes: []byte("abc"), First: 100, Last: 100, Time: 960}})
	equal(t, must[Values](t)(b.Values()), Values{})
	_, names, err := ExtensionIDs{Mid: 3}.Read(datagrams[0])
	equal(t, []any{names, err}, []any{Names{Mid: Some("a")}, nil})
	_, _, err = b.Receive([]byte("x"))
	refused(t, err, ErrUnreadable)
	datagrams[0][11] = 99
	_, _, err = b.Receive(datagrams[0])
	refused(t, err, ErrForeign)
}

func TestALostDatagram(t *testing.T) {
	a, b := agreed(t)
	for k := byte(0); k < 3; k++ {
		datagrams := must[[][]byte](t)(a.PushSample(0, 960*uint64(k), []byte{k}, Values{}, ""))
		if k != 1 {
			if _, _, err := b.Receive(datagrams[0]); err != nil {
				t.Fatal(err)
			}
		}
	}
	equal(t, must[[]*Unit](t)(b.Units(0))[0].Bytes, []byte{0})
	equal(t, must[*Unit](t)(b.Poll(0)), (*Unit)(nil))
	rest := must[[]*Unit](t)(b.Rest(0))
	equal(t, []any{len(rest), rest[0].Bytes}, []any{1, []byte{2}})
}

func TestARepair(t *testing.T) {
	a, b := agreed(t)
	datagrams := must[[][]byte](t)(a.PushSample(1, 3000, frame(50), Values{}, ""))
	for _, datagram := range datagrams[1:] {
		if _, _, err := b.Receive(datagram); err != nil {
			t.Fatal(err)
		}
	}
	equal(t, must[*Unit](t)(b.Poll(1)), (*Unit)(nil))
	repair := must[[]byte](t)(a.Repair(1, datagrams[0]))
	header := must[Header](t)(ReadHeader(repair))
	equal(t, []any{header.SSRC, header.PayloadType}, []any{uint32(12), uint8(97)})
	stream, number, err := b.Receive(repair)
	equal(t, []any{stream, number, err}, []any{1, uint64(100), nil})
	units := must[[]*Unit](t)(b.Units(1))
	equal(t, []any{len(units), units[0].Bytes, units[0].Keyframe}, []any{1, frame(50), true})
	_, err = a.Repair(0, datagrams[0])
	refused(t, err, ErrNoRepair)
}

func TestAnOfferIsGivenUp(t *testing.T) {
	a, _ := agreed(t)
	refused(t, a.Withdraw(), ErrNothing)
	must[string](t)(a.Offer(Section{Mid: "a", SSRCs: []uint32{10}}, Section{Mid: "v", Kind: Video}))
	_, err := a.Offer(Section{Mid: "a"})
	refused(t, err, ErrOutOfTurn)
	equal(t, a.Withdraw(), nil)
}

func TestWhatIsAgreedIsTold(t *testing.T) {
	a, _ := agreed(t)
	equal(t, must[[]AgreedSection](t)(a.AgreedSections()), []AgreedSection{
		{Mid: "a", Rows: []Row{opus}, SSRCs: []uint32{20}},
		{Mid: "v", Kind: Video, Rows: []Row{vp8}, SSRCs: []uint32{21}},
	})
	fresh := made(t, 3)
	equal(t, must[[]AgreedSection](t)(fresh.AgreedSections()), []AgreedSection(nil))
}

func TestABrowserIsAnswered(t *testing.T) {
	a, b := made(t, 1), made(t, 2)
	transport := Transport{Ufrag: "abcd", Password: "passwordpasswordpassword", Digest: []byte{0xab, 0xcd}}
	own := must[string](t)(a.Offer(Section{Mid: "0", SSRCs: []uint32{44}}))
	offer := must[string](t)(a.ForBrowser(own, transport))
	transport.Setup, transport.Lite = Passive, true
	own = must[string](t)(b.AnswerBrowser(offer, SectionRequest{SSRCs: []uint32{45}, Repairs: []Repair{{45, 46}}}))
	answer := must[string](t)(b.ForBrowser(own, transport))
	if err := a.AcceptBrowser(answer); err != nil {
		t.Fatal(err)
	}
	equal(t, must[Remote](t)(a.Remote()), Remote{Ufrag: "abcd", Password: transport.Password,
		Fingerprint: "sha-256 AB:CD", Setup: Some(Passive), OwnSetup: Some(Active), Trickling: true, Lite: true})
	equal(t, must[Remote](t)(b.Remote()).OwnSetup, Some(Passive))
	equal(t, a.TakeTypes(answer), nil)
	equal(t, must[[]AgreedSection](t)(a.AgreedSections())[0].Rows, []Row{opus})
	equal(t, a.TakeTypes(strings.Replace(answer, "a=mid:0", "a=mid:1", 1)), nil)
	none := strings.Replace(answer, "opus/48000/2", "none/48000/2", 1)
	equal(t, a.TakeTypes(none), nil)
	equal(t, len(must[[]AgreedSection](t)(a.AgreedSections())[0].Rows), 0)
	refused(t, a.TakeTypes("v=0\r\n"), ErrTextUnreadable)
	_, err := made(t, 3).AnswerBrowser(offer, SectionRequest{Reject: true})
	refused(t, err, ErrNothingLeft)
	_, err = b.ForBrowser(own, Transport{Setup: 9})
	refused(t, err, ErrOutOfRange)
}

func TestForwarding(t *testing.T) {
	a, b := agreed(t)
	datagrams := must[[][]byte](t)(a.PushSample(0, 960, []byte("abc"), Values{}, "a"))
	arrival := must[Arrival](t)(b.Arrival(datagrams[0]))
	equal(t, arrival, Arrival{Low: 100, Timestamp: 960, Payload: []byte("abc")})
	number := must[uint64](t)(b.TakeNumber(0, arrival.Low))
	equal(t, number, uint64(100))
	_, err := b.TakeNumber(0, arrival.Low)
	refused(t, err, ErrRefused)
	_, err = b.Arrival([]byte("x"))
	refused(t, err, ErrUnreadable)
	forwarder := must[*Forwarder](t)(NewForwarder(500))
	_, err = forwarder.Place(7, number, arrival.Timestamp)
	refused(t, err, ErrNothing)
	equal(t, forwarder.Switch(7, number, arrival.Timestamp, 77), nil)
	placed := must[Placed](t)(forwarder.Forward(7, number, arrival.Timestamp, true))
	sent := must[[]byte](t)(a.SendPacket(0, Forwarded{Placed: placed, Marker: true, Payload: arrival.Payload, Mid: "a"}))
	header := must[Header](t)(ReadHeader(sent))
	equal(t, []any{header.SequenceNumber, header.Timestamp, header.Marker, header.SSRC},
		[]any{uint16(500), uint32(77), true, uint32(10)})
	_, err = a.SendPacket(0, Forwarded{Placed: placed})
	refused(t, err, ErrNoPayload)
	_, err = a.SendPacket(0, Forwarded{Placed: Placed{Number: 1 << 62}, Payload: []byte{1}})
	refused(t, err, ErrNumberTooLarge)
}

func TestAForwarderSkipsAndEnds(t *testing.T) {
	forwarder := must[*Forwarder](t)(NewForwarder(1000))
	equal(t, forwarder.Switch(7, 500, 90000, 3000), nil)
	equal(t, must[Placed](t)(forwarder.Forward(7, 502, 93000, true)), Placed{1002, 6000})
	equal(t, must[Placed](t)(forwarder.Place(7, 504, 96000)), Placed{1004, 9000})
	equal(t, must[uint64](t)(forwarder.Next()), uint64(1003))
	equal(t, forwarder.SkipTo(510), nil)
	equal(t, must[Placed](t)(forwarder.Forward(7, 511, 99000, true)), Placed{1004, 12000})
	equal(t, forwarder.EndAt(514), nil)
	equal(t, must[uint64](t)(forwarder.Next()), uint64(1007))
}

func TestAForwarderLeavesPaddingOut(t *testing.T) {
	forwarder := must[*Forwarder](t)(NewForwarder(1000))
	equal(t, forwarder.Switch(7, 500, 90000, 3000), nil)
	equal(t, must[Placed](t)(forwarder.Forward(7, 500, 90000, true)), Placed{1000, 3000})
	equal(t, forwarder.PassEmpty(7, 501), nil)
	refused(t, forwarder.PassEmpty(7, 504), ErrNothing)
	equal(t, must[Placed](t)(forwarder.Forward(7, 502, 93000, false)), Placed{1001, 6000})
	equal(t, forwarder.Switch(8, 1, 0, 0), nil)
	equal(t, must[Placed](t)(forwarder.Forward(8, 1, 0, true)), Placed{1003, 0})
}

func TestManyEndsAtOnce(t *testing.T) {
	var group sync.WaitGroup
	faults := make(chan error, 8)
	for k := byte(0); k < 8; k++ {
		a, b := agreed(t)
		group.Add(1)
		go func(k byte) {
			defer group.Done()
			faults <- talk(a, b, k)
		}(k)
	}
	group.Wait()
	for k := 0; k < 8; k++ {
		equal(t, <-faults, nil)
	}
}

// talk sends 50 samples from one end to the other.
func talk(a, b *End, k byte) error {
	for ticks := byte(0); ticks < 50; ticks++ {
		datagrams, err := a.PushSample(0, uint64(ticks), []byte{k, ticks}, Values{}, "")
		if err != nil {
			return err
		}
		if _, _, err = b.Receive(datagrams[0]); err != nil {
			return err
		}
		units, err := b.Units(0)
		if err != nil {
			return err
		}
		if len(units) != 1 || !bytes.Equal(units[0].Bytes, []byte{k, ticks}) {
			return fmt.Errorf("units %v after sample %d", units, ticks)
		}
	}
	return nil
}
