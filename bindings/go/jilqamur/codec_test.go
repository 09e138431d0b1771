package jilqamur

import (
	"strings"
	"testing"
	"time"
)

func TestAHeaderIsReadAndWritten(t *testing.T) {
	header := must[Header](t)(ReadHeader(plain))
	equal(t, header, Header{HasExtension: true, Marker: true, PayloadType: 96, SequenceNumber: 7, Timestamp: 960,
		SSRC: 44, Len: 24})
	equal(t, must[[]byte](t)(header.Payload(plain[24:])), []byte{1, 2, 3, 4})
	written := must[[]byte](t)(Header{HasPadding: true, PayloadType: 5, SequenceNumber: 258, Timestamp: 3, SSRC: 9,
		CSRCs: []uint32{1}}.Bytes())
	equal(t, written, []byte{0xa1, 5, 1, 2, 0, 0, 0, 3, 0, 0, 0, 9, 0, 0, 0, 1})
	equal(t, must[Header](t)(ReadHeader(written)).CSRCs, []uint32{1})
	equal(t, must[[]byte](t)(Header{HasPadding: true}.Payload([]byte{9, 8, 0, 0, 3})), []byte{9, 8})
}

func TestBadHeadersAreRefused(t *testing.T) {
	_, err := ReadHeader(nil)
	refused(t, err, ErrUnreadable)
	_, err = Header{PayloadType: 128}.Bytes()
	refused(t, err, ErrUnwritable)
	_, err = Header{CSRCs: make([]uint32, 16)}.Bytes()
	refused(t, err, ErrUnwritable)
	_, err = Header{HasPadding: true}.Payload([]byte{0})
	refused(t, err, ErrDamaged)
	_, _, err = ExtensionIDs{Mid: 17}.Read(plain)
	refused(t, err, ErrOutOfRange)
	_, _, err = ExtensionIDs{}.Read([]byte{1})
	refused(t, err, ErrUnreadable)
}

func TestValuesAreRead(t *testing.T) {
	values, names, err := ExtensionIDs{AudioLevel: 1, Mid: 3, RID: 5}.Read(plain)
	equal(t, err, nil)
	equal(t, values, Values{AudioLevel: Some(int8(-30)), VoiceActivity: Some(true)})
	equal(t, names, Names{Mid: Some("av"), RID: Some("h")})
}

func TestValuesTravel(t *testing.T) {
	config := Config{Rows: []Row{opus}, Session: 1}
	for id, uri := range []string{URIAudioLevel, URITransportCC, URIVideoOrientation, URIPlayDelay, URIVideoContentType,
		URICaptureTime} {
		config.Extensions = append(config.Extensions, Extension{uint8(id + 1), uri})
	}
	a, b := must[*End](t)(NewEnd(config)), must[*End](t)(NewEnd(config))
	offer := must[string](t)(a.Offer(Section{Mid: "0", SSRCs: []uint32{1}}))
	equal(t, a.Accept(must[string](t)(b.Answer(offer, Section{Mid: "0", SSRCs: []uint32{2}}))), nil)
	sender := must[int](t)(a.OpenSender("0", 1, 111, StreamParams{MTU: 1200, Limit: 1400}))
	receiver := must[int](t)(b.OpenReceiver("0", 1, 111, ReceiverParams{}))
	sent := Values{
		AudioLevel: Some(int8(-5)), VoiceActivity: Some(false), TransportCC: Some(uint16(77)),
		VideoOrientation: Some(uint8(3)), PlayDelayMin: Some(uint16(1)), PlayDelayMax: Some(uint16(4095)),
		VideoContentType: Some(uint8(1)), CaptureTime: Some(uint64(1) << 40), ClockOffset: Some(int64(-9)),
	}
	datagrams := must[[][]byte](t)(a.PushSample(sender, 0, []byte{1}, sent, ""))
	_, _, err := b.Receive(datagrams[0])
	equal(t, err, nil)
	equal(t, len(must[[]*Unit](t)(b.Units(receiver))), 1)
	equal(t, must[Values](t)(b.Values()), sent)
}

func TestNumbersAreWidened(t *testing.T) {
	equal(t, []uint64{Widen(65534, 3), Widen(65540, 65535)}, []uint64{65539, 65535})
	window := must[*Window](t)(NewWindow())
	datagram := []byte{0x80, 0, 255, 255, 0, 0, 0, 0, 0, 0, 0, 0}
	equal(t, must[uint64](t)(window.Receive(datagram)), uint64(65535))
	_, err := window.Receive(datagram)
	refused(t, err, ErrRefused)
	_, err = window.Receive(nil)
	refused(t, err, ErrUnreadable)
	datagram[2], datagram[3] = 0, 1
	equal(t, must[uint64](t)(window.Receive(datagram)), uint64(65537))
}

func TestAFrameIsCutAndPutTogether(t *testing.T) {
	format := Format{ClockRate: 90000}
	packetizer := must[*Packetizer](t)(NewPacketizer("VP8", format, PacketizerParams{PictureID: Some(uint16(300))}))
	packets := must[[]Packet](t)(packetizer.Packetize(12, frame(30)))
	depacketizer := must[*Depacketizer](t)(NewDepacketizer("vp8", format, ReceiverParams{HoldBack: 2}))
	for k := len(packets) - 1; k >= 0; k-- {
		equal(t, packets[k].Marker, k == len(packets)-1)
		equal(t, depacketizer.Push(uint64(70000+k), 9000, packets[k].Marker, packets[k].Payload), nil)
	}
	equal(t, must[*Unit](t)(depacketizer.Pop()), &Unit{Bytes: frame(30), First: 70000,
		Last: 69999 + uint64(len(packets)), Time: 9000, Keyframe: true, PictureID: Some(uint16(300))})
	equal(t, must[*Unit](t)(depacketizer.Drain()), (*Unit)(nil))
	_, err := packetizer.Packetize(-1, frame(30))
	refused(t, err, ErrOutOfRange)
}

func TestAPayloadIsRefused(t *testing.T) {
	depacketizer := must[*Depacketizer](t)(NewDepacketizer("H265", Format{ClockRate: 90000}, ReceiverParams{}))
	equal(t, depacketizer.Push(1, 0, true, []byte{1}), nil)
	_, err := depacketizer.Pop()
	refused(t, err, ErrPacketTooShort)
	equal(t, must[*Unit](t)(depacketizer.Pop()), (*Unit)(nil))
}

func TestTelephoneEventsAreTold(t *testing.T) {
	depacketizer := must[*Depacketizer](t)(NewDepacketizer("telephone-event", Format{ClockRate: 8000}, ReceiverParams{}))
	equal(t, depacketizer.Push(1, 160, true, []byte{5, 0x8a, 0x03, 0x20}), nil)
	unit := must[*Unit](t)(depacketizer.Pop())
	equal(t, unit.Event, Some(Event{Event: 5, End: true, Volume: 10, Duration: 100 * time.Millisecond}))
}

func TestACallWithoutTexts(t *testing.T) {
	format := Format{ClockRate: 48000}
	sender := must[*Sender](t)(NewSender("opus", format, SenderParams{SSRC: 44, PayloadType: 111, First: 65535, MTU: 1200,
		Limit: 1212}))
	datagrams := must[[][]byte](t)(sender.PushSample(960, []byte("abc")))
	equal(t, datagrams, [][]byte{{0x80, 0x6f, 0xff, 0xff, 0, 0, 3, 0xc0, 0, 0, 0, 0x2c, 'a', 'b', 'c'}})
	receiver := must[*Receiver](t)(NewReceiver("opus", format, ReceiverParams{HoldBack: 3}))
	equal(t, must[uint64](t)(receiver.Receive(datagrams[0])), uint64(65535))
	equal(t, must[uint64](t)(receiver.Push(1, 0, false, []byte{1})), uint64(65537))
	_, err := receiver.Push(1, 0, false, []byte{1})
	refused(t, err, ErrRefused)
	units := must[[]*Unit](t)(receiver.Units())
	equal(t, []any{len(units), units[0].Bytes}, []any{1, []byte("abc")})
	equal(t, must[*Unit](t)(receiver.Drain()).First, uint64(65537))
	_, err = receiver.Receive([]byte{0x80})
	refused(t, err, ErrUnreadable)
}

func TestWhatAReceiverMissesAndGivesUp(t *testing.T) {
	receiver := must[*Receiver](t)(NewReceiver("opus", Format{ClockRate: 48000}, ReceiverParams{HoldBack: 3}))
	push := func(low uint16, payload ...byte) { must[uint64](t)(receiver.Push(low, 0, false, payload)) }
	push(1, 1)
	push(3, 3, 3, 3)
	equal(t, must[*Unit](t)(receiver.Poll()).First, uint64(1))
	equal(t, must[[]uint64](t)(receiver.Missing()), []uint64{2})
	equal(t, receiver.KeepWithin(3), nil)
	equal(t, must[[]uint64](t)(receiver.Missing()), []uint64{2})
	equal(t, receiver.KeepWithin(2), nil)
	equal(t, must[[]uint64](t)(receiver.Missing()), []uint64{})
	push(5, 5)
	equal(t, must[[]uint64](t)(receiver.Missing()), []uint64{4})
	equal(t, receiver.PassTo(4), nil)
	equal(t, must[*Unit](t)(receiver.Poll()).First, uint64(5))
	refused(t, receiver.KeepWithin(-1), ErrOutOfRange)
}

func TestTheVersionIsTold(t *testing.T) {
	major, minor, patch := Version()
	equal(t, []int{major, minor, patch}, []int{0, 10, 0})
}

func TestAFaultyLineIsTold(t *testing.T) {
	const head = "v=0\r\no=- 1 2 IN IP4 0.0.0.0\r\ns=-\r\nt=0 0\r\n"
	equal(t, must[Optional[FaultyLine]](t)(FaultyLineOf(head)), Optional[FaultyLine]{})
	equal(t, must[Optional[FaultyLine]](t)(FaultyLineOf("v=1\r\n")), Some(FaultyLine{1, "v=1", FaultVersion}))
	line := must[Optional[FaultyLine]](t)(FaultyLineOf(head + "x=" + strings.Repeat("1", 100) + "\r\ny=2\r\n"))
	equal(t, line.Value.String(), "line 5: fits nowhere: x="+strings.Repeat("1", 100))
	equal(t, must[Optional[FaultyLine]](t)(FaultyLineOf(head+"m=audio 9 UDP/TLS/RTP/SAVPF 0\r\na=sendrecv\r\n")),
		Some(FaultyLine{5, "m=audio 9 UDP/TLS/RTP/SAVPF 0", FaultMissingMid}))
	_, err := FaultyLineOf("v=0\xff")
	refused(t, err, ErrNotText)
}
