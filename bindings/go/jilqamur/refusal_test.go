package jilqamur

import (
	"fmt"
	"os"
	"regexp"
	"strconv"
	"strings"
	"testing"
)

// header is the text of jilqamur.h, which lies in the folder include of the package or two folders up.
func header(t *testing.T) string {
	t.Helper()
	for _, file := range []string{"include/jilqamur.h", "../../c/include/jilqamur.h"} {
		if text, err := os.ReadFile(file); err == nil {
			return string(text)
		}
	}
	t.Skip("there is no header")
	return ""
}

func TestCodesAreThoseOfTheHeader(t *testing.T) {
	text := header(t)
	codes := regexp.MustCompile(`(?m)^    JILQAMUR_(\w+) = (\d+),?(?: +/\*|\n)`).FindAllStringSubmatch(
		text[strings.Index(text, "/* What calls return. */"):strings.Index(text, "static inline")], -1)
	equal(t, len(codes), len(names))
	_, texts, _ := strings.Cut(text, "texts[] = {")
	said := regexp.MustCompile(`(?m)^        "(.*)",$`).FindAllStringSubmatch(texts, -1)
	for k, code := range codes {
		equal(t, code[2], strconv.Itoa(k))
		equal(t, Error(k).Name(), "JILQAMUR_"+code[1])
		equal(t, Error(k).Text(), said[k][1])
	}
	equal(t, Error(len(codes)).Text(), "no such answer")
	equal(t, Error(len(codes)).Name(), fmt.Sprintf("Error(%d)", len(codes)))
}

// Each constant of this package is the code whose name it has.
func TestConstantsAreNamedAsTheHeader(t *testing.T) {
	source, err := os.ReadFile("error.go")
	if err != nil {
		t.Skip(err)
	}
	constants := regexp.MustCompile(`(?m)^\tErr(\w+) +Error = (\d+)`).FindAllStringSubmatch(string(source), -1)
	equal(t, len(constants), len(names)-1)
	for k, constant := range constants {
		equal(t, constant[2], strconv.Itoa(k+1))
		equal(t, strings.ToUpper(constant[1]), strings.ReplaceAll(names[k+1], "_", ""))
	}
}

func TestBadNumbersAreRefused(t *testing.T) {
	a, b := agreed(t)
	_, err := a.OpenSender("a", 10, 111, StreamParams{MTU: -1, Limit: 1400})
	refused(t, err, ErrOutOfRange)
	_, err = a.OpenSender("a", 10, 111, StreamParams{MTU: 0, Limit: 1400})
	refused(t, err, ErrOutOfRange)
	_, err = a.OpenSender("nowhere", 10, 111, StreamParams{MTU: 1200, Limit: 1400})
	refused(t, err, ErrNoSection)
	_, err = a.OpenSender("a\xff", 10, 111, StreamParams{MTU: 1200, Limit: 1400})
	refused(t, err, ErrNotText)
	_, err = b.OpenReceiver("a", 10, 111, ReceiverParams{HoldBack: -1})
	refused(t, err, ErrOutOfRange)
	_, err = b.OpenReceiver("a", 10, 111, ReceiverParams{Held: 1})
	refused(t, err, ErrOutOfRange)
	_, err = b.OpenReceiver("a", 10, 111, ReceiverParams{})
	refused(t, err, ErrAlreadyOpen)
	for _, stream := range []int{-1, 2, 1 << 40} {
		_, err = a.PushSample(stream, 0, []byte{1}, Values{}, "")
		refused(t, err, ErrNoStream)
		_, err = b.Poll(stream)
		refused(t, err, ErrNoStream)
		_, err = b.Units(stream)
		refused(t, err, ErrNoStream)
	}
	_, err = NewSender("none", Format{ClockRate: 90000}, SenderParams{MTU: 1, Limit: 100})
	refused(t, err, ErrOutOfRange)
	_, err = NewRow("none", 96)
	refused(t, err, ErrOutOfRange)
}

func TestBadTextsAreRefused(t *testing.T) {
	a, b := made(t, 1), made(t, 2)
	_, err := NewEnd(Config{Rows: []Row{{PayloadType: 1, Codec: "opus"}}})
	refused(t, err, ErrOutOfRange)
	_, err = NewEnd(Config{Rows: []Row{opus, opus}})
	refused(t, err, ErrTypesNotDistinct)
	_, err = NewEnd(Config{Extensions: []Extension{{17, URIMid}}})
	refused(t, err, ErrOutOfRange)
	_, err = b.Answer("nothing", Section{Mid: "a"})
	refused(t, err, ErrTextUnreadable)
	refused(t, a.Accept("v=0"), ErrTextUnreadable)
	_, err = b.AnswerBrowser("nothing", SectionRequest{})
	refused(t, err, ErrTextUnreadable)
	_, err = a.Offer(Section{Mid: "0", SSRCs: []uint32{1}, Repairs: []Repair{{2, 3}}})
	refused(t, err, ErrOutOfRange)
	// A section that is refused leaves none of those before it.
	_, err = a.Offer(Section{Mid: "x"}, Section{Mid: "\xff"})
	refused(t, err, ErrNotText)
	offer := must[string](t)(a.Offer(Section{Mid: "y"}))
	equal(t, strings.Count(offer, "a=mid:"), 1)
}

func TestWhatIsClosedAnswersSo(t *testing.T) {
	a, _ := agreed(t)
	equal(t, a.Close(), nil)
	for _, end := range []*End{a, {}} {
		refused(t, end.Close(), ErrClosed)
		_, err := end.Offer(Section{Mid: "a"})
		refused(t, err, ErrClosed)
		_, _, err = end.Receive(plain)
		refused(t, err, ErrClosed)
		_, err = end.Poll(0)
		refused(t, err, ErrClosed)
		_, err = end.AgreedSections()
		refused(t, err, ErrClosed)
		_, err = end.Remote()
		refused(t, err, ErrClosed)
	}
	for _, close := range []func() error{
		(&Window{}).Close, (&Packetizer{}).Close, (&Depacketizer{}).Close, (&Sender{}).Close, (&Receiver{}).Close,
		(&Forwarder{}).Close, (&PacketHistory{}).Close, (&NackRequester{}).Close,
	} {
		refused(t, close(), ErrClosed)
	}
	_, err := (&Packetizer{}).Packetize(1, nil)
	refused(t, err, ErrClosed)
	_, err = (&Forwarder{}).Next()
	refused(t, err, ErrClosed)
}
