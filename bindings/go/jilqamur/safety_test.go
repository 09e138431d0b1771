package jilqamur

import (
	"errors"
	"fmt"
	"reflect"
	"runtime"
	"strings"
	"sync"
	"testing"
)

// callAll makes each call of a value with zero arguments, and tells what each returns as its error. A panic ends the
// test.
func callAll(t *testing.T, value any) map[string]error {
	t.Helper()
	found := map[string]error{}
	of := reflect.ValueOf(value)
	for k := 0; k < of.NumMethod(); k++ {
		method, name := of.Method(k), of.Type().Method(k).Name
		var given []reflect.Value
		for i := 0; i < method.Type().NumIn(); i++ {
			if !(method.Type().IsVariadic() && i == method.Type().NumIn()-1) {
				given = append(given, reflect.Zero(method.Type().In(i)))
			}
		}
		told := method.Call(given)
		err, _ := told[len(told)-1].Interface().(error)
		found[name] = err
	}
	return found
}

// openedValues are an open value of each type.
func openedValues(t *testing.T) []any {
	t.Helper()
	format := Format{ClockRate: 90000}
	return []any{
		made(t, 1), must[*Window](t)(NewWindow()), must[*Forwarder](t)(NewForwarder(1)),
		must[*PacketHistory](t)(NewPacketHistory(9, 99)), must[*NackRequester](t)(NewNackRequester(2, 1)),
		must[*Packetizer](t)(NewPacketizer("VP8", format, PacketizerParams{})),
		must[*Depacketizer](t)(NewDepacketizer("VP8", format, ReceiverParams{})),
		must[*Sender](t)(NewSender("VP8", format, SenderParams{MTU: 100, Limit: 200})),
		must[*Receiver](t)(NewReceiver("VP8", format, ReceiverParams{})),
	}
}

func TestNilAndClosedValuesAnswerSo(t *testing.T) {
	for _, value := range openedValues(t) {
		kind := reflect.TypeOf(value).Elem()
		closed := value.(interface{ Close() error })
		equal(t, closed.Close(), nil)
		for _, each := range []any{reflect.Zero(reflect.TypeOf(value)).Interface(), reflect.New(kind).Interface(), value} {
			for name, err := range callAll(t, each) {
				if !errors.Is(err, ErrClosed) {
					t.Fatalf("%v.%s returns %v", kind, name, err)
				}
			}
		}
	}
}

type holder struct {
	before int
	End
	after [2]Window
}

func TestCopiesAreRefused(t *testing.T) {
	for _, value := range openedValues(t) {
		copied := reflect.New(reflect.TypeOf(value).Elem())
		copied.Elem().Set(reflect.ValueOf(value).Elem())
		list := reflect.MakeSlice(reflect.SliceOf(copied.Elem().Type()), 3, 3)
		list.Index(2).Set(reflect.ValueOf(value).Elem())
		for _, each := range []any{copied.Interface(), list.Index(2).Addr().Interface()} {
			for name, err := range callAll(t, each) {
				if !errors.Is(err, ErrCopied) {
					t.Fatalf("%T.%s returns %v", value, name, err)
				}
			}
		}
		equal(t, value.(interface{ Close() error }).Close(), nil)
	}
}

func TestEmbeddedValuesClose(t *testing.T) {
	var h holder
	refused(t, h.Close(), ErrClosed)
	refused(t, h.after[1].Close(), ErrClosed)
	reflect.ValueOf(&h.End).Elem().Set(reflect.ValueOf(made(t, 1)).Elem())
	if err := h.Close(); err != ErrCopied {
		t.Fatal(err)
	}
	windows := make([]Window, 3)
	for k := range windows {
		refused(t, windows[k].Close(), ErrClosed)
	}
	runtime.GC()
}

func TestFinalizersFreeWhatNothingRefersTo(t *testing.T) {
	for k := 0; k < 200; k++ {
		a, b := agreed(t)
		datagrams := must[[][]byte](t)(a.PushSample(1, 0, frame(500), Values{}, ""))
		_, _, err := b.Receive(datagrams[0])
		equal(t, err, nil)
		if k%2 == 0 {
			equal(t, a.Close(), nil)
		}
		if k%20 == 0 {
			runtime.GC()
		}
	}
	runtime.GC()
}

// together runs a function in many goroutines, and tells the first error that isn't that a value is closed.
func together(count int, run func(k int) error) error {
	var group sync.WaitGroup
	faults := make(chan error, count)
	for k := 0; k < count; k++ {
		group.Add(1)
		go func(k int) {
			defer group.Done()
			defer func() {
				if told := recover(); told != nil {
					faults <- fmt.Errorf("panic: %v", told)
				}
			}()
			if err := run(k); err != nil && !errors.Is(err, ErrClosed) {
				faults <- err
			}
		}(k)
	}
	group.Wait()
	close(faults)
	return <-faults
}

func TestManyGoroutinesAtOneEnd(t *testing.T) {
	a, b := agreed(t)
	equal(t, together(16, func(k int) error {
		var list [][]byte
		var units []Unit
		for turn := 0; turn < 100; turn++ {
			sample := frame(20 + 10*k)
			sample[len(sample)-1] = byte(k)
			var err error
			if list, err = a.AppendDatagrams(list[:0], 1, uint64(turn), sample, Values{}, "v"); err != nil {
				return err
			}
			last := list[len(list)-1]
			if last[len(last)-1] != byte(k) {
				return fmt.Errorf("goroutine %d has datagrams of another one", k)
			}
			for _, datagram := range list {
				if units, _, _, err = b.AppendReceived(units[:0], datagram); err != nil && !errors.Is(err, ErrRefused) {
					return err
				}
				for _, unit := range units {
					if size := len(unit.Bytes); int(unit.Bytes[size-1])*10+20 != size {
						return fmt.Errorf("a unit of %d bytes ends with %d", size, unit.Bytes[size-1])
					}
				}
			}
			if _, err = b.Missing(1); err != nil {
				return err
			}
			if _, err = b.Units(1); err != nil {
				return err
			}
			if _, err = a.AgreedSections(); err != nil {
				return err
			}
		}
		return nil
	}), nil)
}

func TestManyGoroutinesAtEachValue(t *testing.T) {
	for _, value := range openedValues(t) {
		value := value
		equal(t, together(8, func(k int) error {
			for turn := 0; turn < 20; turn++ {
				if k == 0 && turn == 10 {
					return value.(interface{ Close() error }).Close()
				}
				of := reflect.ValueOf(value)
				for i := 0; i < of.NumMethod(); i++ {
					method := of.Method(i)
					if of.Type().Method(i).Name == "Close" {
						continue
					}
					var given []reflect.Value
					for j := 0; j < method.Type().NumIn(); j++ {
						given = append(given, reflect.Zero(method.Type().In(j)))
					}
					if method.Type().IsVariadic() {
						method.CallSlice(given)
					} else {
						method.Call(given)
					}
				}
			}
			return nil
		}), nil)
	}
}

func TestCloseBesideCalls(t *testing.T) {
	for turn := 0; turn < 50; turn++ {
		a, b := agreed(t)
		equal(t, together(6, func(k int) error {
			if k == 0 {
				return a.Close()
			}
			for ticks := uint64(0); ticks < 30; ticks++ {
				datagrams, err := a.PushSample(0, ticks, []byte{1, 2, 3}, Values{}, "")
				if err != nil {
					return err
				}
				if _, _, err = b.Receive(datagrams[0]); err != nil {
					return err
				}
			}
			return nil
		}), nil)
		refused(t, a.Close(), ErrClosed)
	}
}

// What a call gathered is used up when it is refused.
func TestARefusedCallLeavesNothing(t *testing.T) {
	a := made(t, 1)
	_, err := a.Offer(Section{Mid: "x", SSRCs: []uint32{1}, Repairs: []Repair{{1, 2}}}, Section{Mid: "\xff"})
	refused(t, err, ErrNotText)
	_, err = a.Offer(Section{Mid: "x"}, Section{Mid: "y", SSRCs: []uint32{1}, Repairs: []Repair{{7, 8}}})
	refused(t, err, ErrOutOfRange)
	_, err = a.Answer("nothing", Section{Mid: "x"})
	refused(t, err, ErrTextUnreadable)
	_, err = a.AnswerBrowser("nothing", SectionRequest{SSRCs: []uint32{5}})
	refused(t, err, ErrTextUnreadable)
	offer := must[string](t)(a.Offer(Section{Mid: "z"}))
	equal(t, strings.Count(offer, "a=mid:"), 1)
	equal(t, strings.Count(offer, "a=ssrc"), 0)
}

func TestMidsThatWouldBeChangedAreRefused(t *testing.T) {
	a, b := agreed(t)
	for _, mid := range []string{"abcdefghij_123456", "a-b", "a b", "ä", "a\n"} {
		_, err := a.Offer(Section{Mid: mid})
		refused(t, err, ErrMidNotKept)
		_, err = b.Answer("", Section{Mid: mid})
		refused(t, err, ErrMidNotKept)
		_, err = a.OpenSender(mid, 10, 111, StreamParams{MTU: 1, Limit: 100})
		refused(t, err, ErrMidNotKept)
		_, err = b.OpenReceiver(mid, 10, 111, ReceiverParams{})
		refused(t, err, ErrMidNotKept)
		_, err = b.OpenUnsignalled(mid, 10, 111, ReceiverParams{})
		refused(t, err, ErrMidNotKept)
		_, err = a.PushSample(0, 0, []byte{1}, Values{}, mid)
		refused(t, err, ErrMidNotKept)
		_, err = a.AppendDatagrams(nil, 0, 0, []byte{1}, Values{}, mid)
		refused(t, err, ErrMidNotKept)
		_, err = a.SendPacket(0, Forwarded{Payload: []byte{1}, Mid: mid})
		refused(t, err, ErrMidNotKept)
	}
	must[string](t)(made(t, 1).Offer(Section{Mid: "abcdefghij_12345"}))
}

func TestErrorsTellTheirPlace(t *testing.T) {
	rows := func(rows ...Row) func() error {
		return func() error { _, err := NewEnd(Config{Rows: rows}); return err }
	}
	extensions := func(extensions ...Extension) func() error {
		return func() error { _, err := NewEnd(Config{Rows: []Row{opus}, Extensions: extensions}); return err }
	}
	a, b := agreed(t)
	video := Section{Mid: "v", Kind: Video}
	for _, each := range []struct {
		call  func() error
		code  Error
		place string
	}{
		{rows(opus, Row{Codec: "PCMU", ClockRate: 8000}, Row{PayloadType: 111, Codec: "VP8", ClockRate: 90000}),
			ErrTypesNotDistinct, "row VP8 at type 111"},
		{rows(opus, Row{PayloadType: 9, Codec: "G722", ClockRate: 44100}), ErrRowNotPlain, "row G722 at type 9"},
		{rows(opus, Row{PayloadType: 9, Codec: "G722"}), ErrOutOfRange, "row G722 at type 9"},
		{extensions(Extension{17, "urn:a"}), ErrOutOfRange, "extension urn:a at id 17"},
		{extensions(Extension{1, "urn:a"}, Extension{2, "urn:b c"}), ErrNotWritable, "extension urn:b c at id 2"},
		{func() error {
			end, err := NewEnd(Config{Rows: []Row{opus}})
			if err == nil {
				_, err = end.Offer(video, Section{Mid: "w", Kind: Video})
			}
			return err
		}, ErrNoCommonRow, "sections v, w"},
		{func() error { _, err := a.PushSample(7, 0, []byte{1}, Values{}, ""); return err }, ErrNoStream, "stream 7"},
		{func() error { _, err := b.Poll(3); return err }, ErrNoStream, "stream 3"},
		{func() error { _, err := b.Units(3); return err }, ErrNoStream, "stream 3"},
		{func() error { _, err := a.Repair(0, plain); return err }, ErrNoRepair, "stream 0"},
		{func() error { return a.CloseSender(9) }, ErrNoStream, "stream 9"},
		{func() error { _, err := a.OpenSender("n", 44, 111, StreamParams{MTU: 1, Limit: 100}); return err }, ErrNoSection,
			"section n, SSRC 44, type 111"},
		{func() error { _, err := a.OpenSender("a", 44, 111, StreamParams{MTU: -1}); return err }, ErrOutOfRange,
			"section a, SSRC 44, type 111"},
		{func() error { _, err := NewPacketizer("flac", Format{ClockRate: 1}, PacketizerParams{}); return err },
			ErrOutOfRange, "codec flac"},
		{func() error { _, err := a.Offer(Section{Mid: "a-b"}); return err }, ErrMidNotKept, "section a-b"},
	} {
		err := each.call()
		refused(t, err, each.code)
		var refusal *Refusal
		if !errors.As(err, &refusal) || refusal.Place.String() != each.place {
			t.Fatalf("got %v, want %s", err, each.place)
		}
	}
	equal(t, a.CloseSender(9).Error(), "jilqamur: no such stream is open (stream 9, JILQAMUR_NO_STREAM)")
}

func TestAnMTUOf0IsRefused(t *testing.T) {
	packetizer := must[*Packetizer](t)(NewPacketizer("VP8", Format{ClockRate: 90000}, PacketizerParams{}))
	for _, mtu := range []int{0, -1} {
		_, err := packetizer.Packetize(mtu, frame(30))
		refused(t, err, ErrOutOfRange)
	}
	equal(t, len(must[[]Packet](t)(packetizer.Packetize(2, frame(3)))) > 0, true)
}
