package jilqamur

import "testing"

// Samples of each size come out whole, whether or not there was room for their datagrams, and into memory that is used
// again.
func TestSamplesOfEachSizeComeOutWhole(t *testing.T) {
	a, b := agreed(t)
	var list [][]byte
	var units []Unit
	for turn, size := range []int{1, 2000, 50, 60000, 3, 100000, 7} {
		var err error
		list, err = a.AppendDatagrams(list[:0], 1, uint64(turn)*3000, frame(size), Values{}, "")
		equal(t, err, nil)
		for k, datagram := range list {
			var stream int
			if units, stream, _, err = b.AppendReceived(units[:0], datagram); err != nil || stream != 1 {
				t.Fatal(stream, err)
			}
			equal(t, len(units) == 1, k == len(list)-1)
		}
		equal(t, units[0].Bytes, frame(size))
	}
	fresh := must[[][]byte](t)(a.PushSample(1, 90000, frame(5000), Values{}, ""))
	kept := append([]byte(nil), fresh[1]...)
	must[[][]byte](t)(a.PushSample(1, 93000, frame(5001), Values{}, ""))
	equal(t, fresh[1], kept)
	for _, datagram := range fresh {
		_, _, err := b.Receive(datagram)
		equal(t, err, nil)
	}
	equal(t, must[[]*Unit](t)(b.Units(1))[0].Bytes, frame(5000))
	sender := must[*Sender](t)(NewSender("VP8", Format{ClockRate: 90000}, SenderParams{MTU: 20, Limit: 100}))
	for _, size := range []int{10, 30000, 5} {
		bytes := 0
		for _, datagram := range must[[][]byte](t)(sender.PushSample(1, frame(size))) {
			bytes += len(datagram) - 13
		}
		equal(t, bytes, size)
	}
}

// Many units that are due at once come out, of each size.
func TestManyUnitsAtOnce(t *testing.T) {
	a, b := agreed(t)
	var first []byte
	for k := 0; k < 100; k++ {
		datagrams := must[[][]byte](t)(a.PushSample(0, uint64(k)*960, make([]byte, 10+k*11), Values{}, ""))
		if k == 0 {
			first = datagrams[0]
			continue
		}
		if _, _, err := b.Receive(datagrams[0]); err != nil {
			t.Fatal(err)
		}
	}
	units, _, _, err := b.AppendReceived(nil, first)
	equal(t, err, nil)
	rest := must[[]*Unit](t)(b.Rest(0))
	for k := range rest {
		units = append(units, *rest[k])
	}
	equal(t, len(units), 100)
	for k, unit := range units {
		equal(t, len(unit.Bytes), 10+k*11)
	}
}

// Batches do what single calls do.
func TestBatchesAreAsSingleCalls(t *testing.T) {
	a, b := agreed(t)
	c, d := agreed(t)
	var batch Batch
	var list [][]byte
	for turn, count := range []int{1, 3, 0, 40, 2} {
		var samples []Sample
		var single, wanted [][]byte
		for k := 0; k < count; k++ {
			sample := Sample{uint64(turn*100000 + k*3000), frame(1 + (k*977)%3000)}
			samples = append(samples, sample)
			single = append(single, must[[][]byte](t)(c.PushSample(1, sample.Ticks, sample.Bytes, Values{}, "v"))...)
			wanted = append(wanted, sample.Bytes)
		}
		var err error
		list, err = a.AppendBatch(list[:0], 1, samples, Values{}, "v")
		equal(t, err, nil)
		equal(t, len(list), len(single))
		for k := range list {
			equal(t, list[k], single[k])
		}
		equal(t, b.ReceiveBatch(&batch, append(list, []byte{1})), nil)
		var units [][]byte
		for k, received := range batch.Received[:len(list)] {
			stream, number, err := d.Receive(single[k])
			equal(t, []any{received.Stream, received.Number, received.Err}, []any{stream, number, err})
			for j, unit := range must[[]*Unit](t)(d.Units(1)) {
				equal(t, received.Units[j], *unit)
				units = append(units, unit.Bytes)
			}
		}
		equal(t, units, wanted)
		refused(t, batch.Received[len(list)].Err, ErrUnreadable)
	}
	_, err := a.AppendBatch(nil, 9, []Sample{{1, []byte{1}}}, Values{}, "")
	refused(t, err, ErrNoStream)
	// Many units at once, after the first datagram.
	var late [][]byte
	for k := 0; k < 300; k++ {
		late = append(late, must[[][]byte](t)(a.PushSample(0, 1<<20+uint64(k)*960, make([]byte, 10+k*11), Values{}, ""))...)
	}
	equal(t, b.ReceiveBatch(&batch, append(append([][]byte(nil), late[1:]...), late[0])), nil)
	count := 0
	for _, received := range batch.Received {
		count += len(received.Units)
	}
	rest := must[[]*Unit](t)(b.Rest(0))
	equal(t, count+len(rest) > 290, true)
	// A sample that is refused ends the batch.
	equal(t, a.SkipTo(0, 1<<62-1), nil)
	list, err = a.AppendBatch(nil, 0, []Sample{{1 << 30, []byte{1}}, {1 << 31, []byte{2}}, {3, []byte{3}}}, Values{}, "")
	refused(t, err, ErrStreamFailed)
	equal(t, len(list), 1)
}

// A frame that needs more than what is kept comes out whole, and so does the one after it.
func TestLargeFramesComeOutWhole(t *testing.T) {
	format := Format{ClockRate: 90000}
	sender := must[*Sender](t)(NewSender("VP8", format, SenderParams{SSRC: 1, PayloadType: 96, MTU: 1200, Limit: 1400}))
	receiver := must[*Receiver](t)(NewReceiver("VP8", format, ReceiverParams{HoldBack: 2}))
	var list [][]byte
	for turn, size := range []int{3 << 20, 100, 2 << 20} {
		var err error
		list, err = sender.AppendDatagrams(list[:0], uint64(turn)*3000, frame(size))
		equal(t, err, nil)
		for _, datagram := range list {
			_, err = receiver.Receive(datagram)
			equal(t, err, nil)
		}
		units := must[[]*Unit](t)(receiver.Units())
		equal(t, []any{len(units), units[0].Bytes}, []any{1, frame(size)})
	}
}
