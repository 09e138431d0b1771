package jilqamur

import "testing"

func TestWhatWasSentIsKept(t *testing.T) {
	history := must[*PacketHistory](t)(NewPacketHistory(4, 24))
	few := must[*PacketHistory](t)(NewPacketHistory(2, 1000))
	datagram := []byte{1, 2, 3, 4, 5, 6, 7, 8, 9}
	for k, size := range []int{5, 1, 7, 8, 9} {
		equal(t, history.Keep(65533+uint64(k), datagram[:size]), nil)
		equal(t, few.Keep(65533+uint64(k), datagram[:size]), nil)
	}
	equal(t, history.Keep(65536, datagram[1:3]), nil)
	equal(t, history.Keep(65534, nil), nil)
	for k, size := range []int{0, 0, 7, 8, 9} {
		low := uint16(65533 + k)
		if size > 0 {
			equal(t, must[[]byte](t)(history.Asked(low)), datagram[:size])
		} else {
			_, err := history.Asked(low)
			refused(t, err, ErrNothing)
		}
		if size > 7 {
			equal(t, must[[]byte](t)(few.Asked(low)), datagram[:size])
		} else {
			_, err := few.Asked(low)
			refused(t, err, ErrNothing)
		}
	}
	equal(t, few.Keep(131072, make([]byte, 900)), nil)
	equal(t, must[[]byte](t)(few.Asked(0)), make([]byte, 900))
	equal(t, history.Close(), nil)
	refused(t, history.Keep(1, nil), ErrClosed)
}

func TestWhatToAskFor(t *testing.T) {
	requester := must[*NackRequester](t)(NewNackRequester(2, 10))
	equal(t, must[[]uint64](t)(requester.Ask(nil, 0, 50)), []uint64{})
	missing := []uint64{70, 71, 75}
	for _, call := range []struct {
		missing []uint64
		now     uint64
		told    []uint64
	}{
		{missing, 100, []uint64{}}, {missing, 109, []uint64{}}, {missing[1:], 110, missing[1:]},
		{missing[1:], 159, []uint64{}}, {missing, 160, missing[1:]}, {missing, 210, missing[:1]},
	} {
		equal(t, must[[]uint64](t)(requester.Ask(call.missing, call.now, 50)), call.told)
	}
	_, err := requester.Ask([]uint64{3, 3}, 300, 50)
	refused(t, err, ErrOutOfRange)
	equal(t, requester.Close(), nil)
}
