// Package jilqamur is the media path of WebRTC: SDP offers and answers, RTP packets of thirteen codecs, the jitter
// buffer, and forwarding by packets, over a proved library. It opens no socket and encrypts nothing: a program sends
// the datagrams that it makes, and hands it those that arrive.
//
// Two ends agree by an offer and an answer, and each opens its stream:
//
//	opus, err := jilqamur.NewRow("opus", 111)
//	a, err := jilqamur.NewEnd(jilqamur.Config{Rows: []jilqamur.Row{opus}, Session: 1})
//	offer, err := a.Offer(jilqamur.Section{Mid: "0", SSRCs: []uint32{44}})
//	answer, err := b.Answer(offer, jilqamur.Section{Mid: "0", SSRCs: []uint32{45}})
//	err = a.Accept(answer)
//	sender, err := a.OpenSender("0", 44, 111, jilqamur.StreamParams{MTU: 1200, Limit: 1400})
//
// A sample is the codec's bytes of a frame or an audio packet: of AV1 the OBUs of a temporal unit, of which only the
// last may have no size; of H.264, H.265 and H.266 an access unit with start codes; of AMR-WB a header byte and the
// speech (RFC 4867, section 5.3). Units have the same forms: each OBU with its size, each NAL unit after 00 00 00 01.
//
// A call that is refused returns an [Error], or a [Refusal], which tells the place too, and changes nothing unless its
// comment says otherwise: compare both by [errors.Is]. Values of this package, such as an [End], are closed by Close,
// or once nothing refers to them. Any goroutine may call any value: a call waits for another one at the same value. A
// call at a nil pointer, at a zero value and at a closed one returns [ErrClosed], and at a copy [ErrCopied].
//
// A call of C costs as much as a short call of the library, so a sample is one of them, and so is a datagram with its
// units ([End.AppendReceived]). [End.AppendDatagrams] and [End.AppendUnits] use the memory of earlier datagrams and
// units again; [End.AppendBatch] and [End.ReceiveBatch] make one call of many samples or datagrams.
//
// The library is linked from the folder lib of this package, or from the repository that it is in. With the build tag
// jilqamur_pkgconfig, pkg-config finds it.
package jilqamur
