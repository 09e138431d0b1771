package jilqamur

// #include "jilqamur.h"
import "C"

import "fmt"

// A PacketInfo is what a packet says of its frame, without the frame being put together.
type PacketInfo struct {
	IsHead        bool            // whether a frame can begin with it; a NAL unit begins with it in H.26x
	IsTail        bool            // whether a frame ends with it
	ShowsKeyFrame bool            // whether it shows that its frame is a key frame; audio never does
	SpatialLayer  Optional[uint8] // the spatial layer, from 0, if it is told
	TemporalLayer Optional[uint8] // the temporal layer, from 0, if it is told
}

// PacketInfoOf is what a packet of the codec of this name, with this payload, without padding, and marker bit says of
// its frame. VP8 and AV1 show a key frame in its first packet, VP9 in each one, H.264, H.265 and H.266 in those that
// show a slice of the picture. It returns [ErrOutOfRange] for a name of no codec with a payload format.
func PacketInfoOf(codec string, payload []byte, marker bool) (PacketInfo, error) {
	var told C.jilqamur_packet_info
	name, nameSize := placeOf(codec)
	at, size := place(payload)
	if err := done(C.jilqamur_payload_info(name, nameSize, at, size, C.bool(marker), &told)); err != nil {
		return PacketInfo{}, err
	}
	return PacketInfo{
		IsHead: bool(told.is_head), IsTail: bool(told.is_tail), ShowsKeyFrame: bool(told.shows_key_frame),
		SpatialLayer:  optional(told.has_spatial_layer, uint8(told.spatial_layer)),
		TemporalLayer: optional(told.has_temporal_layer, uint8(told.temporal_layer)),
	}, nil
}

// A LineFault is what is wrong with a line of a session text (RFC 8866 5); those from [FaultMissingMid] on are those of
// the line m= of a section.
type LineFault uint32

// The faults.
const (
	FaultVersion         LineFault = 0  // it isn't the line v=0 that a text begins with
	FaultOrigin          LineFault = 1  // it isn't a valid line o=, which is the second
	FaultName            LineFault = 2  // it isn't a line s= with a name, which is the third
	FaultTimes           LineFault = 3  // it isn't the line t=0 0, nor one that may precede it
	FaultStray           LineFault = 4  // it is none of the lines that may follow the one before it
	FaultMissingMid      LineFault = 5  // the section has no a=mid
	FaultSeveralMids     LineFault = 6  // the section has several a=mid
	FaultSeveralSetups   LineFault = 7  // the section has several a=setup
	FaultDirections      LineFault = 8  // the section doesn't have exactly one direction
	FaultNoPayloadType   LineFault = 9  // the section has no payload types
	FaultRTPMaps         LineFault = 10 // a payload type isn't mapped exactly once
	FaultConflictingApts LineFault = 11 // a payload type repairs several others
)

// String is what is wrong, in words.
func (f LineFault) String() string { return C.GoString(C.jilqamur_fault_text(C.uint32_t(f))) }

// A FaultyLine is the line at which a session text can't be read on.
type FaultyLine struct {
	Number int       // its number, counted from 1
	Text   string    // the line, without its end; empty if the text ends before it
	Fault  LineFault // what is wrong with it
}

// String is the number of the line, what is wrong with it, and the line.
func (l FaultyLine) String() string { return fmt.Sprintf("line %d: %s: %s", l.Number, l.Fault, l.Text) }

// FaultyLineOf is the line at which a session text can't be read on: the first that fails if the text isn't read, or
// else the first of the rest that isn't read; absent if the text is read to its end. It returns [ErrNotText] or
// [ErrMemory].
func FaultyLineOf(text string) (Optional[FaultyLine], error) {
	var number C.size_t
	var fault C.uint32_t
	of, textSize := placeOf(text)
	line, err := fetchedText(func(at *C.uint8_t, size C.size_t, needed *C.size_t) C.uint32_t {
		return C.jilqamur_faulty_line(of, textSize, at, size, needed, &number, &fault)
	})
	if err == ErrNothing {
		return Optional[FaultyLine]{}, nil
	}
	if err != nil {
		return Optional[FaultyLine]{}, err
	}
	return Some(FaultyLine{Number: int(number), Text: line, Fault: LineFault(fault)}), nil
}
