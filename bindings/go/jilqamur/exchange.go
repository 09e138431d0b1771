package jilqamur

// #include "jilqamur.h"
import "C"

// A Repair lets the SSRC By send again what SSRC sends (RFC 4588, section 8.3).
type Repair struct {
	SSRC, By uint32
}

// A Section is a media section as an end wants it.
type Section struct {
	Mid       string    // its name (RFC 5888): at most 16 bytes, each a letter, a digit or _
	Kind      Kind      // audio or video
	Direction Direction // which way media shall flow, as this end sees it
	SSRCs     []uint32  // those that this end sends under
	Repairs   []Repair  // each repairs another one of SSRCs, and By is none of them
}

// An AgreedSection is a section that an end agreed on.
type AgreedSection struct {
	Mid       string
	Kind      Kind
	Direction Direction // which way media flows, as this end sees it
	Rows      []Row     // those that both ends have, without their format parameters
	SSRCs     []uint32  // those that the other end names
}

// Offer is the text of an offer of these sections, which is then pending (RFC 3264, section 5). It returns
// [ErrNotText], [ErrMidNotKept] for a mid that has more than 16 bytes or other signs than letters, digits and _,
// [ErrOutOfRange] if the repairs of a section aren't sound, or the first that applies of [ErrOutOfTurn],
// [ErrNotCorresponding], [ErrNoCommonRow] and [ErrNotWritable]; or [ErrMemory].
func (e *End) Offer(sections ...Section) (string, error) {
	return e.exchange(sections, func(end *C.jilqamur_end) C.uint32_t { return C.jilqamur_end_offer(end) })
}

// Answer is the text of the answer to an offer by these sections, which are then agreed (RFC 3264, section 6). It
// returns [ErrNotText] or [ErrMidNotKept], [ErrOutOfRange] if the repairs of a section aren't sound, or the first that
// applies of [ErrTextUnreadable], [ErrOutOfTurn], [ErrNotMedia], [ErrNotCorresponding], [ErrRound], [ErrNoCommonRow]
// and [ErrNotWritable]; or [ErrMemory].
func (e *End) Answer(offer string, sections ...Section) (string, error) {
	text, size := placeOf(offer)
	return e.exchange(sections, func(end *C.jilqamur_end) C.uint32_t { return C.jilqamur_end_answer(end, text, size) })
}

// Accept takes the answer to the pending offer, which is then agreed (RFC 3264, section 7). It returns [ErrNotText], or
// the first that applies of [ErrTextUnreadable], [ErrOutOfTurn], [ErrNotMedia], [ErrNotCorresponding], [ErrRound] and
// [ErrNoCommonRow]; or [ErrMemory].
func (e *End) Accept(answer string) error {
	text, size := placeOf(answer)
	return e.own().use(func(end *C.jilqamur_end) C.uint32_t { return C.jilqamur_end_accept(end, text, size) })
}

// Withdraw gives a pending offer up. It returns [ErrNothing] if none is pending.
func (e *End) Withdraw() error {
	return e.own().use(func(end *C.jilqamur_end) C.uint32_t { return C.jilqamur_end_withdraw(end) })
}

// exchange is the text of an offer or an answer of these sections; if one of them is refused none is left.
func (e *End) exchange(sections []Section, call func(*C.jilqamur_end) C.uint32_t) (string, error) {
	place := func() (p Place) {
		for _, section := range sections {
			p.Mids = append(p.Mids, section.Mid)
		}
		return p
	}
	for _, section := range sections {
		if err := keepsMid(section.Mid); err != nil {
			return "", at(err, place)
		}
	}
	owned, err := e.own().lock()
	if err != nil {
		return "", err
	}
	defer owned.mutex.Unlock()
	if err := gather(owned.handle, sections); err != nil {
		// An answer to no text is refused, and uses up what was gathered.
		C.jilqamur_end_answer(owned.handle, &noByte, 0)
		return "", at(err, place)
	}
	if err := done(call(owned.handle)); err != nil {
		return "", at(err, place)
	}
	return text(owned.handle)
}

// gather puts sections for the next text.
func gather(end *C.jilqamur_end, sections []Section) error {
	for _, section := range sections {
		if err := gatherRepairs(end, section.Repairs); err != nil {
			return err
		}
		mid, midSize := placeOf(section.Mid)
		ssrcs, count := placeOfNumbers(section.SSRCs)
		sends, receives := C.bool(section.Direction.Sends()), C.bool(section.Direction.Receives())
		answer := C.jilqamur_end_section(end, mid, midSize, C.bool(section.Kind == Video), sends, receives, ssrcs, count)
		if err := done(answer); err != nil {
			return err
		}
	}
	return nil
}

func gatherRepairs(end *C.jilqamur_end, repairs []Repair) error {
	for _, repair := range repairs {
		answer := C.jilqamur_end_section_repair(end, C.uint32_t(repair.SSRC), C.uint32_t(repair.By))
		if err := done(answer); err != nil {
			return err
		}
	}
	return nil
}

func text(end *C.jilqamur_end) (string, error) {
	return fetchedText(func(at *C.uint8_t, size C.size_t, needed *C.size_t) C.uint32_t {
		return C.jilqamur_end_text(end, at, size, needed)
	})
}

// AgreedSections are the sections that were agreed on last, in the order of the texts.
func (e *End) AgreedSections() ([]AgreedSection, error) {
	owned, err := e.own().lock()
	if err != nil {
		return nil, err
	}
	defer owned.mutex.Unlock()
	var sections []AgreedSection
	for index := C.size_t(0); ; index++ {
		section, err := agreedSection(owned.handle, index)
		if err == ErrNothing {
			return sections, nil
		}
		if err != nil {
			return nil, err
		}
		sections = append(sections, section)
	}
}

func agreedSection(end *C.jilqamur_end, index C.size_t) (AgreedSection, error) {
	var told C.jilqamur_section
	mid, err := fetchedText(func(at *C.uint8_t, size C.size_t, needed *C.size_t) C.uint32_t {
		return C.jilqamur_end_agreed_section(end, index, at, size, needed, &told)
	})
	if err != nil {
		return AgreedSection{}, err
	}
	section := AgreedSection{Mid: mid, Direction: directionOf(told.sends, told.receives)}
	if told.is_video {
		section.Kind = Video
	}
	for k := C.size_t(0); k < told.rows; k++ {
		row, err := agreedRow(end, index, k)
		if err != nil {
			return AgreedSection{}, err
		}
		section.Rows = append(section.Rows, row)
	}
	for k := C.size_t(0); k < told.ssrcs; k++ {
		var ssrc C.uint32_t
		if err := done(C.jilqamur_end_agreed_ssrc(end, index, k, &ssrc)); err != nil {
			return AgreedSection{}, err
		}
		section.SSRCs = append(section.SSRCs, uint32(ssrc))
	}
	return section, nil
}

func agreedRow(end *C.jilqamur_end, section, index C.size_t) (Row, error) {
	var told C.jilqamur_row
	codec, err := fetchedText(func(at *C.uint8_t, size C.size_t, needed *C.size_t) C.uint32_t {
		return C.jilqamur_end_agreed_row(end, section, index, at, size, needed, &told)
	})
	return Row{
		PayloadType: uint8(told.payload_type), Codec: codec, ClockRate: uint32(told.clock_rate),
		Channels: optional(told.has_channels, uint8(told.channels)),
		Resend:   optional(told.has_resend, uint8(told.resend)), RED: optional(told.has_red, uint8(told.red)),
	}, err
}
