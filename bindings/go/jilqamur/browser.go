package jilqamur

// #include "jilqamur.h"
import "C"

// A SectionRequest is what an end wants of a section of a browser's offer.
type SectionRequest struct {
	Reject    bool      // whether the section is rejected, as one without a request is
	Direction Direction // which way media shall flow, as this end sees it
	SSRCs     []uint32  // those that this end sends under
	Repairs   []Repair  // each repairs another one of SSRCs, and By is none of them
}

// A Setup is the part of an end in the connection (RFC 8842, section 5).
type Setup uint8

// The parts.
const (
	ActPass Setup = C.JILQAMUR_ACTPASS // it is left open, as each offer does
	Active  Setup = C.JILQAMUR_ACTIVE  // the end opens the connection
	Passive Setup = C.JILQAMUR_PASSIVE // the end waits for it
)

// A Transport is the transport of an end as a browser is told of it. Candidates come later (RFC 8840).
type Transport struct {
	Setup    Setup  // ActPass in an offer; in an answer another one, the same in each
	Lite     bool   // whether the end only answers connectivity checks (RFC 8839, section 5.3)
	Ufrag    string // the ICE ufrag: 4 to 256 letters, digits, + and / (RFC 8839, section 5.4)
	Password string // the ICE password: 22 to 256 of them
	Hash     string // the hash of the certificate's fingerprint (RFC 8122, section 5); sha-256 if it is empty
	Digest   []byte // the digest of the certificate
}

// A Remote is what a browser's last text tells of its transport. A text that isn't told is empty.
type Remote struct {
	Ufrag       string          // the ICE ufrag
	Password    string          // the ICE password
	Fingerprint string          // the preferred one: a hash, and the digest in hex with colons
	Setup       Optional[Setup] // the browser's part in the connection
	OwnSetup    Optional[Setup] // the part of this end, once that was answered
	Candidates  []string        // each is candidate: and what follows (RFC 8839, section 5.1)
	Trickling   bool            // whether further candidates may come later (RFC 8840, section 4.1)
	Lite        bool            // whether the browser only answers connectivity checks
}

// AnswerBrowser is the text of the end's answer to a browser's offer (RFC 8829, section 5.3.1), by a request for each
// section in order; [End.ForBrowser] makes it one for the browser. The end never sees sections of data, of port 0 or
// without a request, nor those that have no row in common with it. It returns [ErrNotText], or the first that applies
// of [ErrTextUnreadable], [ErrRestUnread], [ErrMidNotKept], [ErrMidTwice], [ErrSeveralBundles], [ErrOutsideBundle],
// [ErrNothingLeft] and [ErrKeysAlone]; else what [End.Answer] returns.
func (e *End) AnswerBrowser(offer string, requests ...SectionRequest) (string, error) {
	owned, err := e.own().lock()
	if err != nil {
		return "", err
	}
	defer owned.mutex.Unlock()
	for _, request := range requests {
		if err := gatherRequest(owned.handle, request); err != nil {
			// An answer to no text is refused, and uses up what was gathered.
			C.jilqamur_end_answer_browser(owned.handle, &noByte, 0)
			return "", err
		}
	}
	at, size := placeOf(offer)
	if err := done(C.jilqamur_end_answer_browser(owned.handle, at, size)); err != nil {
		return "", err
	}
	return text(owned.handle)
}

func gatherRequest(end *C.jilqamur_end, request SectionRequest) error {
	if err := gatherRepairs(end, request.Repairs); err != nil {
		return err
	}
	ssrcs, count := placeOfNumbers(request.SSRCs)
	sends, receives := C.bool(request.Direction.Sends()), C.bool(request.Direction.Receives())
	return done(C.jilqamur_end_request(end, C.bool(!request.Reject), sends, receives, ssrcs, count))
}

// AcceptBrowser takes a browser's answer to the pending offer. It returns [ErrNotText], or the first that applies of
// [ErrTextUnreadable], [ErrRestUnread], [ErrMidNotKept], [ErrMidTwice], [ErrNotCorresponding], [ErrSectionRejected],
// [ErrSeveralBundles], [ErrOutsideBundle], [ErrNothingLeft] and [ErrKeysAlone]; else what [End.Accept] returns.
func (e *End) AcceptBrowser(answer string) error {
	text, size := placeOf(answer)
	return e.own().use(func(end *C.jilqamur_end) C.uint32_t { return C.jilqamur_end_accept_browser(end, text, size) })
}

// ForBrowser makes an offer's or an answer's text of this end one for the browser: what was taken out of the browser's
// offer is back in its place, rejected, and each other section has the lines of the transport. It returns [ErrNotText],
// [ErrOutOfRange] for another setup, or the first that applies of [ErrTextUnreadable], [ErrRestUnread],
// [ErrUfragNotFit], [ErrPasswordNotFit], [ErrSetupNotFit], [ErrNotCorresponding] and [ErrNotWritable]; or [ErrMemory].
func (e *End) ForBrowser(own string, transport Transport) (string, error) {
	if transport.Hash == "" {
		transport.Hash = "sha-256"
	}
	owned, err := e.own().lock()
	if err != nil {
		return "", err
	}
	defer owned.mutex.Unlock()
	given, givenSize := placeOf(own)
	ufrag, ufragSize := placeOf(transport.Ufrag)
	password, passwordSize := placeOf(transport.Password)
	hash, hashSize := placeOf(transport.Hash)
	digest, digestSize := place(transport.Digest)
	answer := C.jilqamur_end_for_browser(owned.handle, given, givenSize, C.uint8_t(transport.Setup),
		C.bool(transport.Lite), ufrag, ufragSize, password, passwordSize, hash, hashSize, digest, digestSize)
	if err := done(answer); err != nil {
		return "", err
	}
	return text(owned.handle)
}

// TakeTypes takes the payload types of the agreed sections from a text, each from the section of its name: streams that
// are opened from then on have the types, those of retransmissions and those of redundancy that this section lists. Hand
// it what [End.ForBrowser] makes of an answer, and a browser's answer after [End.AcceptBrowser]: a section may list fewer
// types than others. It returns [ErrNotText], [ErrNotMade], [ErrTextUnreadable] or [ErrMemory].
func (e *End) TakeTypes(said string) error {
	text, size := placeOf(said)
	return e.own().use(func(end *C.jilqamur_end) C.uint32_t { return C.jilqamur_end_take_types(end, text, size) })
}

// Remote is what the last text of a browser tells of its transport; without one nothing is told.
func (e *End) Remote() (Remote, error) {
	owned, err := e.own().lock()
	if err != nil {
		return Remote{}, err
	}
	defer owned.mutex.Unlock()
	var told C.jilqamur_remote
	if err := done(C.jilqamur_end_remote(owned.handle, &told)); err != nil {
		return Remote{}, err
	}
	remote := Remote{
		Setup:     optional(told.has_setup, Setup(told.setup)),
		OwnSetup:  optional(told.has_own_setup, Setup(told.own_setup)),
		Trickling: bool(told.is_trickling), Lite: bool(told.is_lite),
	}
	texts := []*string{&remote.Ufrag, &remote.Password, &remote.Fingerprint}
	for part, text := range texts {
		if *text, err = remoteText(owned.handle, C.uint8_t(part)); err != nil {
			return Remote{}, err
		}
	}
	for k := C.size_t(0); k < told.candidates; k++ {
		candidate, err := fetchedText(func(at *C.uint8_t, size C.size_t, needed *C.size_t) C.uint32_t {
			return C.jilqamur_end_remote_candidate(owned.handle, k, at, size, needed)
		})
		if err != nil {
			return Remote{}, err
		}
		remote.Candidates = append(remote.Candidates, candidate)
	}
	return remote, nil
}

// remoteText is one of the texts, by its number in the header.
func remoteText(end *C.jilqamur_end, part C.uint8_t) (string, error) {
	text, err := fetchedText(func(at *C.uint8_t, size C.size_t, needed *C.size_t) C.uint32_t {
		return C.jilqamur_end_remote_text(end, part, at, size, needed)
	})
	if err == ErrNothing {
		err = nil
	}
	return text, err
}
