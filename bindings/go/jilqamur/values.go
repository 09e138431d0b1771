package jilqamur

// #include "jilqamur.h"
import "C"

import "unsafe"

// Values are the values of header extensions (RFC 8285), except the names of sections and streams. What is absent isn't
// sent.
type Values struct {
	AudioLevel       Optional[int8]   // in dBov, -127 to 0; carried only with VoiceActivity (RFC 6464)
	VoiceActivity    Optional[bool]   // whether the audio has voice; carried only with AudioLevel
	AbsSendTime      Optional[uint64] // in microseconds; carried modulo 64 seconds, in units of 2^-18 seconds
	TransportCC      Optional[uint16] // the number over all streams of a transport
	VideoOrientation Optional[uint8]  // how the picture is turned, by the low two bits (3GPP TS 26.114, 7.4.5)
	PlayDelayMin     Optional[uint16] // in 10 ms, 0 to 4095; carried only with PlayDelayMax
	PlayDelayMax     Optional[uint16] // in 10 ms, 0 to 4095; carried only with PlayDelayMin
	VideoContentType Optional[uint8]  // what the video shows
	CaptureTime      Optional[uint64] // NTP time, in seconds with 32 bits after the point
	ClockOffset      Optional[int64]  // how far the sender's clock is ahead, in 2^-32 seconds; only with CaptureTime
}

// into writes the values for C.
func (v *Values) into(given *C.jilqamur_values) {
	given.has_audio_level, given.audio_level = C.bool(v.AudioLevel.Valid), C.int8_t(v.AudioLevel.Value)
	given.has_voice_activity, given.voice_activity = C.bool(v.VoiceActivity.Valid), C.bool(v.VoiceActivity.Value)
	given.has_abs_send_time, given.abs_send_time = C.bool(v.AbsSendTime.Valid), C.uint64_t(v.AbsSendTime.Value)
	given.has_transport_cc, given.transport_cc = C.bool(v.TransportCC.Valid), C.uint16_t(v.TransportCC.Value)
	given.has_video_orientation = C.bool(v.VideoOrientation.Valid)
	given.video_orientation = C.uint8_t(v.VideoOrientation.Value)
	given.has_play_delay_min, given.play_delay_min = C.bool(v.PlayDelayMin.Valid), C.uint16_t(v.PlayDelayMin.Value)
	given.has_play_delay_max, given.play_delay_max = C.bool(v.PlayDelayMax.Valid), C.uint16_t(v.PlayDelayMax.Value)
	given.has_video_content_type = C.bool(v.VideoContentType.Valid)
	given.video_content_type = C.uint8_t(v.VideoContentType.Value)
	given.has_capture_time, given.capture_time = C.bool(v.CaptureTime.Valid), C.uint64_t(v.CaptureTime.Value)
	given.has_clock_offset, given.clock_offset = C.bool(v.ClockOffset.Valid), C.int64_t(v.ClockOffset.Value)
}

func valuesOf(told *C.jilqamur_values) Values {
	return Values{
		AudioLevel:       optional(told.has_audio_level, int8(told.audio_level)),
		VoiceActivity:    optional(told.has_voice_activity, bool(told.voice_activity)),
		AbsSendTime:      optional(told.has_abs_send_time, uint64(told.abs_send_time)),
		TransportCC:      optional(told.has_transport_cc, uint16(told.transport_cc)),
		VideoOrientation: optional(told.has_video_orientation, uint8(told.video_orientation)),
		PlayDelayMin:     optional(told.has_play_delay_min, uint16(told.play_delay_min)),
		PlayDelayMax:     optional(told.has_play_delay_max, uint16(told.play_delay_max)),
		VideoContentType: optional(told.has_video_content_type, uint8(told.video_content_type)),
		CaptureTime:      optional(told.has_capture_time, uint64(told.capture_time)),
		ClockOffset:      optional(told.has_clock_offset, int64(told.clock_offset)),
	}
}

// The URIs of header extensions that are read and written.
const (
	URIAudioLevel       = "urn:ietf:params:rtp-hdrext:ssrc-audio-level"
	URIAbsSendTime      = "http://www.webrtc.org/experiments/rtp-hdrext/abs-send-time"
	URITransportCC      = "http://www.ietf.org/id/draft-holmer-rmcat-transport-wide-cc-extensions-01"
	URIVideoOrientation = "urn:3gpp:video-orientation"
	URIPlayDelay        = "http://www.webrtc.org/experiments/rtp-hdrext/playout-delay"
	URIVideoContentType = "http://www.webrtc.org/experiments/rtp-hdrext/video-content-type"
	URICaptureTime      = "http://www.webrtc.org/experiments/rtp-hdrext/abs-capture-time"
	URIMid              = "urn:ietf:params:rtp-hdrext:sdes:mid"
	URIRID              = "urn:ietf:params:rtp-hdrext:sdes:rtp-stream-id"
	URIRepairedRID      = "urn:ietf:params:rtp-hdrext:sdes:repaired-rtp-stream-id"
)

// ExtensionIDs are the ids of header extensions (RFC 8285), 1 to 16, or 0 for none. Of two with one id the later one
// here has it.
type ExtensionIDs struct {
	AudioLevel, AbsSendTime, TransportCC, VideoOrientation, PlayDelay, VideoContentType, CaptureTime uint8
	Mid, RID, RepairedRID                                                                            uint8
}

// Names are the names of section and stream that a datagram carries.
type Names struct {
	Mid         Optional[string] // the mid of its section (RFC 9143, section 15)
	RID         Optional[string] // the id of its stream (RFC 8852, section 4.1)
	RepairedRID Optional[string] // the id of the stream that it repairs (RFC 8852, section 4.2)
}

// Read reads the values of the header extensions of a datagram by these ids, and the names of its section and stream.
// It returns [ErrOutOfRange] if an id is above 16, or [ErrUnreadable].
func (i ExtensionIDs) Read(datagram []byte) (Values, Names, error) {
	ids := C.jilqamur_extension_ids{
		audio_level: C.uint8_t(i.AudioLevel), abs_send_time: C.uint8_t(i.AbsSendTime),
		transport_cc: C.uint8_t(i.TransportCC), video_orientation: C.uint8_t(i.VideoOrientation),
		play_delay: C.uint8_t(i.PlayDelay), video_content_type: C.uint8_t(i.VideoContentType),
		capture_time: C.uint8_t(i.CaptureTime), mid: C.uint8_t(i.Mid), rid: C.uint8_t(i.RID),
		repaired_rid: C.uint8_t(i.RepairedRID),
	}
	var values C.jilqamur_values
	var told C.jilqamur_names
	at, size := place(datagram)
	if err := done(C.jilqamur_header_values(at, size, &ids, &values, &told)); err != nil {
		return Values{}, Names{}, err
	}
	names := Names{
		Mid:         optional(told.has_mid, name(told.mid[:told.mid_len])),
		RID:         optional(told.has_rid, name(told.rid[:told.rid_len])),
		RepairedRID: optional(told.has_repaired_rid, name(told.repaired_rid[:told.repaired_rid_len])),
	}
	return valuesOf(&values), names, nil
}

func name(bytes []C.uint8_t) string {
	if len(bytes) == 0 {
		return ""
	}
	return C.GoStringN((*C.char)(unsafe.Pointer(&bytes[0])), C.int(len(bytes)))
}
