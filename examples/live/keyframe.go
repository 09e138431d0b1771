package main

import "strings"

// beginsKeyFrame tells whether a payload of a codec of video begins a frame that needs no other one.
func beginsKeyFrame(codec string, payload []byte) bool {
	if len(payload) == 0 {
		return false
	}
	switch strings.ToUpper(codec) {
	case "VP8":
		return beginsVP8(payload)
	case "VP9": // not predicted, and the beginning of a frame (RFC 9628, section 4.2)
		return payload[0]&0x40 == 0 && payload[0]&0x08 != 0
	case "AV1": // the first packet of a coded video sequence
		return payload[0]&0x08 != 0
	case "H264":
		return beginsH264(payload)
	}
	return false
}

// beginsVP8 skips the descriptor of the first partition's beginning, and looks at the frame's header (RFC 7741, 4.2).
func beginsVP8(payload []byte) bool {
	if payload[0]&0x1f != 0x10 {
		return false
	}
	at := 1
	if payload[0]&0x80 != 0 && len(payload) > 2 {
		extension := payload[1]
		at++
		if extension&0x80 != 0 { // the picture id
			at++
			if payload[2]&0x80 != 0 {
				at++
			}
		}
		if extension&0x40 != 0 { // TL0PICIDX
			at++
		}
		if extension&0x30 != 0 { // TID and KEYIDX
			at++
		}
	}
	return at < len(payload) && payload[at]&1 == 0
}

// beginsH264 finds a parameter set or the start of an IDR picture, also within an aggregate (RFC 6184, 5.7 and 5.8).
func beginsH264(payload []byte) bool {
	isKey := func(header byte) bool { return header&0x1f == 5 || header&0x1f == 7 }
	switch payload[0] & 0x1f {
	case 24: // STAP-A
		return len(payload) > 3 && isKey(payload[3])
	case 28: // FU-A
		return len(payload) > 1 && payload[1]&0x80 != 0 && isKey(payload[1])
	}
	return isKey(payload[0])
}
