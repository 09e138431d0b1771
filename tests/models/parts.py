"""Rows by hand: payloads beside older ones, reports of telephone events, ids of VP8; and what the buffer and a boxed
pair do. Each is a line and its answer."""

from payloads import joined, report
from rows import told, vp8

DAMAGED = "fault corrupted redundant packet"

# LPC at type 7, 160 ticks before DVI4 at type 5 (RFC 2198 5): F, type, offset and length, then F and type.
LPC_BESIDE_DVI4 = joined([(1, 1), (7, 7), (160, 14), (14, 10), (0, 1), (5, 7)]).hex() + "77" * 14 + "55" * 84

REDUNDANCY = [
    ("# Row 24: Opus at 111 through RED (RFC 2198 3), with the payload before each one", None),
    ("red new 1", "1"),
    ("red wrap 111 1000 1199 010203", "6f010203"),
    ("red wrap 111 1960 1199 0405", "ef0f00036f0102030405"),
    ("red read ef0f00036f0102030405", "111@960=010203 111@0=0405*"),
    ("red read 6001", "96@0=01*"),
    ("# The packet of RFC 2198 5: 14 bytes of LPC at type 7, and 84 bytes of DVI4 at type 5, 20 ms later at", None),
    ("# 8 kHz. Of a type seven bits are sent; an offset of 16,384 ticks and 1,024 bytes fit no block", None),
    ("red write 5 55:84 135@160=77:14 7@16384=- 7@0=77:1024", LPC_BESIDE_DVI4),
    ("red read 8702800e05+77:14+55:84", f"7@160={'77' * 14} 5@0={'55' * 84}*"),
    ("red write 5 01 7@16383=77:256", f"87fffd0005{'77' * 256}01"),
    ("# Dialing 911, the example of RFC 2833: reports at type 97, of which the second and third begin 6,400 and", None),
    ("# 11,200 ticks behind the first", None),
    ("red write 97 01140190 97@11200=09870640 97@4800=018a07d0", "e1af0004e14b00046109870640018a07d001140190"),
    ("red read e1af0004e14b00046109870640018a07d001140190", "97@11200=09870640 97@4800=018a07d0 97@0=01140190*"),
    ("# Short packets: with F clear a primary payload of no byte or of one", None),
    ("red read -", DAMAGED),
    ("red read 00", "0@0=-*"),
    ("red read 7f", "127@0=-*"),
    ("red read 80", DAMAGED),
    ("red read ff", DAMAGED),
    ("red read 0080", "0@0=80*"),
    ("red read 7fff", "127@0=ff*"),
    ("red read 8000", DAMAGED),
    ("red read ff00", DAMAGED),
    ("red read 80000000", DAMAGED),
    ("red read 8000000000", "0@0=- 0@0=-*"),
    ("red read 8000000100", DAMAGED),
    ("red read 800000010033", "0@0=33 0@0=-*"),
    ("# 32 blocks, and one more", None),
    ("red read 80000000:32+05", f"{'0@0=- ' * 32}5@0=-*"),
    ("red read 80000000:33+05", DAMAGED),
    ("# Levels by distance and budget: two bytes and one pass a budget of two", None),
    ("red new -", "-"),
    ("red wrap 96 4294967280 9 01", "6001"),
    ("red wrap 97 0 2 0202", "0202"),
    ("# 1 + (4 + 2) + (4 + 1) + 1 bytes", None),
    ("red sync 1,2", "1,2"),
    ("red wrap 98 16 13 03", "e0008001e10040026201020203"),
    ("# The next levels are 98 at 16 and 97 at 0; a byte is wanting for the second", None),
    ("red wrap 99 32 12 04", "e2004001630304"),
    ("# Distances rise, from 1 to 8", None),
    ("red sync 1,8", "1,8"),
    ("red sync 1,9", "fault no distances"),
    ("red sync 0", "fault no distances"),
    ("red sync 2,2", "fault no distances"),
    ("red sync 2,1", "fault no distances"),
]

EVENTS = [
    ("# Reports of telephone events (RFC 4733 2.3): 100 ms at 8 kHz; R is passed over, and not written", None),
    ("event write 8000 5 10 100000000 end", report(5, 1, 10, 800).hex()),
    (f"event read 8000 {report(5, 1, 10, 800, reserved=1).hex()}", "[5 10 100000000 end]"),
    ("# Dialing 911, the example of RFC 2833: 200 ms and 250 ms at their ends, and 50 ms so far", None),
    ("event read 8000 09870640018a07d001140190", "[9 7 200000000 end][1 10 250000000 end][1 20 50000000]"),
    ("event write 8000 9 7 200000000 end", "09870640"),
    ("event write 8000 1 10 250000000 end", "018a07d0"),
    ("event write 8000 1 20 50000000", "01140190"),
    ("# Several in one packet, at two clocks, and parts of one", None),
    ("event read 8000 054a0320068a0320", "[5 10 100000000][6 10 100000000 end]"),
    ("event read 16000 054a0320068a0320", "[5 10 50000000][6 10 50000000 end]"),
    ("event read 8000 -", "fault no reports"),
    ("event read 8000 054a03", "fault no reports"),
    ("event read 8000 054a032006", "fault no reports"),
    ("# Ticks are rounded up; 65,535 of them and 63 dB are the most", None),
    ("event write 8000 5 63 1", report(5, 0, 63, 1).hex()),
    ("event write 8000 5 64 1", "fault no report"),
    (f"event write 8000 5 63 {65535 * 125000}", report(5, 0, 63, 65535).hex()),
    (f"event write 8000 5 63 {65535 * 125000 + 1}", "fault no report"),
]

VP8_IDS = [
    ("# The pictures 17 and 4711 of RFC 7741 4.5, and a packet without an id: picture id, TL0PICIDX, KEYIDX,", None),
    ("# and whether a keyframe begins", None),
    ("vp8 read 90801130", "Some(17) None None true"),
    ("vp8 read 9080926730", "Some(4711) None None true"),
    ("vp8 read 1031", "None None None false"),
    ("vp8 read 90f09268c8b53001009d012a10001000", "Some(4712) Some(200) Some(21) true"),
    ("vp8 read 9090051e3001009d012a1000", "Some(5) None Some(30) true"),
    ("# A patch and back: TID 2 and Y stay before KEYIDX", None),
    ("vp8 read 90f0810207a53031", "Some(258) Some(7) Some(5) true"),
    ("vp8 patch 90f0810207a53031 id=32767 tl0=254 key=31", "90f0fffffebf3031"),
    ("vp8 patch 90f0fffffebf3031 id=258 tl0=7 key=5", "90f0810207a53031"),
    ("vp8 patch 90f0810207a53031 tl0=8", "90f0810208a53031"),
    ("# Ids that a field holds, and that it doesn't; of several refusals that of the first id", None),
    ("vp8 patch 808005303132 id=127", "80807f303132"),
    ("vp8 patch 80800530 id=127", "fault a payload of fewer than six bytes"),
    ("vp8 patch 80800530 id=128 key=1", "fault the picture id is too large for its field"),
    ("vp8 patch 80800530 key=32", "fault the VP8 descriptor has no KEYIDX"),
    ("vp8 patch 80800530 tl0=1 key=1", "fault the VP8 descriptor has no TL0PICIDX"),
    ("vp8 patch 1030 id=1", "fault the VP8 descriptor has no picture id"),
    ("vp8 patch 90100030 key=32", "fault KEYIDX is too large for its field"),
    ("vp8 patch 901000303132 key=31", "90101f303132"),
    ("# No descriptor", None),
    ("vp8 read -", "fault the VP8 payload is empty"),
    ("vp8 read 908005", "fault malformed VP8 descriptor"),
]

WHOLES = [
    ("# A frame that can't be read is passed over, and the next one is handed out", None),
    ("codec H264 hold=0", None),
    ("push 0 0 7c8501", "pushed"),
    ("push 1 0 1800036700*", "pushed"),
    ("push 2 10 6507*", "pushed"),
    ("pop", "fault an aggregated unit of 3 bytes where 2 are left"),
    ("pop", f"2..=2 at 10: 000000016507 {told('H264', True)}"),
    ("pop", "none"),
    ("# Names in any case, and names that are no format's", None),
    ("codec OPUS", None),
    ("codec Telephone-Event", None),
    ("pack 1200 058a03", "fault invalid telephone event"),
    ("codec null", "fault no payload format of unknown"),
    ("codec opus/48000", "fault no payload format of unknown"),
]

BOXED = [
    ("# A pair that its caller boxed sends and reads as what it holds", None),
    ("boxed VP8 0 3 aabbcc", "10aabb 00cc* aabbcc"),
    ("boxed H265 1 1500 2601aa", "26010000aa* 000000012601aa"),
    ("boxed telephone-event 0 7 058a0320058a0320", "fault the payload is larger than the limit"),
    ("# Names that are no format's, and a line that says too little", None),
    ("boxed rtx 0 1200 aa", "fault no payload format"),
    ("boxed VP8 0 1200", "fault a word is missing"),
]

FIELDS = REDUNDANCY + EVENTS + VP8_IDS
