/* RTP headers, padding, sequence numbers and replay windows (RFC 3550), packetizers and depacketizers by codec, ends
 * that exchange offers and answers, send samples and receive units, and streams by codec, from a proved library.
 *
 * Link with libjilqamur.a. The contract of each function is at its export in crates/jilqamur/src; nothing checks a C
 * caller, which keeps to this:
 *   - every pointer is valid and aligned, and not null, but that of bytes whose length is 0 may be any non-null
 *     address;
 *   - what a call writes overlaps nothing else that it is given;
 *   - a bool is 0 or 1;
 *   - malloc, realloc and free come from one allocator;
 *   - no call is made from a signal handler, or in the forked child of a process with threads;
 *   - two calls on one handle do not overlap in time. A handle may move to another thread: what orders its calls there
 *     (a lock, a channel, the start or the end of a thread) has to come between its last call here and its first call
 *     there. Calls on different handles may overlap: nothing is shared between them.
 * No call keeps a pointer that it is given.
 */
#ifndef JILQAMUR_H
#define JILQAMUR_H

#include <stdbool.h>
#include <stddef.h>
#include <stdint.h>

#ifdef __cplusplus
extern "C" {
#endif

/* The version, which is that of the whole project (CHANGELOG.md says how it counts). */
#define JILQAMUR_VERSION "0.10.0"
#define JILQAMUR_VERSION_NUMBER 1000 /* 10,000 times the first part, 100 times the second, and the third */

/* The bytes of a literal text and their count, for a parameter of bytes and the one of their length. */
#define JILQAMUR_TEXT(literal) (const uint8_t *)("" literal), sizeof(literal) - 1

/* The least and the greatest number of packets that a stream, or a depacketizer, may be opened to hold at most. */
#define JILQAMUR_MIN_HELD 4096
#define JILQAMUR_MAX_HELD 16384

/* What calls return. */
enum {
    JILQAMUR_OK = 0,         /* the call did what it says */
    JILQAMUR_MEMORY = 1,     /* memory ran out */
    JILQAMUR_IN_USE = 2,     /* the handle holds an object already */
    JILQAMUR_CLOSED = 3,     /* the handle holds no object */
    JILQAMUR_UNREADABLE = 4, /* no RTP header stands in front of the bytes */
    JILQAMUR_DAMAGED = 5,    /* the padding does not fit; at an end also an empty payload, or redundancy that can't be
                              * read or has another type */
    JILQAMUR_REFUSED = 6,    /* the number came before, or is 1,024 or more below the greatest */
    JILQAMUR_UNWRITABLE = 7, /* a payload type above 127, or more than 15 contributing sources */
    JILQAMUR_TOO_SMALL = 8,  /* the buffer is too small */
    JILQAMUR_NOT_TEXT = 9,            /* the bytes are no UTF-8 */
    JILQAMUR_OUT_OF_RANGE = 10,       /* a number is off the range that is written at it, or a codec has no format */
    JILQAMUR_NOT_MADE = 11,           /* the end was not made yet */
    JILQAMUR_NOTHING = 12,            /* there is nothing of that kind */
    JILQAMUR_FOREIGN = 13,            /* no receiving stream has the SSRC and payload type */
    JILQAMUR_NO_STREAM = 14,          /* no stream of that direction has this number */
    JILQAMUR_ROW_NOT_PLAIN = 15,      /* a row is of a kind that an end can't agree on */
    JILQAMUR_TYPES_NOT_DISTINCT = 16, /* a payload type stands for two things */
    JILQAMUR_NOT_WRITABLE = 17,       /* the text of an offer or answer, or an extension's URI, can't be written */
    JILQAMUR_TEXT_UNREADABLE = 18,    /* the text isn't that of an offer or an answer */
    JILQAMUR_OUT_OF_TURN = 19,        /* an offer is pending, or none is */
    JILQAMUR_NOT_MEDIA = 20,          /* a section of the text is no media */
    JILQAMUR_NOT_CORRESPONDING = 21,  /* the sections don't correspond */
    JILQAMUR_ROUND = 22,              /* the rows can't be settled against the other end's */
    JILQAMUR_NO_COMMON_ROW = 23,      /* a section would list no row */
    JILQAMUR_NO_SECTION = 24,         /* no section of this name is agreed */
    JILQAMUR_ROW_NOT_AGREED = 25,     /* no row of this type is agreed */
    JILQAMUR_ROW_DIFFERS = 26,        /* the end's own row differs from the agreed one */
    JILQAMUR_WRONG_DIRECTION = 27,    /* the section does not flow this way */
    JILQAMUR_SSRC_NOT_NAMED = 28,     /* the sender's section does not name this SSRC */
    JILQAMUR_ALREADY_OPEN = 29,       /* such a stream is open already */
    JILQAMUR_STREAM_FAILED = 30,      /* the stream sends no more */
    JILQAMUR_TIME_TOO_LARGE = 31,     /* the time does not fit 64 bits at the stream's clock */
    JILQAMUR_LIMIT_TOO_SMALL = 32,    /* a datagram would pass the limit */
    JILQAMUR_PAYLOAD = 33,            /* the codec refuses the sample or the payload of a stream */
    /* Why a packetizer refuses a sample, or a depacketizer a packet: */
    JILQAMUR_PACKET_TOO_SHORT = 34,       /* the packet has fewer bytes than its format needs */
    JILQAMUR_SAMPLE_TOO_LARGE = 35,       /* the sample can't be cut, and passes the limit */
    JILQAMUR_TOO_MANY_REFERENCES = 36,    /* a VP9 descriptor lists a fourth reference (RFC 9628 4.2) */
    JILQAMUR_H265_CORRUPTED = 37,         /* an H.265 packet breaks its format (RFC 7798 4.4) */
    JILQAMUR_H266_CORRUPTED = 38,         /* an H.266 packet breaks its format (RFC 9328 4.3) */
    JILQAMUR_AGGREGATE_CUT_SHORT = 39,    /* an aggregated unit passes the end of its packet (RFC 6184 5.7.1) */
    JILQAMUR_UNIT_TYPE_NOT_HANDLED = 40,  /* no packet of this unit type is read (RFC 6184, 7798, 9328) */
    JILQAMUR_VP8_CORRUPTED = 41,          /* a VP8 descriptor breaks its format (RFC 7741 4.2) */
    JILQAMUR_VP9_CORRUPTED = 42,          /* a VP9 descriptor breaks its format (RFC 9628 4.2) */
    JILQAMUR_AV1_CORRUPTED = 43,          /* an AV1 packet breaks its format */
    JILQAMUR_RED_CORRUPTED = 44,          /* a redundant payload breaks its format (RFC 2198 3) */
    JILQAMUR_EVENT_INVALID = 45,          /* event reports are no nonempty multiple of four bytes (RFC 4733 2.3) */
    JILQAMUR_AMR_WB_CORRUPTED = 46,       /* an AMR-WB packet or sample breaks its format (RFC 4867 4.3) */
    /* Why a datagram isn't repaired: */
    JILQAMUR_NO_REPAIR = 47,              /* the stream has no pair for repairs, or sends redundancy (RFC 4588 8.3) */
    JILQAMUR_NOT_OWN = 48,                /* the datagram isn't one that the stream sent */
    /* Why a text doesn't pass between a browser and an end: */
    JILQAMUR_REST_UNREAD = 49,            /* a line fits nowhere, and what follows would be lost */
    JILQAMUR_MID_NOT_KEPT = 50,           /* a mid has more than 16 bytes, or other signs than letters, digits and _ */
    JILQAMUR_MID_TWICE = 51,              /* two sections have one name */
    JILQAMUR_SECTION_REJECTED = 52,       /* the browser rejects a section: withdraw the offer, and make it without */
    JILQAMUR_SEVERAL_BUNDLES = 53,        /* there are several bundles, and so several transports (RFC 9143) */
    JILQAMUR_OUTSIDE_BUNDLE = 54,         /* a section is in no bundle, and so has a transport of its own */
    JILQAMUR_NOTHING_LEFT = 55,           /* no section is left for the end */
    JILQAMUR_KEYS_ALONE = 56,             /* a section has keys, and there is no fingerprint for it */
    JILQAMUR_UFRAG_NOT_FIT = 57,          /* the name of ICE isn't 4 to 256 letters, digits, + and / (RFC 8839 5.4) */
    JILQAMUR_PASSWORD_NOT_FIT = 58,       /* the password of ICE isn't 22 to 256 of them */
    JILQAMUR_SETUP_NOT_FIT = 59,          /* the part in the connection isn't one that may be said (RFC 8842 5.3) */
    /* Why a packet isn't sent on: */
    JILQAMUR_ADDS_REDUNDANCY = 60,        /* the stream adds redundancy (RFC 2198) */
    JILQAMUR_NUMBER_TOO_LARGE = 61,       /* the sequence number is 2^62 or above */
    JILQAMUR_NO_PAYLOAD = 62              /* the packet has no payload */
};

/* What an answer means, in words; never null. Those of JILQAMUR_DAMAGED name its first cause alone. */
static inline const char *jilqamur_error_text(uint32_t answer)
{
    static const char *const texts[] = {
        "done",
        "out of memory",
        "the handle holds an object already",
        "the handle holds no object",
        "no RTP header stands in front of the bytes",
        "the padding does not fit",
        "the number came before or too late",
        "the payload type or the count of sources is too large",
        "the buffer is too small",
        "the bytes are no text",
        "a number is out of range",
        "the end was not made yet",
        "there is nothing of that kind",
        "no stream has this SSRC and payload type",
        "no such stream is open",
        "a row is not plain",
        "a payload type stands for two things",
        "the text can't be written",
        "the text can't be read",
        "this call is out of turn",
        "a section is no media",
        "the sections do not correspond",
        "the rows can't be settled",
        "a section would list no row",
        "no such section is agreed",
        "no row of this type is agreed",
        "the end's own row differs from the agreed one",
        "the section does not flow this way",
        "the sender's section does not name this SSRC",
        "such a stream is open already",
        "the stream sends no more",
        "the time is too large",
        "a datagram would pass the limit",
        "the payload is refused",
        "the packet is too short",
        "the sample is larger than the limit",
        "too many references",
        "corrupted H.265 packet",
        "corrupted H.266 packet",
        "an aggregated unit passes the end of its packet",
        "a unit of this type is not handled",
        "corrupted VP8 packet",
        "corrupted VP9 packet",
        "corrupted AV1 packet",
        "corrupted redundant packet",
        "invalid telephone event",
        "corrupted AMR-WB packet",
        "the stream has no pair for repairs",
        "the stream did not send this datagram",
        "the text has a rest that can't be read",
        "the name of a section can't be kept",
        "two sections have one name",
        "a section is rejected",
        "there are several bundles",
        "a section is outside of the bundle",
        "no section is left",
        "a section has keys and no fingerprint",
        "the name of ICE doesn't fit",
        "the password of ICE doesn't fit",
        "the setup doesn't fit",
        "the stream adds redundancy",
        "the number is too large",
        "there is no payload",
    };
    return answer < sizeof texts / sizeof texts[0] ? texts[answer] : "no such answer";
}

/* The header of an RTP packet (RFC 3550 5.1), without the values of its extensions. */
typedef struct jilqamur_header {
    bool has_padding;         /* whether padding follows the payload */
    bool has_extension;       /* whether there is an extension block; one that is written is empty */
    bool marker;              /* the marker bit */
    uint8_t payload_type;     /* 0 to 127 */
    uint16_t sequence_number; /* the low 16 bits of the sequence number */
    uint32_t timestamp;       /* the low 32 bits of the media time, in ticks of the payload type's clock */
    uint32_t ssrc;            /* the stream's source */
    uint32_t csrc_count;      /* how many contributing sources there are, 0 to 15 */
    uint32_t csrc[15];        /* they; the places past csrc_count are 0 in a header that was read */
    size_t header_len;        /* bytes of a header that was read; not looked at in one that is written */
} jilqamur_header;

/* The version of the library that is linked, which is JILQAMUR_VERSION_NUMBER if this header belongs to it. */
uint32_t jilqamur_version(void);

/* Reads the header in front of a datagram of len bytes: JILQAMUR_OK, or JILQAMUR_UNREADABLE, and header is unchanged.
 * header_len of what was read is at most len. */
uint32_t jilqamur_header_read(const uint8_t *datagram, size_t len, jilqamur_header *header);

/* Writes a header in front of a buffer of len bytes, and its length in bytes into needed; the bytes after it stay.
 * JILQAMUR_UNWRITABLE, and nothing is changed; or JILQAMUR_TOO_SMALL, and needed alone is written. */
uint32_t jilqamur_header_write(const jilqamur_header *header, uint8_t *buffer, size_t len, size_t *needed);

/* Writes into unpadded how many of the len bytes after a header are left once the padding is taken off, if the
 * header says that there is some: JILQAMUR_OK, or JILQAMUR_DAMAGED, and unpadded is unchanged. */
uint32_t jilqamur_payload_unpad(bool has_padding, const uint8_t *payload, size_t len, size_t *unpadded);

/* What a packet says of its frame. */
typedef struct jilqamur_packet_info {
    bool is_head;            /* whether a frame can begin with it; a NAL unit begins with it in H.26x */
    bool is_tail;            /* whether a frame ends with it */
    bool shows_key_frame;    /* whether it shows that its frame is a key frame; audio never does */
    bool has_spatial_layer;  /* whether it tells its spatial layer */
    uint8_t spatial_layer;   /* the spatial layer, from 0; 0 if it isn't told */
    bool has_temporal_layer; /* whether it tells its temporal layer */
    uint8_t temporal_layer;  /* the temporal layer, from 0; 0 if it isn't told */
} jilqamur_packet_info;

/* Tells what a packet of the codec of this name, with this payload of len bytes without padding and this marker bit,
 * says of its frame: JILQAMUR_OK. VP8 and AV1 show a key frame in its first packet, VP9 in each one, H.264, H.265 and
 * H.266 in those that show a slice of the picture. JILQAMUR_NOT_TEXT for a name that isn't UTF-8, JILQAMUR_OUT_OF_RANGE
 * for one of no codec with a payload format, and nothing is told. */
uint32_t jilqamur_payload_info(const uint8_t *codec, size_t codec_len, const uint8_t *payload, size_t len, bool marker,
                               jilqamur_packet_info *info);

/* What is wrong with a line of a session text (RFC 8866 5). */
enum {
    JILQAMUR_FAULT_VERSION = 0,          /* it isn't the line v=0 that a text begins with */
    JILQAMUR_FAULT_ORIGIN = 1,           /* it isn't a valid line o=, which is the second */
    JILQAMUR_FAULT_NAME = 2,             /* it isn't a line s= with a name, which is the third */
    JILQAMUR_FAULT_TIMES = 3,            /* it isn't the line t=0 0, nor one that may precede it */
    JILQAMUR_FAULT_STRAY = 4,            /* it is none of the lines that may follow the one before it */
    /* It is the line m= of a section that is not consistent: */
    JILQAMUR_FAULT_MISSING_MID = 5,      /* it has no a=mid */
    JILQAMUR_FAULT_SEVERAL_MIDS = 6,     /* it has several a=mid */
    JILQAMUR_FAULT_SEVERAL_SETUPS = 7,   /* it has several a=setup */
    JILQAMUR_FAULT_DIRECTIONS = 8,       /* it doesn't have exactly one direction */
    JILQAMUR_FAULT_NO_PAYLOAD_TYPE = 9,  /* it has no payload types */
    JILQAMUR_FAULT_RTP_MAPS = 10,        /* a payload type isn't mapped exactly once */
    JILQAMUR_FAULT_CONFLICTING_APTS = 11 /* a payload type repairs several others */
};

/* What is wrong with a line, in words; never null. */
static inline const char *jilqamur_fault_text(uint32_t fault)
{
    static const char *const texts[] = {
        "not v=0",
        "no valid o=",
        "no s= with a name",
        "not t=0 0",
        "fits nowhere",
        "a section without a=mid",
        "a section with several a=mid",
        "a section with several a=setup",
        "a section without exactly one direction",
        "a section without payload types",
        "a section with a payload type that isn't mapped once",
        "a section with a payload type that repairs several",
    };
    return fault < sizeof texts / sizeof texts[0] ? texts[fault] : "no such fault";
}

/* Finds the line at which a session text of text_len bytes can't be read on: the first that fails if the text isn't
 * read, or else the first of the rest that isn't read. Copies it without its end to the front of a buffer of len
 * bytes, and writes its length in bytes into needed, its number, counted from 1, into number, and what is wrong with
 * it, one of JILQAMUR_FAULT_VERSION to JILQAMUR_FAULT_CONFLICTING_APTS, into fault. JILQAMUR_TOO_SMALL, and the buffer
 * is unchanged, while the others are written; JILQAMUR_NOTHING if the text is read to its end, JILQAMUR_NOT_TEXT, or
 * JILQAMUR_MEMORY, and nothing is written. */
uint32_t jilqamur_faulty_line(const uint8_t *text, size_t text_len, uint8_t *buffer, size_t len, size_t *needed,
                              size_t *number, uint32_t *fault);

/* The number nearest to the previous one with these low 16 bits, modulo 2^64. */
uint64_t jilqamur_number_widen(uint64_t previous, uint16_t low);

/* A handle of a stream's replay window. One whose bytes are all 0 is closed; write no field of it after that. A copy of
 * an open handle must not be used. What is opened must be closed, or its memory is never freed. */
typedef struct jilqamur_window {
    bool full;
    void *place;
} jilqamur_window;

#define JILQAMUR_WINDOW_CLOSED {false, 0}

/* Opens a window that no number came to: JILQAMUR_OK; or JILQAMUR_IN_USE if the handle is open, or JILQAMUR_MEMORY,
 * and it is unchanged. */
uint32_t jilqamur_window_open(jilqamur_window *window);

/* Takes a datagram of len bytes in. JILQAMUR_CLOSED if the handle is closed, JILQAMUR_UNREADABLE if no header
 * is in front, JILQAMUR_REFUSED if its number came before or is 1,024 or more below the greatest: number is then
 * unchanged, and so is the window. Else JILQAMUR_OK: number is its widened number, which is recorded. The payload and
 * the SSRC are not looked at. */
uint32_t jilqamur_window_receive(jilqamur_window *window, const uint8_t *datagram, size_t len, uint64_t *number);

/* Frees the window: JILQAMUR_OK, or JILQAMUR_CLOSED if the handle is closed. It is closed afterwards. */
uint32_t jilqamur_window_close(jilqamur_window *window);

/* How payloads are read and written, beside their codec. */
typedef struct jilqamur_format {
    uint32_t clock_rate;   /* ticks a second, at least 1 */
    bool has_octet_align;  /* whether octet_align is given */
    bool octet_align;      /* whether AMR-WB is octet-aligned (RFC 4867 8.1); not looked at where it isn't given */
    bool has_max_don_diff; /* whether max_don_diff is given */
    uint16_t max_don_diff; /* sprop-max-don-diff of H.265 and H.266; not looked at where it isn't given */
} jilqamur_format;

/* What is told of a unit beside its bytes. */
typedef struct jilqamur_unit {
    uint64_t first;          /* the widened sequence number of its first packet */
    uint64_t last;           /* that of its last packet */
    uint32_t time;           /* the RTP timestamp, in ticks of the clock rate, of G.722 at 8,000 Hz */
    bool is_keyframe;        /* whether the codec says that it is a keyframe; VP9 and audio never do */
    bool has_picture_id;     /* whether VP8 or VP9 gives a picture id */
    uint16_t picture_id;     /* it, of 7 or 15 bits (RFC 7741 4.2, RFC 9628 4.2); 0 if none is given */
    bool has_base_layer;     /* whether VP8 gives the index of the temporal base layer frame */
    uint8_t base_layer;      /* it, TL0PICIDX (RFC 7741 4.2); 0 if none is given */
    bool has_event;          /* whether the unit is a packet of telephone events, whose first follows (RFC 4733 2.3) */
    uint8_t event;           /* the event: 0 to 15 are the keys 0 to 9, *, #, A to D; 0 without one */
    bool event_end;          /* whether it has ended */
    uint8_t event_volume;    /* the tone's power below 0 dBm0, in dB, 0 to 63; 0 without an event */
    uint64_t event_duration; /* how long it has lasted, in nanoseconds; 0 without an event */
} jilqamur_unit;

/* How a packetizer counts pictures, and which forms it writes. */
typedef struct jilqamur_packetizer_params {
    bool has_picture_id; /* whether VP8's frames have picture ids; VP9's always do */
    uint16_t picture_id; /* the first picture id, at most 32,767; without has_picture_id VP9 begins at 0 */
    bool for_browsers;   /* whether VP8 writes the picture id 0, and VP9 tells which frames are predicted */
} jilqamur_packetizer_params;

/* A handle of a packetizer that goes by a codec's name, and of the packets that its last sample left. One whose bytes
 * are all 0 is closed; write no field of it after that. A copy of an open handle must not be used. What is opened must
 * be closed, or its memory is never freed. At a closed handle each call but jilqamur_packetizer_open returns
 * JILQAMUR_CLOSED, and changes nothing. */
typedef struct jilqamur_packetizer {
    bool full;
    void *place;
} jilqamur_packetizer;

#define JILQAMUR_PACKETIZER_CLOSED {false, 0}

/* Opens a packetizer that cut nothing, of the codec of this name: opus, PCMU, PCMA, G722, CN, AMR-WB, telephone-event,
 * VP8, VP9, AV1, H264, H265 or H266, in any case. JILQAMUR_IN_USE if the handle is open; JILQAMUR_OUT_OF_RANGE for a
 * picture id above 32,767, a clock rate of 0 or a codec that has no payload format, JILQAMUR_NOT_TEXT for a name that
 * is no text, or JILQAMUR_MEMORY; and it is unchanged. */
uint32_t jilqamur_packetizer_open(jilqamur_packetizer *packetizer, const jilqamur_packetizer_params *params,
                                  const jilqamur_format *format, const uint8_t *codec, size_t codec_len);

/* Frees the packetizer: JILQAMUR_OK, or JILQAMUR_CLOSED if the handle is closed. It is closed afterwards. */
uint32_t jilqamur_packetizer_close(jilqamur_packetizer *packetizer);

/* Cuts a sample of len bytes, a frame or an audio packet, into payloads of at most mtu bytes, which are left to be
 * fetched in place of those before, and writes how many there are into count. Of AV1 the sample is the OBUs of a
 * temporal unit, of which the last alone may have no size; of H.264, H.265 and H.266 an access unit with start codes,
 * not lengths; of AMR-WB a header byte and the speech (RFC 4867 5.3); else the codec's bytes. Units come out in the
 * same forms: each OBU with its size, each NAL unit after 00 00 00 01. One of JILQAMUR_PACKET_TOO_SHORT to
 * JILQAMUR_AMR_WB_CORRUPTED if the codec refuses the sample, or JILQAMUR_MEMORY, and nothing has changed: count is
 * then how many were left before. */
uint32_t jilqamur_packetizer_packetize(jilqamur_packetizer *packetizer, size_t mtu, const uint8_t *sample, size_t len,
                                       size_t *count);

/* Copies the payload of this place, counted from 0, to the front of a buffer of len bytes, and writes its length in
 * bytes into needed, and the marker of its RTP header into marker. JILQAMUR_TOO_SMALL, and the buffer is unchanged,
 * while needed and marker are written; JILQAMUR_NOTHING if there is none of that place. The payloads stay until the
 * next sample that is not refused. */
uint32_t jilqamur_packetizer_packet(jilqamur_packetizer *packetizer, size_t index, uint8_t *buffer, size_t len,
                                    size_t *needed, bool *marker);

/* A handle of a depacketizer that goes by a codec's name, after a buffer that puts packets in order, and of the unit
 * that was popped last; kept like that of a packetizer. At a closed handle each call but jilqamur_depacketizer_open
 * returns JILQAMUR_CLOSED, and changes nothing. */
typedef struct jilqamur_depacketizer {
    bool full;
    void *place;
} jilqamur_depacketizer;

#define JILQAMUR_DEPACKETIZER_CLOSED {false, 0}

/* Opens a depacketizer that took nothing, of the codec of this name. Past a missing packet a unit is handed out only
 * once more than hold_back frames are complete. At most held packets wait, JILQAMUR_MIN_HELD to JILQAMUR_MAX_HELD, else
 * it is JILQAMUR_OUT_OF_RANGE. Refused as jilqamur_packetizer_open, but for a picture id. */
uint32_t jilqamur_depacketizer_open(jilqamur_depacketizer *depacketizer, const jilqamur_format *format,
                                    const uint8_t *codec, size_t codec_len, size_t hold_back, size_t held);

/* Frees the depacketizer: JILQAMUR_OK, or JILQAMUR_CLOSED if the handle is closed. It is closed afterwards. */
uint32_t jilqamur_depacketizer_close(jilqamur_depacketizer *depacketizer);

/* Takes a packet in, by its widened sequence number (jilqamur_number_widen, jilqamur_window_receive), its RTP
 * timestamp, its marker and its payload of len bytes without padding: JILQAMUR_OK, or JILQAMUR_MEMORY, and nothing has
 * changed. A packet whose number is held, or at or below that of the last frame that was handed out or refused, is
 * passed over; of more than may wait the one of the lowest number goes. */
uint32_t jilqamur_depacketizer_push(jilqamur_depacketizer *depacketizer, uint64_t number, uint32_t timestamp,
                                    bool marker, const uint8_t *payload, size_t len);

/* JILQAMUR_OK if a unit is due, which jilqamur_depacketizer_unit fetches. JILQAMUR_NOTHING if none is, one of
 * JILQAMUR_PACKET_TOO_SHORT to JILQAMUR_AMR_WB_CORRUPTED if a packet of the next frame is refused, which is then
 * done with, or JILQAMUR_MEMORY, and the frame stays. */
uint32_t jilqamur_depacketizer_pop(jilqamur_depacketizer *depacketizer);

/* The same, whether or not a packet before the lowest complete unit is missing: for the end of a stream. */
uint32_t jilqamur_depacketizer_drain(jilqamur_depacketizer *depacketizer);

/* Copies the bytes of the unit that was popped or drained last to the front of a buffer of len bytes, writes their
 * count into needed, and what is told beside into unit. JILQAMUR_TOO_SMALL, and the buffer is unchanged, while needed
 * and unit are written; JILQAMUR_NOTHING before the first unit. The unit stays until the next one. */
uint32_t jilqamur_depacketizer_unit(jilqamur_depacketizer *depacketizer, uint8_t *buffer, size_t len, size_t *needed,
                                    jilqamur_unit *unit);

/* A handle of an end: what it offers, what it agreed on with the other end, its streams, and what calls left to be
 * fetched. One whose bytes are all 0 is closed; write no field of it after that. A copy of an open handle must not be
 * used. What is opened must be closed, or its memory is never freed. At a closed handle each call below but
 * jilqamur_end_open returns JILQAMUR_CLOSED, and changes nothing. */
typedef struct jilqamur_end {
    bool full;
    void *place;
} jilqamur_end;

#define JILQAMUR_END_CLOSED {false, 0}

/* Opens a handle without an end, of an empty draft: JILQAMUR_OK; or JILQAMUR_IN_USE if it is open, or
 * JILQAMUR_MEMORY, and it is unchanged. */
uint32_t jilqamur_end_open(jilqamur_end *end);

/* Frees all that the handle holds: JILQAMUR_OK, or JILQAMUR_CLOSED if it is closed. It is closed afterwards. */
uint32_t jilqamur_end_close(jilqamur_end *end);

/* The numbers of a row: a payload type, and what it stands for. */
typedef struct jilqamur_row {
    uint8_t payload_type; /* the payload type, 0 to 127 */
    bool has_resend;      /* whether it is retransmitted (RFC 4588) */
    uint8_t resend;       /* the type of its retransmissions; not looked at without them */
    bool has_red;         /* whether it has redundancy (RFC 2198) */
    uint8_t red;          /* the RED type; not looked at without it */
    uint32_t clock_rate;  /* ticks a second, at least 1; of G.722 16,000, or as texts say it 8,000 */
    bool has_channels;    /* whether the row names its channels */
    uint8_t channels;     /* how many; not looked at where they aren't named */
} jilqamur_row;

/* Puts a row after those of the draft: the codec's name, in any case, and what follows the type in its a=fmtp
 * line, or 0 bytes. JILQAMUR_OUT_OF_RANGE for a clock rate of 0, else JILQAMUR_NOT_TEXT, or JILQAMUR_MEMORY, and
 * nothing has changed. */
uint32_t jilqamur_end_row(jilqamur_end *end, const jilqamur_row *row, const uint8_t *codec, size_t codec_len,
                          const uint8_t *format, size_t format_len);

/* Puts the default rows of Opus, VP8, H.264, H.265, VP9 and AV1 after those of the draft. JILQAMUR_MEMORY, and nothing
 * has changed. */
uint32_t jilqamur_end_default_rows(jilqamur_end *end);

/* Gives the header extension of a URI a number, 1 to 16, in the draft's map (RFC 8285), in place of one that has it.
 * JILQAMUR_OUT_OF_RANGE, else JILQAMUR_NOT_TEXT, or JILQAMUR_MEMORY, and nothing has changed. */
uint32_t jilqamur_end_extension(jilqamur_end *end, uint8_t id, const uint8_t *uri, size_t len);

/* Makes a new end of the draft under this session number, in place of one that was made; it has agreed on nothing. The
 * first that holds of JILQAMUR_ROW_NOT_PLAIN, JILQAMUR_TYPES_NOT_DISTINCT and JILQAMUR_NOT_WRITABLE, or
 * JILQAMUR_MEMORY, and the end stays. The draft is empty afterwards, refused or not. */
uint32_t jilqamur_end_make(jilqamur_end *end, uint64_t session);

/* Lets the SSRC repair send again what ssrc sends (RFC 4588 8.3), in the section or request that is put next.
 * JILQAMUR_MEMORY, and nothing has changed. */
uint32_t jilqamur_end_section_repair(jilqamur_end *end, uint32_t ssrc, uint32_t repair);

/* Puts a section after those of the next offer or answer: its name (RFC 5888; at most 16 bytes, each a letter, a digit
 * or _), audio or video, which way media shall flow as this end sees it, and the SSRCs that this end sends under, with
 * the repairs that were put before it, which it uses up. Each offer and each answer uses the gathered sections up.
 * JILQAMUR_NOT_TEXT, or JILQAMUR_MEMORY, and nothing has changed. */
uint32_t jilqamur_end_section(jilqamur_end *end, const uint8_t *mid, size_t mid_len, bool is_video, bool sends,
                              bool receives, const uint32_t *ssrcs, size_t count);

/* Offers the gathered sections (RFC 3264 5): jilqamur_end_text fetches the text. JILQAMUR_NOT_MADE without an end,
 * JILQAMUR_OUT_OF_RANGE if the repairs of a section aren't sound: each repairs another one of its SSRCs, and none is
 * one of them; else the first that holds of JILQAMUR_OUT_OF_TURN, JILQAMUR_NOT_CORRESPONDING, JILQAMUR_NO_COMMON_ROW
 * and JILQAMUR_NOT_WRITABLE, or JILQAMUR_MEMORY, and end and text stay. */
uint32_t jilqamur_end_offer(jilqamur_end *end);

/* Answers an offer of len bytes by the gathered sections (RFC 3264 6): jilqamur_end_text fetches the text.
 * JILQAMUR_NOT_TEXT, JILQAMUR_NOT_MADE without an end, JILQAMUR_OUT_OF_RANGE as above; else the first that holds of
 * JILQAMUR_TEXT_UNREADABLE, JILQAMUR_OUT_OF_TURN, JILQAMUR_NOT_MEDIA, JILQAMUR_NOT_CORRESPONDING, JILQAMUR_ROUND,
 * JILQAMUR_NO_COMMON_ROW and JILQAMUR_NOT_WRITABLE, or JILQAMUR_MEMORY, and end and text stay. */
uint32_t jilqamur_end_answer(jilqamur_end *end, const uint8_t *offer, size_t len);

/* Takes the answer of len bytes to the pending offer (RFC 3264 7). JILQAMUR_NOT_TEXT, JILQAMUR_NOT_MADE without an end;
 * else the first that holds of JILQAMUR_TEXT_UNREADABLE, JILQAMUR_OUT_OF_TURN, JILQAMUR_NOT_MEDIA,
 * JILQAMUR_NOT_CORRESPONDING, JILQAMUR_ROUND and JILQAMUR_NO_COMMON_ROW, or JILQAMUR_MEMORY, and the end stays. */
uint32_t jilqamur_end_accept(jilqamur_end *end, const uint8_t *answer, size_t len);

/* Takes the payload types of the agreed sections from a text, each from the section of its name: streams that are opened
 * from then on have the types, those of retransmissions and those of redundancy that this section lists. Hand it what
 * jilqamur_end_for_browser makes of an answer, and a browser's answer after jilqamur_end_accept_browser: a section may
 * list fewer types than others. JILQAMUR_NOT_TEXT, JILQAMUR_NOT_MADE, JILQAMUR_TEXT_UNREADABLE or JILQAMUR_MEMORY, and
 * nothing has changed. */
uint32_t jilqamur_end_take_types(jilqamur_end *end, const uint8_t *text, size_t len);

/* Gives a pending offer up. JILQAMUR_NOTHING if none is pending, JILQAMUR_NOT_MADE without an end. */
uint32_t jilqamur_end_withdraw(jilqamur_end *end);

/* Copies the text that the last offer or answer left to the front of a buffer of len bytes, and writes its length in
 * bytes into needed, 0 before the first. JILQAMUR_TOO_SMALL, and the buffer is unchanged. The text stays until the next
 * offer or answer that is not refused, and has no 0 at its end. */
uint32_t jilqamur_end_text(jilqamur_end *end, uint8_t *buffer, size_t len, size_t *needed);

/* Puts a request for the next section of a browser's offer after those before: whether it is answered or rejected, and
 * of one that is answered which way media shall flow as this end sees it, and the SSRCs that this end sends under,
 * with the repairs that were put before it, which each request uses up. A section without a request is rejected.
 * JILQAMUR_MEMORY, and nothing has changed. */
uint32_t jilqamur_end_request(jilqamur_end *end, bool is_accepted, bool sends, bool receives, const uint32_t *ssrcs,
                           size_t count);

/* Answers a browser's offer of len bytes by the requests, which it uses up (RFC 8829 5.3.1): jilqamur_end_text fetches
 * the text of the answer, which jilqamur_end_for_browser makes one for the browser. The end never sees sections of
 * data, of port 0 or without a request, nor those that have no row in common with it (RFC 3264 6); what is taken out is
 * remembered, and so is what the offer tells of the browser's transport. JILQAMUR_NOT_TEXT, JILQAMUR_NOT_MADE without
 * an end; else the first that holds of JILQAMUR_TEXT_UNREADABLE, JILQAMUR_REST_UNREAD, JILQAMUR_MID_NOT_KEPT,
 * JILQAMUR_MID_TWICE, JILQAMUR_SEVERAL_BUNDLES, JILQAMUR_OUTSIDE_BUNDLE, JILQAMUR_NOTHING_LEFT and JILQAMUR_KEYS_ALONE;
 * else JILQAMUR_OUT_OF_RANGE as at jilqamur_end_offer, and what jilqamur_end_answer refuses; or JILQAMUR_MEMORY. End,
 * text and what is remembered then stay. */
uint32_t jilqamur_end_answer_browser(jilqamur_end *end, const uint8_t *offer, size_t len);

/* Takes a browser's answer of len bytes to the pending offer, and remembers what it tells of the browser's transport.
 * JILQAMUR_NOT_TEXT, JILQAMUR_NOT_MADE without an end; else the first that holds of JILQAMUR_TEXT_UNREADABLE,
 * JILQAMUR_REST_UNREAD, JILQAMUR_MID_NOT_KEPT, JILQAMUR_MID_TWICE, JILQAMUR_NOT_CORRESPONDING,
 * JILQAMUR_SECTION_REJECTED, JILQAMUR_SEVERAL_BUNDLES, JILQAMUR_OUTSIDE_BUNDLE, JILQAMUR_NOTHING_LEFT and
 * JILQAMUR_KEYS_ALONE; else what jilqamur_end_accept refuses; or JILQAMUR_MEMORY. All then stays. */
uint32_t jilqamur_end_accept_browser(jilqamur_end *end, const uint8_t *answer, size_t len);

/* The part of an end in the connection (RFC 8842 5). */
enum {
    JILQAMUR_ACTPASS = 0, /* it is left open, as each offer does */
    JILQAMUR_ACTIVE = 1,  /* it opens the connection */
    JILQAMUR_PASSIVE = 2  /* it waits for it */
};

/* Makes an offer's or an answer's text of this end, of len bytes, one for a browser, which jilqamur_end_text fetches:
 * what was taken out of the browser's offer is back in its place, rejected, and each other section has the lines of the
 * transport, whose candidates come later (RFC 8840). A section that is new in an offer has the first place that an
 * earlier exchange left with port 0, or else follows after all places (RFC 8829 5.2.2). setup is JILQAMUR_ACTPASS in an
 * offer, and in an answer one of the others, as in each answer before; is_lite says that this end answers connectivity
 * checks alone; ufrag and password are those of ICE (RFC 8839 5.4), hash and digest the fingerprint of the certificate,
 * as sha-256 and its 32 bytes. JILQAMUR_NOT_TEXT, JILQAMUR_OUT_OF_RANGE for another setup; else the first that holds of
 * JILQAMUR_TEXT_UNREADABLE, JILQAMUR_REST_UNREAD, JILQAMUR_UFRAG_NOT_FIT, JILQAMUR_PASSWORD_NOT_FIT,
 * JILQAMUR_SETUP_NOT_FIT, JILQAMUR_NOT_CORRESPONDING and JILQAMUR_NOT_WRITABLE, or JILQAMUR_MEMORY, and nothing has
 * changed. */
uint32_t jilqamur_end_for_browser(jilqamur_end *end, const uint8_t *text, size_t len, uint8_t setup, bool is_lite,
                                  const uint8_t *ufrag, size_t ufrag_len, const uint8_t *password, size_t password_len,
                                  const uint8_t *hash, size_t hash_len, const uint8_t *digest, size_t digest_len);

/* What a browser's last text tells of its transport, beside texts. */
typedef struct jilqamur_remote {
    bool has_setup;     /* whether it tells its part in the connection */
    uint8_t setup;      /* it; 0 if it isn't told */
    bool has_own_setup; /* whether the part of this end was answered before */
    uint8_t own_setup;  /* it; 0 if it wasn't */
    bool is_trickling;  /* whether further candidates may come later (RFC 8840 4.1) */
    bool is_lite;       /* whether it answers connectivity checks alone (RFC 8839 5.3) */
    size_t candidates;  /* how many candidates it tells */
} jilqamur_remote;

/* Tells it; without a browser's text nothing is told. */
uint32_t jilqamur_end_remote(jilqamur_end *end, jilqamur_remote *remote);

/* The texts of jilqamur_end_remote_text. */
enum {
    JILQAMUR_UFRAG = 0,      /* the name of ICE (RFC 8839 5.4) */
    JILQAMUR_PASSWORD = 1,   /* its password */
    JILQAMUR_FINGERPRINT = 2 /* the preferred fingerprint, as sha-256 and its bytes in hex with colons (RFC 8122 5) */
};

/* Copies such a text of the browser's transport to the front of a buffer of len bytes, and writes its length in bytes
 * into needed. JILQAMUR_TOO_SMALL, and the buffer is unchanged; JILQAMUR_NOTHING if it isn't told, or
 * JILQAMUR_MEMORY, and nothing has changed. */
uint32_t jilqamur_end_remote_text(jilqamur_end *end, uint8_t text, uint8_t *buffer, size_t len, size_t *needed);

/* The same of the browser's candidate of this place, counted from 0: candidate: and what follows (RFC 8839 5.1). */
uint32_t jilqamur_end_remote_candidate(jilqamur_end *end, size_t index, uint8_t *buffer, size_t len, size_t *needed);

/* What is told of an agreed section beside its name. */
typedef struct jilqamur_section {
    bool is_video; /* whether it is of video, else of audio */
    bool sends;    /* whether media flows from this end */
    bool receives; /* whether media flows to this end */
    size_t rows;   /* how many rows both ends have */
    size_t ssrcs;  /* how many SSRCs the other end names */
} jilqamur_section;

/* Copies the name of the agreed section of this place, counted from 0 in the order of the texts, to the front of a
 * buffer of len bytes, writes its length in bytes into needed, and what is told beside into section.
 * JILQAMUR_TOO_SMALL, and the buffer is unchanged, while needed and section are written; JILQAMUR_NOTHING if no
 * section of that place is agreed. */
uint32_t jilqamur_end_agreed_section(jilqamur_end *end, size_t index, uint8_t *buffer, size_t len, size_t *needed,
                                     jilqamur_section *section);

/* The same of the codec's name and the numbers of a row of an agreed section, by the places of both. */
uint32_t jilqamur_end_agreed_row(jilqamur_end *end, size_t section, size_t index, uint8_t *buffer, size_t len,
                                 size_t *needed, jilqamur_row *row);

/* Writes an SSRC that the other end names in an agreed section, by the places of both. JILQAMUR_NOTHING if there is
 * none, and ssrc is unchanged. */
uint32_t jilqamur_end_agreed_ssrc(jilqamur_end *end, size_t section, size_t index, uint32_t *ssrc);

/* How a sending stream numbers and cuts its samples. */
typedef struct jilqamur_stream {
    uint64_t first;      /* the first sequence number, below 32,768 */
    size_t mtu;          /* the most bytes of a payload, at least 1, and at least 2 with redundancy */
    size_t limit;        /* the most bytes of a datagram */
    bool has_red;        /* whether it sends redundancy (RFC 2198), for a row with a RED type alone */
    bool has_picture_id; /* whether VP8's frames have picture ids; VP9's always do */
    uint16_t picture_id; /* the first picture id, at most 32,767; without has_picture_id VP9 begins at 0 */
    bool for_browsers;   /* whether the payloads have the forms that browsers want */
} jilqamur_stream;

/* Opens a sending stream of this SSRC for the agreed row of a payload type, and writes its number, counted from 0 over
 * the streams of both directions, into stream. With redundancy, distances are how many payloads back the older ones
 * are: rising, 1 to 8. JILQAMUR_NOT_TEXT, JILQAMUR_NOT_MADE without an end, JILQAMUR_OUT_OF_RANGE for parameters off
 * the ranges above; else the first that holds of JILQAMUR_NO_SECTION, JILQAMUR_ROW_NOT_AGREED, JILQAMUR_ROW_DIFFERS,
 * JILQAMUR_WRONG_DIRECTION, JILQAMUR_SSRC_NOT_NAMED and JILQAMUR_ALREADY_OPEN, or JILQAMUR_MEMORY, and nothing has
 * changed. */
uint32_t jilqamur_end_open_sender(jilqamur_end *end, const uint8_t *mid, size_t mid_len, uint32_t ssrc,
                                  uint8_t payload_type, const jilqamur_stream *params, const uint8_t *distances,
                                  size_t count, size_t *stream);

/* Opens a receiving stream in the same way. Past a missing datagram a unit is handed out only once more than hold_back
 * frames are complete. At most held packets wait. Refused as above, JILQAMUR_OUT_OF_RANGE if held isn't
 * JILQAMUR_MIN_HELD to JILQAMUR_MAX_HELD. */
uint32_t jilqamur_end_open_receiver(jilqamur_end *end, const uint8_t *mid, size_t mid_len, uint32_t ssrc,
                                    uint8_t payload_type, size_t hold_back, size_t held, size_t *stream);

/* Opens a receiving stream as jilqamur_end_open_receiver, in a section whose sender names this SSRC or no SSRC at all,
 * as one whose simulcast streams a=rid alone tells apart (RFC 8853 6.1): the SSRC is that of a datagram that came and
 * was JILQAMUR_FOREIGN. JILQAMUR_SSRC_NOT_NAMED if the section names SSRCs, and not this one. */
uint32_t jilqamur_end_open_unsignalled(jilqamur_end *end, const uint8_t *mid, size_t mid_len, uint32_t ssrc,
                                       uint8_t payload_type, size_t hold_back, size_t held, size_t *stream);

/* The values of header extensions (RFC 8285), but the names of sections and streams. One that is not given is not
 * looked at where a sample is sent, and is 0 or false in values that were read. */
typedef struct jilqamur_values {
    bool has_audio_level;       /* whether the audio level is given */
    int8_t audio_level;         /* it, in dBov, -127 to 0; carried with the voice activity alone (RFC 6464) */
    bool has_voice_activity;    /* whether the voice activity is given */
    bool voice_activity;        /* whether the audio has voice; carried with the audio level alone */
    bool has_abs_send_time;     /* whether the time of sending is given */
    uint64_t abs_send_time;     /* it, in microseconds; carried modulo 64 seconds, in units of 2^-18 seconds */
    bool has_transport_cc;      /* whether the number over all streams of a transport is given */
    uint16_t transport_cc;      /* it */
    bool has_video_orientation; /* whether the orientation is given */
    uint8_t video_orientation;  /* how the picture is turned, by the low two bits (3GPP TS 26.114 7.4.5) */
    bool has_play_delay_min;    /* whether the least delay until play is given */
    uint16_t play_delay_min;    /* it, in 10 ms, 0 to 4095; carried with the greatest alone */
    bool has_play_delay_max;    /* whether the greatest delay until play is given */
    uint16_t play_delay_max;    /* it, in 10 ms, 0 to 4095; carried with the least alone */
    bool has_video_content_type; /* whether the content type is given */
    uint8_t video_content_type; /* what the video shows */
    bool has_capture_time;      /* whether the time of capture is given */
    uint64_t capture_time;      /* it: NTP time, in seconds with 32 bits before and 32 after the point */
    bool has_clock_offset;      /* whether the clock's offset is given; carried with the time of capture alone */
    int64_t clock_offset;       /* how far the sender's clock is ahead, in seconds with 32 bits after the point */
} jilqamur_values;

/* Sends a sample of sample_len bytes, of the forms at jilqamur_packetizer_packetize, under a time in ticks of the row's
 * clock: its datagrams are left to be fetched in place of those before, and count is how many there are. They carry the
 * values that are given, and the section's name if mid_len is not 0, each if the agreed map has a number for it
 * (RFC 8285, RFC 9143 15). JILQAMUR_NOT_TEXT, JILQAMUR_NOT_MADE without an end, JILQAMUR_NO_STREAM; else the first that
 * holds of JILQAMUR_STREAM_FAILED, JILQAMUR_TIME_TOO_LARGE, JILQAMUR_LIMIT_TOO_SMALL and JILQAMUR_PAYLOAD, and the end
 * is unchanged; or JILQAMUR_MEMORY, and the stream sends no more. The datagrams that were left before stay then, and
 * count is how many those are. */
uint32_t jilqamur_end_push_sample(jilqamur_end *end, size_t stream, uint64_t ticks, const jilqamur_values *values,
                                  const uint8_t *mid, size_t mid_len, const uint8_t *sample, size_t sample_len,
                                  size_t *count);

/* Sends a datagram of len bytes again, as the stream sent it, under the SSRC and the type of its repairs (RFC 4588 4):
 * the repair is left to be fetched as the only datagram, in place of those before. JILQAMUR_NOT_MADE without an end,
 * JILQAMUR_NO_STREAM; else the first that holds of JILQAMUR_NO_REPAIR, JILQAMUR_NOT_OWN and JILQAMUR_LIMIT_TOO_SMALL
 * if two bytes more pass the stream's limit, or JILQAMUR_MEMORY, and nothing has changed. */
uint32_t jilqamur_end_repair(jilqamur_end *end, size_t stream, const uint8_t *datagram, size_t len);

/* Copies the datagram of this place, counted from 0, to the front of a buffer of len bytes, and writes its length in
 * bytes into needed. JILQAMUR_TOO_SMALL, and the buffer is unchanged; JILQAMUR_NOTHING if there is none of that
 * place. The datagrams stay until the next sample or repair that is not refused. */
uint32_t jilqamur_end_datagram(jilqamur_end *end, size_t index, uint8_t *buffer, size_t len, size_t *needed);

/* Takes a datagram of len bytes in: JILQAMUR_OK if a receiving stream took it, whose number is written into stream,
 * and its widened sequence number into number. JILQAMUR_NOT_MADE without an end; else the first that holds of
 * JILQAMUR_UNREADABLE, JILQAMUR_FOREIGN, JILQAMUR_DAMAGED and JILQAMUR_REFUSED, or JILQAMUR_MEMORY, and the end is
 * unchanged. */
uint32_t jilqamur_end_receive(jilqamur_end *end, const uint8_t *datagram, size_t len, size_t *stream, uint64_t *number);

/* Polls a receiving stream: JILQAMUR_OK if a unit is ready, which jilqamur_end_unit fetches. JILQAMUR_NOT_MADE
 * without an end, JILQAMUR_NO_STREAM; JILQAMUR_NOTHING if no unit is ready, JILQAMUR_PAYLOAD if a packet of the
 * next frame is refused, which is then done with, or JILQAMUR_MEMORY, and the frame stays. */
uint32_t jilqamur_end_poll(jilqamur_end *end, size_t stream);

/* The same, whether or not a datagram before the lowest complete unit is missing: for the end of a stream. */
uint32_t jilqamur_end_drain(jilqamur_end *end, size_t stream);

/* Copies the bytes of the unit that a poll or a drain left last to the front of a buffer of len bytes, writes their
 * count into needed, and what is told beside into unit. JILQAMUR_TOO_SMALL, and the buffer is unchanged, while needed
 * and unit are written; JILQAMUR_NOTHING before the first unit. The unit stays until the next one. */
uint32_t jilqamur_end_unit(jilqamur_end *end, uint8_t *buffer, size_t len, size_t *needed, jilqamur_unit *unit);

/* Tells the values of the header extensions of the last datagram of that unit. JILQAMUR_NOTHING before the first unit,
 * and values is unchanged. */
uint32_t jilqamur_end_values(jilqamur_end *end, jilqamur_values *values);

/* The ids of header extensions (RFC 8285), 1 to 16, or 0 for none. Of two with one id the later one here has it. */
typedef struct jilqamur_extension_ids {
    uint8_t audio_level;        /* the audio level and voice activity: urn:ietf:params:rtp-hdrext:ssrc-audio-level */
    uint8_t abs_send_time;      /* http://www.webrtc.org/experiments/rtp-hdrext/abs-send-time */
    uint8_t transport_cc;       /* http://www.ietf.org/id/draft-holmer-rmcat-transport-wide-cc-extensions-01 */
    uint8_t video_orientation;  /* urn:3gpp:video-orientation */
    uint8_t play_delay;         /* http://www.webrtc.org/experiments/rtp-hdrext/playout-delay */
    uint8_t video_content_type; /* http://www.webrtc.org/experiments/rtp-hdrext/video-content-type */
    uint8_t capture_time;       /* http://www.webrtc.org/experiments/rtp-hdrext/abs-capture-time */
    uint8_t mid;                /* the section's mid: urn:ietf:params:rtp-hdrext:sdes:mid */
    uint8_t rid;                /* the stream's id: urn:ietf:params:rtp-hdrext:sdes:rtp-stream-id */
    uint8_t repaired_rid;       /* that of a repaired stream: urn:ietf:params:rtp-hdrext:sdes:repaired-rtp-stream-id */
} jilqamur_extension_ids;

/* The names of section and stream that a datagram carries. The bytes after a name are 0, and it has no 0 at its end. */
typedef struct jilqamur_names {
    bool has_mid;             /* whether there is a mid (RFC 9143 15) */
    uint8_t mid_len;          /* its length in bytes; 0 without one */
    uint8_t mid[16];          /* the mid */
    bool has_rid;             /* whether there is a RID (RFC 8852 4.1) */
    uint8_t rid_len;          /* its length in bytes; 0 without one */
    uint8_t rid[8];           /* the RID */
    bool has_repaired_rid;    /* whether there is the RID of a stream that is repaired (RFC 8852 4.2) */
    uint8_t repaired_rid_len; /* its length in bytes; 0 without one */
    uint8_t repaired_rid[8];  /* that RID */
} jilqamur_names;

/* Tells the values of the header extensions in front of a datagram of len bytes, read by these ids, and the names of
 * its section and stream: JILQAMUR_OK; or JILQAMUR_OUT_OF_RANGE if an id is above 16, JILQAMUR_UNREADABLE if the
 * datagram doesn't begin with a header, and values and names are unchanged. */
uint32_t jilqamur_header_values(const uint8_t *datagram, size_t len, const jilqamur_extension_ids *ids,
                                jilqamur_values *values, jilqamur_names *names);

/* How a datagram arrives at a receiving stream. */
typedef struct jilqamur_arrival {
    uint16_t low;       /* the low 16 bits of its sequence number */
    uint32_t timestamp; /* its RTP timestamp */
    bool marker;        /* its marker bit */
    size_t start;       /* where its payload begins in the datagram */
    size_t end;         /* where its payload ends */
} jilqamur_arrival;

/* Tells how a datagram of len bytes arrives at the receiving stream that would take it, without taking it: the stream's
 * number, the fields of its header and the place of its payload, and the values of its header extensions. A
 * retransmission tells what it wraps. JILQAMUR_NOT_MADE without an end; else the first that applies of
 * JILQAMUR_UNREADABLE, JILQAMUR_FOREIGN and JILQAMUR_DAMAGED, and nothing is told. */
uint32_t jilqamur_end_arrival(jilqamur_end *end, const uint8_t *datagram, size_t len, size_t *stream,
                              jilqamur_arrival *arrival, jilqamur_values *values);

/* Takes only the number of a datagram that arrived at a receiving stream, by its low 16 bits, for one that is sent on:
 * JILQAMUR_OK, and number is the widened number; nothing waits to be polled. JILQAMUR_NOT_MADE without an end,
 * JILQAMUR_NO_STREAM, JILQAMUR_REFUSED if the number came before, or is 1,024 or more below the greatest; the end is
 * then unchanged. */
uint32_t jilqamur_end_take_number(jilqamur_end *end, size_t stream, uint16_t low, uint64_t *number);

/* Sends one packet of another stream as a datagram of a sending stream, with this number, timestamp, marker bit and
 * payload: it is left to be fetched as the only datagram, in place of those before. It carries the values that are
 * given, and the mid if mid_len is not 0, each if the agreed map has an id for it. Numbers may come in any order; the
 * stream's samples are numbered above them. JILQAMUR_NOT_TEXT, JILQAMUR_NOT_MADE without an end, JILQAMUR_NO_STREAM;
 * else the first that applies of JILQAMUR_ADDS_REDUNDANCY, JILQAMUR_NUMBER_TOO_LARGE, JILQAMUR_NO_PAYLOAD and
 * JILQAMUR_LIMIT_TOO_SMALL, or JILQAMUR_MEMORY, and nothing has changed. */
uint32_t jilqamur_end_send_packet(jilqamur_end *end, size_t stream, uint64_t number, uint32_t timestamp, bool marker,
                                  const jilqamur_values *values, const uint8_t *mid, size_t mid_len,
                                  const uint8_t *payload, size_t payload_len);

/* Copies the missing numbers of a receiving stream, in increasing order, to the front of len numbers, and writes their
 * count, at most 1,023, into needed: JILQAMUR_OK; or JILQAMUR_TOO_SMALL, and the numbers are unchanged. Missing are
 * those after the last unit's, or, before any unit, after the lowest packet that waits, that were not taken, below the
 * greatest that was and within the replay window: what a generic NACK may ask for (RFC 4585 6.2.1). JILQAMUR_NOT_MADE
 * without an end, JILQAMUR_NO_STREAM, or JILQAMUR_MEMORY. */
uint32_t jilqamur_end_missing(jilqamur_end *end, size_t stream, uint64_t *numbers, size_t len, size_t *needed);

/* JILQAMUR_OK if a number of a receiving stream is passed: a unit with this number or one above it was handed out, or a
 * frame with it was refused, and a datagram of this number is of no use any more. JILQAMUR_NOTHING if it isn't.
 * JILQAMUR_NOT_MADE without an end, JILQAMUR_NO_STREAM. */
uint32_t jilqamur_end_is_passed(jilqamur_end *end, size_t stream, uint64_t number);

/* Passes all numbers of a receiving stream up to this one: what waits of them is dropped, an open fragment is given up,
 * and the frame after the number is next, so that hold-back protects it. So a stream begins with a key frame, goes on
 * at once after a loss that nobody repairs, and gives back what it holds. A number that is passed already changes
 * nothing. JILQAMUR_NOT_MADE without an end, JILQAMUR_NO_STREAM. */
uint32_t jilqamur_end_pass_to(jilqamur_end *end, size_t stream, uint64_t number);

/* Tells a receiving stream that a number carries nothing for it, as one of padding alone (RFC 3550 5.1), or of another
 * payload type of its SSRC. JILQAMUR_OK if it was the next after the last that is passed, and is now passed, so that no
 * frame waits for it; JILQAMUR_NOTHING if not, and it may be told again after the next unit. JILQAMUR_NOT_MADE without
 * an end, JILQAMUR_NO_STREAM. */
uint32_t jilqamur_end_pass_empty(jilqamur_end *end, size_t stream, uint64_t number);

/* Gives memory of a receiving stream back: of the packets that wait those with the highest numbers stay, whose payloads
 * have at most so many bytes together, and the numbers below them are passed; a fragment that is open between units is
 * given up if any packet went, or if it has more bytes. A call each time so many bytes came in keeps the stream within
 * twice as many, whatever a peer sends. JILQAMUR_NOT_MADE without an end, JILQAMUR_NO_STREAM. */
uint32_t jilqamur_end_keep_within(jilqamur_end *end, size_t stream, size_t bytes);

/* Tells the number that the next datagram of a sending stream's samples gets. JILQAMUR_NOT_MADE without an end,
 * JILQAMUR_NO_STREAM. */
uint32_t jilqamur_end_next_number(jilqamur_end *end, size_t stream, uint64_t *next);

/* Makes this number the next one of a sending stream's samples, so that the numbers between, from the next one until
 * now up to the one before it, are left out. A number that isn't above the next one changes nothing. So streams of one SSRC and several payload types are numbered as one
 * (RFC 3550 5.1). JILQAMUR_NOT_MADE without an end, JILQAMUR_NO_STREAM. */
uint32_t jilqamur_end_skip_to(jilqamur_end *end, size_t stream, uint64_t number);

/* Closes a sending stream: what it holds is given back, and its SSRC can be opened again, with new numbers. The
 * stream's own number isn't used again. JILQAMUR_NOT_MADE without an end, JILQAMUR_NO_STREAM. */
uint32_t jilqamur_end_close_sender(jilqamur_end *end, size_t stream);

/* Closes a receiving stream: what it holds is given back, and its SSRC can be opened again, as one that nothing came
 * of. The stream's own number isn't used again, and its datagrams are JILQAMUR_FOREIGN from then on. JILQAMUR_NOT_MADE
 * without an end, JILQAMUR_NO_STREAM. */
uint32_t jilqamur_end_close_receiver(jilqamur_end *end, size_t stream);

/* A handle of a forwarder, which numbers and times the packets of several sources as those of one stream: the packets
 * of a source keep their distances, and each piece of a source begins above the numbers that were given before.
 * Packets that come late are sent on where they belong, as long as the last 64 pieces are kept. Kept like the handle
 * of an end. At a closed handle each call but jilqamur_forwarder_open returns JILQAMUR_CLOSED, and changes nothing. */
typedef struct jilqamur_forwarder {
    bool full;
    void *place;
} jilqamur_forwarder;

#define JILQAMUR_FORWARDER_CLOSED {false, 0}

/* The number and timestamp under which a packet is sent on. */
typedef struct jilqamur_placed {
    uint64_t number;    /* the sequence number, 64 bits wide */
    uint32_t timestamp; /* the RTP timestamp */
} jilqamur_placed;

/* Opens a forwarder that sends nothing on, and whose first packet will get the number first: JILQAMUR_OK; or
 * JILQAMUR_IN_USE if the handle is open, or JILQAMUR_MEMORY, and it is unchanged. */
uint32_t jilqamur_forwarder_open(jilqamur_forwarder *forwarder, uint64_t first);

/* Frees the forwarder: JILQAMUR_OK, or JILQAMUR_CLOSED if the handle is closed. It is closed afterwards. */
uint32_t jilqamur_forwarder_close(jilqamur_forwarder *forwarder);

/* Goes over to a source, any number that the caller gives it, from its packet of this number and timestamp on, which
 * gets the timestamp at and the next number; one number is left free before it if the last packet wasn't sent on as the
 * end of its frame, so that no receiver joins packets of two sources. JILQAMUR_MEMORY, and nothing has changed. */
uint32_t jilqamur_forwarder_switch(jilqamur_forwarder *forwarder, uint64_t source, uint64_t number, uint32_t timestamp,
                                   uint32_t at);

/* Leaves out what the source that is sent on last sends before the packet of this number, which gets the next number,
 * after one that is left free as by jilqamur_forwarder_switch; timestamps stay those of the source's clock. Before the
 * first switch it does nothing. JILQAMUR_MEMORY, and nothing has changed. */
uint32_t jilqamur_forwarder_skip_to(jilqamur_forwarder *forwarder, uint64_t number);

/* Says that what is sent on of the last source ends before its packet of this number: the next piece begins where that
 * packet would be, and packets before it may still come. */
uint32_t jilqamur_forwarder_end_at(jilqamur_forwarder *forwarder, uint64_t number);

/* Tells under which number and timestamp a source's packet of these is sent on: JILQAMUR_OK; or JILQAMUR_NOTHING if it
 * isn't sent on, and placed is unchanged. */
uint32_t jilqamur_forwarder_place(jilqamur_forwarder *forwarder, uint64_t source, uint64_t number, uint32_t timestamp,
                                  jilqamur_placed *placed);

/* The same, and the number is given: the next piece begins above it. ends says whether the packet is the last one of
 * its frame: for video jilqamur_payload_info tells it (is_tail), for audio it is true. */
uint32_t jilqamur_forwarder_forward(jilqamur_forwarder *forwarder, uint64_t source, uint64_t number, uint32_t timestamp,
                                    bool ends, jilqamur_placed *placed);

/* Leaves a source's packet out that carries nothing to send on, as one of only padding, between two frames:
 * JILQAMUR_OK, and the source's packet after it gets the number that it would have; JILQAMUR_NOTHING if it wouldn't get
 * the next number, and it may be told again after the packets before it; or JILQAMUR_MEMORY. Nothing has changed unless
 * it is JILQAMUR_OK. */
uint32_t jilqamur_forwarder_pass_empty(jilqamur_forwarder *forwarder, uint64_t source, uint64_t number);

/* Tells the first number above all those that were given. */
uint32_t jilqamur_forwarder_next(jilqamur_forwarder *forwarder, uint64_t *next);

/* A handle of a history, which keeps the datagrams that a stream sent last, by number, to be sent again when a generic
 * NACK asks for them (RFC 4585 6.2.1): exactly those with the greatest numbers that fit its bounds, in whatever order
 * they were kept. Kept like the handle of an end. At a closed handle each call but jilqamur_history_open returns
 * JILQAMUR_CLOSED, and changes nothing. */
typedef struct jilqamur_history {
    bool full;
    void *place;
} jilqamur_history;

#define JILQAMUR_HISTORY_CLOSED {false, 0}

/* Opens a history that keeps nothing yet, and will keep at most so many datagrams, of at most so many bytes together:
 * JILQAMUR_OK; or JILQAMUR_IN_USE if the handle is open, or JILQAMUR_MEMORY, and it is unchanged. */
uint32_t jilqamur_history_open(jilqamur_history *history, uint32_t most, uint32_t most_bytes);

/* Frees the history: JILQAMUR_OK, or JILQAMUR_CLOSED if the handle is closed. It is closed afterwards. */
uint32_t jilqamur_history_close(jilqamur_history *history);

/* Keeps a copy of a datagram under its number, 64 bits wide: JILQAMUR_OK. One that is held under this number stays. Of
 * more than fit the lowest numbers go, and up to a number that went nothing is kept any more. JILQAMUR_MEMORY, and
 * nothing has changed. */
uint32_t jilqamur_history_keep(jilqamur_history *history, uint64_t number, const uint8_t *datagram,
                               size_t datagram_len);

/* Copies the datagram that a NACK asks for by the low 16 bits of its number (PID): the one that is held under the
 * greatest number of these bits that isn't above the newest held. JILQAMUR_OK, JILQAMUR_TOO_SMALL, or JILQAMUR_NOTHING
 * if it isn't held. */
uint32_t jilqamur_history_asked(jilqamur_history *history, uint16_t low, uint8_t *buffer, size_t len, size_t *needed);

/* A handle of a requester, which says what a receiver asks for by generic NACKs (RFC 4585 6.2.1): each missing number
 * at most so many times, not before it may be late, and not again before a round trip has gone by. Kept like the handle
 * of an end. At a closed handle each call but jilqamur_requester_open returns JILQAMUR_CLOSED, and changes nothing. */
typedef struct jilqamur_requester {
    bool full;
    void *place;
} jilqamur_requester;

#define JILQAMUR_REQUESTER_CLOSED {false, 0}

/* Opens a requester that asks for each missing number at most so many times, the first time delay ticks after it is
 * missing: JILQAMUR_OK; or JILQAMUR_IN_USE if the handle is open, or JILQAMUR_MEMORY, and it is unchanged. */
uint32_t jilqamur_requester_open(jilqamur_requester *requester, uint32_t most, uint64_t delay);

/* Frees the requester: JILQAMUR_OK, or JILQAMUR_CLOSED if the handle is closed. It is closed afterwards. */
uint32_t jilqamur_requester_close(jilqamur_requester *requester);

/* Copies the numbers to ask for now, of those that are missing now, which jilqamur_end_missing or
 * jilqamur_receiver_missing tells: JILQAMUR_OK, and needed is their count. now and round_trip are ticks of the caller's
 * clock, such as microseconds; a number that isn't missing any more is forgotten. JILQAMUR_OUT_OF_RANGE if the missing
 * numbers don't rise, JILQAMUR_TOO_SMALL if there is room for fewer numbers than are missing, or JILQAMUR_MEMORY, and
 * nothing has changed. */
uint32_t jilqamur_requester_ask(jilqamur_requester *requester, const uint64_t *missing, size_t missing_len,
                                uint64_t now, uint64_t round_trip, uint64_t *numbers, size_t len,
                                size_t *needed);

/* How a sending stream without an end numbers and cuts its samples. */
typedef struct jilqamur_sender_params {
    uint32_t ssrc;        /* the stream's source */
    uint8_t payload_type; /* 0 to 127 */
    uint64_t first;       /* the first sequence number; from 2^62 on the stream sends no more */
    size_t mtu;           /* the most bytes of a payload, at least 1 */
    size_t limit;         /* the most bytes of a datagram */
    bool has_picture_id;  /* whether VP8's frames have picture ids; VP9's always do */
    uint16_t picture_id;  /* the first picture id, at most 32,767; without has_picture_id VP9 begins at 0 */
    bool for_browsers;    /* whether the payloads have the forms that browsers want */
} jilqamur_sender_params;

/* A handle of a sending stream that goes by a codec's name, without an end; kept like that of an end. At a closed
 * handle each call but jilqamur_sender_open returns JILQAMUR_CLOSED, and changes nothing. */
typedef struct jilqamur_sender {
    bool full;
    void *place;
} jilqamur_sender;

#define JILQAMUR_SENDER_CLOSED {false, 0}

/* Opens a stream that sent nothing, of the codec of this name, without header extensions. JILQAMUR_IN_USE if the
 * handle is open; JILQAMUR_OUT_OF_RANGE for numbers off their ranges, a clock rate of 0 or a codec that has no payload
 * format, JILQAMUR_NOT_TEXT for a name that is no text, or JILQAMUR_MEMORY; and it is unchanged. */
uint32_t jilqamur_sender_open(jilqamur_sender *sender, const jilqamur_sender_params *params,
                              const jilqamur_format *format, const uint8_t *codec, size_t codec_len);

/* Frees the stream: JILQAMUR_OK, or JILQAMUR_CLOSED if the handle is closed. It is closed afterwards. */
uint32_t jilqamur_sender_close(jilqamur_sender *sender);

/* Sends a sample of len bytes, of the forms at jilqamur_packetizer_packetize, under a time in ticks of the stream's
 * clock: its datagrams, of a header of 12 bytes and a payload of at most mtu bytes, are left to be fetched in place of
 * those before, and count is how many there are. The first that holds of JILQAMUR_STREAM_FAILED,
 * JILQAMUR_TIME_TOO_LARGE, JILQAMUR_LIMIT_TOO_SMALL and JILQAMUR_PAYLOAD, and the stream is unchanged; or
 * JILQAMUR_MEMORY, and it sends no more. The datagrams that were left before stay then, and count is how many those
 * are. */
uint32_t jilqamur_sender_push_sample(jilqamur_sender *sender, uint64_t ticks, const uint8_t *sample, size_t len,
                                     size_t *count);

/* Copies the datagram of this place, counted from 0, to the front of a buffer of len bytes, and writes its length in
 * bytes into needed. JILQAMUR_TOO_SMALL, and the buffer is unchanged; JILQAMUR_NOTHING if there is none of that
 * place. */
uint32_t jilqamur_sender_datagram(jilqamur_sender *sender, size_t index, uint8_t *buffer, size_t len, size_t *needed);

/* A handle of a receiving stream that goes by a codec's name, without an end; kept like that of an end. At a closed
 * handle each call but jilqamur_receiver_open returns JILQAMUR_CLOSED, and changes nothing. */
typedef struct jilqamur_receiver {
    bool full;
    void *place;
} jilqamur_receiver;

#define JILQAMUR_RECEIVER_CLOSED {false, 0}

/* Opens a stream that took nothing, of the codec of this name. Past a missing packet a unit is handed out only once
 * more than hold_back frames are complete. At most held packets wait, JILQAMUR_MIN_HELD to JILQAMUR_MAX_HELD, else it
 * is JILQAMUR_OUT_OF_RANGE. Refused as jilqamur_sender_open. */
uint32_t jilqamur_receiver_open(jilqamur_receiver *receiver, const jilqamur_format *format, const uint8_t *codec,
                                size_t codec_len, size_t hold_back, size_t held);

/* Frees the stream: JILQAMUR_OK, or JILQAMUR_CLOSED if the handle is closed. It is closed afterwards. */
uint32_t jilqamur_receiver_close(jilqamur_receiver *receiver);

/* Takes a packet in, by what jilqamur_header_read says of its datagram, and its payload of len bytes without padding:
 * JILQAMUR_OK, and number is its widened sequence number. JILQAMUR_REFUSED if that came before, or is 1,024 or more
 * below the greatest, or JILQAMUR_MEMORY, and the stream is unchanged. */
uint32_t jilqamur_receiver_push(jilqamur_receiver *receiver, uint16_t sequence_number, uint32_t timestamp, bool marker,
                                const uint8_t *payload, size_t len, uint64_t *number);

/* JILQAMUR_OK if a unit is ready, which jilqamur_receiver_unit fetches. JILQAMUR_NOTHING if none is,
 * JILQAMUR_PAYLOAD if a packet of the next frame is refused, which is then done with, or JILQAMUR_MEMORY, and the
 * frame stays. */
uint32_t jilqamur_receiver_poll(jilqamur_receiver *receiver);

/* The same, whether or not a packet before the lowest complete unit is missing: for the end of a stream. */
uint32_t jilqamur_receiver_drain(jilqamur_receiver *receiver);

/* Copies the missing numbers, in increasing order, as jilqamur_end_missing those of an end's stream: JILQAMUR_OK; or
 * JILQAMUR_TOO_SMALL, and the buffer is unchanged, while needed is their count; or JILQAMUR_MEMORY. */
uint32_t jilqamur_receiver_missing(jilqamur_receiver *receiver, uint64_t *numbers, size_t len, size_t *needed);

/* Passes all numbers up to this one: what waits of them is dropped, and the frame after it is next. */
uint32_t jilqamur_receiver_pass_to(jilqamur_receiver *receiver, uint64_t number);

/* Gives memory back, as jilqamur_end_keep_within of an end's stream: of the packets that wait those with the highest
 * numbers stay, whose payloads have at most so many bytes together, and a fragment of more is given up. A call each time
 * so many bytes came in keeps the stream within twice as many, whatever a peer sends. */
uint32_t jilqamur_receiver_keep_within(jilqamur_receiver *receiver, size_t bytes);

/* Copies the bytes of the unit that a poll or a drain left last, and tells of it, as jilqamur_end_unit. */
uint32_t jilqamur_receiver_unit(jilqamur_receiver *receiver, uint8_t *buffer, size_t len, size_t *needed,
                                jilqamur_unit *unit);

#ifdef __cplusplus
}
#endif

#endif
