/* Calls of all kinds in random order, with random arguments within the conditions of the header, at handles that are
 * open, closed, or closed again: every call is made, and has to answer what it may, write within its buffers, and write
 * nothing that it doesn't tell. Arguments are how many calls there are, and the seed. */
#include <stdio.h>
#include <stdlib.h>
#include <string.h>

#include "jilqamur.h"

enum { HANDLES = 3, MOST_TEXT = 1 << 14, TEXTS = 6, ANSWERS = JILQAMUR_NO_PAYLOAD + 1, MOST_CALLS = 96 };

static jilqamur_window windows[HANDLES];
static jilqamur_packetizer packetizers[HANDLES];
static jilqamur_depacketizer depacketizers[HANDLES];
static jilqamur_sender senders[HANDLES];
static jilqamur_receiver receivers[HANDLES];
static jilqamur_forwarder forwarders[HANDLES];
static jilqamur_history histories[HANDLES];
static jilqamur_requester requesters[HANDLES];
static jilqamur_end ends[HANDLES];

/* Texts and datagrams that calls left, which later calls are given, changed or not. */
static struct {
    uint8_t bytes[MOST_TEXT];
    size_t len;
} texts[TEXTS], datagrams[TEXTS];

/* How often each call answered what. */
static struct {
    const char *name;
    long answers[ANSWERS];
} calls[MOST_CALLS];

static uint64_t state;

static size_t below(size_t bound)
{
    state = state * 6364136223846793005u + 1442695040888963407u;
    return (size_t)(state >> 33) % bound;
}

static bool flip(void)
{
    return below(2);
}

static void must(bool holds, const char *what)
{
    if (!holds) {
        fprintf(stderr, "fuzz_calls: %s\n", what);
        exit(1);
    }
}

/* Counts an answer of a call. */
static uint32_t heard(const char *name, uint32_t answer)
{
    size_t at = 0;
    while (at < MOST_CALLS && calls[at].name && strcmp(calls[at].name, name) != 0)
        at++;
    must(at < MOST_CALLS && answer < ANSWERS, name);
    calls[at].name = name;
    calls[at].answers[answer]++;
    return answer;
}

#define CALL(name, ...) heard(#name, jilqamur_##name(__VA_ARGS__))
#define ONE(handles) (&(handles)[below(HANDLES)])

/* Bytes in memory of just their length, given back after the step. */
static uint8_t *owned[64];
static size_t owns;

static uint8_t *room(size_t len)
{
    uint8_t *bytes = malloc(len ? len : 1);
    must(bytes != NULL && owns < 64, "no memory");
    memset(bytes, 0xa5, len);
    owned[owns++] = bytes;
    return bytes;
}

static void give_back(void)
{
    while (owns > 0)
        free(owned[--owns]);
}

typedef struct {
    uint8_t *at;
    size_t len;
} view;

static view copy_of(const void *bytes, size_t len)
{
    view made = {room(len), len};
    memcpy(made.at, bytes, len);
    return made;
}

static view word(const char *text)
{
    return copy_of(text, strlen(text));
}

static view random_bytes(size_t most)
{
    size_t len = below(most + 1);
    view made = {room(len), len};
    for (size_t k = 0; k < len; k++)
        made.at[k] = (uint8_t)below(256);
    return made;
}

/* One that is changed at some places, cut, or left as it is. */
static view changed(view given)
{
    for (size_t times = below(8) ? 0 : below(4); times > 0 && given.len > 0; times--)
        given.at[below(given.len)] = (uint8_t)(flip() ? below(256) : (size_t)"\r\n :=/;,0"[below(9)]);
    if (!below(16))
        given.len -= below(given.len + 1);
    return given;
}

static view some_text(void)
{
    size_t at = below(TEXTS);
    return below(16) ? changed(copy_of(texts[at].bytes, texts[at].len)) : random_bytes(200);
}

static view some_datagram(void)
{
    size_t at = below(TEXTS);
    return below(8) ? changed(copy_of(datagrams[at].bytes, datagrams[at].len)) : random_bytes(80);
}

static view some_mid(void)
{
    static const char *const mids[] = {"0", "1", "", "a-b", "\xff", "0123456789abcdef0"};
    return word(mids[below(4) ? below(2) : below(6)]);
}

static view some_codec(void)
{
    static const char *const codecs[] = {"opus", "VP8", "VP9", "AV1", "H264", "H265", "H266", "PCMU", "G722", "CN",
                                         "AMR-WB", "telephone-event", "none", "\xff"};
    return word(codecs[below(4) ? below(2) : below(14)]);
}

/* A sample that some codec takes. */
static view some_sample(void)
{
    static const uint8_t nal[] = {0, 0, 0, 1, 0x67, 1, 2, 0, 0, 1, 0x65, 3, 4, 5, 6, 7};
    return flip() ? random_bytes(below(16) ? 60 : 3000) : copy_of(nal, sizeof nal);
}

static uint32_t some_ssrc(void)
{
    return below(8) ? 44 + (uint32_t)below(4) : (uint32_t)below(1u << 31);
}

static uint64_t some_number(void)
{
    return flip() ? below(100) : flip() ? 65500 + below(100) : ((uint64_t)below(1u << 31) << 33) + below(1u << 31);
}

static size_t some_length(void)
{
    return below(4) ? 2000 : below(100);
}

static jilqamur_format some_format(void)
{
    static const uint32_t rates[] = {90000, 48000, 16000, 8000, 1, 0};
    return (jilqamur_format){.clock_rate = rates[below(8) ? below(4) : below(6)], .has_octet_align = flip(),
                             .octet_align = flip(), .has_max_don_diff = !below(4), .max_don_diff = (uint16_t)below(40)};
}

static jilqamur_values some_values(void)
{
    return (jilqamur_values){
        .has_audio_level = flip(), .audio_level = (int8_t)(-(int)below(128)), .has_voice_activity = flip(),
        .voice_activity = flip(), .has_abs_send_time = flip(), .abs_send_time = some_number(),
        .has_transport_cc = flip(), .transport_cc = (uint16_t)below(65536), .has_video_orientation = flip(),
        .video_orientation = (uint8_t)below(256), .has_play_delay_min = flip(),
        .play_delay_min = (uint16_t)below(65536), .has_play_delay_max = flip(),
        .play_delay_max = (uint16_t)below(65536), .has_video_content_type = flip(),
        .video_content_type = (uint8_t)below(256), .has_capture_time = flip(), .capture_time = some_number(),
        .has_clock_offset = flip(), .clock_offset = -(int64_t)below(1u << 31)};
}

static view some_ssrcs(void)
{
    size_t count = below(3);
    view made = {room(count * 4), count};
    for (size_t k = 0; k < count; k++)
        memcpy(made.at + 4 * k, &(uint32_t){some_ssrc()}, 4);
    return made;
}

#define SSRCS(view) (const uint32_t *)(const void *)(view).at, (view).len

/* What a call that copies must keep: what it wrote fits, and else nothing was written. */
static void copied(uint32_t answer, view buffer, const size_t *told)
{
    size_t needed = *told;
    if (answer == JILQAMUR_OK)
        must(needed <= buffer.len, "more was written than fits");
    else
        for (size_t k = 0; k < buffer.len; k++)
            must(buffer.at[k] == 0xa5, "bytes of a call that copied nothing");
    if (answer == JILQAMUR_TOO_SMALL)
        must(needed > buffer.len, "a buffer that isn't too small");
}

static view some_room(void)
{
    size_t len = some_length();
    return (view){room(len), len};
}

/* Keeps what a call copied for later calls. */
static void keep_text(jilqamur_end *end)
{
    size_t needed = 0, at = below(TEXTS);
    view buffer = {room(MOST_TEXT), MOST_TEXT};
    uint32_t answer = CALL(end_text, end, buffer.at, buffer.len, &needed);
    copied(answer, buffer, &needed);
    if (answer == JILQAMUR_OK && needed > 0)
        memcpy(texts[at].bytes, buffer.at, texts[at].len = needed);
}

static void keep_datagram(uint32_t answer, view buffer, const size_t *needed)
{
    size_t at = below(TEXTS);
    copied(answer, buffer, needed);
    if (answer == JILQAMUR_OK)
        memcpy(datagrams[at].bytes, buffer.at, datagrams[at].len = *needed);
}

static void of_headers(void)
{
    view d = some_datagram(), buffer = some_room();
    jilqamur_header header;
    jilqamur_values values;
    jilqamur_names names;
    jilqamur_packet_info info;
    size_t len = 0;
    jilqamur_extension_ids ids = {.audio_level = (uint8_t)below(18), .mid = (uint8_t)below(18), .rid = (uint8_t)below(17),
                                  .repaired_rid = (uint8_t)below(17), .capture_time = (uint8_t)below(17),
                                  .play_delay = (uint8_t)below(17), .transport_cc = (uint8_t)below(17)};
    if (CALL(header_read, d.at, d.len, &header) == JILQAMUR_OK) {
        must(header.header_len <= d.len, "a header longer than its datagram");
        view rest = copy_of(d.at + header.header_len, d.len - header.header_len);
        if (CALL(payload_unpad, header.has_padding, rest.at, rest.len, &len) == JILQAMUR_OK)
            must(len <= rest.len, "a payload longer than its datagram");
        view codec = some_codec();
        if (CALL(payload_info, codec.at, codec.len, rest.at, rest.len, flip(), &info) == JILQAMUR_OK)
            must(info.spatial_layer < 64 && info.temporal_layer < 8, "a layer that no codec has");
        header.payload_type ^= (uint8_t)(below(8) ? 0 : 128);
        copied(CALL(header_write, &header, buffer.at, buffer.len, &len), buffer, &len);
    }
    if (CALL(header_values, d.at, d.len, &ids, &values, &names) == JILQAMUR_OK)
        must(names.mid_len <= 16 && names.rid_len <= 8 && names.repaired_rid_len <= 8, "a name that is too long");
    must((jilqamur_number_widen(some_number(), 77) & 0xffff) == 77, "other low bits");
    heard("number_widen", JILQAMUR_OK);
}

static void of_lines(void)
{
    view text = some_text(), buffer = some_room();
    size_t needed = 0, number = 0;
    uint32_t fault = 0;
    uint32_t answer = CALL(faulty_line, text.at, text.len, buffer.at, buffer.len, &needed, &number, &fault);
    copied(answer, buffer, &needed);
    if (answer == JILQAMUR_OK || answer == JILQAMUR_TOO_SMALL)
        must(number > 0 && needed <= text.len && fault <= JILQAMUR_FAULT_CONFLICTING_APTS, "no line of the text");
    else
        must(number == 0 && needed == 0 && fault == 0, "a line that isn't told");
}

static void of_windows(void)
{
    jilqamur_window *window = ONE(windows);
    view d = some_datagram();
    uint64_t number = 0;
    switch (below(8)) {
    case 0:
        CALL(window_open, window);
        break;
    case 1:
        if (!below(20))
            CALL(window_close, window);
        break;
    default:
        CALL(window_receive, window, d.at, d.len, &number);
    }
}

static void of_packetizers(void)
{
    jilqamur_packetizer *packetizer = ONE(packetizers);
    jilqamur_packetizer_params params = {.has_picture_id = flip(), .picture_id = (uint16_t)(below(9) ? 7 : 40000),
                                         .for_browsers = flip()};
    jilqamur_format format = some_format();
    view codec = some_codec(), sample = some_sample(), buffer = some_room();
    size_t count = 0, needed = 0;
    bool marker = false;
    switch (below(10)) {
    case 0:
    case 1:
        CALL(packetizer_open, packetizer, &params, &format, codec.at, codec.len);
        break;
    case 2:
        CALL(packetizer_close, packetizer);
        break;
    case 3:
    case 4:
    case 5:
        CALL(packetizer_packetize, packetizer, below(60), sample.at, sample.len, &count);
        break;
    default:
        copied(CALL(packetizer_packet, packetizer, below(4), buffer.at, buffer.len, &needed, &marker), buffer, &needed);
    }
}

static void of_depacketizers(void)
{
    jilqamur_depacketizer *depacketizer = ONE(depacketizers);
    jilqamur_format format = some_format();
    view codec = some_codec(), payload = random_bytes(50), buffer = some_room();
    size_t needed = 0;
    jilqamur_unit unit;
    switch (below(12)) {
    case 0:
    case 1:
        CALL(depacketizer_open, depacketizer, &format, codec.at, codec.len, below(5),
             below(9) ? JILQAMUR_MIN_HELD : below(20000));
        break;
    case 2:
        if (!below(10))
            CALL(depacketizer_close, depacketizer);
        break;
    case 3:
    case 4:
        CALL(depacketizer_pop, depacketizer);
        break;
    case 5:
        CALL(depacketizer_drain, depacketizer);
        break;
    case 6:
        copied(CALL(depacketizer_unit, depacketizer, buffer.at, buffer.len, &needed, &unit), buffer, &needed);
        break;
    default:
        CALL(depacketizer_push, depacketizer, some_number(), (uint32_t)below(1000), flip(), payload.at, payload.len);
    }
}

static void of_senders(void)
{
    jilqamur_sender *sender = ONE(senders);
    jilqamur_sender_params params = {.ssrc = some_ssrc(), .payload_type = (uint8_t)(below(9) ? 111 : below(256)),
                                     .first = some_number(), .mtu = below(9) ? 40 : below(3), .limit = below(200),
                                     .has_picture_id = flip(), .picture_id = 7, .for_browsers = flip()};
    jilqamur_format format = some_format();
    view codec = some_codec(), sample = some_sample(), buffer = some_room();
    size_t count = 0, needed = 0;
    switch (below(8)) {
    case 0:
    case 1:
        CALL(sender_open, sender, &params, &format, codec.at, codec.len);
        break;
    case 2:
        CALL(sender_close, sender);
        break;
    case 3:
        needed = 0;
        keep_datagram(CALL(sender_datagram, sender, below(3), buffer.at, buffer.len, &needed), buffer, &needed);
        break;
    default:
        CALL(sender_push_sample, sender, some_number(), sample.at, sample.len, &count);
    }
}

static void of_receivers(void)
{
    jilqamur_receiver *receiver = ONE(receivers);
    jilqamur_format format = some_format();
    view codec = some_codec(), payload = random_bytes(50), buffer = some_room();
    size_t needed = 0;
    uint64_t number = 0;
    jilqamur_unit unit;
    switch (below(12)) {
    case 0:
    case 1:
        CALL(receiver_open, receiver, &format, codec.at, codec.len, below(5), below(9) ? JILQAMUR_MIN_HELD : below(20000));
        break;
    case 2:
        if (!below(10))
            CALL(receiver_close, receiver);
        break;
    case 3:
    case 4:
        CALL(receiver_poll, receiver);
        break;
    case 5:
        CALL(receiver_drain, receiver);
        break;
    case 6:
        copied(CALL(receiver_unit, receiver, buffer.at, buffer.len, &needed, &unit), buffer, &needed);
        break;
    case 7:
        CALL(receiver_pass_to, receiver, below(70000));
        CALL(receiver_keep_within, receiver, below(100));
        break;
    case 8: {
        uint64_t numbers[1023];
        CALL(receiver_missing, receiver, numbers, below(1024), &needed);
        break;
    }
    default:
        CALL(receiver_push, receiver, (uint16_t)below(200), (uint32_t)below(1000), flip(), payload.at, payload.len,
             &number);
    }
}

static void of_forwarders(void)
{
    jilqamur_forwarder *forwarder = ONE(forwarders);
    jilqamur_placed placed;
    uint64_t next = 0, source = below(3), number = some_number();
    uint32_t time = (uint32_t)below(1u << 31);
    switch (below(16)) {
    case 0:
        CALL(forwarder_open, forwarder, some_number());
        break;
    case 1:
        if (!below(10))
            CALL(forwarder_close, forwarder);
        break;
    case 2:
        CALL(forwarder_switch, forwarder, source, number, time, (uint32_t)below(1000));
        break;
    case 3:
        CALL(forwarder_skip_to, forwarder, number);
        break;
    case 4:
        CALL(forwarder_end_at, forwarder, number);
        break;
    case 5:
        CALL(forwarder_next, forwarder, &next);
        break;
    case 6:
    case 7:
        CALL(forwarder_place, forwarder, source, number, time, &placed);
        break;
    default:
        if (!below(4))
            CALL(forwarder_pass_empty, forwarder, source, number);
        else
            CALL(forwarder_forward, forwarder, source, number, time, below(2), &placed);
    }
}

static void of_histories(void)
{
    jilqamur_history *history = ONE(histories);
    view datagram = random_bytes(50), buffer = some_room();
    size_t needed = 0;
    switch (below(8)) {
    case 0:
        CALL(history_open, history, (uint32_t)below(6), (uint32_t)below(100));
        break;
    case 1:
        if (!below(10))
            CALL(history_close, history);
        break;
    case 2:
    case 3:
        copied(CALL(history_asked, history, (uint16_t)below(200), buffer.at, buffer.len, &needed), buffer, &needed);
        break;
    default:
        CALL(history_keep, history, below(200), datagram.at, datagram.len);
    }
}

static void of_requesters(void)
{
    jilqamur_requester *requester = ONE(requesters);
    uint64_t missing[8], numbers[8], at = below(100);
    size_t count = below(9), most = below(4) ? 8 : below(9), needed = 0;
    switch (below(6)) {
    case 0:
        CALL(requester_open, requester, (uint32_t)below(4), below(3));
        break;
    case 1:
        if (!below(10))
            CALL(requester_close, requester);
        break;
    default:
        for (size_t k = 0; k < count; k++)
            missing[k] = at += below(40) ? 1 + below(3) : 0;
        if (CALL(requester_ask, requester, missing, count, below(1000), below(5), numbers, most, &needed) == JILQAMUR_OK)
            must(needed <= count, "more is asked for than is missing");
    }
}

static void of_drafts(jilqamur_end *end)
{
    jilqamur_row row = {.payload_type = (uint8_t)(below(9) ? 96 + below(30) : below(256)), .has_resend = !below(4),
                        .resend = (uint8_t)(96 + below(30)), .has_red = !below(9), .red = (uint8_t)(96 + below(30)),
                        .clock_rate = (uint32_t)(below(9) ? 90000 : below(2) * 8000), .has_channels = !below(4),
                        .channels = 2};
    view codec = some_codec(), mid = some_mid(), ssrcs = some_ssrcs(), format = word(below(4) ? "" : "apt=96;x"),
         uri = word(below(9) ? "urn:ietf:params:rtp-hdrext:sdes:mid" : "\xff");
    switch (below(10)) {
    case 0:
        CALL(end_row, end, &row, codec.at, codec.len, format.at, format.len);
        break;
    case 1:
    case 2:
        CALL(end_default_rows, end);
        break;
    case 3:
        CALL(end_extension, end, (uint8_t)below(19), uri.at, uri.len);
        break;
    case 4:
        CALL(end_make, end, some_number());
        break;
    case 5:
        CALL(end_section_repair, end, some_ssrc(), some_ssrc());
        break;
    case 6:
    case 7:
        CALL(end_request, end, below(4) > 0, flip(), flip(), SSRCS(ssrcs));
        break;
    default:
        CALL(end_section, end, mid.at, mid.len, flip(), flip(), flip(), SSRCS(ssrcs));
    }
}

static void of_texts(jilqamur_end *end)
{
    view text = some_text(), ufrag = word(below(9) ? "abcd" : "a b"), hash = word("sha-256"), digest = random_bytes(32),
         password = word(below(9) ? "passwordpasswordpassword" : "short");
    switch (below(10)) {
    case 0:
    case 1:
        if (CALL(end_offer, end) == JILQAMUR_OK)
            keep_text(end);
        break;
    case 2:
    case 3:
        if (CALL(end_answer, end, text.at, text.len) == JILQAMUR_OK)
            keep_text(end);
        break;
    case 4:
        CALL(end_accept, end, text.at, text.len);
        break;
    case 5:
        CALL(end_withdraw, end);
        break;
    case 6:
        if (CALL(end_answer_browser, end, text.at, text.len) == JILQAMUR_OK)
            keep_text(end);
        break;
    case 7:
        CALL(end_accept_browser, end, text.at, text.len);
        break;
    case 8:
        if (!below(3))
            CALL(end_take_types, end, text.at, text.len);
        if (CALL(end_for_browser, end, text.at, text.len, (uint8_t)below(4), flip(), ufrag.at, ufrag.len, password.at,
                 password.len, hash.at, hash.len, digest.at, digest.len) == JILQAMUR_OK)
            keep_text(end);
        break;
    default:
        keep_text(end);
    }
}

static void of_tales(jilqamur_end *end)
{
    view buffer = some_room();
    size_t needed = 0;
    uint32_t ssrc = 0;
    jilqamur_remote remote;
    jilqamur_section section;
    jilqamur_row row;
    switch (below(6)) {
    case 0:
        CALL(end_remote, end, &remote);
        break;
    case 1:
        copied(CALL(end_remote_text, end, (uint8_t)below(5), buffer.at, buffer.len, &needed), buffer, &needed);
        break;
    case 2:
        copied(CALL(end_remote_candidate, end, below(3), buffer.at, buffer.len, &needed), buffer, &needed);
        break;
    case 3:
        copied(CALL(end_agreed_section, end, below(3), buffer.at, buffer.len, &needed, &section), buffer, &needed);
        break;
    case 4:
        copied(CALL(end_agreed_row, end, below(3), below(9), buffer.at, buffer.len, &needed, &row), buffer, &needed);
        break;
    default:
        CALL(end_agreed_ssrc, end, below(3), below(3), &ssrc);
    }
}

static void of_sending(jilqamur_end *end)
{
    jilqamur_stream params = {.first = below(40000), .mtu = below(60), .limit = 20 + below(100), .has_red = !below(9),
                              .has_picture_id = flip(), .picture_id = 7, .for_browsers = flip()};
    jilqamur_values values = some_values();
    view mid = some_mid(), sample = some_sample(), d = some_datagram(), buffer = some_room(), distances = random_bytes(2);
    size_t stream = below(9) ? below(3) : below(99), count = 0, needed = 0;
    switch (below(12)) {
    case 0:
    case 1:
        CALL(end_open_sender, end, mid.at, mid.len, some_ssrc(), (uint8_t)(96 + below(30)), &params, distances.at,
             distances.len, &count);
        break;
    case 2:
        if (CALL(end_repair, end, stream, d.at, d.len) == JILQAMUR_OK)
            keep_datagram(CALL(end_datagram, end, 0, buffer.at, buffer.len, &needed), buffer, &needed);
        break;
    case 3:
    case 4:
        CALL(end_send_packet, end, stream, some_number(), (uint32_t)below(1000), flip(), &values, mid.at, mid.len,
             sample.at, sample.len);
        break;
    case 5:
    case 6:
    case 7:
        keep_datagram(CALL(end_datagram, end, below(2), buffer.at, buffer.len, &needed), buffer, &needed);
        break;
    default:
        CALL(end_push_sample, end, stream, below(100000), &values, mid.at, mid.len, sample.at, sample.len, &count);
    }
}

static void of_receiving(jilqamur_end *end)
{
    view mid = some_mid(), d = some_datagram(), buffer = some_room();
    size_t stream = below(9) ? below(3) : below(99), at = 99, needed = 0;
    uint64_t number = 0;
    jilqamur_arrival arrival;
    jilqamur_values values;
    jilqamur_unit unit;
    switch (below(12)) {
    case 0:
    case 1:
        CALL(end_open_receiver, end, mid.at, mid.len, some_ssrc(), (uint8_t)(96 + below(30)), below(4),
             below(9) ? JILQAMUR_MIN_HELD : below(20000), &at);
        if (!below(4))
            CALL(end_open_unsignalled, end, mid.at, mid.len, some_ssrc(), (uint8_t)(96 + below(30)), below(4),
                 below(9) ? JILQAMUR_MIN_HELD : below(20000), &at);
        break;
    case 2:
    case 3:
        CALL(end_poll, end, stream);
        break;
    case 4:
        CALL(end_drain, end, stream);
        break;
    case 5:
        copied(CALL(end_unit, end, buffer.at, buffer.len, &needed, &unit), buffer, &needed);
        break;
    case 6:
        CALL(end_values, end, &values);
        break;
    case 7:
    case 8:
        if (CALL(end_arrival, end, d.at, d.len, &at, &arrival, &values) == JILQAMUR_OK)
            must(arrival.start <= arrival.end && arrival.end <= d.len, "a payload outside of its datagram");
        break;
    case 9:
        CALL(end_take_number, end, stream, (uint16_t)below(65536), &number);
        break;
    default:
        CALL(end_receive, end, d.at, d.len, &at, &number);
    }
}

static void of_numbers(jilqamur_end *end)
{
    size_t stream = below(9) ? below(3) : below(99), count = 0;
    size_t len = flip() ? 1023 : below(9);
    uint64_t number = 0, *missing = (uint64_t *)(void *)room(len * sizeof *missing);
    switch (below(10)) {
    case 0:
    case 1:
    case 2:
        if (CALL(end_missing, end, stream, missing, len, &count) == JILQAMUR_OK)
            must(count <= len && count <= 1023, "more numbers than there is room");
        break;
    case 3:
    case 4:
        CALL(end_is_passed, end, stream, some_number());
        break;
    case 5:
        number = below(9) ? below(40) : some_number();
        CALL(end_pass_to, end, stream, number);
        CALL(end_pass_empty, end, stream, number + below(3));
        if (!below(3))
            CALL(end_keep_within, end, stream, below(200));
        break;
    case 6:
    case 7:
        CALL(end_next_number, end, stream, &number);
        break;
    case 8:
        CALL(end_skip_to, end, stream, below(9) ? number + below(60) : some_number());
        break;
    default:
        if (!below(20))
            CALL(end_close_sender, end, stream);
        if (!below(4))
            CALL(end_close_receiver, end, stream);
    }
}

/* Two ends that agree, so that their streams have something to do: the rest is left to chance. */
static void agree(void)
{
    jilqamur_stream params = {.first = 10, .mtu = 40, .limit = 200};
    size_t stream = 0, len = 0;
    static uint8_t text[MOST_TEXT];
    for (size_t k = 0; k < 2; k++) {
        view ssrc = {room(4), 1};
        memcpy(ssrc.at, &(uint32_t){44 + (uint32_t)k}, 4);
        CALL(end_close, &ends[k]);
        CALL(end_open, &ends[k]);
        CALL(end_default_rows, &ends[k]);
        CALL(end_extension, &ends[k], 3, JILQAMUR_TEXT("urn:ietf:params:rtp-hdrext:sdes:mid"));
        CALL(end_make, &ends[k], k);
        CALL(end_section_repair, &ends[k], 44 + (uint32_t)k, 46 + (uint32_t)k);
        CALL(end_section, &ends[k], JILQAMUR_TEXT("0"), true, true, true, SSRCS(ssrc));
    }
    CALL(end_offer, &ends[0]);
    CALL(end_text, &ends[0], text, sizeof text, &len);
    memcpy(texts[0].bytes, text, texts[0].len = len);
    CALL(end_answer, &ends[1], text, len);
    CALL(end_text, &ends[1], text, sizeof text, &len);
    memcpy(texts[3].bytes, text, texts[3].len = len);
    CALL(end_accept, &ends[0], text, len);
    CALL(end_open_sender, &ends[0], JILQAMUR_TEXT("0"), 44, 96, &params, JILQAMUR_TEXT(""), &stream);
    CALL(end_open_receiver, &ends[1], JILQAMUR_TEXT("0"), 44, 96, 1, JILQAMUR_MIN_HELD, &stream);
}

/* A browser's offer and answer between the two, as the texts that later calls change. */
static void meet(void)
{
    static const char candidate[] = "a=candidate:1 1 udp 1 192.0.2.1 9 typ host\r\n";
    static const uint8_t digest[32];
    static uint8_t text[MOST_TEXT];
    size_t len = 0;
    for (size_t turn = 0; turn < 2; turn++) {
        jilqamur_end *end = &ends[turn];
        CALL(end_text, end, text, sizeof text, &len);
        CALL(end_for_browser, end, text, len, turn ? JILQAMUR_ACTIVE : JILQAMUR_ACTPASS, false, JILQAMUR_TEXT("abcd"),
             JILQAMUR_TEXT("passwordpasswordpassword"), JILQAMUR_TEXT("sha-256"), digest, sizeof digest);
        CALL(end_text, end, text, sizeof text, &len);
        memcpy(text + len, candidate, strlen(candidate));
        len += strlen(candidate);
        memcpy(texts[1 + turn].bytes, text, texts[1 + turn].len = len);
        if (turn == 0) {
            CALL(end_request, &ends[1], true, true, true, (const uint32_t[]){45}, 1);
            CALL(end_answer_browser, &ends[1], text, len);
        } else {
            CALL(end_accept_browser, &ends[0], text, len);
        }
    }
}

static void of_ends(void)
{
    jilqamur_end *end = ONE(ends);
    switch (below(16)) {
    case 0:
        if (!below(4))
            CALL(end_open, end);
        break;
    case 1:
        if (!below(60))
            CALL(end_close, end);
        break;
    case 2:
        if (!below(30))
            agree();
        break;
    case 3:
        if (!below(60)) {
            agree();
            CALL(end_section, &ends[0], JILQAMUR_TEXT("0"), true, true, true, (const uint32_t[]){44}, 1);
            CALL(end_offer, &ends[0]);
            meet();
        }
        break;
    case 4:
    case 5:
        of_drafts(end);
        break;
    case 6:
        of_texts(end);
        break;
    case 7:
        of_tales(end);
        break;
    case 8:
    case 9:
    case 10:
    case 11:
        of_sending(end);
        break;
    case 12:
        of_numbers(end);
        break;
    default:
        of_receiving(end);
    }
}

static void step(void)
{
    static void (*const kinds[])(void) = {of_headers, of_lines, of_windows, of_packetizers, of_depacketizers,
                                          of_senders, of_receivers, of_forwarders, of_histories, of_requesters, of_ends,
                                          of_ends, of_ends, of_ends, of_ends};
    kinds[below(sizeof kinds / sizeof kinds[0])]();
    give_back();
}

static void close_all(void)
{
    for (size_t k = 0; k < HANDLES; k++) {
        CALL(window_close, &windows[k]);
        CALL(packetizer_close, &packetizers[k]);
        CALL(depacketizer_close, &depacketizers[k]);
        CALL(sender_close, &senders[k]);
        CALL(receiver_close, &receivers[k]);
        CALL(forwarder_close, &forwarders[k]);
        CALL(history_close, &histories[k]);
        CALL(requester_close, &requesters[k]);
        CALL(end_close, &ends[k]);
    }
}

int main(int argc, char **argv)
{
    if (argc < 3) {
        fprintf(stderr, "usage: fuzz_calls COUNT SEED\n");
        return 2;
    }
    long count = strtol(argv[1], NULL, 10), made = 0, done = 0;
    state = strtoull(argv[2], NULL, 10);
    for (long i = 0; i < count; i++)
        step();
    close_all();
    close_all();
    for (size_t at = 0; at < MOST_CALLS && calls[at].name; at++) {
        made++;
        done += calls[at].answers[JILQAMUR_OK] > 0;
        if (calls[at].answers[JILQAMUR_OK] == 0)
            fprintf(stderr, "fuzz_calls: %s never answered that it was done\n", calls[at].name);
    }
    printf("%ld steps, %ld calls, each done: %s\n", count, made, made == done ? "yes" : "no");
    return made == MOST_CALLS && made == done ? 0 : 1;
}
