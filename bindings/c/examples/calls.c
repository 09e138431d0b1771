/* Each call with the values that it answers: what it writes, and why it refuses. What this prints is what
 * bindings/rust/examples/calls.rs prints, word for word. */
#include "calls.h"

static const uint8_t plain[] = {0x90, 0xe0, 0x00, 0x07, 0, 0, 0x03, 0xc0, 0, 0, 0, 0x2c, 0xbe, 0xde, 0, 2,
                                0x10, 0x9e, 0x31, 'a', 'v', 0x50, 'h', 0,  1, 2, 3, 4};

static void say_header(const uint8_t *datagram, size_t len)
{
    jilqamur_header h;
    uint32_t answer = jilqamur_header_read(datagram, len, &h);
    say("header", answer);
    if (answer != JILQAMUR_OK)
        return;
    printf("padding %d, extension %d, marker %d, type %u, number %u, time %" PRIu32 ", ssrc %" PRIu32
           ", length %zu, sources",
           h.has_padding, h.has_extension, h.marker, h.payload_type, h.sequence_number, h.timestamp, h.ssrc,
           h.header_len);
    for (uint32_t i = 0; i < h.csrc_count; i++)
        printf(" %" PRIu32, h.csrc[i]);
    printf("\n");
}

static void write_header(const jilqamur_header *h, size_t room)
{
    size_t needed = 0;
    memset(bytes, 0, sizeof bytes);
    uint32_t answer = jilqamur_header_write(h, bytes, room, &needed);
    say("write", answer);
    if (answer == JILQAMUR_OK || answer == JILQAMUR_TOO_SMALL)
        printf("needed %zu\n", needed);
    hex("buffer", bytes, 24);
}

static void headers(void)
{
    static const uint8_t sources[] = {0xa2, 0x60, 0xff, 0xff, 0, 0, 0, 9, 0, 0, 0, 8, 0, 0, 0, 1, 0, 0, 0, 2};
    static const uint8_t padded[] = {9, 8, 0, 0, 3};
    jilqamur_header h = {.has_padding = true, .marker = true, .payload_type = 96, .sequence_number = 258,
                         .timestamp = 3, .ssrc = 0x01020304, .csrc_count = 1, .csrc = {7}};
    size_t left = 0;
    say_header(plain, sizeof plain);
    say_header(sources, sizeof sources);
    say_header(sources, sizeof sources - 1);
    write_header(&h, 20);
    write_header(&h, 15);
    h.payload_type = 128;
    write_header(&h, 20);
    say("unpad", jilqamur_payload_unpad(true, padded, sizeof padded, &left));
    printf("left %zu\n", left);
    say("unpad", jilqamur_payload_unpad(false, padded, sizeof padded, &left));
    printf("left %zu\n", left);
    say("unpad", jilqamur_payload_unpad(true, padded, sizeof padded - 1, &left));
    printf("widened %" PRIu64 " %" PRIu64 "\n", jilqamur_number_widen(65534, 3), jilqamur_number_widen(65540, 65535));
}

static void say_names(const uint8_t *datagram, size_t len, const jilqamur_extension_ids *ids)
{
    jilqamur_values values;
    jilqamur_names n;
    uint32_t answer = jilqamur_header_values(datagram, len, ids, &values, &n);
    say("names", answer);
    if (answer != JILQAMUR_OK)
        return;
    say_values(&values);
    printf("mid %.*s, rid %.*s, repaired %.*s\n", n.has_mid ? n.mid_len : 1, n.has_mid ? (const char *)n.mid : "-",
           n.has_rid ? n.rid_len : 1, n.has_rid ? (const char *)n.rid : "-", n.has_repaired_rid ? n.repaired_rid_len : 1,
           n.has_repaired_rid ? (const char *)n.repaired_rid : "-");
    printf("rest of the names %d\n", n.mid[15] + n.rid[7] + n.repaired_rid[7]);
}

static void names(void)
{
    jilqamur_extension_ids ids = {.audio_level = 1, .mid = 3, .rid = 5};
    say_names(plain, sizeof plain, &ids);
    ids = (jilqamur_extension_ids){.rid = 3, .repaired_rid = 5};
    say_names(plain, sizeof plain, &ids);
    say_names(plain, 11, &ids);
    ids.mid = 17;
    say_names(plain, sizeof plain, &ids);
}

static void say_info(const char *codec, const uint8_t *payload, size_t len, bool marker)
{
    jilqamur_packet_info info = {0};
    say("info", jilqamur_payload_info((const uint8_t *)codec, strlen(codec), payload, len, marker, &info));
    printf("head %d, tail %d, key %d, spatial %d, temporal %d\n", info.is_head, info.is_tail, info.shows_key_frame,
           info.has_spatial_layer ? info.spatial_layer : -1, info.has_temporal_layer ? info.temporal_layer : -1);
}

/* VP8's TID 2 of a key frame, VP9's TID 5 and SID 1, H.265's layer 3 and TID 1 of a fragment that goes on. */
static void infos(void)
{
    static const uint8_t vp8[] = {0x90, 0x20, 0x80, 0x10}, vp9[] = {0x28, 0xa3, 0, 1}, h265[] = {0x62, 0x1a, 0x13, 7};
    say_info("VP8", vp8, sizeof vp8, true);
    say_info("VP9", vp9, sizeof vp9, false);
    say_info("H265", h265, sizeof h265, true);
    say_info("opus", vp8, sizeof vp8, false);
    say_info("rtx", vp8, sizeof vp8, false);
}

static void say_line(const char *text)
{
    size_t needed = 0, number = 0;
    uint32_t fault = 0;
    uint32_t answer = jilqamur_faulty_line((const uint8_t *)text, strlen(text), bytes, sizeof bytes, &needed, &number,
                                           &fault);
    if (answer == JILQAMUR_NOTHING) {
        printf("line: none\n");
        return;
    }
    check(answer);
    printf("line %zu: %s: %.*s\n", number, jilqamur_fault_text(fault), (int)needed, (const char *)bytes);
}

#define HEAD "v=0\r\no=- 1 2 IN IP4 0.0.0.0\r\ns=-\r\nt=0 0\r\n"
#define SECTION "m=audio 9 UDP/TLS/RTP/SAVPF 111\r\na=mid:0\r\na=rtpmap:111 opus/48000/2\r\n"

static void lines(void)
{
    say_line(HEAD SECTION "a=sendrecv\r\n");
    say_line("v=1\r\n");
    say_line(HEAD SECTION "a=sendrecv\r\nx=1\r\ny=2\r\n");
    say_line(HEAD SECTION);
}

static void window(void)
{
    static const uint8_t numbers[][2] = {{0xff, 0xff}, {0, 1}, {0xff, 0xff}};
    uint8_t datagram[12] = {0x80};
    uint64_t number = 0;
    jilqamur_window window = JILQAMUR_WINDOW_CLOSED;
    check(jilqamur_window_open(&window));
    for (size_t i = 0; i < 3; i++) {
        memcpy(datagram + 2, numbers[i], 2);
        say("window", jilqamur_window_receive(&window, datagram, sizeof datagram, &number));
        printf("number %" PRIu64 "\n", number);
    }
    say("window", jilqamur_window_receive(&window, datagram, 11, &number));
    check(jilqamur_window_close(&window));
}

static const jilqamur_format video = {.clock_rate = 90000};

static void packetize(jilqamur_packetizer *packetizer, size_t mtu, const uint8_t *sample, size_t len)
{
    size_t count = 0, needed = 0;
    bool marker = false;
    say("packetize", jilqamur_packetizer_packetize(packetizer, mtu, sample, len, &count));
    printf("%zu packets\n", count);
    for (size_t i = 0; i < count; i++) {
        check(jilqamur_packetizer_packet(packetizer, i, bytes, sizeof bytes, &needed, &marker));
        printf("marker %d", marker);
        hex("", bytes, needed);
    }
}

static void packetizers(void)
{
    static const uint8_t frame[] = {0x10, 1, 2, 3, 4, 5, 6, 7, 8, 9};
    jilqamur_packetizer_params params = {.has_picture_id = true, .picture_id = 300};
    jilqamur_packetizer packetizer = JILQAMUR_PACKETIZER_CLOSED;
    check(jilqamur_packetizer_open(&packetizer, &params, &video, JILQAMUR_TEXT("vp8")));
    packetize(&packetizer, 9, frame, sizeof frame);
    packetize(&packetizer, 20, frame, 4);
    check(jilqamur_packetizer_close(&packetizer));
    check(jilqamur_packetizer_open(&packetizer, &params, &video, JILQAMUR_TEXT("AMR-WB")));
    packetize(&packetizer, 20, frame, 1);
    check(jilqamur_packetizer_close(&packetizer));
    params.picture_id = 32768;
    say("packetizer", jilqamur_packetizer_open(&packetizer, &params, &video, JILQAMUR_TEXT("VP8")));
}

static void pop(jilqamur_depacketizer *depacketizer, bool drains)
{
    size_t needed = 0;
    jilqamur_unit unit;
    uint32_t answer = drains ? jilqamur_depacketizer_drain(depacketizer) : jilqamur_depacketizer_pop(depacketizer);
    if (answer == JILQAMUR_NOTHING)
        printf("%s: no unit\n", drains ? "drain" : "pop");
    else
        say(drains ? "drain" : "pop", answer);
    if (answer != JILQAMUR_OK)
        return;
    check(jilqamur_depacketizer_unit(depacketizer, bytes, sizeof bytes, &needed, &unit));
    say_unit(&unit, needed);
}

static void depacketizers(void)
{
    static const uint8_t first[] = {0x90, 0xc0, 0x81, 0x2c, 6, 0x10, 1, 2}, rest[] = {0x80, 0xc0, 0x81, 0x2c, 6, 3, 4};
    static const uint8_t event[] = {5, 0x8a, 0x03, 0x20};
    jilqamur_format tones = {.clock_rate = 8000};
    jilqamur_depacketizer depacketizer = JILQAMUR_DEPACKETIZER_CLOSED;
    check(jilqamur_depacketizer_open(&depacketizer, &video, JILQAMUR_TEXT("VP8"), 2, JILQAMUR_MIN_HELD));
    check(jilqamur_depacketizer_push(&depacketizer, 70001, 9000, true, rest, sizeof rest));
    pop(&depacketizer, false);
    check(jilqamur_depacketizer_push(&depacketizer, 70000, 9000, false, first, sizeof first));
    pop(&depacketizer, false);
    check(jilqamur_depacketizer_push(&depacketizer, 70003, 12000, true, first, sizeof first));
    pop(&depacketizer, false);
    pop(&depacketizer, true);
    check(jilqamur_depacketizer_push(&depacketizer, 70004, 15000, true, first, 1));
    pop(&depacketizer, false);
    check(jilqamur_depacketizer_close(&depacketizer));
    check(jilqamur_depacketizer_open(&depacketizer, &tones, JILQAMUR_TEXT("telephone-event"), 0, JILQAMUR_MIN_HELD));
    check(jilqamur_depacketizer_push(&depacketizer, 1, 160, true, event, sizeof event));
    pop(&depacketizer, false);
    check(jilqamur_depacketizer_close(&depacketizer));
    say("depacketizer", jilqamur_depacketizer_open(&depacketizer, &video, JILQAMUR_TEXT("VP8"), 2, 4095));
}

static void senders(void)
{
    static const uint8_t sample[] = {0xf8, 1, 2, 3};
    jilqamur_format opus = {.clock_rate = 48000};
    jilqamur_sender_params params = {.ssrc = 44, .payload_type = 111, .first = 65535, .mtu = 8, .limit = 20};
    jilqamur_sender sender = JILQAMUR_SENDER_CLOSED;
    size_t count = 0, needed = 0;
    check(jilqamur_sender_open(&sender, &params, &opus, JILQAMUR_TEXT("opus")));
    for (uint64_t k = 0; k < 2; k++) {
        say("sample", jilqamur_sender_push_sample(&sender, 960 * k, sample, sizeof sample, &count));
        for (size_t i = 0; i < count; i++) {
            check(jilqamur_sender_datagram(&sender, i, bytes, sizeof bytes, &needed));
            hex("datagram", bytes, needed);
        }
    }
    say("sample", jilqamur_sender_push_sample(&sender, 0, plain, sizeof plain, &count));
    check(jilqamur_sender_close(&sender));
    params.payload_type = 128;
    say("sender", jilqamur_sender_open(&sender, &params, &opus, JILQAMUR_TEXT("opus")));
}

static void poll(jilqamur_receiver *receiver, bool drains)
{
    size_t needed = 0;
    jilqamur_unit unit;
    uint32_t answer = drains ? jilqamur_receiver_drain(receiver) : jilqamur_receiver_poll(receiver);
    if (answer == JILQAMUR_NOTHING)
        printf("%s: no unit\n", drains ? "drain" : "poll");
    else
        say(drains ? "drain" : "poll", answer);
    if (answer != JILQAMUR_OK)
        return;
    check(jilqamur_receiver_unit(receiver, bytes, sizeof bytes, &needed, &unit));
    say_unit(&unit, needed);
}

static void say_missing(jilqamur_receiver *receiver)
{
    uint64_t numbers[1023] = {0};
    size_t needed = 0;
    check(jilqamur_receiver_missing(receiver, numbers, 1023, &needed));
    printf("missing %zu %" PRIu64 "\n", needed, numbers[0]);
}

static void receivers(void)
{
    static const uint16_t numbers[] = {65535, 1, 1};
    static const uint8_t payload[] = {0x10, 0x11, 7};
    jilqamur_receiver receiver = JILQAMUR_RECEIVER_CLOSED;
    uint64_t number = 0;
    check(jilqamur_receiver_open(&receiver, &video, JILQAMUR_TEXT("VP8"), 3, JILQAMUR_MIN_HELD));
    for (size_t i = 0; i < 3; i++) {
        uint32_t answer = jilqamur_receiver_push(&receiver, numbers[i], 90 * (uint32_t)i, true, payload, 3, &number);
        if (answer == JILQAMUR_REFUSED)
            printf("push: refused\n");
        else
            say("push", answer);
        if (answer == JILQAMUR_OK)
            printf("number %" PRIu64 "\n", number);
    }
    poll(&receiver, false);
    poll(&receiver, false);
    poll(&receiver, true);
    check(jilqamur_receiver_push(&receiver, 2, 270, true, payload, 1, &number));
    poll(&receiver, false);
    check(jilqamur_receiver_push(&receiver, 4, 360, true, payload, 3, &number));
    say_missing(&receiver);
    check(jilqamur_receiver_keep_within(&receiver, 2));
    say_missing(&receiver);
    check(jilqamur_receiver_push(&receiver, 6, 450, true, payload, 3, &number));
    say_missing(&receiver);
    check(jilqamur_receiver_pass_to(&receiver, 65541));
    poll(&receiver, false);
    check(jilqamur_receiver_close(&receiver));
    say("receiver", jilqamur_receiver_open(&receiver, &video, JILQAMUR_TEXT("VP8"), 3, 16385));
}

static void forwarder(void)
{
    jilqamur_forwarder forwarder = JILQAMUR_FORWARDER_CLOSED;
    jilqamur_placed placed;
    uint64_t next = 0;
    check(jilqamur_forwarder_open(&forwarder, 1000));
    check(jilqamur_forwarder_switch(&forwarder, 7, 500, 90000, 3000));
    check(jilqamur_forwarder_forward(&forwarder, 7, 502, 93000, true, &placed));
    printf("forwarded %" PRIu64 " at %" PRIu32 "\n", placed.number, placed.timestamp);
    check(jilqamur_forwarder_place(&forwarder, 7, 504, 96000, &placed));
    printf("placed %" PRIu64 " at %" PRIu32 "\n", placed.number, placed.timestamp);
    check(jilqamur_forwarder_next(&forwarder, &next));
    printf("next %" PRIu64 "\n", next);
    check(jilqamur_forwarder_skip_to(&forwarder, 510));
    check(jilqamur_forwarder_forward(&forwarder, 7, 511, 99000, true, &placed));
    printf("forwarded %" PRIu64 " at %" PRIu32 "\n", placed.number, placed.timestamp);
    check(jilqamur_forwarder_end_at(&forwarder, 514));
    check(jilqamur_forwarder_next(&forwarder, &next));
    printf("next %" PRIu64 "\n", next);
    check(jilqamur_forwarder_switch(&forwarder, 8, 20, 4294967295, 0));
    check(jilqamur_forwarder_forward(&forwarder, 8, 20, 2, false, &placed));
    printf("forwarded %" PRIu64 " at %" PRIu32 "\n", placed.number, placed.timestamp);
    printf("gone %d\n", jilqamur_forwarder_place(&forwarder, 9, 1, 1, &placed) == JILQAMUR_NOTHING);
    printf("gone %d\n", jilqamur_forwarder_forward(&forwarder, 7, 505, 1, true, &placed) == JILQAMUR_NOTHING);
    printf("passed %d %d\n", jilqamur_forwarder_pass_empty(&forwarder, 8, 21) == JILQAMUR_OK,
           jilqamur_forwarder_pass_empty(&forwarder, 8, 24) == JILQAMUR_OK);
    check(jilqamur_forwarder_forward(&forwarder, 8, 22, 5, false, &placed));
    printf("forwarded %" PRIu64 " at %" PRIu32 "\n", placed.number, placed.timestamp);
    check(jilqamur_forwarder_switch(&forwarder, 7, 600, 1, 9));
    check(jilqamur_forwarder_forward(&forwarder, 7, 600, 1, true, &placed));
    printf("forwarded %" PRIu64 " at %" PRIu32 "\n", placed.number, placed.timestamp);
    check(jilqamur_forwarder_close(&forwarder));
}

static void say_asked_for(jilqamur_history *history, uint16_t low)
{
    size_t needed = 0;
    uint32_t answer = jilqamur_history_asked(history, low, bytes, MOST, &needed);
    if (answer == JILQAMUR_OK)
        hex("sent again", bytes, needed);
    else
        say("sent again", answer);
}

static void histories(void)
{
    static const uint8_t datagram[] = {1, 2, 3, 4, 5, 6, 7, 8, 9};
    static const size_t sizes[] = {5, 1, 7, 8, 9};
    jilqamur_history history = JILQAMUR_HISTORY_CLOSED, few = JILQAMUR_HISTORY_CLOSED;
    size_t needed = 0;
    check(jilqamur_history_open(&history, 4, 24));
    check(jilqamur_history_open(&few, 2, 1000));
    for (uint64_t k = 0; k < 5; k++) {
        check(jilqamur_history_keep(&history, 65533 + k, datagram, sizes[k]));
        check(jilqamur_history_keep(&few, 65533 + k, datagram, sizes[k]));
    }
    check(jilqamur_history_keep(&history, 65536, datagram + 1, 2));
    check(jilqamur_history_keep(&history, 65534, datagram, 0));
    for (size_t k = 0; k < 5; k++) {
        say_asked_for(&history, (uint16_t)(65533 + k));
        say_asked_for(&few, (uint16_t)(65533 + k));
    }
    say("sent again", jilqamur_history_asked(&history, 1, bytes, 8, &needed));
    printf("needed %zu\n", needed);
    check(jilqamur_history_close(&history));
    check(jilqamur_history_close(&few));
}

static void say_requested(jilqamur_requester *requester, const uint64_t *missing, size_t count, uint64_t now)
{
    uint64_t numbers[3] = {0};
    size_t needed = 0;
    check(jilqamur_requester_ask(requester, missing, count, now, 50, numbers, 3, &needed));
    printf("ask for");
    for (size_t k = 0; k < needed; k++)
        printf(" %" PRIu64, numbers[k]);
    printf("\n");
}

static void requesters(void)
{
    static const uint64_t missing[] = {70, 71, 75, 74};
    jilqamur_requester requester = JILQAMUR_REQUESTER_CLOSED;
    uint64_t numbers[3] = {0};
    size_t needed = 0;
    check(jilqamur_requester_open(&requester, 2, 10));
    say_requested(&requester, missing, 3, 100);
    say_requested(&requester, missing, 3, 109);
    say_requested(&requester, missing + 1, 2, 110);
    say_requested(&requester, missing + 1, 2, 159);
    say_requested(&requester, missing, 3, 160);
    say_requested(&requester, missing, 3, 210);
    say("ask", jilqamur_requester_ask(&requester, missing, 3, 300, 50, numbers, 2, &needed));
    say("ask", jilqamur_requester_ask(&requester, missing, 4, 300, 50, numbers, 3, &needed));
    check(jilqamur_requester_close(&requester));
}

void ends(void);

int main(void)
{
    printf("version %d\n", jilqamur_version() == JILQAMUR_VERSION_NUMBER);
    headers();
    names();
    infos();
    lines();
    window();
    packetizers();
    depacketizers();
    senders();
    receivers();
    forwarder();
    histories();
    requesters();
    ends();
    return 0;
}
