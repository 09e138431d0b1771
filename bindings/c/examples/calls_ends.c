/* The part of calls.c about ends: rows, texts, what is agreed, streams, browsers, packets that are sent on. */
#include "calls.h"

void ends(void);

static size_t text_of(jilqamur_end *end)
{
    size_t len = 0;
    check(jilqamur_end_text(end, bytes, sizeof bytes, &len));
    return len;
}

static void say_text(jilqamur_end *end)
{
    size_t len = text_of(end);
    printf("%.*s", (int)len, (const char *)bytes);
}

static const jilqamur_row opus = {.payload_type = 111, .clock_rate = 48000, .has_channels = true, .channels = 2};
static const jilqamur_row vp8 = {.payload_type = 96, .has_resend = true, .resend = 97, .clock_rate = 90000};
static const jilqamur_row redundant = {.payload_type = 9, .has_red = true, .red = 63, .clock_rate = 8000};

static void refused_rows(void)
{
    jilqamur_end end = JILQAMUR_END_CLOSED;
    jilqamur_row row = {.payload_type = 9, .clock_rate = 44100};
    check(jilqamur_end_open(&end));
    say("row", jilqamur_end_row(&end, &(jilqamur_row){.payload_type = 9}, JILQAMUR_TEXT("G722"), JILQAMUR_TEXT("")));
    check(jilqamur_end_row(&end, &row, JILQAMUR_TEXT("G722"), JILQAMUR_TEXT("")));
    say("make", jilqamur_end_make(&end, 1));
    check(jilqamur_end_row(&end, &opus, JILQAMUR_TEXT("opus"), JILQAMUR_TEXT("")));
    check(jilqamur_end_row(&end, &opus, JILQAMUR_TEXT("opus"), JILQAMUR_TEXT("")));
    say("make", jilqamur_end_make(&end, 1));
    say("extension", jilqamur_end_extension(&end, 17, JILQAMUR_TEXT("urn:a")));
    check(jilqamur_end_extension(&end, 3, JILQAMUR_TEXT("urn:a b")));
    say("make", jilqamur_end_make(&end, 1));
    say("offer", jilqamur_end_offer(&end));
    check(jilqamur_end_close(&end));
}

static void make(jilqamur_end *end, uint64_t session)
{
    check(jilqamur_end_open(end));
    check(jilqamur_end_row(end, &opus, JILQAMUR_TEXT("opus"), JILQAMUR_TEXT("minptime=10")));
    check(jilqamur_end_row(end, &redundant, JILQAMUR_TEXT("G722"), JILQAMUR_TEXT("")));
    check(jilqamur_end_row(end, &vp8, JILQAMUR_TEXT("VP8"), JILQAMUR_TEXT("")));
    check(jilqamur_end_extension(end, 3, JILQAMUR_TEXT("urn:ietf:params:rtp-hdrext:sdes:mid")));
    check(jilqamur_end_extension(end, 5, JILQAMUR_TEXT("urn:ietf:params:rtp-hdrext:ssrc-audio-level")));
    check(jilqamur_end_make(end, session));
}

static void sections(jilqamur_end *end, uint32_t ssrc)
{
    const uint32_t audio = ssrc, video[] = {ssrc + 1, ssrc + 2};
    check(jilqamur_end_section(end, JILQAMUR_TEXT("a"), false, true, true, &audio, 1));
    check(jilqamur_end_section_repair(end, ssrc + 1, ssrc + 3));
    check(jilqamur_end_section(end, JILQAMUR_TEXT("v"), true, true, true, video, 2));
}

static void exchange(jilqamur_end *a, jilqamur_end *b)
{
    static uint8_t offer[MOST];
    size_t len = 0;
    sections(a, 10);
    check(jilqamur_end_offer(a));
    say_text(a);
    sections(a, 10);
    say("offer", jilqamur_end_offer(a));
    for (size_t k = 0; k < 2; k++)
        printf("withdrawn %d\n", jilqamur_end_withdraw(a) == JILQAMUR_OK);
    sections(a, 10);
    check(jilqamur_end_offer(a));
    check(jilqamur_end_text(a, offer, sizeof offer, &len));
    sections(b, 20);
    say("answer", jilqamur_end_answer(b, JILQAMUR_TEXT("v=0\r\n")));
    sections(b, 20);
    check(jilqamur_end_answer(b, offer, len));
    say_text(b);
    say("accept", jilqamur_end_accept(b, offer, len));
    len = text_of(b);
    check(jilqamur_end_accept(a, bytes, len));
}

static void say_agreed(jilqamur_end *end)
{
    jilqamur_section s;
    jilqamur_row r;
    size_t len = 0;
    uint32_t ssrc = 0;
    for (size_t i = 0; jilqamur_end_agreed_section(end, i, bytes, sizeof bytes, &len, &s) == JILQAMUR_OK; i++) {
        printf("section %.*s: video %d, sends %d, receives %d\n", (int)len, (const char *)bytes, s.is_video, s.sends,
               s.receives);
        for (size_t k = 0; k < s.rows; k++) {
            check(jilqamur_end_agreed_row(end, i, k, bytes, sizeof bytes, &len, &r));
            printf("row %u %.*s %" PRIu32 ", channels %d, resend %d, red %d\n", r.payload_type, (int)len,
                   (const char *)bytes, r.clock_rate, r.has_channels ? r.channels : -1, r.has_resend ? r.resend : -1,
                   r.has_red ? r.red : -1);
        }
        for (size_t k = 0; k < s.ssrcs; k++) {
            check(jilqamur_end_agreed_ssrc(end, i, k, &ssrc));
            printf("ssrc %" PRIu32 "\n", ssrc);
        }
    }
}

static void open_streams(jilqamur_end *a, jilqamur_end *b)
{
    jilqamur_stream params = {.first = 100, .mtu = 30, .limit = 60};
    size_t stream = 9;
    say("sender", jilqamur_end_open_sender(a, JILQAMUR_TEXT("x"), 10, 111, &params, JILQAMUR_TEXT(""), &stream));
    say("sender", jilqamur_end_open_sender(a, JILQAMUR_TEXT("v"), 44, 96, &params, JILQAMUR_TEXT(""), &stream));
    check(jilqamur_end_open_sender(a, JILQAMUR_TEXT("a"), 10, 111, &params, JILQAMUR_TEXT(""), &stream));
    printf("sender %zu\n", stream);
    check(jilqamur_end_open_sender(a, JILQAMUR_TEXT("v"), 11, 96, &params, JILQAMUR_TEXT(""), &stream));
    printf("sender %zu\n", stream);
    say("receiver", jilqamur_end_open_receiver(b, JILQAMUR_TEXT("a"), 10, 7, 2, JILQAMUR_MIN_HELD, &stream));
    say("receiver", jilqamur_end_open_receiver(b, JILQAMUR_TEXT("a"), 10, 111, 2, 1, &stream));
    say("unsignalled", jilqamur_end_open_unsignalled(b, JILQAMUR_TEXT("a"), 10, 111, 2, 1, &stream));
    say("unsignalled", jilqamur_end_open_unsignalled(b, JILQAMUR_TEXT("a"), 99, 111, 2, JILQAMUR_MIN_HELD, &stream));
    check(jilqamur_end_open_receiver(b, JILQAMUR_TEXT("a"), 10, 111, 2, JILQAMUR_MIN_HELD, &stream));
    printf("receiver %zu\n", stream);
    check(jilqamur_end_open_unsignalled(b, JILQAMUR_TEXT("v"), 11, 96, 2, JILQAMUR_MIN_HELD, &stream));
    printf("receiver %zu\n", stream);
}

static void say_received(jilqamur_end *end, const uint8_t *datagram, size_t len)
{
    size_t stream = 0;
    uint64_t number = 0;
    uint32_t answer = jilqamur_end_receive(end, datagram, len, &stream, &number);
    say("receive", answer);
    if (answer == JILQAMUR_OK)
        printf("stream %zu, number %" PRIu64 "\n", stream, number);
}

static void say_poll(jilqamur_end *end, size_t stream, bool drains)
{
    size_t len = 0;
    jilqamur_unit unit;
    jilqamur_values values;
    uint32_t answer = drains ? jilqamur_end_drain(end, stream) : jilqamur_end_poll(end, stream);
    if (answer == JILQAMUR_NOTHING)
        printf("%s: no unit\n", drains ? "drain" : "poll");
    else
        say(drains ? "drain" : "poll", answer);
    if (answer != JILQAMUR_OK)
        return;
    check(jilqamur_end_unit(end, bytes, sizeof bytes, &len, &unit));
    say_unit(&unit, len);
    check(jilqamur_end_values(end, &values));
    say_values(&values);
}

/* A sample's datagrams, of which one comes only as its retransmission. */
static void send(jilqamur_end *a, jilqamur_end *b)
{
    static const uint8_t frame[] = {0x10, 1, 2, 3, 4, 5, 6, 7, 8, 9, 10, 11, 12, 13, 14, 15, 16,
                                    17,   18, 19, 20, 21, 22, 23, 24, 25, 26, 27, 28, 29, 30};
    static uint8_t lost[100];
    jilqamur_values values = {.has_audio_level = true, .audio_level = -30, .has_voice_activity = true,
                              .voice_activity = true};
    size_t count = 0, len = 0, lost_len = 0;
    say("sample", jilqamur_end_push_sample(a, 0, 960, &values, JILQAMUR_TEXT("a"), frame, 4, &count));
    printf("%zu datagrams\n", count);
    check(jilqamur_end_datagram(a, 0, bytes, sizeof bytes, &len));
    hex("datagram", bytes, len);
    say_received(b, bytes, len);
    say_received(b, bytes, len);
    say_poll(b, 0, false);
    values = (jilqamur_values){0};
    say("sample", jilqamur_end_push_sample(a, 1, 3000, &values, JILQAMUR_TEXT(""), frame, sizeof frame, &count));
    printf("%zu datagrams\n", count);
    check(jilqamur_end_datagram(a, 0, lost, sizeof lost, &lost_len));
    hex("lost", lost, lost_len);
    check(jilqamur_end_datagram(a, 1, bytes, sizeof bytes, &len));
    hex("datagram", bytes, len);
    say_received(b, bytes, len);
    say_poll(b, 1, false);
    say("repair", jilqamur_end_repair(a, 0, lost, lost_len));
    say("repair", jilqamur_end_repair(a, 1, lost, lost_len - 20));
    check(jilqamur_end_repair(a, 1, lost, lost_len));
    check(jilqamur_end_datagram(a, 0, bytes, sizeof bytes, &len));
    hex("repair", bytes, len);
    say_received(b, bytes, len);
    say_poll(b, 1, false);
    say("sample", jilqamur_end_push_sample(a, 7, 0, &values, JILQAMUR_TEXT(""), frame, 4, &count));
    say_poll(b, 7, false);
    say_received(b, bytes, 11);
    say_received(b, lost, 12);
    lost[8] = 1;
    say_received(b, lost, lost_len);
}

/* The third sample is missing before the fourth, which a drain hands out. */
static void drain(jilqamur_end *a, jilqamur_end *b)
{
    static const uint8_t sample[] = {5, 6};
    jilqamur_values values = {0};
    size_t count = 0, len = 0;
    for (uint64_t k = 2; k < 4; k++) {
        check(jilqamur_end_push_sample(a, 0, 960 * k, &values, JILQAMUR_TEXT(""), sample, 2, &count));
        check(jilqamur_end_datagram(a, 0, bytes, sizeof bytes, &len));
    }
    say_received(b, bytes, len);
    say_poll(b, 0, false);
    say_poll(b, 0, true);
    say_poll(b, 0, true);
}

static void pass(jilqamur_end *a, jilqamur_end *b)
{
    static const uint8_t sample[] = {7, 8, 9};
    jilqamur_values values = {.has_audio_level = true, .audio_level = -5, .has_voice_activity = true};
    jilqamur_arrival arrival;
    jilqamur_values told;
    size_t count = 0, len = 0, stream = 9;
    uint64_t number = 0;
    check(jilqamur_end_push_sample(a, 0, 4800, &values, JILQAMUR_TEXT("a"), sample, 3, &count));
    check(jilqamur_end_datagram(a, 0, bytes, sizeof bytes, &len));
    check(jilqamur_end_arrival(b, bytes, len, &stream, &arrival, &told));
    printf("arrival at %zu: low %u, time %" PRIu32 ", marker %d", stream, arrival.low, arrival.timestamp,
           arrival.marker);
    hex(", payload", bytes + arrival.start, arrival.end - arrival.start);
    say_values(&told);
    say("arrival", jilqamur_end_arrival(b, bytes, 5, &stream, &arrival, &told));
    say("arrival", jilqamur_end_arrival(b, bytes, 12, &stream, &arrival, &told));
    bytes[11] = 99;
    say("arrival", jilqamur_end_arrival(b, bytes, len, &stream, &arrival, &told));
    check(jilqamur_end_take_number(b, 0, arrival.low, &number));
    printf("taken %" PRIu64 "\n", number);
    printf("taken again %d\n", jilqamur_end_take_number(b, 0, arrival.low, &number) == JILQAMUR_OK);
    say("take", jilqamur_end_take_number(b, 5, arrival.low, &number));
    check(jilqamur_end_send_packet(a, 0, 500, 77, true, &told, JILQAMUR_TEXT("a"), sample, 3));
    check(jilqamur_end_datagram(a, 0, bytes, sizeof bytes, &len));
    hex("sent on", bytes, len);
    say("send", jilqamur_end_send_packet(a, 0, 500, 77, true, &told, JILQAMUR_TEXT("a"), sample, 0));
    say("send", jilqamur_end_send_packet(a, 0, 1ull << 62, 77, true, &told, JILQAMUR_TEXT("a"), sample, 3));
    say("send", jilqamur_end_send_packet(a, 5, 500, 77, true, &told, JILQAMUR_TEXT("a"), sample, 3));
}

static void say_next(jilqamur_end *end)
{
    uint64_t next = 0;
    check(jilqamur_end_next_number(end, 0, &next));
    printf("next %" PRIu64 "\n", next);
}

static void say_missing(jilqamur_end *end, size_t room)
{
    static uint64_t numbers[1023];
    size_t count = 0;
    uint32_t answer = jilqamur_end_missing(end, 0, numbers, room, &count);
    printf("missing %zu, too small %d", count, answer == JILQAMUR_TOO_SMALL);
    for (size_t k = 0; k < count && k < 3; k++)
        printf(" %" PRIu64, numbers[k]);
    printf("\n");
}

static void say_passed(jilqamur_end *end, uint64_t number)
{
    printf("passed %" PRIu64 ": %d\n", number, jilqamur_end_is_passed(end, 0, number) == JILQAMUR_OK);
}

static void say_empty(jilqamur_end *end, uint64_t number)
{
    printf("empty %u: %d\n", (unsigned)number, jilqamur_end_pass_empty(end, 0, number) == JILQAMUR_OK);
}

/* Numbers that a sender leaves out, and a receiver misses and passes. */
static void numbers(jilqamur_end *a, jilqamur_end *b)
{
    static const uint8_t sample[] = {5, 6};
    const jilqamur_values values = {0};
    size_t count = 0, len = 0;
    say_next(a);
    check(jilqamur_end_skip_to(a, 0, 506));
    say_next(a);
    check(jilqamur_end_push_sample(a, 0, 5760, &values, JILQAMUR_TEXT(""), sample, 2, &count));
    check(jilqamur_end_datagram(a, 0, bytes, sizeof bytes, &len));
    say_received(b, bytes, len);
    say_missing(b, 1023);
    say_passed(b, 502);
    check(jilqamur_end_pass_to(b, 0, 502));
    say_passed(b, 502);
    say_missing(b, 1023);
    say_missing(b, 2);
    say_poll(b, 0, false);
    check(jilqamur_end_pass_to(b, 0, 505));
    say_poll(b, 0, false);
    say_passed(b, 507);
    say_empty(b, 507);
    say_empty(b, 509);
    say_passed(b, 507);
    say("keep", jilqamur_end_keep_within(b, 0, 0));
}

/* Streams that are closed, and calls at none. */
static void close_streams(jilqamur_end *a, jilqamur_end *b)
{
    uint64_t number = 0;
    size_t count = 0;
    check(jilqamur_end_close_sender(a, 0));
    check(jilqamur_end_close_receiver(b, 0));
    say("close", jilqamur_end_close_sender(a, 0));
    say("close", jilqamur_end_close_receiver(b, 0));
    say("next", jilqamur_end_next_number(a, 0, &number));
    say("skip", jilqamur_end_skip_to(a, 0, 1));
    say("missing", jilqamur_end_missing(b, 0, &number, 1, &count));
    say("passed", jilqamur_end_is_passed(b, 0, 1));
    say("pass", jilqamur_end_pass_to(b, 0, 1));
    say("empty", jilqamur_end_pass_empty(b, 0, 1));
    say("keep", jilqamur_end_keep_within(b, 0, 1));
    say_poll(b, 0, false);
}

static void for_browser(jilqamur_end *end, uint8_t setup, const char *ufrag)
{
    static uint8_t own[MOST];
    static const uint8_t digest[] = {0xab, 0xcd, 0xef};
    size_t len = 0;
    check(jilqamur_end_text(end, own, sizeof own, &len));
    say("for a browser", jilqamur_end_for_browser(end, own, len, setup, true, (const uint8_t *)ufrag, strlen(ufrag),
                                                  JILQAMUR_TEXT("passwordpasswordpassword"), JILQAMUR_TEXT("sha-256"),
                                                  digest, sizeof digest));
}

static void say_remote(jilqamur_end *end)
{
    jilqamur_remote r;
    size_t len = 0;
    check(jilqamur_end_remote(end, &r));
    printf("setup %d, own %d, trickling %d, lite %d, candidates %zu\n", r.has_setup ? r.setup : -1,
           r.has_own_setup ? r.own_setup : -1, r.is_trickling, r.is_lite, r.candidates);
    for (uint8_t part = JILQAMUR_UFRAG; part <= JILQAMUR_FINGERPRINT; part++) {
        if (jilqamur_end_remote_text(end, part, bytes, sizeof bytes, &len) == JILQAMUR_OK)
            printf("%.*s\n", (int)len, (const char *)bytes);
        else
            printf("-\n");
    }
    for (size_t i = 0; i < r.candidates; i++) {
        check(jilqamur_end_remote_candidate(end, i, bytes, sizeof bytes, &len));
        printf("%.*s\n", (int)len, (const char *)bytes);
    }
}

/* An end's offer as a browser gets it, answered as a browser's offer is. */
static void browsers(void)
{
    static const char candidate[] = "a=candidate:1 1 udp 2130706431 192.0.2.1 5000 typ host\r\n";
    static uint8_t text[MOST];
    const uint32_t ssrc = 30, video = 31;
    jilqamur_end a = JILQAMUR_END_CLOSED, b = JILQAMUR_END_CLOSED;
    size_t len = 0;
    make(&a, 1);
    make(&b, 2);
    say_remote(&b);
    sections(&a, 10);
    check(jilqamur_end_offer(&a));
    for_browser(&a, JILQAMUR_ACTPASS, "a b");
    for_browser(&a, JILQAMUR_ACTPASS, "abcd");
    check(jilqamur_end_text(&a, text, sizeof text, &len));
    text[len] = 0;
    uint8_t *at = (uint8_t *)strstr((char *)text, "a=mid:a\r\n");
    memmove(at + strlen(candidate), at, len - (size_t)(at - text));
    memcpy(at, candidate, strlen(candidate));
    len += strlen(candidate);
    say("answer", jilqamur_end_answer_browser(&b, text, len));
    check(jilqamur_end_request(&b, true, true, true, &ssrc, 1));
    check(jilqamur_end_request(&b, true, false, true, &video, 1));
    check(jilqamur_end_answer_browser(&b, text, len));
    say_remote(&b);
    for_browser(&b, JILQAMUR_ACTPASS, "efgh");
    for_browser(&b, JILQAMUR_PASSIVE, "efgh");
    say_text(&b);
    check(jilqamur_end_text(&b, text, sizeof text, &len));
    say("accept", jilqamur_end_accept_browser(&a, JILQAMUR_TEXT("v=0\r\n")));
    check(jilqamur_end_accept_browser(&a, text, len));
    say_remote(&a);
    say_agreed(&a);
    say("types", jilqamur_end_take_types(&a, JILQAMUR_TEXT("v=0\r\n")));
    check(jilqamur_end_take_types(&a, JILQAMUR_TEXT(
        "v=0\r\no=- 1 1 IN IP4 0.0.0.0\r\ns=-\r\nt=0 0\r\na=group:BUNDLE v\r\nm=video 9 UDP/TLS/RTP/SAVPF 96\r\n"
        "c=IN IP4 0.0.0.0\r\na=mid:v\r\na=rtcp-mux\r\na=recvonly\r\na=rtpmap:96 VP8/90000\r\n")));
    say_agreed(&a);
    check(jilqamur_end_close(&a));
    check(jilqamur_end_close(&b));
}

static void default_rows(void)
{
    jilqamur_end end = JILQAMUR_END_CLOSED;
    check(jilqamur_end_open(&end));
    check(jilqamur_end_default_rows(&end));
    check(jilqamur_end_make(&end, 3));
    check(jilqamur_end_section(&end, JILQAMUR_TEXT("v"), true, true, false, (const uint32_t[]){7}, 1));
    check(jilqamur_end_offer(&end));
    say_text(&end);
    check(jilqamur_end_close(&end));
}

void ends(void)
{
    jilqamur_end a = JILQAMUR_END_CLOSED, b = JILQAMUR_END_CLOSED;
    refused_rows();
    make(&a, 1);
    make(&b, 2);
    exchange(&a, &b);
    say_agreed(&a);
    open_streams(&a, &b);
    send(&a, &b);
    drain(&a, &b);
    pass(&a, &b);
    numbers(&a, &b);
    close_streams(&a, &b);
    check(jilqamur_end_close(&a));
    check(jilqamur_end_close(&b));
    browsers();
    default_rows();
}
