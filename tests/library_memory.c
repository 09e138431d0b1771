/* Each allocation is refused in turn at the exports of the library for C, which are linked with fail_nth.c: what
 * answers JILQAMUR_MEMORY is asked again, and all other answers must be those of ample memory. A sending stream alone
 * sends no more then, while another one of its end does. All is closed at the end: a sanitizer sees what leaks.
 */
#include <stdarg.h>
#include <stdio.h>
#include <stdlib.h>
#include <string.h>

#include "jilqamur.h"

extern long fail_nth;

enum { MOST_SAID = 1 << 16, MOST_TEXT = 4096 };

/* What a run said: answers and bytes, one after the other. */
typedef struct transcript {
    char text[MOST_SAID];
    size_t len;
    bool is_cut; /* a sending stream failed: what follows of it differs */
} transcript;

static transcript ample, found, *said = &ample;
static long refusals;

static void must(bool holds, const char *what)
{
    if (!holds) {
        fprintf(stderr, "library_memory: %s\n", what);
        exit(1);
    }
}

static void say(const char *form, ...)
{
    va_list words;
    va_start(words, form);
    if (!said->is_cut)
        said->len += (size_t)vsnprintf(said->text + said->len, MOST_SAID - said->len, form, words);
    va_end(words);
    must(said->len < MOST_SAID, "too much is said");
}

static void say_bytes(const uint8_t *bytes, size_t len)
{
    for (size_t k = 0; k < len; k++)
        say("%02x", bytes[k]);
    say("\n");
}

/* Asks again if memory is refused, once `undo` was done. */
#define ASK_AFTER(name, undo, call)     \
    do {                                \
        uint32_t asked = (call);        \
        if (asked == JILQAMUR_MEMORY) { \
            refusals++;                 \
            undo;                       \
            asked = (call);             \
        }                               \
        say("%s: %u\n", name, asked);   \
    } while (0)
#define ASK(name, call) ASK_AFTER(name, (void)0, call)

static const uint8_t unit_bytes[] = {0, 0, 0, 1, 0x67, 1, 0, 0, 0, 1, 0x68, 2, 0, 0, 0, 1, 0x65, 3, 4, 5, 6, 7, 8, 9};

static void window(void)
{
    jilqamur_window handle = JILQAMUR_WINDOW_CLOSED;
    uint64_t number = 0;
    const uint8_t datagram[] = {0x80, 111, 0, 7, 0, 0, 0, 0, 0, 0, 0, 44, 1};
    ASK("window_open", jilqamur_window_open(&handle));
    say("window_receive: %u\n", jilqamur_window_receive(&handle, datagram, sizeof datagram, &number));
    say("window_close: %u\n", jilqamur_window_close(&handle));
}

/* A packetizer and a depacketizer of one codec, of a sample at this many bytes a payload. */
static void payloads(const char *name, uint32_t clock_rate, size_t mtu, const uint8_t *sample, size_t len)
{
    jilqamur_packetizer packetizer = JILQAMUR_PACKETIZER_CLOSED;
    jilqamur_depacketizer depacketizer = JILQAMUR_DEPACKETIZER_CLOSED;
    jilqamur_packetizer_params params = {.has_picture_id = false};
    jilqamur_format format = {.clock_rate = clock_rate};
    size_t count = 0, needed = 0;
    uint8_t bytes[64];
    bool marker = false;
    jilqamur_unit unit;
    const uint8_t *codec = (const uint8_t *)name;
    ASK("packetizer_open", jilqamur_packetizer_open(&packetizer, &params, &format, codec, strlen(name)));
    ASK("depacketizer_open",
        jilqamur_depacketizer_open(&depacketizer, &format, codec, strlen(name), 2, JILQAMUR_MIN_HELD));
    ASK("packetize", jilqamur_packetizer_packetize(&packetizer, mtu, sample, len, &count));
    for (size_t k = 0; k < count; k++) {
        jilqamur_packetizer_packet(&packetizer, k, bytes, sizeof bytes, &needed, &marker);
        say_bytes(bytes, needed);
        ASK("push", jilqamur_depacketizer_push(&depacketizer, k, 0, marker, bytes, needed));
        /* the same frame again, after a gap, for the drain */
        ASK("push", jilqamur_depacketizer_push(&depacketizer, 100 + k, 9, marker, bytes, needed));
    }
    ASK("pop", jilqamur_depacketizer_pop(&depacketizer));
    jilqamur_depacketizer_unit(&depacketizer, bytes, sizeof bytes, &needed, &unit);
    say_bytes(bytes, needed);
    ASK("pop", jilqamur_depacketizer_pop(&depacketizer));
    ASK("drain", jilqamur_depacketizer_drain(&depacketizer));
    jilqamur_depacketizer_unit(&depacketizer, bytes, sizeof bytes, &needed, &unit);
    say_bytes(bytes, needed);
    say("%u %u\n", jilqamur_packetizer_close(&packetizer), jilqamur_depacketizer_close(&depacketizer));
}

/* A sending and a receiving stream without an end. */
static void streams(void)
{
    jilqamur_sender sender = JILQAMUR_SENDER_CLOSED;
    jilqamur_receiver receiver = JILQAMUR_RECEIVER_CLOSED;
    jilqamur_format format = {.clock_rate = 90000};
    jilqamur_sender_params params = {.ssrc = 44, .payload_type = 96, .first = 7, .mtu = 8, .limit = 100};
    size_t count = 0, needed = 0;
    uint64_t number = 0;
    uint8_t bytes[64];
    jilqamur_unit unit;
    const uint8_t payload[] = {0x10, 0xaa, 0xbb};
    ASK("sender_open", jilqamur_sender_open(&sender, &params, &format, JILQAMUR_TEXT("VP8")));
    ASK("receiver_open", jilqamur_receiver_open(&receiver, &format, JILQAMUR_TEXT("VP8"), 2, JILQAMUR_MIN_HELD));
    ASK("receiver_push", jilqamur_receiver_push(&receiver, 1, 0, true, payload, sizeof payload, &number));
    ASK("receiver_push", jilqamur_receiver_push(&receiver, 9, 0, true, payload, sizeof payload, &number));
    uint64_t missing[9];
    ASK("receiver_missing", jilqamur_receiver_missing(&receiver, missing, 9, &count));
    say("missing: %u\n", (unsigned)count);
    ASK("receiver_poll", jilqamur_receiver_poll(&receiver));
    say("receiver_poll: %u\n", jilqamur_receiver_poll(&receiver));
    ASK("receiver_drain", jilqamur_receiver_drain(&receiver));
    jilqamur_receiver_unit(&receiver, bytes, sizeof bytes, &needed, &unit);
    say_bytes(bytes, needed);
    bool was_cut = said->is_cut;
    uint32_t sent = jilqamur_sender_push_sample(&sender, 9, unit_bytes, sizeof unit_bytes, &count);
    if (sent == JILQAMUR_MEMORY) {
        refusals++;
        must(count == 0, "datagrams of a refused sample");
        must(jilqamur_sender_push_sample(&sender, 9, unit_bytes, sizeof unit_bytes, &count) == JILQAMUR_STREAM_FAILED,
             "a stream that was refused memory sends on");
        said->is_cut = true;
    }
    say("sender_push_sample: %u, %zu\n", sent, count);
    for (size_t k = 0; k < count; k++) {
        jilqamur_sender_datagram(&sender, k, bytes, sizeof bytes, &needed);
        say_bytes(bytes, needed);
    }
    say("%u %u\n", jilqamur_sender_close(&sender), jilqamur_receiver_close(&receiver));
    must(!was_cut, "two streams failed");
}

/* The rows and the header extension of an end; `make` gives a draft up, refused or not. */
static void draft(jilqamur_end *end)
{
    jilqamur_row opus = {.payload_type = 111, .clock_rate = 48000, .has_channels = true, .channels = 2};
    jilqamur_row vp8 = {.payload_type = 96, .has_resend = true, .resend = 97, .clock_rate = 90000};
    ASK("row", jilqamur_end_row(end, &opus, JILQAMUR_TEXT("opus"), JILQAMUR_TEXT("minptime=10;useinbandfec=1")));
    ASK("row", jilqamur_end_row(end, &vp8, JILQAMUR_TEXT("VP8"), JILQAMUR_TEXT("")));
    ASK("extension", jilqamur_end_extension(end, 4, JILQAMUR_TEXT("urn:ietf:params:rtp-hdrext:sdes:mid")));
}

/* Sections for the next offer or answer, which uses them up. Nothing of it is told, since it may be asked twice. */
static void gather(jilqamur_end *end, uint32_t ssrc)
{
    uint32_t ssrcs[] = {ssrc, ssrc + 1};
    bool was_cut = said->is_cut;
    said->is_cut = true;
    ASK("section", jilqamur_end_section(end, JILQAMUR_TEXT("0"), false, true, true, &ssrcs[0], 1));
    ASK("section_repair", jilqamur_end_section_repair(end, ssrcs[1], ssrc + 100));
    ASK("section", jilqamur_end_section(end, JILQAMUR_TEXT("1"), true, true, true, &ssrcs[1], 1));
    said->is_cut = was_cut;
}

/* The same of the draft. */
static void draft_again(jilqamur_end *end)
{
    bool was_cut = said->is_cut;
    said->is_cut = true;
    draft(end);
    said->is_cut = was_cut;
}

static void exchange(jilqamur_end *a, jilqamur_end *b)
{
    static uint8_t offer[MOST_TEXT], answer[MOST_TEXT];
    size_t offered = 0, answered = 0, stream = 0;
    jilqamur_stream params = {.first = 0, .mtu = 20, .limit = 100};
    gather(a, 44);
    ASK_AFTER("offer", gather(a, 44), jilqamur_end_offer(a));
    say("text: %u\n", jilqamur_end_text(a, offer, sizeof offer, &offered));
    say("%.*s", (int)offered, (const char *)offer);
    gather(b, 54);
    ASK_AFTER("answer", gather(b, 54), jilqamur_end_answer(b, offer, offered));
    say("text: %u\n", jilqamur_end_text(b, answer, sizeof answer, &answered));
    say("%.*s", (int)answered, (const char *)answer);
    ASK("accept", jilqamur_end_accept(a, answer, answered));
    say("withdraw: %u\n", jilqamur_end_withdraw(a));
    ASK("open_sender", jilqamur_end_open_sender(a, JILQAMUR_TEXT("0"), 44, 111, &params, offer, 0, &stream));
    ASK("open_sender", jilqamur_end_open_sender(a, JILQAMUR_TEXT("1"), 45, 96, &params, offer, 0, &stream));
    ASK("open_receiver", jilqamur_end_open_receiver(b, JILQAMUR_TEXT("0"), 44, 111, 2, JILQAMUR_MIN_HELD, &stream));
    ASK("open_receiver", jilqamur_end_open_receiver(b, JILQAMUR_TEXT("1"), 45, 96, 2, JILQAMUR_MIN_HELD, &stream));
}

/* A sample of one of two sending streams. If memory was refused the stream sends no more. */
static bool sends(jilqamur_end *end, size_t stream)
{
    jilqamur_values values;
    size_t count = 0, needed = 0;
    uint8_t bytes[128];
    memset(&values, 0, sizeof values);
    uint32_t sent = jilqamur_end_push_sample(end, stream, 960, &values, JILQAMUR_TEXT("0"), unit_bytes,
                                             sizeof unit_bytes, &count);
    if (sent == JILQAMUR_MEMORY) {
        refusals++;
        sent = jilqamur_end_push_sample(end, stream, 960, &values, JILQAMUR_TEXT("0"), unit_bytes, sizeof unit_bytes,
                                        &count);
        must(sent == JILQAMUR_STREAM_FAILED, "a stream that was refused memory sends on");
        return false;
    }
    must(sent == JILQAMUR_OK && count == 2, "a stream that sends otherwise");
    for (size_t k = 0; k < count; k++) {
        must(jilqamur_end_datagram(end, k, bytes, sizeof bytes, &needed) == JILQAMUR_OK, "no datagram");
        say_bytes(bytes, needed);
    }
    ASK("send_packet", jilqamur_end_send_packet(end, stream, 900, 7, true, &values, JILQAMUR_TEXT("0"), unit_bytes, 9));
    must(jilqamur_end_datagram(end, 0, bytes, sizeof bytes, &needed) == JILQAMUR_OK, "no packet");
    say_bytes(bytes, needed);
    if (stream == 1) {
        ASK("repair", jilqamur_end_repair(end, stream, bytes, needed));
        must(jilqamur_end_datagram(end, 0, bytes, sizeof bytes, &needed) == JILQAMUR_OK, "no repair");
        say_bytes(bytes, needed);
    }
    return true;
}

static void misses(jilqamur_end *end)
{
    uint64_t numbers[4];
    size_t needed = 0;
    ASK("missing", jilqamur_end_missing(end, 0, numbers, 4, &needed));
    for (size_t k = 0; k < needed && k < 4; k++)
        say("%u\n", (unsigned)numbers[k]);
}

static void hears(jilqamur_end *end)
{
    uint8_t datagram[] = {0x80, 111, 0, 7, 0, 0, 0, 0, 0, 0, 0, 44, 1};
    uint8_t bytes[64];
    size_t stream = 0, needed = 0;
    uint64_t number = 0;
    jilqamur_unit unit;
    for (uint8_t k = 0; k < 3; k++) {
        datagram[3] = (uint8_t)(2 * k);
        ASK("receive", jilqamur_end_receive(end, datagram, sizeof datagram, &stream, &number));
        say("%zu %u\n", stream, (unsigned)number);
    }
    misses(end);
    ASK("poll", jilqamur_end_poll(end, 0));
    say("unit: %u\n", jilqamur_end_unit(end, bytes, sizeof bytes, &needed, &unit));
    say_bytes(bytes, needed);
    uint32_t polled = jilqamur_end_poll(end, 0);
    must(polled == JILQAMUR_NOTHING, "a poll that has nothing");
    ASK("drain", jilqamur_end_drain(end, 0));
    say("unit: %u\n", jilqamur_end_unit(end, bytes, sizeof bytes, &needed, &unit));
    say_bytes(bytes, needed);
}

static void ends(void)
{
    jilqamur_end a = JILQAMUR_END_CLOSED, b = JILQAMUR_END_CLOSED, c = JILQAMUR_END_CLOSED;
    ASK("open", jilqamur_end_open(&a));
    ASK("open", jilqamur_end_open(&b));
    ASK("open", jilqamur_end_open(&c));
    ASK("default_rows", jilqamur_end_default_rows(&c));
    draft(&a);
    ASK_AFTER("make", draft_again(&a), jilqamur_end_make(&a, 1));
    draft(&b);
    ASK_AFTER("make", draft_again(&b), jilqamur_end_make(&b, 2));
    exchange(&a, &b);
    hears(&b);
    /* The second stream goes on where the first failed; what the two send is told where neither did. */
    bool is_first = sends(&a, 0);
    said->is_cut = !is_first;
    bool is_second = sends(&a, 1);
    must(is_first || is_second, "both streams failed");
    said->is_cut = !is_first || !is_second;
    say("%u %u %u\n", jilqamur_end_close(&a), jilqamur_end_close(&b), jilqamur_end_close(&c));
}

/* A request for a section both ways. Nothing of it is told, since it may be asked twice. */
static void request(jilqamur_end *end)
{
    const uint32_t ssrc = 54;
    bool was_cut = said->is_cut;
    said->is_cut = true;
    ASK("request", jilqamur_end_request(end, true, true, true, &ssrc, 1));
    said->is_cut = was_cut;
}

/* The audio section that an end offers a browser. */
static void offer_audio(jilqamur_end *end)
{
    const uint32_t ssrc = 44;
    bool was_cut = said->is_cut;
    said->is_cut = true;
    ASK("section", jilqamur_end_section(end, JILQAMUR_TEXT("0"), false, true, true, &ssrc, 1));
    said->is_cut = was_cut;
}

/* Makes a text of an end one for a browser. */
static size_t add_transport(jilqamur_end *end, uint8_t *text, uint8_t setup)
{
    const uint8_t digest[] = {1, 2, 3};
    size_t len = 0;
    say("text: %u\n", jilqamur_end_text(end, text, MOST_TEXT, &len));
    ASK("for_browser", jilqamur_end_for_browser(end, text, len, setup, false, JILQAMUR_TEXT("abcd"),
                                                JILQAMUR_TEXT("0123456789abcdefghijkl"), JILQAMUR_TEXT("sha-256"),
                                                digest, sizeof digest));
    say("text: %u\n", jilqamur_end_text(end, text, MOST_TEXT, &len));
    say("%.*s", (int)len, (const char *)text);
    if (setup != JILQAMUR_ACTPASS)
        ASK("take_types", jilqamur_end_take_types(end, text, len));
    return len;
}

/* What an end is told of the other one's transport. */
static void told(jilqamur_end *end)
{
    jilqamur_remote remote;
    uint8_t bytes[128];
    size_t needed = 0;
    say("remote: %u\n", jilqamur_end_remote(end, &remote));
    say("%u %u %zu\n", remote.setup, remote.own_setup, remote.candidates);
    for (uint8_t part = JILQAMUR_UFRAG; part <= JILQAMUR_FINGERPRINT; part++) {
        ASK("remote_text", jilqamur_end_remote_text(end, part, bytes, sizeof bytes, &needed));
        say_bytes(bytes, needed);
    }
    ASK("remote_candidate", jilqamur_end_remote_candidate(end, 0, bytes, sizeof bytes, &needed));
    say_bytes(bytes, needed);
}

/* Two ends that take each other for browsers. */
static void browsers(void)
{
    static uint8_t text[MOST_TEXT];
    static const char candidate[] = "a=candidate:1 1 udp 1 127.0.0.1 9 typ host\r\n";
    jilqamur_end a = JILQAMUR_END_CLOSED, b = JILQAMUR_END_CLOSED;
    ASK("open", jilqamur_end_open(&a));
    ASK("open", jilqamur_end_open(&b));
    draft(&a);
    ASK_AFTER("make", draft_again(&a), jilqamur_end_make(&a, 1));
    draft(&b);
    ASK_AFTER("make", draft_again(&b), jilqamur_end_make(&b, 2));
    offer_audio(&a);
    ASK_AFTER("offer", offer_audio(&a), jilqamur_end_offer(&a));
    size_t len = add_transport(&a, text, JILQAMUR_ACTPASS);
    must(len + sizeof candidate < sizeof text, "too long an offer");
    memcpy(text + len, candidate, sizeof candidate - 1);
    request(&b);
    ASK_AFTER("answer_browser", request(&b), jilqamur_end_answer_browser(&b, text, len + sizeof candidate - 1));
    told(&b);
    len = add_transport(&b, text, JILQAMUR_PASSIVE);
    ASK("accept_browser", jilqamur_end_accept_browser(&a, text, len));
    say("%u %u\n", jilqamur_end_close(&a), jilqamur_end_close(&b));
}

/* A forwarder that goes over to a source, and leaves a part of it out. */
static void forwarder(void)
{
    jilqamur_forwarder handle = JILQAMUR_FORWARDER_CLOSED;
    jilqamur_placed placed;
    uint64_t next = 0;
    ASK("forwarder_open", jilqamur_forwarder_open(&handle, 5));
    ASK("forwarder_switch", jilqamur_forwarder_switch(&handle, 1, 100, 0, 9));
    for (uint64_t k = 0; k < 6; k++) {
        say("forward: %u\n", jilqamur_forwarder_forward(&handle, 1, 100 + 10 * k, 3, true, &placed));
        say("%u at %u\n", (unsigned)placed.number, (unsigned)placed.timestamp);
        ASK("forwarder_pass_empty", jilqamur_forwarder_pass_empty(&handle, 1, 101 + 10 * k));
        ASK("forwarder_skip_to", jilqamur_forwarder_skip_to(&handle, 110 + 10 * k));
        say("next: %u, %u\n", jilqamur_forwarder_next(&handle, &next), (unsigned)next);
    }
    say("forwarder_close: %u\n", jilqamur_forwarder_close(&handle));
}

/* A history of which some go, and what is asked for of it. */
static void nacks(void)
{
    static const uint8_t datagram[] = {1, 2, 3, 4, 5, 6, 7, 8, 9};
    static const uint64_t missing[] = {2, 3, 7};
    jilqamur_history history = JILQAMUR_HISTORY_CLOSED;
    jilqamur_requester requester = JILQAMUR_REQUESTER_CLOSED;
    uint8_t bytes[9];
    uint64_t numbers[3];
    size_t needed = 0;
    ASK("history_open", jilqamur_history_open(&history, 4, 30));
    ASK("requester_open", jilqamur_requester_open(&requester, 2, 5));
    for (uint64_t k = 0; k < 9; k++) {
        ASK("history_keep", jilqamur_history_keep(&history, k, datagram, k));
        say("asked: %u\n", jilqamur_history_asked(&history, (uint16_t)(k - 2), bytes, 9, &needed));
        ASK("requester_ask", jilqamur_requester_ask(&requester, missing, 3, 5 * k, 10, numbers, 3, &needed));
        say("%u\n", (unsigned)needed);
    }
    say("closed: %u, %u\n", jilqamur_history_close(&history), jilqamur_requester_close(&requester));
}

static const uint8_t obus[] = {0x12, 0, 0x32, 3, 0xaa, 0xbb, 0xcc};

/* All of it; `part` says which, so that a stream that failed cuts off nothing else. */
static void sequence(int part)
{
    switch (part) {
    case 0:
        window();
        forwarder();
        nacks();
        payloads("H264", 90000, 8, unit_bytes, sizeof unit_bytes);
        payloads("AV1", 90000, 3, obus, sizeof obus);
        payloads("opus", 48000, 8, unit_bytes, sizeof unit_bytes);
        break;
    case 1:
        streams();
        break;
    case 2:
        browsers();
        break;
    default:
        ends();
    }
}

/* All that was said is as with ample memory, up to where a sending stream failed. */
static void compare(int part, long nth)
{
    size_t k = 0;
    while (k < found.len && k < ample.len && found.text[k] == ample.text[k])
        k++;
    if (k == found.len && (found.is_cut || found.len == ample.len))
        return;
    size_t from = k < 40 ? 0 : k - 40;
    fprintf(stderr, "part %d, allocation %ld: said\n%.80s\nand not\n%.80s\n", part, nth, found.text + from,
            ample.text + from);
    must(false, "an answer changed in place of JILQAMUR_MEMORY");
}

/* Each allocation of a part refused in turn; how many there are. */
static long try_each(int part)
{
    said = &ample;
    memset(&ample, 0, sizeof ample);
    fail_nth = 0;
    sequence(part);
    long told = 0, nth = 1;
    for (bool was_refused = true; was_refused; nth++) {
        said = &found;
        memset(&found, 0, sizeof found);
        long before = refusals;
        fail_nth = nth;
        sequence(part);
        was_refused = fail_nth == 0;
        fail_nth = 0;
        told += refusals - before;
        must(refusals - before <= 1, "one refused allocation was told twice");
        compare(part, nth);
    }
    printf("part %d: %ld allocations, %ld told\n", part, nth - 2, told);
    /* a list that grows by a guess asks for less if that is refused, so not each refusal is seen */
    must(told > 0 && told >= 3 * (nth - 2) / 4, "refusals aren't told");
    return nth - 2;
}

int main(void)
{
    long all = 0;
    for (int part = 0; part < 4; part++)
        all += try_each(part);
    printf("%ld allocations, each refused in turn\n", all);
    return 0;
}
