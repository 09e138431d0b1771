/* Random bytes from a seed: datagrams at an end, and at a receiving stream, a depacketizer and a packetizer of each
 * codec; then texts, made of an offer and an answer by changes, at ends that answer and accept. Arguments are how many
 * datagrams and texts there are, and the seed. Progress goes to standard error. */
#include <inttypes.h>
#include <stdio.h>
#include <stdlib.h>
#include <string.h>

#include "jilqamur.h"

static const struct codec {
    const char *name;
    jilqamur_format format;
} codecs[] = {
    {"opus", {.clock_rate = 48000}},
    {"PCMU", {.clock_rate = 8000}},
    {"PCMA", {.clock_rate = 8000}},
    {"G722", {.clock_rate = 16000}},
    {"CN", {.clock_rate = 8000}},
    {"AMR-WB", {.clock_rate = 16000}},
    {"AMR-WB", {.clock_rate = 16000, .has_octet_align = true, .octet_align = true}},
    {"telephone-event", {.clock_rate = 8000}},
    {"VP8", {.clock_rate = 90000}},
    {"VP9", {.clock_rate = 90000}},
    {"AV1", {.clock_rate = 90000}},
    {"H264", {.clock_rate = 90000}},
    {"H265", {.clock_rate = 90000}},
    {"H265", {.clock_rate = 90000, .has_max_don_diff = true, .max_don_diff = 32}},
    {"H266", {.clock_rate = 90000}},
    {"H266", {.clock_rate = 90000, .has_max_don_diff = true, .max_don_diff = 32}},
};

enum { CODECS = sizeof codecs / sizeof codecs[0], MOST_TEXT = 16384 };

/* What there is of one codec. */
typedef struct handles {
    jilqamur_receiver receiver;
    jilqamur_depacketizer depacketizer;
    jilqamur_packetizer packetizer;
} handles;

static uint64_t state;

/* A number below a bound. */
static size_t below(size_t bound)
{
    state = state * 6364136223846793005u + 1442695040888963407u;
    return (size_t)(state >> 33) % bound;
}

/* Ends the run if an answer isn't one of those that random bytes may have. */
static void must(bool holds, const char *what)
{
    if (!holds) {
        fprintf(stderr, "fuzz: %s\n", what);
        exit(1);
    }
}

/* Bytes in memory of just their length, so that the address sanitizer sees what is read after them. */
static uint8_t *random_bytes(size_t len)
{
    uint8_t *bytes = malloc(len ? len : 1);
    must(bytes != NULL, "no memory");
    for (size_t k = 0; k < len; k++)
        bytes[k] = (uint8_t)below(256);
    return bytes;
}

static void progress(const char *what, long done, long count)
{
    if (done % (count / 10 + 1) == 0)
        fprintf(stderr, "fuzz: %ld of %ld %s\n", done, count, what);
}

/* Sections for the next offer or answer: one of audio, and one of video if the end has the default rows. */
static void gather(jilqamur_end *end, bool with_defaults, uint32_t ssrc)
{
    must(jilqamur_end_section(end, JILQAMUR_TEXT("0"), false, true, true, &ssrc, 1) == JILQAMUR_OK, "no section");
    if (with_defaults)
        must(jilqamur_end_section(end, JILQAMUR_TEXT("1"), true, true, true, &ssrc, 1) == JILQAMUR_OK, "no section");
}

/* An end that has Opus alone, or the default rows. */
static void make_end(jilqamur_end *end, bool with_defaults, uint64_t session, uint32_t ssrc)
{
    jilqamur_row opus = {.payload_type = 111, .clock_rate = 48000, .has_channels = true, .channels = 2};
    uint32_t added = with_defaults
        ? jilqamur_end_default_rows(end)
        : jilqamur_end_row(end, &opus, JILQAMUR_TEXT("opus"), JILQAMUR_TEXT(""));
    must(added == JILQAMUR_OK && jilqamur_end_make(end, session) == JILQAMUR_OK, "an end isn't made");
    gather(end, with_defaults, ssrc);
}

/* An end `b` that answered an offer of `a`, and receives Opus of SSRC 44 at type 111. */
static void agree(jilqamur_end *a, jilqamur_end *b)
{
    static uint8_t text[MOST_TEXT];
    size_t len = 0, stream = 0;
    make_end(a, false, 1, 44);
    make_end(b, false, 2, 45);
    must(jilqamur_end_offer(a) == JILQAMUR_OK && jilqamur_end_text(a, text, sizeof text, &len) == JILQAMUR_OK
             && jilqamur_end_answer(b, text, len) == JILQAMUR_OK
             && jilqamur_end_open_receiver(b, JILQAMUR_TEXT("0"), 44, 111, 2, JILQAMUR_MIN_HELD, &stream)
                    == JILQAMUR_OK,
         "ends that don't agree");
}

/* Hands a datagram to the end and polls it; returns whether a unit came. */
static bool at_end(jilqamur_end *b, const uint8_t *datagram, size_t len, long *taken)
{
    size_t stream = 0, needed = 0;
    uint64_t number = 0;
    uint8_t unit_bytes[64];
    jilqamur_unit unit;
    uint32_t received = jilqamur_end_receive(b, datagram, len, &stream, &number);
    must(received == JILQAMUR_OK || (received >= JILQAMUR_UNREADABLE && received <= JILQAMUR_REFUSED)
             || received == JILQAMUR_FOREIGN,
         "an answer to a datagram that none may have");
    *taken += received == JILQAMUR_OK;
    if (jilqamur_end_poll(b, 0) != JILQAMUR_OK)
        return false;
    uint32_t fetched = jilqamur_end_unit(b, unit_bytes, sizeof unit_bytes, &needed, &unit);
    must(fetched == (needed <= sizeof unit_bytes ? JILQAMUR_OK : JILQAMUR_TOO_SMALL), "a unit that isn't fetched");
    return true;
}

static bool is_refusal_of_codec(uint32_t answer)
{
    return answer >= JILQAMUR_PACKET_TOO_SHORT && answer <= JILQAMUR_AMR_WB_CORRUPTED;
}

/* Hands a payload to the receiving stream and the depacketizer of a codec, with numbers nearly in order. */
static long as_packet(handles *codec, uint64_t number, const uint8_t *payload, size_t len)
{
    uint64_t taken_as = 0;
    uint32_t time = (uint32_t)(number / 3);
    bool marker = below(2);
    uint8_t unit_bytes[32];
    size_t needed = 0;
    jilqamur_unit unit;
    long units = 0;
    uint32_t pushed =
        jilqamur_receiver_push(&codec->receiver, (uint16_t)number, time, marker, payload, len, &taken_as);
    must(pushed == JILQAMUR_OK || pushed == JILQAMUR_REFUSED, "an answer to a packet that none may have");
    uint32_t polled = below(8) ? jilqamur_receiver_poll(&codec->receiver) : jilqamur_receiver_drain(&codec->receiver);
    must(polled == JILQAMUR_OK || polled == JILQAMUR_NOTHING || polled == JILQAMUR_PAYLOAD, "an answer of a poll");
    if (polled == JILQAMUR_OK) {
        units++;
        jilqamur_receiver_unit(&codec->receiver, unit_bytes, sizeof unit_bytes, &needed, &unit);
    }
    must(jilqamur_depacketizer_push(&codec->depacketizer, number, time, marker, payload, len) == JILQAMUR_OK,
         "a packet that isn't held");
    uint32_t popped = jilqamur_depacketizer_pop(&codec->depacketizer);
    must(popped == JILQAMUR_OK || popped == JILQAMUR_NOTHING || is_refusal_of_codec(popped), "an answer of a pop");
    if (popped == JILQAMUR_OK) {
        units++;
        jilqamur_depacketizer_unit(&codec->depacketizer, unit_bytes, sizeof unit_bytes, &needed, &unit);
    }
    return units;
}

/* Cuts bytes as a sample, and looks at each payload. */
static long as_sample(handles *codec, const uint8_t *sample, size_t len)
{
    size_t count = 0, needed = 0, mtu = below(40) + 1;
    uint8_t payload[64];
    bool marker = false;
    uint32_t answer = jilqamur_packetizer_packetize(&codec->packetizer, mtu, sample, len, &count);
    must(answer == JILQAMUR_OK || is_refusal_of_codec(answer), "an answer to a sample that none may have");
    if (answer != JILQAMUR_OK)
        return 0;
    for (size_t k = 0; k < count; k++)
        must(jilqamur_packetizer_packet(&codec->packetizer, k, payload, sizeof payload, &needed, &marker)
                     == JILQAMUR_OK
                 && needed <= mtu,
             "a payload past the limit");
    return (long)count;
}

static void open_handles(handles *all)
{
    jilqamur_packetizer_params params = {.has_picture_id = true, .picture_id = 120};
    for (size_t i = 0; i < CODECS; i++) {
        const uint8_t *name = (const uint8_t *)codecs[i].name;
        size_t len = strlen(codecs[i].name);
        must(jilqamur_receiver_open(&all[i].receiver, &codecs[i].format, name, len, 3, JILQAMUR_MIN_HELD) == JILQAMUR_OK
                 && jilqamur_depacketizer_open(&all[i].depacketizer, &codecs[i].format, name, len, 3,
                                               JILQAMUR_MIN_HELD) == JILQAMUR_OK
                 && jilqamur_packetizer_open(&all[i].packetizer, &params, &codecs[i].format, name, len) == JILQAMUR_OK,
             "a codec without handles");
    }
}

static void close_handles(handles *all)
{
    for (size_t i = 0; i < CODECS; i++)
        must(jilqamur_receiver_close(&all[i].receiver) == JILQAMUR_OK
                 && jilqamur_depacketizer_close(&all[i].depacketizer) == JILQAMUR_OK
                 && jilqamur_packetizer_close(&all[i].packetizer) == JILQAMUR_OK,
             "a handle that isn't closed");
}

static void datagrams(long count)
{
    static handles all[CODECS];
    jilqamur_end a = JILQAMUR_END_CLOSED, b = JILQAMUR_END_CLOSED;
    long taken = 0, units = 0, of_codecs = 0, payloads = 0;
    must(jilqamur_end_poll(&a, 0) == JILQAMUR_CLOSED && jilqamur_end_open(&a) == JILQAMUR_OK
             && jilqamur_end_open(&a) == JILQAMUR_IN_USE && jilqamur_end_open(&b) == JILQAMUR_OK
             && jilqamur_end_poll(&a, 0) == JILQAMUR_NOT_MADE,
         "a handle that answers otherwise");
    agree(&a, &b);
    open_handles(all);
    for (long i = 0; i < count; i++) {
        size_t len = below(i % 64 ? 64 : 1600);
        uint8_t *bytes = random_bytes(len);
        handles *codec = &all[i % CODECS];
        if (len && i % 2)
            bytes[0] = (uint8_t)(0x80 | bytes[0] % 64);
        if (len > 12 && i % 4 == 1) {
            bytes[1] = (uint8_t)(111 | (bytes[1] & 0x80));
            memcpy(bytes + 8, "\0\0\0\054", 4);
        }
        units += at_end(&b, bytes, len, &taken);
        of_codecs += as_packet(codec, (uint64_t)(i / CODECS) + below(4), bytes, len);
        payloads += as_sample(codec, bytes, len);
        free(bytes);
        progress("datagrams", i + 1, count);
    }
    close_handles(all);
    must(jilqamur_end_close(&a) == JILQAMUR_OK && jilqamur_end_close(&a) == JILQAMUR_CLOSED
             && jilqamur_end_close(&b) == JILQAMUR_OK,
         "an end that isn't closed");
    printf("%ld datagrams, %s, %s, %s, %s\n", count, taken ? "some taken" : "none taken", units ? "units" : "no units",
           of_codecs ? "units of codecs" : "none of codecs", payloads ? "payloads" : "no payloads");
}

/* A text with up to three changes: a byte is another one, a stretch is gone, or is twice. */
static uint8_t *changed(const uint8_t *text, size_t len, size_t *after)
{
    static uint8_t work[3 * MOST_TEXT];
    memcpy(work, text, len);
    for (size_t times = below(4); times > 0 && len > 0 && len < MOST_TEXT; times--) {
        size_t at = below(len), many = below(len - at < 80 ? len - at : 80) + 1;
        switch (below(3)) {
        case 0:
            work[at] = (uint8_t)(below(2) ? below(256) : (size_t)"\r\n :=/;,0"[below(9)]);
            break;
        case 1:
            memmove(work + at, work + at + many, len - at - many);
            len -= many;
            break;
        default:
            memmove(work + at + many, work + at, len - at);
            len += many;
        }
    }
    uint8_t *copy = malloc(len ? len : 1);
    must(copy != NULL, "no memory");
    memcpy(copy, work, len);
    *after = len;
    return copy;
}

static bool is_refusal_of_exchange(uint32_t answer)
{
    return answer == JILQAMUR_NOT_TEXT || (answer >= JILQAMUR_NOT_WRITABLE && answer <= JILQAMUR_NO_COMMON_ROW);
}

/* A new end with default rows after a handle, which offers. */
static void renew(jilqamur_end *end, uint64_t session, bool offers)
{
    if (jilqamur_end_close(end) != JILQAMUR_OK)
        must(!end->full, "an end that isn't closed");
    must(jilqamur_end_open(end) == JILQAMUR_OK, "an end that isn't opened");
    make_end(end, true, session, 44);
    must(!offers || jilqamur_end_offer(end) == JILQAMUR_OK, "no offer");
}

static void texts(long count)
{
    static uint8_t offer[MOST_TEXT], answer[MOST_TEXT];
    jilqamur_end a = JILQAMUR_END_CLOSED, b = JILQAMUR_END_CLOSED;
    size_t offered = 0, answered = 0, len = 0;
    long agreed = 0, refused = 0;
    renew(&a, 1, true);
    renew(&b, 2, false);
    must(jilqamur_end_text(&a, offer, sizeof offer, &offered) == JILQAMUR_OK
             && jilqamur_end_answer(&b, offer, offered) == JILQAMUR_OK
             && jilqamur_end_text(&b, answer, sizeof answer, &answered) == JILQAMUR_OK,
         "no offer or answer");
    renew(&b, 2, false);
    for (long i = 0; i < count; i++) {
        bool is_offer = i % 2;
        uint8_t *text = changed(is_offer ? offer : answer, is_offer ? offered : answered, &len);
        uint32_t said = is_offer ? jilqamur_end_answer(&b, text, len) : jilqamur_end_accept(&a, text, len);
        must(said == JILQAMUR_OK || is_refusal_of_exchange(said), "an answer to a text that none may have");
        agreed += said == JILQAMUR_OK;
        refused += said != JILQAMUR_OK;
        if (said == JILQAMUR_OK)
            renew(is_offer ? &b : &a, is_offer ? 2 : 1, !is_offer);
        else if (is_offer && said != JILQAMUR_NOT_TEXT)
            gather(&b, true, 44);
        free(text);
        progress("texts", i + 1, count);
    }
    must(jilqamur_end_close(&a) == JILQAMUR_OK && jilqamur_end_close(&b) == JILQAMUR_OK, "an end that isn't closed");
    printf("%ld texts, %s, %s\n", count, agreed ? "some agreed" : "none agreed",
           refused ? "some refused" : "none refused");
}

int main(int argc, char **argv)
{
    if (argc < 4) {
        fprintf(stderr, "usage: fuzz DATAGRAMS TEXTS SEED\n");
        return 2;
    }
    state = strtoull(argv[3], NULL, 10);
    datagrams(strtol(argv[1], NULL, 10));
    texts(strtol(argv[2], NULL, 10));
    return 0;
}
