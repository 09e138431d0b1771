/* How fast ends are: samples of real sizes of each codec through two ends, first all samples into datagrams, then each
 * datagram received and polled; and ends with many streams, of which the last one's datagrams are received. Prints what
 * was counted, and on standard error the times. */
#define _POSIX_C_SOURCE 199309L

#include <inttypes.h>
#include <stdio.h>
#include <stdlib.h>
#include <string.h>
#include <time.h>

#include "jilqamur.h"

enum {
    TYPE = 111,
    RED_TYPE = 63,
    MTU = 1200,
    MOST_BYTES = 2000000, /* of the samples of one line */
    MOST_SAMPLES = 20000,
    MOST_STREAMS = 8000,
    MOST_DATAGRAMS = 1 << 15,
    MOST_SIZE = 196000,
};

/* A row, and what its samples begin with: the header of speech at 23.85 kbit/s, of a key picture's frame, or of a unit,
 * of AV1 with its size. */
typedef struct line {
    const char *name, *codec, *format;
    uint32_t clock_rate;
    uint8_t channels; /* 0 for none */
    bool is_video, has_red;
    size_t size;
    const char *head;
    size_t head_len;
} line;

#define HEAD(literal) literal, sizeof(literal) - 1
#define AUDIO(name, codec, format, clock, channels, red, size, head) \
    {name, codec, format, clock, channels, false, red, size, HEAD(head)}
#define VIDEO(name, codec, format, small, large) \
    {name, codec, format, 90000, 0, true, false, 12000, HEAD(small)}, \
    {name, codec, format, 90000, 0, true, false, MOST_SIZE, HEAD(large)}

static const line lines[] = {
    AUDIO("opus", "opus", "minptime=10;useinbandfec=1", 48000, 2, false, 120, ""),
    AUDIO("opus with redundancy", "opus", "minptime=10;useinbandfec=1", 48000, 2, true, 120, ""),
    AUDIO("PCMU", "PCMU", "", 8000, 0, false, 120, ""),
    AUDIO("PCMA", "PCMA", "", 8000, 0, false, 120, ""),
    AUDIO("PCMA with redundancy", "PCMA", "", 8000, 0, true, 120, ""),
    AUDIO("G722", "G722", "", 16000, 0, false, 120, ""),
    AUDIO("CN", "CN", "", 8000, 0, false, 4, ""),
    AUDIO("AMR-WB", "AMR-WB", "", 16000, 0, false, 61, "\x44"),
    AUDIO("AMR-WB octet-aligned", "AMR-WB", "octet-align=1", 16000, 0, false, 61, "\x44"),
    AUDIO("telephone-event", "telephone-event", "0-16", 8000, 0, false, 4, ""),
    VIDEO("VP8", "VP8", "", "", ""),
    VIDEO("VP9", "VP9", "profile-id=0", "\x82\x49\x83\x42", "\x82\x49\x83\x42"),
    VIDEO("AV1", "AV1", "", "\x32\xdd\x5d", "\x32\x9c\xfb\x0b"),
    VIDEO("H264", "H264", "packetization-mode=1;profile-level-id=42001f", "\0\0\0\1\x65", "\0\0\0\1\x65"),
    VIDEO("H265", "H265", "", "\0\0\0\1\x26\1", "\0\0\0\1\x26\1"),
    VIDEO("H265 with decoding order numbers", "H265", "sprop-max-don-diff=1", "\0\0\0\1\x26\1", "\0\0\0\1\x26\1"),
    VIDEO("H266", "H266", "", "\0\0\0\1\0\x39", "\0\0\0\1\0\x39"),
    VIDEO("H266 with decoding order numbers", "H266", "sprop-max-don-diff=1", "\0\0\0\1\0\x39", "\0\0\0\1\0\x39"),
};

/* The datagrams of the samples, one after the other. */
static uint8_t datagrams[1 << 24];
static size_t datagram_ends[MOST_DATAGRAMS];
static size_t datagram_count;

typedef struct times {
    double opened, sent, received; /* in seconds */
    size_t units;
} times;

static double now(void)
{
    struct timespec time;
    if (clock_gettime(CLOCK_MONOTONIC, &time) != 0)
        exit(1);
    return (double)time.tv_sec + (double)time.tv_nsec / 1e9;
}

static void need(bool is_right, const char *what)
{
    if (is_right)
        return;
    fprintf(stderr, "rates: %s\n", what);
    exit(1);
}

/* An end of the row whose section has these SSRCs. */
static uint32_t make(jilqamur_end *end, const line *l, uint64_t session, const uint32_t *ssrcs, size_t count)
{
    jilqamur_row row = {
        .payload_type = TYPE,
        .has_red = l->has_red,
        .red = RED_TYPE,
        .clock_rate = l->clock_rate,
        .has_channels = l->channels != 0,
        .channels = l->channels,
    };
    uint32_t wrong = jilqamur_end_open(end);
    wrong |= jilqamur_end_row(end, &row, (const uint8_t *)l->codec, strlen(l->codec), (const uint8_t *)l->format,
                              strlen(l->format));
    wrong |= jilqamur_end_make(end, session);
    return wrong | jilqamur_end_section(end, JILQAMUR_TEXT("0"), l->is_video, true, true, ssrcs, count);
}

/* a offers, and b answers. The section of a has the SSRCs from 1 to streams. */
static uint32_t connect(jilqamur_end *a, jilqamur_end *b, const line *l, uint32_t streams)
{
    static uint32_t ssrcs[MOST_STREAMS];
    static uint8_t text[1 << 19];
    const uint32_t own = 0;
    size_t len = 0;
    for (uint32_t i = 0; i < streams; i++)
        ssrcs[i] = i + 1;
    uint32_t wrong = make(a, l, 1, ssrcs, streams) | make(b, l, 2, &own, 1);
    wrong |= jilqamur_end_offer(a) | jilqamur_end_text(a, text, sizeof text, &len);
    wrong |= jilqamur_end_answer(b, text, len) | jilqamur_end_text(b, text, sizeof text, &len);
    return wrong | jilqamur_end_accept(a, text, len);
}

/* Sends this many samples of the last SSRC, with redundancy one and three packets back if the row has it. */
static void send_samples(jilqamur_end *a, const line *l, uint32_t ssrc, size_t count)
{
    static uint8_t sample[MOST_SIZE];
    jilqamur_stream params = {.mtu = MTU, .limit = MTU + 100, .has_red = l->has_red, .has_picture_id = true,
                              .picture_id = 32000};
    const uint8_t distances[] = {1, 3};
    jilqamur_values none = {0};
    size_t stream = 0, sent = 0, len = 0, at = 0;
    memset(sample, 8, l->size);
    memcpy(sample, l->head, l->head_len);
    need(jilqamur_end_open_sender(a, JILQAMUR_TEXT("0"), ssrc, TYPE, &params, distances, l->has_red ? 2 : 0, &stream)
             == JILQAMUR_OK, "no sending stream");
    datagram_count = 0;
    for (size_t i = 0; i < count; i++) {
        need(jilqamur_end_push_sample(a, stream, 960 * (uint64_t)i, &none, JILQAMUR_TEXT(""), sample, l->size, &sent)
                 == JILQAMUR_OK, "a sample was refused");
        for (size_t k = 0; k < sent; k++) {
            need(datagram_count < MOST_DATAGRAMS, "too many datagrams");
            need(jilqamur_end_datagram(a, k, datagrams + at, sizeof datagrams - at, &len) == JILQAMUR_OK,
                 "no datagram");
            at += len;
            datagram_ends[datagram_count++] = at;
        }
    }
}

/* Receives the datagrams, with a poll after each; how many units came. */
static size_t receive_all(jilqamur_end *b)
{
    static uint8_t unit_bytes[2 * MOST_SIZE];
    jilqamur_unit unit;
    size_t units = 0, at = 0, stream = 0, len = 0;
    uint64_t number = 0;
    for (size_t i = 0; i < datagram_count; at = datagram_ends[i++]) {
        need(jilqamur_end_receive(b, datagrams + at, datagram_ends[i] - at, &stream, &number) == JILQAMUR_OK,
             "a datagram was not taken");
        uint32_t answer = jilqamur_end_poll(b, stream);
        need(answer == JILQAMUR_OK || answer == JILQAMUR_NOTHING, "a poll answered a fault");
        if (answer == JILQAMUR_NOTHING)
            continue;
        need(jilqamur_end_unit(b, unit_bytes, sizeof unit_bytes, &len, &unit) == JILQAMUR_OK, "no unit");
        units++;
    }
    return units;
}

/* Two ends with so many streams, of which the last carries this many samples. */
static times carry(const line *l, uint32_t streams, size_t count)
{
    jilqamur_end a = JILQAMUR_END_CLOSED, b = JILQAMUR_END_CLOSED;
    times t;
    size_t stream = 0;
    need(connect(&a, &b, l, streams) == JILQAMUR_OK, "the ends don't agree");
    double start = now();
    for (uint32_t ssrc = 1; ssrc <= streams; ssrc++)
        need(jilqamur_end_open_receiver(&b, JILQAMUR_TEXT("0"), ssrc, TYPE, 0, JILQAMUR_MIN_HELD, &stream)
                 == JILQAMUR_OK,
             "no receiving stream");
    double opened = now();
    send_samples(&a, l, streams, count);
    double sent = now();
    t.units = receive_all(&b);
    t.received = now() - sent;
    t.sent = sent - opened;
    t.opened = opened - start;
    need(jilqamur_end_close(&a) == JILQAMUR_OK && jilqamur_end_close(&b) == JILQAMUR_OK, "an end is not closed");
    return t;
}

/* A sample's rates count its bytes. */
static void report_rate(const line *l)
{
    size_t count = MOST_BYTES / l->size < MOST_SAMPLES ? MOST_BYTES / l->size : MOST_SAMPLES;
    times t = carry(l, 1, count);
    double megabytes = (double)count * (double)l->size / 1e6;
    printf("%s: %zu samples of %zu bytes, %zu datagrams, %zu units\n", l->name, count, l->size, datagram_count,
           t.units);
    fprintf(stderr, "%s, %zu bytes: %.0f MB a second sent, %.0f received and polled\n", l->name, l->size,
            megabytes / t.sent, megabytes / t.received);
}

static void report_streams(uint32_t streams)
{
    const size_t count = 4000;
    line opus = lines[0];
    opus.size = 4;
    times t = carry(&opus, streams, count);
    printf("%" PRIu32 " streams: %zu datagrams of the last, %zu units\n", streams, datagram_count, t.units);
    fprintf(stderr, "%" PRIu32 " streams: %.0f ns to open one, %.0f ns to receive and poll a datagram\n", streams,
            t.opened * 1e9 / streams, t.received * 1e9 / (double)count);
}

int main(void)
{
    const uint32_t many[] = {1, 8, 100, 2000, MOST_STREAMS};
    for (size_t i = 0; i < sizeof lines / sizeof lines[0]; i++)
        report_rate(&lines[i]);
    for (size_t i = 0; i < sizeof many / sizeof many[0]; i++)
        report_streams(many[i]);
    return 0;
}
