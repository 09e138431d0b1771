/* What benches/packages/go does, in C: samples into datagrams, and datagrams received and polled, all copied out. Rates
 * are those of the fastest slice. */
#define _POSIX_C_SOURCE 199309L

#include <stdio.h>
#include <stdlib.h>
#include <string.h>
#include <time.h>

#include "jilqamur.h"

enum { TYPE = 111, MTU = 1200, SLICES = 300, MOST_SIZE = 196000, MOST_DATAGRAMS = 1000 };

typedef struct line {
    const char *name, *format, *head;
    size_t head_len, size;
    uint32_t clock_rate;
    bool is_video;
} line;

#define H264 "packetization-mode=1;profile-level-id=42001f"
#define VIDEO(size) \
    {"VP8", "", "", 0, size, 90000, true}, {"VP9", "profile-id=0", "\x82\x49\x83\x42", 4, size, 90000, true}, \
    {"H264", H264, "\0\0\0\1\x65", 5, size, 90000, true}
static const line lines[] = {VIDEO(12000), VIDEO(MOST_SIZE), {"opus", "", "", 0, 120, 48000, false}};

/* The datagrams of a slice, one after the other. */
static uint8_t datagrams[1 << 19], sample[MOST_SIZE], unit_bytes[2 * MOST_SIZE];
static size_t ends[MOST_DATAGRAMS], count;
static uint64_t ticks;

static void need(uint32_t answer)
{
    if (answer == JILQAMUR_OK)
        return;
    fprintf(stderr, "rates: %s\n", jilqamur_error_text(answer));
    exit(1);
}

static double now(void)
{
    struct timespec time;
    clock_gettime(CLOCK_MONOTONIC, &time);
    return (double)time.tv_sec * 1e9 + (double)time.tv_nsec;
}

static void make(jilqamur_end *end, const line *l, uint64_t session, uint32_t ssrc)
{
    jilqamur_row row = {.payload_type = TYPE, .clock_rate = l->clock_rate, .has_channels = !l->is_video, .channels = 2};
    need(jilqamur_end_open(end));
    need(jilqamur_end_row(end, &row, (const uint8_t *)l->name, strlen(l->name), (const uint8_t *)l->format,
                          strlen(l->format)));
    need(jilqamur_end_make(end, session));
    need(jilqamur_end_section(end, JILQAMUR_TEXT("0"), l->is_video, true, true, &ssrc, 1));
}

/* Two ends that agreed; each has one stream. */
static void connect(jilqamur_end *a, jilqamur_end *b, const line *l)
{
    static uint8_t text[8192];
    jilqamur_stream params = {.mtu = MTU, .limit = MTU + 200, .has_picture_id = l->is_video, .picture_id = 1};
    size_t len = 0, stream;
    make(a, l, 1, 44);
    make(b, l, 2, 45);
    need(jilqamur_end_offer(a));
    need(jilqamur_end_text(a, text, sizeof text, &len));
    need(jilqamur_end_answer(b, text, len));
    need(jilqamur_end_text(b, text, sizeof text, &len));
    need(jilqamur_end_accept(a, text, len));
    need(jilqamur_end_open_sender(a, JILQAMUR_TEXT("0"), 44, TYPE, &params, text, 0, &stream));
    need(jilqamur_end_open_receiver(b, JILQAMUR_TEXT("0"), 44, TYPE, 4, JILQAMUR_MIN_HELD, &stream));
}

static void send_slice(jilqamur_end *a, const line *l, size_t rounds)
{
    static const jilqamur_values none;
    size_t sent, len, at = 0;
    count = 0;
    for (size_t i = 0; i < rounds; i++) {
        ticks += 960;
        need(jilqamur_end_push_sample(a, 0, ticks, &none, JILQAMUR_TEXT(""), sample, l->size, &sent));
        for (size_t k = 0; k < sent; k++) {
            need(jilqamur_end_datagram(a, k, datagrams + at, sizeof datagrams - at, &len));
            ends[count++] = at += len;
        }
    }
}

static void receive_slice(jilqamur_end *b, const line *l)
{
    jilqamur_unit unit;
    uint64_t number;
    uint32_t answer;
    size_t stream, len;
    for (size_t i = 0, at = 0; i < count; at = ends[i++]) {
        need(jilqamur_end_receive(b, datagrams + at, ends[i] - at, &stream, &number));
        while ((answer = jilqamur_end_poll(b, stream)) != JILQAMUR_NOTHING) {
            need(answer);
            need(jilqamur_end_unit(b, unit_bytes, sizeof unit_bytes, &len, &unit));
            if (len != l->size)
                exit(1);
        }
    }
}

static void measure(const line *l)
{
    jilqamur_end a = JILQAMUR_END_CLOSED, b = JILQAMUR_END_CLOSED;
    size_t rounds = 200000 / l->size < 1000 ? 200000 / l->size : 1000;
    double sent = 1e18, received = 1e18, bytes = (double)(l->size * rounds);
    memset(sample, 8, l->size);
    memcpy(sample, l->head, l->head_len);
    connect(&a, &b, l);
    for (int i = 0; i < SLICES; i++) {
        double start = now();
        send_slice(&a, l, rounds);
        double middle = now();
        receive_slice(&b, l);
        double end = now();
        sent = middle - start < sent ? middle - start : sent;
        received = end - middle < received ? end - middle : received;
    }
    fprintf(stderr, "%s, %zu bytes: %.0f MB a second sent, %.0f received and polled\n", l->name, l->size,
            bytes * 1e3 / sent, bytes * 1e3 / received);
    need(jilqamur_end_close(&a));
    need(jilqamur_end_close(&b));
}

int main(void)
{
    for (size_t i = 0; i < sizeof lines / sizeof lines[0]; i++)
        measure(&lines[i]);
    return 0;
}
