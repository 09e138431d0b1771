/* Reads a capture through replay window and depacketizer, a line `MS HEX` for each datagram, and prints what came of
 * each stream of one payload type, as crates/examples does; then each unit is packetized and read again, and what
 * came of that is printed too. The arguments are FILE CODEC TYPE; the clock rate is 48,000, which telephone events alone
 * go by. */
#include <inttypes.h>
#include <stdio.h>
#include <stdlib.h>
#include <string.h>

#include "jilqamur.h"

enum { MAX_STREAMS = 8, HOLD_BACK = 127, MTU = 1200 };

typedef struct stream {
    uint32_t ssrc;
    jilqamur_window window;
    jilqamur_depacketizer depacketizer;
    jilqamur_packetizer packetizer;
    jilqamur_depacketizer second;
    uint64_t taken, padding, refused, faults, units, bytes, keyframes, drained, packets, again, bytes_again;
    bool begins_with_keyframe;
} stream;

static stream streams[MAX_STREAMS];
static size_t stream_count;
static uint8_t datagram[1 << 16], unit_bytes[1 << 20], packet[1 << 16];

static size_t from_hex(const char *text, uint8_t *bytes, size_t room)
{
    size_t len = 0;
    unsigned byte;
    while (len < room && sscanf(text + 2 * len, "%2x", &byte) == 1)
        bytes[len++] = (uint8_t)byte;
    return len;
}

/* The stream of an SSRC, which is opened if there is none. */
static stream *stream_of(uint32_t ssrc, const char *codec)
{
    const jilqamur_format format = {.clock_rate = 48000};
    const jilqamur_packetizer_params params = {.has_picture_id = true, .picture_id = 1};
    const uint8_t *name = (const uint8_t *)codec;
    size_t len = strlen(codec);
    for (size_t i = 0; i < stream_count; i++)
        if (streams[i].ssrc == ssrc)
            return &streams[i];
    if (stream_count == MAX_STREAMS)
        exit(1);
    stream *s = &streams[stream_count++];
    s->ssrc = ssrc;
    if (jilqamur_window_open(&s->window)
        || jilqamur_depacketizer_open(&s->depacketizer, &format, name, len, HOLD_BACK, JILQAMUR_MIN_HELD)
        || jilqamur_packetizer_open(&s->packetizer, &params, &format, name, len)
        || jilqamur_depacketizer_open(&s->second, &format, name, len, 0, JILQAMUR_MIN_HELD))
        exit(1);
    return s;
}

/* Packetizes a unit, and reads the packets. */
static void send_again(stream *s, uint32_t time, size_t len)
{
    size_t count = 0, needed = 0;
    bool marker = false;
    jilqamur_unit unit;
    if (jilqamur_packetizer_packetize(&s->packetizer, MTU, unit_bytes, len, &count) != JILQAMUR_OK)
        return;
    for (size_t i = 0; i < count; i++)
        if (jilqamur_packetizer_packet(&s->packetizer, i, packet, sizeof packet, &needed, &marker)
            || jilqamur_depacketizer_push(&s->second, s->packets++, time, marker, packet, needed))
            exit(1);
    while (jilqamur_depacketizer_pop(&s->second) == JILQAMUR_OK) {
        if (jilqamur_depacketizer_unit(&s->second, unit_bytes, sizeof unit_bytes, &needed, &unit) != JILQAMUR_OK)
            exit(1);
        s->again++;
        s->bytes_again += needed;
    }
}

/* Takes the units that are due, or at the end those that are complete; the answer is how many there were. */
static uint64_t take_units(stream *s, uint32_t (*next)(jilqamur_depacketizer *))
{
    uint64_t before = s->units;
    jilqamur_unit unit;
    size_t len = 0;
    for (uint32_t answer; (answer = next(&s->depacketizer)) != JILQAMUR_NOTHING;) {
        if (answer == JILQAMUR_MEMORY)
            exit(1);
        if (answer != JILQAMUR_OK) {
            s->faults++;
            continue;
        }
        if (jilqamur_depacketizer_unit(&s->depacketizer, unit_bytes, 0, &len, &unit) == JILQAMUR_OK && len > 0)
            exit(1);
        if (jilqamur_depacketizer_unit(&s->depacketizer, unit_bytes, sizeof unit_bytes, &len, &unit) != JILQAMUR_OK)
            exit(1);
        if (s->units++ == 0)
            s->begins_with_keyframe = unit.is_keyframe;
        s->bytes += len;
        s->keyframes += unit.is_keyframe;
        send_again(s, unit.time, len);
    }
    return s->units - before;
}

static void receive(const char *codec, uint8_t type, size_t len)
{
    jilqamur_header header;
    size_t payload = 0;
    uint64_t number = 0;
    if (jilqamur_header_read(datagram, len, &header) != JILQAMUR_OK || header.payload_type != type)
        return;
    stream *s = stream_of(header.ssrc, codec);
    const uint8_t *behind = datagram + header.header_len;
    if (jilqamur_payload_unpad(header.has_padding, behind, len - header.header_len, &payload) != JILQAMUR_OK)
        s->faults++;
    else if (payload == 0)
        s->padding++;
    else if (jilqamur_window_receive(&s->window, datagram, len, &number) != JILQAMUR_OK)
        s->refused++;
    else if (jilqamur_depacketizer_push(&s->depacketizer, number, header.timestamp, header.marker, behind, payload))
        exit(1);
    else {
        s->taken++;
        take_units(s, jilqamur_depacketizer_pop);
    }
}

static void report(const stream *s)
{
    printf("  SSRC %" PRIu32 ": %" PRIu64 " taken, %" PRIu64 " of padding alone, %" PRIu64 " refused, %" PRIu64
           " faults\n",
           s->ssrc, s->taken, s->padding, s->refused, s->faults);
    printf("  %" PRIu64 " units of %" PRIu64 " bytes, %" PRIu64 " at the end alone; %" PRIu64
           " keyframes, the first unit %s\n",
           s->units, s->bytes, s->drained, s->keyframes, s->begins_with_keyframe ? "true" : "false");
    printf("  again: %" PRIu64 " packets, %" PRIu64 " units of %" PRIu64 " bytes\n", s->packets, s->again,
           s->bytes_again);
}

int main(int argc, char **argv)
{
    static char line[2 * sizeof datagram + 64];
    if (argc < 4)
        return 1;
    printf("%s %s %s\n", argv[1], argv[2], argv[3]);
    while (fgets(line, sizeof line, stdin)) {
        char *bytes = strchr(line, ' ');
        if (line[0] != '#' && bytes)
            receive(argv[2], (uint8_t)atoi(argv[3]), from_hex(bytes + 1, datagram, sizeof datagram));
    }
    for (size_t i = 0; i < stream_count; i++) {
        stream *s = &streams[i];
        s->drained = take_units(s, jilqamur_depacketizer_drain);
        report(s);
        if (jilqamur_window_close(&s->window) || jilqamur_depacketizer_close(&s->depacketizer)
            || jilqamur_packetizer_close(&s->packetizer) || jilqamur_depacketizer_close(&s->second)
            || jilqamur_packetizer_close(&s->packetizer) != JILQAMUR_CLOSED)
            return 1;
    }
    return 0;
}
