/* Packetizes samples and prints their datagrams, and reads datagrams into units, of one codec, without an end: reads
 * the lines `sample E N TICKS HEX`, `receive E HEX` and `poll E N` of rtplines, and prints what rtplines prints at ends
 * with one such stream each. The arguments are CODEC CLOCK PT SSRC MTU PICTUREID HOLDBACK. */
#include <inttypes.h>
#include <stdio.h>
#include <stdlib.h>
#include <string.h>

#include "jilqamur.h"

static uint8_t bytes[1 << 16];

static void print_bytes(const char *words, size_t len)
{
    printf("%s", words);
    for (size_t i = 0; i < len; i++)
        printf("%02x", bytes[i]);
    printf("\n");
}

static size_t from_hex(const char *text)
{
    size_t len = 0;
    unsigned byte;
    while (len < sizeof bytes && sscanf(text + 2 * len, "%2x", &byte) == 1)
        bytes[len++] = (uint8_t)byte;
    return len;
}

static void sample(jilqamur_sender *sender, uint64_t ticks, const char *hex)
{
    size_t count = 0, needed = 0, len = from_hex(hex);
    if (jilqamur_sender_push_sample(sender, ticks, bytes, len, &count) != JILQAMUR_OK) {
        printf("refused Payload\n");
        return;
    }
    for (size_t i = 0; i < count; i++) {
        if (jilqamur_sender_datagram(sender, i, bytes, sizeof bytes, &needed) != JILQAMUR_OK)
            exit(1);
        print_bytes("datagram ", needed);
    }
    printf("ok\n");
}

static const char *receive(jilqamur_receiver *receiver, uint8_t type, uint32_t ssrc, size_t len, uint64_t *number)
{
    jilqamur_header header;
    size_t payload = 0;
    if (jilqamur_header_read(bytes, len, &header) != JILQAMUR_OK)
        return "unreadable";
    if (header.ssrc != ssrc || header.payload_type != type)
        return "foreign";
    const uint8_t *behind = bytes + header.header_len;
    uint32_t unpadded = jilqamur_payload_unpad(header.has_padding, behind, len - header.header_len, &payload);
    if (unpadded != JILQAMUR_OK || payload == 0)
        return "damaged";
    uint32_t answer = jilqamur_receiver_push(receiver, header.sequence_number, header.timestamp, header.marker, behind,
                                             payload, number);
    return answer == JILQAMUR_OK ? NULL : "refused";
}

static void poll(jilqamur_receiver *receiver)
{
    jilqamur_unit unit;
    size_t len = 0;
    uint32_t answer = jilqamur_receiver_poll(receiver);
    if (answer == JILQAMUR_NOTHING) {
        printf("none\n");
    } else if (answer == JILQAMUR_PAYLOAD) {
        printf("fault Payload\n");
    } else {
        if (answer != JILQAMUR_OK
            || jilqamur_receiver_unit(receiver, bytes, sizeof bytes, &len, &unit) != JILQAMUR_OK)
            exit(1);
        printf("unit %" PRIu64 " %" PRIu64 " %" PRIu32, unit.first, unit.last, unit.time);
        print_bytes(" ", len);
    }
}

int main(int argc, char **argv)
{
    if (argc < 8)
        return 1;
    const uint8_t *codec = (const uint8_t *)argv[1];
    uint8_t type = (uint8_t)atoi(argv[3]);
    uint32_t ssrc = (uint32_t)strtoul(argv[4], NULL, 10);
    jilqamur_format format = {.clock_rate = (uint32_t)strtoul(argv[2], NULL, 10)};
    jilqamur_sender_params params = {
        .ssrc = ssrc,
        .payload_type = type,
        .mtu = (size_t)atoi(argv[5]),
        .limit = 1400,
        .has_picture_id = true,
        .picture_id = (uint16_t)atoi(argv[6]),
    };
    jilqamur_sender sender = JILQAMUR_SENDER_CLOSED;
    jilqamur_receiver receiver = JILQAMUR_RECEIVER_CLOSED;
    if (jilqamur_sender_open(&sender, &params, &format, codec, strlen(argv[1])) != JILQAMUR_OK
        || jilqamur_receiver_open(&receiver, &format, codec, strlen(argv[1]), (size_t)atoi(argv[7]),
                                  JILQAMUR_MIN_HELD) != JILQAMUR_OK)
        return 1;
    static char line[2 * sizeof bytes + 64];
    while (fgets(line, sizeof line, stdin)) {
        char *verb = strtok(line, " "), *end = strtok(NULL, " "), *first = strtok(NULL, " \n");
        char *second = strtok(NULL, " "), *third = strtok(NULL, " \n");
        uint64_t number = 0;
        if (end && strcmp(verb, "sample") == 0 && third) {
            sample(&sender, strtoull(second, NULL, 10), third);
        } else if (end && strcmp(verb, "receive") == 0 && first) {
            const char *said = receive(&receiver, type, ssrc, from_hex(first), &number);
            if (said)
                printf("%s\n", said);
            else
                printf("taken 0 %" PRIu64 "\n", number);
        } else if (end && strcmp(verb, "poll") == 0) {
            poll(&receiver);
        }
    }
    return jilqamur_sender_close(&sender) == JILQAMUR_OK && jilqamur_sender_close(&sender) == JILQAMUR_CLOSED
                && jilqamur_receiver_close(&receiver) == JILQAMUR_OK
            ? 0
            : 1;
}
