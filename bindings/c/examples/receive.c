/* Reads datagrams, one a line in hexadecimal after "receive E", and says of each what `rtplines` says of it at an end
 * whose one receiving stream has the SSRC and the payload type that are given. With FUZZ N, N random datagrams. */
#include <inttypes.h>
#include <stdio.h>
#include <stdlib.h>
#include <string.h>

#include "jilqamur.h"

enum { MOST = 2048 };

static const char *verdict(jilqamur_window *window, uint32_t ssrc, uint8_t type, const uint8_t *datagram, size_t len,
                           uint64_t *number)
{
    jilqamur_header header;
    if (jilqamur_header_read(datagram, len, &header) != JILQAMUR_OK)
        return "unreadable";
    if (header.ssrc != ssrc || header.payload_type != type)
        return "foreign";
    size_t payload;
    uint32_t unpadded = jilqamur_payload_unpad(header.has_padding, datagram + header.header_len,
                                               len - header.header_len, &payload);
    if (unpadded != JILQAMUR_OK || payload == 0)
        return "damaged";
    return jilqamur_window_receive(window, datagram, len, number) == JILQAMUR_OK ? "taken" : "refused";
}

static size_t from_hex(const char *text, uint8_t *bytes)
{
    size_t len = 0;
    unsigned byte;
    while (len < MOST && sscanf(text + 2 * len, "%2x", &byte) == 1)
        bytes[len++] = (uint8_t)byte;
    return len;
}

/* A header that was read is written as it was read, if it has no extension block. */
static void write_again(const uint8_t *datagram, size_t len)
{
    jilqamur_header header;
    uint8_t copy[72];
    size_t needed = 0;
    if (jilqamur_header_read(datagram, len, &header) != JILQAMUR_OK || header.has_extension)
        return;
    if (jilqamur_header_write(&header, copy, 0, &needed) != JILQAMUR_TOO_SMALL || needed != header.header_len
        || jilqamur_header_write(&header, copy, sizeof copy, &needed) != JILQAMUR_OK
        || memcmp(copy, datagram, needed) != 0)
        abort();
}

static void fuzz(jilqamur_window *window, long count)
{
    uint64_t seed = 1, number = 0;
    long taken = 0;
    for (long i = 0; i < count; i++) {
        size_t len = (size_t)(seed >> 33) % 64;
        uint8_t *datagram = malloc(len ? len : 1);
        if (!datagram)
            exit(1);
        for (size_t k = 0; k < len; k++) {
            seed = seed * 6364136223846793005u + 1442695040888963407u;
            datagram[k] = (uint8_t)(seed >> 56);
        }
        seed = seed * 6364136223846793005u + 1442695040888963407u;
        if (len && i % 2)
            datagram[0] = (uint8_t)(0x80 | datagram[0] % 64);
        write_again(datagram, len);
        taken += jilqamur_window_receive(window, datagram, len, &number) == JILQAMUR_OK;
        free(datagram);
    }
    printf("%ld datagrams, %s\n", count, taken ? "some taken" : "none taken");
}

int main(int argc, char **argv)
{
    jilqamur_window window = JILQAMUR_WINDOW_CLOSED;
    uint64_t number = 0;
    if (argc < 3 || jilqamur_window_receive(&window, (const uint8_t *)"", 0, &number) != JILQAMUR_CLOSED)
        return 1;
    if (jilqamur_window_open(&window) != JILQAMUR_OK || jilqamur_window_open(&window) != JILQAMUR_IN_USE)
        return 1;
    if (strcmp(argv[1], "FUZZ") == 0) {
        fuzz(&window, strtol(argv[2], NULL, 10));
    } else {
        uint32_t ssrc = (uint32_t)strtoul(argv[1], NULL, 10);
        uint8_t type = (uint8_t)strtoul(argv[2], NULL, 10);
        static char line[2 * MOST + 64];
        static uint8_t datagram[MOST];
        while (fgets(line, sizeof line, stdin)) {
            if (strncmp(line, "receive ", 8) != 0)
                continue;
            size_t len = from_hex(line + 10, datagram);
            const char *said = verdict(&window, ssrc, type, datagram, len, &number);
            if (strcmp(said, "taken") == 0)
                printf("taken 0 %" PRIu64 "\n", number);
            else
                printf("%s\n", said);
        }
    }
    return jilqamur_window_close(&window) == JILQAMUR_OK && jilqamur_window_close(&window) == JILQAMUR_CLOSED ? 0 : 1;
}
