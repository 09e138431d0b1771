/* Reads lines of rtplines over two ends, a and b, and prints what rtplines prints: rows, ends, offers and answers,
 * streams, samples, datagrams and units. `fixed`, `connect`, `queue` and `play` are not among them. */
#include <inttypes.h>
#include <stdio.h>
#include <stdlib.h>
#include <string.h>

#include "jilqamur.h"

enum { MOST_LINE = 1 << 16, MOST_WORDS = 16 };

static const char *const refusals[] = {
    [JILQAMUR_MEMORY] = "Memory",
    [JILQAMUR_ROW_NOT_PLAIN] = "RowNotPlain",
    [JILQAMUR_TYPES_NOT_DISTINCT] = "TypesNotDistinct",
    [JILQAMUR_NOT_WRITABLE] = "NotWritable",
    [JILQAMUR_TEXT_UNREADABLE] = "Unreadable",
    [JILQAMUR_OUT_OF_TURN] = "OutOfTurn",
    [JILQAMUR_NOT_MEDIA] = "NotMedia",
    [JILQAMUR_NOT_CORRESPONDING] = "NotCorresponding",
    [JILQAMUR_ROUND] = "Round",
    [JILQAMUR_NO_COMMON_ROW] = "NoCommonRow",
    [JILQAMUR_NO_SECTION] = "NoSection",
    [JILQAMUR_ROW_NOT_AGREED] = "RowNotAgreed",
    [JILQAMUR_ROW_DIFFERS] = "RowDiffers",
    [JILQAMUR_WRONG_DIRECTION] = "WrongDirection",
    [JILQAMUR_SSRC_NOT_NAMED] = "SsrcNotNamed",
    [JILQAMUR_ALREADY_OPEN] = "AlreadyOpen",
    [JILQAMUR_STREAM_FAILED] = "StreamFailed",
    [JILQAMUR_TIME_TOO_LARGE] = "TimeTooLarge",
    [JILQAMUR_LIMIT_TOO_SMALL] = "LimitTooSmall",
    [JILQAMUR_PAYLOAD] = "Payload",
    [JILQAMUR_NO_REPAIR] = "NoRepair",
    [JILQAMUR_NOT_OWN] = "NotOwn",
};

/* Prints what became of a call. */
static void say(uint32_t answer)
{
    if (answer == JILQAMUR_OK)
        printf("ok\n");
    else if (answer < sizeof refusals / sizeof refusals[0] && refusals[answer])
        printf("refused %s\n", refusals[answer]);
    else
        printf("error line\n");
}

static void print_bytes(const uint8_t *bytes, size_t len)
{
    for (size_t i = 0; i < len; i++)
        printf("%02x", bytes[i]);
    printf("\n");
}

static uint64_t number(const char *word) { return strtoull(word, NULL, 10); }

static const uint8_t *bytes_of(const char *word) { return (const uint8_t *)word; }

/* Bytes in hexadecimal, in place of the word. */
static size_t from_hex(char *word)
{
    size_t len = strlen(word) / 2;
    unsigned byte;
    for (size_t i = 0; i < len && sscanf(word + 2 * i, "%2x", &byte) == 1; i++)
        word[i] = (char)byte;
    return len;
}

static void row(jilqamur_end *end, char **w)
{
    jilqamur_row row = {
        .payload_type = (uint8_t)number(w[2]),
        .has_resend = *w[3] != '-',
        .resend = (uint8_t)number(w[3]),
        .has_red = *w[4] != '-',
        .red = (uint8_t)number(w[4]),
        .clock_rate = (uint32_t)number(w[6]),
        .has_channels = *w[7] != '-',
        .channels = (uint8_t)number(w[7]),
    };
    const char *format = strcmp(w[8], "-") == 0 ? "" : w[8];
    say(jilqamur_end_row(end, &row, bytes_of(w[5]), strlen(w[5]), bytes_of(format), strlen(format)));
}

/* MID:KIND:DIRECTION:SOURCE,SOURCE, each SSRC or SSRC+REPAIR */
static void section(jilqamur_end *end, char *word)
{
    char *kind = strchr(word, ':'), *direction = strchr(kind + 1, ':'), *ssrcs = strchr(direction + 1, ':');
    uint32_t named[8];
    size_t count = 0;
    for (char *at = ssrcs, *end_of; at && at[1] && count < 8; at = strchr(at + 1, ',')) {
        named[count++] = (uint32_t)strtoull(at + 1, &end_of, 10);
        if (*end_of == '+' && jilqamur_end_section_repair(end, named[count - 1], (uint32_t)number(end_of + 1)))
            exit(1);
    }
    bool is_video = strncmp(kind, ":video", 6) == 0;
    bool both = strncmp(direction, ":sendrecv", 9) == 0;
    bool sends = both || strncmp(direction, ":sendonly", 9) == 0;
    bool receives = both || strncmp(direction, ":recvonly", 9) == 0;
    uint32_t answer = jilqamur_end_section(end, bytes_of(word), (size_t)(kind - word), is_video, sends, receives,
                                           named, count);
    if (answer != JILQAMUR_OK)
        exit(1);
}

/* Fetches a text: once for its size, and once for its bytes. */
static void print_text(jilqamur_end *end, uint32_t answer)
{
    size_t needed = 0;
    if (answer != JILQAMUR_OK) {
        say(answer);
        return;
    }
    if (jilqamur_end_text(end, (uint8_t *)"", 0, &needed) != JILQAMUR_TOO_SMALL)
        exit(1);
    uint8_t *text = malloc(needed);
    if (!text || jilqamur_end_text(end, text, needed, &needed) != JILQAMUR_OK)
        exit(1);
    printf("text ");
    print_bytes(text, needed);
    free(text);
}

static void print_stream(const char *word, uint32_t answer, size_t stream)
{
    if (answer == JILQAMUR_OK)
        printf("%s %zu\n", word, stream);
    else
        say(answer);
}

/* send E MID SSRC PT FIRST MTU LIMIT DISTANCES PICTUREID */
static void open_sender(jilqamur_end *end, char **w)
{
    jilqamur_stream params = {
        .first = number(w[5]),
        .mtu = (size_t)number(w[6]),
        .limit = (size_t)number(w[7]),
        .has_red = *w[8] != '-',
        .has_picture_id = *w[9] != '-',
        .picture_id = (uint16_t)number(w[9]),
    };
    uint8_t distances[8];
    size_t count = 0, stream = 0;
    for (char *at = w[8]; params.has_red && at && count < 8; at = strchr(at, ','), at = at ? at + 1 : at)
        distances[count++] = (uint8_t)number(at);
    uint32_t answer = jilqamur_end_open_sender(end, bytes_of(w[2]), strlen(w[2]), (uint32_t)number(w[3]),
                                               (uint8_t)number(w[4]), &params, distances, count, &stream);
    print_stream("sender", answer, stream);
}

/* open E MID SSRC PT HOLDBACK [HELD] */
static void open_receiver(jilqamur_end *end, char **w, size_t words)
{
    size_t stream = 0, held = words > 6 ? (size_t)number(w[6]) : JILQAMUR_MIN_HELD;
    uint32_t answer = jilqamur_end_open_receiver(end, bytes_of(w[2]), strlen(w[2]), (uint32_t)number(w[3]),
                                                 (uint8_t)number(w[4]), (size_t)number(w[5]), held, &stream);
    print_stream("receiver", answer, stream);
}

/* sample E N TIME HEX [mid=TEXT] */
static void sample(jilqamur_end *end, char **w, size_t words)
{
    const char *mid = words > 5 ? w[5] + 4 : "";
    uint8_t datagram[65536];
    size_t len = from_hex(w[4]), count = 0, needed = 0;
    jilqamur_values none = {0};
    uint32_t answer = jilqamur_end_push_sample(end, (size_t)number(w[2]), number(w[3]), &none, bytes_of(mid),
                                               strlen(mid), bytes_of(w[4]), len, &count);
    for (size_t i = 0; answer == JILQAMUR_OK && i < count; i++) {
        if (jilqamur_end_datagram(end, i, datagram, sizeof datagram, &needed) != JILQAMUR_OK)
            exit(1);
        printf("datagram ");
        print_bytes(datagram, needed);
    }
    say(answer);
}

/* repair E N HEX */
static void repair(jilqamur_end *end, char **w)
{
    uint8_t datagram[65536];
    size_t len = from_hex(w[3]), needed = 0;
    uint32_t answer = jilqamur_end_repair(end, (size_t)number(w[2]), bytes_of(w[3]), len);
    if (answer != JILQAMUR_OK) {
        say(answer);
        return;
    }
    if (jilqamur_end_datagram(end, 0, datagram, sizeof datagram, &needed) != JILQAMUR_OK)
        exit(1);
    printf("datagram ");
    print_bytes(datagram, needed);
}

static void receive(jilqamur_end *end, char *word)
{
    size_t stream = 0, len = from_hex(word);
    uint64_t taken = 0;
    switch (jilqamur_end_receive(end, bytes_of(word), len, &stream, &taken)) {
    case JILQAMUR_OK: printf("taken %zu %" PRIu64 "\n", stream, taken); break;
    case JILQAMUR_UNREADABLE: printf("unreadable\n"); break;
    case JILQAMUR_FOREIGN: printf("foreign\n"); break;
    case JILQAMUR_DAMAGED: printf("damaged\n"); break;
    case JILQAMUR_REFUSED: printf("refused\n"); break;
    default: printf("error line\n");
    }
}

static void poll(jilqamur_end *end, uint32_t answer)
{
    static uint8_t bytes[1 << 20];
    size_t len = 0;
    jilqamur_unit unit;
    if (answer == JILQAMUR_OK) {
        if (jilqamur_end_unit(end, bytes, sizeof bytes, &len, &unit) != JILQAMUR_OK)
            exit(1);
        printf("unit %" PRIu64 " %" PRIu64 " %" PRIu32 " ", unit.first, unit.last, unit.time);
        print_bytes(bytes, len);
    } else if (answer == JILQAMUR_NOTHING) {
        printf("none\n");
    } else if (answer == JILQAMUR_PAYLOAD) {
        printf("fault Payload\n");
    } else {
        printf("error line\n");
    }
}

static void withdraw(jilqamur_end *end)
{
    uint32_t answer = jilqamur_end_withdraw(end);
    if (answer == JILQAMUR_NOTHING)
        printf("none\n");
    else
        say(answer);
}

static void answer_line(jilqamur_end *end, char **w, size_t words)
{
    const char *verb = w[0];
    if (strcmp(verb, "row") == 0)
        row(end, w);
    else if (strcmp(verb, "ext") == 0)
        say(jilqamur_end_extension(end, (uint8_t)number(w[2]), bytes_of(w[3]), strlen(w[3])));
    else if (strcmp(verb, "end") == 0)
        say(jilqamur_end_make(end, number(w[2])));
    else if (strcmp(verb, "offer") == 0) {
        for (size_t i = 2; i < words; i++)
            section(end, w[i]);
        print_text(end, jilqamur_end_offer(end));
    } else if (strcmp(verb, "answer") == 0) {
        for (size_t i = 3; i < words; i++)
            section(end, w[i]);
        size_t len = from_hex(w[2]);
        print_text(end, jilqamur_end_answer(end, bytes_of(w[2]), len));
    } else if (strcmp(verb, "accept") == 0) {
        size_t len = from_hex(w[2]);
        say(jilqamur_end_accept(end, bytes_of(w[2]), len));
    } else if (strcmp(verb, "withdraw") == 0)
        withdraw(end);
    else if (strcmp(verb, "send") == 0)
        open_sender(end, w);
    else if (strcmp(verb, "open") == 0)
        open_receiver(end, w, words);
    else if (strcmp(verb, "sample") == 0)
        sample(end, w, words);
    else if (strcmp(verb, "repair") == 0)
        repair(end, w);
    else if (strcmp(verb, "receive") == 0)
        receive(end, w[2]);
    else if (strcmp(verb, "poll") == 0)
        poll(end, jilqamur_end_poll(end, (size_t)number(w[2])));
    else
        printf("error line\n");
}

static void answer_lines(jilqamur_end *a, jilqamur_end *b)
{
    static char line[MOST_LINE];
    while (fgets(line, sizeof line, stdin)) {
        char *words[MOST_WORDS] = {0};
        size_t count = 0;
        line[strcspn(line, "\n")] = 0;
        for (char *word = strtok(line, " "); word && count < MOST_WORDS; word = strtok(NULL, " "))
            words[count++] = word;
        if (count > 1)
            answer_line(*words[1] == 'a' ? a : b, words, count);
    }
}

int main(void)
{
    jilqamur_end a = JILQAMUR_END_CLOSED, b = JILQAMUR_END_CLOSED;
    if (jilqamur_end_open(&a) != JILQAMUR_OK || jilqamur_end_open(&b) != JILQAMUR_OK)
        return 1;
    answer_lines(&a, &b);
    return jilqamur_end_close(&a) == JILQAMUR_OK && jilqamur_end_close(&b) == JILQAMUR_OK ? 0 : 1;
}
