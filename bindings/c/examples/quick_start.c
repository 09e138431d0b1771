/* Two ends agree on Opus by an offer and an answer, and one sends three samples to the other: crates/quick_start in C.
 */
#include <inttypes.h>
#include <stdio.h>
#include <stdlib.h>

#include "jilqamur.h"

/* Ends the program if a call was refused. */
static void check(uint32_t answer)
{
    if (answer == JILQAMUR_OK)
        return;
    fprintf(stderr, "%s\n", jilqamur_error_text(answer));
    exit(1);
}

/* Opens an end that has Opus at payload type 111, and one section, 0, of audio in both directions, with this SSRC. */
static void open_end(jilqamur_end *end, uint64_t session, uint32_t ssrc)
{
    jilqamur_row opus = {.payload_type = 111, .clock_rate = 48000, .has_channels = true, .channels = 2};
    check(jilqamur_end_open(end));
    check(jilqamur_end_row(end, &opus, JILQAMUR_TEXT("opus"), JILQAMUR_TEXT("minptime=10;useinbandfec=1")));
    check(jilqamur_end_make(end, session));
    check(jilqamur_end_section(end, JILQAMUR_TEXT("0"), false, true, true, &ssrc, 1));
}

/* Exchanges an offer and an answer: the two texts are all that travels. */
static void exchange(jilqamur_end *a, jilqamur_end *b)
{
    static uint8_t text[8192];
    size_t len;
    check(jilqamur_end_offer(a));
    check(jilqamur_end_text(a, text, sizeof text, &len));
    check(jilqamur_end_answer(b, text, len));
    check(jilqamur_end_text(b, text, sizeof text, &len));
    check(jilqamur_end_accept(a, text, len));
}

/* Takes a datagram from the network in, and prints the frames that are due then. */
static void receive(jilqamur_end *end, const uint8_t *datagram, size_t datagram_len)
{
    static uint8_t frame[65536];
    size_t stream, len;
    uint64_t number;
    uint32_t answer;
    jilqamur_unit unit;
    if (jilqamur_end_receive(end, datagram, datagram_len, &stream, &number) != JILQAMUR_OK)
        return; /* it belongs to no stream, is damaged or came before */
    while ((answer = jilqamur_end_poll(end, stream)) != JILQAMUR_NOTHING) {
        if (answer == JILQAMUR_PAYLOAD)
            continue; /* the codec can't read the next frame, which is passed over */
        check(answer);
        check(jilqamur_end_unit(end, frame, sizeof frame, &len, &unit));
        printf("at %" PRIu32 ": ", unit.time);
        for (size_t i = 0; i < len; i++)
            printf("%s%d", i ? ", " : "[", frame[i]);
        printf("]\n");
    }
}

/* Sends a sample at a time in ticks of 48,000 Hz. Its datagrams would go out to the network; here they go to b. */
static void send_sample(jilqamur_end *a, size_t stream, uint64_t ticks, const uint8_t *sample, size_t len,
                        jilqamur_end *b)
{
    static uint8_t datagram[1400];
    size_t count, datagram_len;
    jilqamur_values none = {0};
    check(jilqamur_end_push_sample(a, stream, ticks, &none, JILQAMUR_TEXT(""), sample, len, &count));
    for (size_t i = 0; i < count; i++) {
        check(jilqamur_end_datagram(a, i, datagram, sizeof datagram, &datagram_len));
        receive(b, datagram, datagram_len);
    }
}

int main(void)
{
    jilqamur_end a = JILQAMUR_END_CLOSED, b = JILQAMUR_END_CLOSED;
    jilqamur_stream params = {.first = 1000, .mtu = 1200, .limit = 1400};
    size_t sender, receiver;
    open_end(&a, 1, 44);
    open_end(&b, 2, 45);
    exchange(&a, &b);
    check(jilqamur_end_open_sender(&a, JILQAMUR_TEXT("0"), 44, 111, &params, JILQAMUR_TEXT(""), &sender));
    check(jilqamur_end_open_receiver(&b, JILQAMUR_TEXT("0"), 44, 111, 4, JILQAMUR_MIN_HELD, &receiver));
    for (uint8_t k = 0; k < 3; k++) {
        const uint8_t sample[] = {k, 2, 3};
        send_sample(&a, sender, 960 * k, sample, sizeof sample, &b);
    }
    check(jilqamur_end_close(&a));
    check(jilqamur_end_close(&b));
    return 0;
}
