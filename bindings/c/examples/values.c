/* An end tells what it agreed on, and sends a sample with values of header extensions, of which a later one has some
 * alone; another end tells what came. */
#include <inttypes.h>
#include <stdio.h>
#include <string.h>

#include "jilqamur.h"

static const char *const uris[] = {
    "urn:ietf:params:rtp-hdrext:ssrc-audio-level",
    "http://www.webrtc.org/experiments/rtp-hdrext/abs-send-time",
    "http://www.ietf.org/id/draft-holmer-rmcat-transport-wide-cc-extensions-01",
    "urn:3gpp:video-orientation",
    "http://www.webrtc.org/experiments/rtp-hdrext/playout-delay",
    "http://www.webrtc.org/experiments/rtp-hdrext/video-content-type",
    "http://www.webrtc.org/experiments/rtp-hdrext/abs-capture-time",
};

/* Both ends agree on Opus and on all extensions; a sends stream 0 and b receives it. */
static uint32_t connect(jilqamur_end *a, jilqamur_end *b)
{
    jilqamur_row opus = {.payload_type = 111, .clock_rate = 48000, .has_channels = true, .channels = 2};
    jilqamur_stream params = {.first = 100, .mtu = 1100, .limit = 1200};
    jilqamur_end *ends[] = {a, b};
    uint32_t ssrcs[] = {44, 45}, wrong = 0;
    static uint8_t text[8192];
    size_t len = 0, stream = 0;
    for (uint32_t i = 0; i < 2; i++) {
        wrong |= jilqamur_end_open(ends[i]);
        wrong |= jilqamur_end_row(ends[i], &opus, JILQAMUR_TEXT("opus"), JILQAMUR_TEXT(""));
        for (uint8_t k = 0; k < sizeof uris / sizeof uris[0]; k++)
            wrong |= jilqamur_end_extension(ends[i], k + 1, (const uint8_t *)uris[k], strlen(uris[k]));
        wrong |= jilqamur_end_make(ends[i], i);
        wrong |= jilqamur_end_section(ends[i], JILQAMUR_TEXT("0"), false, true, true, &ssrcs[i], 1);
    }
    wrong |= jilqamur_end_offer(a) | jilqamur_end_text(a, text, sizeof text, &len);
    wrong |= jilqamur_end_answer(b, text, len) | jilqamur_end_text(b, text, sizeof text, &len);
    wrong |= jilqamur_end_accept(a, text, len);
    wrong |= jilqamur_end_open_sender(a, JILQAMUR_TEXT("0"), 44, 111, &params, JILQAMUR_TEXT(""), &stream);
    return wrong | jilqamur_end_open_receiver(b, JILQAMUR_TEXT("0"), 44, 111, 2, JILQAMUR_MIN_HELD, &stream);
}

/* Prints the agreed sections, their rows, and the SSRCs that the other end names. */
static uint32_t print_agreed(jilqamur_end *end)
{
    uint8_t mid[16], codec[16];
    size_t len = 0, codec_len = 0;
    jilqamur_section section;
    jilqamur_row row;
    uint32_t wrong = 0, ssrc = 0;
    for (size_t k = 0; jilqamur_end_agreed_section(end, k, mid, sizeof mid, &len, &section) == JILQAMUR_OK; k++) {
        printf("section %.*s: %s, sends %d, receives %d\n", (int)len, (const char *)mid,
               section.is_video ? "video" : "audio", section.sends, section.receives);
        for (size_t i = 0; i < section.rows; i++) {
            wrong |= jilqamur_end_agreed_row(end, k, i, codec, sizeof codec, &codec_len, &row);
            printf("type %u: %.*s %u\n", row.payload_type, (int)codec_len, (const char *)codec, row.clock_rate);
        }
        for (size_t i = 0; i < section.ssrcs; i++) {
            wrong |= jilqamur_end_agreed_ssrc(end, k, i, &ssrc);
            printf("ssrc %u\n", ssrc);
        }
    }
    return wrong;
}

static void print(const jilqamur_values *v)
{
    if (v->has_audio_level)
        printf("audio_level %d\n", v->audio_level);
    if (v->has_voice_activity)
        printf("voice_activity %d\n", v->voice_activity);
    if (v->has_abs_send_time)
        printf("abs_send_time %" PRIu64 "\n", v->abs_send_time);
    if (v->has_transport_cc)
        printf("transport_cc %u\n", v->transport_cc);
    if (v->has_video_orientation)
        printf("video_orientation %u\n", v->video_orientation);
    if (v->has_play_delay_min)
        printf("play_delay_min %u\n", v->play_delay_min);
    if (v->has_play_delay_max)
        printf("play_delay_max %u\n", v->play_delay_max);
    if (v->has_video_content_type)
        printf("video_content_type %u\n", v->video_content_type);
    if (v->has_capture_time)
        printf("capture_time %" PRIu64 "\n", v->capture_time);
    if (v->has_clock_offset)
        printf("clock_offset %" PRId64 "\n", v->clock_offset);
}

/* Sends a sample with these values, and prints those of the unit that it becomes. */
static uint32_t send(jilqamur_end *a, jilqamur_end *b, uint64_t ticks, const jilqamur_values *values)
{
    static uint8_t datagram[1500];
    const uint8_t sample[] = {1, 2, 3};
    size_t count = 0, len = 0, stream = 0;
    uint64_t number = 0;
    jilqamur_values told;
    uint32_t wrong = jilqamur_end_push_sample(a, 0, ticks, values, JILQAMUR_TEXT(""), sample,
                                              sizeof sample, &count);
    wrong |= jilqamur_end_datagram(a, 0, datagram, sizeof datagram, &len);
    wrong |= jilqamur_end_receive(b, datagram, len, &stream, &number);
    wrong |= jilqamur_end_poll(b, stream) | jilqamur_end_values(b, &told);
    printf("unit %" PRIu64 "\n", number);
    if (wrong == JILQAMUR_OK)
        print(&told);
    return wrong;
}

int main(void)
{
    jilqamur_end a = JILQAMUR_END_CLOSED, b = JILQAMUR_END_CLOSED;
    jilqamur_values all = {true, -30, true, true, true, 1500000, true, 65535, true, 3, true, 10, true, 4095, true, 1,
                           true, 0x123456789abcdef0u, true, -7};
    jilqamur_values some = {.has_transport_cc = true, .transport_cc = 7, .has_capture_time = true, .capture_time = 9};
    if (connect(&a, &b) || print_agreed(&b) || jilqamur_end_values(&b, &some) != JILQAMUR_NOTHING)
        return 1;
    if (send(&a, &b, 0, &all) || send(&a, &b, 960, &some))
        return 1;
    return jilqamur_end_close(&a) | jilqamur_end_close(&b) ? 1 : 0;
}
