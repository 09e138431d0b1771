/* Answers a browser's offer, which it reads, of audio, video and data: what the browser gets, and what its offer tells
 * of its transport. */
#include <stdio.h>
#include <stdlib.h>

#include "jilqamur.h"

enum { MOST_TEXT = 1 << 16 };

/* Ends the program if a call was refused. */
static void check(uint32_t answer)
{
    if (answer == JILQAMUR_OK)
        return;
    fprintf(stderr, "%s\n", jilqamur_error_text(answer));
    exit(1);
}

/* Answers the offer of len bytes, and makes the answer one for the browser; credentials and certificate are those of
 * the program's transport. */
static void answer(jilqamur_end *end, uint8_t *text, size_t len)
{
    const uint32_t audio = 44, video = 45, repairs = 46;
    uint8_t digest[32];
    for (size_t i = 0; i < sizeof digest; i++)
        digest[i] = 0x5a;
    check(jilqamur_end_request(end, true, true, true, &audio, 1));
    check(jilqamur_end_section_repair(end, video, repairs));
    check(jilqamur_end_request(end, true, true, true, &video, 1));
    check(jilqamur_end_answer_browser(end, text, len));
    check(jilqamur_end_text(end, text, MOST_TEXT, &len));
    check(jilqamur_end_for_browser(end, text, len, JILQAMUR_PASSIVE, false, JILQAMUR_TEXT("F7gI"),
                                   JILQAMUR_TEXT("x9cml/YzichV2+XlhiMu8g"), JILQAMUR_TEXT("sha-256"), digest,
                                   sizeof digest));
    check(jilqamur_end_text(end, text, MOST_TEXT, &len));
    check(jilqamur_end_take_types(end, text, len)); /* streams go by what each section lists */
    printf("%.*s", (int)len, (const char *)text);
}

static void print_remote(jilqamur_end *end, uint8_t *text)
{
    static const char *const names[] = {"name", "password", "fingerprint"};
    jilqamur_remote remote;
    size_t len;
    for (uint8_t part = JILQAMUR_UFRAG; part <= JILQAMUR_FINGERPRINT; part++) {
        check(jilqamur_end_remote_text(end, part, text, MOST_TEXT, &len));
        printf("%s %.*s\n", names[part], (int)len, (const char *)text);
    }
    check(jilqamur_end_remote(end, &remote));
    for (size_t i = 0; i < remote.candidates; i++) {
        check(jilqamur_end_remote_candidate(end, i, text, MOST_TEXT, &len));
        printf("%.*s\n", (int)len, (const char *)text);
    }
}

int main(void)
{
    static uint8_t text[MOST_TEXT];
    jilqamur_end end = JILQAMUR_END_CLOSED;
    size_t len = fread(text, 1, sizeof text, stdin);
    check(jilqamur_end_open(&end));
    check(jilqamur_end_default_rows(&end));
    check(jilqamur_end_extension(&end, 4, JILQAMUR_TEXT("urn:ietf:params:rtp-hdrext:sdes:mid")));
    check(jilqamur_end_make(&end, 1));
    answer(&end, text, len);
    print_remote(&end, text);
    check(jilqamur_end_close(&end));
    return 0;
}
