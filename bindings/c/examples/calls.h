/* What the parts of calls.c share: printing of answers, bytes and what is told. */
#ifndef CALLS_H
#define CALLS_H

#include <inttypes.h>
#include <stdio.h>
#include <stdlib.h>
#include <string.h>

#include "jilqamur.h"

enum { MOST = 1 << 15 };

static uint8_t bytes[MOST];

static inline void say(const char *what, uint32_t answer)
{
    printf("%s: %s\n", what, jilqamur_error_text(answer));
}

/* Ends the program if a call is refused that must not be. */
static inline void check(uint32_t answer)
{
    if (answer == JILQAMUR_OK)
        return;
    printf("refused: %s\n", jilqamur_error_text(answer));
    exit(1);
}

static inline void hex(const char *what, const uint8_t *from, size_t len)
{
    printf("%s ", what);
    for (size_t i = 0; i < len; i++)
        printf("%02x", from[i]);
    printf("\n");
}

static inline void say_unit(const jilqamur_unit *u, size_t len)
{
    printf("unit %" PRIu64 " to %" PRIu64 " at %" PRIu32 ", keyframe %d", u->first, u->last, u->time, u->is_keyframe);
    if (u->has_picture_id)
        printf(", picture %u", u->picture_id);
    if (u->has_base_layer)
        printf(", base layer %u", u->base_layer);
    if (u->has_event)
        printf(", event %u end %d volume %u duration %" PRIu64, u->event, u->event_end, u->event_volume,
               u->event_duration);
    hex(":", bytes, len);
}

static inline void say_values(const jilqamur_values *v)
{
    printf("values");
    if (v->has_audio_level)
        printf(" level %d", v->audio_level);
    if (v->has_voice_activity)
        printf(" voice %d", v->voice_activity);
    if (v->has_abs_send_time)
        printf(" sent %" PRIu64, v->abs_send_time);
    if (v->has_transport_cc)
        printf(" cc %u", v->transport_cc);
    if (v->has_video_orientation)
        printf(" turn %u", v->video_orientation);
    if (v->has_play_delay_min)
        printf(" least %u", v->play_delay_min);
    if (v->has_play_delay_max)
        printf(" most %u", v->play_delay_max);
    if (v->has_video_content_type)
        printf(" content %u", v->video_content_type);
    if (v->has_capture_time)
        printf(" captured %" PRIu64, v->capture_time);
    if (v->has_clock_offset)
        printf(" offset %" PRId64, v->clock_offset);
    printf("\n");
}

#endif
