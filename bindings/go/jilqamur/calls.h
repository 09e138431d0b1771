/* Calls that this package makes in one step, since each step from Go to C costs as much as a short call. */
#ifndef JILQAMUR_GO_CALLS_H
#define JILQAMUR_GO_CALLS_H

#include <stdlib.h>

#include "jilqamur.h"

/* What such a call tells beside what it copies. */
typedef struct told {
    size_t count;    /* how many datagrams a sample has */
    size_t copied;   /* how many datagrams, or units, were copied one after the other */
    size_t needed;   /* how many bytes the next one has, if there was no room for it */
    size_t stream;   /* the stream that took a datagram */
    uint64_t number; /* its widened sequence number */
    uint32_t polled; /* what the last poll answered; JILQAMUR_TOO_SMALL if a unit is left to be fetched */
    size_t done;     /* of a batch: how many samples or datagrams were handed in */
    bool is_within;  /* of a batch: whether the last one of these has datagrams or units left */
} told;

/* What came of a datagram of a batch. */
typedef struct taken {
    uint32_t answer; /* whether it was taken */
    size_t stream;   /* the stream that took it */
    uint64_t number; /* its widened sequence number */
    size_t units;    /* how many units its stream had ready then */
} taken;

/* Room for what is copied: bytes, and where each datagram or unit ends in them. */
#define ROOM uint8_t *bytes, size_t room, size_t *ends, size_t most

/* A closed handle; null if there is no memory. Each has a flag and a pointer. */
static inline void *new_handle(void) { return calloc(1, sizeof(jilqamur_end)); }

/* Copies datagrams, from the one of index told->copied on, while there is room. */
#define COPY_DATAGRAMS(kind)                                                                                           \
    static inline void copy_from_##kind(jilqamur_##kind *handle, ROOM, told *told)                                     \
    {                                                                                                                  \
        size_t at = told->copied == 0 ? 0 : ends[told->copied - 1];                                                    \
        told->needed = 0;                                                                                              \
        for (size_t len = 0; told->copied < told->count && told->copied < most; ends[told->copied++] = at += len)      \
            if (jilqamur_##kind##_datagram(handle, told->copied, bytes + at, room - at, &len) != JILQAMUR_OK) {        \
                told->needed = len;                                                                                    \
                return;                                                                                                \
            }                                                                                                          \
    }
COPY_DATAGRAMS(end)
COPY_DATAGRAMS(sender)

static inline uint32_t push_to_end(jilqamur_end *end, size_t stream, uint64_t ticks, const jilqamur_values *values,
                                   const uint8_t *mid, size_t mid_len, const uint8_t *sample, size_t sample_len, ROOM,
                                   told *told)
{
    uint32_t answer = jilqamur_end_push_sample(end, stream, ticks, values, mid, mid_len, sample, sample_len,
                                               &told->count);
    told->copied = 0;
    if (answer == JILQAMUR_OK)
        copy_from_end(end, bytes, room, ends, most, told);
    return answer;
}

static inline uint32_t push_to_sender(jilqamur_sender *sender, uint64_t ticks, const uint8_t *sample, size_t len, ROOM,
                                      told *told)
{
    uint32_t answer = jilqamur_sender_push_sample(sender, ticks, sample, len, &told->count);
    told->copied = 0;
    if (answer == JILQAMUR_OK)
        copy_from_sender(sender, bytes, room, ends, most, told);
    return answer;
}

/* Polls and copies the unit: what the poll answers, or JILQAMUR_TOO_SMALL, and the unit is left to be fetched. */
#define POLL_UNIT(name, kind, poll)                                                                                    \
    static inline uint32_t name(jilqamur_##kind *handle, uint8_t *bytes, size_t room, size_t *needed,                  \
                                jilqamur_unit *unit)                                                                   \
    {                                                                                                                  \
        uint32_t answer = jilqamur_##kind##_##poll(handle);                                                            \
        return answer == JILQAMUR_OK ? jilqamur_##kind##_unit(handle, bytes, room, needed, unit) : answer;             \
    }
POLL_UNIT(poll_receiver, receiver, poll)
POLL_UNIT(drain_receiver, receiver, drain)
POLL_UNIT(pop_depacketizer, depacketizer, pop)
POLL_UNIT(drain_depacketizer, depacketizer, drain)

static inline uint32_t poll_end(jilqamur_end *end, size_t stream, bool is_rest, uint8_t *bytes, size_t room,
                                size_t *needed, jilqamur_unit *unit)
{
    uint32_t answer = is_rest ? jilqamur_end_drain(end, stream) : jilqamur_end_poll(end, stream);
    return answer == JILQAMUR_OK ? jilqamur_end_unit(end, bytes, room, needed, unit) : answer;
}

/* Polls a stream and copies its units while there is room. Frames that the codec can't read are passed over. */
static inline void poll_all(jilqamur_end *end, size_t stream, bool is_rest, ROOM, jilqamur_unit *units, told *told)
{
    size_t at = 0, len = 0;
    for (told->copied = 0; told->copied < most; ends[told->copied++] = at += len) {
        do
            told->polled = poll_end(end, stream, is_rest, bytes + at, room - at, &len, &units[told->copied]);
        while (told->polled == JILQAMUR_PAYLOAD);
        if (told->polled != JILQAMUR_OK) {
            told->needed = len;
            return;
        }
    }
}

/* Takes a datagram, and polls the stream that took it. */
static inline uint32_t receive_all(jilqamur_end *end, const uint8_t *datagram, size_t datagram_len, ROOM,
                                   jilqamur_unit *units, told *told)
{
    uint32_t answer = jilqamur_end_receive(end, datagram, datagram_len, &told->stream, &told->number);
    told->copied = 0;
    if (answer == JILQAMUR_OK)
        poll_all(end, told->stream, false, bytes, room, ends, most, units, told);
    return answer;
}

/* Sends samples, one after the other in some memory, from the one of index told->done on, while there is room for
 * datagrams: what the first that is refused answers, else JILQAMUR_OK. next is the first datagram of the last sample
 * that wasn't copied yet. */
static inline uint32_t push_batch(jilqamur_end *end, size_t stream, const uint64_t *ticks, const uint8_t *samples,
                                  const size_t *sample_ends, size_t samples_count, const jilqamur_values *values,
                                  const uint8_t *mid, size_t mid_len, ROOM, size_t *next, told *told)
{
    size_t at = 0, len = 0;
    told->copied = 0;
    while (told->done < samples_count || told->is_within) {
        if (!told->is_within) {
            size_t i = told->done, begin = i == 0 ? 0 : sample_ends[i - 1];
            uint32_t answer = jilqamur_end_push_sample(end, stream, ticks[i], values, mid, mid_len, samples + begin,
                                                       sample_ends[i] - begin, &told->count);
            if (answer != JILQAMUR_OK)
                return answer;
            told->done++;
            told->is_within = true;
            *next = 0;
        }
        for (; *next < told->count; ends[told->copied++] = at += len, ++*next)
            if (told->copied == most || jilqamur_end_datagram(end, *next, bytes + at, room - at, &len) != JILQAMUR_OK)
                return JILQAMUR_OK;
        told->is_within = false;
    }
    return JILQAMUR_OK;
}

/* Takes datagrams, one after the other in some memory, from the one of index told->done on, and polls after each, while
 * there is room for units. */
static inline void receive_batch(jilqamur_end *end, const uint8_t *datagrams, const size_t *datagram_ends, size_t count,
                                 taken *taken, ROOM, jilqamur_unit *units, told *told)
{
    size_t at = 0, len = 0;
    told->copied = 0;
    while (told->done < count || told->is_within) {
        if (!told->is_within) {
            size_t i = told->done++, begin = i == 0 ? 0 : datagram_ends[i - 1];
            taken[i].units = 0;
            taken[i].answer = jilqamur_end_receive(end, datagrams + begin, datagram_ends[i] - begin, &taken[i].stream,
                                                   &taken[i].number);
            if (taken[i].answer != JILQAMUR_OK)
                continue;
            told->is_within = true;
        }
        for (; told->copied < most; ends[told->copied++] = at += len, taken[told->done - 1].units++) {
            do
                told->polled = poll_end(end, taken[told->done - 1].stream, false, bytes + at, room - at, &len,
                                        &units[told->copied]);
            while (told->polled == JILQAMUR_PAYLOAD);
            if (told->polled != JILQAMUR_OK)
                break;
        }
        told->needed = len;
        if (told->polled != JILQAMUR_NOTHING)
            return;
        told->is_within = false;
    }
}

#endif
