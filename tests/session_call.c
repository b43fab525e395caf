/* session_call.c - see session_call.h. */
#include "session_call.h"

#include <sanitizer/asan_interface.h>
#include <stdbool.h>
#include <stdio.h>
#include <stdlib.h>
#include <string.h>

enum { GUARD = 64, ALIGNMENTS = 16, PATTERN = 4096 };

/* Before the buffers of a call, between two guards; they differ from call to call, so that a byte written and not meant to be shows. */
static uint8_t guard_bytes[GUARD], pattern[2 * PATTERN];

static void make_patterns(void)
{
    uint64_t word = UINT64_C(0x9E3779B97F4A7C15);

    for (size_t i = 0; i < sizeof pattern; i++) {
        word = word * UINT64_C(6364136223846793005) + UINT64_C(1442695040888963407);
        pattern[i] = (uint8_t)(word >> 56);
    }
    /* The first is a newline, then what a record may begin with: a reader that looks past its portion finds them. */
    memcpy(guard_bytes, "\nkind=7\na=1\nb=1\nc=1\nkind=6\na=0\nb=0\nc=0\nkind=6\na=0\nb=0\nc=0\nkind=6", GUARD);
}

static void fill_bytes(uint8_t *bytes, size_t len, uint64_t fill)
{
    for (size_t at = 0; at < len; at += PATTERN)
        memcpy(bytes + at, pattern + fill % PATTERN, len - at < PATTERN ? len - at : PATTERN);
}

/* A buffer between two guards, in the block of its place. */
static uint8_t *lend(feed_buffers *buffers, int place, size_t len, uint64_t fill)
{
    size_t front = GUARD + fill % ALIGNMENTS, need = front + len + GUARD;
    uint8_t *bytes;

    if (buffers->of[place].room < need) {
        free(buffers->of[place].block);
        buffers->of[place].room = need < 4096 ? 4096 : 2 * need;
        buffers->of[place].block = malloc(buffers->of[place].room);
        if (buffers->of[place].block == NULL) {
            fprintf(stderr, "no memory for %zu bytes\n", buffers->of[place].room);
            exit(1);
        }
    }
    bytes = buffers->of[place].block + front;
    memcpy(bytes - GUARD, guard_bytes, GUARD);
    memcpy(bytes + len, guard_bytes, GUARD);
    return bytes;
}

/* Where the address sanitizer runs it also catches a guard that is only read. */
static void close_guards(const uint8_t *bytes, size_t len)
{
    ASAN_POISON_MEMORY_REGION(bytes - GUARD, GUARD);
    ASAN_POISON_MEMORY_REGION(bytes + len, GUARD);
}

static bool guards_hold(const uint8_t *bytes, size_t len)
{
    ASAN_UNPOISON_MEMORY_REGION(bytes - GUARD, GUARD);
    ASAN_UNPOISON_MEMORY_REGION(bytes + len, GUARD);
    return memcmp(bytes - GUARD, guard_bytes, GUARD) == 0 && memcmp(bytes + len, guard_bytes, GUARD) == 0;
}

feed_result feed_call(feed_function *feed, feed_buffers *buffers, const feed_input *in)
{
    uint8_t *lent[5];
    const size_t len[5] = { FEED_SESSION, in->portion_lent, in->room, FEED_REPORT, FEED_PROGRESS };
    const size_t said[5] = { in->session_len, in->portion_len, in->room, in->report_len, in->progress_len };
    uint8_t *given[5];
    feed_result result;

    if (guard_bytes[0] == 0)
        make_patterns();
    for (int i = 0; i < 5; i++) {
        lent[i] = lend(buffers, i, len[i], in->fill >> 4 * i);
        given[i] = said[i] == 0 && (in->fill >> (32 + i) & 1) ? NULL : lent[i];
    }
    memcpy(lent[0], in->session, len[0]);
    if (len[1] > 0)
        memcpy(lent[1], in->portion, len[1]);
    for (int i = 2; i < 5; i++)
        fill_bytes(lent[i], len[i], (in->fill >> 40) + (uint64_t)i);
    for (int i = 0; i < 5; i++)
        close_guards(lent[i], len[i]);

    result.code = feed(given[0], said[0], given[1], said[1], in->end, given[2], said[2], given[3], said[3], given[4], said[4]);

    result.spoilt = 0;
    for (int i = 0; i < 5; i++)
        if (!guards_hold(lent[i], len[i]))
            result.spoilt |= 1u << i;
    if (len[1] > 0 && memcmp(lent[1], in->portion, len[1]) != 0)
        result.spoilt |= SPOILT_PORTION;
    memcpy(result.session, lent[0], FEED_SESSION);
    memcpy(result.report, lent[3], FEED_REPORT);
    memcpy(result.progress, lent[4], FEED_PROGRESS);
    result.output = lent[2];
    return result;
}
