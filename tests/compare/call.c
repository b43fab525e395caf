/* call.c - see call.h. */
#include "call.h"

#include <sanitizer/asan_interface.h>
#include <stdbool.h>
#include <stdio.h>
#include <stdlib.h>
#include <string.h>

enum { GUARD = 64, ALIGNMENTS = 16 };

/* A buffer between two guards. */
typedef struct {
    uint8_t *block, *bytes;
    size_t len;
} guarded;

void *call_room(size_t len)
{
    void *room = malloc(len == 0 ? 1 : len);
    if (room == NULL) {
        fprintf(stderr, "no memory for %zu bytes\n", len);
        exit(1);
    }
    return room;
}

/* The first is a newline: a reader that looks past a trace whose last newline is cut off finds one. */
static uint8_t guard_byte(size_t at)
{
    return (uint8_t)(10 + 37 * at);
}

static guarded guarded_make(size_t len, uint64_t fill)
{
    size_t front = GUARD + fill % ALIGNMENTS;
    guarded g = {call_room(front + len + GUARD), NULL, len};
    g.bytes = g.block + front;
    for (size_t i = 0; i < GUARD; i++) {
        g.bytes[-1 - (ptrdiff_t)i] = guard_byte(i);
        g.bytes[len + i] = guard_byte(i);
    }
    return g;
}

/* Where the address sanitizer runs it also catches a guard that is only read. */
static void guarded_lend(const guarded *g)
{
    ASAN_POISON_MEMORY_REGION(g->block, (size_t)(g->bytes - g->block));
    ASAN_POISON_MEMORY_REGION(g->bytes + g->len, GUARD);
}

static void guarded_take_back(const guarded *g)
{
    ASAN_UNPOISON_MEMORY_REGION(g->block, (size_t)(g->bytes - g->block) + g->len + GUARD);
}

static bool guarded_holds(const guarded *g)
{
    for (size_t i = 0; i < GUARD; i++)
        if (g->bytes[-1 - (ptrdiff_t)i] != guard_byte(i) || g->bytes[g->len + i] != guard_byte(i))
            return false;
    return true;
}

/* Varies from byte to byte and from call to call, so that a byte written and not meant to be shows. */
static void guarded_fill(const guarded *g, uint64_t fill)
{
    for (size_t i = 0; i < g->len; i++) {
        fill += UINT64_C(0x9E3779B97F4A7C15);
        g->bytes[i] = (uint8_t)(fill >> 56);
    }
}

/* A plain copy of what the buffer holds; the buffer goes. */
static uint8_t *guarded_end(guarded *g)
{
    uint8_t *copy = call_room(g->len);
    memcpy(copy, g->bytes, g->len);
    free(g->block);
    return copy;
}

call_result call_replay(replay_function *replay, const call_input *in)
{
    guarded trace = guarded_make(in->trace_len, in->fill >> 8);
    guarded output = guarded_make(in->output_len, in->fill >> 16);
    guarded report = guarded_make(in->report_len, in->fill >> 24);
    memcpy(trace.bytes, in->trace, in->trace_len);
    guarded_fill(&output, in->fill);
    guarded_fill(&report, ~in->fill);

    guarded_lend(&trace);
    guarded_lend(&output);
    guarded_lend(&report);
    call_result result = {0};
    result.code = replay(in->address, trace.bytes, trace.len, output.bytes, output.len, report.bytes, report.len);
    guarded_take_back(&trace);
    guarded_take_back(&output);
    guarded_take_back(&report);

    if (!guarded_holds(&trace))
        result.spoilt |= SPOILT_BY_TRACE;
    if (!guarded_holds(&output))
        result.spoilt |= SPOILT_BY_OUTPUT;
    if (!guarded_holds(&report))
        result.spoilt |= SPOILT_BY_REPORT;
    if (memcmp(trace.bytes, in->trace, in->trace_len) != 0)
        result.spoilt |= SPOILT_TRACE;
    result.output = guarded_end(&output);
    result.report = guarded_end(&report);
    free(trace.block);
    return result;
}

void call_result_free(call_result *result)
{
    free(result->output);
    free(result->report);
}
