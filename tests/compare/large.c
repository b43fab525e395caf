/* large.c - see large.h. */
#include "large.h"
#include "compare.h"
#include "generate.h"

#include <stdio.h>
#include <stdlib.h>

/* Records: all numbers of one digit, or all of five and a minus. ROOMY: as long as a trace may be for its room to be 16 MiB at most. */
enum { SHORTEST = SECOND_SHORTEST_RECORD, LONGEST = 39, ROOMY = 9659618 };

/* A record of a kind that there is not, `len` bytes long. */
static void add_sized(trace *t, size_t len)
{
    static const int32_t numbers[] = {8, 88, 888, 8888, 88888, -88888};    /* each a byte longer */
    int32_t fields[4];
    size_t more = len - SHORTEST;
    for (int i = 0; i < 4; i++) {
        size_t here = more < 5 ? more : 5;
        fields[i] = numbers[here];
        more -= here;
    }
    trace_record(t, fields[0], fields[1], fields[2], fields[3]);
}

/*
 * A well-formed trace of exactly `len` bytes. Each step of the chip is followed by `padding` long records: their
 * answers are shorter than they, so that with enough of them all answers of 16 MiB fit in 16 MiB.
 */
static trace make_trace(size_t len, unsigned padding)
{
    enum { STEP = 400 };    /* no step of the generator adds as much */
    randoms random = {len};
    trace t = trace_make();
    generator g = generate_begin(&random, &t, 76);
    while (t.len + STEP + padding * LONGEST < len) {
        generate_more(&g);
        for (unsigned i = 0; i < padding; i++)
            add_sized(&t, LONGEST);
    }
    while (len - t.len >= 2 * LONGEST)
        add_sized(&t, LONGEST);
    add_sized(&t, (len - t.len) / 2);
    add_sized(&t, len - t.len);
    return t;
}

typedef call_result comparison(pipes *model, const call_input *in);

static void run_by(comparison *compare, pipes *model, const char *what, const trace *t, size_t trace_len, size_t output_len, int32_t code)
{
    call_input in = {76, t->bytes, trace_len, output_len, SECOND_REPORT_BYTES, trace_len + output_len};
    compare_name("large, %s", what);
    call_result both = compare(model, &in);
    if (both.code != code) {
        printf("FAILED: large, %s: both models return %d, wanted %d\n", what, both.code, code);
        exit(1);
    }
    call_result_free(&both);
}

static void run(pipes *model, const char *what, const trace *t, size_t trace_len, size_t output_len, int32_t code)
{
    run_by(compare_both, model, what, t, trace_len, output_len, code);
}

/* The trace that needs the most, from a byte less to a byte more than what an output can be large enough for. */
static void run_hungry(pipes *model)
{
    const size_t most = SECOND_MOST_BYTES, whole = ROOMY - ROOMY % SHORTEST;
    trace t = trace_make();
    generate_hungry(&t, 76, ROOMY / SHORTEST - 1);
    run_by(compare_bytes, model, "as many records as can be, and their room", &t, whole, second_room(whole), SECOND_DONE);
    run_by(compare_bytes, model, "the longest trace that has its room", &t, ROOMY, second_room(ROOMY), SECOND_MALFORMED);
    run_by(compare_bytes, model, "a byte longer, its room over 16 MiB", &t, ROOMY + 1, second_room(ROOMY + 1), SECOND_BAD_FIELD);
    run_by(compare_bytes, model, "a byte longer, all the room that there is", &t, ROOMY + 1, most, SECOND_NO_ROOM);
    run_by(compare_bytes, model, "32 bytes for each 19", &t, whole, 32 * (whole / 19), SECOND_NO_ROOM);
    run_by(compare_bytes, model, "33 bytes for each 20", &t, whole, 33 * (whole / 20), SECOND_NO_ROOM);
    trace_free(&t);
}

uint64_t large_run(pipes *model)
{
    const size_t most = SECOND_MOST_BYTES;
    trace fits = make_trace(most, 4), fills = make_trace(most + 1, 0);
    run(model, "16 MiB of trace, all answered", &fits, most, most, SECOND_DONE);
    run(model, "16 MiB of trace less the last newline", &fits, most - 1, most, SECOND_MALFORMED);
    run(model, "16 MiB of trace, 16 MiB of output used up", &fills, most, most, SECOND_NO_ROOM);
    run(model, "16 MiB of trace, room for a while", &fits, most, 1 << 20, SECOND_NO_ROOM);
    run(model, "a trace one byte over 16 MiB", &fills, most + 1, 1 << 10, SECOND_BAD_FIELD);
    run(model, "an output one byte over 16 MiB", &fits, 0, most + 1, SECOND_BAD_FIELD);
    run(model, "no trace, 16 MiB of output left alone", &fits, 0, most, SECOND_DONE);
    trace_free(&fits);
    trace_free(&fills);
    run_hungry(model);
    return 13;
}
