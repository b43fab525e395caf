/*
 * bench.c - the project's replay and the second model's on the same traces, in one process.
 *
 *   bench                            holds all to the same answers, then times them
 *   bench --sizes                    each trace: name, longest length, a sixteenth of it
 *   bench --count WHO TRACE BYTES    one replay of at most BYTES of a trace, for a counter of instructions; of `events` its records one by
 *                                    one on a chip in bytes
 */
#define _POSIX_C_SOURCE 199309L
#include "dlaveth.h"

#include <stdbool.h>
#include <stdio.h>
#include <stdlib.h>
#include <string.h>
#include <time.h>

enum { ADDRESS = 76, MOST = DLAVETH_MOST_BYTES, ROUNDS = 5, SHORT_CALLS = 100000 };

typedef int32_t replayer(int32_t, const uint8_t *, size_t, uint8_t *, size_t, uint8_t *, size_t);
/* The second model twice: bench/run.sh builds it under these names, at -O2 and at -O3. */
replayer o2_replay, o3_replay;

/* ---- who runs ---- */

/* The limit: the trace's bytes moved and no more. */
static int32_t copy(int32_t address, const uint8_t *trace, size_t trace_len, uint8_t *output, size_t output_len,
                    uint8_t *report, size_t report_len)
{
    (void)address, (void)output_len, (void)report, (void)report_len;
    memcpy(output, trace, trace_len);
    return 0;
}

/* The trace's records, each handed to a chip in bytes. The reading is this program's and is not what is counted. */
static int32_t by_event(int32_t address, const uint8_t *trace, size_t trace_len, uint8_t *output, size_t output_len,
                        uint8_t *report, size_t report_len)
{
    uint8_t chip[DLAVETH_CHIP_BYTES], answer[DLAVETH_EVENT_ANSWER_BYTES];
    int32_t number[4] = { 0 };

    (void)output, (void)output_len, (void)report, (void)report_len;
    dlaveth_power_on(address, chip, sizeof chip);
    for (size_t i = 0, line = 0, minus = 0; i < trace_len; i++)
        if (trace[i] == '-') {
            minus = 1;
        } else if (trace[i] >= '0' && trace[i] <= '9') {
            number[line] = number[line] * 10 + (trace[i] - '0');
        } else if (trace[i] == '\n') {
            number[line] = minus ? -number[line] : number[line];
            minus = 0;
            if (++line == 4) {
                dlaveth_event(chip, sizeof chip, number[0], number[1], number[2], number[3], answer, sizeof answer);
                line = 0;
                memset(number, 0, sizeof number);
            }
        }
    return DLAVETH_DONE;
}

/* The trace in portions, as its recorder would leave them. Room for the answers is what is left of the output. */
static int32_t in_portions(int32_t address, const uint8_t *trace, size_t trace_len, size_t portion_len,
                           uint8_t *output, size_t output_len, uint8_t *report, size_t report_len)
{
    uint8_t session[DLAVETH_SESSION_BYTES], progress[DLAVETH_PROGRESS_BYTES];
    size_t taken = 0, written = 0;
    int32_t code = dlaveth_open(address, session, sizeof session);

    while (code == DLAVETH_DONE && taken < trace_len) {
        size_t len = trace_len - taken < portion_len ? trace_len - taken : portion_len;
        code = dlaveth_feed(session, sizeof session, trace + taken, len, taken + len == trace_len, output + written, output_len - written,
                            report, report_len, progress, sizeof progress);
        taken += len;
        written += (size_t)(progress[4] | progress[5] << 8 | progress[6] << 16);
    }
    return code;
}

static int32_t by_pages(int32_t address, const uint8_t *trace, size_t trace_len, uint8_t *output, size_t output_len,
                        uint8_t *report, size_t report_len)
{
    return in_portions(address, trace, trace_len, 4096, output, output_len, report, report_len);
}

static int32_t by_bytes(int32_t address, const uint8_t *trace, size_t trace_len, uint8_t *output, size_t output_len,
                        uint8_t *report, size_t report_len)
{
    return in_portions(address, trace, trace_len, 1, output, output_len, report, report_len);
}

typedef struct {
    const char *name, *title;
    replayer *run;
} runner;

static const runner runners[] = {
    { "project", "project", replay },
    { "o2", "second -O2", o2_replay },
    { "o3", "second -O3", o3_replay },
    { "copy", "memcpy", copy },
    { "events", "events", by_event },
    { "pages", "in portions of 4 KiB", by_pages },
    { "bytes", "byte by byte", by_bytes },
};
enum { REPLAYERS = 3, RUNNERS = 4, COUNTED = 7 };

/* ---- traces ---- */

typedef struct {
    uint8_t *bytes;
    size_t len, records, most_len, most_records;
} text;

static uint8_t *put_line(uint8_t *to, const char *name, int32_t number)
{
    uint32_t rest = (uint32_t)(number < 0 ? -number : number);
    uint8_t digits[10];
    size_t count = 0;

    while (*name != 0)
        *to++ = (uint8_t)*name++;
    if (number < 0)
        *to++ = '-';
    do {
        digits[count++] = (uint8_t)('0' + rest % 10);
        rest /= 10;
    } while (rest != 0);
    while (count > 0)
        *to++ = digits[--count];
    *to++ = '\n';
    return to;
}

/* Adds a record; false, and no change, where the trace is full. Written by hand: snprintf takes longer than the replay under a counter. */
static bool put(text *t, int32_t kind, int32_t a, int32_t b, int32_t c)
{
    uint8_t record[64], *to = record;
    to = put_line(to, "kind=", kind);
    to = put_line(to, "a=", a);
    to = put_line(to, "b=", b);
    to = put_line(to, "c=", c);
    size_t len = (size_t)(to - record);
    if (t->records == t->most_records || t->most_len - t->len < len)
        return false;
    memcpy(t->bytes + t->len, record, len);
    t->len += len;
    t->records++;
    return true;
}

/* Always the same numbers, so that every run has the same traces. */
static uint32_t seed;
static int32_t any(int32_t below)
{
    seed = seed * 1664525u + 1013904223u;
    return (int32_t)((seed >> 8) % (uint32_t)below);
}

static void one_digit(text *t)
{
    while (put(t, 6, 0, 0, 0)) {}
}

/* Code 1 each: what is left is the reading of twenty digits, and the answer. */
static void five_digits(text *t)
{
    while (put(t, 10000 + any(90000), 10000 + any(90000), 10000 + any(90000), 10000 + any(90000))) {}
}

/* A driver at work: limits set up, then rounds of a conversion, the status and both values, and now and then what a driver does besides. */
static void mixed(text *t)
{
    static const uint8_t limits[] = { 0x0B, 0x0C, 0x0D, 0x0E, 0x13, 0x14, 0x19, 0x20, 0x21 };
    put(t, 0, 0, 0, 0);
    put(t, 2, ADDRESS, 0x0A, 7);
    put(t, 2, ADDRESS, 0x0B, 70);
    put(t, 2, ADDRESS, 0x0D, 80);
    put(t, 2, ADDRESS, 0x0E, 5);
    put(t, 2, ADDRESS, 0x22, 3);
    for (int32_t round = 0; ; round++) {
        put(t, 6, 0, 0, 0);
        put(t, 7, 15 + any(60), any(400) - 20, any(64) == 0);
        put(t, 3, ADDRESS, 0x02, 0);
        put(t, 3, ADDRESS, 0x00, 0);
        put(t, 3, ADDRESS, 0x01, 0);
        put(t, 3, ADDRESS, 0x10, 0);
        if (round % 4 == 1)
            put(t, 2, ADDRESS, limits[any(9)], any(100));
        if (round % 8 == 3)
            put(t, 5, 0, 0, 0);                 /* code 3 where ALERT is high */
        if (round % 16 == 7) {                  /* a conversion on demand, and a limit moved in standby */
            put(t, 2, ADDRESS, 0x09, 0x40);
            put(t, 2, ADDRESS, 0x0F, 0);
            put(t, 7, 15 + any(60), any(400) - 20, 0);
            put(t, 2, ADDRESS, 0x0D, 60 + any(40));
            put(t, 2, ADDRESS, 0x09, 0);
        }
        if (round % 32 == 9) {
            put(t, 1, ADDRESS, 0x02, 0);
            put(t, 4, ADDRESS, 0, 0);
        }
        if (!put(t, 3, round % 64 == 11 ? ADDRESS + 1 : ADDRESS, 0x03, 0))
            return;
    }
}

static void one_record(text *t)
{
    put(t, 6, 0, 0, 0);
}

/*
 * How long a trace may be: 16 MiB, as the output. Where answers are longer than their records the output is full first, and a trace of
 * 16 MiB would end with code 8: `one` has 19 bytes to an answer of 31, and `mixed` some 20 to at most 33.
 */
typedef struct {
    const char *name, *title;
    void (*fill)(text *);
    size_t most_records, calls;
} plan;

static const plan plans[] = {
    { "one", "one digit to a number, long", one_digit, MOST / 31, 1 },
    { "five", "five digits to a number, long", five_digits, MOST / 31, 1 },
    { "mixed", "conversions, reads and writes, long", mixed, MOST / DLAVETH_ANSWER_BYTES, 1 },
    { "short", "one record", one_record, 1, SHORT_CALLS },
};
enum { PLANS = 4 };

/* ---- one run ---- */

static uint8_t trace_bytes[MOST], output[MOST], wanted[MOST];

static text make_trace(const plan *p, size_t most_len)
{
    text t = { trace_bytes, 0, 0, most_len, p->most_records };
    seed = 1;
    p->fill(&t);
    return t;
}

static void stop(const char *what, const char *who, const char *where)
{
    fprintf(stderr, "bench: %s: %s, %s\n", what, who, where);
    exit(1);
}

/* The answers of all replayers are those of the first. */
static void check(const plan *p, const text *t)
{
    uint8_t first[DLAVETH_REPORT_BYTES];

    for (int i = 0; i < REPLAYERS; i++) {
        uint8_t report[DLAVETH_REPORT_BYTES];
        uint8_t *to = i == 0 ? wanted : output;
        memset(to, 0xA5, MOST);
        if (runners[i].run(ADDRESS, t->bytes, t->len, to, MOST, report, sizeof report) != DLAVETH_DONE)
            stop("the code is not 0", runners[i].title, p->name);
        if (i == 0)
            memcpy(first, report, sizeof report);
        else if (memcmp(report, first, sizeof report) != 0)
            stop("another report", runners[i].title, p->name);
        else if (memcmp(output, wanted, MOST) != 0)
            stop("another output", runners[i].title, p->name);
    }
}

static double now(void)
{
    struct timespec t;
    clock_gettime(CLOCK_MONOTONIC, &t);
    return (double)t.tv_sec + (double)t.tv_nsec * 1e-9;
}

/* Best of several rounds, the runners one after the other in each, so that what else the machine does falls on all alike. */
static void measure(const plan *p, const text *t)
{
    replayer *volatile call;                    /* read at each call, so that none is left out */
    uint8_t report[DLAVETH_REPORT_BYTES];
    double best[RUNNERS] = { 0 }, bytes = (double)t->len * (double)p->calls;

    for (int round = 0; round < ROUNDS; round++)
        for (int i = 0; i < RUNNERS; i++) {
            int32_t codes = 0;
            call = runners[i].run;
            double began = now();
            for (size_t n = 0; n < p->calls; n++)
                codes |= call(ADDRESS, t->bytes, t->len, output, MOST, report, sizeof report);
            double took = now() - began;
            if (codes != 0)
                stop("the code is not 0", runners[i].title, p->name);
            if (round == 0 || took < best[i])
                best[i] = took;
        }

    printf("%s (%s): %zu bytes, %zu records\n", p->name, p->title, t->len, t->records);
    for (int i = 0; i < RUNNERS; i++) {
        printf("  %-10s %15.0f bytes/s", runners[i].title, bytes / best[i]);
        if (i > 0)
            printf("   project's speed is %.4f of it", best[i] / best[0]);
        printf("\n");
    }
    fflush(stdout);
}

/* ---- commands ---- */

static int count(const char *who, const char *where, const char *bytes)
{
    uint8_t report[DLAVETH_REPORT_BYTES];
    size_t most = (size_t)strtoul(bytes, NULL, 10);

    for (int i = 0; i < COUNTED; i++)
        for (int j = 0; j < PLANS; j++)
            if (strcmp(runners[i].name, who) == 0 && strcmp(plans[j].name, where) == 0 && most <= MOST) {
                text t = make_trace(&plans[j], most);
                if (runners[i].run(ADDRESS, t.bytes, t.len, output, MOST, report, sizeof report) != DLAVETH_DONE)
                    stop("the code is not 0", who, where);
                printf("%zu %zu\n", t.len, t.records);
                return 0;
            }
    stop("no such run", who, where);
    return 1;
}

int main(int argc, char **argv)
{
    if (argc == 5 && strcmp(argv[1], "--count") == 0)
        return count(argv[2], argv[3], argv[4]);
    if (argc == 2 && strcmp(argv[1], "--sizes") == 0) {
        for (int j = 0; j < PLANS; j++) {
            text t = make_trace(&plans[j], MOST);
            printf("%s %zu %zu\n", plans[j].name, t.len, t.len / 16);
        }
        return 0;
    }
    if (argc != 1) {
        fprintf(stderr, "usage: bench [--sizes | --count WHO TRACE BYTES]\n");
        return 2;
    }
    for (int j = 0; j < PLANS; j++) {
        text t = make_trace(&plans[j], MOST);
        check(&plans[j], &t);
        measure(&plans[j], &t);
    }
    return 0;
}
