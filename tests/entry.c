/* What include/dlaveth.h says of null pointers, refusals and threads, tried on the library. The last line is 'N passed, M failed'. */
#include "dlaveth.h"

#include <pthread.h>
#include <stdio.h>
#include <string.h>

static int passed, failed;

static void check(const char *what, int holds)
{
    if (holds)
        passed++;
    else {
        failed++;
        printf("FAILED: %s\n", what);
    }
}

static const uint8_t record[] = "kind=6\na=0\nb=0\nc=0\n";
enum { RECORD = sizeof record - 1 };

static int all(const uint8_t *bytes, size_t count, uint8_t value)
{
    for (size_t i = 0; i < count; i++)
        if (bytes[i] != value)
            return 0;
    return 1;
}

static void nulls(void)
{
    uint8_t report[16];
    static const uint8_t full[16] = {8};

    memset(report, 0xAA, sizeof report);
    check("an empty trace and an empty output may be null", replay(76, NULL, 0, NULL, 0, report, 16) == 0 && all(report, 16, 0));
    check("an empty report may be null, and is refused", replay(76, NULL, 0, NULL, 0, NULL, 0) == 2);
    check("an output without room may be null", replay(77, record, RECORD, NULL, 0, report, 16) == 8 && memcmp(report, full, 16) == 0);
}

static void refusals(void)
{
    static const int32_t addresses[] = {75, 78, 0, 12, -1, 332, INT32_MAX, INT32_MIN};
    uint8_t output[64], report[16];

    for (size_t i = 0; i < sizeof addresses / sizeof *addresses; i++) {
        memset(output, 0xAA, sizeof output);
        memset(report, 0xAA, sizeof report);
        check("a bad address is code 2 and writes nothing",
              replay(addresses[i], record, RECORD, output, sizeof output, report, 16) == 2 && all(output, sizeof output, 0xAA) && all(report, 16, 0xAA));
    }
    check("a trace over 16 MiB is not looked at", replay(76, record, DLAVETH_MOST_BYTES + 1, output, sizeof output, report, 16) == 2 && all(report, 16, 0xAA));
    check("an output over 16 MiB is not looked at", replay(76, record, RECORD, output, DLAVETH_MOST_BYTES + 1, report, 16) == 2 && all(report, 16, 0xAA));
    check("the largest length there is", replay(76, record, SIZE_MAX, output, SIZE_MAX, report, 16) == 2 && all(report, 16, 0xAA));
    check("a report of 17 bytes", replay(76, record, RECORD, output, sizeof output, report, 17) == 2 && all(report, 16, 0xAA));
}

/* DLAVETH_ROOM: 33 for each full 19, a constant; with that much no code 8, and less for the trace that needs the most is 8. */
static void rooms(void)
{
    static const uint8_t texts[][RECORD + 1] = {"kind=6\na=0\nb=0\nc=0\n", "kind=7\na=0\nb=0\nc=1\n", "kind=5\na=0\nb=0\nc=0\n"};
    static const size_t lengths[] = {0, 18, 19, 37, 38, 380, 9659618, 9659619, DLAVETH_MOST_BYTES};
    static const size_t wanted[] = {0, 0, 33, 33, 66, 660, 16777200, 16777233, 29139363};
    enum { RECORDS = 20, TRACE = RECORDS * RECORD };
    uint8_t trace[TRACE], output[DLAVETH_ROOM(TRACE)], report[16];
    size_t once;

    for (size_t i = 0; i < sizeof lengths / sizeof *lengths; i++)
        check("DLAVETH_ROOM", DLAVETH_ROOM(lengths[i]) == wanted[i]);
    check("it may be tested, with no warning", !DLAVETH_ROOM(lengths[1]) && (DLAVETH_ROOM(lengths[2]) ? 1 : 0));
    check("its argument may be any expression, also one that is no size_t", DLAVETH_ROOM(RECORD + RECORD) == 66 && DLAVETH_ROOM((uint8_t)255) == 429);
    check("it may be part of one", 2 * DLAVETH_ROOM(37) == 66 && 99 / DLAVETH_ROOM(19) == 3 && 100 - DLAVETH_ROOM(38) == 34);
    check("it is no int, and not of 32 bits", DLAVETH_ROOM((int32_t)2000000000) == 3473684181U && DLAVETH_ROOM((size_t)1 << 40) == ((size_t)1 << 40) / 19 * 33);
    once = 19;
    check("its argument is worked out once", DLAVETH_ROOM(once++) == 33 && once == 20);
    for (once = 0; once <= DLAVETH_MOST_BYTES; once += once / 97 + 1)
        check("33 for each full 19", DLAVETH_ROOM(once) == 33 * (once / 19));
    for (int i = 0; i < RECORDS; i++)
        memcpy(trace + i * RECORD, texts[i < 2 ? i : 2], RECORD);
    for (size_t length = 0; length <= TRACE; length++) {
        const int32_t code = replay(76, trace, length, output, DLAVETH_ROOM(length), report, 16);
        check("with DLAVETH_ROOM a trace cut anywhere is never 8", code == (length % RECORD == 0 ? DLAVETH_DONE : DLAVETH_MALFORMED));
        check("records are the length divided by 19", report[4] == length / DLAVETH_RECORD_BYTES && all(report + 5, 3, 0));
    }
    check("32 for each 19 is 8", replay(76, trace, TRACE, output, 32 * (TRACE / 19), report, 16) == DLAVETH_NO_ROOM);
    check("33 for each 20 is 8", replay(76, trace, TRACE, output, 33 * (TRACE / 20), report, 16) == DLAVETH_NO_ROOM);
}

/* One trace at address 76 and 77 in turn: the answers differ, so that a shared state would show. */
static const uint8_t reads[] = "kind=6\na=0\nb=0\nc=0\nkind=7\na=20\nb=341\nc=0\nkind=3\na=76\nb=2\nc=0\n";
enum { READS = sizeof reads - 1, TIMES = 2000 };

struct worker {
    int32_t address;
    const char *last;    /* the last answer */
    int right;
};

static void *work(void *given)
{
    struct worker *w = given;

    for (int i = 0; i < TIMES; i++) {
        uint8_t output[100], report[16];
        size_t length = strlen(w->last);
        if (replay(w->address, reads, READS, output, sizeof output, report, 16) == 0 && memcmp(output + report[12] - length, w->last, length) == 0)
            w->right++;
    }
    return NULL;
}

static void threads(void)
{
    struct worker here = {76, "code=0\nreply=18\nalert=0\ntherm=0\n", 0}, there = {77, "code=3\nreply=0\nalert=0\ntherm=0\n", 0};
    pthread_t other;

    if (pthread_create(&other, NULL, work, &there) != 0) {
        check("a second thread starts", 0);
        return;
    }
    work(&here);
    pthread_join(other, NULL);
    check("two threads at once are each answered as alone", here.right == TIMES && there.right == TIMES);
}

int main(void)
{
    nulls();
    refusals();
    rooms();
    threads();
    printf("%d passed, %d failed\n", passed, failed);
    return failed != 0;
}
