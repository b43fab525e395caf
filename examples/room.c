/*
 * The answers to a whole trace of any length up to 16 MiB, in one output that is large enough for whatever the trace holds. The two traces
 * need the most that one can: a conversion that finds the diode open, and then alert responses, 19 bytes each and answered with 33.
 */
#include "dlaveth.h"

#include <stdio.h>
#include <stdlib.h>
#include <string.h>

static uint32_t number(const uint8_t *bytes)
{
    return (uint32_t)bytes[0] | (uint32_t)bytes[1] << 8 | (uint32_t)bytes[2] << 16 | (uint32_t)bytes[3] << 24;
}

/* Gives the code; the report has the counts. The output has DLAVETH_ROOM(length) bytes, so the code is never 8. */
static int32_t answer(const uint8_t *trace, size_t length, uint8_t *output, uint8_t *report)
{
    const size_t room = DLAVETH_ROOM(length);
    uint8_t session[DLAVETH_SESSION_BYTES], progress[DLAVETH_PROGRESS_BYTES];

    if (room <= DLAVETH_MOST_BYTES)
        return replay(76, trace, length, output, room, report, DLAVETH_REPORT_BYTES);
    dlaveth_open(76, session, sizeof session);    /* an output over 16 MiB is for a session */
    return dlaveth_feed(session, sizeof session, trace, length, 1, output, room, report, DLAVETH_REPORT_BYTES, progress, sizeof progress);
}

static int show(size_t records)
{
    static const char *const texts[] = {"kind=6\na=0\nb=0\nc=0\n", "kind=7\na=0\nb=0\nc=1\n", "kind=5\na=0\nb=0\nc=0\n"};
    const size_t length = records * DLAVETH_RECORD_BYTES;
    uint8_t report[DLAVETH_REPORT_BYTES] = {0};
    uint8_t *trace = malloc(length + 1), *output = malloc(DLAVETH_ROOM(length) + 1);    /* + 1: of 0 bytes there may be none */
    int32_t code;

    if (!trace || !output) {
        fprintf(stderr, "no memory\n");
        exit(1);
    }
    for (size_t i = 0; i < records; i++)
        memcpy(trace + i * DLAVETH_RECORD_BYTES, texts[i < 2 ? i : 2], DLAVETH_RECORD_BYTES);
    code = answer(trace, length, output, report);
    printf("%zu bytes of trace, room %zu: code %d, %u records, %u bytes of answers\n", length, DLAVETH_ROOM(length), (int)code,
           (unsigned)number(report + 4), (unsigned)number(report + 12));
    free(trace);
    free(output);
    return code != DLAVETH_DONE;
}

int main(void)
{
    return show(20) + show(DLAVETH_MOST_BYTES / DLAVETH_RECORD_BYTES);
}
