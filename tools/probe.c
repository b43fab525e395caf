/*
 * probe ADDRESS COMMAND.. < TRACE: what the chip shows after each event of a trace, asked of the library alone.
 *
 * Each prefix of the trace, the empty one first, is replayed from power-on with reads of the commanded registers behind it: so the reads
 * are on the side and disturb nothing that comes later. A line for each prefix: code, reply, alert and therm of its last event, then the
 * registers. The empty prefix has no event: code and reply are 0, and the lines are those at the first read.
 */
#include "dlaveth.h"
#include "names.h"

#include <stdio.h>
#include <stdlib.h>
#include <string.h>

enum { MOST_READS = 64, MOST_TRACE = 1 << 20, READ_BYTES = 40 };

static char text[MOST_TRACE + MOST_READS * READ_BYTES];
static const char *const record_lines[4] = {RECORD_LINES}, *const answer_lines[4] = {ANSWER_LINES};

static int fail(const char *what)
{
    fprintf(stderr, "probe: %s\n", what);
    return 1;
}

static size_t word(const uint8_t *bytes)
{
    return (size_t)bytes[0] | (size_t)bytes[1] << 8 | (size_t)bytes[2] << 16 | (size_t)bytes[3] << 24;
}

/* The place `lines` lines before the end of a text. */
static const char *back(const char *start, const char *end, int lines)
{
    while (end > start && (end[-1] != '\n' || lines-- > 0))
        end--;
    return end;
}

/* The numbers of an answer; gives the place behind it, or null. */
static const char *answer(const char *at, int numbers[4])
{
    for (int i = 0; i < 4; i++) {
        size_t named = strlen(answer_lines[i]);
        int used = 0;
        if (strncmp(at, answer_lines[i], named) != 0 || sscanf(at + named, "%d%n", &numbers[i], &used) != 1)
            return NULL;
        at += named + (size_t)used + 1;
    }
    return at;
}

int main(int count, char **words)
{
    static char kept[sizeof text];
    uint8_t report[DLAVETH_REPORT_BYTES];
    int reads = count - 2;
    if (reads < 1 || reads > MOST_READS)
        return fail("an address and 1 to 64 commands wanted");
    int address = atoi(words[1]);

    size_t length = fread(kept, 1, MOST_TRACE + 1, stdin);
    if (length > MOST_TRACE)
        return fail("the trace is too long");
    char tail[MOST_READS * READ_BYTES];
    size_t tail_length = 0;
    for (int i = 0; i < reads; i++)
        tail_length += (size_t)snprintf(tail + tail_length, READ_BYTES, "%s3\n%s%d\n%s%d\n%s0\n", record_lines[0], record_lines[1], address,
                                        record_lines[2], atoi(words[2 + i]), record_lines[3]);

    size_t room = DLAVETH_ROOM(length + tail_length);
    char *output = malloc(room + 1);
    if (!output)
        return fail("no memory");
    setvbuf(stdout, NULL, _IOLBF, 0);    /* whoever reads shows how far it is */

    size_t prefix = 0;
    for (;;) {
        memcpy(text, kept, prefix);
        memcpy(text + prefix, tail, tail_length);
        int32_t code = replay(address, (const uint8_t *)text, prefix + tail_length, (uint8_t *)output, room, report, sizeof report);
        if (code != DLAVETH_DONE)
            return fail("the library does not replay this trace");
        size_t written = word(report + 12);
        output[written] = 0;

        int own = prefix > 0, event[4], side[4];
        const char *at = back(output, output + written, 4 * (reads + own));
        if (own)
            at = answer(at, event);
        for (int i = 0; i < reads; i++) {
            at = at ? answer(at, side) : NULL;
            if (!at || side[0] != DLAVETH_DONE)
                return fail("a register was not read");
            if (i == 0) {
                if (own)
                    printf("%d %d %d %d", event[0], event[1], event[2], event[3]);
                else
                    printf("0 0 %d %d", side[2], side[3]);
            }
            printf(" %d", side[1]);
        }
        printf("\n");

        if (prefix == length)
            break;
        for (int lines = 0; lines < 4 && prefix < length; prefix++)
            lines += kept[prefix] == '\n';
    }
    free(output);
    return 0;
}
