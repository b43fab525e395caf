/*
 * Bad and good records where the quick reader reads them, with records behind, and where it hands over, beside the second model: every byte
 * in every place of five records, put in or in place of another; any two bytes exchanged; any two neighbours replaced by bytes that traces
 * have; each record cut and with little behind it; each room. The last line is 'N passed, M failed'.
 */
#include "dlaveth.h"
#include "second.h"

#include <stdio.h>
#include <string.h>

enum { ADDRESS = 76, ROOM = 512, RECORDS = 5 };

static unsigned long passed, failed;

static void show(const uint8_t *trace, size_t len)
{
    for (size_t i = 0; i < len; i++)
        if (trace[i] < ' ' || trace[i] > '~')
            printf("\\x%02x", trace[i]);
        else
            putchar(trace[i]);
    putchar('\n');
}

/* Both models on one trace. Byte 10 stands behind the trace, where a reader that looks behind the end finds one that would end a line. */
static void both(const uint8_t *trace, size_t len, size_t room)
{
    static uint8_t bytes[ROOM], mine[ROOM], wanted[ROOM];
    uint8_t my_report[DLAVETH_REPORT_BYTES], report[DLAVETH_REPORT_BYTES];

    memcpy(bytes, trace, len);
    bytes[len] = '\n';
    memset(mine, 0xA5, sizeof mine);
    memset(wanted, 0xA5, sizeof wanted);
    memset(my_report, 0xA5, sizeof my_report);
    memset(report, 0xA5, sizeof report);
    int32_t code = replay(ADDRESS, bytes, len, mine, room, my_report, sizeof my_report);
    int32_t right = second_replay(ADDRESS, bytes, len, wanted, room, report, sizeof report);
    if (code == right && memcmp(mine, wanted, sizeof mine) == 0 && memcmp(my_report, report, sizeof report) == 0) {
        passed++;
        return;
    }
    if (failed++ < 10) {
        printf("FAILED: code %d, wanted %d, room %zu: ", (int)code, (int)right, room);
        show(trace, len);
    }
}

static const char *const records[RECORDS] = {
    "kind=7\na=20\nb=200\nc=0\n", "kind=2\na=76\nb=13\nc=40\n", "kind=7\na=-5\nb=-32768\nc=1\n", "kind=12345\na=-67890\nb=99999\nc=-1\n",
    "kind=-99999\na=-99999\nb=-99999\nc=-99999\n",
};
static const char behind[] = "kind=3\na=76\nb=254\nc=0\nkind=6\na=0\nb=0\nc=0\n";
enum { BEHIND = sizeof behind - 1 };
static const char usual[] = "0123456789-+=:/ \n\r_kindabcKINDABC";
enum { USUAL = sizeof usual - 1 };

/* A record with its first `at` bytes, `count` others, and then its bytes from `from` on; and the records behind. */
static void changed(const char *record, size_t at, const uint8_t *others, size_t count, size_t from)
{
    uint8_t trace[ROOM];
    size_t rest = strlen(record) - from;

    memcpy(trace, record, at);
    memcpy(trace + at, others, count);
    memcpy(trace + at + count, record + from, rest);
    memcpy(trace + at + count + rest, behind, BEHIND);
    both(trace, at + count + rest + BEHIND, ROOM);
}

static void bytes_of(const char *record)
{
    size_t len = strlen(record);

    for (size_t at = 0; at <= len; at++)
        for (int value = 0; value < 256; value++) {
            uint8_t byte = (uint8_t)value;
            changed(record, at, &byte, 1, at);
            if (at < len)
                changed(record, at, &byte, 1, at + 1);
        }
    for (size_t at = 0; at + 1 < len; at++)
        for (size_t i = 0; i < USUAL; i++)
            for (size_t j = 0; j < USUAL; j++)
                changed(record, at, (const uint8_t[]){ (uint8_t)usual[i], (uint8_t)usual[j] }, 2, at + 2);
    for (size_t at = 0; at < len; at++)
        for (size_t other = at + 1; other < len; other++) {
            char exchanged[ROOM];
            memcpy(exchanged, record, len + 1);
            exchanged[at] = record[other];
            exchanged[other] = record[at];
            changed(exchanged, 0, NULL, 0, 0);
        }
}

/* Cut at each place, and with each length behind it: the quick reader asks for 39 bytes. */
static void lengths_of(const char *record)
{
    uint8_t trace[ROOM];
    size_t len = strlen(record);

    memcpy(trace, record, len);
    memcpy(trace + len, behind, BEHIND);
    for (size_t end = 0; end <= len + BEHIND; end++)
        both(trace, end, ROOM);
}

/* Each room up to that of the three answers: the quick writer asks for 35 bytes. */
static void rooms_of(const char *record)
{
    uint8_t trace[ROOM];
    size_t len = strlen(record);

    memcpy(trace, record, len);
    memcpy(trace + len, behind, BEHIND);
    for (size_t room = 0; room <= 3 * DLAVETH_ANSWER_BYTES + 8; room++)
        both(trace, len + BEHIND, room);
}

int main(void)
{
    for (int i = 0; i < RECORDS; i++) {
        bytes_of(records[i]);
        lengths_of(records[i]);
        rooms_of(records[i]);
    }
    printf("%lu passed, %lu failed\n", passed, failed);
    return failed != 0;
}
