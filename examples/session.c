/* The three events of whole_case.c as they may arrive: in portions, cut anywhere, and each answered as soon as it is there. */
#include "dlaveth.h"

#include <stdio.h>
#include <string.h>

static const char *const portions[] = {
    "kind=6\na=0\nb=0\nc=0\nki",    /* cut inside a name */
    "nd=7\na=20\nb=34",             /* and inside a number */
    "1\nc=0\nkind=3\na=76\nb=2\nc=0\n",
};
enum { PORTIONS = sizeof portions / sizeof portions[0] };

static uint32_t number(const uint8_t *bytes)
{
    return (uint32_t)bytes[0] | (uint32_t)bytes[1] << 8 | (uint32_t)bytes[2] << 16 | (uint32_t)bytes[3] << 24;
}

int main(void)
{
    uint8_t session[DLAVETH_SESSION_BYTES], report[DLAVETH_REPORT_BYTES] = {0};
    uint8_t output[DLAVETH_ANSWER_BYTES];    /* room for one answer; the next is fetched with a call of its own */

    int32_t code = dlaveth_open(76, session, sizeof session);
    for (int i = 0; i < PORTIONS && code == DLAVETH_DONE; i++) {
        const uint8_t *rest = (const uint8_t *)portions[i];
        size_t length = strlen(portions[i]);
        printf("portion %d\n", i + 1);
        do {
            uint8_t progress[DLAVETH_PROGRESS_BYTES] = {0};    /* a refusal leaves it so */
            code = dlaveth_feed(session, sizeof session, rest, length, i == PORTIONS - 1, output, sizeof output, report, sizeof report,
                                progress, sizeof progress);
            fwrite(output, 1, number(progress + 4), stdout);
            rest += number(progress);
            length -= number(progress);
        } while (code == DLAVETH_NO_ROOM);
    }
    printf("code %d: %u records, %u bytes of trace, %u bytes of answers\n",
           (int)code, (unsigned)number(report + 4), (unsigned)number(report + 8), (unsigned)number(report + 12));
    return code == DLAVETH_DONE ? 0 : 1;
}
