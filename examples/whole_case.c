/* Replays three events with nothing but the header and the library: a conversion starts, it ends at 20 °C and 85.25 °C, and the status is read. */
#include "dlaveth.h"

#include <stdio.h>
#include <string.h>

static const char trace[] =
    "kind=6\na=0\nb=0\nc=0\n"
    "kind=7\na=20\nb=341\nc=0\n"
    "kind=3\na=76\nb=2\nc=0\n";

static uint32_t word(const uint8_t *bytes)
{
    return (uint32_t)bytes[0] | (uint32_t)bytes[1] << 8 | (uint32_t)bytes[2] << 16 | (uint32_t)bytes[3] << 24;
}

int main(void)
{
    uint8_t output[DLAVETH_ROOM(sizeof trace)];
    uint8_t report[DLAVETH_REPORT_BYTES];

    int32_t code = replay(76, (const uint8_t *)trace, strlen(trace), output, sizeof output, report, sizeof report);
    if (code == DLAVETH_BAD_FIELD)
        return 1;
    fwrite(output, 1, word(report + 12), stdout);
    printf("code %d: %u records, %u bytes of trace, %u bytes of answers\n",
           (int)code, (unsigned)word(report + 4), (unsigned)word(report + 8), (unsigned)word(report + 12));
    return code == DLAVETH_DONE ? 0 : 1;
}
