/* fill.c - runs the recorded sessions through the second model and writes what each call gives behind its arrow: fill TESTS. See recorded.h. */
#include "recorded.h"
#include "second_session.h"

#include <stdio.h>
#include <stdlib.h>
#include <string.h>

static const char *tests;

static unsigned long word_at(const uint8_t *from)
{
    return from[0] | (unsigned long)from[1] << 8 | (unsigned long)from[2] << 16 | (unsigned long)from[3] << 24;
}

static void fill(const recorded_session *r)
{
    static uint8_t output[RECORDED_MOST];
    second_session s;
    char path[1024];
    FILE *file;

    snprintf(path, sizeof path, "%s/sessions/%s.session", tests, r->name);
    file = fopen(path, "wb");
    if (file == NULL || second_open(&s, r->trace.address) != 0)
        exit(1);
    fprintf(file, "trace %s %d\n", r->trace.name, (int)r->trace.address);
    for (size_t i = 0; i < r->calls; i++) {
        const recorded_call *c = &r->call[i];
        uint8_t report[SECOND_REPORT_BYTES], progress[SECOND_PROGRESS_BYTES], marked[SECOND_PROGRESS_BYTES];
        int32_t code;

        memset(marked, 0xff, sizeof marked);    /* no progress is this */
        memcpy(progress, marked, sizeof marked);
        code = second_feed(&s, r->trace.bytes + c->at, c->len, c->end, output, c->room, report, sizeof report, progress, sizeof progress);
        fprintf(file, "feed %zu %zu %d %zu -> %d", c->at, c->len, (int)c->end, c->room, (int)code);
        if (memcmp(progress, marked, sizeof marked) != 0)
            fprintf(file, " %lu %lu %lu %lu %lu", word_at(progress), word_at(progress + 4), word_at(report + 4), word_at(report + 8),
                    word_at(report + 12));
        fprintf(file, "\n");
    }
    if (fclose(file) != 0)
        exit(1);
}

int main(int argc, char **argv)
{
    if (argc != 2) {
        fprintf(stderr, "usage: fill TESTS\n");
        return 2;
    }
    tests = argv[1];
    printf("%zu sessions filled in\n", recorded_sessions(tests, fill));
    return 0;
}
