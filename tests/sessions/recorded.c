/* recorded.c - see recorded.h. */
#include "recorded.h"

#include <inttypes.h>
#include <stdio.h>
#include <stdlib.h>
#include <string.h>

static _Noreturn void fail(const char *what, const char *where)
{
    printf("FAILED: %s: %s\n", what, where);
    exit(1);
}

static FILE *opened(const char *tests, const char *folder, const char *name, const char *ending)
{
    char path[1024];
    FILE *file;

    snprintf(path, sizeof path, "%s/%s/%s%s", tests, folder, name, ending);
    file = fopen(path, "rb");
    if (file == NULL)
        fail("cannot be read", path);
    return file;
}

static size_t load(uint8_t *bytes, const char *tests, const char *name, const char *ending)
{
    FILE *file = opened(tests, "traces", name, ending);
    size_t len = fread(bytes, 1, RECORDED_MOST, file);

    if (ferror(file) != 0 || len == RECORDED_MOST)
        fail("cannot be read whole", name);
    fclose(file);
    return len;
}

size_t recorded_traces(const char *tests, void run(const recorded_trace *))
{
    static recorded_trace t;
    FILE *index = opened(tests, "traces", "INDEX", ".txt");
    char line[1024];
    size_t count = 0;

    while (fgets(line, sizeof line, index) != NULL) {
        if (line[0] == '#')
            continue;
        if (sscanf(line, "%63s %" SCNd32, t.name, &t.address) != 2)
            fail("not an entry", line);
        t.len = load(t.bytes, tests, t.name, ".trace");
        run(&t);
        count++;
    }
    fclose(index);
    return count;
}

/* A line behind the first one. What is not yet filled in has nothing behind its room, which is no call that can be compared. */
static bool read_call(recorded_call *c, const char *line)
{
    int read = sscanf(line, "feed %zu %zu %" SCNd32 " %zu -> %" SCNd32 " %" SCNu32 " %" SCNu32 " %" SCNu32 " %" SCNu32 " %" SCNu32,
                      &c->at, &c->len, &c->end, &c->room, &c->code, &c->taken, &c->written, &c->records, &c->used, &c->total);

    c->refused = read == 5;
    if (read == 4)
        c->code = -1;
    return read == 4 || read == 5 || read == 10;
}

static void read_session(recorded_session *r, const char *tests)
{
    FILE *file = opened(tests, "sessions", r->name, ".session");
    char line[256];

    r->calls = 0;
    if (fgets(line, sizeof line, file) == NULL || sscanf(line, "trace %63s %" SCNd32, r->trace.name, &r->trace.address) != 2)
        fail("names no trace", r->name);
    r->trace.len = load(r->trace.bytes, tests, r->trace.name, ".trace");
    r->answers_len = load(r->answers, tests, r->trace.name, ".answers");
    while (fgets(line, sizeof line, file) != NULL) {
        recorded_call *c = &r->call[r->calls++];

        if (r->calls == RECORDED_CALLS || !read_call(c, line) || c->at > r->trace.len || c->len > r->trace.len - c->at || c->room > RECORDED_MOST)
            fail(r->name, line);
    }
    fclose(file);
}

size_t recorded_sessions(const char *tests, void run(const recorded_session *))
{
    static recorded_session r;
    FILE *index = opened(tests, "sessions", "INDEX", ".txt");
    char line[1024];
    size_t count = 0;

    while (fgets(line, sizeof line, index) != NULL) {
        if (line[0] == '#')
            continue;
        if (sscanf(line, "%63s", r.name) != 1)
            fail("not an entry", line);
        read_session(&r, tests);
        run(&r);
        count++;
    }
    fclose(index);
    return count;
}
