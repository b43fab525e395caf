/* trace.c - see trace.h. */
#include "trace.h"
#include "call.h"

#include <stdio.h>
#include <stdlib.h>
#include <string.h>

trace trace_make(void)
{
    trace t = {NULL, 0, 4096};
    t.bytes = call_room(t.room);
    return t;
}

void trace_free(trace *t)
{
    free(t->bytes);
}

static void make_room(trace *t, size_t len)
{
    if (t->len + len <= t->room)
        return;
    size_t room = 2 * (t->len + len);
    uint8_t *bytes = call_room(room);
    memcpy(bytes, t->bytes, t->len);
    free(t->bytes);
    t->bytes = bytes;
    t->room = room;
}

void trace_insert(trace *t, size_t at, const void *bytes, size_t len)
{
    make_room(t, len);
    memmove(t->bytes + at + len, t->bytes + at, t->len - at);
    memcpy(t->bytes + at, bytes, len);
    t->len += len;
}

void trace_remove(trace *t, size_t at, size_t len)
{
    memmove(t->bytes + at, t->bytes + at + len, t->len - at - len);
    t->len -= len;
}

void trace_record(trace *t, int32_t kind, int32_t a, int32_t b, int32_t c)
{
    char text[80];
    int len = snprintf(text, sizeof text, "kind=%d\na=%d\nb=%d\nc=%d\n", kind, a, b, c);
    trace_insert(t, t->len, text, (size_t)len);
}
