/* trace.h - a trace being written: bytes that grow. */
#ifndef TRACE_H
#define TRACE_H

#include <stddef.h>
#include <stdint.h>

typedef struct {
    uint8_t *bytes;
    size_t len, room;
} trace;

/* An empty trace, whose bytes are never null. */
trace trace_make(void);
void trace_free(trace *t);

/* Adds one well-formed record; the numbers are of at most 5 digits. */
void trace_record(trace *t, int32_t kind, int32_t a, int32_t b, int32_t c);

void trace_insert(trace *t, size_t at, const void *bytes, size_t len);
void trace_remove(trace *t, size_t at, size_t len);

#endif
