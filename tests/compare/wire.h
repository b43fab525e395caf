/*
 * wire.h - what the driver and the model's program say to each other over two pipes.
 * A request is a wire_request and the trace; an answer is a wire_answer, the whole output and the
 * whole report. Both ends have the same byte order.
 */
#ifndef WIRE_H
#define WIRE_H

#include <stdint.h>

typedef struct {
    uint64_t trace_len, output_len, report_len, fill;
    int64_t address;
} wire_request;

typedef struct {
    int32_t code;
    uint32_t spoilt;
} wire_answer;

/* A call of a session: a wire_feed, the session and the portion; its answer is a wire_answer, then session, report, progress and the whole output. */
typedef struct {
    uint64_t portion_len, room, fill;
    int64_t end;
} wire_feed;

#endif
