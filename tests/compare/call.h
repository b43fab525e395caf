/* call.h - one call of a replay, of either model, with guard bytes round all that it is lent. */
#ifndef CALL_H
#define CALL_H

#include <stddef.h>
#include <stdint.h>

typedef int32_t replay_function(int32_t address, const uint8_t *trace, size_t trace_len,
                                uint8_t *output, size_t output_len, uint8_t *report, size_t report_len);

typedef struct {
    int32_t address;
    const uint8_t *trace;
    size_t trace_len, output_len, report_len;
    uint64_t fill;      /* decides what output and report hold before the call, and how they are aligned */
} call_input;

/* What a call did that it must not do: bits of call_result.spoilt. */
enum {
    SPOILT_BY_TRACE = 1,    /* wrote round the trace */
    SPOILT_BY_OUTPUT = 2,   /* wrote round the output */
    SPOILT_BY_REPORT = 4,   /* wrote round the report */
    SPOILT_TRACE = 8        /* changed the trace itself */
};

typedef struct {
    int32_t code;
    uint32_t spoilt;
    uint8_t *output, *report;   /* whole buffers, with the bytes that the call left alone */
} call_result;

call_result call_replay(replay_function *replay, const call_input *in);
void call_result_free(call_result *result);

/* malloc that does not fail, of at least one byte. */
void *call_room(size_t len);

#endif
