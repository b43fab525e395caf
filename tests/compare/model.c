/*
 * model.c - the proved model's side: takes calls on standard input, makes them, writes back what came.
 * A program of its own, for x86-64, because the driver's sanitizers do not run under an emulator.
 */
#include "call.h"
#include "wire.h"

#include <stdbool.h>
#include <stdio.h>
#include <stdlib.h>

replay_function replay;

static void take(void *to, size_t len)
{
    if (fread(to, 1, len, stdin) != len)
        exit(1);
}

static void give(const void *from, size_t len)
{
    if (fwrite(from, 1, len, stdout) != len)
        exit(1);
}

/* Whether there is one more request; the driver ends the model by closing the pipe. */
static bool more(void)
{
    int c = getchar();
    return c != EOF && ungetc(c, stdin) == c;
}

static void answer_one(void)
{
    wire_request request;
    take(&request, sizeof request);
    uint8_t *trace = call_room(request.trace_len);
    take(trace, request.trace_len);

    call_input in = {(int32_t)request.address, trace, request.trace_len,
                     request.output_len, request.report_len, request.fill};
    call_result result = call_replay(replay, &in);

    wire_answer answer = {result.code, result.spoilt};
    give(&answer, sizeof answer);
    give(result.output, request.output_len);
    give(result.report, request.report_len);
    if (fflush(stdout) != 0)
        exit(1);
    call_result_free(&result);
    free(trace);
}

int main(void)
{
    while (more())
        answer_one();
    return 0;
}
