/* portions_model.c - the library's side for portions.c: takes calls of a session on standard input, makes them, writes back what came. It is a program
   of its own for the reason that tests/compare/model.c has. */
#include "call.h"
#include "session_call.h"
#include "wire.h"

#include <stdio.h>
#include <stdlib.h>

feed_function dlaveth_feed;

static void take(void *to, size_t len)
{
    if (fread(to, 1, len, stdin) != len)
        exit(1);
}

static void give(const void *from, size_t len)
{
    if (fwrite(from, 1, len, stdout) != len)
        exit(1);
}

static void answer_one(void)
{
    static feed_buffers buffers;
    wire_feed request;
    uint8_t session[FEED_SESSION];
    take(&request, sizeof request);
    uint8_t *portion = call_room(request.portion_len);
    take(session, sizeof session);
    take(portion, request.portion_len);

    feed_input in = {session, portion, request.portion_len, request.room, (int32_t)request.end,
                     FEED_SESSION, request.portion_len, FEED_REPORT, FEED_PROGRESS, request.fill};
    feed_result result = feed_call(dlaveth_feed, &buffers, &in);

    wire_answer answer = {result.code, result.spoilt};
    give(&answer, sizeof answer);
    give(result.session, sizeof result.session);
    give(result.report, sizeof result.report);
    give(result.progress, sizeof result.progress);
    give(result.output, request.room);
    if (fflush(stdout) != 0)
        exit(1);
    free(portion);
}

int main(void)
{
    for (int c; (c = getchar()) != EOF && ungetc(c, stdin) == c;)
        answer_one();
    return 0;
}
