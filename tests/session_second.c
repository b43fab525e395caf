/* session_second.c - see session_second.h. */
#include "session_second.h"
#include "session_bytes.h"

#include <stdio.h>
#include <stdlib.h>
#include <string.h>

/* Whether the bytes of a session hold all of it; the chip's bytes have tests of their own. */
static bool same(const second_session *x, const second_session *y)
{
    return x->records == y->records && x->used == y->used && x->written == y->written && x->ended == y->ended && x->stopped == y->stopped
        && x->carried_len == y->carried_len && memcmp(x->carried, y->carried, sizeof x->carried) == 0
        && memcmp(&x->chip, &y->chip, sizeof x->chip) == 0;
}

static void must(const char *what, bool good)
{
    if (!good) {
        printf("FAILED: %s\n", what);
        exit(1);
    }
}

int32_t session_second_open(int32_t address, uint8_t *session, size_t session_len)
{
    second_session s;
    int32_t code;

    if (session_len != DLAVETH_SESSION_BYTES)
        return SECOND_BAD_FIELD;
    code = second_open(&s, address);
    if (code == SECOND_DONE)
        session_encode(&s, session);
    else
        memset(session, 0, DLAVETH_SESSION_BYTES);
    return code;
}

int32_t session_second_feed(uint8_t *session, size_t session_len, const uint8_t *portion, size_t portion_len, int32_t end,
                            uint8_t *output, size_t output_len, uint8_t *report, size_t report_len, uint8_t *progress, size_t progress_len)
{
    second_session s, back;
    int32_t code;

    if (session_len != DLAVETH_SESSION_BYTES || report_len != DLAVETH_REPORT_BYTES || progress_len != DLAVETH_PROGRESS_BYTES
        || (end != 0 && end != 1))
        return SECOND_BAD_FIELD;
    if (!session_judge(session))
        return SECOND_BAD_STATE;
    session_decode(session, &s);
    code = second_feed(&s, portion, portion_len, end, output, output_len, report, report_len, progress, progress_len);
    must("the second model takes what the judge lets pass", code != SECOND_BAD_STATE);
    session_encode(&s, session);
    session_decode(session, &back);
    must("a session's bytes hold all of it, and are a session", same(&s, &back) && session_judge(session));
    return code;
}
