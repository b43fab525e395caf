/* session_play.c - see session_play.h. */
#include "session_play.h"
#include "session_bytes.h"
#include "session_second.h"

#include <stdio.h>
#include <stdlib.h>
#include <string.h>

unsigned long passed, failed;

void check(const char *what, bool good)
{
    if (good)
        passed++;
    else if (failed++ < 20)
        printf("FAILED %s\n", what);
}

randoms chance;

uint32_t any(uint32_t below)
{
    return random_below(&chance, below);
}

/* ---- one call on both ---- */

static void show(const char *whose, const feed_result *r)
{
    printf("  %s: code %d, spoilt %u, report", whose, (int)r->code, (unsigned)r->spoilt);
    for (int i = 0; i < 4; i++)
        printf(" %u", (unsigned)session_word(r->report + 4 * i));
    printf(", progress %u %u, session", (unsigned)session_word(r->progress), (unsigned)session_word(r->progress + 4));
    for (int i = 0; i < 20; i++)
        printf(" %02x", r->session[i]);
    printf("\n");
}

static bool same(const feed_result *x, const feed_result *y, size_t room)
{
    return x->code == y->code && x->spoilt == 0 && y->spoilt == 0 && memcmp(x->session, y->session, SESSION) == 0
        && memcmp(x->report, y->report, sizeof x->report) == 0 && memcmp(x->progress, y->progress, sizeof x->progress) == 0
        && (room == 0 || memcmp(x->output, y->output, room) == 0);
}

told call(const char *what, uint8_t *session, feed_input in)
{
    static feed_buffers of_library, of_second;
    static feed_result library, second;
    const uint32_t refusals = 1u << 2 | 1u << 6 | 1u << 9;
    told t = { 0 };

    in.session = session;
    for (int again = any(16) == 0; again >= 0; again--) {
        bool good;

        in.fill = random_next(&chance);
        library = feed_call(dlaveth_feed, &of_library, &in);
        second = feed_call(session_second_feed, &of_second, &in);
        good = same(&library, &second, in.room);
        if (!good && failed < 20) {
            printf("portion of %zu, end %d, room %zu\n", in.portion_len, (int)in.end, in.room);
            show("library", &library);
            show("second ", &second);
        }
        check(what, good);
    }
    t.code = second.code;
    t.refused = (refusals >> second.code & 1) || (second.code == 7 && session[SESSION_STOPPED]);
    t.output = second.output;
    t.report = second.report;
    if (t.refused) {
        check("a refusal leaves the session's bytes", memcmp(session, second.session, SESSION) == 0);
    } else {
        t.taken = session_word(second.progress);
        t.written = session_word(second.progress + 4);
    }
    memcpy(session, second.session, SESSION);
    return t;
}

told feed(const char *what, uint8_t *session, const void *portion, size_t len, int32_t end, size_t room)
{
    feed_input in = { NULL, portion, len, room, end, SESSION, len, DLAVETH_REPORT_BYTES, DLAVETH_PROGRESS_BYTES, 0 };

    return call(what, session, in);
}

told gives(const char *what, uint8_t *session, const void *portion, size_t len, int32_t end, size_t room,
           int32_t code, uint32_t taken, uint32_t written)
{
    told t = feed(what, session, portion, len, end, room);

    check(what, !t.refused && t.code == code && t.taken == taken && t.written == written);
    return t;
}

void refuses(const char *what, uint8_t *session, const char *portion, int32_t end, int32_t code)
{
    told t = feed(what, session, portion, strlen(portion), end, AMPLE);

    check(what, t.refused && t.code == code);
}

/* ---- the whole, by replay and dlaveth_event ---- */

/* The number behind the next equals sign. */
static int32_t next_number(const uint8_t **at)
{
    int32_t number = 0;
    bool minus;

    while (*(*at)++ != '=')
        ;
    minus = **at == '-';
    for (*at += minus; **at != '\n'; (*at)++)
        number = 10 * number + (**at - '0');
    return minus ? -number : number;
}

void whole_of(whole *w, int32_t address, const uint8_t *trace, size_t len)
{
    size_t room = DLAVETH_ROOM(len);
    uint8_t answer[DLAVETH_EVENT_ANSWER_BYTES];
    const uint8_t *at = trace;

    if (w->room <= room) {
        free(w->output);
        w->output = malloc(room + 1);
        w->room = room + 1;
        if (w->output == NULL)
            exit(1);
    }
    w->code = replay(address, trace, len, w->output, room, w->report, sizeof w->report);
    check("a whole trace ends with 0 or 7", w->code == 0 || w->code == 7);
    w->written = session_word(w->report + 12);
    dlaveth_power_on(address, w->chip, sizeof w->chip);
    for (uint32_t i = session_word(w->report + 4); i > 0; i--) {
        int32_t kind = next_number(&at), a = next_number(&at), b = next_number(&at), c = next_number(&at);

        dlaveth_event(w->chip, sizeof w->chip, kind, a, b, c, answer, sizeof answer);
    }
}

/* ---- a session with its answers joined ---- */

void begin(run *r, int32_t address)
{
    r->len = 0;
    check("open", dlaveth_open(address, r->bytes, SESSION) == 0);
}

told go(const char *what, run *r, const uint8_t *portion, size_t len, int32_t end, size_t room)
{
    told t = feed(what, r->bytes, portion, len, end, room);

    if (t.written > JOINED - r->len) {
        printf("FAILED: answers longer than the test has room for\n");
        exit(1);
    }
    if (t.written > 0)
        memcpy(r->joined + r->len, t.output, t.written);
    r->len += t.written;
    if (!t.refused)
        memcpy(r->report, t.report, sizeof r->report);
    return t;
}

void is_whole(const char *what, const run *r, const whole *w)
{
    bool done = r->bytes[SESSION_ENDED] || r->bytes[SESSION_STOPPED];
    size_t from = done ? 0 : 4;

    check(what, r->len == w->written && memcmp(r->joined, w->output, r->len) == 0
          && memcmp(r->report + from, w->report + from, sizeof r->report - from) == 0 && memcmp(r->bytes + SESSION_CHIP, w->chip, sizeof w->chip) == 0);
}
