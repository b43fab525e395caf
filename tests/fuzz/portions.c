/*
 * portions.c - see input.h. One session, fed call by call. The head:
 *   0        bit 0: what follows, 0 the trace as it is, 1 events; bit 1: the address; bit 2: the session's bytes are damaged once; bits 7..3: what
 *            the buffers hold before the calls
 *   1..3     the damage: before which call, which byte, what it is changed by
 *   4..15    six steps of two bytes, taken one behind the other and again from the first:
 *            bits 5..0 of the first: how many bytes are offered, 63 for all that are left; bits 7..6: the end, 0 and 1 not, 2 with the last
 *            byte, 3 whatever is left; the second: the room of the output
 * After CALLS calls the rest is fed with the end and room enough; then come three calls more.
 */
#include "chip_bytes.h"
#include "compare.h"
#include "events.h"
#include "input.h"
#include "session_bytes.h"
#include "session_call.h"
#include "session_second.h"
#include "wire.h"

#include <stdio.h>
#include <stdlib.h>
#include <string.h>

enum { HEAD = 16, STEPS = 6, STEPS_AT = 4, CALLS = 60, LONGEST = SECOND_LONGEST_ANSWER };

const size_t input_head = HEAD;

/* What a session went through: by code, whether any bytes were offered and the end; by code and the bytes carried before the call; by the
   room left at an 8; by the damage's place and whether a session was left. */
typedef struct {
    uint8_t calls[10][2][2], carried[10][SECOND_MOST_CARRIED + 1], left[LONGEST], damaged[SESSION_CARRIED + 4][2];
} states;

/* The fuzzer takes a byte of this section that is not 0 for code reached. */
__attribute__((used, section("__libfuzzer_extra_counters"))) static states reached;

typedef struct {
    pipes *model;
    trace t;
    size_t at, joined_len;          /* bytes of the trace taken, and of the answers joined */
    uint8_t *joined, session[FEED_SESSION], report[FEED_REPORT];
    uint64_t fill;
    bool damaged;
} session;

/* ---- one call of both ---- */

static void show(const char *whose, const feed_result *r)
{
    printf("%-7s code %d, spoilt %u, report", whose, (int)r->code, (unsigned)r->spoilt);
    for (size_t i = 0; i < sizeof r->report; i++)
        printf(" %02x", r->report[i]);
    printf(", progress");
    for (size_t i = 0; i < sizeof r->progress; i++)
        printf(" %02x", r->progress[i]);
    printf(", session");
    for (size_t i = 0; i < SESSION_NOTHING; i++)
        printf(" %02x", r->session[i]);
    putchar('\n');
}

static feed_result of_library(pipes *model, const feed_input *in)
{
    wire_feed request = {in->portion_len, in->room, in->fill, in->end};
    wire_answer answer;
    feed_result result = {0};
    pipes_send(model, &request, sizeof request);
    pipes_send(model, in->session, FEED_SESSION);
    pipes_send(model, in->portion, in->portion_len);
    pipes_receive(model, &answer, sizeof answer);
    result.code = answer.code;
    result.spoilt = answer.spoilt;
    result.output = call_room(in->room);
    pipes_receive(model, result.session, sizeof result.session);
    pipes_receive(model, result.report, sizeof result.report);
    pipes_receive(model, result.progress, sizeof result.progress);
    pipes_receive(model, result.output, in->room);
    return result;
}

static bool is_same(const feed_input *in, const feed_result *x, const feed_result *y)
{
    return x->code == y->code && x->spoilt == 0 && y->spoilt == 0 && memcmp(x->session, y->session, sizeof x->session) == 0
        && memcmp(x->report, y->report, sizeof x->report) == 0 && memcmp(x->progress, y->progress, sizeof x->progress) == 0
        && memcmp(x->output, y->output, in->room) == 0;
}

/* Document 02, item 5, by the session's own counts: its answers so far stand in the same output, or there is room for what it carries and this
   portion. */
static bool is_enough(const uint8_t *session, size_t len, size_t room)
{
    const size_t carried = session[SESSION_CARRIED_LEN], all = session_word(session + SESSION_USED) + carried + len;
    return session_word(session + SESSION_WRITTEN) + room >= second_room(all) || room >= second_room(carried + len);
}

static void feed(session *s, size_t len, int32_t end, size_t room)
{
    static feed_buffers buffers;
    s->fill = s->fill * UINT64_C(6364136223846793005) + UINT64_C(1442695040888963407);
    feed_input in = {s->session, s->t.bytes + s->at, len, room, end, FEED_SESSION, len, FEED_REPORT, FEED_PROGRESS, s->fill};
    feed_result library = of_library(s->model, &in), second = feed_call(session_second_feed, &buffers, &in);
    if (!is_same(&in, &library, &second)) {
        printf("DIFFERENT: %s\n%zu bytes from %zu on, end %d, room %zu\n", compare_case(), len, s->at, (int)end, room);
        show("library", &library);
        show("second", &second);
        exit(1);
    }
    free(library.output);
    if (second.code == SECOND_NO_ROOM && is_enough(s->session, len, room)) {
        printf("NOT WITHIN THE BOUND: %s\n%zu bytes from %zu on, room %zu\n", compare_case(), len, s->at, room);
        exit(1);
    }

    bool refused = second.code == 2 || second.code == 6 || second.code == 9 || s->session[SESSION_STOPPED] == 1;
    reached.calls[second.code][len > 0][end] = 1;
    reached.carried[second.code][s->session[SESSION_CARRIED_LEN] % (SECOND_MOST_CARRIED + 1)] = 1;
    if (!refused) {
        size_t written = session_word(second.progress + 4);
        memcpy(s->joined + s->joined_len, second.output, written);
        s->joined_len += written;
        s->at += session_word(second.progress);
        memcpy(s->report, second.report, sizeof s->report);
        if (second.code == SECOND_NO_ROOM)
            reached.left[(room - written) % LONGEST] = 1;
    }
    memcpy(s->session, second.session, sizeof s->session);
}

/* ---- the steps ---- */

/* For one call, whatever is carried. */
static size_t enough(size_t len)
{
    return second_room(SECOND_MOST_CARRIED + len);
}

/* What is left of one output that is large enough for all that was offered so far; a damaged session may have answered more. */
static size_t enough_in_one(const session *s, size_t len)
{
    const size_t all = second_room(s->at + len);
    return all > s->joined_len ? all - s->joined_len : 0;
}

/* How long the answers of a call are if there is room for all. */
static size_t exact_room(const session *s, size_t len)
{
    second_session copy;
    uint8_t *output = call_room(enough(len)), report[SECOND_REPORT_BYTES], progress[SECOND_PROGRESS_BYTES] = {0};
    if (session_judge(s->session)) {
        session_decode(s->session, &copy);
        (void)second_feed(&copy, s->t.bytes + s->at, len, 0, output, enough(len), report, sizeof report, progress, sizeof progress);
    }
    free(output);
    return session_word(progress + 4);
}

static size_t room_of(const session *s, size_t len, uint8_t y)
{
    size_t exact;
    switch (y % 8) {
    case 0: case 1:
        return enough(len);
    case 2:
        return enough_in_one(s, len);
    case 3:
        return 0;
    case 4:
        return 30U + y / 8 % 4;
    case 5:
        return y;
    default:
        exact = exact_room(s, len);
        return y % 8 == 6 || exact == 0 ? exact : exact - 1;
    }
}

/* One call as a step says. */
static void step(session *s, uint8_t x, uint8_t y)
{
    size_t left = s->t.len - s->at, len = (x & 63) == 63 || (x & 63U) > left ? left : x & 63U;
    int32_t end = x >> 6 == 3 || (x >> 6 == 2 && len == left);
    feed(s, len, end, room_of(s, len, y));
}

static bool is_done(const session *s)
{
    return s->session[SESSION_ENDED] != 0 || s->session[SESSION_STOPPED] != 0;
}

/* ---- the whole ---- */

/* However it was cut: answers and report are those of a replay over all up to the end; what is bad at once is so whatever comes behind. */
static void hold_to_whole(const session *s)
{
    size_t room = 2 * s->t.len, offered = s->session[SESSION_ENDED] != 0 ? s->at : s->t.len;
    uint8_t *output = call_room(room), report[SECOND_REPORT_BYTES];
    (void)second_replay(s->session[SESSION_CHIP + 1], s->t.bytes, offered, output, room, report, sizeof report);
    if (s->joined_len != session_word(report + 12) || memcmp(output, s->joined, s->joined_len) != 0
        || memcmp(report, s->report, sizeof report) != 0) {
        printf("NOT THE WHOLE: %s\n", compare_case());
        exit(1);
    }
    free(output);
}

bool input_is_events(const uint8_t *bytes, size_t len)
{
    return len > 0 && bytes[0] % 2 == 1;
}

bool input_is_huge(const uint8_t *bytes, size_t len)
{
    (void)bytes;
    (void)len;
    return false;
}

void input_shrink(uint8_t *bytes)
{
    (void)bytes;
}

/* Each byte before the carried ones; those; the zeros; the chip's; and its zeros. */
static size_t part_of(size_t place)
{
    static const size_t ends[] = {SESSION_NOTHING, SESSION_CHIP, SESSION_CHIP + CHIP_MEANING};
    size_t part = place < SESSION_CARRIED ? place : SESSION_CARRIED;
    for (int i = 0; i < 3; i++)
        part += place >= ends[i];
    return part;
}

static void run(session *s, const uint8_t head[HEAD])
{
    for (int n = 0; !is_done(s) && !s->damaged; n++) {
        const uint8_t *at = head + STEPS_AT + 2 * (n % STEPS);
        const size_t left = s->t.len - s->at;
        if ((head[0] & 4) != 0 && n == head[1] % 16) {
            s->session[head[2]] ^= head[3];
            s->damaged = head[3] != 0;
            reached.damaged[part_of(head[2])][session_judge(s->session)] = 1;
        }
        if (n < CALLS)
            step(s, at[0], at[1]);
        else
            feed(s, left, 1, enough(left));
    }
    if (!s->damaged)
        hold_to_whole(s);
    for (int n = 0; n < 3; n++)
        step(s, head[STEPS_AT + 2 * n], head[STEPS_AT + 2 * n + 1]);
}

void input_try(pipes *model, const uint8_t *bytes, size_t len)
{
    uint8_t head[HEAD] = {0};
    size_t head_len = len < HEAD ? len : HEAD;
    memcpy(head, bytes, head_len);
    session s = {.model = model, .t = trace_make(), .fill = head[0] >> 3};
    int32_t address = (head[0] & 2) != 0 ? 77 : 76;
    if (input_is_events(bytes, len))
        events_add(&s.t, address, bytes + head_len, len - head_len, NULL, NULL);
    else
        trace_insert(&s.t, 0, bytes + head_len, len - head_len);
    s.joined = call_room(2 * s.t.len + 4 * enough(s.t.len));
    (void)session_second_open(address, s.session, FEED_SESSION);
    run(&s, head);
    free(s.joined);
    trace_free(&s.t);
}
