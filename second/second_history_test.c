/*
 * second_history_test.c - tests of the history, on answers worked out by hand from document 01 and
 * document 02's Items 3 and 4. No model is asked. At every event wrong answers are tried as well:
 * their claim must not hold.
 */
#include "second_history.h"
#include "second_test.h"

#include <string.h>

enum { ROOM = 64, ONE_CLAIM = 1 };
enum { STATUS = ONE_CLAIM << HISTORY_STATUS, SPELLS = ONE_CLAIM << HISTORY_SPELLS, ALERT = ONE_CLAIM << HISTORY_ALERT,
       RESPONSE = ONE_CLAIM << HISTORY_RESPONSE, UNCHANGED = ONE_CLAIM << HISTORY_UNCHANGED,
       SAME_EVENTS = ONE_CLAIM << HISTORY_SAME_EVENTS, THERM2 = ONE_CLAIM << HISTORY_THERM2 };

static second_history h;
static history_moment list[ROOM];
static history_counts counts;

static void begin(int32_t address)
{
    memset(&counts, 0, sizeof counts);
    history_begin(&h, address, list, ROOM, &counts);
}

/* What the claims say to another answer; the history at hand stays. */
static unsigned tried(int32_t kind, int32_t a, int32_t b, int32_t c, second_answer answer)
{
    second_history copy = h;
    history_counts scratch = {0};
    history_moment moments[ROOM];
    memcpy(moments, list, sizeof list);
    copy.list = moments;
    copy.counts = &scratch;
    return history_take(&copy, kind, a, b, c, answer);
}

static void take_at(int line, int32_t kind, int32_t a, int32_t b, int32_t c, int code, int reply, int alert)
{
    const second_answer right = {code, reply, alert, 1};
    second_answer wrong = right;
    bool caught = true;

    /* caught by the claim of the role that pin 6 has after the event */
    wrong.alert = !alert;
    const unsigned line_claim = tried(kind, a, b, c, wrong) & (ALERT | THERM2);
    wrong = right;
    wrong.code = code == 0 ? 3 : 0;
    caught = caught && (tried(kind, a, b, c, wrong) & SAME_EVENTS) != 0;
    if (kind == 5 && a == 0 && b == 0 && c == 0) {
        caught = caught && (tried(kind, a, b, c, wrong) & RESPONSE) != 0;
        wrong = right;
        wrong.reply = reply + 1;
        caught = caught && ((tried(kind, a, b, c, wrong) & RESPONSE) != 0) == (code == 0);
    }
    if (code == 0 && (kind == 0 || kind >= 5))
        caught = caught && (tried(kind, a, b, c, (second_answer){5, 0, alert, 1}) & UNCHANGED) != 0;
    check_at(__FILE__, line, caught, "a wrong answer is caught");
    check_at(__FILE__, line, history_take(&h, kind, a, b, c, right) == 0, "the right answer is good");
    check_at(__FILE__, line, line_claim == (h.record.written[0x09] & 0x20 ? THERM2 : ALERT),
             "a wrong line is caught");
}
/* kind, a, b, c, then code, reply, alert */
#define TAKE(...) take_at(__LINE__, __VA_ARGS__)

/* A status read at 76. A flag shown wrongly is caught; at a clearing read the spells do not come out either. */
static void status_at(int line, int reply, int alert)
{
    bool caught = true;
    for (int flag = 0; flag < HISTORY_FLAGS; flag++) {
        unsigned wrong = tried(3, 76, 2, 0, (second_answer){0, reply ^ 1 << (flag + 2), alert, 1});
        bool clearing = history_latest_comparison(&h, flag, h.length) != HISTORY_FAULT;
        caught = caught && (wrong & STATUS) != 0 && ((wrong & SPELLS) != 0) == clearing;
    }
    check_at(__FILE__, line, caught, "a wrong flag is caught");
    take_at(line, 3, 76, 2, 0, 0, reply, alert);
}
#define STATUS_READ(...) status_at(__LINE__, __VA_ARGS__)

static void write_at(int line, int command, int data, int alert)
{
    take_at(line, 2, 76, command, data, 0, 0, alert);
}
#define WRITE(...) write_at(__LINE__, __VA_ARGS__)

/* local, remote, open, then alert before and after; the start is a kind 6, or in standby a one-shot. */
static void convert_at(int line, bool standby, int32_t local, int32_t remote, int32_t open, int before, int after)
{
    if (standby)
        write_at(line, 0x0F, 0, before);
    else
        take_at(line, 6, 0, 0, 0, 0, 0, before);
    take_at(line, 7, local, remote, open, 0, 0, after);
}
#define CONVERT(...) convert_at(__LINE__, false, __VA_ARGS__)
#define ONE_SHOT(...) convert_at(__LINE__, true, __VA_ARGS__)

static bool flag_is(int flag, uint64_t spells, uint64_t cleared, bool stands)
{
    return history_spells_opened(&h, flag, h.length) == spells && h.spells[flag] == spells
        && history_clearing_reads_showing_1(&h, flag, h.length) == cleared && h.cleared[flag] == cleared
        && history_stands(&h, flag, h.length) == stands;
}

static bool latch_stands(void)
{
    return history_latch_stands(&h, h.length);
}

/* The list itself, event for event; K11. */
static void test_gone_and_read(void)
{
    static const uint8_t was[] = { HISTORY_NOTHING, HISTORY_FAULT, HISTORY_SHOWED_1, HISTORY_SHOWED_1,
                                   HISTORY_NOTHING, HISTORY_NO_FAULT, HISTORY_SHOWED_1, HISTORY_SHOWED_0 };
    enum { FLAG = HISTORY_REMOTE_HIGH };
    begin(76);
    CONVERT(20, 341, 0, 1, 0);
    CHECK(flag_is(FLAG, 1, 0, true) && flag_is(HISTORY_REMOTE_LOW, 0, 0, false) && latch_stands());
    STATUS_READ(18, 0);
    STATUS_READ(18, 0);
    CHECK(flag_is(FLAG, 1, 0, true));
    CONVERT(20, 300, 0, 0, 0);
    CHECK(flag_is(FLAG, 1, 0, true));
    STATUS_READ(16, 0);
    CHECK(flag_is(FLAG, 1, 1, false) && latch_stands());
    STATUS_READ(0, 0);
    CHECK(flag_is(FLAG, 1, 1, false) && latch_stands());

    CHECK(h.length == sizeof was);
    for (size_t i = 0; i < sizeof was; i++)
        CHECK(list[i].was[FLAG] == was[i]);
    CHECK(history_latest_comparison(&h, FLAG, 1) == HISTORY_NOTHING);
    CHECK(history_latest_comparison(&h, FLAG, 4) == HISTORY_FAULT);
    CHECK(history_latest_comparison(&h, FLAG, 8) == HISTORY_NO_FAULT);
    CHECK(!history_clearing_read(&h, FLAG, 2) && !history_clearing_read(&h, FLAG, 3));
    CHECK(!history_clearing_read(&h, FLAG, 5));
    CHECK(history_clearing_read(&h, FLAG, 6) && history_clearing_read(&h, FLAG, 7));
    CHECK(history_opens_spell(&h, FLAG, 1) && !history_opens_spell(&h, FLAG, 5));
    CHECK(!history_stands(&h, FLAG, 1) && history_stands(&h, FLAG, 2) && history_stands(&h, FLAG, 6));
    CHECK(history_sets_latch(&h, 1) == HISTORY_BY_RUN && history_sets_latch(&h, 5) == 0);

    TAKE(5, 0, 0, 0, 0, 153, 1);
    CHECK(!latch_stands() && history_clears_latch(&h, 8));
    TAKE(5, 0, 0, 0, 3, 0, 1);
    CHECK(counts.claims[HISTORY_STATUS] == 4);
    CHECK(counts.claims[HISTORY_ALERT] == 10 && counts.claims[HISTORY_SPELLS] == 10);
    CHECK(counts.claims[HISTORY_RESPONSE] == 2 && counts.claims[HISTORY_UNCHANGED] == 1);
    CHECK(counts.spells[FLAG] == 1 && counts.cleared[FLAG] == 1 && counts.still[FLAG] == 2);
    CHECK(counts.by_run == 1 && counts.by_open == 0 && counts.by_standby == 0 && counts.latch_cleared == 1);
    CHECK(counts.answered == 1 && counts.refused == 1 && counts.resets == 0);
    CHECK(history_end(&h) == 0);
    h.spells[FLAG]++;
    CHECK(history_end(&h) == SPELLS);
    h.spells[FLAG]--;
    h.cleared[FLAG]++;
    CHECK(history_end(&h) == SPELLS);
}

static void test_two_spells(void)
{
    begin(76);
    STATUS_READ(0, 1);                              /* no comparison made */
    for (int flag = 0; flag < HISTORY_FLAGS; flag++)
        CHECK(history_clearing_read(&h, flag, 0) && flag_is(flag, 0, 0, false));
    CONVERT(86, 100, 0, 1, 0);
    CONVERT(50, 100, 0, 0, 0);
    CONVERT(86, 100, 0, 0, 0);                      /* not read out in between: the same spell */
    CHECK(flag_is(HISTORY_LOCAL_HIGH, 1, 0, true));
    CONVERT(50, 100, 0, 0, 0);
    STATUS_READ(0x40, 0);
    CONVERT(86, 100, 0, 0, 0);
    CHECK(flag_is(HISTORY_LOCAL_HIGH, 2, 1, true));
    STATUS_READ(0x41, 0);                           /* still there: closes nothing */
    CONVERT(0, 0, 0, 0, 0);
    CHECK(flag_is(HISTORY_LOCAL_HIGH, 2, 1, true) && flag_is(HISTORY_LOCAL_LOW, 1, 0, true));
    STATUS_READ(0x68, 0);
    STATUS_READ(0x28, 0);
    CHECK(flag_is(HISTORY_LOCAL_HIGH, 2, 2, false) && flag_is(HISTORY_REMOTE_LOW, 1, 0, true));
    CHECK(history_end(&h) == 0);
}

static void test_open_in_standby(void)
{
    begin(76);
    CONVERT(20, 100, 1, 1, 0);
    CHECK(flag_is(HISTORY_OPEN, 1, 0, true) && history_sets_latch(&h, 1) == HISTORY_BY_OPEN);
    WRITE(0x09, 0x40, 0);
    STATUS_READ(0x04, 0);
    WRITE(0x0B, 0x50, 0);                           /* compares the one channel converted, and not the diode */
    CHECK(list[4].was[HISTORY_OPEN] == HISTORY_NOTHING && list[4].was[HISTORY_LOCAL_HIGH] == HISTORY_NO_FAULT);
    CHECK(list[4].was[HISTORY_REMOTE_LOW] == HISTORY_NOTHING && history_sets_latch(&h, 4) == 0);
    STATUS_READ(0x04, 0);
    CHECK(flag_is(HISTORY_OPEN, 1, 0, true));
    TAKE(5, 0, 0, 0, 0, 153, 0);
    ONE_SHOT(20, 100, 0, 0, 0);
    STATUS_READ(0x04, 0);
    CHECK(flag_is(HISTORY_OPEN, 1, 1, false));
    STATUS_READ(0x00, 0);
    TAKE(5, 0, 0, 0, 0, 153, 1);
    CHECK(counts.by_open == 1 && counts.still[HISTORY_OPEN] == 2 && counts.latch_cleared == 1 && counts.answered == 2);
    CHECK(history_end(&h) == 0);
}

static bool latest_is(int flag, int verdict)
{
    return history_latest_comparison(&h, flag, h.length) == verdict;
}

/* What the event told last was for the high and the low flag of a channel. */
static bool remote_was(int high, int low)
{
    const history_moment *m = &list[h.length - 1];
    return m->was[HISTORY_REMOTE_HIGH] == high && m->was[HISTORY_REMOTE_LOW] == low;
}

static bool local_was(int high, int low)
{
    const history_moment *m = &list[h.length - 1];
    return m->was[HISTORY_LOCAL_HIGH] == high && m->was[HISTORY_LOCAL_LOW] == low;
}

/* "stores and compares only the local channel, and ... the latest remote limit verdicts stand as they were" */
static void test_held_back(bool standby)
{
    enum { NOTHING = HISTORY_NOTHING, NO_FAULT = HISTORY_NO_FAULT, FAULT = HISTORY_FAULT };

    /* a first one: no comparison was made, though remote 0 is at the low limit */
    begin(76);
    WRITE(0x09, standby ? 0x40 : 0x00, 1);
    convert_at(__LINE__, standby, 20, 0, 1, 1, 0);
    CHECK(remote_was(NOTHING, NOTHING) && local_was(NO_FAULT, NO_FAULT) && latest_is(HISTORY_OPEN, FAULT));
    CHECK(latest_is(HISTORY_REMOTE_HIGH, NOTHING) && latest_is(HISTORY_REMOTE_LOW, NOTHING) && h.record.remote == 0);
    STATUS_READ(0x04, 0);
    STATUS_READ(0x04, 0);

    /* a verdict of fault stands through it, and the flag through status reads */
    convert_at(__LINE__, standby, 20, 341, 0, 0, 0);
    CHECK(remote_was(FAULT, NO_FAULT) && flag_is(HISTORY_REMOTE_HIGH, 1, 0, true));
    convert_at(__LINE__, standby, 21, 0, 1, 0, 0);
    CHECK(remote_was(NOTHING, NOTHING) && h.record.remote == 341 && h.record.local == 21);
    CHECK(latest_is(HISTORY_REMOTE_HIGH, FAULT) && latest_is(HISTORY_REMOTE_LOW, NO_FAULT));
    STATUS_READ(0x14, 0);
    STATUS_READ(0x14, 0);
    CHECK(flag_is(HISTORY_REMOTE_HIGH, 1, 0, true) && flag_is(HISTORY_REMOTE_LOW, 0, 0, false));

    /* one of no fault lets the next status read clear the flag, whatever the sample */
    convert_at(__LINE__, standby, 20, 200, 0, 0, 0);
    convert_at(__LINE__, standby, 20, 341, 1, 0, 0);
    CHECK(flag_is(HISTORY_REMOTE_HIGH, 1, 0, true) && latest_is(HISTORY_REMOTE_HIGH, NO_FAULT));
    STATUS_READ(0x14, 0);
    CHECK(flag_is(HISTORY_REMOTE_HIGH, 1, 1, false) && flag_is(HISTORY_OPEN, 1, 0, true));
    STATUS_READ(0x04, 0);

    /* the local channel is compared as always, and its flags come and go */
    convert_at(__LINE__, standby, 86, 200, 1, 0, 0);
    CHECK(local_was(FAULT, NO_FAULT) && flag_is(HISTORY_LOCAL_HIGH, 1, 0, true));
    convert_at(__LINE__, standby, 0, 200, 1, 0, 0);
    CHECK(local_was(NO_FAULT, FAULT) && flag_is(HISTORY_LOCAL_LOW, 1, 0, true));
    STATUS_READ(0x64, 0);
    STATUS_READ(0x24, 0);

    /* the diode is checked by each */
    convert_at(__LINE__, standby, 20, 200, 0, 0, 0);
    CHECK(latest_is(HISTORY_OPEN, NO_FAULT) && flag_is(HISTORY_OPEN, 1, 0, true));
    STATUS_READ(0x24, 0);
    CHECK(flag_is(HISTORY_OPEN, 1, 1, false));
    TAKE(5, 0, 0, 0, 0, 153, 1);
    convert_at(__LINE__, standby, 20, 200, 1, 1, 0);
    CHECK(flag_is(HISTORY_OPEN, 2, 1, true) && counts.by_open == 2 && counts.by_run == 0);
    CHECK(history_end(&h) == 0);
}

/* "For the remote channel it doesn't count as a conversion; earlier ones still do." */
static void test_held_back_and_limits(void)
{
    enum { NOTHING = HISTORY_NOTHING, NO_FAULT = HISTORY_NO_FAULT, FAULT = HISTORY_FAULT };

    begin(76);
    WRITE(0x09, 0x40, 1);
    ONE_SHOT(20, 200, 1, 1, 0);
    WRITE(0x0E, 0x10, 0);                           /* remote 0 is under it, and not compared */
    CHECK(remote_was(NOTHING, NOTHING) && local_was(NO_FAULT, NO_FAULT) && history_sets_latch(&h, h.length - 1) == 0);
    WRITE(0x0B, 19, 0);
    CHECK(remote_was(NOTHING, NOTHING) && local_was(FAULT, NO_FAULT));
    CHECK(history_sets_latch(&h, h.length - 1) == HISTORY_BY_STANDBY);
    WRITE(0x0B, 20, 0);
    ONE_SHOT(20, 200, 0, 0, 0);
    ONE_SHOT(20, 400, 1, 0, 0);
    ONE_SHOT(20, 400, 1, 0, 0);
    CHECK(latest_is(HISTORY_REMOTE_HIGH, NO_FAULT));
    WRITE(0x0D, 50, 0);                             /* the last good one, 200: at the limit */
    CHECK(remote_was(NO_FAULT, NO_FAULT));
    WRITE(0x0D, 49, 0);
    CHECK(remote_was(FAULT, NO_FAULT) && history_sets_latch(&h, h.length - 1) == HISTORY_BY_STANDBY);
    ONE_SHOT(20, 100, 1, 0, 0);                     /* that verdict stands too */
    STATUS_READ(0x54, 0);
    STATUS_READ(0x14, 0);
    TAKE(0, 0, 0, 0, 0, 0, 1);                      /* earlier than the power-on: none */
    TAKE(6, 0, 0, 0, 0, 0, 1);
    TAKE(7, 20, 200, 1, 0, 0, 0);
    WRITE(0x09, 0x40, 0);
    WRITE(0x0E, 0x10, 0);
    CHECK(remote_was(NOTHING, NOTHING) && local_was(NO_FAULT, NO_FAULT));
    STATUS_READ(0x04, 0);
}

/* "The run count looks at local faults only in that conversion." The second half sees it at the line: there limits
   moved in standby and an alert response have let it go, and the row alone can draw it low again. */
static void test_held_back_in_a_row(void)
{
    begin(76);
    WRITE(0x22, 0x07, 1);
    CONVERT(20, 341, 0, 1, 1);
    CONVERT(86, 100, 1, 1, 0);                      /* a local fault: the row goes on */
    CHECK(history_in_a_row(&h, h.length) == 2 && history_sets_latch(&h, h.length - 1) == HISTORY_BY_OPEN);
    CONVERT(0, 100, 1, 0, 0);
    CHECK(history_in_a_row(&h, h.length) == 3);
    CHECK(history_sets_latch(&h, h.length - 1) == (HISTORY_BY_OPEN | HISTORY_BY_RUN));
    CONVERT(20, 341, 1, 0, 0);                      /* none: broken, though the remote verdict is a fault */
    CHECK(history_in_a_row(&h, h.length) == 0 && history_sets_latch(&h, h.length - 1) == HISTORY_BY_OPEN);
    CHECK(latest_is(HISTORY_REMOTE_HIGH, HISTORY_FAULT));
    CONVERT(20, 341, 0, 0, 0);
    CHECK(history_in_a_row(&h, h.length) == 1 && history_sets_latch(&h, h.length - 1) == 0);

    static const struct { int32_t local; int row, alert; } rows[] = { {20, 2, 1}, {86, 4, 0} };
    for (int i = 0; i < 2; i++) {
        begin(76);
        WRITE(0x22, 0x07, 1);
        CONVERT(20, 341, 0, 1, 1);
        CONVERT(rows[i].local, 341, 1, 1, 0);
        CONVERT(20, 341, 0, 0, 0);
        WRITE(0x09, 0x40, 0);
        WRITE(0x0D, 0x7F, 0);
        STATUS_READ(rows[i].local == 86 ? 0x54 : 0x14, 0);
        TAKE(5, 0, 0, 0, 0, 153, 1);
        WRITE(0x09, 0x00, 1);
        WRITE(0x0D, 0x55, 1);
        CONVERT(20, 341, 0, 1, rows[i].alert);
        CHECK(history_in_a_row(&h, h.length) == rows[i].row);
    }
}

static void test_reset(void)
{
    begin(77);
    TAKE(6, 0, 0, 0, 0, 0, 1);
    TAKE(7, 0, 0, 1, 0, 0, 0);
    CHECK(flag_is(HISTORY_OPEN, 1, 0, true) && flag_is(HISTORY_LOCAL_LOW, 1, 0, true) && latch_stands());
    TAKE(2, 77, 0x22, 0x0F, 0, 0, 0);
    TAKE(6, 0, 0, 0, 0, 0, 0);
    TAKE(0, 1, 0, 0, 2, 0, 0);                      /* refused: no power-on */
    CHECK(h.length == 5);
    TAKE(0, 0, 0, 0, 0, 0, 1);
    CHECK(h.length == 0 && !latch_stands() && counts.resets == 1 && counts.resets_standing == 1);
    for (int flag = 0; flag < HISTORY_FLAGS; flag++)
        CHECK(flag_is(flag, 0, 0, false));
    TAKE(7, 0, 0, 0, 5, 0, 1);                      /* the conversion does not run on */
    TAKE(3, 77, 2, 0, 0, 0, 1);
    TAKE(5, 0, 0, 0, 3, 0, 1);
    TAKE(2, 77, 0x09, 0x40, 0, 0, 1);
    TAKE(2, 77, 0x0B, 0, 0, 0, 1);                  /* no channel is converted any more */
    TAKE(2, 77, 0x0B, 0x55, 0, 0, 1);
    TAKE(2, 77, 0x09, 0, 0, 0, 1);
    TAKE(6, 0, 0, 0, 0, 0, 1);
    TAKE(7, 86, 100, 0, 0, 0, 0);                   /* register 22 is 01 again */
    TAKE(5, 0, 0, 0, 0, 155, 0);
    CHECK(flag_is(HISTORY_LOCAL_HIGH, 1, 0, true));
    TAKE(0, 0, 0, 0, 0, 0, 1);
    TAKE(0, 0, 0, 0, 0, 0, 1);
    CHECK(counts.resets == 2 && counts.resets_standing == 2);
}

static void test_in_a_row(void)
{
    begin(76);
    WRITE(0x22, 0x03, 1);
    CONVERT(20, 341, 0, 1, 1);
    CHECK(flag_is(HISTORY_REMOTE_HIGH, 1, 0, true) && history_in_a_row(&h, h.length) == 1 && !latch_stands());
    CONVERT(20, 100, 0, 1, 1);                      /* breaks the row */
    CONVERT(20, 341, 0, 1, 1);
    TAKE(6, 0, 0, 0, 0, 0, 1);
    WRITE(0x09, 0x40, 1);                           /* cut short: neither counts nor breaks */
    TAKE(7, 20, 100, 0, 5, 0, 1);
    CHECK(history_in_a_row(&h, h.length) == 1);
    WRITE(0x09, 0x00, 1);
    CONVERT(86, 100, 0, 1, 0);                      /* another fault, the same row */
    CHECK(history_in_a_row(&h, h.length) == 2 && history_sets_latch(&h, h.length - 1) == HISTORY_BY_RUN);
    CONVERT(86, 100, 0, 0, 0);
    CONVERT(86, 100, 0, 0, 0);
    CONVERT(86, 100, 0, 0, 0);
    CHECK(history_in_a_row(&h, h.length) == 4);
    CONVERT(20, 100, 1, 0, 0);                      /* an open diode is no limit fault */
    CHECK(history_in_a_row(&h, h.length) == 0 && history_sets_latch(&h, h.length - 1) == HISTORY_BY_OPEN);

    static const struct { int reg, needed; } k10[] = {
        {0x01, 1}, {0x03, 2}, {0x07, 3}, {0x0F, 4}, {0x05, 1}, {0x0B, 2} };
    for (size_t i = 0; i < sizeof k10 / sizeof *k10; i++) {
        begin(76);
        WRITE(0x22, k10[i].reg, 1);
        for (int count = 1; count <= 4; count++)
            CONVERT(20, 341, 0, count > k10[i].needed ? 0 : 1, count >= k10[i].needed ? 0 : 1);
    }
}

static void test_response_with_flag(void)
{
    begin(76);
    CONVERT(20, 341, 0, 1, 0);
    TAKE(5, 0, 0, 0, 0, 153, 0);
    CHECK(latch_stands() && !history_clears_latch(&h, 2));
    CONVERT(20, 100, 0, 0, 0);
    TAKE(5, 0, 0, 0, 0, 153, 0);                    /* the fault is gone, the flag stands */
    STATUS_READ(0x10, 0);
    TAKE(5, 0, 0, 0, 0, 153, 1);
    TAKE(5, 0, 0, 0, 3, 0, 1);
    CHECK(counts.answered == 3 && counts.refused == 1 && counts.latch_cleared == 1);

    /* masked, and in the THERM2 role with no mark: the latch stands behind a high line */
    CONVERT(0, 100, 0, 1, 0);
    WRITE(0x09, 0x80, 1);
    CHECK(latch_stands());
    TAKE(5, 0, 0, 0, 3, 0, 1);
    WRITE(0x09, 0x20, 1);
    TAKE(5, 0, 0, 0, 3, 0, 1);
    WRITE(0x09, 0x1B, 0);                           /* bits that are not kept */
    TAKE(5, 0, 0, 0, 0, 153, 0);
    CHECK(counts.therm2_refused == 1 && counts.latch_shown == 1 && counts.therm2_low == 0);
}

static void test_standby_and_row(void)
{
    begin(76);
    WRITE(0x22, 0x07, 1);
    CONVERT(20, 341, 0, 1, 1);
    WRITE(0x09, 0x40, 1);
    WRITE(0x0D, 0x54, 0);                           /* 341 is above 84 degrees too: whatever the count */
    CHECK(history_sets_latch(&h, h.length - 1) == HISTORY_BY_STANDBY && counts.by_standby == 1);
    WRITE(0x0E, 0x00, 0);
    WRITE(0x0C, 0x00, 0);
    CHECK(history_in_a_row(&h, h.length) == 1);
    WRITE(0x0D, 0x60, 0);                           /* a comparison that finds nothing breaks no row */
    STATUS_READ(0x12, 0);
    TAKE(5, 0, 0, 0, 0, 153, 1);
    WRITE(0x22, 0x07, 1);                           /* compares nothing */
    ONE_SHOT(86, 100, 0, 1, 1);
    CHECK(history_in_a_row(&h, h.length) == 2 && !latch_stands());
    ONE_SHOT(86, 100, 0, 1, 0);
    CHECK(history_in_a_row(&h, h.length) == 3 && latch_stands() && counts.by_run == 1);
}

/* Which writes compare, and with what. */
static void test_comparisons(void)
{
    begin(76);
    WRITE(0x09, 0x40, 1);
    WRITE(0x0B, 0x00, 1);                           /* in standby, never converted */
    CHECK(history_latest_comparison(&h, HISTORY_LOCAL_HIGH, h.length) == HISTORY_NOTHING);
    WRITE(0x0B, 0x55, 1);
    ONE_SHOT(20, 200, 0, 1, 1);
    for (int command = 0; command < 256; command++) {
        bool compares = (command >= 0x0B && command <= 0x0E) || command == 0x13 || command == 0x14
            || command == 0x19 || command == 0x20 || command == 0x21;
        second_history copy = h;
        history_moment *latest = &list[h.length];
        WRITE(command, command == 0x0B || command == 0x0D ? 0x55 : command == 0x09 ? 0x40 : 0, 1);
        CHECK((latest->was[HISTORY_LOCAL_LOW] == HISTORY_NO_FAULT) == compares);
        CHECK((latest->was[HISTORY_REMOTE_HIGH] == HISTORY_NO_FAULT) == compares);
        CHECK(latest->was[HISTORY_OPEN] == HISTORY_NOTHING);
        h = copy;
    }
    WRITE(0x0D, 40, 0);                             /* K12 */
    STATUS_READ(0x10, 0);
    WRITE(0x09, 0x00, 0);
    WRITE(0x0D, 60, 0);                             /* out of standby a write compares nothing */
    STATUS_READ(0x10, 0);
    CONVERT(20, 241, 0, 0, 0);
    WRITE(0x13, 0x7F, 0);                           /* 60.25: the other bits are not kept */
    CONVERT(20, 241, 0, 0, 0);
    STATUS_READ(0x10, 0);
    STATUS_READ(0x00, 0);
    WRITE(0x11, 0xFF, 0);                           /* offset -1: 246 is 242, above 241; then -0.75 and extended */
    CONVERT(20, 246, 0, 0, 0);
    CHECK(flag_is(HISTORY_REMOTE_HIGH, 2, 1, true) && h.record.remote == 242);
    WRITE(0x09, 0x04, 0);
    WRITE(0x12, 0x40, 0);
    CHECK(h.record.remote == 242 && flag_is(HISTORY_LOCAL_HIGH, 0, 0, false));
    CONVERT(21, -12, 0, 0, 0);
    CHECK(h.record.remote == 241 && h.record.local == 85 && flag_is(HISTORY_LOCAL_HIGH, 0, 0, false));
    STATUS_READ(0x10, 0);
    CONVERT(22, -12, 0, 0, 0);
    STATUS_READ(0x41, 0);
    CONVERT(-8192, 32767, 0, 0, 0);
    CHECK(h.record.remote == 1023 && h.record.local == 0 && flag_is(HISTORY_LOCAL_LOW, 1, 0, true));
    CHECK(history_end(&h) == 0);
}

/* Reads that are of the status, and events that are refused. */
static void test_reads_and_refusals(void)
{
    begin(76);
    CONVERT(86, 100, 0, 1, 0);
    CONVERT(20, 100, 0, 0, 0);
    TAKE(1, 76, 2, 0, 0, 0, 0);                     /* only moves the pointer */
    TAKE(3, 77, 2, 0, 3, 0, 0);                     /* another chip's */
    TAKE(3, 12, 2, 0, 3, 0, 0);
    TAKE(3, 76, 2, 1, 2, 0, 0);
    TAKE(8, 0, 0, 0, 1, 0, 0);
    TAKE(-1, 0, 0, 0, 1, 0, 0);
    TAKE(5, 0, 0, 1, 2, 0, 0);
    TAKE(7, 20, 100, 0, 5, 0, 0);
    TAKE(7, 8192, 100, 0, 2, 0, 0);
    TAKE(2, 76, 0x0B, 256, 2, 0, 0);
    TAKE(2, 75, 0x0B, 0, 3, 0, 0);
    TAKE(4, 76, 1, 0, 2, 0, 0);
    CHECK(h.length == 16 && flag_is(HISTORY_LOCAL_HIGH, 1, 0, true) && counts.claims[HISTORY_UNCHANGED] == 11);
    TAKE(4, 76, 0, 0, 0, 0x40, 0);
    CHECK(flag_is(HISTORY_LOCAL_HIGH, 1, 1, false) && counts.claims[HISTORY_STATUS] == 1);
    TAKE(3, 76, 0, 0, 0, 20, 0);
    TAKE(4, 76, 0, 0, 0, 20, 0);
    TAKE(2, 76, 2, 0xFF, 0, 0, 0);                  /* no write address, but the pointer is there */
    TAKE(4, 76, 0, 0, 0, 0, 0);
    CHECK(counts.claims[HISTORY_STATUS] == 2);
    TAKE(6, 0, 0, 0, 0, 0, 0);
    TAKE(6, 0, 0, 0, 4, 0, 0);
    WRITE(0x09, 0x40, 0);
    TAKE(6, 0, 0, 0, 4, 0, 0);
    WRITE(0x0F, 0, 0);
    WRITE(0x0F, 0, 0);
    WRITE(0x09, 0x40, 0);                           /* standby already: the one-shot runs on */
    TAKE(7, 20, 100, 0, 0, 0, 0);
    CHECK(history_end(&h) == 0);
}

/* ---- pin 6 as THERM2: document 02, Item 4 ---- */

static bool marks_are(bool local, bool remote)
{
    return history_mark_stands(&h, HISTORY_LOCAL, h.length) == local
        && history_mark_stands(&h, HISTORY_REMOTE, h.length) == remote
        && history_either_mark_stands(&h, h.length) == (local || remote);
}

/* Where the event told last found the two values. */
static bool found_at(int local, int remote)
{
    const history_moment *m = &list[h.length - 1];
    return m->found[HISTORY_LOCAL] == local && m->found[HISTORY_REMOTE] == remote;
}

enum { NOT_COMPARED = HISTORY_NOT_COMPARED, AT_RELEASE = HISTORY_AT_RELEASE,
       BETWEEN = HISTORY_BETWEEN, ABOVE = HISTORY_ABOVE };

/* "set above the high limit, cleared at or below that limit less the hysteresis (not under 0),
   otherwise kept"; the remote limit is 80.5 degrees, 322, and 282 with the hysteresis taken off */
static void test_marks(bool standby)
{
    begin(76);
    WRITE(0x09, standby ? 0x60 : 0x20, 1);
    WRITE(0x0D, 80, 1);
    WRITE(0x13, 0x80, 1);
    convert_at(__LINE__, standby, 85, 322, 0, 1, 1);
    CHECK(found_at(BETWEEN, BETWEEN) && marks_are(false, false));
    convert_at(__LINE__, standby, 86, 282, 0, 1, 0);
    CHECK(found_at(ABOVE, AT_RELEASE) && marks_are(true, false));
    convert_at(__LINE__, standby, 76, 283, 0, 0, 0);
    CHECK(found_at(BETWEEN, BETWEEN) && marks_are(true, false));
    convert_at(__LINE__, standby, 75, 323, 0, 0, 0);
    CHECK(found_at(AT_RELEASE, ABOVE) && marks_are(false, true));
    convert_at(__LINE__, standby, 76, 283, 0, 0, 0);
    CHECK(found_at(BETWEEN, BETWEEN) && marks_are(false, true));
    convert_at(__LINE__, standby, 86, 283, 0, 0, 0);
    CHECK(marks_are(true, true));
    convert_at(__LINE__, standby, 86, 282, 0, 0, 0);
    CHECK(marks_are(true, false));
    convert_at(__LINE__, standby, 75, 282, 0, 0, 1);
    CHECK(marks_are(false, false));
    CHECK(counts.marks_set[HISTORY_LOCAL] == 2 && counts.marks_cleared[HISTORY_LOCAL] == 2);
    CHECK(counts.marks_set[HISTORY_REMOTE] == 1 && counts.marks_cleared[HISTORY_REMOTE] == 1);
    CHECK(counts.marks_kept[HISTORY_LOCAL] == 1 && counts.marks_kept[HISTORY_REMOTE] == 2);
    CHECK(counts.marks_unseen == 0 && counts.marks_standby == 0);
    CHECK(counts.claims[HISTORY_THERM2] == 19 && counts.claims[HISTORY_ALERT] == 0);

    /* not under 0, in quarters: 5.75 less 6 degrees is 0, and less 5 degrees is 3 quarters */
    begin(76);
    WRITE(0x09, standby ? 0x60 : 0x20, 1);
    WRITE(0x0D, 5, 1);
    WRITE(0x13, 0xC0, 1);
    WRITE(0x21, 6, 1);
    convert_at(__LINE__, standby, 20, 24, 0, 1, 0);
    convert_at(__LINE__, standby, 20, 1, 0, 0, 0);
    CHECK(found_at(AT_RELEASE, BETWEEN));
    convert_at(__LINE__, standby, 20, 0, 0, 0, 1);
    CHECK(found_at(AT_RELEASE, AT_RELEASE));
    WRITE(0x21, 5, 1);
    convert_at(__LINE__, standby, 20, 24, 0, 1, 0);
    convert_at(__LINE__, standby, 20, 4, 0, 0, 0);
    convert_at(__LINE__, standby, 3, 3, 0, 0, 1);
    WRITE(0x0B, 5, 1);
    WRITE(0x21, 255, 1);
    convert_at(__LINE__, standby, 6, 3, 0, 1, 0);
    convert_at(__LINE__, standby, 1, 3, 0, 0, 0);
    convert_at(__LINE__, standby, 0, 3, 0, 0, 1);
}

/* "worked out at the same comparisons as THERM" */
static void test_marks_compared(void)
{
    begin(76);
    WRITE(0x09, 0x60, 1);
    WRITE(0x0B, 0, 1);                              /* no channel is converted */
    CHECK(found_at(NOT_COMPARED, NOT_COMPARED));
    WRITE(0x0B, 0x55, 1);
    ONE_SHOT(20, 200, 0, 1, 1);
    for (int command = 0; command < 256; command++) {
        bool compares = (command >= 0x0B && command <= 0x0E) || command == 0x13 || command == 0x14
            || command == 0x19 || command == 0x20 || command == 0x21;
        int data = command == 0x0B || command == 0x0D ? 0x55 : command == 0x09 ? 0x60 : 0;
        second_history copy = h;
        WRITE(command, data, 1);
        CHECK(compares ? found_at(AT_RELEASE, AT_RELEASE) : found_at(NOT_COMPARED, NOT_COMPARED));
        h = copy;
    }
    WRITE(0x0B, 19, 0);                             /* K12: at once */
    CHECK(found_at(ABOVE, AT_RELEASE) && marks_are(true, false));
    WRITE(0x0B, 29, 0);
    CHECK(found_at(BETWEEN, AT_RELEASE) && marks_are(true, false));
    WRITE(0x21, 9, 1);
    CHECK(found_at(AT_RELEASE, AT_RELEASE) && marks_are(false, false));
    WRITE(0x0D, 49, 0);
    CHECK(marks_are(false, true) && counts.marks_standby == 3);
    STATUS_READ(0x50, 0);                           /* no other moment compares */
    CHECK(found_at(NOT_COMPARED, NOT_COMPARED) && marks_are(false, true));
    WRITE(0x09, 0x20, 0);
    WRITE(0x0D, 90, 0);
    CHECK(found_at(NOT_COMPARED, NOT_COMPARED));
    TAKE(6, 0, 0, 0, 0, 0, 0);
    WRITE(0x09, 0x60, 0);                           /* cut short */
    WRITE(0x09, 0x20, 0);
    CHECK(marks_are(false, true));
    CONVERT(20, 200, 0, 0, 1);
    CHECK(found_at(AT_RELEASE, AT_RELEASE) && marks_are(false, false));
}

/* "The line is low while either mark is set, whatever bit 7 says"; "The marks are kept up whatever
   bit 5 says, and are clear at power-on"; "kind 5 is answered only in the ALERT role" */
static void test_pin_6(void)
{
    begin(76);
    CONVERT(20, 341, 0, 1, 0);                      /* set while bit 5 is 0 */
    CHECK(marks_are(false, true) && counts.marks_unseen == 1);
    WRITE(0x09, 0x20, 0);
    TAKE(5, 0, 0, 0, 3, 0, 0);                      /* the line is low, ALERT is not */
    CHECK(latch_stands() && counts.therm2_refused == 1 && counts.therm2_low == 2);
    WRITE(0x09, 0xA0, 0);
    TAKE(5, 0, 0, 0, 3, 0, 0);
    CHECK(counts.therm2_refused == 1 && counts.therm2_low_masked == 2);
    WRITE(0x09, 0x80, 1);
    CHECK(counts.latch_shown == 0);
    CONVERT(20, 301, 0, 1, 1);
    STATUS_READ(0x12, 1);                           /* flag 4 goes, the mark is kept */
    STATUS_READ(0x02, 1);
    WRITE(0x09, 0xA0, 0);
    CONVERT(20, 300, 0, 0, 1);                      /* cleared in the THERM2 role */
    WRITE(0x09, 0x20, 1);
    TAKE(5, 0, 0, 0, 3, 0, 1);
    WRITE(0x09, 0x00, 0);                           /* the latch shows again */
    CHECK(latch_stands() && counts.latch_shown == 1);
    TAKE(5, 0, 0, 0, 0, 153, 1);
    WRITE(0x09, 0x20, 1);
    CONVERT(86, 341, 0, 1, 0);                      /* set in the THERM2 role, cleared out of it */
    WRITE(0x09, 0x80, 1);
    CONVERT(20, 300, 0, 1, 1);
    WRITE(0x09, 0x20, 1);
    CHECK(marks_are(false, false) && counts.marks_unseen == 3);
    CONVERT(86, 341, 0, 1, 0);
    CHECK(marks_are(true, true));
    TAKE(0, 1, 0, 0, 2, 0, 0);                      /* refused: no power-on */
    CHECK(marks_are(true, true));
    TAKE(0, 0, 0, 0, 0, 0, 1);
    CHECK(marks_are(false, false) && counts.resets_marked == 1);
    WRITE(0x09, 0x20, 1);
    CONVERT(85, 340, 0, 1, 1);                      /* between: kept clear, as at power-on */
    CHECK(found_at(BETWEEN, BETWEEN) && marks_are(false, false));
    CHECK(history_end(&h) == 0);
}

/* "An open diode leaves the remote mark as it was" */
static void test_marks_held_back(bool standby)
{
    begin(76);
    WRITE(0x09, standby ? 0x60 : 0x20, 1);
    convert_at(__LINE__, standby, 20, 400, 1, 1, 1);
    CHECK(found_at(AT_RELEASE, NOT_COMPARED) && marks_are(false, false));
    convert_at(__LINE__, standby, 20, 341, 0, 1, 0);
    convert_at(__LINE__, standby, 86, 0, 1, 0, 0);
    CHECK(found_at(ABOVE, NOT_COMPARED) && marks_are(true, true));
    convert_at(__LINE__, standby, 75, 0, 1, 0, 0);
    CHECK(found_at(AT_RELEASE, NOT_COMPARED) && marks_are(false, true));
    convert_at(__LINE__, standby, 75, 300, 0, 0, 1);
    CHECK(found_at(AT_RELEASE, AT_RELEASE) && marks_are(false, false));
    convert_at(__LINE__, standby, 75, 341, 1, 1, 1);
    CHECK(marks_are(false, false));
}

void test_history(void)
{
    test_gone_and_read();
    test_two_spells();
    test_open_in_standby();
    test_held_back(false);
    test_held_back(true);
    test_held_back_and_limits();
    test_held_back_in_a_row();
    test_reset();
    test_in_a_row();
    test_response_with_flag();
    test_standby_and_row();
    test_comparisons();
    test_reads_and_refusals();
    test_marks(false);
    test_marks(true);
    test_marks_compared();
    test_pin_6();
    test_marks_held_back(false);
    test_marks_held_back(true);
}
