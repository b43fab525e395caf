/*
 * second_session_test.c - tests of sessions. Expected values are worked by hand from document 02,
 * Items 1 and 5, or taken from second_replay over the whole trace.
 */
#include "second_session.h"
#include "second_test.h"

#include <stdio.h>
#include <stdlib.h>
#include <string.h>

enum { UNTOUCHED = 0xEE, PLENTY = 512, MOST = 16777216 };

/* ---- one call, with all that must hold of any call ---- */

typedef struct {
    int32_t code;
    uint32_t report[4];
    uint32_t taken, written;
    bool refused;               /* it wrote nothing */
    bool sound;                 /* nothing was found that holds of no call */
    uint8_t output[PLENTY];     /* its first bytes */
} call;

static void *exactly(size_t len)
{
    void *bytes = len ? malloc(len) : NULL;
    if (len && !bytes)
        abort();
    if (len)
        memset(bytes, UNTOUCHED, len);
    return bytes;
}

static bool untouched(const uint8_t *bytes, size_t from, size_t to)
{
    for (size_t i = from; i < to; i++)
        if (bytes[i] != UNTOUCHED)
            return false;
    return true;
}

static uint32_t word_at(const uint8_t *from)
{
    return (uint32_t)from[0] | (uint32_t)from[1] << 8 | (uint32_t)from[2] << 16
         | (uint32_t)from[3] << 24;
}

/* Feeds exactly sized copies, so that the sanitizer sees a step outside, to *got. */
static void feed_lengths(call *got, second_session *s, const void *portion, size_t len, int32_t end,
                         size_t room, size_t report_len, size_t progress_len)
{
    uint8_t *in = exactly(len), *out = exactly(room);
    uint8_t *report = exactly(report_len), *progress = exactly(progress_len);
    second_session before;
    memcpy(&before, s, sizeof before);
    if (len)
        memcpy(in, portion, len);
    size_t shown = room < PLENTY ? room : PLENTY;

    got->code = second_feed(s, in, len, end, out, room, report, report_len, progress, progress_len);

    got->refused = untouched(report, 0, report_len) && untouched(progress, 0, progress_len);
    if (shown)
        memcpy(got->output, out, shown);
    memset(got->output + shown, UNTOUCHED, PLENTY - shown);
    if (got->refused) {
        got->taken = 0;
        got->written = 0;
        memset(got->report, 0, sizeof got->report);
        got->sound = untouched(out, 0, room) && memcmp(&before, s, sizeof before) == 0
            && (got->code == 9 || got->code == 2 || got->code == 6 || (got->code == 7 && s->stopped));
    } else {
        for (int i = 0; i < 4; i++)
            got->report[i] = word_at(report + 4 * i);
        got->taken = word_at(progress);
        got->written = word_at(progress + 4);
        got->sound = (got->code == 0 || got->code == 7 || got->code == 8)
            && !before.stopped && (before.ended ? len == 0 : true)
            && got->report[0] == (uint32_t)got->code && got->report[1] == s->records
            && got->report[2] == s->used && got->report[3] == s->written
            && got->taken <= len && got->written <= room
            && s->used + s->carried_len == before.used + before.carried_len + got->taken
            && s->written == before.written + got->written
            && untouched(out, got->written, room)
            && s->stopped == (got->code == 7)
            && (got->code != 0 || (got->taken == len && s->ended == (before.ended || end == 1)))
            && (got->code != 8 || s->ended == 0)
            && (got->code != 7 || s->ended == (end == 1 && got->taken == len));
        /* Item 5: an output with the room of all that is offered so far has room for this call */
        uint32_t records = s->records - before.records;
        got->sound = got->sound && records * SECOND_SHORTEST_RECORD <= s->used - before.used
            && got->written <= records * SECOND_LONGEST_ANSWER
            && (got->code != 8 || before.written + room
                                  < second_room(before.used + before.carried_len + len));
        for (size_t i = s->carried_len; i < SECOND_MOST_CARRIED; i++)
            got->sound = got->sound && s->carried[i] == 0;
    }
    free(in);
    free(out);
    free(report);
    free(progress);
}

static void feed(call *got, second_session *s, const void *portion, size_t len, int32_t end,
                 size_t room)
{
    feed_lengths(got, s, portion, len, end, room, 16, 8);
}

static second_session opened(void)
{
    second_session s;
    (void)second_open(&s, 76);
    return s;
}

/* Whether the call gives this and the session then holds these counts, this much carried. */
static void feed_at(int line, second_session *s, const char *portion, int32_t end, size_t room,
                    int32_t code, uint32_t taken, const char *answers,
                    uint32_t records, uint32_t used, uint32_t written, uint32_t carried)
{
    static call got;
    size_t length = strlen(answers);
    feed(&got, s, portion, strlen(portion), end, room);
    bool good = got.sound && !got.refused && got.code == code && got.taken == taken
        && got.written == length && memcmp(got.output, answers, length) == 0
        && s->records == records && s->used == used && s->written == written
        && s->carried_len == carried;
    check_at(__FILE__, line, good, "feed");
    if (!good)
        printf("  code %d taken %u written %u; records %u used %u written %u carried %u%s%s\n",
               (int)got.code, got.taken, got.written, s->records, s->used, s->written, s->carried_len,
               got.refused ? " refused" : "", got.sound ? "" : " unsound");
}
/* portion, end, room, then code, taken, answers; records, used, written, carried bytes after it */
#define FEED(...) feed_at(__LINE__, &s, __VA_ARGS__)

static void refused_at(int line, second_session *s, const char *portion, int32_t end, int32_t code)
{
    static call got;
    feed(&got, s, portion, strlen(portion), end, 200);
    check_at(__FILE__, line, got.sound && got.refused && got.code == code, "refused");
}
#define REFUSED_AS(code, portion, end) refused_at(__LINE__, &s, portion, end, code)

static void test_open(void)
{
    static const int32_t bad[] = { 75, 78, 0, -1, 12, 128, 332, INT32_MIN, INT32_MAX };
    second_session s, zero;
    second_chip chip;

    memset(&zero, 0, sizeof zero);
    for (int32_t address = 76; address <= 77; address++) {
        memset(&s, 0xA5, sizeof s);
        CHECK(second_open(&s, address) == 0);
        CHECK(second_fresh(&chip, address) == 0 && memcmp(&chip, &s.chip, sizeof chip) == 0);
        CHECK(s.records == 0 && s.used == 0 && s.written == 0 && !s.ended && !s.stopped
              && s.carried_len == 0);
    }
    for (size_t i = 0; i < sizeof bad / sizeof *bad; i++) {
        memset(&s, 0xA5, sizeof s);
        CHECK(second_open(&s, bad[i]) == 2 && memcmp(&s, &zero, sizeof s) == 0);
        REFUSED_AS(6, "", 0);
        REFUSED_AS(6, "kind", 1);
    }
}

/* ---- by hand ---- */

static void test_by_hand(void)
{
    second_session s = opened();

    /* the whole case, 19 + 22 + 20 bytes, answers of 31, 31 and 32 */
    FEED("", 0, 0, 0, 0, "", 0, 0, 0, 0);
    FEED("kind=6\na=0\nb=", 0, 100, 0, 13, "", 0, 0, 0, 13);
    FEED("0\nc=0\nkind=7\na=20\nb=3", 0, 100, 0, 21, ANSWER(0, 0, 1, 1), 1, 19, 31, 15);
    FEED("", 0, 100, 0, 0, "", 1, 19, 31, 15);
    CHECK(memcmp(s.carried, "kind=7\na=20\nb=3", 15) == 0);
    FEED("41\nc=0\n" RECORD(3, 76, 2, 0), 1, 62, 8, 7, ANSWER(0, 0, 0, 0), 2, 41, 62, 0);
    CHECK(!s.ended && !s.stopped);
    FEED(RECORD(3, 76, 2, 0), 1, 0, 8, 0, "", 2, 41, 62, 0);
    FEED(RECORD(3, 76, 2, 0), 1, 31, 8, 0, "", 2, 41, 62, 0);
    CHECK(!s.ended);
    FEED(RECORD(3, 76, 2, 0), 1, 32, 0, 20, ANSWER(0, 18, 0, 0), 3, 61, 94, 0);
    CHECK(s.ended && !s.stopped);
    /* after a good end: nothing more but empty portions, which change nothing */
    FEED("", 0, 100, 0, 0, "", 3, 61, 94, 0);
    FEED("", 1, 0, 0, 0, "", 3, 61, 94, 0);
    REFUSED_AS(9, "k", 0);
    REFUSED_AS(9, "x", 1);
    FEED("", 0, 100, 0, 0, "", 3, 61, 94, 0);
    CHECK(s.ended && !s.stopped);

    /* a waiting record that began in what was carried: none of the portion is taken */
    s = opened();
    FEED("kind=6\na=0", 0, 100, 0, 10, "", 0, 0, 0, 10);
    FEED("\nb=0\nc=0\nkind", 1, 30, 8, 0, "", 0, 0, 0, 10);
    CHECK(memcmp(s.carried, "kind=6\na=0", 10) == 0 && !s.ended);
    FEED("", 0, 30, 0, 0, "", 0, 0, 0, 10);
    FEED("\nb=0", 0, 30, 0, 4, "", 0, 0, 0, 14);         /* fewer than before: these are taken */
    FEED("\nc=0\nkind", 0, 31, 0, 9, ANSWER(0, 0, 1, 1), 1, 19, 31, 4);
    FEED("=7\na=20\nb=341\nc=0\n" "x", 1, 30, 8, 0, "", 1, 19, 31, 4);
    /* the record behind it is bad, and comes to that only now */
    FEED("=7\na=20\nb=341\nc=0\n" "x", 1, 31, 7, 18, ANSWER(0, 0, 0, 0), 2, 41, 62, 0);
    CHECK(s.stopped && !s.ended);
    REFUSED_AS(7, "", 0);
    REFUSED_AS(7, "", 1);
    REFUSED_AS(7, "x", 1);
    REFUSED_AS(7, RECORD(0, 0, 0, 0), 0);

    /* bad at once, begun in what was carried; the end did not count */
    s = opened();
    FEED("kind=1", 0, 100, 0, 6, "", 0, 0, 0, 6);
    FEED("x", 1, 100, 7, 0, "", 0, 0, 0, 6);
    CHECK(s.stopped && !s.ended && memcmp(s.carried, "kind=1", 6) == 0);
    REFUSED_AS(7, "\n", 0);
    REFUSED_AS(7, "", 1);
    s = opened();
    FEED("kind=6\na=0\n", 0, 100, 0, 11, "", 0, 0, 0, 11);
    FEED("b=0\nc=0\nkind=7\na=20\nb=00\n", 0, 100, 7, 8, ANSWER(0, 0, 1, 1), 1, 19, 31, 0);

    /* 7 before 8 for the same record, with no room at all */
    s = opened();
    FEED(RECORD(6, 0, 0, -0), 0, 0, 7, 0, "", 0, 0, 0, 0);

    /* a partial record at the end: all is taken, the end counts */
    s = opened();
    FEED(RECORD(6, 0, 0, 0) "kind=7\na=2", 1, 100, 7, 29, ANSWER(0, 0, 1, 1), 1, 19, 31, 10);
    CHECK(s.stopped && s.ended);
    REFUSED_AS(9, "0", 0);
    REFUSED_AS(9, "x", 1);
    REFUSED_AS(7, "", 0);
    REFUSED_AS(7, "", 1);
    REFUSED_AS(9, "0\n", 1);
    /* the same end, by an empty portion */
    s = opened();
    FEED("k", 0, 0, 0, 1, "", 0, 0, 0, 1);
    FEED("", 1, 0, 7, 0, "", 0, 0, 0, 1);
    CHECK(s.stopped && s.ended);
    REFUSED_AS(9, "i", 0);
    REFUSED_AS(7, "", 0);

    /* nothing at all */
    s = opened();
    FEED("", 1, 0, 0, 0, "", 0, 0, 0, 0);
    CHECK(s.ended && !s.stopped);
    REFUSED_AS(9, "kind", 0);

    /* codes 1 to 5 are answered, and it goes on */
    s = opened();
    FEED(RECORD(8, 0, 0, 0) RECORD(0, 1, 0, 0) RECORD(3, 77, 2, 0) RECORD(7, 0, 0, 0), 1, 124, 0, 77,
         ANSWER(1, 0, 1, 1) ANSWER(2, 0, 1, 1) ANSWER(3, 0, 1, 1) ANSWER(5, 0, 1, 1), 4, 77, 124, 0);

    /* the longest record, 39 bytes, and the longest carried */
    s = opened();
    FEED("kind=-12345\na=-99999\nb=-10000\nc=-54321", 0, 100, 0, 38, "", 0, 0, 0, 38);
    FEED("\n", 1, 30, 8, 0, "", 0, 0, 0, 38);
    FEED("\n", 1, 31, 0, 1, ANSWER(1, 0, 1, 1), 1, 39, 31, 0);
    s = opened();
    FEED("kind=-12345\na=-99999\nb=-10000\nc=-54321", 0, 100, 0, 38, "", 0, 0, 0, 38);
    FEED("0", 0, 100, 7, 0, "", 0, 0, 0, 38);
    CHECK(second_replay(76, (const uint8_t *)"kind=-12345\na=-99999\nb=-10000\nc=-54321\n", 39,
                        NULL, 0, (uint8_t[16]){ 0 }, 16) == 8);

    /* a record stopped by 8 counts nowhere */
    s = opened();
    second_seen none;
    memset(&none, 0, sizeof none);
    second_seen_counts = none;
    FEED(RECORD(3, 76, 254, 0), 0, 31, 8, 0, "", 0, 0, 0, 0);
    CHECK(memcmp(&none, &second_seen_counts, sizeof none) == 0);
    FEED(RECORD(3, 76, 254, 0), 0, 32, 0, 22, ANSWER(0, 65, 1, 1), 1, 22, 32, 0);
    CHECK(second_seen_counts.read[254] == 1 && second_seen_counts.code[0] == 1);
}

/* ---- what is partial ---- */

/* Whether more bytes could complete the text, tried with the replay's own reader. Wherever in a
   record the text ends, some end of this one record goes on from there. */
static bool completable(const char *rest, size_t len)
{
    static const char record[] = RECORD(1, 1, 1, 1);
    uint8_t tried[128], output[64], report[16];

    if (len > 60)
        return false;
    memcpy(tried, rest, len);
    for (size_t from = 0; from < strlen(record); from++) {
        size_t more = strlen(record) - from;
        memcpy(tried + len, record + from, more);
        if (second_replay(76, tried, len + more, output, sizeof output, report, 16) == 0
            && word_at(report + 4) == 1)
            return true;
    }
    return false;
}

/* Whether a first portion, with no end, is taken and carried exactly if it is partial. A text that
   holds a whole record is not asked about. */
static bool judged_well(const char *rest, size_t len)
{
    static call got;
    second_session s = opened();
    feed(&got, &s, rest, len, 0, 0);
    if (got.code == 8)
        return true;
    bool partial = len == 0 || completable(rest, len);
    return got.sound && got.code == (partial ? 0 : 7) && s.carried_len == (partial ? len : 0);
}

static void test_partial(void)
{
    static const char *const partial[] = {
        "k", "kind", "kind=", "kind=-", "kind=0", "kind=1", "kind=-1", "kind=10", "kind=12345",
        "kind=-12345", "kind=99999", "kind=0\n", "kind=0\na", "kind=0\na=-", "kind=0\na=12345",
        "kind=0\na=0\nb=0\nc", "kind=0\na=0\nb=0\nc=", "kind=0\na=0\nb=0\nc=0",
        "kind=-12345\na=-12345\nb=-12345\nc=-12345" };
    static const char *const bad[] = {
        "i", "K", "\n", " ", "kk", "kind ", "kind=\n", "kind=-0", "kind=00", "kind=01", "kind=123456",
        "kind=-123456", "kind=--", "kind=+", "kind=-\n", "kind=0-", "kind=1-", "kind=1 ", "kind=0\r",
        "kind=0\n\n", "kind=0\nb", "kind=0\nk", "kind=0\na=-0", "kind=0\na=0\nb=0\nc=-0",
        "kind=0\na=0\nb=0\nc=00", "kind=0\na=0\nb=0\nc=123456", "kind=0\na=0\nb=0\nc=0\r" };
    second_session s;

    for (size_t i = 0; i < sizeof partial / sizeof *partial; i++) {
        uint32_t len = (uint32_t)strlen(partial[i]);
        s = opened();
        FEED(partial[i], 0, 0, 0, len, "", 0, 0, 0, len);
        CHECK(memcmp(s.carried, partial[i], len) == 0 && completable(partial[i], len));
        FEED("", 1, 0, 7, 0, "", 0, 0, 0, len);
        s = opened();
        FEED(partial[i], 1, 0, 7, len, "", 0, 0, 0, len);
        CHECK(s.ended && s.stopped);
    }
    for (size_t i = 0; i < sizeof bad / sizeof *bad; i++) {
        s = opened();
        FEED(bad[i], 0, 0, 7, 0, "", 0, 0, 0, 0);
        CHECK(!completable(bad[i], strlen(bad[i])));
        s = opened();
        FEED(bad[i], 1, 0, 7, 0, "", 0, 0, 0, 0);
        CHECK(!s.ended && s.stopped);
    }

    /* every text of up to 7 of these bytes, where each line's number begins */
    static const char bytes[] = "-019\n";
    static const char *const begins[] = { "kind=", "kind=7\na=", "kind=0\na=-1\nb=",
                                          "kind=7\na=20\nb=341\nc=" };
    for (size_t b = 0; b < 4; b++) {
        size_t before = strlen(begins[b]);
        char tried[64];
        memcpy(tried, begins[b], before);
        bool well = true;
        uint32_t variants = 1;
        for (size_t len = 0; len <= 7; len++) {
            for (uint32_t n = 0; n < variants; n++) {
                uint32_t left = n;
                for (size_t i = 0; i < len; i++) {
                    tried[before + i] = bytes[left % 5];
                    left /= 5;
                }
                /* the longest ones only behind digits: the others were bad when shorter */
                if (len < 6 || (tried[before] != '\n' && tried[before + 1] != '-'))
                    well = well && judged_well(tried, before + len);
            }
            variants *= 5;
        }
        CHECK(well);
    }

    /* every byte behind every part of a record */
    static const char record[] = RECORD(7, -20, 12345, 0);
    for (size_t len = 0; len < strlen(record); len++) {
        char tried[64];
        bool well = true;
        memcpy(tried, record, len);
        for (int byte = 0; byte < 256; byte++) {
            tried[len] = (char)byte;
            well = well && judged_well(tried, len + 1);
        }
        CHECK(well);
    }
}

/* ---- cuts, against the replay of the whole ---- */

enum { LONG_TRACE = 16384, LONG_OUTPUT = 2 * LONG_TRACE };

/* A trace, what its replay gives with room enough, and the chip after it. */
typedef struct {
    uint8_t trace[LONG_TRACE], output[LONG_OUTPUT], report[16];
    size_t len, written;
    int32_t code;
    second_chip chip;
} whole;

/* The chip after the first records, which are known to be good, of a trace: the numbers stand
   behind the equals signs. */
static second_chip chip_after(const whole *w, uint32_t records, size_t used)
{
    static char text[LONG_TRACE + 1];
    second_chip chip;
    char *at = text;

    memcpy(text, w->trace, used);
    text[used] = '\0';
    (void)second_fresh(&chip, 76);
    for (uint32_t n = 0; n < records; n++) {
        int32_t number[4];
        for (int i = 0; i < 4; i++)
            number[i] = (int32_t)strtol(strchr(at, '=') + 1, &at, 10);
        (void)second_step(&chip, number[0], number[1], number[2], number[3]);
    }
    return chip;
}

static void replay_whole(whole *w, const void *trace, size_t len)
{
    if (len > LONG_TRACE)
        abort();
    if (trace != w->trace)
        memcpy(w->trace, trace, len);
    w->len = len;
    w->code = second_replay(76, w->trace, len, w->output, LONG_OUTPUT, w->report, 16);
    if (w->code != 0 && w->code != 7)
        abort();
    w->written = word_at(w->report + 12);
    w->chip = chip_after(w, word_at(w->report + 4), word_at(w->report + 8));
}

/* A session on the way through a trace. */
typedef struct {
    second_session s;
    size_t at;                  /* bytes of the trace taken */
    uint8_t joined[LONG_OUTPUT];
    uint32_t report[4];         /* the latest that was written */
    uint32_t calls;
    bool good;
} way;

/* A model that never gets on must not keep the tests for ever. */
enum { MOST_CALLS = 100000 };

static void set_out(way *y)
{
    y->s = opened();
    y->at = 0;
    y->calls = 0;
    y->good = true;
}

/* One call, of the trace from what is taken up to `to`. */
static int32_t go_on(way *y, const whole *w, size_t to, int32_t end, size_t room)
{
    static call got;
    feed(&got, &y->s, w->trace + y->at, to - y->at, end, room);
    y->calls++;
    y->good = y->good && y->calls < MOST_CALLS && got.sound && !got.refused && got.written <= PLENTY;
    memcpy(y->joined + y->s.written - got.written, got.output, got.written);
    y->at += got.taken;
    memcpy(y->report, got.report, sizeof y->report);
    y->good = y->good && y->s.used + y->s.carried_len == y->at
        && memcmp(y->s.carried, w->trace + y->s.used, y->s.carried_len) == 0;
    return got.code;
}

/* Whether it came to where the replay of the whole came. */
static bool arrived(const way *y, const whole *w)
{
    bool same = y->good && (y->s.ended || y->s.stopped)
        && y->s.written == w->written && memcmp(y->joined, w->output, w->written) == 0
        && memcmp(&y->s.chip, &w->chip, sizeof w->chip) == 0;
    for (int i = 0; i < 4; i++)
        same = same && y->report[i] == word_at(w->report + 4 * i);
    return same && y->report[0] == (uint32_t)w->code;
}

/*
 * Goes the way with portions that end at each of the cuts and at the trace's end; `apart` declares
 * the end by an empty portion of its own. Each portion is first offered with `room`; while an
 * answer waits, the bytes not taken come again with room for one answer.
 */
static bool cut_agrees(const whole *w, const size_t *cuts, size_t n, bool apart, size_t room)
{
    static way y;
    set_out(&y);
    int32_t code = 0;
    for (size_t i = 0; i <= n && code == 0; i++) {
        size_t to = i < n ? cuts[i] : w->len;
        int32_t end = i == n && !apart;
        code = go_on(&y, w, to, end, room);
        while (code == 8 && y.good)
            code = go_on(&y, w, to, end, SECOND_LONGEST_ANSWER);
    }
    if (code == 0 && apart)
        (void)go_on(&y, w, w->len, 1, 0);
    return arrived(&y, w);
}

/* One byte at a time: 7 comes with the very byte after which no bytes could complete the rest. */
static bool bytes_agree(const whole *w, bool apart)
{
    static way y;
    set_out(&y);
    int32_t code = 0;
    bool at_once = true;
    for (size_t to = 1; to <= w->len && code == 0; to++) {
        int32_t end = to == w->len && !apart;
        size_t from = y.s.used;
        code = go_on(&y, w, to, end, SECOND_LONGEST_ANSWER);
        const char *rest = (const char *)w->trace + from;
        bool taken = y.s.used == to || completable(rest, to - from);
        at_once = at_once && y.at == (taken ? to : to - 1)
            && code == (!taken || (end && y.s.used < to) ? 7 : 0);
    }
    if (code == 0 && (apart || w->len == 0))
        (void)go_on(&y, w, w->len, 1, 0);
    return at_once && arrived(&y, w);
}

static whole w;

static const char *const traces[] = {
    "", RECORD(0, 0, 0, 0), WHOLE_CASE, RECORD(-12345, -12345, -12345, -12345) RECORD(3, 76, 255, 0),
    RECORD(3, 76, 254, 0) "kind=12345\na=-1\nb=10\nc=99999", RECORD(6, 0, 0, 0) "kind=7\na=2 \nb=0\nc=0\n",
    RECORD(6, 0, 0, 0) RECORD(7, 86, 341, 1) "kind=3\na=76\nb=-02\nc=0\n" };
enum { TRACES = sizeof traces / sizeof *traces };

static void test_cuts(void)
{
    for (size_t t = 0; t < TRACES; t++) {
        replay_whole(&w, traces[t], strlen(traces[t]));
        bool same = true;
        /* one portion, every two and every three, empty ones among them */
        for (int apart = 0; apart <= 1; apart++) {
            same = same && cut_agrees(&w, NULL, 0, apart, PLENTY) && bytes_agree(&w, apart);
            for (size_t one = 0; one <= w.len; one++) {
                same = same && cut_agrees(&w, &one, 1, apart, PLENTY)
                    && cut_agrees(&w, &one, 1, apart, 31);
                for (size_t two = one; two <= w.len; two++) {
                    size_t cuts[2] = { one, two };
                    same = same && cut_agrees(&w, cuts, 2, apart, PLENTY);
                }
            }
        }
        CHECK(same);
        /* an end too early, at every byte, in every two portions */
        same = true;
        for (size_t len = 0; len < strlen(traces[t]); len++) {
            replay_whole(&w, traces[t], len);
            same = same && bytes_agree(&w, len % 2 == 0);
            for (size_t one = 0; one <= len; one++)
                same = same && cut_agrees(&w, &one, 1, one % 2 == 0, PLENTY);
        }
        CHECK(same);
    }

    /* the whole case and K11: all of document 01 that answers long */
    replay_whole(&w, WHOLE_CASE K11, strlen(WHOLE_CASE K11));
    CHECK(w.code == 0 && memcmp(w.output, WHOLE_ANSWERS K11_ANSWERS, w.written) == 0);
    bool same = bytes_agree(&w, false) && bytes_agree(&w, true);
    for (size_t one = 0; one <= w.len; one++)
        for (size_t two = one; two <= w.len; two += 3) {
            size_t cuts[2] = { one, two };
            same = same && cut_agrees(&w, cuts, 2, false, PLENTY);
        }
    CHECK(same);
}

static void test_damage(void)
{
    static const uint8_t bytes[] = { '0', '1', '9', '-', '\n', '=', 'k', 'c', ' ', '+', '/', ':', 0, 0x80, 0xFF };
    static const char trace[] = RECORD(6, 0, 0, 0) RECORD(7, 20, -34, 0) RECORD(3, 76, 2, 0);
    size_t len = strlen(trace);

    for (size_t at = 0; at < len; at++) {
        bool same = true;
        /* a byte changed, a byte put in, a byte left out */
        for (size_t b = 0; b < sizeof bytes; b++) {
            memcpy(w.trace, trace, len);
            w.trace[at] = bytes[b];
            replay_whole(&w, w.trace, len);
            same = same && bytes_agree(&w, b % 2 == 0);
            for (size_t one = 0; one <= w.len; one++)
                same = same && cut_agrees(&w, &one, 1, b % 2 == 1, one % 3 ? PLENTY : 32);

            memcpy(w.trace, trace, at);
            w.trace[at] = bytes[b];
            memcpy(w.trace + at + 1, trace + at, len - at);
            replay_whole(&w, w.trace, len + 1);
            same = same && bytes_agree(&w, b % 2 == 1) && cut_agrees(&w, &at, 1, false, 0);
        }
        memcpy(w.trace, trace, at);
        memcpy(w.trace + at, trace + at + 1, len - at - 1);
        replay_whole(&w, w.trace, len - 1);
        same = same && bytes_agree(&w, true) && cut_agrees(&w, &at, 1, true, PLENTY);
        CHECK(same);
    }
}

/* ---- room ---- */

static void test_session_rooms(void)
{
    static const size_t used[] = { 19, 41, 61, 81, 100, 122, 142, 162, 181, 200 };
    static const size_t length[] = { 31, 31, 32, 32, 31, 31, 32, 31, 33, 31 };
    static way y;

    replay_whole(&w, WHOLE_CASE K11, strlen(WHOLE_CASE K11));
    CHECK(w.len == 200);
    /* every room for a first call that brings all and the end, then every second room */
    bool same = true;
    for (size_t first = 0; first <= w.written + 1; first++)
        for (size_t second = 0; second <= w.written + 1; second += 1 + first % 7) {
            size_t n = 0, fill = 0;
            set_out(&y);
            while (n < 10 && fill + length[n] <= first)
                fill += length[n++];
            int32_t code = go_on(&y, &w, w.len, 1, first);
            same = same && code == (n == 10 ? 0 : 8) && y.s.records == n && y.s.written == fill
                && y.at == (n ? used[n - 1] : 0) && y.s.ended == (n == 10);
            if (code == 0)
                continue;
            size_t start = fill;
            while (n < 10 && fill - start + length[n] <= second)
                fill += length[n++];
            code = go_on(&y, &w, w.len, 1, second);
            same = same && code == (n == 10 ? 0 : 8) && y.s.records == n && y.s.written == fill
                && y.at == (n ? used[n - 1] : 0) && y.s.ended == (n == 10);
            while (code == 8 && y.good)
                code = go_on(&y, &w, w.len, 1, SECOND_LONGEST_ANSWER);
            same = same && code == 0 && arrived(&y, &w);
        }
    CHECK(same);

    /* one byte at a time, each answer first with room too small by one, then exactly enough */
    set_out(&y);
    same = true;
    for (size_t to = 1, n = 0; to <= w.len; to++) {
        int32_t end = to == w.len;
        bool last = to == used[n];
        int32_t code = go_on(&y, &w, to, end, length[n] - 1);
        same = same && code == (last ? 8 : 0) && y.at == (last ? to - 1 : to) && y.s.records == n;
        if (last) {
            same = same && y.s.carried_len == (n ? to - used[n - 1] : to) - 1 && !y.s.ended;
            code = go_on(&y, &w, to, end, 0);
            same = same && code == 8;
            code = go_on(&y, &w, to, end, length[n]);
            same = same && code == 0 && y.s.carried_len == 0;
            n++;
        }
    }
    CHECK(same && arrived(&y, &w));

    /* every cut, with a room that is too small at first */
    for (size_t room = 0; room <= 70; room++) {
        same = true;
        for (size_t one = 0; one <= w.len; one++)
            same = same && cut_agrees(&w, &one, 1, room % 2 == 0, room);
        CHECK(same);
    }
}

/* ---- refusals and their order ---- */

static void test_session_refusals(void)
{
    static call got;
    second_session s = opened(), good;
    static const int32_t ends[] = { -1, 2, 3, 256, 257, INT32_MIN, INT32_MAX };

    FEED("kind=6\na=", 0, 0, 0, 9, "", 0, 0, 0, 9);
    for (size_t i = 0; i < sizeof ends / sizeof *ends; i++) {
        REFUSED_AS(2, "0\n", ends[i]);
        REFUSED_AS(2, "", ends[i]);
        REFUSED_AS(2, "x", ends[i]);
    }
    for (size_t len = 0; len <= 32; len++) {
        if (len != 16) {
            feed_lengths(&got, &s, "0\n", 2, 0, 100, len, 8);
            CHECK(got.code == 2 && got.refused && got.sound);
        }
        if (len != 8) {
            feed_lengths(&got, &s, "0\n", 2, 1, 100, 16, len);
            CHECK(got.code == 2 && got.refused && got.sound);
        }
    }
    CHECK(second_feed(&s, NULL, 0, 0, NULL, 0, NULL, 0, NULL, 0) == 2);
    FEED("0\nb=0\nc=0\n", 1, 31, 0, 10, ANSWER(0, 0, 1, 1), 1, 19, 31, 0);

    /* 2 for these before 9, and before the repeated 7 */
    REFUSED_AS(2, "x", 2);
    feed_lengths(&got, &s, "x", 1, 0, 100, 15, 8);
    CHECK(got.code == 2 && got.sound);
    REFUSED_AS(9, "x", 0);
    s = opened();
    FEED("x", 0, 0, 7, 0, "", 0, 0, 0, 0);
    REFUSED_AS(2, "", -1);
    feed_lengths(&got, &s, "x", 1, 0, 100, 16, 7);
    CHECK(got.code == 2 && got.sound);
    REFUSED_AS(7, "", 0);

    /* 9, then 7, then the total's 2; that many bytes are not looked at */
    uint8_t byte = 'x', report[16], progress[8];
    CHECK(second_feed(&s, &byte, SIZE_MAX, 0, NULL, 0, report, 16, progress, 8) == 7);
    CHECK(second_feed(&s, &byte, MOST + 1, 1, NULL, 0, report, 16, progress, 8) == 7);
    s = opened();
    CHECK(second_feed(&s, &byte, SIZE_MAX, 0, NULL, 0, report, 16, progress, 8) == 2);
    CHECK(second_feed(&s, &byte, MOST + 1, 1, NULL, 0, report, 16, progress, 8) == 2);
    CHECK(!s.ended && !s.stopped);
    FEED("k", 1, 0, 7, 1, "", 0, 0, 0, 1);
    CHECK(second_feed(&s, &byte, SIZE_MAX, 0, NULL, 0, report, 16, progress, 8) == 9);
    s = opened();
    FEED("", 1, 0, 0, 0, "", 0, 0, 0, 0);
    CHECK(second_feed(&s, &byte, SIZE_MAX, 0, NULL, 0, report, 16, progress, 8) == 9);

    /* the total: taken and offered; what is offered again counts once */
    s = opened();
    s.used = MOST - 19;
    REFUSED_AS(2, RECORD(0, 0, 0, 0) "k", 0);
    REFUSED_AS(2, RECORD(0, 0, 0, 0) "x", 1);
    FEED(RECORD(0, 0, 0, 0), 1, 30, 8, 0, "", 0, MOST - 19, 0, 0);
    FEED(RECORD(0, 0, 0, 0), 0, 0, 8, 0, "", 0, MOST - 19, 0, 0);
    REFUSED_AS(2, RECORD(0, 0, 0, 0) "k", 0);
    FEED("kind=0\na=0", 0, 0, 0, 10, "", 0, MOST - 19, 0, 10);
    REFUSED_AS(2, "\nb=0\nc=0\nk", 0);
    FEED("\nb=0\nc=0\n", 0, 30, 8, 0, "", 0, MOST - 19, 0, 10);
    FEED("\nb=0\nc=0\n", 0, 31, 0, 9, ANSWER(0, 0, 1, 1), 1, MOST, 31, 0);
    REFUSED_AS(2, "k", 0);
    REFUSED_AS(2, "k", 1);
    FEED("", 0, 0, 0, 0, "", 1, MOST, 31, 0);
    FEED("", 1, 0, 0, 0, "", 1, MOST, 31, 0);
    REFUSED_AS(9, "k", 1);
    /* a partial record that ends at 16 MiB stays one until the end is declared */
    s = opened();
    s.used = MOST - 5;
    FEED("kind=", 0, 0, 0, 5, "", 0, MOST - 5, 0, 5);
    REFUSED_AS(2, "0", 1);
    CHECK(!s.ended);
    FEED("", 0, 0, 0, 0, "", 0, MOST - 5, 0, 5);
    FEED("", 1, 0, 7, 0, "", 0, MOST - 5, 0, 5);
    REFUSED_AS(9, "0", 1);
    REFUSED_AS(7, "", 1);

    /* no session: 6, behind the first 2 and before everything else */
    good = opened();
    s = good;
    s.chip.run = 5;
    REFUSED_AS(6, "", 0);
    REFUSED_AS(6, "x", 1);
    REFUSED_AS(2, "", 2);
    s.ended = 1;
    s.stopped = 1;
    REFUSED_AS(6, "x", 0);
    REFUSED_AS(6, "", 0);
    s = good;
    s.chip.therm2 = 4;
    REFUSED_AS(6, "", 0);
    s = good;
    s.carried_len = 39;
    REFUSED_AS(6, "", 0);
    s.carried_len = UINT32_MAX;
    REFUSED_AS(6, "", 0);
    s.carried_len = 1;                              /* a carried byte 0 is no partial record */
    REFUSED_AS(6, "", 0);
    s = good;
    s.carried_len = 19;
    memcpy(s.carried, RECORD(0, 0, 0, 0), 19);
    REFUSED_AS(6, "", 0);
    s.carried_len = 18;
    FEED("", 0, 0, 0, 0, "", 0, 0, 0, 18);
    s = good;
    s.used = MOST + 1;
    REFUSED_AS(6, "", 0);
    s.used = UINT32_MAX;
    REFUSED_AS(6, "k", 0);
    s.used = MOST;
    s.carried_len = 1;
    s.carried[0] = 'k';
    REFUSED_AS(6, "", 0);
    s = good;
    s.ended = 2;
    REFUSED_AS(6, "", 0);
    s = good;
    s.stopped = -1;
    REFUSED_AS(6, "", 0);
}

/* ---- a trace of 16 MiB ---- */

static void test_longest(void)
{
    enum { RECORDS = 883011, USED = SECOND_SHORTEST_RECORD * RECORDS, WRITTEN = 31 * RECORDS };
    uint8_t *trace = exactly(MOST), *output = exactly(WRITTEN + 1), report[16], progress[8];
    second_session s;
    size_t at;

    for (at = 0; at + SECOND_SHORTEST_RECORD <= MOST; at += SECOND_SHORTEST_RECORD)
        memcpy(trace + at, RECORD(0, 0, 0, 0), SECOND_SHORTEST_RECORD);
    memcpy(trace + at, "kind=0\n", MOST - at);
    CHECK(at == USED && MOST - at == 7 && (size_t)WRITTEN > MOST);

    /* in one portion, with answers of more than 16 MiB in one call */
    s = opened();
    CHECK(second_feed(&s, trace, MOST, 0, output, WRITTEN + 1, report, 16, progress, 8) == 0);
    CHECK(word_at(report) == 0 && word_at(report + 4) == RECORDS && word_at(report + 8) == USED
          && word_at(report + 12) == WRITTEN);
    CHECK(word_at(progress) == MOST && word_at(progress + 4) == WRITTEN && s.carried_len == 7);
    CHECK(output[WRITTEN - 1] == '\n' && output[WRITTEN] == UNTOUCHED);
    CHECK(memcmp(output, ANSWER(0, 0, 1, 1), 31) == 0 && memcmp(output, output + 31, WRITTEN - 31) == 0);
    REFUSED_AS(2, "a", 0);
    FEED("", 1, 0, 7, 0, "", RECORDS, USED, WRITTEN, 7);

    /* in many portions; a small output that is renewed, the bytes not taken brought again */
    s = opened();
    int32_t code = 0;
    uint64_t waited = 0, offered = 0;
    bool steady = true;
    for (at = 0; at < MOST && steady;) {
        size_t len = MOST - at < 65521 ? MOST - at : 65521;
        code = second_feed(&s, trace + at, len, at + len == MOST, output, 65536, report, 16, progress, 8);
        steady = (code == 0 || code == 8 || (code == 7 && s.ended)) && word_at(progress) > 0;
        at += word_at(progress);
        offered += len;
        waited += code == 8;
    }
    CHECK(steady && code == 7 && s.ended && waited > 0 && offered > MOST);
    CHECK(word_at(report) == 7 && s.records == RECORDS && s.used == USED && s.written == WRITTEN
          && s.carried_len == 7);
    free(trace);
    free(output);
}

/* ---- chance ---- */

static uint64_t seed = 20250117;

static uint32_t random_number(uint32_t below)
{
    seed = seed * 6364136223846793005u + 1442695040888963407u;
    return (uint32_t)(seed >> 33) % below;
}

static void test_chance(void)
{
    static const int32_t commands[] = { 0, 1, 2, 2, 2, 3, 9, 0x0A, 0x0B, 0x0C, 0x0D, 0x0E, 0x0F, 0x19, 0x20, 0x21 };
    static way y;
    uint32_t codes[10] = { 0 };

    for (int turn = 0; turn < 600; turn++) {
        size_t len = 0;
        while (len < LONG_TRACE - 4096) {
            int32_t kind = (int32_t)random_number(9), a = 0, b = 0, c = 0;
            if (kind >= 1 && kind <= 4)
                a = random_number(20) ? 76 : (int32_t)random_number(130);
            if (kind >= 1 && kind <= 3)
                b = random_number(10) ? commands[random_number(16)] : (int32_t)random_number(256);
            if (kind == 2)
                c = (int32_t)random_number(256);
            if (kind == 7) {
                a = (int32_t)random_number(280) - 80;
                b = (int32_t)random_number(1400) - 300;
                c = random_number(10) == 0;
            }
            if (random_number(30) == 0)
                a = (int32_t)random_number(199999) - 99999;
            len += (size_t)snprintf((char *)w.trace + len, LONG_TRACE - len, "kind=%d\na=%d\nb=%d\nc=%d\n",
                                    (int)kind, (int)a, (int)b, (int)c);
            if (random_number(100) == 0)
                break;
        }
        if (turn % 3 == 1)
            len -= random_number((uint32_t)(len < 40 ? len : 40));
        if (turn % 3 == 2) {
            size_t back = random_number((uint32_t)(len < 400 ? len : 400));
            w.trace[len - 1 - back] = (uint8_t)"019-\n=ka x"[random_number(10)];
        }
        replay_whole(&w, w.trace, len);

        set_out(&y);
        uint32_t most = 1 + random_number(random_number(2) ? 8 : 120);
        uint32_t room = 34 + random_number(100);
        while (!y.s.stopped && !y.s.ended && y.good) {
            size_t to = y.at + random_number(most + 1);
            if (to > w.len)
                to = w.len;
            int32_t end = to == w.len && random_number(3) == 0;
            codes[go_on(&y, &w, to, end, random_number(room))]++;
            if (random_number(8) == 0) {
                static call got;
                feed_lengths(&got, &y.s, "kind=0", 6, 2 * (int32_t)random_number(2), 50, 15, 8);
                y.good = y.good && got.refused && got.sound && got.code == 2;
            }
        }
        CHECK(arrived(&y, &w));
        static call got;
        feed(&got, &y.s, w.trace, 1, 0, 100);
        CHECK(got.refused && got.sound && got.code == (y.s.ended ? 9 : 7));
        feed(&got, &y.s, NULL, 0, 1, 100);
        CHECK(got.sound && got.code == (y.s.stopped ? 7 : 0) && got.refused == y.s.stopped);
    }
    CHECK(codes[0] > 1000 && codes[7] > 100 && codes[8] > 1000);
}

/* ---- one output that is not renewed (document 02, Item 5) ---- */

/*
 * What a call is lent. In the first two ways all answers go into one output, and it is what those
 * so far have left of it: of the room of everything offered so far, this portion too, or of the
 * whole trace's. In the third each call has an output of its own, with the room of the carried
 * bytes and the portion.
 */
enum { OF_SO_FAR, OF_WHOLE, OF_ITS_OWN, LENDINGS };

static size_t lent(way *y, const whole *all, size_t to, int lending)
{
    if (lending == OF_ITS_OWN)
        return second_room(y->s.carried_len + (to - y->at));
    size_t size = second_room(lending == OF_WHOLE ? all->len : to);
    if (size >= y->s.written)
        return size - y->s.written;
    y->good = false;
    return 0;
}

/* Goes the way with portions that end at each of the cuts and at the trace's end; `apart` declares
   the end by an empty portion of its own. No answer may wait. */
static bool room_is_enough(const whole *all, const size_t *cuts, size_t n, bool apart, int lending)
{
    static way y;
    set_out(&y);
    int32_t code = 0;
    for (size_t i = 0; i <= n && code == 0; i++) {
        size_t to = i < n ? cuts[i] : all->len;
        code = go_on(&y, all, to, i == n && !apart, lent(&y, all, to, lending));
    }
    if (code == 0 && apart)
        code = go_on(&y, all, all->len, 1, lent(&y, all, all->len, lending));
    return code != 8 && arrived(&y, all);
}

/* One byte at a time, with an empty portion behind each. */
static bool room_is_enough_for_bytes(const whole *all, bool apart, int lending)
{
    static way y;
    set_out(&y);
    int32_t code = 0;
    for (size_t to = 0; to <= all->len && code == 0; to++) {
        code = go_on(&y, all, to, to == all->len && !apart, lent(&y, all, to, lending));
        if (code == 0 && !y.s.ended)
            code = go_on(&y, all, to, 0, lent(&y, all, to, lending));
    }
    if (code == 0 && apart)
        code = go_on(&y, all, all->len, 1, lent(&y, all, all->len, lending));
    return code != 8 && arrived(&y, all);
}

static void test_one_output_cuts(void)
{
    static const char *const tight[] = {
        LOW_FAULTS RESPONDED RESPONDED "kind=5\na=0\nb=0\nc=0",
        LOW_FAULTS RESPONDED RESPONDED "kind=5\na=0\nb=0\nc=00",
        RECORD(2, 76, 32, 255) RECORD(4, 76, 0, 0) RECORD(4, 76, 0, 0) RECORD(4, 76, 0, 0) };

    for (size_t t = 0; t < TRACES + sizeof tight / sizeof *tight; t++) {
        const char *trace = t < TRACES ? traces[t] : tight[t - TRACES];
        replay_whole(&w, trace, strlen(trace));
        for (int lending = 0; lending < LENDINGS; lending++) {
            bool enough = true;
            for (int apart = 0; apart <= 1; apart++)
                enough = enough && room_is_enough(&w, NULL, 0, apart, lending)
                    && room_is_enough_for_bytes(&w, apart, lending);
            for (size_t one = 0; one <= w.len; one++)
                for (size_t two = one; two <= w.len; two += lending == OF_SO_FAR ? 1 : 3) {
                    size_t cuts[2] = { one, two };
                    enough = enough && room_is_enough(&w, cuts, 2, two % 2 == 0, lending);
                }
            CHECK(enough);
        }
        /* an end too early, at every byte */
        bool enough = true;
        for (size_t len = 0; len < strlen(trace); len++) {
            replay_whole(&w, trace, len);
            for (int lending = 0; lending < LENDINGS; lending++) {
                size_t half = len / 2;
                enough = enough && room_is_enough(&w, &half, 1, len % 2 == 0, lending)
                    && room_is_enough_for_bytes(&w, len % 2 == 1, lending);
            }
        }
        CHECK(enough);
    }
}

/* The whole trace in portions of up to `most` bytes into one output of exactly its room. */
static bool fills_one_output(const whole *all, uint32_t most)
{
    size_t size = second_room(all->len), at = 0;
    uint8_t *output = exactly(size), report[16], progress[8];
    second_session s = opened();
    int32_t code = 0;

    for (uint32_t calls = 0; code == 0 && !s.ended && calls < MOST_CALLS; calls++) {
        size_t len = random_number(most + 1);
        len = len < all->len - at ? len : all->len - at;
        code = second_feed(&s, all->trace + at, len, at + len == all->len,
                           size ? output + s.written : NULL, size - s.written,
                           report, 16, progress, 8);
        at += word_at(progress);
    }
    bool good = code == all->code && memcmp(report, all->report, 16) == 0
        && s.written == all->written && untouched(output, all->written, size)
        && (size == 0 || memcmp(output, all->output, all->written) == 0);
    free(output);
    return good;
}

/* Any list of portions, among them ends too early and calls that are refused. */
static void test_one_output_by_chance(void)
{
    static const uint32_t most_bytes[] = { 1, 8, 40, 280 };
    static whole offered;
    static way y;
    static call got;
    uint32_t over = 0, early = 0, codes[10] = { 0 };

    for (int turn = 0; turn < 1500; turn++) {
        replay_whole(&w, w.trace, chance_trace(w.trace, 64 + random_number(1200)));
        CHECK(fills_one_output(&w, most_bytes[turn % 4]));
        CHECK(fills_one_output(&w, (uint32_t)w.len));

        int lending = turn % LENDINGS;
        size_t to = 0;
        bool enough = true;
        set_out(&y);
        while (!y.s.stopped && !y.s.ended && y.good && enough) {
            if (random_number(10) == 0) {
                int32_t end = 2 * (int32_t)random_number(2);
                feed_lengths(&got, &y.s, w.trace, 30, end, 0, end ? 16 : 15, 8);
                enough = got.sound && got.refused && got.code == 2;
            }
            if (random_number(4) == 0) {
                /* over the total: refused before it is looked at, and so before its room matters */
                uint8_t report[16], progress[8];
                size_t len = random_number(2) ? SIZE_MAX : MOST - y.at + 1;
                second_session before = y.s;
                enough = enough && second_feed(&y.s, w.trace, len, (int32_t)random_number(2), NULL,
                                               0, report, 16, progress, 8) == 2
                    && memcmp(&before, &y.s, sizeof before) == 0;
                over++;
            }
            to += random_number(most_bytes[random_number(4)] + 1);
            to = to < w.len ? to : w.len;
            int32_t end = to == w.len ? random_number(3) == 0 : random_number(80) == 0;
            early += end && to < w.len;
            int32_t code = go_on(&y, &w, to, end, lent(&y, &w, to, lending));
            enough = enough && code != 8
                && y.s.records <= to / SECOND_SHORTEST_RECORD && y.s.written <= second_room(to);
            codes[code]++;
        }
        /* it came to where the replay of what was offered comes */
        replay_whole(&offered, w.trace, to);
        CHECK(enough && arrived(&y, &offered));

        /* and there it stays: no room at all, and still no 8 */
        for (int more = 0; more < 4; more++) {
            size_t len = random_number(3) ? random_number(100) : 0;
            feed(&got, &y.s, len ? (const uint8_t *)LOW_FAULTS LOW_FAULTS LOW_FAULTS : NULL, len,
                 more % 2, 0);
            int32_t code = y.s.ended && len ? 9 : y.s.stopped ? 7 : 0;
            CHECK(got.sound && got.code == code && got.refused == (code != 0));
        }
    }
    CHECK(codes[0] > 1000 && codes[7] > 100 && codes[8] == 0 && over > 1000 && early > 100);
}

/* Feeds all, in portions of 97 bytes and each byte once, into one output that has `each` bytes for
   each full `bytes` of what is offered so far, and `besides` more. */
static int32_t fed_scantly(second_session *s, const uint8_t *trace, size_t len,
                           size_t each, size_t bytes, size_t besides)
{
    uint8_t *output = exactly(len / bytes * each + besides), report[16], progress[8];
    int32_t code = 0;
    *s = opened();
    for (size_t at = 0; at < len && code == 0; at += 97) {
        size_t to = len - at < 97 ? len : at + 97, size = to / bytes * each + besides;
        size_t room = size < s->written ? 0 : size - s->written;
        code = second_feed(s, trace + at, to - at, to == len, output + s->written, room,
                           report, 16, progress, 8);
    }
    free(output);
    return code;
}

static void test_one_output_best(void)
{
    static const size_t besides[] = { 0, 1000, 20000 };
    enum { FEWER = SECOND_LONGEST_ANSWER - 1, MORE = SECOND_SHORTEST_RECORD + 1 };
    second_session s;

    for (size_t i = 0; i < sizeof besides / sizeof *besides; i++) {
        size_t records = besides[i] + 5, len = records * strlen(RESPONDED);
        uint8_t *trace = exactly(len);
        fill_with_responses(trace, len);
        CHECK(fed_scantly(&s, trace, len, FEWER, SECOND_SHORTEST_RECORD, besides[i]) == 8);
        CHECK(s.records < records && !s.ended);
        CHECK(fed_scantly(&s, trace, len, SECOND_LONGEST_ANSWER, MORE, besides[i]) == 8);
        CHECK(s.records < records && !s.ended);
        CHECK(fed_scantly(&s, trace, len, SECOND_LONGEST_ANSWER, SECOND_SHORTEST_RECORD, 0) == 0);
        CHECK(s.records == len / SECOND_SHORTEST_RECORD && s.written == responses_length(records));
        CHECK(s.ended);
        free(trace);
    }

    /* renewed for each portion, its room counted by the portion alone: one byte ends a record */
    s = opened();
    FEED("kind=6\na=0\nb=0\nc=0", 0, second_room(18), 0, 18, "", 0, 0, 0, 18);
    FEED("\n", 0, second_room(1), 8, 0, "", 0, 0, 0, 18);
    FEED("\n", 0, second_room(19), 0, 1, ANSWER(0, 0, 1, 1), 1, 19, 31, 0);
    /* bytes brought again count once: 8 and 8 again add nothing to what is offered */
    FEED(RECORD(7, 0, 0, 0) RESPONDED, 0, SECOND_LONGEST_ANSWER, 8, 19, ANSWER(0, 0, 0, 1),
         2, 38, 62, 0);
    FEED(RESPONDED, 0, SECOND_LONGEST_ANSWER - 1, 8, 0, "", 2, 38, 62, 0);
    FEED(RESPONDED, 1, second_room(57) - 62, 0, 19, RESPONDED_ANSWER, 3, 57, 95, 0);

    /* not empty at the start: 4 bytes are all that these leave of their room */
    s = opened();
    FEED(LOW_FAULTS RESPONDED RESPONDED, 1, second_room(76) - 5, 8, 57,
         LOW_FAULTS_ANSWERS RESPONDED_ANSWER, 3, 57, 95, 0);
    s = opened();
    FEED(LOW_FAULTS RESPONDED RESPONDED, 1, second_room(76) - 4, 0, 76,
         LOW_FAULTS_ANSWERS RESPONDED_ANSWER RESPONDED_ANSWER, 4, 76, 128, 0);
    CHECK(second_open(&s, 77) == 0);
    FEED(LOW_FAULTS RESPONDED RESPONDED, 1, second_room(76), 0, 76,
         LOW_FAULTS_ANSWERS ANSWER(0, 155, 0, 1) ANSWER(0, 155, 0, 1), 4, 76, 128, 0);
}

/* A session's output has no limit: 16 MiB of trace go into the room that they need. */
static void test_one_output_longest(void)
{
    enum { RECORDS = 883011, ROOM = 29139363, FIRST = 2 * 31, EACH = SECOND_LONGEST_ANSWER };
    uint8_t *trace = exactly(MOST), *output = exactly(ROOM), report[16], progress[8];
    second_session s = opened();
    bool steady = true;

    fill_with_responses(trace, MOST);
    CHECK(second_room(MOST) == ROOM && responses_length(RECORDS) == ROOM - 4);
    for (size_t at = 0; at < MOST && steady;) {
        size_t len = 1 + random_number(random_number(2) ? 100 : 100000);
        len = len < MOST - at ? len : MOST - at;
        size_t size = random_number(2) ? second_room(at + len) : ROOM;
        steady = second_feed(&s, trace + at, len, 0, output + s.written, size - s.written,
                             report, 16, progress, 8) == 0
            && word_at(progress) == len;
        at += len;
    }
    CHECK(steady && s.records == RECORDS && s.written == ROOM - 4 && s.carried_len == 7);
    CHECK(memcmp(output + FIRST, RESPONDED_ANSWER, EACH) == 0
          && memcmp(output + FIRST, output + FIRST + EACH, ROOM - 4 - FIRST - EACH) == 0);
    CHECK(untouched(output, ROOM - 4, ROOM));
    REFUSED_AS(2, "a", 0);
    FEED("", 1, 0, 7, 0, "", RECORDS, MOST - 7, ROOM - 4, 7);
    free(trace);
    free(output);
}

void test_session(void)
{
    test_open();
    test_by_hand();
    test_partial();
    test_cuts();
    test_damage();
    test_session_rooms();
    test_session_refusals();
    test_longest();
    test_chance();
    test_one_output_cuts();
    test_one_output_by_chance();
    test_one_output_best();
    test_one_output_longest();
}
