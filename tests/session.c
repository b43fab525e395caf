/*
 * A trace in portions, fed beside the second model: after every call, the refused ones too, the same code and the same bytes of session, output,
 * report and progress, with guards round all of them. However a trace was cut, its answers, counts and chip are those of replay and of
 * dlaveth_event. TESTS is the folder that has the recorded traces and sessions. The last line is 'N passed, M failed'.
 *     session TESTS [TRACES [SEED]]
 */
#define _DEFAULT_SOURCE
#include <stdbool.h>
#include <stdio.h>
#include <stdlib.h>
#include <string.h>
#include <sys/mman.h>

#include "compare/damage.h"
#include "compare/generate.h"
#include "dlaveth.h"
#include "session_bytes.h"
#include "session_play.h"
#include "session_second.h"
#include "sessions/recorded.h"

#define RECORD(k, a, b, c) "kind=" #k "\na=" #a "\nb=" #b "\nc=" #c "\n"
#define COUNT(list) (sizeof(list) / sizeof *(list))

enum { MOST = DLAVETH_MOST_BYTES };

/* ---- the traces of the fixed tests ---- */

#define LONGEST "kind=-99999\na=-99999\nb=-99999\nc=-99999\n"
#define WHOLE_CASE RECORD(6, 0, 0, 0) RECORD(7, 20, 341, 0) RECORD(3, 76, 2, 0)

/* Answers of 31, 32 and 33 bytes, the longest record, parts of one, and text that is none, each at another place. */
static const char *const texts[] = {
    WHOLE_CASE,
    WHOLE_CASE "kind=5\na=0\nb=-",
    LONGEST RECORD(3, 76, 5, 0),
    RECORD(2, 76, 11, 255) RECORD(3, 76, 5, 0) RECORD(4, 76, 0, 0),
    RECORD(2, 76, 11, 200) RECORD(4, 77, 0, 0) RECORD(3, 76, 5, 0) "kin",
    RECORD(6, 0, 0, 0) "kind=7\na=20\nb=0341\nc=0\n" RECORD(3, 76, 2, 0),
    RECORD(6, 0, 0, 0) RECORD(7, 20, 341, -0),
    RECORD(6, 0, 0, 0) RECORD(7, 20, 341000, 0),
    RECORD(6, 0, 0, 0) "kind=7\r\na=0\nb=0\nc=0\n",
    RECORD(6, 0, 0, 0) "\n" RECORD(6, 0, 0, 0),
    RECORD(6, 0, 0, 0) "a=0\nkind=7\nb=0\nc=0\n",
    "kind=6\na=0\nb=0\nkind=6\n",
    "kind=6\na=--1\n",
    "x",
    "k",
    "",
};

/* ---- cuts ---- */

typedef enum { WITH_LAST, BY_EMPTY, NEVER, ENDS } end_way;

/* The room that is said to be enough, and no more: of one call; or what is left of one output for all that was offered so far. */
static size_t enough(const run *r, bool one, size_t portion, size_t offered)
{
    return one ? DLAVETH_ROOM(offered) - r->len : DLAVETH_ROOM(DLAVETH_CARRIED_BYTES + portion);
}

/* Feeds the text cut at `cuts`, which rise, with room enough; then a portion more, of a record and of nothing. */
static void cut(const char *what, int32_t address, const uint8_t *text, size_t len, const size_t *cuts, size_t count, end_way way, bool empties,
                const whole *w)
{
    static run r;
    const bool one = any(2);
    size_t at = 0;

    begin(&r, address);
    for (size_t i = 0; i <= count; i++) {
        size_t to = i < count ? cuts[i] : len;

        if (empties)
            go(what, &r, text, 0, 0, any(2) * AMPLE);
        go(what, &r, text + at, to - at, i == count && way == WITH_LAST, enough(&r, one, to - at, to));
        at = to;
    }
    if (way == BY_EMPTY)
        go(what, &r, text, 0, 1, empties ? 0 : AMPLE);
    is_whole("cut anywhere, the whole", &r, w);
    if (way != NEVER) {
        int32_t late = r.bytes[SESSION_ENDED] ? 9 : 7, nothing = r.bytes[SESSION_STOPPED] ? 7 : 0;

        check("a portion after all", feed(what, r.bytes, "kind=6", 6, (int32_t)any(2), AMPLE).code == late);
        check("nothing after all", feed(what, r.bytes, "", 0, (int32_t)any(2), AMPLE).code == nothing);
        check("a portion after that", feed(what, r.bytes, "x", 1, (int32_t)any(2), AMPLE).code == late);
    }
}

/* One byte at a time: every place is a cut. */
static void by_bytes(int32_t address, const uint8_t *text, size_t len, const whole *w)
{
    size_t *all = malloc((len + 1) * sizeof *all);

    if (all == NULL)
        exit(1);
    for (size_t i = 0; i + 1 < len; i++)
        all[i] = i + 1;
    for (int way = 0; way < ENDS; way++)
        for (int empties = 0; empties < 2; empties++)
            cut("one byte at a time", address, text, len, all, len > 0 ? len - 1 : 0, (end_way)way, empties, w);
    free(all);
}

static void by_twos(int32_t address, const uint8_t *text, size_t len, const whole *w)
{
    for (size_t i = 0; i <= len; i++)
        for (int way = 0; way < ENDS; way++)
            cut("two portions", address, text, len, &i, 1, (end_way)way, i % 2, w);
}

/* The end is declared at every byte, with all before it in one or in two portions; what the session then is, the rest can't change. */
static void too_early(int32_t address, const uint8_t *text, size_t len)
{
    static run r;
    static whole w;

    for (size_t end = 0; end <= len; end++) {
        whole_of(&w, address, text, end);
        for (size_t first = 0; first <= end; first += end < 5 ? 1 : end / 5) {
            begin(&r, address);
            go("before an early end", &r, text, first, 0, AMPLE);
            go("an early end", &r, text + first, end - first, 1, AMPLE);
            is_whole("an early end, the whole until then", &r, &w);
            go("behind an early end", &r, text + end, len - end, 0, AMPLE);
            go("behind an early end", &r, text + end, 0, 1, AMPLE);
            go("behind an early end", &r, text + end, len - end, 1, AMPLE);
            is_whole("after an early end, the same", &r, &w);
        }
    }
}

static void all_cuts(void)
{
    static whole w;

    for (size_t n = 0; n < COUNT(texts); n++) {
        const uint8_t *text = (const uint8_t *)texts[n];
        size_t len = strlen(texts[n]);

        for (int32_t address = 76; address < 78; address++) {
            whole_of(&w, address, text, len);
            cut("one portion", address, text, len, NULL, 0, WITH_LAST, false, &w);
            by_twos(address, text, len, &w);
            by_bytes(address, text, len, &w);
        }
        whole_of(&w, 76, text, len);
        for (size_t i = 0; i <= len; i++)
            for (size_t j = i; j <= len; j++)
                cut("three portions", 76, text, len, (size_t[]){ i, j }, 2, (end_way)((i + j) % ENDS), any(2), &w);
        too_early(76, text, len);
    }
}

/* ---- room ---- */

/* The ways to come back after 8. */
enum { SAME_BYTES, NOTHING_FIRST, FEWER, SAME_ROOM, BY_ONES, RETURNS };

/* The text from `at` on waits for room; feeds it all. */
static void come_back(run *r, const uint8_t *text, size_t at, size_t len, size_t room, int how)
{
    told t;

    switch (how) {
    case SAME_BYTES:
        go("again, with no room", r, text + at, len - at, 1, 0);
        break;
    case NOTHING_FIRST:
        check("nothing is taken at once", go("nothing, behind 8", r, text, 0, 0, 0).code == 0);
        break;
    case FEWER:
        t = go("fewer bytes than before", r, text + at, (len - at) / 2, 0, AMPLE);
        at += t.taken;
        break;
    case SAME_ROOM:
        while ((t = go("again, with the same room", r, text + at, len - at, 1, room)).code == 8 && t.written > 0)
            at += t.taken;
        at += t.taken;
        if (r->bytes[SESSION_ENDED] || r->bytes[SESSION_STOPPED])
            return;
        break;
    default:
        for (; at + 1 < len; at += t.taken)
            t = go("byte by byte, behind 8", r, text + at, 1, 0, DLAVETH_ANSWER_BYTES);
        break;
    }
    go("more room, and the end", r, text + at, len - at, 1, AMPLE);
}

static void rooms(void)
{
    static run r;
    static whole w;
    unsigned long waited = 0, in_carried = 0, unended = 0;

    for (size_t n = 0; n < 5; n++) {
        const uint8_t *text = (const uint8_t *)texts[n];
        size_t len = strlen(texts[n]);

        whole_of(&w, 76, text, len);
        for (size_t first = 0; first < len; first++)
            for (size_t room = 0; room <= w.written + 1; room++) {
                size_t second = first + (len - first) * (1 + any(3)) / 3;
                told t;

                begin(&r, 76);
                t = go("before 8", &r, text, first, 0, AMPLE);
                check("all is taken", t.code == 0 && t.taken == first);
                t = go("a room", &r, text + first, second - first, second == len, room);
                if (t.code == 8) {
                    waited++;
                    in_carried += r.bytes[SESSION_CARRIED_LEN] > 0;
                    unended += second == len;
                    check("8: the end does not count", r.bytes[SESSION_ENDED] == 0 && r.bytes[SESSION_STOPPED] == 0);
                    check("8: none is taken of what began in the carried bytes", r.bytes[SESSION_CARRIED_LEN] == 0 || t.taken == 0);
                }
                if (r.bytes[SESSION_ENDED] == 0)
                    come_back(&r, text, first + t.taken, len, room, (int)any(RETURNS));
                is_whole("with every room, the whole", &r, &w);
            }
    }
    check("records waited, some in carried bytes, some with the end", waited > 5000 && in_carried > 1000 && unended > 1000);
}

/* Exactly the bytes of an answer, and one fewer, for each answer, by number. */
static void rooms_by_hand(void)
{
    static const char text[] = RECORD(3, 76, 2, 0) RECORD(3, 76, 254, 0) RECORD(2, 76, 11, 255) RECORD(3, 76, 5, 0);
    static const uint32_t lengths[] = { 20, 22, 23, 20 }, answers[] = { 31, 32, 31, 33 };
    uint8_t session[SESSION];
    uint32_t at = 0;

    dlaveth_open(76, session, SESSION);
    for (int i = 0; i < 4; i++) {
        bool last = i == 3;

        gives("no room", session, text + at, strlen(text) - at, 1, 0, 8, 0, 0);
        gives("one byte too small", session, text + at, strlen(text) - at, 1, answers[i] - 1, 8, 0, 0);
        gives("exact", session, text + at, strlen(text) - at, 1, answers[i], last ? 0 : 8, lengths[i], answers[i]);
        check("the end counts once all are taken", session[SESSION_ENDED] == last);
        at += lengths[i];
    }
    dlaveth_open(76, session, SESSION);
    gives("a part", session, text, 5, 0, 0, 0, 5, 0);
    gives("30 bytes", session, text + 5, 40, 0, 30, 8, 0, 0);
    check("the carried bytes stay", session[SESSION_CARRIED_LEN] == 5 && memcmp(session + SESSION_CARRIED, "kind=", 5) == 0);
    gives("62 bytes", session, text + 5, 40, 0, 62, 8, 15, 31);
    gives("the next", session, text + 20, 30, 0, 32, 0, 30, 32);
}

/* A room of more than 32 bits: its address space is there, and memory for its first bytes. */
static void rooms_beyond(void)
{
    enum { FIRST = 4096 };
    const uint8_t *text = (const uint8_t *)WHOLE_CASE "kind=";
    const size_t len = strlen(WHOLE_CASE "kind="), most = (size_t)1 << 33;
    uint8_t *output = mmap(NULL, most, PROT_NONE, MAP_PRIVATE | MAP_ANONYMOUS, -1, 0), want[FIRST];

    check("address space for a large room", output != MAP_FAILED && mprotect(output, FIRST, PROT_READ | PROT_WRITE) == 0);
    if (output == MAP_FAILED)
        return;
    for (size_t room = (size_t)1 << 32; room <= most - 40; room = 2 * room - 40) {
        uint8_t of_library[SESSION], of_second[SESSION], report[2][DLAVETH_REPORT_BYTES], progress[2][DLAVETH_PROGRESS_BYTES];

        for (size_t more = 0; more < 36; more++) {
            memset(output, 0x5a, FIRST);
            memset(want, 0x5a, FIRST);
            check("open", dlaveth_open(76, of_library, SESSION) == 0 && session_second_open(76, of_second, SESSION) == 0);
            check("a large room", dlaveth_feed(of_library, SESSION, text, len, 0, output, room + more, report[0], 16, progress[0], 8) == 0
                  && session_second_feed(of_second, SESSION, text, len, 0, want, FIRST, report[1], 16, progress[1], 8) == 0);
            check("a large room, all bytes", memcmp(of_library, of_second, SESSION) == 0 && memcmp(report[0], report[1], sizeof report[0]) == 0
                  && memcmp(progress[0], progress[1], sizeof progress[0]) == 0 && memcmp(output, want, FIRST) == 0);
        }
    }
    munmap(output, most);
}

/* ---- after the end and after 7 ---- */

static void afterwards(void)
{
    uint8_t s[SESSION];

    dlaveth_open(77, s, SESSION);
    gives("an end", s, RECORD(6, 0, 0, 0), 19, 1, 31, 0, 19, 31);
    for (int again = 0; again < 2; again++) {
        gives("nothing after the end", s, "", 0, 0, 0, 0, 0, 0);
        gives("the end again", s, "", 0, 1, AMPLE, 0, 0, 0);
        refuses("a portion after the end", s, RECORD(6, 0, 0, 0), 0, 9);
        refuses("a bad portion after the end", s, "x", 1, 9);
    }
    dlaveth_open(76, s, SESSION);
    gives("bad at once", s, RECORD(6, 0, 0, 0) "x", 20, 1, 31, 7, 19, 31);
    check("the end did not count", s[SESSION_ENDED] == 0 && s[SESSION_STOPPED] == 1 && s[SESSION_CARRIED_LEN] == 0);
    for (int again = 0; again < 2; again++) {
        refuses("a good portion after 7", s, RECORD(6, 0, 0, 0), 0, 7);
        refuses("nothing after 7", s, "", 0, 7);
        refuses("the end after 7", s, "", 1, 7);
        refuses("a bad portion after 7", s, "x", 1, 7);
    }
    dlaveth_open(76, s, SESSION);
    gives("a part", s, "kind=12", 7, 0, 0, 0, 7, 0);
    gives("bad behind a part", s, "\nb", 2, 1, 0, 7, 0, 0);
    check("the end did not count", s[SESSION_ENDED] == 0);
    check("the part stays", s[SESSION_CARRIED_LEN] == 7 && memcmp(s + SESSION_CARRIED, "kind=12", 7) == 0);
    refuses("the good rest after 7", s, "\na=0\nb=0\nc=0\n", 0, 7);
    refuses("the end after 7", s, "", 1, 7);
    dlaveth_open(76, s, SESSION);
    gives("a part at the end", s, "kind=12", 7, 1, 0, 7, 7, 0);
    check("the end counted, the part stays", s[SESSION_ENDED] == 1 && s[SESSION_STOPPED] == 1 && s[SESSION_CARRIED_LEN] == 7);
    for (int again = 0; again < 2; again++) {
        refuses("9 before 7", s, "\n", 0, 9);
        refuses("7 for nothing", s, "", 0, 7);
        refuses("7 for the end again", s, "", 1, 7);
        refuses("9 with the end again", s, "\na=0\nb=0\nc=0\n", 1, 9);
    }
    dlaveth_open(76, s, SESSION);
    gives("no trace at all", s, "", 0, 1, 0, 0, 0, 0);
    refuses("9 after no trace", s, "k", 0, 9);
}

/* ---- sessions of every sort, for lengths and damage ---- */

enum { SORTS = 12 };

static uint8_t sorts[SORTS][SESSION];

static void make_sorts(void)
{
    static const struct { const char *text; int32_t end; } fed[SORTS] = {
        { "", 0 }, { "k", 0 }, { WHOLE_CASE, 0 }, { WHOLE_CASE "kind=7\na=-2", 0 }, { WHOLE_CASE, 1 }, { "", 1 }, { "kind=6\na=", 1 },
        { WHOLE_CASE "x", 0 }, { WHOLE_CASE "kind=3\na=76\nb=2\nc=", 1 }, { LONGEST "kind=-99999\na=-99999\nb=-99999\nc=-99999", 0 },
        { RECORD(3, 76, 2, 0) "kind=1\na=0\nb=0\nc=123", 0 }, { "kind=12345\na=0\nb", 0 },
    };

    for (int i = 0; i < SORTS; i++) {
        dlaveth_open(76 + i % 2, sorts[i], SESSION);
        (void)feed("a session of some sort", sorts[i], fed[i].text, strlen(fed[i].text), fed[i].end, AMPLE);
    }
    (void)feed("a session of some sort", sorts[11], "x", 1, 0, AMPLE);    /* it stopped behind carried bytes */
    check("the longest carried bytes", sorts[9][SESSION_CARRIED_LEN] == 38);
    check("stopped behind carried bytes", sorts[11][SESSION_STOPPED] && sorts[11][SESSION_CARRIED_LEN] > 0 && !sorts[11][SESSION_ENDED]);
}

/* ---- lengths, ends and the order of refusals ---- */

/* Each ends in its low bytes as a good one does, or lies beside one. */
static const size_t session_lens[] = { 0, 1, 128, 255, 257, 512, 0x10100, (size_t)1 << 32 | 256, (size_t)1 << 63 | 256, SIZE_MAX };
static const size_t report_lens[] = { 0, 8, 15, 17, 32, 0x10010, (size_t)1 << 32 | 16, (size_t)1 << 63 | 16, SIZE_MAX };
static const size_t progress_lens[] = { 0, 4, 7, 9, 16, 0x10008, (size_t)1 << 32 | 8, (size_t)1 << 63 | 8, SIZE_MAX };
static const int32_t ends[] = { 2, -1, 255, 256, 257, 0x10000, 0x10001, INT32_MAX, INT32_MIN, INT32_MIN + 1 };

static void wrong(const char *what, feed_input in)
{
    static const uint8_t zeros[SESSION];
    uint8_t s[SESSION];

    for (int i = 0; i <= SORTS; i++)
        for (int fill = 0; fill < 4; fill++) {      /* null pointers or not, by chance */
            told t;

            memcpy(s, i < SORTS ? sorts[i] : zeros, SESSION);
            in.portion = (const uint8_t *)WHOLE_CASE;
            in.portion_len = in.portion_lent = any(2) * (sizeof WHOLE_CASE - 1);
            in.room = any(2) * AMPLE;
            t = call(what, s, in);
            check("a wrong length or end is 2, whatever the session", t.code == 2 && t.refused);
        }
}

static void lengths(void)
{
    const feed_input good = { NULL, NULL, 0, 0, 0, SESSION, 0, DLAVETH_REPORT_BYTES, DLAVETH_PROGRESS_BYTES, 0 };
    feed_input in = good;

    for (size_t i = 0; i < COUNT(session_lens); i++) {
        in.session_len = session_lens[i];
        wrong("a session of another length", in);
    }
    in = good;
    for (size_t i = 0; i < COUNT(report_lens); i++) {
        in.report_len = report_lens[i];
        wrong("a report of another length", in);
    }
    in = good;
    for (size_t i = 0; i < COUNT(progress_lens); i++) {
        in.progress_len = progress_lens[i];
        wrong("a progress of another length", in);
    }
    in = good;
    for (size_t i = 0; i < COUNT(ends); i++) {
        in.end = ends[i];
        wrong("an end that is neither 0 nor 1", in);
    }
    for (int n = 0; n < 2000; n++) {
        uint32_t which = 1 + any(15);

        in = good;
        if (which & 1)
            in.session_len = session_lens[any(COUNT(session_lens))];
        if (which & 2)
            in.report_len = report_lens[any(COUNT(report_lens))];
        if (which & 4)
            in.progress_len = progress_lens[any(COUNT(progress_lens))];
        in.end = which & 8 ? ends[any(COUNT(ends))] : (int32_t)any(2);
        wrong("several at once", in);
    }
}

static void opened(int32_t address, size_t len, int old)
{
    uint8_t got[SESSION + 64], want[SESSION + 64];
    int32_t code;

    memset(got, old == 0 ? 0x33 : 0, sizeof got);
    if (old > 1)
        memcpy(got + 32, sorts[any(SORTS)], SESSION);
    memcpy(want, got, sizeof got);
    code = session_second_open(address, want + 32, len);
    check("open", dlaveth_open(address, got + 32, len) == code && memcmp(got, want, sizeof got) == 0);
    check("open gives 0 for 76 and 77 alone", (code == 0) == (len == SESSION && (address == 76 || address == 77)));
    if (len == SESSION && code != 0) {
        refuses("a session that was not opened", got + 32, "", 0, 6);
        refuses("a session that was not opened", got + 32, "kind", 1, 6);
    }
}

static void opens(void)
{
    for (int old = 0; old < 3; old++) {
        for (int32_t address = -300; address < 400; address++)
            opened(address, SESSION, old);
        for (int bits = 8; bits < 32; bits++)
            for (int32_t chip = 76; chip < 78; chip++) {
                opened((int32_t)((1u << bits) + (uint32_t)chip), SESSION, old);
                opened((int32_t)(0u - (1u << bits) + (uint32_t)chip), SESSION, old);
            }
        opened(INT32_MAX, SESSION, old);
        opened(INT32_MIN, SESSION, old);
        for (size_t i = 0; i < COUNT(session_lens); i++)
            for (int32_t address = 75; address < 77; address++)
                opened(address, session_lens[i], old);
    }
    check("null where the length is 0", dlaveth_open(76, NULL, 0) == 2 && dlaveth_open(75, NULL, 0) == 2);
    check("all null", dlaveth_feed(NULL, 0, NULL, 0, 0, NULL, 0, NULL, 0, NULL, 0) == 2);
}

/* ---- the total ---- */

/* A session that has taken all but `left` bytes of 16 MiB, `part` among them carried. Its counts are such as fit each other. */
static void near_most(uint8_t *s, uint32_t left, const char *part)
{
    uint32_t used = MOST - left - (uint32_t)strlen(part), records = used / 19 - any(used / 50);

    dlaveth_open(76, s, SESSION);
    s[SESSION_CARRIED_LEN] = (uint8_t)strlen(part);
    memcpy(s + SESSION_CARRIED, part, strlen(part));
    session_put_word(s + SESSION_RECORDS, records);
    session_put_word(s + SESSION_USED, used);
    session_put_word(s + SESSION_WRITTEN, 31 * records + any(2 * records));
}

static void total(void)
{
    static const char text[] = RECORD(6, 0, 0, 0) RECORD(7, 1, 1, 0) RECORD(5, 0, 0, 0) RECORD(6, 0, 0, 0), *rest = text + 10;
    static const char *const parts[] = { "", "k", "kind=6\na=0", "kind=-99999\na=-99999\nb=-99999\nc=-99999" };
    static const uint32_t lefts[] = { 0, 1, 8, 9, 10, 18, 19, 20, 37, 38, 39, 57, 75 };
    uint8_t s[SESSION], before[SESSION];

    for (size_t p = 0; p < COUNT(parts); p++)
        for (size_t l = 0; l < COUNT(lefts); l++)
            for (uint32_t len = 0; len <= 76; len++)
                for (int32_t end = 0; end < 2; end++) {
                    told t;

                    near_most(s, lefts[l], parts[p]);
                    t = feed("near 16 MiB", s, text, len, end, any(3) ? AMPLE : any(40));
                    check("2 exactly where the total goes over 16 MiB", t.refused == (len > lefts[l]) && (t.code == 2) == t.refused);
                    if (t.refused) {
                        t = feed("2 does not last", s, text, lefts[l], 0, AMPLE);
                        check("2 does not last", !t.refused);
                    }
                }
    /* what is offered again after 8 counts once; carried bytes count as taken */
    near_most(s, 19, "");
    gives("19 left, no room", s, text, 19, 1, 30, 8, 0, 0);
    gives("again", s, text, 19, 1, 0, 8, 0, 0);
    refuses("one more than is left", s, RECORD(6, 0, 0, 0) "k", 1, 2);
    gives("with room", s, text, 19, 1, 31, 0, 19, 31);
    check("16 MiB are taken", session_word(s + SESSION_USED) == MOST && s[SESSION_ENDED]);
    near_most(s, 9, parts[2]);
    gives("9 left, no room", s, rest, 9, 0, 30, 8, 0, 0);
    refuses("carried bytes count", s, "\nb=0\nc=0\nk", 1, 2);
    gives("9 left", s, rest, 9, 0, 31, 0, 9, 31);
    refuses("none left", s, "k", 0, 2);
    refuses("none left, bad", s, "x", 1, 2);
    gives("nothing more", s, "", 0, 0, 0, 0, 0, 0);
    gives("the end of 16 MiB", s, "", 0, 1, 0, 0, 0, 0);
    refuses("9 before the total", s, text, 0, 9);
    near_most(s, 0, parts[2]);
    gives("a part at the end of 16 MiB", s, "", 0, 1, 0, 7, 0, 0);
    refuses("9 before the total, and before 7", s, text, 0, 9);
    near_most(s, 5, "k");
    gives("bad near 16 MiB", s, "x", 1, 0, 0, 7, 0, 0);
    refuses("7 before the total", s, text, 0, 7);

    /* lengths that a sum could wrap at; the call is told of them and must not look */
    for (size_t p = 0; p < COUNT(parts); p++)
        for (uint32_t left = 0; left < 60; left += 19) {
            near_most(s, left, parts[p]);
            const size_t taken = MOST - left;
            const size_t lens[] = {
                MOST, (size_t)MOST + 1, SIZE_MAX, SIZE_MAX - taken, SIZE_MAX - taken + 1, SIZE_MAX - taken + 2,
                (size_t)1 << 31, ((size_t)1 << 31) - taken, (size_t)1 << 32, (size_t)1 << 32 | 10, ((size_t)1 << 32) - taken,
                ((size_t)1 << 32) - taken + 1, (size_t)1 << 63,
            };
            for (size_t i = 0; i < COUNT(lens); i++) {
                feed_input in = { NULL, (const uint8_t *)text, 60, AMPLE, (int32_t)any(2), SESSION, lens[i], DLAVETH_REPORT_BYTES,
                                  DLAVETH_PROGRESS_BYTES, 0 };
                told t;

                memcpy(before, s, SESSION);
                t = call("far over 16 MiB", s, in);
                check("far over 16 MiB is 2", t.code == 2 && memcmp(before, s, SESSION) == 0);
            }
        }
}

/* ---- damaged bytes ---- */

static unsigned long strange, fine;

/* Three calls on the bytes, each on them as they are. */
static void judged(const uint8_t *bytes)
{
    static const char *const portions[] = { "", "", "kind=6\na=0\nb=0\nc=0\n", "=7\na=1\nb=2\nc=0\nkind", "x", "\n", "0\n" };
    bool one = session_judge(bytes);

    if (one)
        fine++;
    else
        strange++;
    for (int n = 0; n < 3; n++) {
        const char *portion = portions[any(COUNT(portions))], *what = one ? "a session that was damaged and is still one" : "bytes that are no session";
        uint8_t s[SESSION];
        told t;

        memcpy(s, bytes, SESSION);
        t = feed(what, s, portion, strlen(portion), (int32_t)any(2), any(2) * AMPLE);
        check("6 exactly for what is no session", (t.code == 6) != one);
    }
}

/* Sets a session's count to each of the values beside an end of what fits. */
static void counts(const uint8_t *from)
{
    static const uint32_t numbers[] = { 0, 1, 2, 3, 1000, 430185, 430186, 541200, 541201, 883010, 883011, 883012, 110127366, 226050910, UINT32_MAX };
    uint8_t s[SESSION];

    memcpy(s, from, SESSION);
    for (size_t n = 0; n < COUNT(numbers); n++)
        for (int used = 0; used < 12; used++)
            for (int written = 0; written < 7; written++) {
                uint32_t r = numbers[n], most = MOST - s[SESSION_CARRIED_LEN];
                const uint32_t ends[] = {
                    19 * r - 1, 19 * r, 19 * r + 1, 39 * r - 1, 39 * r, 39 * r + 1, most - 1, most, most + 1, 0, 1, UINT32_MAX,
                };
                const uint32_t wrote[] = { 31 * r - 1, 31 * r, 32 * r, 33 * r, 33 * r + 1, 0, UINT32_MAX };

                session_put_word(s + SESSION_RECORDS, r);
                session_put_word(s + SESSION_USED, ends[used]);
                session_put_word(s + SESSION_WRITTEN, wrote[written]);
                judged(s);
            }
}

static void damaged(unsigned long rounds)
{
    uint8_t s[SESSION];

    for (int i = 0; i < SORTS; i++) {
        for (int place = 0; place < SESSION; place++) {
            const uint8_t was = sorts[i][place], values[] = {
                0, 1, 2, 4, 10, 15, 16, 37, 38, 39, 64, 76, 77, 78, 128, 255, '-', '0', '1', '9', '=', 'k', (uint8_t)(was + 1), (uint8_t)(was - 1),
                (uint8_t)(was ^ 1), (uint8_t)(was ^ 2), (uint8_t)(was ^ 4), (uint8_t)(was ^ 16), (uint8_t)(was ^ 32), (uint8_t)(was ^ 128),
            };
            memcpy(s, sorts[i], SESSION);
            for (size_t v = 0; v < COUNT(values); v++) {
                s[place] = values[v];
                judged(s);
            }
        }
        counts(sorts[i]);
        /* the marks with each number of carried bytes, the text as it is */
        memcpy(s, sorts[i], SESSION);
        for (int carried = 0; carried < 42; carried++)
            for (int marks = 0; marks < 9; marks++) {
                s[SESSION_ENDED] = (uint8_t)(marks % 3);
                s[SESSION_STOPPED] = (uint8_t)(marks / 3);
                s[SESSION_CARRIED_LEN] = (uint8_t)carried;
                memset(s + SESSION_CARRIED, 0, SESSION_CHIP - SESSION_CARRIED);
                memcpy(s + SESSION_CARRIED, "kind=-99999\na=-99999\nb=-99999\nc=-99999\n\n", carried < 41 ? (size_t)carried : 41);
                judged(s);
            }
    }
    for (unsigned long n = 0; n < rounds; n++) {
        memcpy(s, sorts[any(SORTS)], SESSION);
        for (uint32_t k = 1 + any(3); k > 0; k--) {
            uint32_t place = any(3) ? any(56) : SESSION_CHIP + any(42);

            s[place] = (uint8_t)(any(2) ? s[place] ^ 1u << any(8) : any(any(2) ? 2 : 256));
        }
        judged(s);
    }
    check("every kind of damage was met", strange > 100000 && fine > 10000);
}

/* ---- what is partial ---- */

/* A text that ends in a number: as the first portion, with the end and without, as carried bytes, and with its last byte in another portion. */
static void number_cut(const char *begin_with, const char *number, bool partial)
{
    char text[80];
    const size_t len = (size_t)snprintf(text, sizeof text, "%s%s", begin_with, number);
    const uint32_t taken = partial ? (uint32_t)len : 0;
    uint8_t s[SESSION];

    for (int32_t end = 0; end < 2; end++) {
        dlaveth_open(76, s, SESSION);
        gives("a number cut off", s, text, len, end, 0, partial && !end ? 0 : 7, taken, 0);
        check("what is partial is carried", s[SESSION_CARRIED_LEN] == taken && memcmp(s + SESSION_CARRIED, text, taken) == 0);
        check("its end counts", s[SESSION_ENDED] == (partial && end));
    }
    dlaveth_open(76, s, SESSION);
    s[SESSION_CARRIED_LEN] = (uint8_t)len;
    memcpy(s + SESSION_CARRIED, text, len);
    check("what is partial may be carried", feed("a number carried", s, "", 0, 0, 0).code == (partial ? 0 : 6));
    dlaveth_open(76, s, SESSION);
    (void)feed("all of a number but a byte", s, text, len - 1, 0, 0);
    (void)feed("the number's last byte", s, text + len - 1, 1, 0, 0);
}

static void partials(void)
{
    static const char *const partial[] = { "", "-", "0", "1", "-1", "9", "10", "12345", "99999", "-12345", "-99999" };
    static const char *const bad[] = {
        "-0", "00", "01", "0-", "123456", "-123456", "--", "-\n", "+", "+1", " ", "\n", "1 ", "1-", "0\r", "0x", "a", "-00", "-01", "/", ":", "1/", "1:",
        "12345\r",
    };
    static const char *const begins[] = { "kind=", "kind=7\na=", "kind=-7\na=-20\nb=", "kind=-99999\na=-99999\nb=-99999\nc=" };
    static const char *const names[] = {
        "k", "ki", "kin", "kind", "kind=0\n", "kind=0\na", "kind=0\na=0\n", "kind=0\na=0\nb", "kind=0\na=0\nb=0\n", "kind=0\na=0\nb=0\nc",
    };
    static const char record[] = "kind=7\na=-20\nb=12345\nc=0";
    char text[80];
    uint8_t s[SESSION];

    for (size_t b = 0; b < COUNT(begins); b++) {
        for (size_t n = 0; n < COUNT(partial); n++)
            number_cut(begins[b], partial[n], true);
        for (size_t n = 0; n < COUNT(bad); n++)
            number_cut(begins[b], bad[n], false);
    }
    for (size_t n = 0; n < COUNT(names); n++) {
        uint32_t len = (uint32_t)strlen(names[n]);

        dlaveth_open(76, s, SESSION);
        gives("a name cut off", s, names[n], len, 0, 0, 0, len, 0);
        gives("at the end", s, "", 0, 1, 0, 7, 0, 0);
    }
    dlaveth_open(76, s, SESSION);
    gives("38 bytes", s, LONGEST, 38, 0, 0, 0, 38, 0);
    check("38 bytes are carried", s[SESSION_CARRIED_LEN] == 38 && memcmp(s + SESSION_CARRIED, LONGEST, 38) == 0);
    gives("the 39th, no room", s, "\nk", 2, 0, 30, 8, 0, 0);
    gives("the 39th", s, "\nk", 2, 0, 31, 0, 2, 31);
    /* every byte behind every part of a record */
    for (size_t len = 0; len < strlen(record); len++)
        for (int byte = 0; byte < 256; byte++) {
            memcpy(text, record, len);
            text[len] = (char)byte;
            dlaveth_open(76, s, SESSION);
            (void)feed("every byte behind every part", s, text, len + 1, 0, 0);
            dlaveth_open(76, s, SESSION);
            (void)feed("a part", s, text, len, 0, 0);
            (void)feed("every byte behind every part carried", s, text + len, 1, (int32_t)any(2), 0);
        }
}

/* ---- random traces, cut at random ---- */

static void random_trace(trace *t, int32_t address)
{
    generator g = generate_begin(&chance, t, address);

    for (uint32_t steps = any(any(10) ? 20 : 100); steps > 0; steps--)
        generate_more(&g);
    if (t->len > 0 && any(2))
        damage_do((damage)(1 + any(DAMAGES - 1)), t, &chance);
}

static size_t some_room(void)
{
    static const size_t often[] = { 0, 30, 31, 32, 33, 62, 63, 64, 66, AMPLE };

    return any(4) ? often[any(COUNT(often))] : any(200);
}

static unsigned long into_one, most_records;

/* Feeds all of the trace, or all up to an end declared too early; until then some rooms are too small, unless it is into one output. Gives how
   much was offered. */
static size_t feed_at_random(run *r, const trace *t)
{
    const size_t most[] = { 1, 3, 20, 40, 100, t->len + 1 }, usual = most[any(COUNT(most))];
    const bool early = any(10) == 0, one = any(2);
    size_t at = 0, offered = 0;

    while (!r->bytes[SESSION_ENDED] && !r->bytes[SESSION_STOPPED]) {
        size_t left = t->len - at, len = any(8) == 0 ? 0 : 1 + any((uint32_t)usual), room;
        told told_now;
        int32_t end;

        if (len > left)
            len = left;
        offered += len;
        room = one || any(3) ? enough(r, one, len, offered) : some_room();
        end = (len == left ? any(2) : early ? any(20) : 1) == 0;
        told_now = go("random portions", r, t->bytes + at, len, end, room);
        check("no more records than was offered for", session_word(told_now.report + 4) <= offered / DLAVETH_RECORD_BYTES);
        if (one) {
            check("one output: never 8", told_now.code != 8);
            into_one++;
            most_records += session_word(told_now.report + 4) == offered / DLAVETH_RECORD_BYTES;
        }
        if (told_now.code == 7)
            return at + len;
        at += told_now.taken;
    }
    return at;
}

static unsigned long by_code[2], cut_short;

static void at_random(unsigned long traces)
{
    static run r;
    static whole w;

    for (unsigned long n = 0; n < traces; n++) {
        int32_t address = 76 + (int32_t)any(2);
        trace t = trace_make();
        size_t offered;

        random_trace(&t, address);
        begin(&r, address);
        offered = feed_at_random(&r, &t);
        whole_of(&w, address, t.bytes, offered);
        is_whole("random portions, the whole", &r, &w);
        by_code[w.code == 7]++;
        cut_short += offered < t.len && r.bytes[SESSION_ENDED];
        for (int more = 0; more < 3; more++)
            (void)feed("after random portions", r.bytes, t.bytes, any(2) * t.len, (int32_t)any(2), some_room());
        trace_free(&t);
    }
    check("random traces ended well and with 7, and too early", by_code[0] > traces / 4 && by_code[1] > traces / 8 && cut_short > traces / 100);
    check("calls into one output, some with as many records as can be", into_one > traces && most_records > traces / 2);
}

/* ---- 16 MiB ---- */

static const char *const shortest[] = {
    RECORD(6, 0, 0, 0), RECORD(7, 9, 9, 1), RECORD(1, 9, 9, 0), RECORD(7, 1, 0, 0), RECORD(6, 0, 0, 0), RECORD(9, 9, 9, 9), RECORD(0, 0, 0, 0),
};

/* As many of the shortest records as there may be, 7 bytes fewer than 16 MiB, in portions; their answers are longer than a replay may write. Then in
   one call, which a session may. */
static void large(void)
{
    enum { PORTION = 4096 };
    const uint32_t records = MOST / DLAVETH_RECORD_BYTES, answers = 31 * records;
    uint8_t *text = malloc(MOST), *joined = malloc(answers), s[SESSION];
    size_t len = 0;
    told t;

    if (text == NULL || joined == NULL)
        exit(1);
    for (uint32_t i = 0; i < records; i++)
        memcpy(text + 19 * (size_t)i, shortest[i % 10 < 7 ? i % 10 : i % 3], 19);
    memcpy(text + 19 * (size_t)records, "kind=6\n", 7);
    dlaveth_open(76, s, SESSION);
    for (size_t at = 0; at < MOST; at += PORTION) {
        t = feed("16 MiB in portions", s, text + at, PORTION, 0, DLAVETH_ROOM(DLAVETH_CARRIED_BYTES + PORTION));
        check("16 MiB in portions: all is taken", t.code == 0 && t.taken == PORTION);
        if (len + t.written <= answers)
            memcpy(joined + len, t.output, t.written);
        len += t.written;
    }
    check("the counts of 16 MiB", session_word(t.report + 4) == records && session_word(t.report + 8) == 19 * records
          && session_word(t.report + 12) == answers && len == answers);
    refuses("16 MiB and one byte", s, "a", 0, 2);
    gives("the end of 16 MiB", s, NULL, 0, 1, 0, 7, 0, 0);

    dlaveth_open(76, s, SESSION);
    t = gives("16 MiB in one portion", s, text, 19 * (size_t)records, 1, (size_t)answers + 100, 0, 19 * records, answers);
    check("the same answers", memcmp(t.output, joined, answers) == 0);
    dlaveth_open(76, s, SESSION);
    gives("a byte of room too few", s, text, 19 * (size_t)records, 1, answers - 1, 8, 19 * (records - 1), answers - 31);
    gives("the last record", s, text + 19 * (size_t)(records - 1), 19, 1, 31, 0, 19, 31);
    free(text);
    free(joined);
}

static void rooms_alike(void)
{
    for (size_t n = 0; n <= MOST; n += n / 97 + 1)
        check("the header's room and the second model's", DLAVETH_ROOM(n) == second_room(n));
}

/* The trace that needs the most, 16 MiB of it, into one output: four bytes of what is enough are left. With 32 bytes for each full 19, or 33 for each
   full 20, it is stopped by 8. */
static void hungry(void)
{
    enum { PORTION = 100000 };
    static const char *const texts[] = { RECORD(6, 0, 0, 0), RECORD(7, 0, 0, 1), RECORD(5, 0, 0, 0) };
    const uint32_t records = MOST / DLAVETH_RECORD_BYTES, answers = 2 * 31 + (records - 2) * DLAVETH_ANSWER_BYTES, length = records * 19;
    const size_t smaller[] = { 32 * (size_t)(length / 19), 33 * (size_t)(length / 20), answers - 1 };
    uint8_t *text = malloc(MOST), s[SESSION];
    size_t written = 0;
    told t;

    if (text == NULL)
        exit(1);
    for (size_t i = 0; i < records; i++)
        memcpy(text + i * 19, texts[i < 2 ? i : 2], 19);
    dlaveth_open(76, s, SESSION);
    for (size_t at = 0, to; at < length; at = to) {
        to = length - at < PORTION ? length : at + PORTION;
        t = feed("hungry, in portions", s, text + at, to - at, to == length, DLAVETH_ROOM(to) - written);
        check("hungry, in portions: all is taken", t.code == 0 && t.taken == to - at);
        written += t.written;
    }
    check("hungry: four bytes are left", written == answers && DLAVETH_ROOM(length) == answers + 4);
    dlaveth_open(76, s, SESSION);
    gives("hungry, in one portion", s, text, length, 1, DLAVETH_ROOM(length), 0, length, answers);
    for (size_t i = 0; i < COUNT(smaller); i++) {
        dlaveth_open(76, s, SESSION);
        check("hungry, less room", feed("hungry, less room", s, text, length, 1, smaller[i]).code == 8);
    }
    free(text);
}

/* ---- recorded traces and sessions ---- */

static void cut_recorded(const recorded_trace *t)
{
    static whole w;

    whole_of(&w, t->address, t->bytes, t->len);
    by_bytes(t->address, t->bytes, t->len, &w);
    by_twos(t->address, t->bytes, t->len, &w);
}

static void run_recorded(const recorded_session *r)
{
    uint8_t s[SESSION];
    size_t joined = 0;

    check("a recorded session opens", dlaveth_open(r->trace.address, s, SESSION) == 0);
    for (size_t i = 0; i < r->calls; i++) {
        const recorded_call *c = &r->call[i];
        told t = feed(r->name, s, r->trace.bytes + c->at, c->len, c->end, c->room);

        check(r->name, t.code == c->code && t.refused == c->refused);
        if (!c->refused) {
            check(r->name, t.taken == c->taken && t.written == c->written && session_word(t.report + 4) == c->records
                  && session_word(t.report + 8) == c->used && session_word(t.report + 12) == c->total);
            check(r->name, joined + t.written <= r->answers_len && memcmp(r->answers + joined, t.output, t.written) == 0);
            joined += t.written;
        }
    }
}

int main(int argc, char **argv)
{
    unsigned long traces = argc > 2 ? strtoul(argv[2], NULL, 10) : 6000;
    size_t sessions, whole_traces;

    if (argc < 2) {
        fprintf(stderr, "usage: session TESTS [TRACES [SEED]]\n");
        return 2;
    }
    chance.state = argc > 3 ? strtoull(argv[3], NULL, 10) : 1;
    make_sorts();
    opens();
    lengths();
    all_cuts();
    rooms();
    rooms_by_hand();
    rooms_beyond();
    afterwards();
    total();
    damaged(traces);
    partials();
    at_random(traces);
    large();
    rooms_alike();
    hungry();
    whole_traces = recorded_traces(argv[1], cut_recorded);
    sessions = recorded_sessions(argv[1], run_recorded);
    check("there are recorded sessions", sessions > 0 && whole_traces > 0);
    printf("%lu no session, %lu still one; %lu random traces ended with 0, %lu with 7, %lu too early; %zu recorded traces, %zu recorded sessions\n",
           strange, fine, by_code[0], by_code[1], cut_short, whole_traces, sessions);
    printf("%lu passed, %lu failed\n", passed, failed);
    return failed > 0;
}
