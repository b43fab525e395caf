/* session_play.h - the calls of tests/session.c: each on both models and compared, and what they come to held to the whole. */
#ifndef SESSION_PLAY_H
#define SESSION_PLAY_H

#include "compare/random.h"
#include "dlaveth.h"
#include "session_call.h"

#include <stdbool.h>

enum { SESSION = DLAVETH_SESSION_BYTES, AMPLE = 400, JOINED = 1 << 16 };    /* a session; room enough for a short trace; room for the answers joined */

extern unsigned long passed, failed;
void check(const char *what, bool good);

/* All that is left to chance, from one seed. */
extern randoms chance;
uint32_t any(uint32_t below);

/* ---- one call on both ---- */

typedef struct {
    int32_t code;
    bool refused;                       /* it wrote nothing */
    uint32_t taken, written;
    const uint8_t *output, *report;
} told;

/*
 * Makes the call on both and compares all that it left; now and then twice, since nothing is kept but in the session. What follows goes on from
 * the second model's answer, so that a wrong library can't lead the test astray.
 */
told call(const char *what, uint8_t *session, feed_input in);
told feed(const char *what, uint8_t *session, const void *portion, size_t len, int32_t end, size_t room);

/* With what the call must give by the documents, said by the caller and not by the second model. */
told gives(const char *what, uint8_t *session, const void *portion, size_t len, int32_t end, size_t room,
           int32_t code, uint32_t taken, uint32_t written);
void refuses(const char *what, uint8_t *session, const char *portion, int32_t end, int32_t code);

/* ---- the whole, by replay and dlaveth_event ---- */

typedef struct {
    int32_t code;
    size_t written, room;
    uint8_t *output, report[DLAVETH_REPORT_BYTES], chip[DLAVETH_CHIP_BYTES];
} whole;

void whole_of(whole *w, int32_t address, const uint8_t *trace, size_t len);

/* ---- a session with its answers joined ---- */

typedef struct {
    uint8_t bytes[SESSION], report[DLAVETH_REPORT_BYTES], joined[JOINED];
    size_t len;
} run;

void begin(run *r, int32_t address);
told go(const char *what, run *r, const uint8_t *portion, size_t len, int32_t end, size_t room);

/* Where the end was declared, or it stopped, the whole report is the replay's; before that, its counts. */
void is_whole(const char *what, const run *r, const whole *w);

#endif
