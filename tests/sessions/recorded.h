/*
 * recorded.h - the recorded traces of tests/traces and the recorded sessions of tests/sessions, read from files. A session's file:
 *   trace NAME ADDRESS                   the trace of tests/traces whose bytes it offers
 *   feed AT LENGTH END ROOM -> CODE TAKEN WRITTEN RECORDS USED TOTAL
 * A call offers LENGTH bytes of the trace from AT on. Behind the arrow is what it gives: its code, the bytes taken and written by it, and the
 * session's counts in the report; only the code where it is refused, so that nothing is written. Its answers are those of the trace's own file.
 */
#ifndef RECORDED_H
#define RECORDED_H

#include <stdbool.h>
#include <stddef.h>
#include <stdint.h>

enum { RECORDED_MOST = 65536, RECORDED_CALLS = 64 };    /* longest file, most calls of a session */

typedef struct {
    char name[64];
    int32_t address;
    uint8_t bytes[RECORDED_MOST];
    size_t len;
} recorded_trace;

typedef struct {
    size_t at, len, room;
    int32_t end, code;
    bool refused;
    uint32_t taken, written, records, used, total;
} recorded_call;

typedef struct {
    char name[64];
    recorded_trace trace;
    uint8_t answers[RECORDED_MOST];
    size_t answers_len, calls;
    recorded_call call[RECORDED_CALLS];
} recorded_session;

/* Each reads what INDEX.txt of its folder in `tests` names, one by one, and gives how many there were; what can't be read ends the program. */
size_t recorded_traces(const char *tests, void run(const recorded_trace *));
size_t recorded_sessions(const char *tests, void run(const recorded_session *));

#endif
