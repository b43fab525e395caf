/*
 * second_session.h - replay of a trace that arrives in portions, written from document 02, Item 1,
 * with its Item 5 on how large one output for all of them has to be.
 *
 * A session is opened at an address and fed portion after portion, cut anywhere. It answers every
 * record that is whole, carries a partial one over to the next portion, and is done once the end
 * was declared and counted. A session may be copied with =.
 */
#ifndef SECOND_SESSION_H
#define SECOND_SESSION_H

#include "second.h"

/* The code that only a session gives. */
enum {
    SECOND_AFTER_END = 9               /* a non-empty portion after the end was declared */
};

enum {
    SECOND_MOST_CARRIED = 38,          /* longest partial record: the longest record less a byte */
    SECOND_PROGRESS_BYTES = 8          /* length of a call's progress */
};

/*
 * The session. `used` counts the bytes of answered records; the bytes taken are `used` and
 * `carried_len` together. Bytes of `carried` behind carried_len are 0, so two sessions that came
 * to the same place by different cuts hold the same.
 */
typedef struct {
    second_chip chip;
    uint32_t records, used, written;        /* the counts so far, as a report gives them */
    int ended;                              /* 1: the end was declared and counted */
    int stopped;                            /* 1: it stopped with 7 */
    uint8_t carried[SECOND_MOST_CARRIED];   /* the bytes of a partial record */
    uint32_t carried_len;
} second_session;

/*
 * Makes *session one that has taken nothing, its chip just powered on, and returns 0; for a bad
 * address makes it all zero bytes, which second_feed refuses with 6, and returns 2.
 */
int32_t second_open(second_session *session, int32_t address);

/*
 * Takes one portion, and the end if `end` is 1. Returns the code. The refusals, in this order:
 *   2  report_len or progress_len is wrong, or `end` neither 0 nor 1
 *   6  *session is no session: a part of it is outside what the struct says of it
 *   9  the portion is not empty and the end has counted
 *   7  the session has stopped
 *   2  the bytes taken and those of this portion together pass SECOND_MOST_BYTES
 * They change nothing of the session and write nothing in any buffer. Otherwise:
 *   0  all is taken; a partial record is carried
 *   7  the rest can't become a record, or is a partial one and the end is declared
 *   8  the answer of the record at which `taken` ends does not fit in what is left of the output
 * The answers of this call stand from output[0] and the rest of the output is untouched. The report
 * is that of a replay: this call's code, then the session's counts. The progress is the bytes taken
 * and the bytes written by this call, each 4 bytes, low byte first. Taken ends where a record that
 * waits (8) or is bad at once (7) begins; if it begins in what was carried, none of the portion is
 * taken and the carried bytes stay. After 8 the caller brings the bytes not taken again. An end
 * counts only if all is taken, so not with 8, nor with a rest that is bad at once.
 * portion and output may be null where their length is 0; output_len has no limit.
 * Where all answers since second_open go into one output, each call being lent what the answers so
 * far have left of it, 8 is never given if that output is at least second_room of the bytes taken
 * and those of this portion together. Whatever is lent, the records answered are never more than
 * those bytes divided by SECOND_SHORTEST_RECORD.
 */
int32_t second_feed(second_session *session, const uint8_t *portion, size_t portion_len,
                    int32_t end, uint8_t *output, size_t output_len,
                    uint8_t *report, size_t report_len, uint8_t *progress, size_t progress_len);

#endif
