/*
 * dlaveth.h - a model of the ADT7461 temperature sensor, for C.
 *
 * A chip is 128 bytes of the caller's own memory: dlaveth_power_on makes one, dlaveth_event hands it one event and gives its answer.
 * dlaveth_driver.h has the calls of a driver over these two. replay takes a whole text of events at once; dlaveth_open and dlaveth_feed
 * take it in portions, as it arrives. Link with libdlaveth.a (x86-64 Linux); it needs no other library, and nothing is to be set up or
 * torn down.
 */
#ifndef DLAVETH_H
#define DLAVETH_H

#include <stddef.h>
#include <stdint.h>

#ifdef __cplusplus
extern "C" {
#endif

/* What every call returns, and what an answer says. */
enum {
    DLAVETH_DONE = 0,       /* answer: done. replay: the whole trace was answered. feed: all of the portion was taken */
    DLAVETH_BAD_KIND = 1,   /* answer: kind outside 0..7 */
    DLAVETH_BAD_FIELD = 2,  /* answer: a field out of its range, or an unused field not 0.
                               any call: bad address or length. feed: end neither 0 nor 1, or more than 16 MiB of trace in all */
    DLAVETH_NO_ACK = 3,     /* answer: not the chip's address; alert response while ALERT is high, so always while pin 6 is THERM2 */
    DLAVETH_NO_START = 4,   /* answer: conversion start in standby, or while one runs */
    DLAVETH_NO_END = 5,     /* answer: conversion end while none runs */
    DLAVETH_BAD_STATE = 6,  /* answer: these bytes are no chip, or one whose state is not well formed. Never given in a replay, nor
                               on a chip that was powered on and went through events alone. feed: these bytes are no session */
    DLAVETH_MALFORMED = 7,  /* replay: stopped at a record that is malformed or cut short. feed: at one that is malformed, or that the end
                               cuts short; then again with every further portion, but for 9 */
    DLAVETH_NO_ROOM = 8,    /* replay: stopped at a record whose answer does not fit in what is left of the output. feed: such a record
                               waits for room */
    DLAVETH_ENDED = 9       /* feed: bytes after the end was declared */
};

/*
 * The events, by kind, and the fields that each uses; the others must be 0:
 *   0 power-on reset
 *   1 send byte            a bus address 0..127, b command 0..255
 *   2 write byte           a bus address, b command, c data 0..255
 *   3 read byte            a bus address, b command
 *   4 receive byte         a bus address
 *   5 alert response read
 *   6 conversion starts
 *   7 conversion ends      a local whole degrees -8192..8191, b remote quarters -32768..32767, c diode open 0..1: with 1 b is not stored
 */

enum {
    DLAVETH_CHIP_BYTES = 128,       /* a chip */
    DLAVETH_CHIP_LAYOUT = 2,        /* the number of its layout, which its first byte has; bytes of another are no chip */
    DLAVETH_EVENT_ANSWER_BYTES = 8  /* an event's answer: code, reply, alert (pin 6), therm, and four bytes that are 0 */
};

/*
 * Makes a chip that was just powered on.
 *
 * address     the chip's bus address, 76 or 77.
 * chip        chip_len bytes, which must be 128. What stood there before does not matter.
 *
 * Returns a code:
 *   0  chip holds a chip that was just powered on
 *   2  address not 76 or 77: chip holds 128 zero bytes, which are no chip; or chip_len not 128: nothing was written
 *
 * A chip is plain bytes: copy them to save it, copy them back to restore it. Their meaning is in docs/LAYOUT.md; the first byte is the
 * number of the layout.
 */
int32_t dlaveth_power_on(int32_t address, uint8_t *chip, size_t chip_len);

/*
 * Hands a chip one event.
 *
 * chip        chip_len bytes, which must be 128. An event that is done changes them; with a refusal they are the same afterwards. They may
 *             be written either way, so they must be writable, and not in use by another thread.
 * kind, a, b, c
 *             the event.
 * answer      answer_len bytes, which must be 8: code, reply byte, alert and therm (1 means that the line is high), and four bytes that
 *             are 0. alert is pin 6: ALERT, or THERM2 while configuration bit 5 is set. Written with a refusal too: the reply is then
 *             0, and the lines are those of the chip as it was.
 *
 * Returns the answer's code, 0 to 6; or 2, with nothing written, where a length is wrong.
 *
 * Any 128 bytes are taken. Those that are no chip (another layout, a flag that is neither 0 nor 1, a byte without a meaning that is
 * not 0) are code 6 with both lines 1. Those that are a chip whose state is not well formed (another address, a run count over 4, a
 * value or a bit that its register never holds) are code 6 with that state's lines.
 */
int32_t dlaveth_event(uint8_t *chip, size_t chip_len,
                      int32_t kind, int32_t a, int32_t b, int32_t c,
                      uint8_t *answer, size_t answer_len);

enum {
    DLAVETH_REPORT_BYTES = 16,      /* the report's length */
    DLAVETH_MOST_BYTES = 16777216,  /* the longest trace, and the longest output: 16 MiB */
    DLAVETH_RECORD_BYTES = 19,      /* the shortest record */
    DLAVETH_ANSWER_BYTES = 33       /* the longest answer */
};

/*
 * How large an output has to be: with DLAVETH_ROOM(n) bytes or more no trace of n bytes is stopped by code 8, whatever stands in it. It has
 * at most n / 19 records, each answered with at most 33 bytes; with fewer for each record, or for longer ones, some trace is stopped. With
 * a constant n it is a constant, but not one for #if. Under 19 bytes of trace it is 0: no record is so short, an array of that size is no
 * C, and malloc may give a null pointer, which replay takes where the length is 0.
 *
 * An output that replay takes has at most 16 MiB, so this serves it up to 9659618 bytes of trace. Where DLAVETH_ROOM(n) is more than
 * DLAVETH_MOST_BYTES, hand the whole trace to a session instead, in one call with end 1 and an output of that size: a session's output
 * has no limit (examples/room.c does so). Or feed it in portions, and use a small output again and again.
 */
#define DLAVETH_ROOM(n) ((size_t)(n) / DLAVETH_RECORD_BYTES * DLAVETH_ANSWER_BYTES + 0)    /* + 0: no warning where it is tested */

/*
 * Replays a trace on a chip that was just powered on.
 *
 * address     the chip's bus address, 76 or 77.
 * trace       trace_len bytes: records one behind the other. A record is four lines, kind=, a=, b= and c=, each with a decimal number of 1
 *             to 5 digits (a minus before it where negative; no plus, no leading zero, no -0, no space) and ended by byte 10.
 *             It is only read. kind, a, b and c are an event's, above; a number has 5 digits at most.
 * output      output_len bytes for the answers, one behind the other from the first byte; DLAVETH_ROOM(trace_len) bytes are enough for any
 *             trace. An answer is four lines, code=, reply=, alert= and therm=, each ended by byte 10; 1 means that the line is high, and
 *             alert is pin 6, as above. No byte behind the last answer is touched, and none after the text is written (no zero byte ends
 *             it): its length is in the report.
 * report      report_len bytes, which must be 16: code, records answered, trace bytes used, output bytes written, each a number of 4
 *             bytes, low byte first.
 *
 * Returns a code, which the report has too but for code 2:
 *   0  the whole trace was answered (an empty one has no answers)
 *   2  address not 76 or 77, trace_len or output_len over 16 MiB, or report_len not 16. Nothing was written, the report included
 *   7  the rest of the trace begins with no record: the answers before it stand, and nothing of it reached the chip
 *   8  the next answer does not fit: the answers before it stand, and its record was not applied
 * Where a record is both malformed and without room, the code is 7. With 7 and 8 the counts leave out the record that stopped the replay,
 * so the trace bytes used are the place where it begins. Codes 1 to 5 are answers to a record, and the replay goes on behind them.
 *
 * Whatever the bytes are, each call returns, and reads and writes only the buffers that it was given.
 *
 * Of each call: a pointer may be null where its length is 0, and must otherwise lead to that many bytes. The buffers of a call must not
 * overlap: the promise is made for separate ones. Nothing is kept between calls and there are no global variables, so several threads
 * may call at once, each on buffers of its own; they may share a trace.
 */
int32_t replay(int32_t address,
               const uint8_t *trace, size_t trace_len,
               uint8_t *output, size_t output_len,
               uint8_t *report, size_t report_len);

enum {
    DLAVETH_SESSION_BYTES = 256,    /* a session */
    DLAVETH_PROGRESS_BYTES = 8,     /* the progress of one portion */
    DLAVETH_CARRIED_BYTES = 38      /* the most that is carried over to the next portion */
};

/*
 * Opens a session: a replay that takes its trace in portions, on a chip that was just powered on.
 *
 * address     the chip's bus address, 76 or 77.
 * session     session_len bytes, which must be 256. What stood there before does not matter.
 *
 * Returns a code:
 *   0  session holds a session that has taken nothing yet
 *   2  address not 76 or 77: session holds 256 zero bytes, which are no session; or session_len not 256: nothing was written
 *
 * A session is plain bytes, as a chip is: copy them to save it, copy them back to go on from there. There is nothing to close. Their
 * meaning is in docs/LAYOUT.md; the first byte is the number of the layout.
 */
int32_t dlaveth_open(int32_t address, uint8_t *session, size_t session_len);

/*
 * Feeds a session the next portion of its trace. A portion may be cut anywhere, inside a number too, and may be empty.
 *
 * session     session_len bytes, which must be 256: the chip, the counts so far, and the bytes of a partial record, at most 38, which are
 *             carried over to the next portion.
 * portion     portion_len bytes: what comes in the trace behind the bytes that were taken. It is only read. A trace has at most 16 MiB.
 * end         1 where the trace ends with this portion, otherwise 0.
 * output      output_len bytes, as many as you like, for the answers to the records that this portion completes, from the first byte on
 *             and as replay writes them. No byte behind the last answer is touched.
 * report      report_len bytes, which must be 16: that of a replay. Its code is this call's, its counts are the session's so far.
 * progress    progress_len bytes, which must be 8: how many bytes of the portion this call has taken, and how many bytes of output it has
 *             written, each a number of 4 bytes, low byte first.
 *
 * Returns a code. First the refusals, in this order; they write nothing in any buffer, and an end that came with one was not declared:
 *   2  a length is wrong, or end is neither 0 nor 1
 *   6  the bytes of session are no session
 *   9  the portion is not empty, and the end was declared before
 *   7  the session has stopped with 7 before
 *   2  the bytes taken so far and this portion together are over 16 MiB; a shorter portion may still come
 * Otherwise session, report and progress are written, and of output as much as progress says:
 *   0  all of the portion was taken: what is whole is answered, a partial record at its end is carried over. With end 1 this was the end of
 *      the trace, and the report is the final one
 *   7  a record is malformed, which is told at once; or end is 1, and the trace stops inside a record. The answers before it stand, and
 *      nothing of it reached the chip
 *   8  the next answer does not fit in what is left of output: the answers before it stand, and its record was not applied
 * With 8, and with 7 for a malformed record, the bytes taken end where that record begins; where it began in what was carried, none of this
 * portion is taken, and the carried bytes stay. Such a call has not declared the end. With 7 for a record that the end cuts short all is
 * taken. Where a record is both malformed and without room, the code is 7.
 *
 * After 8 come back with room, the bytes not taken and, behind them, more of the trace if you have it: no answer is lost, and none is given
 * twice. Any room of 33 bytes or more goes on. To have no 8 at all, lend DLAVETH_ROOM(DLAVETH_CARRIED_BYTES + portion_len) bytes in each
 * call; or one output of DLAVETH_ROOM(n) bytes for the whole session, each time from where the answers so far end, n being the bytes of all
 * portions, this one too; a byte that was not taken and comes again counts once. At the end of the trace declare it, with the last portion
 * or with an empty one: only then is a partial record refused. An end that came with 8 is declared again with the bytes that are left.
 * Behind an end that gave 0 an empty portion is code 0 and changes nothing; behind one that gave 7 it is 7.
 *
 * After 8 an empty portion does not fetch the answer that waits: it is code 0, or with end 1 the end of the trace where the bytes taken end.
 * The first 7 writes report and progress, a repeated one does not: have progress 0 before a call, as below, and both read alike.
 *
 * However a trace is cut, the answers joined, the chip and the final report are those of one replay of the whole with room enough; that
 * replay's limit of 16 MiB for the output is not one here. What the comment on replay says of each call holds here too; a session is for
 * one call at a time.
 *
 * A loop over a pipe or a file, its answers written as they come (number puts 4 bytes together; output has 33 bytes or more). The end is
 * declared where read gives nothing: the writer has closed the pipe. A file that still grows gives nothing too, at its end so far: there
 * declare the end only once its writer is done.
 *
 *     int32_t code = dlaveth_open(76, session, sizeof session), end = 0;
 *     while (code == DLAVETH_DONE && !end) {
 *         ssize_t length = read(from, portion, sizeof portion), at = 0;
 *         if (length < 0)
 *             return -1;
 *         end = length == 0;
 *         do {
 *             uint8_t progress[DLAVETH_PROGRESS_BYTES] = {0};
 *             code = dlaveth_feed(session, sizeof session, portion + at, (size_t)(length - at), end,
 *                                 output, sizeof output, report, sizeof report, progress, sizeof progress);
 *             fwrite(output, 1, number(progress + 4), stdout);
 *             at += number(progress);
 *         } while (code == DLAVETH_NO_ROOM);
 *     }
 */
int32_t dlaveth_feed(uint8_t *session, size_t session_len,
                     const uint8_t *portion, size_t portion_len, int32_t end,
                     uint8_t *output, size_t output_len,
                     uint8_t *report, size_t report_len,
                     uint8_t *progress, size_t progress_len);

#ifdef __cplusplus
}
#endif

#endif
