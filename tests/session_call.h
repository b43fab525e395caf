/* session_call.h - one call of a session, of either model, with guard bytes round all that it is lent. */
#ifndef SESSION_CALL_H
#define SESSION_CALL_H

#include <stddef.h>
#include <stdint.h>

typedef int32_t feed_function(uint8_t *session, size_t session_len, const uint8_t *portion, size_t portion_len, int32_t end,
                              uint8_t *output, size_t output_len, uint8_t *report, size_t report_len, uint8_t *progress, size_t progress_len);

enum { FEED_SESSION = 256, FEED_REPORT = 16, FEED_PROGRESS = 8 };

/*
 * Session, report and progress are lent with their right lengths, whatever lengths are said, and portion with `portion_lent` bytes: a call
 * that is told something else must refuse before it looks. Where a length of 0 is said, the pointer is null or not, by `fill`.
 */
typedef struct {
    const uint8_t *session, *portion;
    size_t portion_lent, room;
    int32_t end;
    size_t session_len, portion_len, report_len, progress_len;      /* as said */
    uint64_t fill;      /* decides what output, report and progress hold before the call, and how all are aligned */
} feed_input;

/* What a call did that it must not do: bits of feed_result.spoilt. */
enum { SPOILT_SESSION = 1, SPOILT_PORTION = 2, SPOILT_OUTPUT = 4, SPOILT_REPORT = 8, SPOILT_PROGRESS = 16 };

typedef struct {
    int32_t code;
    uint32_t spoilt;
    uint8_t session[FEED_SESSION], report[FEED_REPORT], progress[FEED_PROGRESS];
    uint8_t *output;    /* `room` bytes; until the next call with the same buffers */
} feed_result;

/* What calls are lent, made as it is needed; begins as zeros. */
typedef struct {
    struct {
        uint8_t *block;
        size_t room;
    } of[5];
} feed_buffers;

feed_result feed_call(feed_function *feed, feed_buffers *buffers, const feed_input *in);

#endif
