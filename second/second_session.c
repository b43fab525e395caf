/* second_session.c - replay of a trace in portions. See second_session.h. */
#include "second_session.h"
#include "second_inside.h"

#include <string.h>

enum { LINES = 4, MOST_DIGITS = 5 };

/* ---- the text: what was carried, and the portion behind it ---- */

typedef struct {
    const uint8_t *carried;
    size_t carried_len;
    const uint8_t *portion;
    size_t len;                 /* of both together */
} text;

static uint8_t byte_at(const text *all, size_t at)
{
    return at < all->carried_len ? all->carried[at] : all->portion[at - all->carried_len];
}

/* ---- the reader: the text of one record, byte by byte ---- */

/* What may come next. Each of these is a place in some record, so bytes that the reader has taken
   can always be completed; bytes that it has not, never. */
enum {
    NAME,                       /* the next byte of the line's name, or its equals sign */
    NUMBER,                     /* minus, 0, or the first of several digits */
    NOT_ZERO,                   /* behind a minus: a digit but 0 */
    DIGIT_OR_END,               /* one more digit, or the line's end */
    LINE_END                    /* behind a lone 0 or the last digit there may be: the line's end */
};

typedef struct {
    int32_t number[LINES];      /* the numbers, as far as they are read */
    int line;                   /* the line being read; LINES behind the last */
    int next;
    int named, digits;          /* bytes of this line's name, and digits of its number */
    bool minus;
} reader;

static bool take_digit(reader *r, uint8_t byte)
{
    if (byte < '0' || byte > '9')
        return false;
    r->number[r->line] = r->number[r->line] * 10 + (byte - '0');
    r->digits++;
    r->next = r->digits < MOST_DIGITS ? DIGIT_OR_END : LINE_END;
    return true;
}

static bool take_end(reader *r, uint8_t byte)
{
    if (byte != '\n')
        return false;
    if (r->minus)
        r->number[r->line] = -r->number[r->line];
    r->line++;
    r->next = NAME;
    r->named = 0;
    r->digits = 0;
    r->minus = false;
    return true;
}

/* Takes the next byte; false if no record has it here. */
static bool take_byte(reader *r, uint8_t byte)
{
    static const char *const names[LINES] = { "kind=", "a=", "b=", "c=" };

    switch (r->next) {
    case NAME:
        if (byte != (uint8_t)names[r->line][r->named])
            return false;
        r->named++;
        if (names[r->line][r->named] == '\0')
            r->next = NUMBER;
        return true;
    case NUMBER:
        if (byte == '-') {
            r->minus = true;
            r->next = NOT_ZERO;
            return true;
        }
        if (byte == '0') {
            r->next = LINE_END;
            return true;
        }
        return take_digit(r, byte);
    case NOT_ZERO:
        return byte != '0' && take_digit(r, byte);
    case DIGIT_OR_END:
        return byte == '\n' ? take_end(r, byte) : take_digit(r, byte);
    default:
        return take_end(r, byte);
    }
}

/* What the text is from some place on. */
typedef enum {
    EMPTY,
    PARTIAL,                    /* more bytes could complete it */
    WHOLE,                      /* it begins with a record */
    BAD                         /* it begins with no record, whatever comes behind */
} rest;

/* Reads the text from `from` on. For WHOLE gives the record and its length. */
static rest read_rest(const text *all, size_t from, second_record *event, size_t *length)
{
    reader r = { .next = NAME };
    size_t at = from;

    while (at < all->len && r.line < LINES) {
        if (!take_byte(&r, byte_at(all, at)))
            return BAD;
        at++;
    }
    if (r.line < LINES)
        return at == from ? EMPTY : PARTIAL;
    *event = (second_record){ r.number[0], r.number[1], r.number[2], r.number[3] };
    *length = at - from;
    return WHOLE;
}

/* ---- the session ---- */

/* Whether each part of the session is what the struct says of it. What second_feed needs of a
   session it needs from here: the total can't wrap, and a record can't lie within the carried. */
static bool is_session(const second_session *session)
{
    second_record event;
    size_t length;

    if (!second_well_formed(&session->chip) || session->carried_len > SECOND_MOST_CARRIED
        || session->used > SECOND_MOST_BYTES - session->carried_len
        || (session->ended != 0 && session->ended != 1)
        || (session->stopped != 0 && session->stopped != 1))
        return false;
    const text carried = { session->carried, session->carried_len, NULL, session->carried_len };
    rest found = read_rest(&carried, 0, &event, &length);
    return found == EMPTY || found == PARTIAL;
}

/* Makes the text from `from` up to `to` the carried bytes. It begins at 0, where the carried bytes
   stay in place, or behind them. */
static void carry(second_session *session, const text *all, size_t from, size_t to)
{
    for (size_t at = from; at < to; at++)
        session->carried[at - from] = byte_at(all, at);
    memset(session->carried + (to - from), 0, SECOND_MOST_CARRIED - (to - from));
    session->carried_len = (uint32_t)(to - from);
}

int32_t second_open(second_session *session, int32_t address)
{
    memset(session, 0, sizeof *session);
    return second_fresh(&session->chip, address);
}

int32_t second_feed(second_session *session, const uint8_t *portion, size_t portion_len,
                    int32_t end, uint8_t *output, size_t output_len,
                    uint8_t *report, size_t report_len, uint8_t *progress, size_t progress_len)
{
    if (report_len != SECOND_REPORT_BYTES || progress_len != SECOND_PROGRESS_BYTES
        || (end != 0 && end != 1))
        return SECOND_BAD_FIELD;
    if (!is_session(session))
        return SECOND_BAD_STATE;
    if (session->ended && portion_len > 0)
        return SECOND_AFTER_END;
    if (session->stopped)
        return SECOND_MALFORMED;
    if (portion_len > SECOND_MOST_BYTES - session->used - session->carried_len)
        return SECOND_BAD_FIELD;

    const size_t carried_len = session->carried_len;
    const text all = { session->carried, carried_len, portion, carried_len + portion_len };
    size_t at = 0, length, written = 0;     /* at: where the first record not answered begins */
    second_record event;
    rest found;

    while ((found = read_rest(&all, at, &event, &length)) == WHOLE
           && second_answer_fits(&session->chip, &event, output_len - written)) {
        second_answer answer = second_step(&session->chip, event.kind, event.a, event.b, event.c);
        written += second_write_answer(output + written, answer);
        at += length;
        session->records++;
    }

    /* What waits or is bad at once is not taken, but for those of its bytes taken before. */
    bool all_taken = found == EMPTY || found == PARTIAL;
    size_t stop = all_taken ? all.len : at > carried_len ? at : carried_len;
    carry(session, &all, at, stop);
    session->used += (uint32_t)at;
    session->written += (uint32_t)written;
    if (all_taken && end == 1)
        session->ended = 1;
    if (found == BAD || (found == PARTIAL && end == 1))
        session->stopped = 1;

    int32_t code = SECOND_DONE;
    if (found == WHOLE)
        code = SECOND_NO_ROOM;
    else if (session->stopped)
        code = SECOND_MALFORMED;
    second_write_word(report, (size_t)code);
    second_write_word(report + 4, session->records);
    second_write_word(report + 8, session->used);
    second_write_word(report + 12, session->written);
    second_write_word(progress, stop - carried_len);
    second_write_word(progress + 4, written);
    return code;
}
