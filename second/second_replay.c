/* second_replay.c - traces and their replay. See second.h. */
#include "second.h"
#include "second_inside.h"

#include <stdbool.h>
#include <string.h>

enum { MOST_DIGITS = 5 };

/* ---- reading ---- */

/* Reads one line, `name` (with its equals sign), a number and byte 10, from the
   start of `rest`. Gives the line's length, or 0 if there is no such line. */
static inline size_t read_line(const uint8_t *rest, size_t len, const char *name, int32_t *number)
{
    size_t at = strlen(name);
    if (len < at || memcmp(rest, name, at) != 0)
        return 0;

    bool minus = at < len && rest[at] == '-';
    if (minus)
        at++;

    size_t first = at;
    int32_t value = 0;
    while (at < len && at - first < MOST_DIGITS && rest[at] >= '0' && rest[at] <= '9') {
        value = value * 10 + (rest[at] - '0');
        at++;
    }
    if (at == first)
        return 0;                                           /* no digit */
    if (rest[first] == '0' && (at - first > 1 || minus))
        return 0;                                           /* leading zero, or -0 */
    if (at == len || rest[at] != '\n')
        return 0;                                           /* cut off, a sixth digit, anything else */

    *number = minus ? -value : value;
    return at + 1;
}

/* Reads one record from the start of `rest`. Gives its length, or 0 if there is none. */
static size_t read_record(const uint8_t *rest, size_t len, second_record *event)
{
    size_t at = 0, line;

    if ((line = read_line(rest + at, len - at, "kind=", &event->kind)) == 0)
        return 0;
    at += line;
    if ((line = read_line(rest + at, len - at, "a=", &event->a)) == 0)
        return 0;
    at += line;
    if ((line = read_line(rest + at, len - at, "b=", &event->b)) == 0)
        return 0;
    at += line;
    if ((line = read_line(rest + at, len - at, "c=", &event->c)) == 0)
        return 0;
    return at + line;
}

/* ---- writing ---- */

/* Codes other than 0 reply 0, so the longest answer is that of a read, and its length is what lets
   second_answer_fits pass an answer unseen. */
_Static_assert(SECOND_LONGEST_ANSWER == sizeof "code=0\nreply=255\nalert=1\ntherm=1\n" - 1,
               "the longest answer");
_Static_assert(SECOND_SHORTEST_RECORD == sizeof "kind=0\na=0\nb=0\nc=0\n" - 1,
               "the shortest record");

/* How many digits a number 0..999 takes. */
static size_t digits(int number)
{
    return number < 10 ? 1 : number < 100 ? 2 : 3;
}

static inline size_t line_length(const char *name, int number)
{
    return strlen(name) + digits(number) + 1;
}

static size_t answer_length(second_answer answer)
{
    return line_length("code=", answer.code) + line_length("reply=", answer.reply)
         + line_length("alert=", answer.alert) + line_length("therm=", answer.therm);
}

/* Writes one line and gives the place behind it. */
static inline uint8_t *write_line(uint8_t *to, const char *name, int number)
{
    size_t length = strlen(name);
    memcpy(to, name, length);
    to += length;
    if (number >= 100)
        *to++ = (uint8_t)('0' + number / 100);
    if (number >= 10)
        *to++ = (uint8_t)('0' + number / 10 % 10);
    *to++ = (uint8_t)('0' + number % 10);
    *to++ = '\n';
    return to;
}

size_t second_write_answer(uint8_t *output, second_answer answer)
{
    uint8_t *to = output;
    to = write_line(to, "code=", answer.code);
    to = write_line(to, "reply=", answer.reply);
    to = write_line(to, "alert=", answer.alert);
    to = write_line(to, "therm=", answer.therm);
    return (size_t)(to - output);
}

void second_write_word(uint8_t *to, size_t number)
{
    for (int i = 0; i < 4; i++)
        to[i] = (uint8_t)(number >> (8 * i) & 0xFF);
}

/* ---- the replay ---- */

size_t second_room(size_t trace_len)
{
    size_t most_records = trace_len / SECOND_SHORTEST_RECORD;
    if (most_records > SIZE_MAX / SECOND_LONGEST_ANSWER)
        return SIZE_MAX;
    return most_records * SECOND_LONGEST_ANSWER;
}

/* Where it is not plain that the answer fits, the event is tried on a copy. */
bool second_answer_fits(const second_chip *chip, const second_record *event, size_t room)
{
    if (room >= SECOND_LONGEST_ANSWER)
        return true;
    second_seen counts = second_seen_counts;
    second_chip trial = *chip;
    second_answer answer = second_step(&trial, event->kind, event->a, event->b, event->c);
    second_seen_counts = counts;
    return answer_length(answer) <= room;
}

int32_t second_replay(int32_t address,
                      const uint8_t *trace, size_t trace_len,
                      uint8_t *output, size_t output_len,
                      uint8_t *report, size_t report_len)
{
    second_chip chip;
    size_t records = 0, used = 0, written = 0;
    int32_t code = SECOND_DONE;

    if (second_fresh(&chip, address) != SECOND_DONE || trace_len > SECOND_MOST_BYTES
        || output_len > SECOND_MOST_BYTES || report_len != SECOND_REPORT_BYTES)
        return SECOND_BAD_FIELD;

    while (used < trace_len) {
        second_record event;
        size_t length = read_record(trace + used, trace_len - used, &event);
        if (length == 0) {
            code = SECOND_MALFORMED;
            SECOND_SEEN(code[SECOND_MALFORMED]);
            break;
        }
        if (!second_answer_fits(&chip, &event, output_len - written)) {
            code = SECOND_NO_ROOM;
            SECOND_SEEN(code[SECOND_NO_ROOM]);
            break;
        }
        second_answer answer = second_step(&chip, event.kind, event.a, event.b, event.c);
        written += second_write_answer(output + written, answer);
        used += length;
        records++;
    }

    second_write_word(report, (size_t)code);
    second_write_word(report + 4, records);
    second_write_word(report + 8, used);
    second_write_word(report + 12, written);
    return code;
}
