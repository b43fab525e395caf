/* alarms.c - see alarms.h. */
#include "alarms.h"
#include "compare.h"

#include <stdio.h>
#include <string.h>

history_counts alarms_counts[ALARMS_MODELS];

/* No replay answers more records than 16 MiB hold, at 19 bytes each; so every event since power-on is kept. */
static history_moment list[SECOND_MOST_BYTES / 19 + 1];

/* Bytes still to be read. */
typedef struct {
    const uint8_t *at, *end;
} rest;

/* Reads a line: `name`, with its equals sign, and a number. What else a record may not be is not looked at here. */
static bool read_line(rest *r, const char *name, int32_t *number)
{
    size_t len = strlen(name);
    if ((size_t)(r->end - r->at) < len || memcmp(r->at, name, len) != 0)
        return false;
    const uint8_t *at = r->at + len;
    bool minus = at < r->end && *at == '-';
    at += minus;
    int32_t value = 0;
    for (int digits = 0; digits < 5 && at < r->end && *at >= '0' && *at <= '9'; digits++)
        value = 10 * value + (*at++ - '0');
    if (at == r->end || *at != '\n')
        return false;
    r->at = at + 1;
    *number = minus ? -value : value;
    return true;
}

static bool read_event(rest *r, int32_t event[4])
{
    return read_line(r, "kind=", &event[0]) && read_line(r, "a=", &event[1]) && read_line(r, "b=", &event[2])
        && read_line(r, "c=", &event[3]);
}

static bool read_answer(rest *r, second_answer *answer)
{
    int32_t code, reply, alert, therm;
    bool read = read_line(r, "code=", &code) && read_line(r, "reply=", &reply) && read_line(r, "alert=", &alert)
        && read_line(r, "therm=", &therm);
    if (read)
        *answer = (second_answer){code, reply, alert, therm};
    return read;
}

static size_t report_word(const call_result *result, int number)
{
    const uint8_t *word = result->report + 4 * number;
    return word[0] + 256U * word[1] + 65536U * word[2] + 16777216U * word[3];
}

/* A case at hand. */
typedef struct {
    alarms_whose whose;
    const char *name;
    const call_input *in;
} subject;

static void say(const subject *s, size_t event, const char *what)
{
    static const char *const names[ALARMS_MODELS] = {"the model", "the second model"};
    printf("ALARMS: %s: in the answers of %s, at event %zu, this does not hold: %s\n", s->name, names[s->whose], event, what);
}

static bool fail(const subject *s, size_t event, const char *what)
{
    say(s, event, what);
    compare_show_trace(s->in->trace, s->in->trace_len, event);
    return false;
}

/* Whether all claims hold after an event; shows those that do not. */
static bool all_hold(const subject *s, size_t event, unsigned wrong)
{
    for (int claim = 0; claim < HISTORY_CLAIMS; claim++)
        if ((wrong >> claim & 1) != 0)
            say(s, event, history_claims[claim]);
    if (wrong != 0)
        compare_show_trace(s->in->trace, s->in->trace_len, event);
    return wrong == 0;
}

bool alarms_hold(alarms_whose whose, const char *name, const call_input *in, const call_result *result)
{
    const subject s = {whose, name, in};
    if (result->code == SECOND_BAD_FIELD)
        return true;    /* a refused replay answers nothing, and has no report to say so */
    if (in->report_len != SECOND_REPORT_BYTES || report_word(result, 3) > in->output_len)
        return fail(&s, 0, "the report says how much is answered");

    second_history history;
    history_begin(&history, in->address, list, sizeof list / sizeof *list, &alarms_counts[whose]);
    rest records = {in->trace, in->trace + in->trace_len};
    rest answers = {result->output, result->output + report_word(result, 3)};
    size_t event = 0;
    for (; answers.at < answers.end; event++) {
        int32_t e[4];
        second_answer answer;
        if (!read_event(&records, e) || !read_answer(&answers, &answer))
            return fail(&s, event, "an answer to a record");
        if (!all_hold(&s, event, history_take(&history, e[0], e[1], e[2], e[3], answer)))
            return false;
    }
    if (event != report_word(result, 1))
        return fail(&s, event, "as many answers as the report says");
    return all_hold(&s, event, history_end(&history));
}
