/* compare.c - see compare.h. */
#include "compare.h"
#include "alarms.h"
#include "second.h"

#include <sanitizer/common_interface_defs.h>
#include <stdarg.h>
#include <stdbool.h>
#include <stdio.h>
#include <stdlib.h>
#include <string.h>

enum { LINES = 4, AROUND = 3, SHOWN = 80 };     /* lines of a record; records and bytes shown on each side */

static char name[100];

/* A sanitizer ends the driver on the spot, and what stdout holds back would be lost. */
static void show_name(void)
{
    printf("FAILED: ended by a sanitizer: %s\n", name);
    fflush(stdout);
}

/* The undefined behaviour sanitizer has no callback to set; it calls this by its name. */
void __ubsan_on_report(void);
void __ubsan_on_report(void)
{
    show_name();
}

void compare_name(const char *format, ...)
{
    va_list values;
    va_start(values, format);
    vsnprintf(name, sizeof name, format, values);
    va_end(values);
    __sanitizer_set_death_callback(show_name);
}

const char *compare_case(void)
{
    return name;
}

size_t compare_first(const uint8_t *x, const uint8_t *y, size_t len)
{
    size_t at = 0;
    while (at < len && x[at] == y[at])
        at++;
    return at;
}

size_t compare_lines(const uint8_t *bytes, size_t len)
{
    size_t lines = 0;
    for (size_t i = 0; i < len; i++)
        lines += bytes[i] == '\n';
    return lines;
}

static void show_bytes(const uint8_t *bytes, size_t len)
{
    for (size_t i = 0; i < len; i++) {
        if (bytes[i] == '\n')
            printf("\\n");
        else if (bytes[i] >= ' ' && bytes[i] <= '~' && bytes[i] != '\\')
            putchar(bytes[i]);
        else
            printf("\\x%02x", bytes[i]);
    }
}

/* Where line `number` begins; the end if there are fewer. */
static size_t line_at(const uint8_t *bytes, size_t len, size_t number)
{
    size_t at = 0;
    while (number > 0 && at < len)
        number -= bytes[at++] == '\n';
    return at;
}

void compare_show_trace(const uint8_t *trace, size_t len, size_t number)
{
    for (size_t i = number < AROUND ? 0 : number - AROUND; i <= number + AROUND; i++) {
        size_t from = line_at(trace, len, LINES * i), to = line_at(trace, len, LINES * (i + 1));
        if (from == to)
            break;
        printf("%s record %zu, byte %zu: ", i == number ? ">" : " ", i, from);
        show_bytes(trace + from, to - from);
        putchar('\n');
    }
}

void compare_show_output(const char *whose, const uint8_t *output, size_t len, size_t at)
{
    size_t from = at < SHOWN ? 0 : at - SHOWN, to = len - at < SHOWN ? len : at + SHOWN;
    printf("%-7s output[%zu..%zu): ", whose, from, to);
    show_bytes(output + from, at - from);
    printf(" >> ");
    show_bytes(output + at, to - at);
    putchar('\n');
}

static void show_result(const char *whose, const call_result *result, size_t report_len)
{
    printf("%-7s returns %d, spoilt %u, report", whose, result->code, result->spoilt);
    for (size_t i = 0; i < report_len; i++)
        printf(" %02x", result->report[i]);
    putchar('\n');
}

static size_t records_told(const call_result *result)
{
    return result->report[4] + 256U * result->report[5] + 65536U * result->report[6] + 16777216U * result->report[7];
}

/* The record whose answer differs or, where no answer does, the one that the second model stopped at. */
static size_t record_of(const call_input *in, const call_result *second, size_t at)
{
    if (at < in->output_len)
        return compare_lines(second->output, at) / LINES;
    if (second->code == SECOND_BAD_FIELD)
        return 0;
    return records_told(second);
}

static void show_difference(const call_input *in, const call_result *model, const call_result *second)
{
    size_t at = compare_first(model->output, second->output, in->output_len);
    printf("DIFFERENT: %s\n", name);
    printf("address %d, trace %zu bytes, output %zu bytes, report %zu bytes, fill %llu\n", in->address,
           in->trace_len, in->output_len, in->report_len, (unsigned long long)in->fill);
    show_result("model", model, in->report_len);
    show_result("second", second, in->report_len);
    if (at < in->output_len) {
        compare_show_output("model", model->output, in->output_len, at);
        compare_show_output("second", second->output, in->output_len, at);
    }
    compare_show_trace(in->trace, in->trace_len, record_of(in, second, at));
}

static bool is_same(const call_input *in, const call_result *model, const call_result *second)
{
    return model->code == second->code && model->spoilt == 0 && second->spoilt == 0
        && memcmp(model->output, second->output, in->output_len) == 0
        && memcmp(model->report, second->report, in->report_len) == 0;
}

/* Document 02, item 5, of whatever is compared. */
static bool is_within_bound(const call_input *in, const call_result *both)
{
    if (both->code == SECOND_BAD_FIELD)
        return true;
    if (both->code == SECOND_NO_ROOM && in->output_len >= second_room(in->trace_len))
        return false;
    return records_told(both) <= in->trace_len / SECOND_SHORTEST_RECORD;
}

static call_result compare(pipes *model, const call_input *in, bool alarms)
{
    call_result of_model = pipes_call(model, in);
    call_result of_second = call_replay(second_replay, in);
    /* Each model is held to the alarms first, so that what breaks them says so and not only that the models differ. */
    if (alarms && (!alarms_hold(ALARMS_MODEL, name, in, &of_model) || !alarms_hold(ALARMS_SECOND, name, in, &of_second)))
        exit(1);
    if (!is_same(in, &of_model, &of_second)) {
        show_difference(in, &of_model, &of_second);
        exit(1);
    }
    if (!is_within_bound(in, &of_second)) {
        printf("NOT WITHIN THE BOUND: %s\ntrace %zu bytes, output %zu bytes, code %d, %zu records\n", name, in->trace_len, in->output_len,
               of_second.code, records_told(&of_second));
        exit(1);
    }
    call_result_free(&of_model);
    return of_second;
}

call_result compare_both(pipes *model, const call_input *in)
{
    return compare(model, in, true);
}

call_result compare_bytes(pipes *model, const call_input *in)
{
    return compare(model, in, false);
}
