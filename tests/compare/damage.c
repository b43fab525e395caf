/* damage.c - see damage.h. */
#include "damage.h"

#include <string.h>

const char *const damage_names[DAMAGES] = {
    "no damage", "byte changed", "byte removed", "byte inserted", "cut", "leading zero", "minus zero", "plus",
    "sixth digit", "carriage return", "byte 0", "lines swapped", "final newline missing", "line lost", "line twice",
};

static size_t any_place(const trace *t, randoms *random)
{
    return random_below(random, (uint32_t)t->len);
}

/* Between two bytes, or before or behind all. */
static size_t any_gap(const trace *t, randoms *random)
{
    return random_below(random, (uint32_t)t->len + 1);
}

/* Half of the time a byte that traces are made of, which reaches further into a reader. */
static uint8_t any_byte(randoms *random)
{
    static const char usual[] = "0123456789-=\nkindabc";
    if (random_chance(random, 50))
        return (uint8_t)random_below(random, 256);
    return (uint8_t)usual[random_below(random, sizeof usual - 1)];
}

/* The newline at or behind a place; every line of a whole trace has one. */
static size_t line_end(const trace *t, size_t at)
{
    const uint8_t *newline = memchr(t->bytes + at, '\n', t->len - at);
    return (size_t)(newline - t->bytes);
}

static size_t line_start(const trace *t, size_t at)
{
    while (at > 0 && t->bytes[at - 1] != '\n')
        at--;
    return at;
}

/* A number of the trace: from its minus or first digit to its newline. */
typedef struct {
    size_t from, to;
} span;

static span any_number(const trace *t, randoms *random)
{
    size_t at = line_start(t, any_place(t, random));
    const uint8_t *equals = memchr(t->bytes + at, '=', t->len - at);
    return (span){(size_t)(equals - t->bytes) + 1, line_end(t, at)};
}

static size_t first_digit(const trace *t, span number)
{
    return t->bytes[number.from] == '-' ? number.from + 1 : number.from;
}

static void minus_zero(trace *t, randoms *random)
{
    span number = any_number(t, random);
    trace_remove(t, number.from, number.to - number.from);
    trace_insert(t, number.from, "-0", 2);
}

/* Digits behind those there, none of them a leading zero, until there are six. */
static void sixth_digit(trace *t, randoms *random)
{
    span number = any_number(t, random);
    size_t first = first_digit(t, number), digits = number.to - first;
    if (t->bytes[first] == '0')
        t->bytes[first] = '1';
    trace_insert(t, number.to, "000000", 6 - digits);
}

static void carriage_return(trace *t, randoms *random)
{
    if (random_chance(random, 70)) {
        trace_insert(t, line_end(t, any_place(t, random)), "\r", 1);
        return;
    }
    for (size_t at = line_end(t, 0); at < t->len; at++) {
        if (t->bytes[at] == '\n')
            trace_insert(t, at++, "\r", 1);
    }
}

static void zero_byte(trace *t, randoms *random)
{
    if (random_chance(random, 50))
        t->bytes[any_place(t, random)] = 0;
    else
        trace_insert(t, any_gap(t, random), "", 1);
}

/* A line goes behind the next one. The last line has no next: the first one goes there. */
static void swap_lines(trace *t, randoms *random)
{
    size_t from = line_start(t, any_place(t, random));
    if (line_end(t, from) + 1 == t->len)
        from = 0;
    size_t middle = line_end(t, from) + 1, to = line_end(t, middle) + 1;
    uint8_t line[16];
    size_t len = middle - from;
    memcpy(line, t->bytes + from, len);
    trace_remove(t, from, len);
    trace_insert(t, to - len, line, len);
}

/* Without one line, or with it once more behind itself. */
static void lose_or_double_line(trace *t, randoms *random, int twice)
{
    size_t from = line_start(t, any_place(t, random)), len = line_end(t, from) + 1 - from;
    uint8_t line[16];
    memcpy(line, t->bytes + from, len);
    if (twice)
        trace_insert(t, from + len, line, len);
    else
        trace_remove(t, from, len);
}

void damage_do(damage kind, trace *t, randoms *random)
{
    uint8_t byte = any_byte(random);
    switch (kind) {
    case DAMAGE_CHANGED:
        t->bytes[any_place(t, random)] = byte;
        break;
    case DAMAGE_REMOVED:
        trace_remove(t, any_place(t, random), 1);
        break;
    case DAMAGE_INSERTED:
        trace_insert(t, any_gap(t, random), &byte, 1);
        break;
    case DAMAGE_CUT:
        t->len = any_place(t, random);
        break;
    case DAMAGE_LEADING_ZERO:
        trace_insert(t, first_digit(t, any_number(t, random)), "0", 1);
        break;
    case DAMAGE_MINUS_ZERO:
        minus_zero(t, random);
        break;
    case DAMAGE_PLUS:
        trace_insert(t, any_number(t, random).from, "+", 1);
        break;
    case DAMAGE_SIXTH_DIGIT:
        sixth_digit(t, random);
        break;
    case DAMAGE_RETURN:
        carriage_return(t, random);
        break;
    case DAMAGE_ZERO_BYTE:
        zero_byte(t, random);
        break;
    case DAMAGE_SWAPPED:
        swap_lines(t, random);
        break;
    case DAMAGE_NO_NEWLINE:
        t->len--;
        break;
    case DAMAGE_LINE_LOST:
        lose_or_double_line(t, random, 0);
        break;
    case DAMAGE_LINE_TWICE:
        lose_or_double_line(t, random, 1);
        break;
    default:
        break;
    }
}
