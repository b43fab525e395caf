/*
 * generate.c - see generate.h.
 * A chip of the second model follows the trace and shows where the limits and values stand, so that the
 * next record can be aimed at them. It decides only what is asked, never what is right: a wrong chip here
 * would make poorer cases, and the counts would show it.
 */
#include "generate.h"

enum { RESET, SEND, WRITE, READ, RECEIVE, RESPOND, START, END };    /* the kinds of event */

#define PICK(g, list) ((list)[random_below((g)->random, sizeof(list) / sizeof *(list))])

static int32_t byte_of(generator *g)
{
    return random_between(g->random, 0, 255);
}

static int32_t within(int32_t value, int32_t least, int32_t most)
{
    return value < least ? least : value > most ? most : value;
}

/* One less, the same or one more: what a comparison turns on. */
static int32_t beside(generator *g, int32_t value)
{
    return value + random_between(g->random, -1, 1);
}

static void say(generator *g, int32_t kind, int32_t a, int32_t b, int32_t c)
{
    trace_record(g->to, kind, a, b, c);
    (void)second_step(&g->chip, kind, a, b, c);
}

static void say_write(generator *g, int32_t command, int32_t data)
{
    say(g, WRITE, g->chip.address, command, data);
}

/* ---- conversions ---- */

static bool is_extended(const generator *g)
{
    return (g->chip.reg[0x03] & 0x04) != 0;
}

static int32_t signed_byte(uint8_t byte)
{
    return byte < 128 ? byte : byte - 256;
}

/* What must be measured for the value `code` to be stored. */
static int32_t remote_measured(const generator *g, int32_t code)
{
    int32_t offset = signed_byte(g->chip.reg[0x11]) * 4 + g->chip.reg[0x12] / 64;
    return within(code - offset - (is_extended(g) ? 256 : 0), -32768, 32767);
}

static int32_t local_measured(const generator *g, int32_t value)
{
    return within(value - (is_extended(g) ? 64 : 0), -8192, 8191);
}

/* A value that no limit finds at fault, where there is one. */
static int32_t calm(generator *g, int32_t low, int32_t high)
{
    return low < high ? random_between(g->random, low + 1, high) : high;
}

/* A value at one of the places where a channel's comparisons turn. */
static int32_t turning(generator *g, int32_t low, int32_t high, int32_t cool, int32_t therm, int32_t release, int32_t most)
{
    const int32_t places[] = {low, high, low, high, cool, therm, release, 0, most};
    return beside(g, PICK(g, places));
}

/* A channel's value: mostly aimed, else anything that the range holds and some beyond. */
static int32_t aimed(generator *g, int32_t scale, int32_t low, int32_t high, int32_t therm)
{
    int32_t hysteresis = g->chip.reg[0x21], most = (is_extended(g) ? 256 : 128) * scale - 1;
    int32_t release = therm > hysteresis ? therm - hysteresis : 0, cool = high > hysteresis * scale ? high - hysteresis * scale : 0;
    uint32_t choice = random_below(g->random, 100);
    if (choice < 40)
        return calm(g, low, high);
    if (choice < 85)
        return turning(g, low, high, cool, therm * scale, release * scale, most);
    return random_between(g->random, -most / 4, most + most / 4);
}

/* Anything that may be measured, often the least or the most. */
static int32_t extreme(generator *g, int32_t least, int32_t most)
{
    const int32_t values[] = {least, most, random_between(g->random, least, most)};
    return PICK(g, values);
}

static int32_t local_sample(generator *g)
{
    const uint8_t *reg = g->chip.reg;
    if (random_chance(g->random, 4))
        return extreme(g, -8192, 8191);
    return local_measured(g, aimed(g, 1, reg[0x06], reg[0x05], reg[0x20]));
}

static int32_t remote_sample(generator *g)
{
    const uint8_t *reg = g->chip.reg;
    if (random_chance(g->random, 4))
        return extreme(g, -32768, 32767);
    return remote_measured(g, aimed(g, 4, 4 * reg[0x08] + reg[0x14] / 64, 4 * reg[0x07] + reg[0x13] / 64, reg[0x19]));
}

static void end(generator *g)
{
    say(g, END, local_sample(g), remote_sample(g), random_chance(g->random, 8));
}

static void start(generator *g)
{
    say(g, START, 0, 0, 0);
}

static void one_shot(generator *g)
{
    say_write(g, 0x0F, byte_of(g));
}

/* In the way that the mode allows. */
static void begin(generator *g)
{
    if ((g->chip.reg[0x03] & 0x40) != 0)
        one_shot(g);
    else
        start(g);
}

static void convert(generator *g)
{
    begin(g);
    end(g);
}

/* ---- writes ---- */

/* A limit beside the value that it is compared with; for a hysteresis, the distance to it. */
static void limit(generator *g)
{
    static const uint8_t commands[] = {0x0B, 0x0C, 0x0D, 0x0E, 0x0B, 0x0C, 0x0D, 0x0E, 0x13, 0x14, 0x19, 0x20, 0x21};
    const uint8_t *reg = g->chip.reg;
    int32_t command = PICK(g, commands), data;
    switch (command) {
    case 0x0B: case 0x0C: case 0x20:
        data = beside(g, reg[0x00]);
        break;
    case 0x13: case 0x14:
        data = reg[0x10] + 64 * random_between(g->random, -1, 1);
        break;
    case 0x21:
        data = beside(g, random_chance(g->random, 50) ? reg[0x19] - reg[0x01] : reg[0x20] - reg[0x00]);
        break;
    default:
        data = beside(g, reg[0x01]);
    }
    say_write(g, command, random_chance(g->random, 15) ? byte_of(g) : within(data, 0, 255));
}

/* Limits that most values keep. */
static void wide_limits(generator *g)
{
    say_write(g, 0x0B, 0xF0 + random_between(g->random, 0, 15));
    say_write(g, 0x0C, random_between(g->random, 0, 3));
    say_write(g, 0x0D, 0xF0 + random_between(g->random, 0, 15));
    say_write(g, 0x0E, random_between(g->random, 0, 3));
}

static void configuration(generator *g)
{
    static const uint8_t bits[] = {0x80, 0x40, 0x40, 0x40, 0x20, 0x04, 0x04};
    uint8_t now = g->chip.reg[0x03];
    if (random_chance(g->random, 20))
        say_write(g, 0x09, random_chance(g->random, 50) ? 0 : byte_of(g));
    else
        say_write(g, 0x09, now ^ PICK(g, bits));
}

static void offset(generator *g)
{
    static const uint8_t high[] = {0x00, 0x00, 0x01, 0x19, 0x7F, 0x80, 0xE7, 0xFF};
    static const uint8_t low[] = {0x00, 0x40, 0x80, 0xC0};
    say_write(g, 0x11, random_chance(g->random, 30) ? byte_of(g) : PICK(g, high));
    if (random_chance(g->random, 60))
        say_write(g, 0x12, random_chance(g->random, 30) ? byte_of(g) : PICK(g, low));
}

static void consecutive(generator *g)
{
    static const uint8_t values[] = {0x01, 0x03, 0x07, 0x0F, 0x05, 0x0B};
    say_write(g, 0x22, random_chance(g->random, 30) ? byte_of(g) : PICK(g, values));
}

/* ---- reads ---- */

static void status(generator *g)
{
    if (random_chance(g->random, 80)) {
        say(g, READ, g->chip.address, 0x02, 0);
    } else {
        say(g, SEND, g->chip.address, 0x02, 0);
        say(g, RECEIVE, g->chip.address, 0, 0);
    }
}

static void respond(generator *g)
{
    say(g, RESPOND, 0, 0, 0);
}

/* Has the faults go away, and then the alert, so that the next one can be seen to come. */
static void settle(generator *g)
{
    const uint8_t *reg = g->chip.reg;
    wide_limits(g);
    if ((reg[0x03] & 0x40) == 0) {
        start(g);
        say(g, END, local_measured(g, calm(g, reg[0x06], reg[0x05])),
            remote_measured(g, calm(g, 4 * reg[0x08], 4 * reg[0x07])), 0);
    }
    status(g);
    respond(g);
}

/* ---- a probe that is pulled ---- */

static void remote_limit(generator *g, int32_t degrees)
{
    say_write(g, 0x0D, degrees);
    say_write(g, 0x13, 0);
}

/* Above the limit of 16 degrees, the local value calm. */
static void remote_fault(generator *g)
{
    begin(g);
    say(g, END, local_measured(g, calm(g, g->chip.reg[0x06], g->chip.reg[0x05])), remote_measured(g, 4 * 16 + 1), 0);
}

/* The diode open after some faults in a row. What became of the run count shows once the latch is gone: a fault, the alert taken back in
   standby, and a fault more. */
static void pulled(generator *g)
{
    int32_t faults = random_between(g->random, 0, 4);
    say_write(g, 0x22, random_chance(g->random, 50) ? 0x07 : 0x0F);
    remote_limit(g, 16);
    for (int32_t i = 0; i < faults; i++)
        remote_fault(g);
    begin(g);
    say(g, END, local_sample(g), remote_sample(g), 1);
    remote_fault(g);
    say_write(g, 0x09, g->chip.reg[0x03] | 0x40);
    wide_limits(g);
    status(g);
    respond(g);
    say_write(g, 0x09, g->chip.reg[0x03] & ~0x40);
    remote_limit(g, 16);
    if (random_chance(g->random, 50))
        say_write(g, 0x09, g->chip.reg[0x03] | 0x40);
    remote_fault(g);
}

/* ---- a fan on pin 6 ---- */

/* A value of this channel where its THERM2 mark turns. */
static int32_t marking(generator *g, int32_t scale, int32_t high)
{
    int32_t codes = g->chip.reg[0x21] * scale;
    const int32_t places[] = {high + 1, high + 1, high, high > codes ? high - codes + 1 : 1, high > codes ? high - codes : 0, 0};
    return PICK(g, places);
}

/* Bit 5 set, or not, and bit 7 or not, while values pass the high limits and come back, at conversions, some with the diode open, and by
   writes in standby; alert responses and changes of the role between them. */
static void fan(generator *g)
{
    static const uint8_t roles[] = {0x00, 0x20, 0x20, 0x20, 0xA0, 0x80};
    static const uint8_t degrees[] = {0, 1, 3, 10, 10, 60, 90, 255};
    const uint8_t *reg = g->chip.reg;
    say_write(g, 0x0B, random_between(g->random, 10, 80));
    say_write(g, 0x0D, random_between(g->random, 10, 80));
    say_write(g, 0x13, 64 * random_between(g->random, 0, 3));
    say_write(g, 0x21, PICK(g, degrees));
    for (int32_t i = random_between(g->random, 2, 8); i > 0; i--) {
        say_write(g, 0x09, (reg[0x03] & ~0xA0) | PICK(g, roles));
        begin(g);
        say(g, END, local_measured(g, marking(g, 1, reg[0x05])), remote_measured(g, marking(g, 4, 4 * reg[0x07] + reg[0x13] / 64)),
            random_chance(g->random, 15));
        if (random_chance(g->random, 30))
            limit(g);
        if (random_chance(g->random, 30))
            respond(g);
    }
    if (random_chance(g->random, 60))
        say_write(g, 0x09, reg[0x03] & ~0xA0);
}

/* A high limit moved past the value outside standby, where nothing compares; then standby, one event, and bit 5: what that event made of the
   marks shows. */
static void one_event_later(generator *g)
{
    static const uint8_t commands[] = {0x0B, 0x0C, 0x0D, 0x0E, 0x13, 0x14, 0x19, 0x20, 0x21, 0x0A, 0x11, 0x12, 0x22, 0x0F, 0x30};
    const uint8_t *reg = g->chip.reg;
    int32_t command = PICK(g, commands), at = command <= 0x0E ? command - 6 : command, chosen = random_between(g->random, 0, 99);
    say_write(g, 0x09, reg[0x03] & ~0x60);
    convert(g);
    if (random_chance(g->random, 50))
        say_write(g, 0x0B, random_chance(g->random, 50) ? within(reg[0x00] - 1, 0, 255) : 255);
    if (random_chance(g->random, 50))
        say_write(g, 0x0D, random_chance(g->random, 50) ? within(reg[0x01] - 1, 0, 255) : 255);
    say_write(g, 0x09, reg[0x03] | 0x40 | (random_chance(g->random, 30) ? 0x20 : 0));
    if (chosen < 80)
        say_write(g, command, at < 0x23 ? reg[at] : 0);
    else if (chosen < 87)
        say_write(g, command, 256);
    else if (chosen < 94)
        say(g, WRITE, 76 + 77 - g->chip.address, command, at < 0x23 ? reg[at] : 0);
    else
        start(g);
    say_write(g, 0x09, reg[0x03] | 0x20);
}

static void look(generator *g)
{
    static const uint8_t registers[] = {0x00, 0x01, 0x03, 0x04, 0x05, 0x06, 0x07, 0x08, 0x10, 0x11, 0x12,
                                        0x13, 0x14, 0x19, 0x20, 0x21, 0x22, 0xFE, 0xFF};
    say(g, READ, g->chip.address, PICK(g, registers), 0);
}

static void receive(generator *g)
{
    say(g, RECEIVE, g->chip.address, 0, 0);
}

/* ---- the rest ---- */

static void any_command(generator *g)
{
    int32_t kind = random_between(g->random, SEND, READ);
    say(g, kind, g->chip.address, byte_of(g), kind == WRITE ? byte_of(g) : 0);
}

static void reset(generator *g)
{
    say(g, RESET, 0, 0, 0);
}

/* Some number that a record can hold, mostly near the ends of what some field may be. */
static int32_t odd_number(generator *g)
{
    static const int32_t ends[] = {0, 7, 8, 12, 76, 127, 128, 255, 256, 8191, 8192, 32767, 32768, 99998};
    if (random_chance(g->random, 25))
        return random_between(g->random, -99999, 99999);
    return beside(g, PICK(g, ends)) * (random_chance(g->random, 50) ? 1 : -1);
}

/* The greatest and least that each field may be, by kind; 0 and 0 where it is not used. */
static const struct {
    int32_t least[3], most[3];
} fields[] = {
    [SEND] = {{0, 0, 0}, {127, 255, 0}},
    [WRITE] = {{0, 0, 0}, {127, 255, 255}},
    [READ] = {{0, 0, 0}, {127, 255, 0}},
    [RECEIVE] = {{0, 0, 0}, {127, 0, 0}},
    [END] = {{-8192, -32768, 0}, {8191, 32767, 1}},
};

/* An event with one field just out of its range, or any number in it; or with a kind that there is not. */
static void bad_event(generator *g)
{
    int32_t f[3] = {0}, kind = random_between(g->random, RESET, END);
    for (int i = 0; i < 3; i++)
        f[i] = random_between(g->random, fields[kind].least[i], fields[kind].most[i]);
    if (kind >= SEND && kind <= RECEIVE && random_chance(g->random, 70))
        f[0] = g->chip.address;

    uint32_t bad = random_below(g->random, 4);
    if (bad == 3)
        kind = random_chance(g->random, 50) ? END + 1 : odd_number(g);
    else if (random_chance(g->random, 30))
        f[bad] = odd_number(g);
    else
        f[bad] = random_chance(g->random, 50) ? fields[kind].least[bad] - 1 : fields[kind].most[bad] + 1;
    say(g, kind, f[0], f[1], f[2]);
}

/* Addressed to another chip: nothing of it may reach this one. */
static void foreign(generator *g)
{
    const int32_t others[] = {0, 12, 75, 78, 127, 76 + 77 - g->chip.address, random_between(g->random, 0, 127)};
    int32_t kind = random_between(g->random, SEND, RECEIVE);
    say(g, kind, PICK(g, others), kind == RECEIVE ? 0 : byte_of(g), kind == WRITE ? byte_of(g) : 0);
}

/* ---- choosing ---- */

typedef void action(generator *g);
static action *const actions[] = {
    convert, start, end, limit, settle, configuration, one_shot, offset, consecutive,
    status, respond, look, receive, any_command, reset, bad_event, foreign, pulled, fan, one_event_later,
};
enum { ACTIONS = sizeof actions / sizeof *actions };

/* A trace keeps to one row. In one where every action were as likely, few states would live for long. */
static const struct character {
    bool in_standby;            /* the trace begins with a conversion, then standby */
    uint8_t weights[ACTIONS];
} characters[] = {
    /* conv st end lim sett conf shot off cons stat resp look rec any res bad for pull fan one */
    {false, {20, 2, 2, 10, 3, 6, 3, 4, 3, 12, 6, 6, 3, 8, 1, 4, 4, 2, 2, 2}},    /* a little of all */
    {false, {30, 1, 1, 14, 4, 1, 0, 0, 1, 16, 10, 4, 1, 0, 0, 1, 0, 3, 2, 2}},   /* faults that come and go, and alerts */
    {false, {40, 1, 1, 2, 2, 2, 0, 0, 5, 10, 5, 0, 0, 0, 1, 0, 0, 3, 1, 2}},     /* faults in a row */
    {true, {10, 0, 1, 40, 4, 3, 4, 1, 1, 20, 10, 3, 1, 0, 0, 1, 1, 3, 3, 2}},    /* limits in standby */
    {true, {30, 0, 0, 10, 12, 1, 0, 0, 5, 5, 2, 0, 0, 0, 0, 0, 0, 3, 2, 2}},     /* one-shots in a row, alerts taken back between them */
    {false, {25, 1, 1, 4, 1, 10, 2, 20, 1, 5, 2, 25, 1, 0, 0, 0, 0, 1, 1, 2}},   /* ranges and offsets */
    {false, {3, 3, 3, 1, 0, 2, 3, 1, 1, 3, 3, 2, 10, 50, 1, 8, 6, 0, 0, 0}},     /* any command */
    {false, {5, 5, 5, 1, 0, 4, 4, 0, 0, 4, 5, 0, 2, 5, 2, 40, 15, 0, 0, 0}},     /* mostly refused */
};

generator generate_begin(randoms *random, trace *to, int32_t address)
{
    generator g = {.random = random, .to = to};
    const struct character *is = &PICK(&g, characters);
    g.weights = is->weights;
    (void)second_fresh(&g.chip, address);
    if (is->in_standby) {
        convert(&g);
        say_write(&g, 0x09, 0x40);
    }
    return g;
}

void generate_hungry(trace *to, int32_t address, int32_t count)
{
    generator g = {.to = to};
    (void)second_fresh(&g.chip, address);
    start(&g);
    say(&g, END, 0, 0, 1);
    for (int32_t i = 0; i < count; i++)
        respond(&g);
}

void generate_more(generator *g)
{
    uint32_t all = 0, chosen, at = 0;
    for (int i = 0; i < ACTIONS; i++)
        all += g->weights[i];
    for (chosen = random_below(g->random, all); chosen >= g->weights[at]; at++)
        chosen -= g->weights[at];
    actions[at](g);
}
