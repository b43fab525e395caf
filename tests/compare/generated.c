/* generated.c - see generated.h. */
#include "generated.h"
#include "compare.h"
#include "counts.h"
#include "damage.h"
#include "generate.h"

#include <stdlib.h>

/* A case before its sizes are known. */
typedef struct {
    int32_t address;
    address_class address_class;
    room_class room_class;
    report_class report_class;
    damage damage;
} choice;

static int32_t any_address(address_class class, randoms *random)
{
    /* 76 and 77 in their low byte, low half or low bits; and the ends. */
    static const int32_t large[] = {76 + 128, 77 + 256, 76 + 65536, 77 + (1 << 24), 76 - 256, INT32_MAX, INT32_MIN};
    static const int32_t fixed[ADDRESSES] = {76, 77, 0, 12, 75, 78, -1};
    if (class == ADDRESS_LARGE)
        return large[random_below(random, sizeof large / sizeof *large)];
    return fixed[class];
}

/* Most cases are such that the replay runs: one in twelve is refused by its address, one in twelve by its report. */
static choice choose(randoms *random)
{
    choice c;
    c.address_class = random_chance(random, 8) ? (address_class)random_between(random, ADDRESS_0, ADDRESS_LARGE)
                                               : (address_class)random_between(random, ADDRESS_76, ADDRESS_77);
    c.address = any_address(c.address_class, random);
    c.report_class = random_chance(random, 8) ? (report_class)random_between(random, REPORT_0, REPORT_17) : REPORT_16;
    c.room_class = random_chance(random, 50) ? ROOM_AMPLE : (room_class)random_between(random, ROOM_0, ROOMS - 1);
    c.damage = random_chance(random, 50) ? DAMAGE_NONE : (damage)random_between(random, DAMAGE_NONE + 1, DAMAGES - 1);
    return c;
}

static void make_trace(trace *t, choice *c, randoms *random)
{
    static const int32_t most[] = {0, 2, 10, 40, 40, 40, 40, 80, 80, 200};
    int32_t steps = random_between(random, 0, most[random_below(random, sizeof most / sizeof *most)]);
    int32_t chip = c->address_class == ADDRESS_77 ? 77 : 76;
    if (random_chance(random, 5)) {
        generate_hungry(t, chip, steps);
    } else if (steps > 0) {
        generator g = generate_begin(random, t, chip);
        for (int32_t i = 0; i < steps; i++)
            generate_more(&g);
    }
    if (t->len == 0)
        c->damage = DAMAGE_NONE;
    damage_do(c->damage, t, random);
}

/* How long the answers are if there is room for all. */
static size_t answers_length(const trace *t, int32_t address)
{
    size_t room = 2 * t->len;    /* and some to spare */
    uint8_t report[SECOND_REPORT_BYTES] = {0}, *output = call_room(room);
    (void)second_replay(address, t->bytes, t->len, output, room, report, sizeof report);
    free(output);
    return report[12] + 256U * report[13] + 65536U * report[14];
}

static size_t any_room(choice *c, size_t len, size_t exact, randoms *random)
{
    if (c->room_class == ROOM_ONE_LESS && exact == 0)
        c->room_class = ROOM_0;
    switch (c->room_class) {
    case ROOM_0:
        return 0;
    case ROOM_EXACT:
        return exact;
    case ROOM_ONE_LESS:
        return exact - 1;
    case ROOM_AMPLE:
        return exact + 1 + random_below(random, 200);
    case ROOM_ENOUGH:
        return second_room(len);
    case ROOM_32_FOR_19:
        return 32 * (len / 19);
    case ROOM_33_FOR_20:
        return 33 * (len / 20);
    default:
        return random_below(random, (uint32_t)exact + 40);
    }
}

static void count_case(const choice *c, int32_t code, size_t records, size_t most)
{
    counted.address[c->address_class]++;
    counted.report[c->report_class]++;
    if (code == SECOND_BAD_FIELD) {
        counted.refused++;
    } else {    /* a refused replay looks at neither trace nor output */
        counted.room[c->room_class]++;
        counted.damage[c->damage]++;
        counted.stopped_32_for_19 += c->room_class == ROOM_32_FOR_19 && code == SECOND_NO_ROOM;
        counted.stopped_33_for_20 += c->room_class == ROOM_33_FOR_20 && code == SECOND_NO_ROOM;
        counted.most_records += records > 2 && records == most;
    }
}

static void run_one(pipes *model, uint64_t seed, uint64_t number)
{
    static const size_t report_lengths[REPORTS] = {0, 15, 17, 16};
    randoms random = {seed * UINT64_C(0x2545F4914F6CDD1D) + number};
    trace t = trace_make();
    choice c = choose(&random);
    compare_name("generated, seed %llu, case %llu", (unsigned long long)seed, (unsigned long long)number);

    second_seen seen = second_seen_counts;      /* what is asked of the second model in making a case is not a case */
    make_trace(&t, &c, &random);
    size_t room = any_room(&c, t.len, answers_length(&t, c.address), &random);
    second_seen_counts = seen;

    call_input in = {c.address, t.bytes, t.len, room, report_lengths[c.report_class], random_next(&random)};
    call_result both = compare_both(model, &in);
    count_case(&c, both.code, both.code == SECOND_BAD_FIELD ? 0 : both.report[4] + 256U * both.report[5], t.len / SECOND_SHORTEST_RECORD);
    call_result_free(&both);
    trace_free(&t);
}

void generated_run(pipes *model, uint64_t seed, uint64_t count)
{
    counts_zero();
    for (uint64_t number = 1; number <= count; number++)
        run_one(model, seed, number);
}
