/*
 * input.c - see input.h. One call of replay. The head:
 *   0   bit 0: what follows, 0 the trace as it is, 1 events; bits 4..1: the address
 *   1   the room of the output, beside what the answers take; HUGE_ROOM for 16 MiB, or one byte more
 *   2   a number for the room; with 0 in both, what is enough for the trace's length
 *   3   bits 7..4: the report's length; bits 3..0: what the buffers hold before the call
 */
#include "input.h"
#include "compare.h"
#include "events.h"
#include "second.h"
#include "trace.h"

#include <stdlib.h>
#include <string.h>

#define PICK(list, number) ((list)[(number) % (sizeof(list) / sizeof *(list))])

enum { HEAD = 4, HUGE_ROOM = 255, LONGEST = SECOND_LONGEST_ANSWER };

const size_t input_head = HEAD;

/* What a replay went through: by flags, latch and standby; by run count and register 22; by the room left for an answer that did not fit. */
typedef struct {
    uint8_t flags[256][2][2], runs[5][8], left[LONGEST];
} states;

/* The fuzzer takes a byte of this section that is not 0 for code reached, so it also looks for inputs that reach a new state. */
__attribute__((used, section("__libfuzzer_extra_counters"))) static states reached;

static void meet(void *all, const second_chip *chip)
{
    states *met = all;
    met->flags[chip->reg[0x02]][chip->alert_latch][chip->reg[0x03] >> 6 & 1] = 1;
    met->runs[chip->run][chip->reg[0x22] >> 1 & 7] = 1;
}

/* ---- the head ---- */

static size_t written(const uint8_t report[SECOND_REPORT_BYTES])
{
    return report[12] + 256U * report[13] + 65536U * report[14];
}

/* How long the answers are if there is room for all. */
static size_t answers_length(const trace *t, int32_t address)
{
    size_t room = second_room(t->len);
    uint8_t report[SECOND_REPORT_BYTES] = {0}, *output = call_room(room);
    (void)second_replay(address, t->bytes, t->len, output, room, report, sizeof report);
    free(output);
    return written(report);
}

static size_t room_of(const uint8_t *head, size_t len, size_t exact)
{
    if (head[1] == HUGE_ROOM)
        return SECOND_MOST_BYTES + head[2] % 2;
    const size_t rooms[] = {head[2] == 0 ? second_room(len) : exact + 40 + head[2], exact, exact - (exact > 0), exact + 1,
                            exact - (exact < head[2] ? exact : head[2]), head[2], exact * head[2] / 256, 0};
    return PICK(rooms, head[1]);
}

bool input_is_events(const uint8_t *bytes, size_t len)
{
    return len > 0 && bytes[0] % 2 == 1;
}

bool input_is_huge(const uint8_t *bytes, size_t len)
{
    return len > 1 && bytes[1] == HUGE_ROOM;
}

void input_shrink(uint8_t *bytes)
{
    bytes[1] = 0;
}

void input_try(pipes *model, const uint8_t *bytes, size_t len)
{
    static const int32_t addresses[16] = {76, 77, 76, 77, 76, 77, 76, 77, 76, 77, 0, 75, 78, 76 + 256, 77 - 256, INT32_MIN};
    static const size_t reports[16] = {16, 16, 16, 16, 16, 16, 16, 16, 16, 16, 16, 16, 0, 15, 17, 255};
    uint8_t head[HEAD] = {0};
    size_t head_len = len < HEAD ? len : HEAD;
    memcpy(head, bytes, head_len);

    trace t = trace_make();
    states met = {0};
    int32_t address = addresses[head[0] >> 1 & 15];
    if (input_is_events(bytes, len))
        events_add(&t, address, bytes + head_len, len - head_len, &met, meet);
    else
        trace_insert(&t, 0, bytes + head_len, len - head_len);
    call_input in = {address, t.bytes, t.len, room_of(head, t.len, answers_length(&t, address)), reports[head[3] >> 4],
                     (head[3] & 15) * UINT64_C(0x9E3779B97F4A7C15)};
    call_result both = compare_both(model, &in);
    if (both.code == SECOND_DONE || both.code == SECOND_MALFORMED)      /* no event was left out */
        reached = met;
    if (both.code == SECOND_NO_ROOM)
        reached.left[(in.output_len - written(both.report)) % LONGEST] = 1;
    call_result_free(&both);
    trace_free(&t);
}
