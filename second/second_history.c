/* second_history.c - what the events were, and what the demand says of them. See second_history.h. */
#include "second_history.h"

#include <stdlib.h>
#include <string.h>

enum { RESET, SEND, WRITE, READ, RECEIVE, ALERT_RESPONSE, START, END };     /* kinds of event */
enum { MASK_ALERT = 0x80, STANDBY = 0x40, THERM2 = 0x20, EXTENDED = 0x04 }; /* configuration bits */
enum { STATUS = 0x02 };                                                     /* a read command */
enum {                                                                      /* write commands */
    CONFIGURATION = 0x09, RATE = 0x0A, LOCAL_HIGH = 0x0B, LOCAL_LOW = 0x0C, REMOTE_HIGH = 0x0D, REMOTE_LOW = 0x0E,
    ONE_SHOT = 0x0F, OFFSET = 0x11, OFFSET_LOW_BYTE = 0x12, REMOTE_HIGH_LOW_BYTE = 0x13, REMOTE_LOW_LOW_BYTE = 0x14,
    REMOTE_THERM = 0x19, LOCAL_THERM = 0x20, HYSTERESIS = 0x21, CONSECUTIVE = 0x22
};

const char *const history_claims[HISTORY_CLAIMS] = {
    "a status read shows bits 6 to 2 as the flags stand",
    "spells opened are the clearing reads that showed 1, and one more if the flag stands",
    "in the ALERT role the alert line is low exactly if the latch stands and bit 7 is 0",
    "an alert response is answered exactly if ALERT is low, with 2 times the address plus 1",
    "a refused event changes nothing of the history but its length",
    "code 0 is given exactly for the events that are done",
    "in the THERM2 role the alert line is low exactly if a mark stands",
};

/* ---- the demand, over the list ---- */

static bool is_status_read(const history_moment *m, int flag)
{
    return m->was[flag] == HISTORY_SHOWED_0 || m->was[flag] == HISTORY_SHOWED_1;
}

static bool is_comparison(const history_moment *m, int flag)
{
    return m->was[flag] == HISTORY_NO_FAULT || m->was[flag] == HISTORY_FAULT;
}

int history_latest_comparison(const second_history *h, int flag, size_t n)
{
    for (size_t i = n; i-- > 0;)
        if (is_comparison(&h->list[i], flag))
            return h->list[i].was[flag];
    return HISTORY_NOTHING;
}

bool history_clearing_read(const second_history *h, int flag, size_t i)
{
    return is_status_read(&h->list[i], flag) && history_latest_comparison(h, flag, i) != HISTORY_FAULT;
}

bool history_stands(const second_history *h, int flag, size_t n)
{
    for (size_t i = n; i-- > 0;) {
        if (history_clearing_read(h, flag, i))
            return false;
        if (h->list[i].was[flag] == HISTORY_FAULT)
            return true;
    }
    return false;
}

bool history_opens_spell(const second_history *h, int flag, size_t i)
{
    return h->list[i].was[flag] == HISTORY_FAULT && !history_stands(h, flag, i);
}

uint64_t history_spells_opened(const second_history *h, int flag, size_t n)
{
    uint64_t count = 0;
    for (size_t i = 0; i < n; i++)
        count += history_opens_spell(h, flag, i);
    return count;
}

static bool clearing_read_showed_1(const second_history *h, int flag, size_t i)
{
    return h->list[i].was[flag] == HISTORY_SHOWED_1 && history_clearing_read(h, flag, i);
}

uint64_t history_clearing_reads_showing_1(const second_history *h, int flag, size_t n)
{
    uint64_t count = 0;
    for (size_t i = 0; i < n; i++)
        count += clearing_read_showed_1(h, flag, i);
    return count;
}

static bool found_limit_fault(const history_moment *m)
{
    return m->was[HISTORY_LOCAL_HIGH] == HISTORY_FAULT || m->was[HISTORY_LOCAL_LOW] == HISTORY_FAULT
        || m->was[HISTORY_REMOTE_HIGH] == HISTORY_FAULT || m->was[HISTORY_REMOTE_LOW] == HISTORY_FAULT;
}

int history_in_a_row(const second_history *h, size_t n)
{
    int count = 0;
    for (size_t i = n; i-- > 0 && count < 4;)
        if (h->list[i].kind == END) {
            if (!found_limit_fault(&h->list[i]))
                break;
            count++;
        }
    return count;
}

unsigned history_sets_latch(const second_history *h, size_t i)
{
    const history_moment *m = &h->list[i];
    if (m->kind == END)
        return (m->was[HISTORY_OPEN] == HISTORY_FAULT ? HISTORY_BY_OPEN : 0U)
             | (history_in_a_row(h, i + 1) >= m->needed ? HISTORY_BY_RUN : 0U);
    return found_limit_fault(m) ? HISTORY_BY_STANDBY : 0U;
}

static bool any_stands(const second_history *h, size_t n)
{
    for (int flag = 0; flag < HISTORY_FLAGS; flag++)
        if (history_stands(h, flag, n))
            return true;
    return false;
}

bool history_clears_latch(const second_history *h, size_t i)
{
    return h->list[i].kind == ALERT_RESPONSE && !any_stands(h, i);
}

bool history_latch_stands(const second_history *h, size_t n)
{
    for (size_t i = n; i-- > 0;) {
        if (history_sets_latch(h, i) != 0)
            return true;
        if (history_clears_latch(h, i))
            return false;
    }
    return false;
}

/* ---- the marks, over the list ---- */

bool history_mark_stands(const second_history *h, int channel, size_t n)
{
    for (size_t i = n; i-- > 0;) {
        if (h->list[i].found[channel] == HISTORY_ABOVE)
            return true;
        if (h->list[i].found[channel] == HISTORY_AT_RELEASE)
            return false;
    }
    return false;
}

bool history_either_mark_stands(const second_history *h, size_t n)
{
    return history_mark_stands(h, HISTORY_LOCAL, n) || history_mark_stands(h, HISTORY_REMOTE, n);
}

/* ---- what was written and measured ---- */

static bool configured(const history_record *r, int bit)
{
    return (r->written[CONFIGURATION] & bit) != 0;
}

static int32_t clamped(int32_t number, int32_t most)
{
    return number < 0 ? 0 : number > most ? most : number;
}

/* A high byte and its low byte, in quarters. */
static int32_t quarters(const history_record *r, int high, int low)
{
    return 4 * r->written[high] + r->written[low] / 64;
}

static int32_t offset(const history_record *r)
{
    return quarters(r, OFFSET, OFFSET_LOW_BYTE) - (r->written[OFFSET] > 127 ? 4 * 256 : 0);
}

static void measure_local(history_record *r, int32_t sample)
{
    r->local = configured(r, EXTENDED) ? clamped(sample + 64, 255) : clamped(sample, 127);
}

static void measure_remote(history_record *r, int32_t sample)
{
    int32_t sum = sample + offset(r);
    r->remote = configured(r, EXTENDED) ? clamped(sum + 256, 1023) : clamped(sum, 511);
}

/* "1 plus the ones that stand together from bit 1 upwards within bits 3 to 1 of register 22" */
static uint8_t needed(const history_record *r)
{
    uint8_t number = 1;
    while (number <= 3 && (r->written[CONSECUTIVE] >> number & 1) != 0)
        number++;
    return number;
}

static void power_on(second_history *h)
{
    history_record fresh = {.address = h->record.address};
    fresh.written[RATE] = 0x08;
    fresh.written[LOCAL_HIGH] = fresh.written[REMOTE_HIGH] = 0x55;
    fresh.written[REMOTE_THERM] = fresh.written[LOCAL_THERM] = 0x55;
    fresh.written[HYSTERESIS] = 0x0A;
    fresh.written[CONSECUTIVE] = 0x01;
    h->record = fresh;
    h->length = 0;
    memset(h->spells, 0, sizeof h->spells);
    memset(h->cleared, 0, sizeof h->cleared);
}

/* ---- what an event is ---- */

/* The least and the most that a, b and c may be, by kind. */
static const struct {
    int32_t least[3], most[3];
} fields[] = {
    [RESET] = {{0, 0, 0}, {0, 0, 0}},
    [SEND] = {{0, 0, 0}, {127, 255, 0}},
    [WRITE] = {{0, 0, 0}, {127, 255, 255}},
    [READ] = {{0, 0, 0}, {127, 255, 0}},
    [RECEIVE] = {{0, 0, 0}, {127, 0, 0}},
    [ALERT_RESPONSE] = {{0, 0, 0}, {0, 0, 0}},
    [START] = {{0, 0, 0}, {0, 0, 0}},
    [END] = {{-8192, -32768, 0}, {8191, 32767, 1}},
};

static bool is_event(int32_t kind, int32_t a, int32_t b, int32_t c)
{
    if (kind < RESET || kind > END)
        return false;
    const int32_t *least = fields[kind].least, *most = fields[kind].most;
    return least[0] <= a && a <= most[0] && least[1] <= b && b <= most[1] && least[2] <= c && c <= most[2];
}

/* ALERT, not pin 6: with bit 5 set it is high. */
static bool alert_is_low(const second_history *h)
{
    return !configured(&h->record, MASK_ALERT) && !configured(&h->record, THERM2) && history_latch_stands(h, h->length);
}

/* Whether the event, which is one, is done. */
static bool is_done(const second_history *h, int32_t kind, int32_t a)
{
    switch (kind) {
    case SEND:
    case WRITE:
    case READ:
    case RECEIVE:
        return a == h->record.address;
    case ALERT_RESPONSE:
        return alert_is_low(h);
    case START:
        return !configured(&h->record, STANDBY) && !h->record.running;
    case END:
        return h->record.running;
    default:
        return true;
    }
}

/* Where a value is found for the channel's mark; all are codes. */
static uint8_t place(int32_t value, int32_t high, int32_t hysteresis)
{
    int32_t release = high > hysteresis ? high - hysteresis : 0;
    return value > high ? HISTORY_ABOVE : value > release ? HISTORY_BETWEEN : HISTORY_AT_RELEASE;
}

static void compare_local(const history_record *r, history_moment *m)
{
    m->found[HISTORY_LOCAL] = place(r->local, r->written[LOCAL_HIGH], r->written[HYSTERESIS]);
    m->was[HISTORY_LOCAL_HIGH] = r->local > r->written[LOCAL_HIGH] ? HISTORY_FAULT : HISTORY_NO_FAULT;
    m->was[HISTORY_LOCAL_LOW] = r->local <= r->written[LOCAL_LOW] ? HISTORY_FAULT : HISTORY_NO_FAULT;
}

static void compare_remote(const history_record *r, history_moment *m)
{
    int32_t high = quarters(r, REMOTE_HIGH, REMOTE_HIGH_LOW_BYTE);
    m->found[HISTORY_REMOTE] = place(r->remote, high, 4 * r->written[HYSTERESIS]);
    m->was[HISTORY_REMOTE_HIGH] = r->remote > high ? HISTORY_FAULT : HISTORY_NO_FAULT;
    m->was[HISTORY_REMOTE_LOW] =
        r->remote <= quarters(r, REMOTE_LOW, REMOTE_LOW_LOW_BYTE) ? HISTORY_FAULT : HISTORY_NO_FAULT;
}

/* Whether the local channel was converted since power-on: each conversion that ends converts it. */
static bool local_converted(const second_history *h)
{
    for (size_t i = h->length; i-- > 0;)
        if (h->list[i].kind == END)
            return true;
    return false;
}

/* The same of the remote channel, for which one with the diode open "doesn't count as a conversion". */
static bool remote_converted(const second_history *h)
{
    for (size_t i = h->length; i-- > 0;)
        if (h->list[i].kind == END && h->list[i].was[HISTORY_OPEN] == HISTORY_NO_FAULT)
            return true;
    return false;
}

static void write_byte(second_history *h, int32_t command, uint8_t data, history_moment *m)
{
    history_record *r = &h->record;
    switch (command) {
    case CONFIGURATION:
        if (!configured(r, STANDBY) && (data & STANDBY) != 0)
            r->running = false;
        r->written[command] = data & (MASK_ALERT | STANDBY | THERM2 | EXTENDED);
        break;
    case ONE_SHOT:
        if (configured(r, STANDBY))
            r->running = true;
        break;
    case RATE:
    case OFFSET:
    case CONSECUTIVE:
        r->written[command] = data;
        break;
    case OFFSET_LOW_BYTE:
        r->written[command] = data & 0xC0;
        break;
    case LOCAL_HIGH:
    case LOCAL_LOW:
    case REMOTE_HIGH:
    case REMOTE_LOW:
    case REMOTE_HIGH_LOW_BYTE:
    case REMOTE_LOW_LOW_BYTE:
    case REMOTE_THERM:
    case LOCAL_THERM:
    case HYSTERESIS:
        r->written[command] =
            command == REMOTE_HIGH_LOW_BYTE || command == REMOTE_LOW_LOW_BYTE ? data & 0xC0 : data;
        if (configured(r, STANDBY) && local_converted(h))
            compare_local(r, m);
        if (configured(r, STANDBY) && remote_converted(h))
            compare_remote(r, m);
        break;
    default:
        break;
    }
}

/* A read of the register at the pointer. What the status showed is what was answered. */
static void read_byte(const history_record *r, int reply, history_moment *m)
{
    if (r->pointer == STATUS)
        for (int flag = 0; flag < HISTORY_FLAGS; flag++)
            m->was[flag] = (reply >> (flag + 2) & 1) != 0 ? HISTORY_SHOWED_1 : HISTORY_SHOWED_0;
}

/* Does an event that is done, other than a power-on, and gives what it was. */
static history_moment happen(second_history *h, int32_t kind, int32_t a, int32_t b, int32_t c, int reply)
{
    history_moment m = {.kind = (uint8_t)kind};
    history_record *r = &h->record;
    if (kind == SEND || kind == WRITE || kind == READ)
        r->pointer = (uint8_t)b;
    switch (kind) {
    case WRITE:
        write_byte(h, b, (uint8_t)c, &m);
        break;
    case READ:
    case RECEIVE:
        read_byte(r, reply, &m);
        break;
    case START:
        r->running = true;
        break;
    case END:
        r->running = false;
        measure_local(r, a);
        compare_local(r, &m);
        m.was[HISTORY_OPEN] = c == 1 ? HISTORY_FAULT : HISTORY_NO_FAULT;
        if (c == 0) {
            measure_remote(r, b);
            compare_remote(r, &m);
        }
        m.needed = needed(r);
        break;
    default:
        break;
    }
    return m;
}

static void add(second_history *h, history_moment m)
{
    if (h->length == h->room)
        abort();
    h->list[h->length++] = m;
}

/* ---- counting ---- */

/* Counts what the latest event was for each flag. */
static void count_flags(second_history *h)
{
    size_t latest = h->length - 1;
    for (int flag = 0; flag < HISTORY_FLAGS; flag++) {
        bool opens = history_opens_spell(h, flag, latest), clears = clearing_read_showed_1(h, flag, latest);
        h->spells[flag] += opens;
        h->cleared[flag] += clears;
        h->counts->spells[flag] += opens;
        h->counts->cleared[flag] += clears;
        h->counts->still[flag] += is_status_read(&h->list[latest], flag) && !history_clearing_read(h, flag, latest);
    }
}

static void count_latch(second_history *h)
{
    size_t latest = h->length - 1;
    unsigned by = history_sets_latch(h, latest);
    if (by != 0 && !history_latch_stands(h, latest)) {
        h->counts->by_open += (by & HISTORY_BY_OPEN) != 0;
        h->counts->by_run += (by & HISTORY_BY_RUN) != 0;
        h->counts->by_standby += (by & HISTORY_BY_STANDBY) != 0;
    }
    h->counts->latch_cleared += history_clears_latch(h, latest);
}

/* Counts what the latest event was for each mark. */
static void count_marks(second_history *h)
{
    size_t latest = h->length - 1;
    const history_moment *m = &h->list[latest];
    for (int channel = 0; channel < HISTORY_CHANNELS; channel++) {
        if (m->found[channel] == HISTORY_NOT_COMPARED)
            continue;
        bool stood = history_mark_stands(h, channel, latest);
        bool sets = !stood && m->found[channel] == HISTORY_ABOVE;
        bool clears = stood && m->found[channel] == HISTORY_AT_RELEASE;
        h->counts->marks_set[channel] += sets;
        h->counts->marks_cleared[channel] += clears;
        h->counts->marks_kept[channel] += stood && m->found[channel] == HISTORY_BETWEEN;
        h->counts->marks_unseen += (sets || clears) && !configured(&h->record, THERM2);
        h->counts->marks_standby += (sets || clears) && m->kind == WRITE;
    }
}

/* Counts what pin 6 is after the latest event, in the THERM2 role or just out of it. */
static void count_pin_6(second_history *h, const history_record *before)
{
    if (configured(&h->record, THERM2)) {
        bool low = history_either_mark_stands(h, h->length);
        h->counts->therm2_low += low;
        h->counts->therm2_low_masked += low && configured(&h->record, MASK_ALERT);
    } else if (configured(before, THERM2)) {
        h->counts->latch_shown += alert_is_low(h);
    }
}

static void count_response(second_history *h, bool done)
{
    h->counts->answered += done;
    h->counts->refused += !done;
    h->counts->therm2_refused += configured(&h->record, THERM2)
        && !configured(&h->record, MASK_ALERT) && history_latch_stands(h, h->length);
}

static void count_reset(second_history *h)
{
    h->counts->resets_marked += history_either_mark_stands(h, h->length);
    h->counts->resets += h->length > 0;
    h->counts->resets_standing += any_stands(h, h->length) || history_latch_stands(h, h->length);
}

/* ---- the claims ---- */

static unsigned claim(second_history *h, int which, bool holds)
{
    h->counts->claims[which]++;
    return holds ? 0U : 1U << which;
}

static bool shows_as_stands(const second_history *h, size_t i)
{
    for (int flag = 0; flag < HISTORY_FLAGS; flag++)
        if ((h->list[i].was[flag] == HISTORY_SHOWED_1) != history_stands(h, flag, i))
            return false;
    return true;
}

static bool spells_come_out(const second_history *h)
{
    for (int flag = 0; flag < HISTORY_FLAGS; flag++)
        if (h->spells[flag] != h->cleared[flag] + history_stands(h, flag, h->length))
            return false;
    return true;
}

static bool is_same_record(const history_record *x, const history_record *y)
{
    return x->address == y->address && x->local == y->local && x->remote == y->remote && x->pointer == y->pointer
        && x->running == y->running && memcmp(x->written, y->written, sizeof x->written) == 0;
}

/* Whether the latest event was nothing: for no flag or mark, not for the latch, not for what is
   written and measured. */
static bool was_nothing(const second_history *h, const second_history *before)
{
    if (h->length != before->length + 1 || !is_same_record(&h->record, &before->record)
        || memcmp(h->spells, before->spells, sizeof h->spells) != 0
        || memcmp(h->cleared, before->cleared, sizeof h->cleared) != 0)
        return false;
    size_t latest = h->length - 1;
    for (int flag = 0; flag < HISTORY_FLAGS; flag++)
        if (h->list[latest].was[flag] != HISTORY_NOTHING)
            return false;
    for (int channel = 0; channel < HISTORY_CHANNELS; channel++)
        if (h->list[latest].found[channel] != HISTORY_NOT_COMPARED)
            return false;
    return history_sets_latch(h, latest) == 0 && h->list[latest].kind != ALERT_RESPONSE;
}

void history_begin(second_history *h, int32_t address, history_moment *list, size_t room, history_counts *counts)
{
    *h = (second_history){.record.address = address, .list = list, .room = room, .counts = counts};
    power_on(h);
}

unsigned history_end(const second_history *h)
{
    for (int flag = 0; flag < HISTORY_FLAGS; flag++)
        if (h->spells[flag] != history_spells_opened(h, flag, h->length)
            || h->cleared[flag] != history_clearing_reads_showing_1(h, flag, h->length))
            return 1U << HISTORY_SPELLS;
    return 0;
}

unsigned history_take(second_history *h, int32_t kind, int32_t a, int32_t b, int32_t c, second_answer answer)
{
    const second_history before = *h;
    bool event = is_event(kind, a, b, c), done = event && is_done(h, kind, a);
    unsigned wrong = 0;

    if (done && kind == RESET) {
        wrong |= history_end(h);
        count_reset(h);
        power_on(h);
    } else {
        add(h, done ? happen(h, kind, a, b, c, answer.reply) : (history_moment){.kind = HISTORY_REFUSED});
        count_flags(h);
        count_latch(h);
        count_marks(h);
        if (is_status_read(&h->list[h->length - 1], 0))
            wrong |= claim(h, HISTORY_STATUS, shows_as_stands(h, h->length - 1));
    }
    wrong |= claim(h, HISTORY_SPELLS, spells_come_out(h));
    if (configured(&h->record, THERM2))
        wrong |= claim(h, HISTORY_THERM2,
                       (answer.alert == 0) == history_either_mark_stands(h, h->length));
    else
        wrong |= claim(h, HISTORY_ALERT, (answer.alert == 0) == alert_is_low(h));
    count_pin_6(h, &before.record);
    if (event && kind == ALERT_RESPONSE) {
        count_response(h, done);
        wrong |= claim(h, HISTORY_RESPONSE, (answer.code == SECOND_DONE) == done
                       && (!done || answer.reply == 2 * h->record.address + 1));
    }
    if (answer.code != SECOND_DONE)
        wrong |= claim(h, HISTORY_UNCHANGED, was_nothing(h, &before));
    wrong |= claim(h, HISTORY_SAME_EVENTS, (answer.code == SECOND_DONE) == done);
    return wrong;
}
