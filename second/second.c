/* second.c - the chip: registers, comparisons, status, ALERT, THERM and THERM2. See second.h. */
#include "second.h"
#include "second_inside.h"

#include <stdbool.h>
#include <string.h>

second_seen second_seen_counts;

/* Kinds of event. */
enum { RESET, SEND, WRITE, READ, RECEIVE, ALERT_RESPONSE, START, END };

/* Registers by read address. A "fraction" is the low byte, quarters in bits 7 and 6. */
enum {
    LOCAL_VALUE = 0x00, REMOTE_VALUE = 0x01, STATUS = 0x02, CONFIGURATION = 0x03, RATE = 0x04,
    LOCAL_HIGH = 0x05, LOCAL_LOW = 0x06, REMOTE_HIGH = 0x07, REMOTE_LOW = 0x08,
    REMOTE_VALUE_FRACTION = 0x10, OFFSET = 0x11, OFFSET_FRACTION = 0x12,
    REMOTE_HIGH_FRACTION = 0x13, REMOTE_LOW_FRACTION = 0x14,
    REMOTE_THERM = 0x19, LOCAL_THERM = 0x20, HYSTERESIS = 0x21, CONSECUTIVE = 0x22,
    MANUFACTURER = 0xFE, REVISION = 0xFF,
    NO_REGISTER = -1
};
enum { WRITE_CONFIGURATION = 0x09, WRITE_REMOTE_LOW = 0x0E, WRITE_ONE_SHOT = 0x0F };

/* Status bits. */
enum {
    BUSY = 0x80, LOCAL_HIGH_FLAG = 0x40, LOCAL_LOW_FLAG = 0x20, REMOTE_HIGH_FLAG = 0x10,
    REMOTE_LOW_FLAG = 0x08, OPEN_FLAG = 0x04, REMOTE_THERM_FLAG = 0x02, LOCAL_THERM_FLAG = 0x01,
    LATCHED_FLAGS = 0x7C, LOWEST_LATCHED_BIT = 2
};

/* Configuration bits. */
enum { MASK_ALERT = 0x80, STANDBY = 0x40, THERM2 = 0x20, EXTENDED = 0x04 };

/* Channels, as bits of `converted` and `therm2`. */
enum { LOCAL = 0x01, REMOTE = 0x02 };

enum { MOST_RUN = 4 };

/* The bits each register of the file keeps; a hole keeps none. */
static const uint8_t keeps[SECOND_REGISTERS] = {
    [LOCAL_VALUE] = 0xFF, [REMOTE_VALUE] = 0xFF, [STATUS] = 0xFF,
    [CONFIGURATION] = MASK_ALERT | STANDBY | THERM2 | EXTENDED, [RATE] = 0xFF,
    [LOCAL_HIGH] = 0xFF, [LOCAL_LOW] = 0xFF, [REMOTE_HIGH] = 0xFF, [REMOTE_LOW] = 0xFF,
    [REMOTE_VALUE_FRACTION] = 0xC0, [OFFSET] = 0xFF, [OFFSET_FRACTION] = 0xC0,
    [REMOTE_HIGH_FRACTION] = 0xC0, [REMOTE_LOW_FRACTION] = 0xC0,
    [REMOTE_THERM] = 0xFF, [LOCAL_THERM] = 0xFF, [HYSTERESIS] = 0xFF, [CONSECUTIVE] = 0xFF,
};

/* ---- small readings of the state ---- */

static bool within(int32_t number, int32_t least, int32_t most)
{
    return least <= number && number <= most;
}

static int32_t clamp(int32_t number, int32_t least, int32_t most)
{
    return number < least ? least : number > most ? most : number;
}

static bool configured(const second_chip *chip, int bit)
{
    return (chip->reg[CONFIGURATION] & bit) != 0;
}

static bool busy(const second_chip *chip)
{
    return (chip->reg[STATUS] & BUSY) != 0;
}

/* ALERT, which an alert response asks for: high in the THERM2 role, whatever pin 6 is. */
static bool alert_is_low(const second_chip *chip)
{
    return chip->alert_latch != 0 && !configured(chip, MASK_ALERT) && !configured(chip, THERM2);
}

/* Pin 6, which the answer reports: ALERT or, in the THERM2 role, the marks, which nothing masks. */
static bool pin_6_is_low(const second_chip *chip)
{
    if (configured(chip, THERM2))
        return (chip->therm2 & (LOCAL | REMOTE)) != 0;
    return alert_is_low(chip);
}

static bool therm_is_low(const second_chip *chip)
{
    return (chip->reg[STATUS] & (REMOTE_THERM_FLAG | LOCAL_THERM_FLAG)) != 0;
}

/* A high byte and its fraction, as a number of quarters 0..1023. */
static int quarters(const second_chip *chip, int high, int fraction)
{
    return chip->reg[high] * 4 + chip->reg[fraction] / 64;
}

/* The offset in quarters, -512..511. */
static int offset(const second_chip *chip)
{
    int high = chip->reg[OFFSET];
    return (high >= 128 ? high - 256 : high) * 4 + chip->reg[OFFSET_FRACTION] / 64;
}

/* 1 plus the ones standing together from bit 1 upwards within bits 3..1. */
static int needed_number(const second_chip *chip)
{
    int needed = 1;
    for (int bit = 0x02; bit <= 0x08 && (chip->reg[CONSECUTIVE] & bit) != 0; bit <<= 1)
        needed++;
    return needed;
}

bool second_well_formed(const second_chip *chip)
{
    int stray = 0;
    for (int i = 0; i < SECOND_REGISTERS; i++)
        stray |= chip->reg[i] & ~keeps[i];
    stray |= chip->found & ~LATCHED_FLAGS;
    stray |= chip->converted & ~(LOCAL | REMOTE);
    stray |= chip->therm2 & ~(LOCAL | REMOTE);
    stray |= chip->alert_latch & ~1;
    return stray == 0 && within(chip->address, 76, 77) && chip->run <= MOST_RUN;
}

/* ---- small changes to the state ---- */

static void raise_status(second_chip *chip, int bits)
{
    chip->reg[STATUS] = (uint8_t)(chip->reg[STATUS] | bits);
}

static void drop_status(second_chip *chip, int bits)
{
    chip->reg[STATUS] = (uint8_t)(chip->reg[STATUS] & ~bits);
}

/* Adds one to the counter of each latched flag that stands in `flags`. */
static void count_flags(uint64_t counters[5], int flags)
{
#if SECOND_COUNTING
    for (int i = 0; i < 5; i++)
        counters[i] += (unsigned)flags >> (LOWEST_LATCHED_BIT + i) & 1u;
#else
    (void)counters;
    (void)flags;
#endif
}

/* Adds one to the counter of each of the channels. */
static void count_channels(uint64_t counters[2], int channels)
{
#if SECOND_COUNTING
    counters[0] += (channels & LOCAL) != 0;
    counters[1] += (channels & REMOTE) != 0;
#else
    (void)counters;
    (void)channels;
#endif
}

/* Records what the latest comparison says about `asked`: those in `faults` are
   found and their flags set; the others are not, and their flags stay. */
static void note_faults(second_chip *chip, int asked, int faults)
{
    int fresh = faults & ~chip->reg[STATUS];
    if (fresh != 0)
        count_flags(second_seen_counts.flag_set, fresh);
    chip->found = (uint8_t)((chip->found & ~asked) | faults);
    raise_status(chip, faults);
}

/* ---- comparisons ---- */

/* What one channel is compared by; codes count `scale` to the degree. */
typedef struct {
    int bit;                  /* LOCAL or REMOTE */
    int value, high, low;     /* codes */
    int therm;                /* degrees */
    int scale;
    int high_flag, low_flag, therm_flag;
} channel;

/* Where a value lies for a comparator with hysteresis, THERM or THERM2; all are codes. */
enum { AT_RELEASE, BETWEEN, ABOVE };

static int place(int value, int limit, int hysteresis)
{
    if (value > limit)
        return ABOVE;
    return value <= clamp(limit - hysteresis, 0, limit) ? AT_RELEASE : BETWEEN;
}

/* Works out the channel's THERM2 mark, in either role of pin 6. */
static void mark_channel(second_chip *chip, const channel *ch, int hysteresis)
{
    bool was = (chip->therm2 & ch->bit) != 0;

    switch (place(ch->value, ch->high, hysteresis)) {
    case ABOVE:
        chip->therm2 = (uint8_t)(chip->therm2 | ch->bit);
        break;
    case AT_RELEASE:
        chip->therm2 = (uint8_t)(chip->therm2 & ~ch->bit);
        if (was && ch->value == 0 && hysteresis > ch->high)
            SECOND_SEEN(mark_cleared_at_0[ch->bit == REMOTE]);
        break;
    default:
        if (was)
            SECOND_SEEN(mark_kept[ch->bit == REMOTE]);
        else
            SECOND_SEEN(mark_kept_clear[ch->bit == REMOTE]);
    }
}

/* Compares one channel and gives the limit faults found. */
static int compare_channel(second_chip *chip, const channel *ch)
{
    int hysteresis = chip->reg[HYSTERESIS] * ch->scale;
    int faults = 0;

    if (ch->value > ch->high)
        faults |= ch->high_flag;
    if (ch->value <= ch->low)
        faults |= ch->low_flag;
    note_faults(chip, ch->high_flag | ch->low_flag, faults);

    int therm = place(ch->value, ch->therm * ch->scale, hysteresis);
    if (therm == ABOVE)
        raise_status(chip, ch->therm_flag);
    else if (therm == AT_RELEASE)
        drop_status(chip, ch->therm_flag);
    mark_channel(chip, ch, hysteresis);
    return faults;
}

/* Compares the named channels and gives the limit faults found. */
static int compare(second_chip *chip, int channels)
{
    int before = chip->therm2;
    int faults = 0;
    if (channels & LOCAL)
        faults |= compare_channel(chip, &(channel){
            .bit = LOCAL,
            .value = chip->reg[LOCAL_VALUE],
            .high = chip->reg[LOCAL_HIGH],
            .low = chip->reg[LOCAL_LOW],
            .therm = chip->reg[LOCAL_THERM], .scale = 1,
            .high_flag = LOCAL_HIGH_FLAG, .low_flag = LOCAL_LOW_FLAG,
            .therm_flag = LOCAL_THERM_FLAG });
    if (channels & REMOTE)
        faults |= compare_channel(chip, &(channel){
            .bit = REMOTE,
            .value = quarters(chip, REMOTE_VALUE, REMOTE_VALUE_FRACTION),
            .high = quarters(chip, REMOTE_HIGH, REMOTE_HIGH_FRACTION),
            .low = quarters(chip, REMOTE_LOW, REMOTE_LOW_FRACTION),
            .therm = chip->reg[REMOTE_THERM], .scale = 4,
            .high_flag = REMOTE_HIGH_FLAG, .low_flag = REMOTE_LOW_FLAG,
            .therm_flag = REMOTE_THERM_FLAG });

    count_channels(second_seen_counts.mark_set, chip->therm2 & ~before);
    count_channels(second_seen_counts.mark_cleared, before & ~chip->therm2);
    if (!configured(chip, THERM2)) {
        count_channels(second_seen_counts.mark_set_unseen, chip->therm2 & ~before);
        count_channels(second_seen_counts.mark_cleared_unseen, before & ~chip->therm2);
    }
    return faults;
}

/* ---- conversions ---- */

static void store_local(second_chip *chip, int32_t degrees)
{
    chip->reg[LOCAL_VALUE] = (uint8_t)(configured(chip, EXTENDED)
        ? clamp(degrees + 64, 0, 255)
        : clamp(degrees, 0, 127));
    chip->converted |= LOCAL;
}

static void store_remote(second_chip *chip, int32_t measured)
{
    int32_t sum = measured + offset(chip);
    int32_t code = configured(chip, EXTENDED)
        ? clamp(sum + 256, 0, 1023)
        : clamp(sum, 0, 511);
    chip->reg[REMOTE_VALUE] = (uint8_t)(code / 4);
    chip->reg[REMOTE_VALUE_FRACTION] = (uint8_t)(code % 4 * 64);
    chip->converted |= REMOTE;
}

/* Counts what an open diode holds back, as it stands before the conversion ends. */
static void count_held_back(const second_chip *chip)
{
    SECOND_SEEN(converted_open);
    if ((chip->converted & REMOTE) == 0)
        SECOND_SEEN(held_unconverted);
    if ((chip->found & (REMOTE_HIGH_FLAG | REMOTE_LOW_FLAG)) != 0)
        SECOND_SEEN(held_fault);
    if ((chip->reg[STATUS] & REMOTE_THERM_FLAG) != 0)
        SECOND_SEEN(held_therm);
    if ((chip->therm2 & REMOTE) != 0)
        SECOND_SEEN(held_mark);
}

/* An open diode holds the remote channel back: no sample of it is stored, nothing of it compared,
   so its value, verdicts, THERM flag, THERM2 mark and whether it was converted stand as they were,
   and only local faults are found for the run count. */
static void end_conversion(second_chip *chip, int32_t local, int32_t remote, bool open)
{
    int needed = needed_number(chip);
    int marks = chip->therm2;

    if (open)
        count_held_back(chip);
    drop_status(chip, BUSY);
    store_local(chip, local);
    if (!open)
        store_remote(chip, remote);
    int faults = compare(chip, open ? LOCAL : LOCAL | REMOTE);
    note_faults(chip, OPEN_FLAG, open ? OPEN_FLAG : 0);
    if (open && (chip->therm2 & REMOTE) != 0 && chip->therm2 != marks)
        SECOND_SEEN(held_mark_local);

    chip->run = (uint8_t)(faults != 0 ? clamp(chip->run + 1, 0, MOST_RUN) : 0);
    bool enough = chip->run >= needed;
    if (!chip->alert_latch && open)
        SECOND_SEEN(latch_by_open);
    if (!chip->alert_latch && enough)
        SECOND_SEEN(latch_by_run);
    if (open || enough)
        chip->alert_latch = 1;

    if (configured(chip, EXTENDED))
        SECOND_SEEN(converted_extended);
    else
        SECOND_SEEN(converted_default);
    SECOND_SEEN(converted_needed[needed - 1]);
}

/* ---- the bus ---- */

/* The register that a write command changes, by its read address. */
static int write_target(int command)
{
    if (within(command, WRITE_CONFIGURATION, WRITE_REMOTE_LOW))
        return command - WRITE_CONFIGURATION + CONFIGURATION;
    if (within(command, OFFSET, REMOTE_LOW_FRACTION) || command == REMOTE_THERM
        || within(command, LOCAL_THERM, CONSECUTIVE))
        return command;
    return NO_REGISTER;
}

/* Whether writing this register in standby compares. */
static bool write_compares(int target)
{
    return within(target, LOCAL_HIGH, REMOTE_LOW)
        || target == REMOTE_HIGH_FRACTION || target == REMOTE_LOW_FRACTION
        || target == REMOTE_THERM || target == LOCAL_THERM || target == HYSTERESIS;
}

static void compare_in_standby(second_chip *chip)
{
    int before = chip->therm2;
    int faults = compare(chip, chip->converted);

    count_channels(second_seen_counts.mark_set_standby, chip->therm2 & ~before);
    count_channels(second_seen_counts.mark_cleared_standby, before & ~chip->therm2);

    if (chip->converted != 0)
        SECOND_SEEN(standby_compares);
    if (chip->converted == LOCAL)
        SECOND_SEEN(standby_local_only);
    if (faults != 0) {
        if (!chip->alert_latch)
            SECOND_SEEN(latch_by_standby);
        chip->alert_latch = 1;
    }
}

static void write_byte(second_chip *chip, int command, int data)
{
    int target = write_target(command);
    bool was_therm2 = configured(chip, THERM2);

    chip->pointer = (uint8_t)command;
    SECOND_SEEN(written[command]);

    if (command == WRITE_ONE_SHOT && configured(chip, STANDBY) && !busy(chip)) {
        raise_status(chip, BUSY);
        SECOND_SEEN(one_shots);
    }
    if (target == NO_REGISTER)
        return;
    if (target == CONFIGURATION && !configured(chip, STANDBY) && (data & STANDBY) != 0)
        drop_status(chip, BUSY);
    chip->reg[target] = (uint8_t)(data & keeps[target]);
    if (write_compares(target) && configured(chip, STANDBY))
        compare_in_standby(chip);
    if (!was_therm2 && configured(chip, THERM2) && pin_6_is_low(chip))
        SECOND_SEEN(therm2_begun_low);
    if (was_therm2 && alert_is_low(chip))
        SECOND_SEEN(latch_shown);
}

/* Replies the register at the pointer; a read of status then lets go the flags
   whose fault is gone. */
static int read_at_pointer(second_chip *chip)
{
    int at = chip->pointer;

    SECOND_SEEN(read[at]);
    if (at == STATUS) {
        int reply = chip->reg[STATUS];
        int standing = reply & LATCHED_FLAGS;
        if (standing != 0) {
            count_flags(second_seen_counts.flag_kept, standing & chip->found);
            count_flags(second_seen_counts.flag_cleared, standing & ~chip->found);
            drop_status(chip, standing & ~chip->found);
        }
        return reply;
    }
    if (at < SECOND_REGISTERS)
        return chip->reg[at];           /* a hole holds 0 */
    if (at == MANUFACTURER)
        return 0x41;
    if (at == REVISION)
        return 0x51;
    return 0;
}

static int respond_to_alert(second_chip *chip)
{
    if ((chip->reg[STATUS] & LATCHED_FLAGS) == 0) {
        chip->alert_latch = 0;
        SECOND_SEEN(latch_cleared);
    }
    return 2 * chip->address + 1;
}

/* ---- events ---- */

int second_fresh(second_chip *chip, int32_t address)
{
    memset(chip, 0, sizeof *chip);
    if (!within(address, 76, 77))
        return SECOND_BAD_FIELD;
    chip->address = (uint8_t)address;
    chip->reg[RATE] = 0x08;
    chip->reg[LOCAL_HIGH] = 0x55;
    chip->reg[REMOTE_HIGH] = 0x55;
    chip->reg[REMOTE_THERM] = 0x55;
    chip->reg[LOCAL_THERM] = 0x55;
    chip->reg[HYSTERESIS] = 0x0A;
    chip->reg[CONSECUTIVE] = 0x01;
    return SECOND_DONE;
}

/* Whether each field is in its range, and 0 where the kind does not use it. */
static bool fields_fit(int32_t kind, int32_t a, int32_t b, int32_t c)
{
    switch (kind) {
    case SEND:
    case READ:    return within(a, 0, 127) && within(b, 0, 255) && c == 0;
    case WRITE:   return within(a, 0, 127) && within(b, 0, 255) && within(c, 0, 255);
    case RECEIVE: return within(a, 0, 127) && b == 0 && c == 0;
    case END:     return within(a, -8192, 8191) && within(b, -32768, 32767) && within(c, 0, 1);
    default:      return a == 0 && b == 0 && c == 0;
    }
}

/* The code the event is answered: 0, or the first reason to refuse it. */
static int judge(const second_chip *chip, int32_t kind, int32_t a, int32_t b, int32_t c)
{
    if (!second_well_formed(chip))
        return SECOND_BAD_STATE;
    if (!within(kind, RESET, END))
        return SECOND_BAD_KIND;
    if (!fields_fit(kind, a, b, c))
        return SECOND_BAD_FIELD;
    switch (kind) {
    case SEND:
    case WRITE:
    case READ:
    case RECEIVE:        return a == chip->address ? SECOND_DONE : SECOND_NO_ACK;
    case ALERT_RESPONSE: return alert_is_low(chip) ? SECOND_DONE : SECOND_NO_ACK;
    case START:          return configured(chip, STANDBY) || busy(chip)
                             ? SECOND_NO_START : SECOND_DONE;
    case END:            return busy(chip) ? SECOND_DONE : SECOND_NO_END;
    default:             return SECOND_DONE;
    }
}

/* Does an event that was judged good, and gives the reply byte. */
static int apply(second_chip *chip, int32_t kind, int32_t a, int32_t b, int32_t c)
{
    switch (kind) {
    case RESET:
        (void)second_fresh(chip, chip->address);
        return 0;
    case SEND:
        chip->pointer = (uint8_t)b;
        return 0;
    case WRITE:
        write_byte(chip, b, c);
        return 0;
    case READ:
        chip->pointer = (uint8_t)b;
        return read_at_pointer(chip);
    case RECEIVE:
        return read_at_pointer(chip);
    case ALERT_RESPONSE:
        return respond_to_alert(chip);
    case START:
        raise_status(chip, BUSY);
        return 0;
    case END:
        end_conversion(chip, a, b, c == 1);
        return 0;
    default:
        return 0;
    }
}

/* Counts an answer in the THERM2 role, by the chip after the event. */
static void count_therm2(const second_chip *chip, int32_t kind, int code)
{
    bool low = pin_6_is_low(chip), masked = configured(chip, MASK_ALERT);
    bool latched = chip->alert_latch != 0 && !masked;
    bool no_ack = kind == ALERT_RESPONSE && code == SECOND_NO_ACK;

    if (low)
        SECOND_SEEN(therm2_low);
    if (low && masked)
        SECOND_SEEN(therm2_low_masked);
    if (!low && latched)
        SECOND_SEEN(therm2_high_latched);
    if (no_ack && latched)
        SECOND_SEEN(therm2_no_ack);
    if (no_ack && low)
        SECOND_SEEN(therm2_no_ack_low);
}

second_answer second_step(second_chip *chip, int32_t kind, int32_t a, int32_t b, int32_t c)
{
    second_answer answer = { .code = judge(chip, kind, a, b, c), .reply = 0 };

    if (answer.code == SECOND_DONE)
        answer.reply = apply(chip, kind, a, b, c);
    answer.alert = !pin_6_is_low(chip);
    answer.therm = !therm_is_low(chip);
    SECOND_SEEN(code[answer.code]);
    if (configured(chip, THERM2))
        count_therm2(chip, kind, answer.code);
    return answer;
}
