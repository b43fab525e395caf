/* events.c - see events.h. */
#include "events.h"

enum { RESET, SEND, WRITE, READ, RECEIVE, RESPOND, START, END };    /* the kinds of event */

#define PICK(list, number) ((list)[(number) % (sizeof(list) / sizeof *(list))])

/*
 * Bytes: what, x, y, z. Bits 2..0 of the first are the kind, the others the way: mostly a record that the chip takes. A chip of the
 * second model follows the trace, to show where values and limits stand; it decides what is asked, never what is right.
 */

enum { ODD_NUMBER, OTHER_ADDRESS, AIMED_FROM = 16 };      /* ways */
enum { AS_IT_IS = 192 };                                  /* x and y from here on are not aimed */

static int32_t within(int32_t value, int32_t least, int32_t most)
{
    return value < least ? least : value > most ? most : value;
}

/* Mostly a command with a meaning; else any. */
static int32_t command(int32_t kind, uint8_t x, uint8_t z)
{
    static const uint8_t writable[] = {0x09, 0x0A, 0x0B, 0x0C, 0x0D, 0x0E, 0x0F, 0x11, 0x12, 0x13, 0x14, 0x19, 0x20, 0x21, 0x22};
    static const uint8_t readable[] = {0x02, 0x00, 0x01, 0x02, 0x03, 0x04, 0x05, 0x06, 0x07, 0x08, 0x10, 0x11, 0x12, 0x13, 0x14,
                                       0x19, 0x20, 0x21, 0x22, 0xFE, 0xFF};
    if (x >= AS_IT_IS)
        return 4 * (x - AS_IT_IS) + z % 4;
    return kind == WRITE ? PICK(writable, x) : PICK(readable, x);
}

/* A byte to write that lies one below, at or one above what the register is compared with. */
static int32_t aimed_byte(const second_chip *chip, int32_t command, uint8_t y)
{
    const uint8_t *reg = chip->reg;
    int32_t beside = y % 3 - 1;
    switch (command) {
    case 0x0B: case 0x0C: case 0x20:
        return within(reg[0x00] + beside, 0, 255);
    case 0x0D: case 0x0E: case 0x19:
        return within(reg[0x01] + beside, 0, 255);
    case 0x13: case 0x14:
        return within(reg[0x10] + 64 * beside, 0, 255);
    case 0x21:
        return within((y % 2 == 0 ? reg[0x19] - reg[0x01] : reg[0x20] - reg[0x00]) + beside, 0, 255);
    default:
        return y;
    }
}

/* A code one below, at or one above a place where a comparison turns. */
static int32_t aimed_code(const second_chip *chip, int32_t scale, int32_t low, int32_t high, int32_t therm, uint8_t x)
{
    int32_t release = within(therm - chip->reg[0x21], 0, 255);
    const int32_t places[] = {low, high, therm * scale, release * scale, (low + high) / 2, 0, 128 * scale - 1, 256 * scale - 1};
    return PICK(places, x) + x / 8 % 3 - 1;
}

static int32_t local(const second_chip *chip, uint8_t x)
{
    const uint8_t *reg = chip->reg;
    if (x >= AS_IT_IS)
        return within(273 * (x - AS_IT_IS - 32), -8192, 8191);
    return aimed_code(chip, 1, reg[0x06], reg[0x05], reg[0x20], x) - ((reg[0x03] & 0x04) != 0 ? 64 : 0);
}

static int32_t remote(const second_chip *chip, uint8_t y)
{
    const uint8_t *reg = chip->reg;
    if (y >= AS_IT_IS)
        return within(1057 * (y - AS_IT_IS - 32), -32768, 32767);
    int32_t offset = (reg[0x11] < 128 ? reg[0x11] : reg[0x11] - 256) * 4 + reg[0x12] / 64;
    int32_t low = 4 * reg[0x08] + reg[0x14] / 64, high = 4 * reg[0x07] + reg[0x13] / 64;
    return aimed_code(chip, 4, low, high, reg[0x19], y) - offset - ((reg[0x03] & 0x04) != 0 ? 256 : 0);
}

static void add_event(trace *t, second_chip *chip, const uint8_t event[EVENT_BYTES])
{
    /* About the ends of what some field may be. */
    static const int32_t ends[] = {-1, 1, 2, 7, 8, 75, 78, 127, 128, 255, 256, 8191, 8192, 32767, 32768, 99999,
                                   -8192, -8193, -32768, -32769, -99999};
    const uint8_t way = event[0] >> 3, x = event[1], y = event[2], z = event[3];
    int32_t f[4] = {event[0] & 7, 0, 0, 0};     /* kind, a, b, c */
    if (f[0] >= SEND && f[0] <= RECEIVE)
        f[1] = way == OTHER_ADDRESS ? z & 127 : chip->address;
    if (f[0] >= SEND && f[0] <= READ)
        f[2] = command(f[0], x, z);
    if (f[0] == WRITE)
        f[3] = way >= AIMED_FROM ? aimed_byte(chip, f[2], y) : y;
    if (f[0] == END) {
        f[1] = local(chip, x);
        f[2] = remote(chip, y);
        f[3] = z >> 7;
    }
    if (way == ODD_NUMBER)
        f[z % 4] = PICK(ends, y);
    trace_record(t, f[0], f[1], f[2], f[3]);
    (void)second_step(chip, f[0], f[1], f[2], f[3]);
}

void events_add(trace *t, int32_t address, const uint8_t *bytes, size_t len, void *met, event_seen *seen)
{
    second_chip chip;
    size_t at = 0;
    (void)second_fresh(&chip, address == 77 ? 77 : 76);
    for (; at + EVENT_BYTES <= len; at += EVENT_BYTES) {
        add_event(t, &chip, bytes + at);
        if (seen != NULL)
            seen(met, &chip);
    }
    trace_insert(t, t->len, bytes + at, len - at);
}
