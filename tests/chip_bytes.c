/* chip_bytes.c - see chip_bytes.h. */
#include "chip_bytes.h"

#include <string.h>

enum { REGISTERS = 14 };

static const uint8_t read_at[REGISTERS] = { 0x03, 0x04, 0x05, 0x06, 0x07, 0x08, 0x11, 0x12, 0x13, 0x14, 0x19, 0x20, 0x21, 0x22 };

/* A channel's flags from its third byte on: converted, then found and flag for high, low and open, then THERM, then the THERM2 mark. 8 is no bit of the status. */
static const uint8_t local_bits[3] = { 6, 5, 8 }, remote_bits[3] = { 4, 3, 2 };

static uint8_t bit(unsigned byte, unsigned place)
{
    return (uint8_t)(place < 8 ? byte >> place & 1 : 0);
}

static void channel_out(const second_chip *c, uint8_t *to, unsigned value, unsigned number, const uint8_t bits[3], unsigned therm)
{
    *to++ = (uint8_t)(value % 256);
    *to++ = (uint8_t)(value / 256);
    *to++ = bit(c->converted, number);
    for (int i = 0; i < 3; i++) {
        *to++ = bit(c->found, bits[i]);
        *to++ = bit(c->reg[2], bits[i]);
    }
    *to++ = bit(c->reg[2], therm);
    *to = bit(c->therm2, number);
}

void chip_encode(const second_chip *c, uint8_t bytes[DLAVETH_CHIP_BYTES])
{
    memset(bytes, 0, DLAVETH_CHIP_BYTES);
    bytes[0] = CHIP_LAYOUT;
    bytes[1] = c->address;
    bytes[2] = c->pointer;
    bytes[3] = bit(c->reg[2], 7);
    bytes[4] = c->run;
    bytes[5] = c->alert_latch;
    for (int i = 0; i < REGISTERS; i++)
        bytes[CHIP_REGISTERS_AT + i] = c->reg[read_at[i]];
    channel_out(c, bytes + CHIP_LOCAL_AT, c->reg[0], 0, local_bits, 0);
    channel_out(c, bytes + CHIP_REMOTE_AT, c->reg[1] * 4u + c->reg[0x10] / 64u, 1, remote_bits, 1);
}

static void set(uint8_t *byte, unsigned place, unsigned on)
{
    if (place < 8)
        *byte = (uint8_t)(*byte | on << place);
}

static void channel_in(second_chip *c, const uint8_t *from, unsigned number, const uint8_t bits[3], unsigned therm)
{
    set(&c->converted, number, from[2]);
    for (int i = 0; i < 3; i++) {
        set(&c->found, bits[i], from[3 + 2 * i]);
        set(&c->reg[2], bits[i], from[4 + 2 * i]);
    }
    set(&c->reg[2], therm, from[9]);
    set(&c->therm2, number, from[10]);
}

bool chip_is_saved(const uint8_t *bytes)
{
    bool good = bytes[0] == CHIP_LAYOUT && bytes[3] <= 1 && bytes[5] <= 1;

    for (int i = 2; i < CHIP_CHANNEL; i++)
        good &= bytes[CHIP_LOCAL_AT + i] <= 1 && bytes[CHIP_REMOTE_AT + i] <= 1;
    for (int i = CHIP_MEANING; i < DLAVETH_CHIP_BYTES; i++)
        good &= bytes[i] == 0;
    return good;
}

bool chip_decode(const uint8_t *bytes, second_chip *c)
{
    unsigned local = bytes[CHIP_LOCAL_AT] + 256u * bytes[CHIP_LOCAL_AT + 1], remote = bytes[CHIP_REMOTE_AT] + 256u * bytes[CHIP_REMOTE_AT + 1];
    bool good = (bytes[1] == 76 || bytes[1] == 77) && bytes[4] <= 4 && local <= 255 && remote <= 1023 && !bytes[CHIP_LOCAL_AT + 7] && !bytes[CHIP_LOCAL_AT + 8];

    memset(c, 0, sizeof *c);
    c->address = bytes[1];
    c->pointer = bytes[2];
    c->run = bytes[4];
    c->alert_latch = bytes[5];
    for (int i = 0; i < REGISTERS; i++) {
        unsigned keeps = read_at[i] == 0x03 ? 0xe4 : read_at[i] >= 0x12 && read_at[i] <= 0x14 ? 0xc0 : 0xff;

        good &= (bytes[CHIP_REGISTERS_AT + i] & ~keeps) == 0;
        c->reg[read_at[i]] = bytes[CHIP_REGISTERS_AT + i];
    }
    c->reg[0] = (uint8_t)local;
    c->reg[1] = (uint8_t)(remote / 4);
    c->reg[0x10] = (uint8_t)(remote % 4 * 64);
    set(&c->reg[2], 7, bytes[3]);
    channel_in(c, bytes + CHIP_LOCAL_AT, 0, local_bits, 0);
    channel_in(c, bytes + CHIP_REMOTE_AT, 1, remote_bits, 1);
    return good;
}
