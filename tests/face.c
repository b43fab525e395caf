/*
 * A chip in bytes, driven event by event beside the second model: the same answer after every event, and the same bytes, with chips saved
 * and restored in between. Then damaged bytes, wrong lengths and null pointers. Its last line is 'N passed, M failed'.
 *     face [EVENTS [SEED]]
 */
#include <stdbool.h>
#include <stdio.h>
#include <stdlib.h>
#include <string.h>

#include "chip_bytes.h"
#include "dlaveth.h"
#include "second.h"

static unsigned long passed, failed;

static void check(const char *what, bool good)
{
    if (good)
        passed++;
    else if (failed++ < 20)
        printf("FAILED %s\n", what);
}

/* ---- a fixed sequence of numbers for each seed ---- */

static uint64_t word;

static uint32_t any(uint32_t below)
{
    word ^= word << 13;
    word ^= word >> 7;
    word ^= word << 17;
    return (uint32_t)((word >> 20) % below);
}

/* ---- events ---- */

typedef struct { int32_t kind, a, b, c; } event;

static const uint8_t commands[] = {
    0x00, 0x01, 0x02, 0x02, 0x02, 0x03, 0x04, 0x05, 0x06, 0x07, 0x08, 0x09, 0x09, 0x09, 0x0a, 0x0b, 0x0b, 0x0c, 0x0c, 0x0d, 0x0d, 0x0e, 0x0e, 0x0f, 0x0f,
    0x10, 0x11, 0x11, 0x12, 0x13, 0x14, 0x19, 0x20, 0x21, 0x22, 0x22, 0xfe, 0xff
};

static int32_t number(void)
{
    static const int32_t ends[] = { -2147483647 - 1, -32769, -32768, -8193, -8192, -1, 0, 1, 2, 127, 128, 255, 256, 8191, 8192, 32767, 32768, 2147483647 };

    return any(2) ? ends[any(sizeof ends / sizeof *ends)] : (int32_t)any(400) - 50;
}

static event next_event(void)
{
    int32_t address = any(16) ? 76 : 77;
    int32_t command = any(8) ? commands[any(sizeof commands)] : (int32_t)any(256);

    switch (any(40)) {
    case 0: return (event){ number(), number(), number(), number() };
    case 1: return (event){ 7, number(), number(), (int32_t)any(3) };
    case 2: return (event){ 0, 0, 0, 0 };
    case 3: return (event){ 1, address, command, 0 };
    case 4: return (event){ 4, address, 0, 0 };
    case 5: case 6: return (event){ 5, 0, 0, 0 };
    case 7: case 8: case 9: case 10: return (event){ 6, 0, 0, 0 };
    case 11: case 12: case 13: case 14: case 15: case 16: return (event){ 7, (int32_t)any(200) - 60, (int32_t)any(700) - 200, any(8) == 0 };
    case 17: case 18: case 19: case 20: return (event){ 3, address, 0x02, 0 };
    case 21: case 22: case 23: return (event){ 2, address, 0x09, any(4) ? (any(2) ? 0x40 : 0x60) : (int32_t)any(256) };
    case 24: case 25: case 26: case 27: return (event){ 3, address, command, 0 };
    default: return (event){ 2, address, command, any(2) ? (int32_t)any(128) : (int32_t)any(256) };
    }
}

/* ---- one event on both ---- */

static bool same(const uint8_t *answer, int code, int reply, int alert, int therm)
{
    const uint8_t want[8] = { (uint8_t)code, (uint8_t)reply, (uint8_t)alert, (uint8_t)therm, 0, 0, 0, 0 };

    return memcmp(answer, want, 8) == 0;
}

/* A buffer with bytes around it that no call may touch. */
typedef struct { uint8_t in_front[16], bytes[DLAVETH_CHIP_BYTES], behind[16]; } guarded;

static void guard(guarded *g, const uint8_t *bytes, size_t len)
{
    memset(g, 0x5a, sizeof *g);
    if (len > 0)
        memcpy(g->bytes, bytes, len);
}

static bool unharmed(const guarded *g, size_t len)
{
    bool good = true;

    for (size_t i = 0; i < sizeof g->in_front; i++)
        good &= g->in_front[i] == 0x5a && g->behind[i] == 0x5a;
    for (size_t i = len; i < sizeof g->bytes; i++)
        good &= g->bytes[i] == 0x5a;
    return good;
}

/* Twice: the same chip and event give the same again. */
static void both(const char *what, uint8_t *chip, second_chip *second, event e)
{
    uint8_t want[DLAVETH_CHIP_BYTES];
    second_answer told = second_step(second, e.kind, e.a, e.b, e.c);

    chip_encode(second, want);
    for (int again = 0; again < 2; again++) {
        guarded lent, answer;
        int32_t code;

        guard(&lent, chip, DLAVETH_CHIP_BYTES);
        guard(&answer, NULL, 0);
        code = dlaveth_event(lent.bytes, DLAVETH_CHIP_BYTES, e.kind, e.a, e.b, e.c, answer.bytes, 8);
        check(what, code == told.code && same(answer.bytes, told.code, told.reply, told.alert, told.therm) && memcmp(lent.bytes, want, sizeof want) == 0
              && unharmed(&lent, DLAVETH_CHIP_BYTES) && unharmed(&answer, 8));
        if (again)
            memcpy(chip, lent.bytes, DLAVETH_CHIP_BYTES);
    }
}

static void driven(unsigned long events)
{
    enum { SAVED = 8 };
    uint8_t chip[DLAVETH_CHIP_BYTES], saved[SAVED][DLAVETH_CHIP_BYTES];
    second_chip second, kept[SAVED];

    for (int i = 0; i < SAVED; i++) {
        int32_t address = 76 + i % 2;

        check("power on", dlaveth_power_on(address, saved[i], DLAVETH_CHIP_BYTES) == second_fresh(&kept[i], address));
        chip_encode(&kept[i], chip);
        check("a fresh chip's bytes", memcmp(chip, saved[i], sizeof chip) == 0);
    }
    memcpy(chip, saved[0], sizeof chip);
    second = kept[0];
    for (unsigned long n = 0; n < events; n++) {
        both("an event beside the second model", chip, &second, next_event());
        if (any(50) == 0) {
            uint32_t place = any(SAVED);

            memcpy(saved[place], chip, sizeof chip);
            kept[place] = second;
        }
        if (any(50) == 0) {
            uint32_t place = any(SAVED);

            memcpy(chip, saved[place], sizeof chip);
            second = kept[place];
        }
    }
}

/* ---- damaged bytes ---- */

static unsigned long strange, ill, fine;

static void judged(const uint8_t *bytes)
{
    uint8_t chip[DLAVETH_CHIP_BYTES], answer[8];
    second_chip second;
    event e = next_event();
    int32_t code;

    memcpy(chip, bytes, sizeof chip);
    if (chip_is_saved(bytes) && chip_decode(bytes, &second)) {
        fine++;
        both("a chip that was damaged and is still one", chip, &second, e);
        return;
    }
    memset(answer, 0x5a, sizeof answer);
    code = dlaveth_event(chip, sizeof chip, e.kind, e.a, e.b, e.c, answer, sizeof answer);
    if (chip_is_saved(bytes)) {
        unsigned config = bytes[CHIP_REGISTERS_AT];
        bool low = config & 0x20 ? bytes[CHIP_LOCAL_AT + 10] || bytes[CHIP_REMOTE_AT + 10] : bytes[5] && !(config & 0x80);    /* pin 6 by its role */

        ill++;
        check("a state that is not well formed", same(answer, 6, 0, !low, !(bytes[CHIP_LOCAL_AT + 9] || bytes[CHIP_REMOTE_AT + 9])));
    } else {
        strange++;
        check("bytes that are no chip", same(answer, 6, 0, 1, 1));
    }
    check("code 6, and the bytes as they were", code == 6 && memcmp(chip, bytes, sizeof chip) == 0);
}

static void damaged(unsigned long rounds)
{
    uint8_t chip[DLAVETH_CHIP_BYTES], spoilt[DLAVETH_CHIP_BYTES], answer[8];

    dlaveth_power_on(76, chip, sizeof chip);
    for (unsigned long n = 0; n < rounds; n++) {
        event e = next_event();

        dlaveth_event(chip, sizeof chip, e.kind, e.a, e.b, e.c, answer, sizeof answer);
        memcpy(spoilt, chip, sizeof chip);
        for (uint32_t k = 1 + any(3); k > 0; k--) {
            uint32_t place = any(4) ? any(CHIP_MEANING) : any(DLAVETH_CHIP_BYTES);

            spoilt[place] = (uint8_t)(any(2) ? spoilt[place] ^ 1u << any(8) : any(any(2) ? 2 : 256));
        }
        judged(spoilt);
        for (int i = 0; i < DLAVETH_CHIP_BYTES; i++)
            spoilt[i] = (uint8_t)any(256);
        judged(spoilt);
    }
    memset(spoilt, 0, sizeof spoilt);
    judged(spoilt);
    check("every kind of damage was met", strange > rounds / 8 && ill > rounds / 16 && fine > rounds / 16);
}

/* ---- lengths and pointers ---- */

/* Lengths that are not a chip's or an answer's; the large ones end in their low bytes as those do. */
static const size_t wrong[] = {
    0, 1, 7, 9, 16, 39, 40, 64, 127, 129, 255, 256, 264, 384, 0x10008, 0x10080, (size_t)1 << 32 | 8, (size_t)1 << 32 | 128, (size_t)1 << 63 | 128, SIZE_MAX
};

static void lengths(void)
{
    uint8_t chip[512], before[512], fresh[DLAVETH_CHIP_BYTES], answer[512], told[512];

    dlaveth_power_on(76, fresh, sizeof fresh);
    memset(answer, 0x44, sizeof answer);
    memcpy(told, answer, sizeof answer);
    for (size_t i = 0; i < sizeof wrong / sizeof *wrong; i++)
        for (int good = 0; good < 2; good++) {
            memset(chip, 0x33, sizeof chip);
            if (good)
                memcpy(chip, fresh, sizeof fresh);
            memcpy(before, chip, sizeof chip);
            for (int32_t address = 75; address < 77; address++)
                check("power on, of another length", dlaveth_power_on(address, chip, wrong[i]) == 2 && memcmp(chip, before, sizeof chip) == 0);
            check("an event on a chip of another length", dlaveth_event(chip, wrong[i], 6, 0, 0, 0, answer, 8) == 2);
            check("an event with an answer of another length", dlaveth_event(chip, DLAVETH_CHIP_BYTES, 6, 0, 0, 0, answer, wrong[i]) == 2);
            check("both of another length", dlaveth_event(chip, wrong[i], 6, 0, 0, 0, answer, wrong[i]) == 2);
            check("nothing is written", memcmp(chip, before, sizeof chip) == 0 && memcmp(answer, told, sizeof answer) == 0);
        }
    check("null where the length is 0", dlaveth_power_on(76, NULL, 0) == 2 && dlaveth_event(NULL, 0, 6, 0, 0, 0, NULL, 0) == 2
          && dlaveth_event(chip, DLAVETH_CHIP_BYTES, 6, 0, 0, 0, NULL, 0) == 2 && dlaveth_event(NULL, 0, 6, 0, 0, 0, answer, 8) == 2);
}

/* An address that is no chip's leaves zeros, whatever stood there; one that is, a fresh chip. */
static void addressed(int32_t address)
{
    static const uint8_t zeros[DLAVETH_CHIP_BYTES];
    second_chip second;
    guarded lent;
    uint8_t want[DLAVETH_CHIP_BYTES];
    int code = second_fresh(&second, address);

    chip_encode(&second, want);
    for (int old = 0; old < 3; old++) {
        guard(&lent, zeros, sizeof zeros);
        if (old > 0) {    /* over a chip that has been through something */
            uint8_t answer[8];

            dlaveth_power_on(75 + old, lent.bytes, DLAVETH_CHIP_BYTES);
            dlaveth_event(lent.bytes, DLAVETH_CHIP_BYTES, 6, 0, 0, 0, answer, 8);
            dlaveth_event(lent.bytes, DLAVETH_CHIP_BYTES, 7, 99, 399, 1, answer, 8);
        } else {
            memset(lent.bytes, 0x33, sizeof lent.bytes);
        }
        check("power on", dlaveth_power_on(address, lent.bytes, DLAVETH_CHIP_BYTES) == code
              && memcmp(lent.bytes, code == 0 ? want : zeros, sizeof want) == 0 && unharmed(&lent, DLAVETH_CHIP_BYTES));
    }
}

static void addresses(void)
{
    for (int32_t address = -1000; address < 1000; address++)
        addressed(address);
    for (int bits = 8; bits < 32; bits++)
        for (int32_t chip = 76; chip < 78; chip++) {
            addressed((int32_t)((1u << bits) + (uint32_t)chip));
            addressed((int32_t)(0u - (1u << bits) + (uint32_t)chip));
        }
    addressed(INT32_MAX);
    addressed(INT32_MIN);
}

int main(int argc, char **argv)
{
    unsigned long events = argc > 1 ? strtoul(argv[1], NULL, 10) : 200000;

    word = 88172645463325252u + (argc > 2 ? strtoull(argv[2], NULL, 10) : 0) * 2685821657736338717u;
    driven(events);
    damaged(events / 4);
    lengths();
    addresses();
    printf("%lu no chip, %lu not well formed, %lu still one\n", strange, ill, fine);
    printf("%lu passed, %lu failed\n", passed, failed);
    return failed > 0;
}
