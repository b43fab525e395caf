/* second_test.c - tests from document 01's cases and rules and document 02's Items 3, 4 and 5, with
   the values they expect. */
#include "second.h"
#include "second_history.h"
#include "second_test.h"

#include <stdio.h>
#include <stdlib.h>
#include <string.h>

static int passed, failed;

void check_at(const char *file, int line, bool good, const char *what)
{
    if (good) {
        passed++;
    } else {
        failed++;
        printf("%s, line %d: %s\n", file, line, what);
    }
}

static void step_at(int line, second_chip *chip, int32_t kind, int32_t a, int32_t b, int32_t c,
                    int code, int reply, int alert, int therm)
{
    second_chip before = *chip;
    second_answer got = second_step(chip, kind, a, b, c);
    bool good = got.code == code && got.reply == reply && got.alert == alert && got.therm == therm;
    if (code != 0 && memcmp(&before, chip, sizeof before) != 0)
        good = false;
    if (!good)
        printf("line %d: event %d %d %d %d answered %d %d %d %d, not %d %d %d %d\n", line, (int)kind,
               (int)a, (int)b, (int)c, got.code, got.reply, got.alert, got.therm, code, reply, alert, therm);
    if (good)
        passed++;
    else
        failed++;
}
/* chip, kind, a, b, c, then code, reply, alert, therm */
#define STEP(...) step_at(__LINE__, __VA_ARGS__)

static second_chip fresh(void)
{
    second_chip chip;
    (void)second_fresh(&chip, 76);
    return chip;
}

/* Short forms for tests that look only at part of the answer. */
static int reading(second_chip *chip, int command)
{
    second_answer answer = second_step(chip, 3, chip->address, command, 0);
    return answer.code == 0 ? answer.reply : -answer.code;
}

static second_answer writing(second_chip *chip, int command, int data)
{
    return second_step(chip, 2, chip->address, command, data);
}

/* The start is a kind 6, or in standby a one-shot. */
static second_answer converting(second_chip *chip, int32_t local, int32_t remote, int32_t open)
{
    (void)(chip->reg[0x03] & 0x40 ? writing(chip, 0x0F, 0) : second_step(chip, 6, 0, 0, 0));
    return second_step(chip, 7, local, remote, open);
}

static int status(second_chip *chip) { return reading(chip, 0x02); }

/* ---- fresh states and code 6 ---- */

static bool all_zero(const second_chip *chip)
{
    second_chip zero;
    memset(&zero, 0, sizeof zero);
    return memcmp(chip, &zero, sizeof zero) == 0;
}

static void test_fresh(void)
{
    static const int32_t bad[] = { 75, 78, 0, -1, 12, 128, 332, 256 + 76, INT32_MIN, INT32_MAX };
    second_chip chip;

    CHECK(second_fresh(&chip, 76) == 0 && chip.address == 76);
    CHECK(second_fresh(&chip, 77) == 0 && chip.address == 77);
    for (size_t i = 0; i < sizeof bad / sizeof *bad; i++) {
        memset(&chip, 0xA5, sizeof chip);
        CHECK(second_fresh(&chip, bad[i]) == 2);
        CHECK(all_zero(&chip));
        STEP(&chip, 0, 0, 0, 0, 6, 0, 1, 1);
        STEP(&chip, 9, 0, 0, 0, 6, 0, 1, 1);      /* 6 comes before 1 */
        STEP(&chip, 3, 0, 0, 0, 6, 0, 1, 1);
    }
}

static void test_bad_state(void)
{
    second_chip chip = fresh();

    chip.run = 4;
    STEP(&chip, 1, 76, 0, 0, 0, 0, 1, 1);
    chip.run = 5;
    STEP(&chip, 1, 76, 0, 0, 6, 0, 1, 1);
    chip = fresh();
    chip.address = 75;
    STEP(&chip, 1, 75, 0, 0, 6, 0, 1, 1);
    chip.address = 78;
    STEP(&chip, 1, 78, 0, 0, 6, 0, 1, 1);

    /* every bit of the file: well formed exactly if the register keeps it */
    for (int i = 0; i < SECOND_REGISTERS; i++)
        for (int bit = 0; bit < 8; bit++) {
            bool hole = (i >= 0x09 && i <= 0x0F) || (i >= 0x15 && i <= 0x18) || (i >= 0x1A && i <= 0x1F);
            bool fraction = i == 0x10 || (i >= 0x12 && i <= 0x14);
            bool kept = !hole && !(fraction && bit < 6)
                && !(i == 0x03 && bit != 7 && bit != 6 && bit != 5 && bit != 2);
            chip = fresh();
            chip.reg[i] = (uint8_t)(chip.reg[i] | 1 << bit);
            CHECK(second_step(&chip, 1, 76, 0, 0).code == (kept ? 0 : 6));
        }
    for (int bit = 0; bit < 8; bit++) {
        chip = fresh();
        chip.found = (uint8_t)(1 << bit);
        CHECK(second_step(&chip, 1, 76, 0, 0).code == (bit >= 2 && bit <= 6 ? 0 : 6));
        chip = fresh();
        chip.converted = (uint8_t)(1 << bit);
        CHECK(second_step(&chip, 1, 76, 0, 0).code == (bit <= 1 ? 0 : 6));
        chip = fresh();
        chip.therm2 = (uint8_t)(1 << bit);
        CHECK(second_step(&chip, 1, 76, 0, 0).code == (bit <= 1 ? 0 : 6));
        chip = fresh();
        chip.alert_latch = (uint8_t)(1 << bit);
        CHECK(second_step(&chip, 1, 76, 0, 0).code == (bit == 0 ? 0 : 6));
    }
    /* the lines are read from the refused state; a bit that is no mark holds none low */
    chip = fresh();
    (void)converting(&chip, 20, 341, 0);
    chip.run = 9;
    STEP(&chip, 8, 0, 0, 0, 6, 0, 0, 0);
    chip.alert_latch = 0;
    chip.reg[0x03] = 0x20;
    STEP(&chip, 8, 0, 0, 0, 6, 0, 0, 0);
    chip.therm2 = 4;
    STEP(&chip, 8, 0, 0, 0, 6, 0, 1, 0);
}

/* ---- the other codes ---- */

static void test_codes(void)
{
    second_chip chip = fresh();

    /* 1 */
    STEP(&chip, -1, 0, 0, 0, 1, 0, 1, 1);
    STEP(&chip, 8, 0, 0, 0, 1, 0, 1, 1);
    STEP(&chip, INT32_MIN, 0, 0, 0, 1, 0, 1, 1);
    STEP(&chip, INT32_MAX, -1, -1, -1, 1, 0, 1, 1);      /* 1 before 2 */

    /* 2: unused fields */
    static const int unused[8][3] = {
        { 1, 1, 1 }, { 0, 0, 1 }, { 0, 0, 0 }, { 0, 0, 1 }, { 0, 1, 1 }, { 1, 1, 1 }, { 1, 1, 1 }, { 0, 0, 0 } };
    for (int32_t kind = 0; kind < 8; kind++)
        for (int field = 0; field < 3; field++)
            if (unused[kind][field])
                for (int32_t value = -1; value <= 1; value += 2) {
                    int32_t f[3] = { kind >= 1 && kind <= 4 ? 76 : 0, 0, 0 };
                    f[field] = value;
                    STEP(&chip, kind, f[0], f[1], f[2], 2, 0, 1, 1);
                }

    /* 2: ranges, before 3 and 5 */
    for (int32_t kind = 1; kind <= 4; kind++) {
        STEP(&chip, kind, -1, 0, 0, 2, 0, 1, 1);
        STEP(&chip, kind, 128, 0, 0, 2, 0, 1, 1);
        STEP(&chip, kind, 0, 0, 0, 3, 0, 1, 1);
        STEP(&chip, kind, 127, 0, 0, 3, 0, 1, 1);
        STEP(&chip, kind, 12, 0, 0, 3, 0, 1, 1);
        STEP(&chip, kind, 77, 0, 0, 3, 0, 1, 1);
        if (kind != 4) {
            STEP(&chip, kind, 5, -1, 0, 2, 0, 1, 1);
            STEP(&chip, kind, 5, 256, 0, 2, 0, 1, 1);
            STEP(&chip, kind, 5, 255, 0, 3, 0, 1, 1);
        }
    }
    STEP(&chip, 2, 5, 0, -1, 2, 0, 1, 1);
    STEP(&chip, 2, 5, 0, 256, 2, 0, 1, 1);
    STEP(&chip, 2, 5, 0, 255, 3, 0, 1, 1);
    STEP(&chip, 7, -8193, 0, 0, 2, 0, 1, 1);
    STEP(&chip, 7, 8192, 0, 0, 2, 0, 1, 1);
    STEP(&chip, 7, 0, -32769, 0, 2, 0, 1, 1);
    STEP(&chip, 7, 0, 32768, 0, 2, 0, 1, 1);
    STEP(&chip, 7, 0, 0, -1, 2, 0, 1, 1);
    STEP(&chip, 7, 0, 0, 2, 2, 0, 1, 1);
    STEP(&chip, 7, -8192, -32768, 1, 5, 0, 1, 1);
    STEP(&chip, 7, 8191, 32767, 0, 5, 0, 1, 1);

    /* 3 at kind 5, 4, 5 */
    STEP(&chip, 5, 0, 0, 0, 3, 0, 1, 1);
    STEP(&chip, 6, 0, 0, 0, 0, 0, 1, 1);
    STEP(&chip, 6, 0, 0, 0, 4, 0, 1, 1);
    CHECK(status(&chip) == 0x80);
    STEP(&chip, 7, 20, 100, 0, 0, 0, 1, 1);
    CHECK(status(&chip) == 0);
    STEP(&chip, 7, 20, 100, 0, 5, 0, 1, 1);
    STEP(&chip, 2, 76, 0x09, 0x40, 0, 0, 1, 1);
    STEP(&chip, 6, 0, 0, 0, 4, 0, 1, 1);
    STEP(&chip, 2, 76, 0x0F, 0, 0, 0, 1, 1);
    STEP(&chip, 6, 0, 0, 0, 4, 0, 1, 1);
    STEP(&chip, 7, 20, 100, 0, 0, 0, 1, 1);

    /* address 77 */
    CHECK(second_fresh(&chip, 77) == 0);
    STEP(&chip, 3, 77, 0xFE, 0, 0, 0x41, 1, 1);
    STEP(&chip, 3, 76, 0xFE, 0, 3, 0, 1, 1);
    STEP(&chip, 6, 0, 0, 0, 0, 0, 1, 1);
    STEP(&chip, 7, 20, 100, 1, 0, 0, 0, 1);
    STEP(&chip, 5, 0, 0, 0, 0, 155, 0, 1);
}

/* ---- registers ---- */

/* Power-on reply of each read address, from the document. */
static int power_on(int at)
{
    switch (at) {
    case 0x05: case 0x07: case 0x19: case 0x20: return 0x55;
    case 0x04: return 0x08;
    case 0x21: return 0x0A;
    case 0x22: return 0x01;
    case 0xFE: return 0x41;
    case 0xFF: return 0x51;
    default:   return 0x00;
    }
}

/* Read address that shows what a write command stored, and what is kept of it; -1: nothing. */
static int shown_at(int command, int *kept)
{
    *kept = 0xFF;
    switch (command) {
    case 0x09: *kept = 0xE4; return 0x03;
    case 0x0A: return 0x04;
    case 0x0B: return 0x05;
    case 0x0C: return 0x06;
    case 0x0D: return 0x07;
    case 0x0E: return 0x08;
    case 0x12: case 0x13: case 0x14: *kept = 0xC0; return command;
    case 0x11: case 0x19: case 0x20: case 0x21: case 0x22: return command;
    default: return -1;
    }
}

static void test_registers(void)
{
    second_chip chip = fresh();

    STEP(&chip, 4, 76, 0, 0, 0, 0, 1, 1);
    for (int at = 0; at < 256; at++)
        CHECK(reading(&chip, at) == power_on(at));

    for (int command = 0; command < 256; command++)
        for (int data = 0; data < 256; data++) {
            int kept, target = shown_at(command, &kept);
            bool good = true;
            chip = fresh();
            STEP(&chip, 2, 76, command, data, 0, 0, 1, 1);
            good = good && chip.pointer == command;
            for (int at = 0; at < 256; at++)
                good = good && reading(&chip, at) == (at == target ? (data & kept) : power_on(at));
            CHECK(good);
        }

    /* the pointer */
    chip = fresh();
    STEP(&chip, 1, 76, 0xFF, 0, 0, 0, 1, 1);
    STEP(&chip, 4, 76, 0, 0, 0, 0x51, 1, 1);
    STEP(&chip, 4, 76, 0, 0, 0, 0x51, 1, 1);
    STEP(&chip, 3, 76, 0x04, 0, 0, 0x08, 1, 1);
    STEP(&chip, 4, 76, 0, 0, 0, 0x08, 1, 1);
    STEP(&chip, 2, 76, 0x19, 0x33, 0, 0, 1, 1);
    STEP(&chip, 4, 76, 0, 0, 0, 0x33, 1, 1);
    STEP(&chip, 2, 76, 0x0B, 0x34, 0, 0, 1, 1);
    STEP(&chip, 4, 76, 0, 0, 0, 0, 1, 1);                /* 0B is no read address */
    STEP(&chip, 2, 76, 0xFE, 0x34, 0, 0, 1, 1);
    STEP(&chip, 4, 76, 0, 0, 0, 0x41, 1, 1);             /* a write elsewhere moves the pointer only */
    STEP(&chip, 1, 77, 0x04, 0, 3, 0, 1, 1);
    STEP(&chip, 4, 76, 0, 0, 0, 0x41, 1, 1);             /* a refused event leaves it */

    /* reset keeps only the address */
    (void)second_fresh(&chip, 77);
    (void)writing(&chip, 0x0A, 3);
    (void)converting(&chip, 100, 400, 1);
    (void)second_step(&chip, 6, 0, 0, 0);
    STEP(&chip, 0, 0, 0, 0, 0, 0, 1, 1);
    second_chip again;
    (void)second_fresh(&again, 77);
    CHECK(memcmp(&again, &chip, sizeof chip) == 0);
}

/* ---- standby and one-shot ---- */

static void test_standby(void)
{
    second_chip chip = fresh();

    /* going to standby ends a running conversion with no result */
    (void)second_step(&chip, 6, 0, 0, 0);
    (void)writing(&chip, 0x09, 0x40);
    CHECK(status(&chip) == 0 && chip.converted == 0);
    STEP(&chip, 7, 20, 100, 0, 5, 0, 1, 1);
    CHECK(reading(&chip, 0x00) == 0 && reading(&chip, 0x01) == 0);

    /* one-shot; writing standby again does not end it, nor does leaving standby */
    (void)writing(&chip, 0x0F, 0x77);
    CHECK(status(&chip) == 0x80);
    (void)writing(&chip, 0x0F, 0x77);
    CHECK(status(&chip) == 0x80);
    (void)writing(&chip, 0x09, 0x44);
    CHECK(status(&chip) == 0x80);
    (void)writing(&chip, 0x09, 0x00);
    CHECK(status(&chip) == 0x80);
    STEP(&chip, 7, 20, 100, 0, 0, 0, 1, 1);
    CHECK(reading(&chip, 0x00) == 20 && reading(&chip, 0x01) == 25);

    /* one-shot outside standby does nothing */
    (void)writing(&chip, 0x0F, 0x77);
    CHECK(status(&chip) == 0 && chip.pointer == 0x02);
    STEP(&chip, 7, 20, 100, 0, 5, 0, 1, 1);

    /* a conversion cut short is not a completed one: the row goes on */
    chip = fresh();
    (void)writing(&chip, 0x22, 0x03);
    CHECK(converting(&chip, 20, 341, 0).alert == 1);
    (void)second_step(&chip, 6, 0, 0, 0);
    (void)writing(&chip, 0x09, 0x40);
    (void)writing(&chip, 0x09, 0x00);
    CHECK(converting(&chip, 20, 341, 0).alert == 0);

    /* a channel never converted is not compared (value 0 would be a low fault) */
    static const int limits[] = { 0x0B, 0x0C, 0x0D, 0x0E, 0x13, 0x14, 0x19, 0x20, 0x21 };
    chip = fresh();
    (void)writing(&chip, 0x09, 0x40);
    for (size_t i = 0; i < sizeof limits / sizeof *limits; i++) {
        STEP(&chip, 2, 76, limits[i], 0, 0, 0, 1, 1);
        CHECK(status(&chip) == 0);
    }

    /* exactly those nine commands compare, in standby only; the fault is made by the back
       door of a conversion whose fault a following limit change would have taken away */
    for (int command = 0; command < 256; command++)
        for (int standby = 0; standby <= 1; standby++) {
            bool compares = false;
            for (size_t i = 0; i < sizeof limits / sizeof *limits; i++)
                compares = compares || limits[i] == command;
            chip = fresh();
            (void)converting(&chip, 20, 200, 0);
            if (standby)
                (void)writing(&chip, 0x09, 0x40);
            chip.reg[0x06] = 20;              /* local low at the value: 20 <= 20 is a fault */
            int data = command == 0x0C ? 20 : command == 0x09 ? standby * 0x40 : 0x50;
            second_answer answer = writing(&chip, command, data);
            CHECK(answer.code == 0 && answer.reply == 0);
            CHECK((answer.alert == 0) == (compares && standby));
            CHECK((chip.reg[0x02] >> 5 & 1) == (compares && standby));
        }

    /* a standby comparison compares both channels, with the new byte in place, whatever the
       needed number, leaves the run count, and does not look at the diode */
    chip = fresh();
    (void)writing(&chip, 0x22, 0x0F);
    (void)converting(&chip, 20, 200, 1);
    CHECK(status(&chip) == 0x04);
    (void)converting(&chip, 20, 200, 0);
    CHECK(status(&chip) == 0x04 && status(&chip) == 0);
    CHECK(second_step(&chip, 5, 0, 0, 0).alert == 1);
    (void)writing(&chip, 0x09, 0x40);
    STEP(&chip, 2, 76, 0x20, 19, 0, 0, 1, 0);            /* THERM only: no limit fault, no ALERT */
    STEP(&chip, 2, 76, 0x0B, 19, 0, 0, 0, 0);
    CHECK(chip.run == 0);
    CHECK(status(&chip) == 0x41);
    STEP(&chip, 2, 76, 0x0B, 20, 0, 0, 0, 0);            /* 20 is not above 20 */
    CHECK(status(&chip) == 0x41 && status(&chip) == 0x01);
    STEP(&chip, 2, 76, 0x20, 30, 0, 0, 0, 1);            /* 20 <= 30 - 10 */
    STEP(&chip, 5, 0, 0, 0, 0, 153, 1, 1);

    /* the open verdict stands through a standby comparison */
    chip = fresh();
    (void)converting(&chip, 20, 200, 1);
    (void)writing(&chip, 0x09, 0x40);
    (void)writing(&chip, 0x0B, 0x55);
    CHECK(status(&chip) == 0x04 && status(&chip) == 0x04);

    /* also while a one-shot runs, on the values stored before */
    chip = fresh();
    (void)converting(&chip, 20, 200, 0);
    (void)writing(&chip, 0x09, 0x40);
    (void)writing(&chip, 0x0F, 0);
    STEP(&chip, 2, 76, 0x0D, 40, 0, 0, 0, 1);
    CHECK(status(&chip) == 0x90);
}

/* ---- status, ALERT, THERM ---- */

static void test_status(void)
{
    second_chip chip = fresh();

    /* each limit flag on its own, from both channels; kept while the fault stands */
    (void)converting(&chip, 86, 200, 0);
    CHECK(status(&chip) == 0x41 && status(&chip) == 0x41);
    (void)converting(&chip, 85, 200, 0);
    CHECK(status(&chip) == 0x41 && status(&chip) == 0x01);    /* 85 > 75 keeps THERM */
    (void)converting(&chip, 76, 200, 0);
    CHECK(status(&chip) == 0x01);
    (void)converting(&chip, 75, 200, 0);
    CHECK(status(&chip) == 0x00);
    (void)converting(&chip, 0, 200, 0);
    CHECK(status(&chip) == 0x20 && status(&chip) == 0x20);
    (void)converting(&chip, 1, 200, 0);
    CHECK(status(&chip) == 0x20 && status(&chip) == 0x00);
    (void)converting(&chip, 20, 0, 0);
    CHECK(status(&chip) == 0x08 && status(&chip) == 0x08);
    (void)converting(&chip, 20, 1, 0);
    CHECK(status(&chip) == 0x08 && status(&chip) == 0x00);
    (void)converting(&chip, 20, 341, 0);
    (void)converting(&chip, 20, 341, 1);
    CHECK(status(&chip) == 0x16 && status(&chip) == 0x16);
    (void)converting(&chip, 0, 0, 0);
    CHECK(status(&chip) == 0x3C && status(&chip) == 0x28);
    CHECK(chip.alert_latch == 1);

    /* reading by kind 4 counts the same; reading elsewhere clears nothing */
    chip = fresh();
    (void)converting(&chip, 86, 200, 0);
    (void)converting(&chip, 20, 200, 0);
    for (int at = 0; at < 256; at++)
        if (at != 2)
            (void)reading(&chip, at);
    CHECK(chip.reg[0x02] == 0x40);
    STEP(&chip, 1, 76, 2, 0, 0, 0, 0, 1);
    CHECK(chip.reg[0x02] == 0x40);
    STEP(&chip, 4, 76, 0, 0, 0, 0x40, 0, 1);
    STEP(&chip, 4, 76, 0, 0, 0, 0x00, 0, 1);

    /* the latch: a status read does not clear it; kind 5 replies but keeps it while a flag stands */
    chip = fresh();
    (void)converting(&chip, 20, 200, 1);
    STEP(&chip, 5, 0, 0, 0, 0, 153, 0, 1);
    (void)converting(&chip, 20, 200, 0);
    STEP(&chip, 5, 0, 0, 0, 0, 153, 0, 1);               /* flag still latched */
    STEP(&chip, 3, 76, 2, 0, 0, 0x04, 0, 1);
    STEP(&chip, 5, 0, 0, 0, 0, 153, 1, 1);
    STEP(&chip, 5, 0, 0, 0, 3, 0, 1, 1);
    CHECK(chip.pointer == 2);

    /* THERM flags alone do not hold the latch */
    chip = fresh();
    (void)converting(&chip, 86, 200, 0);
    (void)converting(&chip, 80, 200, 0);
    CHECK(status(&chip) == 0x41);
    STEP(&chip, 5, 0, 0, 0, 0, 153, 1, 0);

    /* bit 7 of the configuration, and bit 5 with no mark set, hold the line high and refuse kind 5;
       the latch stays */
    for (int bits = 0; bits < 4; bits++) {
        int configuration = (bits & 1 ? 0x80 : 0) | (bits & 2 ? 0x20 : 0);
        chip = fresh();
        (void)writing(&chip, 0x09, configuration);
        CHECK(converting(&chip, 20, 200, 1).alert == (bits != 0));
        if (bits != 0)
            STEP(&chip, 5, 0, 0, 0, 3, 0, 1, 1);
        CHECK(writing(&chip, 0x09, 0x00).alert == 0);
    }

    /* the latch set again by the run count, once cleared, and a row broken */
    chip = fresh();
    (void)writing(&chip, 0x22, 0x07);                    /* needs 3 */
    CHECK(converting(&chip, 20, 341, 0).alert == 1);
    CHECK(converting(&chip, 0, 200, 0).alert == 1);      /* any fault counts */
    CHECK(converting(&chip, 20, 200, 0).alert == 1);     /* broken */
    CHECK(converting(&chip, 20, 341, 0).alert == 1);
    CHECK(converting(&chip, 20, 0, 0).alert == 1);
    CHECK(converting(&chip, 90, 0, 0).alert == 0);
    /* held at 4; the needed number is looked at only at a conversion */
    chip = fresh();
    (void)writing(&chip, 0x22, 0x0F);
    for (int i = 0; i < 3; i++)
        CHECK(converting(&chip, 20, 341, 0).alert == 1);
    CHECK(writing(&chip, 0x22, 0x01).alert == 1);
    CHECK(converting(&chip, 20, 341, 0).alert == 0 && chip.run == 4);
    CHECK(converting(&chip, 20, 341, 0).alert == 0 && chip.run == 4);
    CHECK(converting(&chip, 20, 341, 0).alert == 0 && chip.run == 4);
    CHECK(converting(&chip, 20, 200, 0).alert == 0 && chip.run == 0);
}

/* ---- the open diode: document 02, Item 3 ---- */

/* A chip whose conversions are kinds 6 and 7, or one-shots in standby. */
static second_chip fresh_in(bool standby)
{
    second_chip chip = fresh();
    (void)writing(&chip, 0x09, standby ? 0x40 : 0);
    return chip;
}

/* A limit write that compares nothing, in standby neither. */
static void write_uncompared(second_chip *chip, int command, int data)
{
    int configuration = chip->reg[0x03];
    (void)writing(chip, 0x09, configuration & ~0x40);
    (void)writing(chip, command, data);
    (void)writing(chip, 0x09, configuration);
}

static int remote_stored(second_chip *chip)
{
    int fraction = reading(chip, 0x10);
    return fraction % 64 != 0 ? -1 : reading(chip, 0x01) * 4 + fraction / 64;
}

static const int32_t open_samples[] = { -32768, -513, -1, 0, 1, 200, 300, 301, 341, 511, 512, 1023, 32767 };
enum { OPEN_SAMPLES = sizeof open_samples / sizeof *open_samples };

/* The byte that a limit command would write without changing anything. */
static int standing_limit(const second_chip *chip, int command)
{
    return chip->reg[command <= 0x0E ? command - 6 : command];
}

/* "stores ... only the local channel, and the remote value ... stand as they were" */
static void test_open_value(bool standby)
{
    for (int i = 0; i < OPEN_SAMPLES; i++) {
        /* the power-on 0, and no verdict on it: 0 would be a low fault */
        second_chip chip = fresh_in(standby);
        second_answer answer = converting(&chip, 20, open_samples[i], 1);
        CHECK(answer.code == 0 && answer.reply == 0 && answer.alert == 0 && answer.therm == 1);
        CHECK(remote_stored(&chip) == 0 && reading(&chip, 0x00) == 20 && chip.converted == 1);
        CHECK(chip.reg[0x02] == 0x04 && chip.found == 0x04 && chip.run == 0);
        CHECK(status(&chip) == 0x04 && status(&chip) == 0x04);
        STEP(&chip, 7, 20, 100, 1, 5, 0, 0, 1);              /* it ended */

        /* the last good one, through several */
        (void)converting(&chip, 30, 201, 0);
        CHECK(remote_stored(&chip) == 201 && chip.converted == 3);
        (void)converting(&chip, 31, open_samples[i], 1);
        CHECK(remote_stored(&chip) == 201 && reading(&chip, 0x00) == 31 && chip.converted == 3);
        (void)converting(&chip, 32, -open_samples[i] - 1, 1);
        CHECK(remote_stored(&chip) == 201 && reading(&chip, 0x00) == 32 && chip.converted == 3);

        /* neither offset nor range touch it, the range does the local value */
        (void)writing(&chip, 0x11, 0x05);
        (void)writing(&chip, 0x12, 0xC0);
        (void)writing(&chip, 0x09, standby ? 0x44 : 0x04);
        (void)converting(&chip, 20, open_samples[i], 1);
        CHECK(remote_stored(&chip) == 201 && reading(&chip, 0x00) == 84);
        (void)converting(&chip, 20, 100, 0);
        CHECK(remote_stored(&chip) == 379 && reading(&chip, 0x00) == 84);
        (void)converting(&chip, -70, open_samples[i], 1);
        CHECK(remote_stored(&chip) == 379 && reading(&chip, 0x00) == 0);
    }

    /* its sample is not used, but has its range */
    second_chip chip = fresh_in(standby);
    (void)(standby ? writing(&chip, 0x0F, 0) : second_step(&chip, 6, 0, 0, 0));
    STEP(&chip, 7, 20, 32768, 1, 2, 0, 1, 1);
    STEP(&chip, 7, 20, -32769, 1, 2, 0, 1, 1);
    STEP(&chip, 7, 20, -32768, 1, 0, 0, 0, 1);
}

/* "the remote value, remote THERM flag ... stand as they were" */
static void test_open_therm(bool standby)
{
    for (int i = 0; i < OPEN_SAMPLES; i++) {
        second_chip chip = fresh_in(standby);
        (void)converting(&chip, 20, 200, 0);
        CHECK(converting(&chip, 20, open_samples[i], 1).therm == 1);
        (void)converting(&chip, 20, 341, 0);
        CHECK(converting(&chip, 20, open_samples[i], 1).therm == 0);
        CHECK(converting(&chip, 20, open_samples[i], 1).therm == 0 && (chip.reg[0x02] & 0x03) == 0x02);
        CHECK(converting(&chip, 20, 301, 0).therm == 0);
        CHECK(converting(&chip, 20, 300, 0).therm == 1);
    }
    /* nor is the kept value compared: its limits may have moved */
    second_chip chip = fresh_in(standby);
    (void)converting(&chip, 20, 200, 0);
    write_uncompared(&chip, 0x19, 40);
    CHECK(converting(&chip, 20, 200, 1).therm == 1 && converting(&chip, 20, 200, 0).therm == 0);
    write_uncompared(&chip, 0x19, 80);
    CHECK(converting(&chip, 20, 200, 1).therm == 0 && converting(&chip, 20, 200, 0).therm == 1);
    /* the local flag is worked out as always, beside a remote one that stands */
    CHECK(converting(&chip, 86, 200, 1).therm == 0 && (chip.reg[0x02] & 0x03) == 0x01);
    CHECK(converting(&chip, 76, 200, 1).therm == 0 && converting(&chip, 75, 200, 1).therm == 1);
    (void)converting(&chip, 86, 341, 0);
    CHECK(converting(&chip, 75, 200, 1).therm == 0 && (chip.reg[0x02] & 0x03) == 0x02);
}

/* "the latest remote limit verdicts stand as they were" */
static void test_open_verdicts(bool standby)
{
    for (int i = 0; i < OPEN_SAMPLES; i++) {
        /* found: the flag stays through status reads, until a good conversion finds otherwise */
        second_chip chip = fresh_in(standby);
        (void)converting(&chip, 20, 341, 0);
        (void)converting(&chip, 20, open_samples[i], 1);
        CHECK(chip.reg[0x02] == 0x16 && chip.found == 0x14);
        CHECK(status(&chip) == 0x16 && status(&chip) == 0x16);
        (void)converting(&chip, 20, open_samples[i], 1);
        CHECK(status(&chip) == 0x16 && status(&chip) == 0x16);
        (void)converting(&chip, 20, 300, 0);
        CHECK(status(&chip) == 0x14 && status(&chip) == 0x00);
        (void)converting(&chip, 20, 0, 0);
        (void)converting(&chip, 20, open_samples[i], 1);
        CHECK(status(&chip) == 0x0C && status(&chip) == 0x0C && chip.found == 0x0C);

        /* not found: the flag that stood before is cleared by the next status read, and not before it */
        chip = fresh_in(standby);
        (void)converting(&chip, 20, 341, 0);
        (void)converting(&chip, 20, 0, 0);
        (void)converting(&chip, 20, 1, 0);
        (void)converting(&chip, 20, open_samples[i], 1);
        CHECK(chip.reg[0x02] == 0x1C && chip.found == 0x04);
        CHECK(status(&chip) == 0x1C && status(&chip) == 0x04);
    }
    /* the kept value is not compared either */
    second_chip chip = fresh_in(standby);
    (void)converting(&chip, 20, 200, 0);
    write_uncompared(&chip, 0x0D, 40);
    write_uncompared(&chip, 0x0E, 60);
    (void)converting(&chip, 20, 200, 1);
    CHECK(status(&chip) == 0x04);
    (void)converting(&chip, 20, 200, 0);
    write_uncompared(&chip, 0x0D, 60);
    write_uncompared(&chip, 0x0E, 40);
    (void)converting(&chip, 20, 200, 1);
    CHECK(status(&chip) == 0x1C && status(&chip) == 0x1C);
    (void)converting(&chip, 20, 200, 0);
    CHECK(status(&chip) == 0x1C && status(&chip) == 0x00);
}

/* "sets the open flag and the latch": whatever number is needed, and its check is made */
static void test_open_flag(bool standby)
{
    static const int pattern[] = { 0x01, 0x03, 0x07, 0x0F, 0x05, 0x0B };

    for (int i = 0; i < 6; i++) {
        second_chip chip = fresh_in(standby);
        (void)writing(&chip, 0x22, pattern[i]);
        CHECK(converting(&chip, 20, 200, 1).alert == 0 && chip.alert_latch == 1);
        CHECK(status(&chip) == 0x04 && status(&chip) == 0x04);
        STEP(&chip, 5, 0, 0, 0, 0, 153, 0, 1);               /* the flag holds the latch */
        (void)converting(&chip, 20, 200, 0);
        CHECK(status(&chip) == 0x04 && status(&chip) == 0x00);
        STEP(&chip, 5, 0, 0, 0, 0, 153, 1, 1);
        CHECK(converting(&chip, 20, 200, 1).alert == 0);     /* once more */
        (void)converting(&chip, 20, 200, 0);
        (void)converting(&chip, 20, 200, 1);
        CHECK(status(&chip) == 0x04 && status(&chip) == 0x04);
    }
    /* behind a masked line */
    second_chip chip = fresh_in(standby);
    (void)writing(&chip, 0x09, standby ? 0xC0 : 0x80);
    CHECK(converting(&chip, 20, 200, 1).alert == 1 && chip.alert_latch == 1);
    CHECK(writing(&chip, 0x09, standby ? 0x40 : 0x00).alert == 0);
}

/* "stores and compares only the local channel": as always */
static void test_open_local(bool standby)
{
    second_chip chip = fresh_in(standby);
    (void)converting(&chip, 86, 200, 1);
    CHECK(reading(&chip, 0x00) == 86 && status(&chip) == 0x45 && status(&chip) == 0x45);
    (void)converting(&chip, 20, 200, 1);
    CHECK(reading(&chip, 0x00) == 20 && status(&chip) == 0x44 && status(&chip) == 0x04);
    (void)converting(&chip, 0, 200, 1);
    CHECK(reading(&chip, 0x00) == 0 && status(&chip) == 0x24 && status(&chip) == 0x24);
    (void)converting(&chip, 1, 200, 1);
    CHECK(status(&chip) == 0x24 && status(&chip) == 0x04);
    (void)converting(&chip, 8191, 200, 1);
    CHECK(reading(&chip, 0x00) == 127 && status(&chip) == 0x45);
    (void)converting(&chip, -8192, 200, 1);
    CHECK(reading(&chip, 0x00) == 0 && status(&chip) == 0x64 && status(&chip) == 0x24);
}

/* "For the remote channel it doesn't count as a conversion; earlier ones still do." */
static void test_open_converted(bool standby)
{
    static const int limits[] = { 0x0B, 0x0C, 0x0D, 0x0E, 0x13, 0x14, 0x19, 0x20, 0x21 };

    /* no good one: the local channel alone is compared, though the value put there by the back door has a
       high, a low and a THERM fault */
    for (size_t i = 0; i < sizeof limits / sizeof *limits; i++) {
        second_chip chip = fresh_in(standby);
        (void)converting(&chip, 20, 400, 1);
        (void)converting(&chip, 20, 400, 1);
        (void)writing(&chip, 0x09, 0x40);
        chip.reg[0x01] = 100;
        chip.reg[0x08] = 100;
        chip.reg[0x05] = 19;
        chip.reg[0x20] = 19;
        chip.alert_latch = 0;
        STEP(&chip, 2, 76, limits[i], standing_limit(&chip, limits[i]), 0, 0, 0, 0);
        CHECK(chip.reg[0x02] == 0x45 && chip.found == 0x44);
        /* the first good one makes it compared, and one with the diode open behind it leaves that */
        (void)converting(&chip, 20, 400, 0);
        chip.reg[0x02] = 0;
        (void)writing(&chip, limits[i], standing_limit(&chip, limits[i]));
        CHECK(chip.reg[0x02] == 0x5B);
        (void)converting(&chip, 20, 400, 1);
        chip.reg[0x02] = 0;
        (void)writing(&chip, limits[i], standing_limit(&chip, limits[i]));
        CHECK(chip.reg[0x02] == 0x5B);
        /* a power-on forgets it */
        (void)second_step(&chip, 0, 0, 0, 0);
        (void)converting(&chip, 20, 400, 1);
        (void)writing(&chip, 0x09, 0x40);
        (void)writing(&chip, limits[i], 0);
        CHECK((chip.reg[0x02] & 0x1A) == 0 && chip.converted == 1);
    }

    /* K12 with a probe pulled: the kept value is compared, and the verdict is a new one */
    second_chip chip = fresh_in(standby);
    (void)converting(&chip, 20, 200, 0);
    (void)converting(&chip, 20, 100, 1);
    (void)writing(&chip, 0x09, 0x40);
    chip.alert_latch = 0;
    STEP(&chip, 2, 76, 0x0D, 50, 0, 0, 1, 1);
    CHECK(status(&chip) == 0x04);
    STEP(&chip, 2, 76, 0x0D, 49, 0, 0, 0, 1);
    CHECK(status(&chip) == 0x14);
    (void)converting(&chip, 20, 100, 1);
    CHECK(status(&chip) == 0x14 && status(&chip) == 0x14);
    (void)writing(&chip, 0x0D, 50);
    (void)converting(&chip, 20, 400, 1);
    CHECK(status(&chip) == 0x14 && status(&chip) == 0x04);
}

/* "The run count looks at local faults only in that conversion." */
static void test_open_run(bool standby)
{
    second_chip chip = fresh_in(standby);
    (void)writing(&chip, 0x22, 0x0F);
    (void)converting(&chip, 20, 341, 0);
    CHECK(chip.run == 1);
    (void)converting(&chip, 86, 200, 1);                     /* a local fault: the row goes on */
    CHECK(chip.run == 2);
    (void)converting(&chip, 0, 341, 1);
    CHECK(chip.run == 3);
    (void)converting(&chip, 20, 341, 0);
    CHECK(chip.run == 4);
    (void)converting(&chip, 86, 200, 1);
    CHECK(chip.run == 4);
    (void)converting(&chip, 20, 341, 1);                     /* none, with remote sample, flag and verdict at fault */
    CHECK(chip.run == 0 && (chip.found & 0x10) != 0 && (chip.reg[0x02] & 0x10) != 0);
    (void)converting(&chip, 20, 341, 1);
    CHECK(chip.run == 0);
    (void)converting(&chip, 20, 0, 0);
    CHECK(chip.run == 1);

    /* at the line: the row of 3 is reached only by the conversions that count. Between the last two the flags
       are cleared by limits moved in standby, which leave the count, and then the latch. */
    static const struct { int32_t local; int alert; } rows[] = { { 20, 1 }, { 86, 0 } };
    for (int i = 0; i < 2; i++) {
        chip = fresh_in(standby);
        (void)writing(&chip, 0x22, 0x07);
        (void)converting(&chip, 20, 341, 0);                 /* 1 */
        (void)converting(&chip, rows[i].local, 341, 1);      /* 0, or with a local fault 2 */
        (void)converting(&chip, 20, 341, 0);                 /* 1 or 3 */
        (void)writing(&chip, 0x09, 0x40);
        (void)writing(&chip, 0x0D, 0x7F);
        (void)status(&chip);
        CHECK(status(&chip) == 0x02);
        STEP(&chip, 5, 0, 0, 0, 0, 153, 1, 0);
        (void)writing(&chip, 0x09, standby ? 0x40 : 0x00);
        write_uncompared(&chip, 0x0D, 0x55);
        CHECK(converting(&chip, 20, 341, 0).alert == rows[i].alert);
    }
}

/* A probe pulled on a board, told as a trace. */
#define PULLED RECORD(6, 0, 0, 0) RECORD(7, 20, 341, 0) RECORD(6, 0, 0, 0) RECORD(7, 20, -32768, 1) \
    RECORD(3, 76, 1, 0) RECORD(3, 76, 16, 0) RECORD(3, 76, 2, 0) RECORD(3, 76, 2, 0) \
    RECORD(6, 0, 0, 0) RECORD(7, 20, 200, 0) RECORD(3, 76, 1, 0) RECORD(3, 76, 2, 0) RECORD(3, 76, 2, 0) \
    RECORD(5, 0, 0, 0)
#define PULLED_ANSWERS ANSWER(0, 0, 1, 1) ANSWER(0, 0, 0, 0) ANSWER(0, 0, 0, 0) ANSWER(0, 0, 0, 0) \
    ANSWER(0, 85, 0, 0) ANSWER(0, 64, 0, 0) ANSWER(0, 22, 0, 0) ANSWER(0, 22, 0, 0) \
    ANSWER(0, 0, 0, 0) ANSWER(0, 0, 0, 1) ANSWER(0, 50, 0, 1) ANSWER(0, 20, 0, 1) ANSWER(0, 0, 0, 1) \
    ANSWER(0, 153, 1, 1)

static void test_open_diode(void)
{
    for (int standby = 0; standby <= 1; standby++) {
        test_open_value(standby);
        test_open_therm(standby);
        test_open_verdicts(standby);
        test_open_flag(standby);
        test_open_local(standby);
        test_open_converted(standby);
        test_open_run(standby);
    }
}

/* ---- pin 6 as THERM2: document 02, Item 4 ---- */

static second_chip fresh_therm2(bool standby)
{
    second_chip chip = fresh();
    (void)writing(&chip, 0x09, standby ? 0x60 : 0x20);
    return chip;
}

/* Whether a conversion leaves pin 6 so, and these marks: bit 0 local, bit 1 remote. */
static bool marks_at(second_chip *chip, int32_t local, int32_t remote, int alert, int marks)
{
    second_answer answer = converting(chip, local, remote, 0);
    return answer.code == 0 && answer.reply == 0 && answer.alert == alert && chip->therm2 == marks;
}

/* "set above the high limit, cleared at or below that limit less the hysteresis (not under 0),
   otherwise kept" */
static void test_therm2_marks(bool standby)
{
    second_chip chip = fresh_therm2(standby);
    CHECK(marks_at(&chip, 85, 200, 1, 0));               /* local: 85 and 75 */
    CHECK(marks_at(&chip, 86, 200, 0, 1));
    CHECK(marks_at(&chip, 85, 200, 0, 1));
    CHECK(marks_at(&chip, 76, 200, 0, 1));
    CHECK(marks_at(&chip, 75, 200, 1, 0));
    CHECK(marks_at(&chip, 76, 200, 1, 0));

    (void)writing(&chip, 0x0D, 80);                      /* remote, both bytes: 322 and 282 */
    (void)writing(&chip, 0x13, 0x80);
    CHECK(marks_at(&chip, 20, 321, 1, 0));
    CHECK(marks_at(&chip, 20, 322, 1, 0));
    CHECK(marks_at(&chip, 20, 323, 0, 2));
    CHECK(marks_at(&chip, 20, 321, 0, 2));
    CHECK(marks_at(&chip, 20, 283, 0, 2));
    CHECK(marks_at(&chip, 20, 282, 1, 0));
    CHECK(marks_at(&chip, 20, 283, 1, 0));
    CHECK(marks_at(&chip, 20, 312, 1, 0));

    CHECK(marks_at(&chip, 86, 323, 0, 3));               /* either holds the line */
    CHECK(marks_at(&chip, 76, 282, 0, 1));
    CHECK(marks_at(&chip, 76, 323, 0, 3));
    CHECK(marks_at(&chip, 75, 283, 0, 2));
    CHECK(marks_at(&chip, 75, 282, 1, 0));

    (void)writing(&chip, 0x21, 90);                      /* K9: only at code 0 */
    CHECK(marks_at(&chip, 86, 323, 0, 3));
    CHECK(marks_at(&chip, 1, 1, 0, 3));
    CHECK(marks_at(&chip, 0, 1, 0, 2));
    CHECK(marks_at(&chip, 0, 0, 1, 0));

    write_uncompared(&chip, 0x0D, 5);                    /* the low byte is under 0 too: 23 - 24 */
    write_uncompared(&chip, 0x13, 0xC0);
    write_uncompared(&chip, 0x21, 6);
    CHECK(marks_at(&chip, 20, 23, 1, 0));
    CHECK(marks_at(&chip, 20, 24, 0, 2));
    CHECK(marks_at(&chip, 20, 3, 0, 2));
    CHECK(marks_at(&chip, 20, 1, 0, 2));
    CHECK(marks_at(&chip, 20, 0, 1, 0));
    write_uncompared(&chip, 0x21, 5);                    /* and is not where the rest is not: 3 */
    CHECK(marks_at(&chip, 20, 24, 0, 2));
    CHECK(marks_at(&chip, 20, 4, 0, 2));
    CHECK(marks_at(&chip, 20, 3, 1, 0));
    write_uncompared(&chip, 0x21, 0);                    /* no hysteresis: nothing is between */
    CHECK(marks_at(&chip, 20, 24, 0, 2));
    CHECK(marks_at(&chip, 20, 23, 1, 0));

    /* not by the THERM limits, and THERM not by the high ones */
    chip = fresh_therm2(standby);
    (void)writing(&chip, 0x0B, 40);
    (void)writing(&chip, 0x0D, 40);
    static const struct { int32_t local, remote; int alert, therm; } cooling[] = {
        { 40, 160, 1, 1 }, { 41, 160, 0, 1 }, { 85, 160, 0, 1 }, { 86, 160, 0, 0 },
        { 76, 160, 0, 0 }, { 75, 160, 0, 1 }, { 31, 160, 0, 1 }, { 30, 160, 1, 1 },
        { 20, 161, 0, 1 }, { 20, 341, 0, 0 }, { 20, 301, 0, 0 }, { 20, 300, 0, 1 },
        { 20, 121, 0, 1 }, { 20, 120, 1, 1 } };
    for (size_t i = 0; i < sizeof cooling / sizeof *cooling; i++) {
        second_answer answer = converting(&chip, cooling[i].local, cooling[i].remote, 0);
        CHECK(answer.alert == cooling[i].alert && answer.therm == cooling[i].therm);
    }
    write_uncompared(&chip, 0x0B, 0xFF);
    write_uncompared(&chip, 0x0D, 0xFF);
    CHECK(marks_at(&chip, 86, 341, 1, 0) && (chip.reg[0x02] & 0x03) == 0x03);

    /* at once, whatever number is needed, and not by low faults or the diode */
    chip = fresh_therm2(standby);
    (void)writing(&chip, 0x22, 0x0F);
    CHECK(marks_at(&chip, 86, 200, 0, 1) && chip.alert_latch == 0 && chip.run == 1);
    CHECK(marks_at(&chip, 0, 0, 1, 0));
    CHECK(converting(&chip, 0, 0, 1).alert == 1 && chip.alert_latch == 1 && chip.therm2 == 0);
}

/* Every code, from both states of each mark, against the rule's words: quarters for the remote
   thresholds, degrees for the local ones. */
static void test_therm2_codes(void)
{
    static const int limits[] = { 0, 1, 3, 23, 24, 202, 340, 511, 765, 1020, 1023 };
    static const int degrees[] = { 0, 1, 5, 6, 90, 255 };

    for (size_t i = 0; i < sizeof limits / sizeof *limits; i++)
        for (size_t j = 0; j < sizeof degrees / sizeof *degrees; j++) {
            int limit = limits[i], less = degrees[j];
            bool good = true;
            second_chip start = fresh();
            (void)writing(&start, 0x09, 0x24);
            (void)writing(&start, 0x0B, limit / 4);
            (void)writing(&start, 0x0D, limit / 4);
            (void)writing(&start, 0x13, limit % 4 * 64);
            (void)writing(&start, 0x21, less);
            for (int code = 0; code < 1024; code++)
                for (int marks = 0; marks < 4; marks++) {
                    second_chip chip = start;
                    int local = marks & 1, remote = marks & 2;
                    if (code / 4 > limit / 4)
                        local = 1;
                    else if (code / 4 == 0 || code / 4 + less <= limit / 4)
                        local = 0;
                    if (code > limit)
                        remote = 2;
                    else if (code == 0 || code + 4 * less <= limit)
                        remote = 0;
                    chip.therm2 = (uint8_t)marks;
                    int line = (local | remote) == 0;
                    good = good && marks_at(&chip, code / 4 - 64, code - 256, line, local | remote);
                }
            CHECK(good);
        }
}

/* "worked out at the same comparisons as THERM": at exactly nine writes in standby, for each
   channel converted, in either role. The values that change the marks come by the back door. */
static void test_therm2_compared(void)
{
    for (int command = 0; command < 256; command++)
        for (int bits = 0; bits < 4; bits++)
            for (int channels = 0; channels <= 3; channels++) {
                if (channels == 2)
                    continue;                            /* no run converts the remote one alone */
                bool limit = (command >= 0x0B && command <= 0x0E) || command == 0x13
                    || command == 0x14 || command == 0x19 || command == 0x20 || command == 0x21;
                bool kept = command >= 0x09 && command <= 0x22;
                int compared = limit && (bits & 1) ? channels : 0;
                int role = bits & 2 ? 0x20 : 0;
                second_chip chip = fresh();
                if (channels != 0)
                    (void)converting(&chip, 20, 200, channels == 1);
                (void)writing(&chip, 0x09, (bits & 1 ? 0x40 : 0) | role);
                int data = kept ? standing_limit(&chip, command) : 0x50;
                chip.therm2 = 0;
                chip.alert_latch = 0;
                second_chip high = chip, low = chip;
                high.reg[0x00] = 86;
                high.reg[0x01] = 86;
                (void)writing(&high, command, data);
                CHECK(high.therm2 == compared && (high.reg[0x02] & 0x03) == compared);
                low.reg[0x00] = 75;
                low.reg[0x01] = 75;
                low.therm2 = 3;
                low.reg[0x02] |= 0x03;
                (void)writing(&low, command, data);
                CHECK(low.therm2 == (3 & ~compared) && (low.reg[0x02] & 0x03) == (3 & ~compared));
            }

    /* K12 in the THERM2 role, with the new byte in place */
    second_chip chip = fresh_therm2(true);
    STEP(&chip, 2, 76, 0x0D, 0, 0, 0, 1, 1);             /* not converted */
    STEP(&chip, 2, 76, 0x0D, 50, 0, 0, 1, 1);
    (void)converting(&chip, 20, 202, 0);
    CHECK(chip.therm2 == 2);
    STEP(&chip, 2, 76, 0x13, 0x80, 0, 0, 0, 1);          /* 202 is not above 202, above 162 */
    STEP(&chip, 2, 76, 0x21, 0, 0, 0, 1, 1);             /* at 202 */
    STEP(&chip, 2, 76, 0x13, 0x40, 0, 0, 0, 1);
    STEP(&chip, 2, 76, 0x0D, 55, 0, 0, 1, 1);
    STEP(&chip, 2, 76, 0x0B, 19, 0, 0, 0, 1);
    STEP(&chip, 2, 76, 0x0B, 20, 0, 0, 1, 1);
    /* while a one-shot runs, on the values stored before */
    STEP(&chip, 2, 76, 0x0F, 0, 0, 0, 1, 1);
    STEP(&chip, 2, 76, 0x0B, 19, 0, 0, 0, 1);
    STEP(&chip, 7, 19, 202, 0, 0, 0, 1, 1);

    /* no other moment: out of standby the mark stays until the next conversion */
    chip = fresh_therm2(false);
    (void)converting(&chip, 20, 200, 0);
    STEP(&chip, 2, 76, 0x0B, 10, 0, 0, 1, 1);
    STEP(&chip, 2, 76, 0x21, 0, 0, 0, 1, 1);
    STEP(&chip, 3, 76, 0x02, 0, 0, 0, 1, 1);
    STEP(&chip, 2, 76, 0x09, 0x60, 0, 0, 1, 1);
    STEP(&chip, 2, 76, 0x09, 0x20, 0, 0, 1, 1);
    STEP(&chip, 5, 0, 0, 0, 3, 0, 1, 1);
    STEP(&chip, 6, 0, 0, 0, 0, 0, 1, 1);
    STEP(&chip, 7, 20, 200, 0, 0, 0, 0, 1);
    STEP(&chip, 2, 76, 0x0B, 0x55, 0, 0, 0, 1);
    STEP(&chip, 6, 0, 0, 0, 0, 0, 0, 1);
    STEP(&chip, 2, 76, 0x09, 0x60, 0, 0, 0, 1);          /* cut short: no result */
    STEP(&chip, 2, 76, 0x09, 0x24, 0, 0, 0, 1);          /* another range: not until it converts */
    STEP(&chip, 6, 0, 0, 0, 0, 0, 0, 1);
    STEP(&chip, 7, 21, 60, 0, 0, 0, 1, 1);
    STEP(&chip, 6, 0, 0, 0, 0, 0, 1, 1);
    STEP(&chip, 7, 22, 60, 0, 0, 0, 0, 0);
}

/* "The line is low while either mark is set, whatever bit 7 says"; "the answer's alert line then
   reports pin 6 in either role, while kind 5 is answered only in the ALERT role": every case */
static void test_therm2_line(void)
{
    for (int marks = 0; marks < 4; marks++)
        for (int configuration = 0; configuration < 0x100; configuration++)
            for (int latch = 0; latch <= 1; latch++) {
                if ((configuration & ~0xE4) != 0)
                    continue;
                second_chip chip = fresh();
                chip.reg[0x03] = (uint8_t)configuration;
                chip.therm2 = (uint8_t)marks;
                chip.alert_latch = (uint8_t)latch;
                second_chip asked = chip;
                bool alert_low = latch == 1 && (configuration & 0xA0) == 0;
                int line = configuration & 0x20 ? marks == 0 : !alert_low;
                STEP(&chip, 1, 76, 0x02, 0, 0, 0, line, 1);
                STEP(&chip, 1, 77, 0x02, 0, 3, 0, line, 1);
                STEP(&chip, 9, 0, 0, 0, 1, 0, line, 1);
                STEP(&chip, 3, 76, 0x02, 0, 0, 0, line, 1);
                if (alert_low)
                    STEP(&asked, 5, 0, 0, 0, 0, 153, 1, 1);
                else
                    STEP(&asked, 5, 0, 0, 0, 3, 0, line, 1);
                CHECK(asked.therm2 == marks);

                /* the other role has the same marks and the same latch */
                int other = configuration ^ 0x20;
                alert_low = latch == 1 && (other & 0xA0) == 0;
                line = other & 0x20 ? marks == 0 : !alert_low;
                STEP(&chip, 2, 76, 0x09, other, 0, 0, line, 1);
                CHECK(chip.therm2 == marks && chip.alert_latch == latch);
                chip.run = 5;                            /* read from a refused state too */
                STEP(&chip, 0, 0, 0, 0, 6, 0, line, 1);
            }
}

/* "Codes 1 to 6 give reply byte 0 and the state as it came; alert and therm are read from that
   state": pin 6 by its role, whatever the refusal, and for code 6 whatever the state's fault */
static void test_refused_lines(void)
{
    static const struct { uint8_t configuration, latch, marks; int line; } pin[] = {
        /* THERM2: the marks alone, neither the latch nor bit 7 */
        { 0x20, 0, 0, 1 }, { 0x20, 1, 0, 1 }, { 0xA0, 0, 0, 1 }, { 0xA0, 1, 0, 1 },
        { 0x20, 0, 1, 0 }, { 0x20, 1, 1, 0 }, { 0xA0, 0, 1, 0 }, { 0xA0, 1, 1, 0 },
        { 0x20, 0, 2, 0 }, { 0x20, 1, 2, 0 }, { 0xA0, 0, 2, 0 }, { 0xA0, 1, 2, 0 },
        { 0x20, 0, 3, 0 }, { 0x20, 1, 3, 0 }, { 0xA0, 0, 3, 0 }, { 0xA0, 1, 3, 0 },
        /* ALERT: the latch and bit 7, not the marks */
        { 0x00, 0, 0, 1 }, { 0x00, 1, 0, 0 }, { 0x80, 0, 0, 1 }, { 0x80, 1, 0, 1 },
        { 0x00, 0, 1, 1 }, { 0x00, 1, 1, 0 }, { 0x80, 0, 1, 1 }, { 0x80, 1, 1, 1 },
        { 0x00, 0, 2, 1 }, { 0x00, 1, 2, 0 }, { 0x80, 0, 2, 1 }, { 0x80, 1, 2, 1 },
        { 0x00, 0, 3, 1 }, { 0x00, 1, 3, 0 }, { 0x80, 0, 3, 1 }, { 0x80, 1, 3, 1 },
    };
    static const struct { uint8_t status; int line; } therm_pin[] = {
        { 0x00, 1 }, { 0x7C, 1 }, { 0x01, 0 }, { 0x02, 0 } };

    for (size_t i = 0; i < sizeof pin / sizeof *pin; i++)
        for (size_t j = 0; j < sizeof therm_pin / sizeof *therm_pin; j++) {
            int alert = pin[i].line, therm = therm_pin[j].line;
            second_chip good = fresh();
            good.reg[0x02] = therm_pin[j].status;
            good.reg[0x03] = pin[i].configuration;
            good.alert_latch = pin[i].latch;
            good.therm2 = pin[i].marks;
            second_chip chip = good;

            /* 1 and 2 */
            STEP(&chip, 8, 0, 0, 0, 1, 0, alert, therm);
            STEP(&chip, -1, 0, 0, 0, 1, 0, alert, therm);
            STEP(&chip, 0, 1, 0, 0, 2, 0, alert, therm);
            STEP(&chip, 1, 128, 0, 0, 2, 0, alert, therm);
            STEP(&chip, 2, 76, 0x09, 256, 2, 0, alert, therm);
            STEP(&chip, 3, 76, -1, 0, 2, 0, alert, therm);
            STEP(&chip, 4, 76, 1, 0, 2, 0, alert, therm);
            STEP(&chip, 5, 12, 0, 0, 2, 0, alert, therm);
            STEP(&chip, 6, 0, 0, 1, 2, 0, alert, therm);
            STEP(&chip, 7, 20, 32768, 0, 2, 0, alert, therm);
            /* 3: another address; kind 5 unless ALERT is low, which in the ALERT role pin 6 is */
            STEP(&chip, 1, 77, 0x02, 0, 3, 0, alert, therm);
            STEP(&chip, 2, 77, 0x09, 0, 3, 0, alert, therm);
            STEP(&chip, 3, 77, 0x02, 0, 3, 0, alert, therm);
            STEP(&chip, 4, 77, 0, 0, 3, 0, alert, therm);
            if (pin[i].configuration != 0x00 || pin[i].latch == 0)
                STEP(&chip, 5, 0, 0, 0, 3, 0, alert, therm);
            /* 5; then 4: while a conversion runs, in standby, both */
            STEP(&chip, 7, 20, 200, 0, 5, 0, alert, therm);
            chip.reg[0x02] |= 0x80;
            STEP(&chip, 6, 0, 0, 0, 4, 0, alert, therm);
            chip.reg[0x03] |= 0x40;
            STEP(&chip, 6, 0, 0, 0, 4, 0, alert, therm);
            chip.reg[0x02] = good.reg[0x02];
            STEP(&chip, 6, 0, 0, 0, 4, 0, alert, therm);
            STEP(&chip, 7, 20, 200, 1, 5, 0, alert, therm);

            /* 6, by one fault of the state at a time */
            for (int fault = 0; fault < 13; fault++) {
                chip = good;
                switch (fault) {
                case 0: chip.run = 5; break;
                case 1: chip.run = 255; break;
                case 2: chip.reg[0x03] |= 0x01; break;       /* bits that 03 never keeps */
                case 3: chip.reg[0x03] |= 0x02; break;
                case 4: chip.reg[0x03] |= 0x08; break;
                case 5: chip.reg[0x03] |= 0x10; break;
                case 6: chip.address = 75; break;
                case 7: chip.address = 0; break;
                case 8: chip.reg[0x10] = 0x01; break;        /* the remote value */
                case 9: chip.reg[0x09] = 0x20; break;        /* a hole */
                case 10: chip.found = 0x80; break;
                case 11: chip.converted = 4; break;
                default: chip.therm2 |= 4; break;            /* no mark */
                }
                STEP(&chip, 0, 0, 0, 0, 6, 0, alert, therm);
                STEP(&chip, 2, chip.address, 0x09, pin[i].configuration ^ 0x20, 6, 0, alert, therm);
                STEP(&chip, 5, 0, 0, 0, 6, 0, alert, therm);
                STEP(&chip, 8, 1, 0, 0, 6, 0, alert, therm);
            }
        }
}

/* "Status flags 6 and 4 stay latched as before": the same replies in both roles */
static void test_therm2_flags(bool standby)
{
    for (int role = 0; role <= 0x20; role += 0x20) {
        int low = role == 0x20 ? 0 : 1;                  /* the line while a mark is set */
        second_chip chip = fresh();
        (void)writing(&chip, 0x09, 0x80 | (standby ? 0x40 : 0) | role);
        (void)writing(&chip, 0x19, 0xFF);
        (void)writing(&chip, 0x20, 0xFF);
        CHECK(marks_at(&chip, 86, 341, low, 3));
        CHECK(status(&chip) == 0x50 && status(&chip) == 0x50);
        CHECK(marks_at(&chip, 76, 301, low, 3));         /* the flags go, the marks are kept */
        CHECK(status(&chip) == 0x50 && status(&chip) == 0x00);
        CHECK(second_step(&chip, 1, 76, 0, 0).alert == low && chip.therm2 == 3);
        CHECK(marks_at(&chip, 75, 300, 1, 0));
        CHECK(status(&chip) == 0x00);
        CHECK(marks_at(&chip, 86, 341, low, 3));
        CHECK(marks_at(&chip, 75, 300, 1, 0));           /* the marks go, the flags stand */
        CHECK(chip.reg[0x02] == 0x50 && status(&chip) == 0x50 && status(&chip) == 0x00);
        CHECK(marks_at(&chip, 0, 0, 1, 0));
        CHECK(status(&chip) == 0x28 && status(&chip) == 0x28);
        CHECK(converting(&chip, 20, 200, 1).alert == 1);
        CHECK(status(&chip) == 0x2C && status(&chip) == 0x0C);
        CHECK(chip.alert_latch == 1);
    }
}

/* "The marks are kept up whatever bit 5 says, and are clear at power-on" */
static void test_therm2_kept_up(bool standby)
{
    enum { MASKED = 0x80, ROLE = 0x20 };
    int base = standby ? 0x40 : 0;

    /* set, kept and cleared while bit 5 is 0, behind a masked ALERT */
    second_chip chip = fresh();
    (void)writing(&chip, 0x09, base | MASKED);
    CHECK(marks_at(&chip, 86, 200, 1, 1));
    CHECK(writing(&chip, 0x09, base | ROLE).alert == 0);
    CHECK(writing(&chip, 0x09, base | MASKED).alert == 1 && chip.therm2 == 1);
    CHECK(marks_at(&chip, 76, 341, 1, 3));
    CHECK(writing(&chip, 0x09, base | ROLE).alert == 0 && chip.therm2 == 3);
    CHECK(writing(&chip, 0x09, base | MASKED).alert == 1 && chip.therm2 == 3);
    CHECK(marks_at(&chip, 75, 300, 1, 0));
    CHECK(writing(&chip, 0x09, base | ROLE).alert == 1 && chip.therm2 == 0);
    CHECK(marks_at(&chip, 76, 301, 1, 0));               /* between: kept clear */

    /* a change of bit 5 changes nothing else, nor compares, where the limits have moved */
    CHECK(marks_at(&chip, 86, 341, 0, 3));
    write_uncompared(&chip, 0x0B, 0xFF);
    write_uncompared(&chip, 0x0D, 0xFF);
    second_chip before = chip;
    for (int i = 0; i < 4; i++) {
        (void)writing(&chip, 0x09, base | (i % 2 ? ROLE : 0));
        before.reg[0x03] = chip.reg[0x03];
        before.pointer = chip.pointer;
        CHECK(memcmp(&before, &chip, sizeof chip) == 0);
    }

    /* power-on, and what lies between the thresholds after it; a refused one is none */
    STEP(&chip, 0, 0, 0, 1, 2, 0, 0, 0);
    CHECK(chip.therm2 == 3);
    STEP(&chip, 0, 0, 0, 0, 0, 0, 1, 1);
    before = fresh();
    CHECK(memcmp(&before, &chip, sizeof chip) == 0 && chip.therm2 == 0);
    (void)writing(&chip, 0x09, base | ROLE);
    CHECK(marks_at(&chip, 85, 340, 1, 0));
}

/* "An open diode leaves the remote mark as it was (item 3)." */
static void test_therm2_open(bool standby)
{
    for (int i = 0; i < OPEN_SAMPLES; i++) {
        second_chip chip = fresh_therm2(standby);
        CHECK(converting(&chip, 20, open_samples[i], 1).alert == 1 && chip.therm2 == 0);
        (void)converting(&chip, 20, 200, 0);
        CHECK(converting(&chip, 20, open_samples[i], 1).alert == 1 && chip.therm2 == 0);
        CHECK(converting(&chip, 86, open_samples[i], 1).alert == 0 && chip.therm2 == 1);
        (void)converting(&chip, 76, 341, 0);
        CHECK(converting(&chip, 76, open_samples[i], 1).alert == 0 && chip.therm2 == 3);
        CHECK(converting(&chip, 75, open_samples[i], 1).alert == 0 && chip.therm2 == 2);
        CHECK(converting(&chip, 75, open_samples[i], 1).alert == 0 && chip.therm2 == 2);
        CHECK(converting(&chip, 86, open_samples[i], 1).alert == 0 && chip.therm2 == 3);
        CHECK(marks_at(&chip, 75, 301, 0, 2) && marks_at(&chip, 75, 300, 1, 0));
    }
    /* nor is the kept value compared where its limit or the hysteresis has moved */
    second_chip chip = fresh_therm2(standby);
    (void)converting(&chip, 20, 200, 0);
    write_uncompared(&chip, 0x0D, 40);
    CHECK(converting(&chip, 20, 200, 1).alert == 1 && chip.therm2 == 0);
    CHECK(marks_at(&chip, 20, 200, 0, 2));
    write_uncompared(&chip, 0x0D, 60);
    CHECK(converting(&chip, 20, 200, 1).alert == 0 && chip.therm2 == 2);
    /* at a limit write in standby it is, if an earlier conversion was good */
    (void)writing(&chip, 0x09, 0x60);
    STEP(&chip, 2, 76, 0x0D, 60, 0, 0, 1, 1);
    STEP(&chip, 2, 76, 0x0D, 49, 0, 0, 0, 1);
    chip = fresh_therm2(standby);
    (void)converting(&chip, 20, 200, 1);
    (void)writing(&chip, 0x09, 0x60);
    chip.reg[0x01] = 50;
    chip.therm2 = 2;
    STEP(&chip, 2, 76, 0x0B, 19, 0, 0, 0, 1);
    CHECK(chip.therm2 == 3);
    STEP(&chip, 2, 76, 0x0B, 40, 0, 0, 0, 1);
    CHECK(chip.therm2 == 2);
}

/* "kind 5 is answered only in the ALERT role; the latch is kept as ever and shows when bit 5 goes
   back to 0" */
static void test_therm2_latch(bool standby)
{
    int base = standby ? 0x40 : 0;

    /* set before the role changes, with a mark and without one */
    for (int marked = 0; marked <= 1; marked++) {
        second_chip chip = fresh_in(standby);
        CHECK(converting(&chip, marked ? 86 : 0, 200, 0).alert == 0);
        int therm = !marked;
        STEP(&chip, 2, 76, 0x09, base | 0x20, 0, 0, !marked, therm);
        STEP(&chip, 5, 0, 0, 0, 3, 0, !marked, therm);
        STEP(&chip, 2, 76, 0x09, base | 0xA0, 0, 0, !marked, therm);
        STEP(&chip, 5, 0, 0, 0, 3, 0, !marked, therm);
        STEP(&chip, 2, 76, 0x09, base | 0x80, 0, 0, 1, therm);
        STEP(&chip, 5, 0, 0, 0, 3, 0, 1, therm);
        STEP(&chip, 2, 76, 0x09, base, 0, 0, 0, therm);
        STEP(&chip, 5, 0, 0, 0, 0, 153, 0, therm);       /* the flag stands */
        /* nor is it cleared in the other role once the flags are 0 */
        STEP(&chip, 2, 76, 0x09, base | 0x20, 0, 0, !marked, therm);
        CHECK(marks_at(&chip, 20, 200, 1, 0));
        CHECK((status(&chip) & 0x7C) != 0 && status(&chip) == 0);
        STEP(&chip, 5, 0, 0, 0, 3, 0, 1, 1);
        STEP(&chip, 2, 76, 0x09, base, 0, 0, 0, 1);
        STEP(&chip, 5, 0, 0, 0, 0, 153, 1, 1);
        STEP(&chip, 5, 0, 0, 0, 3, 0, 1, 1);
    }

    /* set in the THERM2 role: by the row, by the diode, in standby */
    second_chip chip = fresh_therm2(standby);
    (void)writing(&chip, 0x22, 0x03);
    CHECK(marks_at(&chip, 0, 200, 1, 0) && chip.alert_latch == 0);
    CHECK(marks_at(&chip, 0, 200, 1, 0) && chip.alert_latch == 1);
    CHECK(writing(&chip, 0x09, base).alert == 0);
    chip = fresh_therm2(standby);
    CHECK(converting(&chip, 20, 200, 1).alert == 1);
    CHECK(writing(&chip, 0x09, base).alert == 0);
    chip = fresh_therm2(standby);
    CHECK(marks_at(&chip, 20, 200, 1, 0));
    (void)writing(&chip, 0x09, 0x60);
    CHECK(writing(&chip, 0x0C, 20).alert == 1 && writing(&chip, 0x09, 0x40).alert == 0);

    /* a mark sets no latch: pin 6 is low, and ALERT is not when the role goes back */
    chip = fresh_therm2(standby);
    (void)writing(&chip, 0x22, 0x0F);
    CHECK(marks_at(&chip, 86, 341, 0, 3));
    STEP(&chip, 5, 0, 0, 0, 3, 0, 0, 0);
    STEP(&chip, 2, 76, 0x09, base, 0, 0, 1, 0);
    STEP(&chip, 5, 0, 0, 0, 3, 0, 1, 0);
    CHECK(chip.therm2 == 3);
}

/* A fan on pin 6, told as a trace: 60.25 degrees, released at 50.25. */
#define FAN RECORD(2, 76, 9, 32) RECORD(2, 76, 13, 60) RECORD(2, 76, 19, 64) \
    RECORD(6, 0, 0, 0) RECORD(7, 20, 241, 0) RECORD(6, 0, 0, 0) RECORD(7, 20, 242, 0) \
    RECORD(5, 0, 0, 0) RECORD(2, 76, 9, 160) RECORD(6, 0, 0, 0) RECORD(7, 20, 202, 0) \
    RECORD(3, 76, 2, 0) RECORD(3, 76, 2, 0) RECORD(6, 0, 0, 0) RECORD(7, 20, 0, 1) \
    RECORD(6, 0, 0, 0) RECORD(7, 20, 201, 0) RECORD(3, 76, 2, 0) RECORD(2, 76, 9, 128) \
    RECORD(2, 76, 9, 0) RECORD(5, 0, 0, 0) RECORD(2, 76, 9, 32)
#define FAN_ANSWERS ANSWER(0, 0, 1, 1) ANSWER(0, 0, 1, 1) ANSWER(0, 0, 1, 1) \
    ANSWER(0, 0, 1, 1) ANSWER(0, 0, 1, 1) ANSWER(0, 0, 1, 1) ANSWER(0, 0, 0, 1) \
    ANSWER(3, 0, 0, 1) ANSWER(0, 0, 0, 1) ANSWER(0, 0, 0, 1) ANSWER(0, 0, 0, 1) \
    ANSWER(0, 16, 0, 1) ANSWER(0, 0, 0, 1) ANSWER(0, 0, 0, 1) ANSWER(0, 0, 0, 1) \
    ANSWER(0, 0, 0, 1) ANSWER(0, 0, 1, 1) ANSWER(0, 4, 1, 1) ANSWER(0, 0, 1, 1) \
    ANSWER(0, 0, 0, 1) ANSWER(0, 153, 1, 1) ANSWER(0, 0, 1, 1)

static void test_therm2(void)
{
    test_therm2_codes();
    test_therm2_compared();
    test_therm2_line();
    test_refused_lines();
    for (int standby = 0; standby <= 1; standby++) {
        test_therm2_marks(standby);
        test_therm2_flags(standby);
        test_therm2_kept_up(standby);
        test_therm2_open(standby);
        test_therm2_latch(standby);
    }
}

/* ---- values ---- */

static int remote_code(int configuration, int high, int low, int32_t measured)
{
    second_chip chip = fresh();
    (void)writing(&chip, 0x09, configuration);
    (void)writing(&chip, 0x11, high);
    (void)writing(&chip, 0x12, low);
    (void)converting(&chip, 20, measured, 0);
    int fraction = reading(&chip, 0x10);
    return fraction % 64 != 0 ? -1 : reading(&chip, 0x01) * 4 + fraction / 64;
}

static int local_code(int configuration, int32_t measured)
{
    second_chip chip = fresh();
    (void)writing(&chip, 0x09, configuration);
    (void)converting(&chip, measured, 100, 0);
    return reading(&chip, 0x00);
}

static void test_values(void)
{
    CHECK(local_code(0, -8192) == 0 && local_code(0, -1) == 0 && local_code(0, 0) == 0);
    CHECK(local_code(0, 127) == 127 && local_code(0, 128) == 127 && local_code(0, 8191) == 127);
    CHECK(local_code(4, -8192) == 0 && local_code(4, -65) == 0 && local_code(4, -64) == 0);
    CHECK(local_code(4, -63) == 1 && local_code(4, 0) == 64 && local_code(4, 191) == 255);
    CHECK(local_code(4, 192) == 255 && local_code(4, 8191) == 255);

    CHECK(remote_code(0, 0, 0, -32768) == 0 && remote_code(0, 0, 0, 32767) == 511);
    CHECK(remote_code(4, 0, 0, -32768) == 0 && remote_code(4, 0, 0, 32767) == 1023);
    CHECK(remote_code(0, 0, 0, 511) == 511 && remote_code(0, 0, 0, 510) == 510);
    CHECK(remote_code(4, 0, 0, -256) == 0 && remote_code(4, 0, 0, -255) == 1);
    CHECK(remote_code(4, 0, 0, 767) == 1023 && remote_code(4, 0, 0, 766) == 1022);
    /* the offset before the clamp, and in 001's sample codes */
    CHECK(remote_code(0, 0xFF, 0x00, 600) == 511 && remote_code(0, 0xFF, 0x00, 512) == 508);
    CHECK(remote_code(0, 0x01, 0x00, -3) == 1);
    CHECK(remote_code(4, 0xFF, 0x00, 770) == 1022 && remote_code(4, 0x01, 0x00, -258) == 2);
    CHECK(remote_code(0, 0xFC, 0x00, 100) == 84 && remote_code(0, 0x04, 0x00, 100) == 116);
    CHECK(remote_code(0, 0x00, 0x40, 100) == 101 && remote_code(0, 0xFF, 0xC0, 100) == 99);
    for (int32_t measured = -40; measured <= 1100; measured++) {
        int32_t code = measured < 0 ? 0 : measured > 511 ? 511 : measured;
        if (remote_code(0, 0, 0, measured) != code)
            CHECK(!"every code");
    }

    /* a range change alters no stored value, limit or flag until the next conversion; 55 is then 21 degrees */
    second_chip chip = fresh();
    (void)converting(&chip, 20, 341, 0);
    STEP(&chip, 2, 76, 0x09, 0x04, 0, 0, 0, 0);
    CHECK(reading(&chip, 0x00) == 20 && reading(&chip, 0x01) == 0x55 && reading(&chip, 0x10) == 0x40);
    CHECK(reading(&chip, 0x05) == 0x55 && status(&chip) == 0x12);
    (void)converting(&chip, 21, 84, 0);                  /* 85 and 340: at the limit */
    CHECK(reading(&chip, 0x00) == 85 && status(&chip) == 0x12 && status(&chip) == 0x02);
    (void)converting(&chip, 22, 85, 0);
    CHECK(status(&chip) == 0x53);

    /* low bytes of the limits count */
    chip = fresh();
    (void)writing(&chip, 0x0D, 50);
    (void)writing(&chip, 0x13, 0x80);
    (void)writing(&chip, 0x0E, 10);
    (void)writing(&chip, 0x14, 0xC0);
    (void)converting(&chip, 20, 202, 0);
    CHECK(status(&chip) == 0);
    (void)converting(&chip, 20, 203, 0);
    CHECK(status(&chip) == 0x10);
    (void)converting(&chip, 20, 44, 0);
    CHECK(status(&chip) == 0x10 && status(&chip) == 0);
    (void)converting(&chip, 20, 43, 0);
    CHECK(status(&chip) == 0x08);
}

/* ---- the bench cases ---- */

static void test_bench_cases(void)
{
    second_chip chip;

    /* K1, K2 */
    chip = fresh();
    (void)converting(&chip, 20, 340, 0);
    CHECK((status(&chip) & 0x10) == 0);
    (void)converting(&chip, 20, 341, 0);
    CHECK((status(&chip) & 0x10) != 0);
    chip = fresh();
    (void)converting(&chip, 20, 0, 0);
    CHECK(status(&chip) == 0x08);

    /* K3 to K7 */
    CHECK(remote_code(0, 0, 0, -10) == 0);
    CHECK(remote_code(4, 0, 0, -10) == 0x3D * 4 + 2);
    CHECK(remote_code(4, 0, 0, 600) == 0xD6 * 4);
    CHECK(remote_code(0, 0, 0, 512) == 0x7F * 4 + 3);
    CHECK(remote_code(4, 0, 0, 768) == 0xFF * 4 + 3);
    CHECK(remote_code(0, 0xFF, 0x00, 341) == 0x54 * 4 + 1);
    CHECK(remote_code(0, 0x80, 0x00, 1000) == 488);
    CHECK(remote_code(0, 0x7F, 0xC0, -500) == 11);

    /* K8 */
    chip = fresh();
    CHECK(converting(&chip, 20, 341, 0).therm == 0);
    CHECK(converting(&chip, 20, 301, 0).therm == 0);
    CHECK(converting(&chip, 20, 300, 0).therm == 1);
    CHECK(converting(&chip, 20, 301, 0).therm == 1);

    /* K9, remote and local */
    chip = fresh();
    (void)writing(&chip, 0x21, 90);
    CHECK(converting(&chip, 20, 341, 0).therm == 0);
    CHECK(converting(&chip, 20, 1, 0).therm == 0);
    CHECK(converting(&chip, 20, 0, 0).therm == 1);
    CHECK(converting(&chip, 86, 200, 0).therm == 0);
    CHECK(converting(&chip, 1, 200, 0).therm == 0);
    CHECK(converting(&chip, 0, 200, 0).therm == 1);

    /* K10 */
    static const int pattern[] = { 0x01, 0x03, 0x07, 0x0F, 0x05, 0x0B };
    static const int needs[] = { 1, 2, 3, 4, 1, 2 };
    for (int i = 0; i < 6; i++)
        for (int other = 0; other < 0x100; other += 0x10) {
            chip = fresh();
            (void)writing(&chip, 0x22, pattern[i] | other);
            for (int n = 1; n <= 4; n++)
                CHECK(converting(&chip, 20, 341, 0).alert == (n < needs[i]));
        }

    /* the whole case, and K11 going on from it */
    chip = fresh();
    STEP(&chip, 6, 0, 0, 0, 0, 0, 1, 1);
    STEP(&chip, 7, 20, 341, 0, 0, 0, 0, 0);
    STEP(&chip, 3, 76, 2, 0, 0, 18, 0, 0);
    STEP(&chip, 3, 76, 2, 0, 0, 18, 0, 0);
    STEP(&chip, 6, 0, 0, 0, 0, 0, 0, 0);
    STEP(&chip, 7, 20, 300, 0, 0, 0, 0, 1);
    STEP(&chip, 3, 76, 2, 0, 0, 16, 0, 1);
    STEP(&chip, 3, 76, 2, 0, 0, 0, 0, 1);
    STEP(&chip, 5, 0, 0, 0, 0, 153, 1, 1);
    STEP(&chip, 5, 0, 0, 0, 3, 0, 1, 1);

    /* K12 */
    chip = fresh();
    (void)converting(&chip, 20, 200, 0);
    STEP(&chip, 2, 76, 0x09, 64, 0, 0, 1, 1);
    STEP(&chip, 2, 76, 0x0D, 40, 0, 0, 0, 1);
    CHECK(status(&chip) == 0x10);
    chip = fresh();
    (void)converting(&chip, 20, 200, 0);
    STEP(&chip, 2, 76, 0x0D, 40, 0, 0, 1, 1);
    CHECK(status(&chip) == 0);
    STEP(&chip, 6, 0, 0, 0, 0, 0, 1, 1);
    STEP(&chip, 7, 20, 200, 0, 0, 0, 0, 1);
    CHECK(status(&chip) == 0x10);
}

/* ---- traces ---- */

enum { ROOM = 4096, UNTOUCHED = 0xEE };

typedef struct {
    int32_t code;
    uint32_t word[4];
    uint8_t output[ROOM];
} outcome;

static uint32_t word_at(const uint8_t *from)
{
    return (uint32_t)from[0] | (uint32_t)from[1] << 8 | (uint32_t)from[2] << 16
         | (uint32_t)from[3] << 24;
}

/* What Item 5 says of any replay, whatever its room: no more records than the trace can hold, no
   more answers than they can give, and no code 8 with room enough. */
static bool within_bound(const outcome *got, size_t len, size_t room)
{
    return got->word[1] <= len / SECOND_SHORTEST_RECORD
        && got->word[3] <= (size_t)got->word[1] * SECOND_LONGEST_ANSWER
        && (got->code != 8 || room < second_room(len));
}

/* Replays with exactly sized heap copies, so that the sanitizer sees a step outside. */
static outcome replaying(int32_t address, const void *trace, size_t len, size_t room)
{
    outcome got;
    uint8_t *exact_in = len ? malloc(len) : NULL, *exact_out = room ? malloc(room) : NULL, report[16];
    if ((len && !exact_in) || (room && !exact_out))
        abort();
    if (len)
        memcpy(exact_in, trace, len);
    if (room)
        memset(exact_out, UNTOUCHED, room);
    memset(report, UNTOUCHED, sizeof report);
    got.code = second_replay(address, exact_in, len, exact_out, room, report, 16);
    memset(got.output, UNTOUCHED, ROOM);
    if (room)
        memcpy(got.output, exact_out, room < ROOM ? room : ROOM);
    for (int i = 0; i < 4; i++)
        got.word[i] = word_at(report + 4 * i);
    free(exact_in);
    free(exact_out);
    CHECK(within_bound(&got, len, room));
    return got;
}

/* Whether the replay gave these answers, then nothing more, and a report that says so. */
static void replay_at(int line, int32_t address, const char *trace, size_t len, size_t room,
                      int32_t code, uint32_t records, uint32_t used, const char *answers)
{
    outcome got = replaying(address, trace, len, room);
    size_t written = strlen(answers);
    bool good = got.code == code && got.word[0] == (uint32_t)code && got.word[1] == records
        && got.word[2] == used && got.word[3] == written && memcmp(got.output, answers, written) == 0;
    for (size_t i = written; i < ROOM; i++)
        good = good && got.output[i] == UNTOUCHED;
    check_at(__FILE__, line, good, "replay");
    if (!good)
        printf("  code %d records %u used %u written %u\n", (int)got.code, got.word[1], got.word[2], got.word[3]);
}
#define REPLAY(trace, room, code, records, used, answers) \
    replay_at(__LINE__, 76, trace, strlen(trace), room, code, records, used, answers)

static void test_replay(void)
{
    const char *whole = "kind=6\na=0\nb=0\nc=0\nkind=7\na=20\nb=341\nc=0\nkind=3\na=76\nb=2\nc=0\n";
    CHECK(strcmp(whole, WHOLE_CASE) == 0);

    REPLAY("", ROOM, 0, 0, 0, "");
    REPLAY("", 0, 0, 0, 0, "");
    REPLAY(WHOLE_CASE, ROOM, 0, 3, (uint32_t)strlen(whole), WHOLE_ANSWERS);
    REPLAY(WHOLE_CASE K11, ROOM, 0, 10, (uint32_t)strlen(WHOLE_CASE K11), WHOLE_ANSWERS K11_ANSWERS);

    /* codes 1 to 5 are answered and the replay goes on */
#define REFUSED RECORD(8, 0, 0, 0) RECORD(-1, 0, 0, 0) RECORD(99999, -99999, 99999, -99999) \
    RECORD(0, 1, 0, 0) RECORD(3, 76, 256, 0) RECORD(3, 77, 2, 0) RECORD(5, 0, 0, 0) RECORD(7, 0, 0, 0) \
    RECORD(6, 0, 0, 0) RECORD(6, 0, 0, 0) RECORD(7, -8192, -32768, 1) RECORD(3, 76, 2, 0) RECORD(3, 76, 255, 0)
#define REFUSED_ANSWERS ANSWER(1, 0, 1, 1) ANSWER(1, 0, 1, 1) ANSWER(1, 0, 1, 1) \
    ANSWER(2, 0, 1, 1) ANSWER(2, 0, 1, 1) ANSWER(3, 0, 1, 1) ANSWER(3, 0, 1, 1) ANSWER(5, 0, 1, 1) \
    ANSWER(0, 0, 1, 1) ANSWER(4, 0, 1, 1) ANSWER(0, 0, 0, 1) ANSWER(0, 36, 0, 1) ANSWER(0, 81, 0, 1)
    REPLAY(REFUSED, ROOM, 0, 13, (uint32_t)strlen(REFUSED), REFUSED_ANSWERS);
    REPLAY(PULLED, ROOM, 0, 14, (uint32_t)strlen(PULLED), PULLED_ANSWERS);
    REPLAY(FAN, ROOM, 0, 22, (uint32_t)strlen(FAN), FAN_ANSWERS);

    /* the same trace, address 77 */
    replay_at(__LINE__, 77, RECORD(3, 76, 254, 0) RECORD(3, 77, 254, 0), 44, ROOM, 0, 2, 44,
              ANSWER(3, 0, 1, 1) ANSWER(0, 65, 1, 1));
}

static void test_malformed(void)
{
    static const char *const bad[] = {
        /* wrong, missing or misplaced names */
        "Kind=0\na=0\nb=0\nc=0\n", "kin=0\na=0\nb=0\nc=0\n", "kinds=0\na=0\nb=0\nc=0\n", "a=0\nb=0\nc=0\n",
        "kind=0\nb=0\na=0\nc=0\n", "kind=0\na=0\nc=0\n", "kind=0\na=0\nb=0\nb=0\n", "kind=0\nA=0\nb=0\nc=0\n",
        "kind=0\na=0\nb=0\nd=0\n", "=0\na=0\nb=0\nc=0\n", "kind0\na=0\nb=0\nc=0\n", "kind:0\na=0\nb=0\nc=0\n",
        "kind==0\na=0\nb=0\nc=0\n", "kind=0\na=0\nb=0\nkind=0\na=0\nb=0\nc=0\n",
        /* spaces, empty lines, other line ends */
        " kind=0\na=0\nb=0\nc=0\n", "kind =0\na=0\nb=0\nc=0\n", "kind= 0\na=0\nb=0\nc=0\n",
        "kind=0 \na=0\nb=0\nc=0\n", "\nkind=0\na=0\nb=0\nc=0\n", "kind=0\n\na=0\nb=0\nc=0\n",
        "kind=0\r\na=0\r\nb=0\r\nc=0\r\n", "kind=0\ra=0\rb=0\rc=0\r", "kind=0\ta=0\tb=0\tc=0\t",
        "kind=0,a=0,b=0,c=0\n", "kind=0\na=0\nb=0\nc=0;\n", "\xEF\xBB\xBFkind=0\na=0\nb=0\nc=0\n",
        "\n", "\n\n\n\n", " ", "#\n", "x",
        /* numbers */
        "kind=\na=0\nb=0\nc=0\n", "kind=-\na=0\nb=0\nc=0\n", "kind=+0\na=0\nb=0\nc=0\n", "kind=+1\na=0\nb=0\nc=0\n",
        "kind=-0\na=0\nb=0\nc=0\n", "kind=00\na=0\nb=0\nc=0\n", "kind=01\na=0\nb=0\nc=0\n",
        "kind=-01\na=0\nb=0\nc=0\n", "kind=-00\na=0\nb=0\nc=0\n", "kind=--1\na=0\nb=0\nc=0\n",
        "kind=1-\na=0\nb=0\nc=0\n", "kind=100000\na=0\nb=0\nc=0\n", "kind=-100000\na=0\nb=0\nc=0\n",
        "kind=000000\na=0\nb=0\nc=0\n", "kind=0x1\na=0\nb=0\nc=0\n", "kind=1.0\na=0\nb=0\nc=0\n",
        "kind=1e1\na=0\nb=0\nc=0\n", "kind=/\na=0\nb=0\nc=0\n", "kind=:\na=0\nb=0\nc=0\n", "kind=a\na=0\nb=0\nc=0\n",
        "kind=99999999999999999999\na=0\nb=0\nc=0\n",
        "kind=0\na=\nb=0\nc=0\n", "kind=0\na=-0\nb=0\nc=0\n", "kind=0\na=00\nb=0\nc=0\n",
        "kind=0\na=123456\nb=0\nc=0\n",
        "kind=0\na=0\nb=\nc=0\n", "kind=0\na=0\nb=-0\nc=0\n", "kind=0\na=0\nb=07\nc=0\n",
        "kind=0\na=0\nb=-123456\nc=0\n",
        "kind=0\na=0\nb=0\nc=\n", "kind=0\na=0\nb=0\nc=-0\n", "kind=0\na=0\nb=0\nc=+1\n", "kind=0\na=0\nb=0\nc=1 \n",
        "kind=0\na=0\nb=0\nc=0",
    };
    static const char good[] = RECORD(3, 76, 254, 0);
    static const char answer[] = ANSWER(0, 65, 1, 1);
    char joined[256];

    for (size_t i = 0; i < sizeof bad / sizeof *bad; i++) {
        REPLAY(bad[i], ROOM, 7, 0, 0, "");
        REPLAY(bad[i], 0, 7, 0, 0, "");                              /* 7 before 8 */
        snprintf(joined, sizeof joined, "%s%s%s", good, bad[i], good);
        REPLAY(joined, ROOM, 7, 1, (uint32_t)strlen(good), answer);
        REPLAY(joined, strlen(answer), 7, 1, (uint32_t)strlen(good), answer);
    }

    /* a record cut anywhere, behind a good one */
    static const char second[] = RECORD(7, -8192, -12345, 1);
    snprintf(joined, sizeof joined, "%s%s", good, second);
    for (size_t cut = 1; cut < strlen(second); cut++)
        replay_at(__LINE__, 76, joined, strlen(good) + cut, ROOM, 7, 1, (uint32_t)strlen(good), answer);
    replay_at(__LINE__, 76, joined, strlen(joined), ROOM, 0, 2, (uint32_t)strlen(joined),
              ANSWER(0, 65, 1, 1) ANSWER(5, 0, 1, 1));

    /* every byte of a record changed to every other value: a record again only if the
       number stays one; a nul byte is no end */
    for (size_t at = 0; at < strlen(good); at++)
        for (int byte = 0; byte < 256; byte++) {
            memcpy(joined, good, sizeof good);
            joined[at] = (char)byte;
            char old = good[at];
            bool numeral = old >= '0' && old <= '9';
            bool first = numeral && good[at - 1] == '=';
            bool last = numeral && good[at + 1] == '\n';
            bool digit = byte >= '0' && byte <= '9';
            bool record = byte == old;
            if (numeral && digit)
                record = byte != '0' || !first || last;
            if (numeral && byte == '-' && first && !last)
                record = good[at + 1] != '0';
            outcome got = replaying(76, joined, strlen(good), ROOM);
            CHECK((got.code == 7) == !record && got.word[1] == record && got.code == (int32_t)got.word[0]);
        }
}

static void test_rooms(void)
{
    static const char trace[] = WHOLE_CASE K11;
    static const char answers[] = WHOLE_ANSWERS K11_ANSWERS;
    static const char *const records[] = {
        RECORD(6, 0, 0, 0), RECORD(7, 20, 341, 0), RECORD(3, 76, 2, 0), RECORD(3, 76, 2, 0), RECORD(6, 0, 0, 0),
        RECORD(7, 20, 300, 0), RECORD(3, 76, 2, 0), RECORD(3, 76, 2, 0), RECORD(5, 0, 0, 0), RECORD(5, 0, 0, 0) };
    static const size_t length[] = { 31, 31, 32, 32, 31, 31, 32, 31, 33, 31 };

    for (size_t room = 0; room <= strlen(answers) + 40; room++) {
        char expected[ROOM];
        size_t written = 0, used = 0;
        uint32_t n = 0;
        while (n < 10 && written + length[n] <= room) {
            written += length[n];
            used += strlen(records[n]);
            n++;
        }
        memcpy(expected, answers, written);
        expected[written] = 0;
        REPLAY(trace, room, n == 10 ? 0 : 8, n, (uint32_t)used, expected);
    }
    /* 8 at a good record before 7 at a later one; 7 at the record itself first */
    REPLAY(RECORD(0, 0, 0, 0) "x", 30, 8, 0, 0, "");
    REPLAY(RECORD(0, 0, 0, 0) "x", 31, 7, 1, 19, ANSWER(0, 0, 1, 1));

    /* a record stopped by 8 counts nowhere but in code[8] */
    memset(&second_seen_counts, 0, sizeof second_seen_counts);
    REPLAY(RECORD(3, 76, 254, 0), 31, 8, 0, 0, "");
    CHECK(second_seen_counts.code[8] == 1 && second_seen_counts.code[0] == 0 && second_seen_counts.read[254] == 0);
    REPLAY(RECORD(3, 76, 254, 0), 32, 0, 1, 22, ANSWER(0, 65, 1, 1));
    CHECK(second_seen_counts.code[8] == 1 && second_seen_counts.code[0] == 1 && second_seen_counts.read[254] == 1);
}

static void test_refused_replay(void)
{
    static const char trace[] = WHOLE_CASE;
    enum { MOST = 16777216 };
    uint8_t output[256], report[32], still[256];
    static const int32_t addresses[] = { 75, 78, 0, -1, 332, INT32_MIN, INT32_MAX };
    const uint8_t *in = (const uint8_t *)trace;

    memset(still, UNTOUCHED, sizeof still);
    memset(output, UNTOUCHED, sizeof output);
    memset(report, UNTOUCHED, sizeof report);
    for (size_t i = 0; i < sizeof addresses / sizeof *addresses; i++)
        CHECK(second_replay(addresses[i], in, strlen(trace), output, 256, report, 16) == 2);
    for (size_t len = 0; len <= 32; len++)
        if (len != 16)
            CHECK(second_replay(76, in, strlen(trace), output, 256, report, len) == 2);
    CHECK(second_replay(76, in, strlen(trace), output, 256, NULL, 0) == 2);
    CHECK(memcmp(report, still, sizeof report) == 0 && memcmp(output, still, sizeof output) == 0);

    /* 16 MiB is allowed, one more is not */
    uint8_t *big = malloc(MOST + 1), *out = malloc(MOST + 1);
    if (!big || !out)
        abort();
    memset(out, UNTOUCHED, MOST + 1);
    size_t at = 0;
    while (at + SECOND_SHORTEST_RECORD <= MOST) {
        memcpy(big + at, RECORD(0, 0, 0, 0), SECOND_SHORTEST_RECORD);
        at += SECOND_SHORTEST_RECORD;
    }
    memset(big + at, 'x', MOST + 1 - at);
    CHECK(second_replay(76, big, MOST + 1, out, 256, report, 16) == 2);
    CHECK(second_replay(76, in, strlen(trace), out, MOST + 1, report, 16) == 2);
    CHECK(second_replay(76, big, SIZE_MAX, out, 256, report, 16) == 2);
    CHECK(second_replay(76, in, strlen(trace), out, SIZE_MAX, report, 16) == 2);
    CHECK(memcmp(report, still, sizeof report) == 0 && memcmp(out, still, sizeof still) == 0);
    CHECK(second_replay(76, in, strlen(trace), out, MOST, report, 16) == 0);
    CHECK(memcmp(out, WHOLE_ANSWERS, strlen(WHOLE_ANSWERS)) == 0 && out[strlen(WHOLE_ANSWERS)] == UNTOUCHED);
    /* 31 bytes an answer: 541200 answers fit, and 16 bytes are left */
    CHECK(second_replay(76, big, MOST, out, MOST, report, 16) == 8);
    CHECK(report[0] == 8 && report[4] == (541200 & 0xFF) && report[5] == (541200 >> 8 & 0xFF)
          && report[6] == 541200 >> 16 && report[7] == 0);
    CHECK(out[MOST] == UNTOUCHED && out[541200 * 31 - 1] == '\n');
    free(big);
    free(out);
}

/* ---- the counters ---- */

static void test_counters(void)
{
    second_chip chip = fresh();
    const second_seen *seen = &second_seen_counts;

    memset(&second_seen_counts, 0, sizeof second_seen_counts);
    (void)converting(&chip, 86, 341, 1);                 /* flags 6 and 2; latch by open and by run */
    CHECK(seen->flag_set[4] == 1 && seen->flag_set[2] == 0 && seen->flag_set[0] == 1);
    CHECK(seen->flag_set[3] == 0 && seen->flag_set[1] == 0 && seen->held_unconverted == 1);
    CHECK(seen->latch_by_open == 1 && seen->latch_by_run == 1 && seen->converted_open == 1);
    CHECK(seen->converted_needed[0] == 1 && seen->converted_default == 1 && seen->converted_extended == 0);
    (void)converting(&chip, 86, 341, 0);
    CHECK(seen->flag_set[4] == 1 && seen->flag_set[2] == 1 && seen->latch_by_run == 1);
    (void)status(&chip);
    CHECK(seen->flag_kept[4] == 1 && seen->flag_kept[2] == 1 && seen->flag_kept[0] == 0);
    CHECK(seen->flag_cleared[0] == 1 && seen->flag_cleared[4] == 0 && seen->read[2] == 1);
    (void)writing(&chip, 0x09, 0x44);
    (void)writing(&chip, 0x0F, 0);
    (void)writing(&chip, 0x0F, 0);
    CHECK(seen->one_shots == 1 && seen->written[0x0F] == 2 && seen->written[0x09] == 1);
    (void)writing(&chip, 0x22, 0x0F);
    (void)second_step(&chip, 7, 0, 0, 0);
    CHECK(seen->converted_extended == 1 && seen->converted_needed[3] == 1);
    (void)status(&chip);
    (void)second_step(&chip, 5, 0, 0, 0);
    CHECK(seen->latch_cleared == 1);
    (void)writing(&chip, 0x0B, 63);
    CHECK(seen->standby_compares == 1 && seen->latch_by_standby == 1 && seen->flag_set[4] == 2);
    (void)second_step(&chip, 4, 76, 0, 0);
    CHECK(seen->read[0x0B] == 1);
    (void)second_step(&chip, 9, 0, 0, 0);
    CHECK(seen->code[1] == 1);

    /* what an open diode holds back */
    memset(&second_seen_counts, 0, sizeof second_seen_counts);
    chip = fresh();
    (void)converting(&chip, 20, 341, 1);
    (void)writing(&chip, 0x09, 0x40);
    (void)writing(&chip, 0x0B, 0x55);
    CHECK(seen->held_unconverted == 1 && seen->held_fault == 0 && seen->held_therm == 0);
    CHECK(seen->standby_compares == 1 && seen->standby_local_only == 1);
    (void)converting(&chip, 20, 341, 0);
    (void)converting(&chip, 20, 200, 1);
    (void)writing(&chip, 0x0B, 0x55);
    CHECK(seen->held_unconverted == 1 && seen->held_fault == 1 && seen->held_therm == 1);
    CHECK(seen->standby_compares == 2 && seen->standby_local_only == 1);
    (void)converting(&chip, 20, 301, 0);
    (void)converting(&chip, 20, 200, 1);
    (void)converting(&chip, 20, 0, 0);
    (void)converting(&chip, 20, 200, 1);
    CHECK(seen->held_unconverted == 1 && seen->held_fault == 2 && seen->held_therm == 2 && seen->converted_open == 4);

    /* pin 6 as THERM2: a mark set unseen, kept, held back, cleared in standby */
    memset(&second_seen_counts, 0, sizeof second_seen_counts);
    chip = fresh();
    (void)converting(&chip, 80, 341, 0);
    CHECK(seen->mark_set[1] == 1 && seen->mark_set_unseen[1] == 1 && seen->mark_set[0] == 0);
    CHECK(seen->mark_kept_clear[0] == 1 && seen->mark_kept_clear[1] == 0 && seen->therm2_low == 0);
    (void)writing(&chip, 0x09, 0x20);
    CHECK(seen->therm2_begun_low == 1 && seen->therm2_low == 1 && seen->therm2_low_masked == 0);
    (void)second_step(&chip, 5, 0, 0, 0);
    (void)second_step(&chip, 5, 0, 0, 1);                /* code 2 */
    CHECK(seen->therm2_no_ack == 1 && seen->therm2_no_ack_low == 1 && seen->therm2_low == 3);
    (void)converting(&chip, 86, 200, 1);
    CHECK(seen->held_mark == 1 && seen->held_mark_local == 1 && seen->mark_set[0] == 1);
    (void)converting(&chip, 76, 200, 1);
    CHECK(seen->held_mark == 2 && seen->held_mark_local == 1 && seen->mark_kept[0] == 1);
    CHECK(seen->mark_kept[1] == 0 && seen->mark_set_unseen[0] == 0);
    (void)writing(&chip, 0x09, 0xE0);
    CHECK(seen->therm2_low_masked == 1 && seen->therm2_begun_low == 1);
    (void)second_step(&chip, 5, 0, 0, 0);
    CHECK(seen->therm2_no_ack == 1 && seen->therm2_no_ack_low == 2 && seen->therm2_low_masked == 2);
    (void)writing(&chip, 0x0B, 0xFF);
    CHECK(seen->mark_cleared[0] == 1 && seen->mark_cleared_standby[0] == 1);
    CHECK(seen->mark_kept[1] == 0 && seen->mark_cleared_unseen[0] == 0);
    (void)writing(&chip, 0x0D, 0xFF);
    CHECK(seen->mark_cleared_standby[1] == 1 && seen->therm2_high_latched == 0);
    (void)writing(&chip, 0x0D, 20);
    CHECK(seen->mark_set_standby[1] == 1 && seen->mark_set[1] == 2);
    CHECK(seen->mark_set_unseen[1] == 1 && seen->mark_set_standby[0] == 0);
    (void)writing(&chip, 0x09, 0x80);
    CHECK(seen->latch_shown == 0);
    (void)writing(&chip, 0x21, 21);
    (void)converting(&chip, 1, 1, 0);
    CHECK(seen->mark_kept[1] == 1 && seen->mark_cleared_at_0[1] == 0);
    (void)converting(&chip, 1, 0, 0);
    CHECK(seen->mark_cleared_at_0[1] == 1 && seen->mark_cleared_unseen[1] == 1);
    CHECK(seen->mark_cleared_at_0[0] == 0 && seen->mark_cleared[1] == 2);
    (void)writing(&chip, 0x09, 0x20);
    CHECK(seen->therm2_begun_low == 1 && seen->therm2_high_latched == 1);
    (void)second_step(&chip, 5, 0, 0, 0);
    CHECK(seen->therm2_no_ack == 2 && seen->therm2_no_ack_low == 2);
    CHECK(seen->therm2_high_latched == 2);
    (void)writing(&chip, 0x09, 0x00);
    CHECK(seen->latch_shown == 1);
    (void)writing(&chip, 0x21, 20);                      /* not over the limit, and at code 0 */
    (void)converting(&chip, 1, 81, 0);
    (void)converting(&chip, 1, 0, 0);
    CHECK(seen->mark_cleared[1] == 3 && seen->mark_cleared_at_0[1] == 1);
    (void)converting(&chip, 1, 81, 0);
    (void)second_step(&chip, 0, 0, 0, 0);                /* a power-on counts nowhere */
    CHECK(seen->mark_set[1] == 4 && seen->mark_cleared[1] == 3 && seen->latch_shown == 1);
}

/* ---- random walks: what must hold of any run ---- */

/* What a conversion with the diode open must do to any chip at which one runs: to the remote channel nothing,
   whatever the sample; to the local one what a good one does. */
static bool holds_back(const second_chip *before, const second_chip *after, int32_t local, int32_t remote)
{
    enum { REMOTE_BITS = 0x1A, LOCAL_BITS = 0x61 };
    second_chip other = *before, good = *before;
    (void)second_step(&other, 7, local, -1 - remote, 1);
    (void)second_step(&good, 7, local, remote, 0);
    int held = before->reg[0x02] ^ after->reg[0x02], same = good.reg[0x02] ^ after->reg[0x02];
    int run = after->found & 0x60 ? (before->run < 4 ? before->run + 1 : 4) : 0;
    return memcmp(&other, after, sizeof other) == 0
        && before->reg[0x01] == after->reg[0x01] && before->reg[0x10] == after->reg[0x10]
        && (held & REMOTE_BITS) == 0 && (before->found & 0x18) == (after->found & 0x18)
        && after->converted == (before->converted | 1)
        && (before->therm2 & 2) == (after->therm2 & 2) && (good.therm2 & 1) == (after->therm2 & 1)
        && (same & LOCAL_BITS) == 0 && good.reg[0x00] == after->reg[0x00]
        && (good.found & 0x60) == (after->found & 0x60)
        && (after->reg[0x02] & 0x84) == 0x04 && (after->found & 0x04) != 0
        && after->alert_latch == 1 && after->run == run;
}

static uint64_t seed = 20240611;

static uint32_t random_number(uint32_t below)
{
    seed = seed * 6364136223846793005u + 1442695040888963407u;
    return (uint32_t)(seed >> 33) % below;
}

static void test_walks(void)
{
    static const int commands[] = { 0x02, 0x03, 0x09, 0x0A, 0x0B, 0x0C, 0x0D, 0x0E, 0x0F, 0x10, 0x11, 0x12,
                                    0x13, 0x14, 0x19, 0x20, 0x21, 0x22, 0x01, 0x00 };
    static char trace[300000];
    static uint8_t output[600000];
    uint8_t report[16];

    for (int walk = 0; walk < 40; walk++) {
        second_chip chip = fresh();
        static history_moment list[4000];
        history_counts counts = { .answered = 0 };
        second_history history;
        history_begin(&history, 76, list, sizeof list / sizeof *list, &counts);
        size_t used = 0, written = 0;
        bool steady = true, lines = true, held_back = true;
        unsigned wrong = 0;
        static char expected[600000];
        for (int i = 0; i < 4000; i++) {
            int32_t kind = (int32_t)random_number(100) - 1, a = 0, b = 0, c = 0;
            if (kind > 8)
                kind = (int32_t)random_number(7) + 1;
            if (kind == 0 && random_number(8))
                kind = 5;
            if (kind >= 1 && kind <= 4)
                a = random_number(30) ? 76 : (int32_t)random_number(130) - 1;
            if (kind >= 1 && kind <= 3)
                b = random_number(20) ? commands[random_number(20)] : (int32_t)random_number(256);
            if (kind == 2)
                c = (int32_t)random_number(256);
            if (kind == 7) {
                a = (int32_t)random_number(280) - 80;
                b = (int32_t)random_number(1400) - 300;
                c = random_number(walk % 2 ? 10 : 3) == 0;
            }
            second_chip before = chip;
            second_answer answer = second_step(&chip, kind, a, b, c);
            steady = steady && answer.code != 6
                && (answer.code == 0 || memcmp(&before, &chip, sizeof chip) == 0);
            int alert = !(chip.alert_latch && (chip.reg[3] & 0x80) == 0);
            lines = lines && answer.therm == ((chip.reg[2] & 3) == 0)
                && answer.alert == (chip.reg[3] & 0x20 ? chip.therm2 == 0 : alert);
            if (kind == 7 && c == 1 && answer.code == 0)
                held_back = held_back && holds_back(&before, &chip, a, b);
            wrong |= history_take(&history, kind, a, b, c, answer);
            used += (size_t)snprintf(trace + used, sizeof trace - used, "kind=%d\na=%d\nb=%d\nc=%d\n",
                                     (int)kind, (int)a, (int)b, (int)c);
            written += (size_t)snprintf(expected + written, sizeof expected - written,
                                        "code=%d\nreply=%d\nalert=%d\ntherm=%d\n",
                                        answer.code, answer.reply, answer.alert, answer.therm);
        }
        CHECK(steady);
        CHECK(lines);
        CHECK(held_back);
        CHECK((wrong | history_end(&history)) == 0);
        CHECK(second_replay(76, (uint8_t *)trace, used, output, sizeof output, report, 16) == 0);
        CHECK(memcmp(output, expected, written) == 0);
        CHECK((size_t)(report[12] | report[13] << 8 | report[14] << 16) == written);
        /* bytes spoilt: never past the ends, never anything but 0, 7 or 8 */
        for (int i = 0; i < 20; i++)
            trace[random_number((uint32_t)used)] = (char)random_number(256);
        int32_t code = second_replay(76, (uint8_t *)trace, used, output, random_number(200000), report, 16);
        CHECK(code == 0 || code == 7 || code == 8);
    }
}

/* Walks that change roles and limits often. The marks are those the history works out; a twin told
   the same with bits 7 and 5 always 0 has all the same but them and the latch; and the counters of
   chip and history agree. */
static void test_therm2_walks(void)
{
    static const int commands[] = { 0x09, 0x09, 0x09, 0x0B, 0x0C, 0x0D, 0x0E, 0x0F, 0x0F, 0x13,
                                    0x14, 0x19, 0x20, 0x21, 0x22 };
    static const int32_t kinds[] = { 2, 2, 2, 3, 5, 6, 6, 7, 7, 7 };
    static history_moment list[2000];
    history_counts counts;
    const second_seen *seen = &second_seen_counts;

    memset(&counts, 0, sizeof counts);
    memset(&second_seen_counts, 0, sizeof second_seen_counts);
    for (int walk = 0; walk < 20; walk++) {
        second_chip chip = fresh(), twin = fresh();
        second_history history;
        history_begin(&history, 76, list, sizeof list / sizeof *list, &counts);
        bool marks = true, same = true;
        unsigned wrong = 0;
        for (int i = 0; i < 2000; i++) {
            int32_t kind = random_number(200) ? kinds[random_number(10)] : 0, a = 0, b = 0, c = 0;
            if (kind == 2 || kind == 3)
                a = random_number(30) ? 76 : 77;
            if (kind == 3)
                b = 2;
            if (kind == 2) {
                b = commands[random_number(15)];
                c = (int32_t)random_number(b == 0x09 || b == 0x13 || b == 0x14 ? 256 : 64);
            }
            if (kind == 7) {
                a = (int32_t)random_number(80) - 10;
                b = (int32_t)random_number(320) - 40;
                c = random_number(4) == 0;
            }
            second_answer answer = second_step(&chip, kind, a, b, c);
            wrong |= history_take(&history, kind, a, b, c, answer);
            int stand = history_mark_stands(&history, HISTORY_LOCAL, history.length)
                | history_mark_stands(&history, HISTORY_REMOTE, history.length) << 1;
            marks = marks && chip.therm2 == stand;

            second_seen kept = second_seen_counts;
            (void)second_step(&twin, kind, a, b, kind == 2 && b == 0x09 ? c & ~0xA0 : c);
            second_seen_counts = kept;
            second_chip alike = chip;
            alike.reg[0x03] &= 0x44;
            alike.alert_latch = twin.alert_latch;
            same = same && memcmp(&alike, &twin, sizeof twin) == 0;
        }
        CHECK((wrong | history_end(&history)) == 0);
        CHECK(marks);
        CHECK(same);
    }

    for (int i = 0; i < 2; i++) {
        CHECK(seen->mark_set[i] == counts.marks_set[i]);
        CHECK(seen->mark_cleared[i] == counts.marks_cleared[i]);
        CHECK(seen->mark_kept[i] == counts.marks_kept[i] && seen->mark_kept[i] > 0);
        CHECK(seen->mark_set_unseen[i] > 0 && seen->mark_cleared_unseen[i] > 0);
        CHECK(seen->mark_set_standby[i] > 0 && seen->mark_cleared_standby[i] > 0);
        CHECK(seen->mark_set[i] > seen->mark_set_unseen[i]);
        CHECK(seen->mark_cleared[i] > seen->mark_cleared_unseen[i]);
        CHECK(seen->mark_cleared_at_0[i] > 0 && seen->mark_kept_clear[i] > 0);
    }
    CHECK(seen->mark_set_unseen[0] + seen->mark_set_unseen[1] + seen->mark_cleared_unseen[0]
          + seen->mark_cleared_unseen[1] == counts.marks_unseen);
    CHECK(seen->mark_set_standby[0] + seen->mark_set_standby[1] + seen->mark_cleared_standby[0]
          + seen->mark_cleared_standby[1] == counts.marks_standby);
    CHECK(seen->therm2_low == counts.therm2_low);
    CHECK(seen->therm2_low_masked == counts.therm2_low_masked);
    CHECK(seen->therm2_no_ack == counts.therm2_refused && seen->latch_shown == counts.latch_shown);
    CHECK(counts.therm2_low > counts.therm2_low_masked && counts.therm2_low_masked > 0);
    CHECK(counts.therm2_refused > 0 && counts.latch_shown > 0 && counts.resets_marked > 0);
    CHECK(seen->held_mark > seen->held_mark_local && seen->held_mark_local > 0);
    CHECK(seen->therm2_high_latched > 0 && seen->therm2_no_ack_low > 0);
    CHECK(seen->therm2_begun_low > 0);
    CHECK(counts.claims[HISTORY_ALERT] > 0 && counts.claims[HISTORY_THERM2] > 0);
}

/* ---- how large an output (document 02, Item 5) ---- */

void fill_with_responses(uint8_t *trace, size_t len)
{
    static const char begin[] = LOW_FAULTS, each[] = RESPONDED;
    size_t at = len < strlen(begin) ? len : strlen(begin);

    memcpy(trace, begin, at);
    while (at < len) {
        size_t part = len - at < strlen(each) ? len - at : strlen(each);
        memcpy(trace + at, each, part);
        at += part;
    }
}

size_t responses_length(size_t records)
{
    size_t answer = strlen(LOW_FAULTS_ANSWERS) / 2;
    return records <= 2 ? records * answer : 2 * answer + (records - 2) * strlen(RESPONDED_ANSWER);
}

/* A number of 1 to 5 digits, with a minus at times; most of 5 with one. */
static int32_t random_wide(void)
{
    static const uint32_t below[] = { 10, 100, 1000, 10000, 100000 };
    if (random_number(4))
        return -(int32_t)(10000 + random_number(90000));
    int32_t number = (int32_t)random_number(below[random_number(5)]);
    return random_number(2) ? number : -number;
}

size_t chance_trace(uint8_t *trace, size_t most)
{
    enum { EVENTS, SHORTEST, LONGEST, ANSWERED_LONG, SORTS };
    static const int32_t responses[8][4] = {
        { 5, 0, 0, 0 }, { 5, 0, 0, 0 }, { 5, 0, 0, 0 }, { 5, 0, 0, 0 }, { 6, 0, 0, 0 },
        { 7, 0, 0, 0 }, { 2, 76, 0x20, 255 }, { 4, 76, 0, 0 } };
    static const uint8_t bytes[] = "019-\n=kabc x";
    uint32_t sort = random_number(SORTS);
    size_t records = random_number((uint32_t)(most / SECOND_SHORTEST_RECORD)), len = 0;

    if (sort == ANSWERED_LONG) {
        len = strlen(LOW_FAULTS);
        memcpy(trace, LOW_FAULTS, len);
    }
    while (records-- > 0 && most - len > strlen(RECORD(-12345, -12345, -12345, -12345)) + 1) {
        int32_t kind = (int32_t)random_number(9), a = 0, b = 0, c = 0;
        switch (sort) {
        case EVENTS:
            if (kind >= 1 && kind <= 4)
                a = (int32_t)(random_number(20) ? 76 + random_number(2) : random_number(130));
            if (kind >= 1 && kind <= 3)
                b = (int32_t)random_number(random_number(10) ? 0x23 : 256);
            if (kind == 2)
                c = (int32_t)random_number(256);
            if (kind == 7) {
                a = (int32_t)random_number(280) - 80;
                b = (int32_t)random_number(1400) - 300;
                c = random_number(10) == 0;
            }
            break;
        case SHORTEST:
            a = random_number(8) ? 0 : (int32_t)random_number(10);
            b = random_number(8) ? 0 : (int32_t)random_number(10);
            c = random_number(8) ? 0 : (int32_t)random_number(10);
            break;
        case LONGEST:
            kind = random_number(2) ? random_wide() : kind;
            a = random_wide();
            b = random_wide();
            c = random_wide();
            break;
        default: {
            const int32_t *record = responses[random_number(8)];
            kind = record[0];
            a = record[1];
            b = record[2];
            c = record[3];
        }
        }
        len += (size_t)snprintf((char *)trace + len, most - len, "kind=%d\na=%d\nb=%d\nc=%d\n",
                                (int)kind, (int)a, (int)b, (int)c);
        if (random_number(40) == 0)
            sort = random_number(SORTS);
    }
    if (len == 0)
        return 0;

    /* damage: more often late than early, so that most of the trace is replayed */
    size_t at = random_number((uint32_t)len), other = random_number((uint32_t)len);
    at = at > other ? at : other;
    uint8_t byte = random_number(4) ? bytes[random_number(12)] : (uint8_t)random_number(256);
    switch (random_number(6)) {
    case 0:                                              /* cut anywhere */
        return at;
    case 1:                                              /* a byte changed */
        trace[at] = byte;
        return len;
    case 2:                                              /* a byte put in */
        memmove(trace + at + 1, trace + at, len - at);
        trace[at] = byte;
        return len + 1;
    case 3:                                              /* a byte left out */
        memmove(trace + at, trace + at + 1, len - at - 1);
        return len - 1;
    default:
        return len;
    }
}

/* How many groups of four lines a text is, and how long the shortest and the longest are. */
typedef struct {
    size_t count, shortest, longest;
} groups;

static groups by_fours(const uint8_t *text, size_t len)
{
    groups found = { 0, SIZE_MAX, 0 };
    size_t begin = 0, lines = 0;

    for (size_t at = 0; at < len; at++) {
        if (text[at] != '\n' || ++lines % 4 != 0)
            continue;
        size_t length = at + 1 - begin;
        found.shortest = length < found.shortest ? length : found.shortest;
        found.longest = length > found.longest ? length : found.longest;
        found.count++;
        begin = at + 1;
    }
    return found;
}

/* The extremes over all traces that room_holds was asked about. */
static groups records_seen, answers_seen;

/* Whether with exactly its room, and with any more, a trace is replayed as with plenty: to its end
   or to where it is malformed. Plenty is what these traces, of up to 2300 bytes, can't need. */
static bool room_holds(int32_t address, const void *trace, size_t len)
{
    static outcome plenty, got;
    size_t room = second_room(len);

    plenty = replaying(address, trace, len, ROOM);
    size_t written = plenty.word[3];
    bool good = (plenty.code == 0 || plenty.code == 7) && room < ROOM;
    good = good && (room == 0 ? written == 0 : written < room);      /* see READINGS.md, 77 */

    size_t rooms[] = { room, room + 1, room + 2 + random_number(200) };
    for (size_t i = 0; i < sizeof rooms / sizeof *rooms && good; i++) {
        got = replaying(address, trace, len, rooms[i]);
        good = got.code == plenty.code && memcmp(got.word, plenty.word, sizeof got.word) == 0
            && memcmp(got.output, plenty.output, written) == 0;
    }
    /* any room: 8 exactly if what is written with plenty is more */
    size_t any = random_number((uint32_t)room + 1);
    good = good && (replaying(address, trace, len, any).code == 8) == (any < written);

    /* the two reasons for the bound, in the texts themselves */
    groups records = by_fours(trace, plenty.word[2]), answers = by_fours(plenty.output, written);
    good = good && records.count == plenty.word[1] && answers.count == plenty.word[1]
        && records.shortest >= SECOND_SHORTEST_RECORD && answers.longest <= SECOND_LONGEST_ANSWER;
    records_seen.count += records.count;
    if (records.shortest < records_seen.shortest)
        records_seen.shortest = records.shortest;
    if (records.longest > records_seen.longest)
        records_seen.longest = records.longest;
    if (answers.longest > answers_seen.longest)
        answers_seen.longest = answers.longest;
    return good;
}

/* A byte of 3 digits written, then received: records of 20 bytes with the longest answer. */
#define KEPT RECORD(2, 76, 32, 255)
#define RECEIVED RECORD(4, 76, 0, 0)

static void test_room_numbers(void)
{
    static const char shortest[] = RECORD(0, 0, 0, 0);

    CHECK(SECOND_SHORTEST_RECORD == 19 && SECOND_LONGEST_ANSWER == 33);
    CHECK(second_room(0) == 0 && second_room(1) == 0 && second_room(18) == 0);
    CHECK(second_room(19) == 33 && second_room(20) == 33 && second_room(37) == 33);
    CHECK(second_room(38) == 66 && second_room(200) == 330 && second_room(24576) == 42669);
    CHECK(second_room(SECOND_MOST_BYTES) == 29139363);
    /* what a size_t can't hold is all that it can */
    size_t records = SIZE_MAX / SECOND_LONGEST_ANSWER;
    size_t most = (records + 1) * SECOND_SHORTEST_RECORD;
    CHECK(second_room(most - 1) == records * SECOND_LONGEST_ANSWER);
    CHECK(second_room(most) == SIZE_MAX && second_room(SIZE_MAX / 2 + most / 2) == SIZE_MAX);
    CHECK(second_room(SIZE_MAX) == SIZE_MAX && second_room(SIZE_MAX - 18) == SIZE_MAX);

    /* a record as short as that, and no byte of it may be left out */
    CHECK(strlen(shortest) == SECOND_SHORTEST_RECORD);
    REPLAY(RECORD(0, 0, 0, 0), second_room(19), 0, 1, 19, ANSWER(0, 0, 1, 1));
    for (size_t out = 0; out < strlen(shortest); out++) {
        char trace[20 * sizeof shortest];
        size_t len = 0;
        for (int n = 0; n < 20; n++)
            for (size_t i = 0; i < strlen(shortest); i++)
                if (i != out)
                    trace[len++] = shortest[i];
        outcome got = replaying(76, trace, len, ROOM);
        CHECK(got.code == 7 && got.word[1] == 0);
    }

    /* an answer as long as that, to a record as short; and to reads of every value, none longer */
    CHECK(strlen(RESPONDED) == SECOND_SHORTEST_RECORD);
    CHECK(strlen(RESPONDED_ANSWER) == SECOND_LONGEST_ANSWER);
    REPLAY(LOW_FAULTS RESPONDED RESPONDED RESPONDED, second_room(95), 0, 5, 95,
           LOW_FAULTS_ANSWERS RESPONDED_ANSWER RESPONDED_ANSWER RESPONDED_ANSWER);
    for (int value = 0; value <= 255; value++) {
        char trace[64];
        int len = snprintf(trace, sizeof trace, "kind=2\na=76\nb=32\nc=%d\n" RECEIVED, value);
        outcome got = replaying(76, trace, (size_t)len, ROOM);
        size_t digits = value < 10 ? 1 : value < 100 ? 2 : 3;
        CHECK(got.code == 0 && got.word[3] == 31 + 30 + digits);
        CHECK(by_fours(got.output, got.word[3]).longest <= SECOND_LONGEST_ANSWER);
    }
    /* but not at power-on, where no register has 3 digits and ALERT is high: a first answer has 32
       at most, so that any trace leaves one byte of its room, and some trace no more */
    for (int command = 0; command <= 255; command++) {
        char trace[64];
        int len = snprintf(trace, sizeof trace, "kind=3\na=76\nb=%d\nc=0\n", command);
        outcome got = replaying(76, trace, (size_t)len, ROOM);
        CHECK(got.word[1] == 1 && got.word[3] < SECOND_LONGEST_ANSWER);
    }
    CHECK(replaying(76, RECEIVED, 20, ROOM).word[3] == 31);
    REPLAY(RESPONDED, second_room(19), 0, 1, 19, ANSWER(3, 0, 1, 1));
    REPLAY(RECORD(3, 76, 5, 0), second_room(20) - 1, 0, 1, 20, ANSWER(0, 85, 1, 1));
    REPLAY(RECORD(3, 76, 5, 0), second_room(20) - 2, 8, 0, 0, "");
}

static void test_room_by_hand(void)
{
    /* the trace, and how much of its room its answers leave */
    static const struct {
        const char *trace;
        size_t left;
    } cases[] = {
        { "", 0 }, { "k", 0 }, { "kind=0\na=0\nb=0\nc=0", 0 }, { "x" RECORD(0, 0, 0, 0), 33 },
        { RECORD(0, 0, 0, 0), 2 }, { RECORD(3, 76, 254, 0), 1 }, { RECORD(3, 77, 254, 0), 2 },
        { WHOLE_CASE, 5 }, { WHOLE_CASE K11, 15 },
        { LOW_FAULTS, 4 }, { LOW_FAULTS RESPONDED, 4 },
        { LOW_FAULTS RESPONDED RESPONDED "kind=5\na=0", 4 },
        { LOW_FAULTS RESPONDED RESPONDED RESPONDED RESPONDED RESPONDED RESPONDED RESPONDED, 4 },
        { LOW_FAULTS RESPONDED RESPONDED "kind=5\na=0\nb=0\nc=0 ", 37 },
        { KEPT RECEIVED, 2 },
        /* 23 + 14 * 20 = 303 bytes, 15 times 19 and 18 left over; one more makes it 17 times */
        { KEPT RECEIVED RECEIVED RECEIVED RECEIVED RECEIVED RECEIVED RECEIVED RECEIVED RECEIVED
          RECEIVED RECEIVED RECEIVED RECEIVED RECEIVED, 2 },
        { KEPT RECEIVED RECEIVED RECEIVED RECEIVED RECEIVED RECEIVED RECEIVED RECEIVED RECEIVED
          RECEIVED RECEIVED RECEIVED RECEIVED RECEIVED RECEIVED, 35 },
        { RECORD(-12345, -12345, -12345, -12345) RECORD(99999, -99999, 99999, -99999), 70 },
    };

    for (size_t i = 0; i < sizeof cases / sizeof *cases; i++) {
        const char *trace = cases[i].trace;
        size_t len = strlen(trace), room = second_room(len);
        outcome got = replaying(76, trace, len, room);
        size_t written = got.word[3];
        CHECK(got.code != 8 && written + cases[i].left == room);
        CHECK(written == 0 || replaying(76, trace, len, written - 1).code == 8);
        bool good = true;
        for (size_t any = 0; any <= room + 40; any++)
            good = good && (replaying(76, trace, len, any).code == 8) == (any < written);
        CHECK(good);
        /* cut anywhere, for both addresses */
        for (size_t cut = 0; cut <= len; cut++)
            good = good && room_holds(76, trace, cut) && room_holds(77, trace, cut);
        CHECK(good);
    }
    static const char *const told[] = { REFUSED, PULLED, FAN };
    for (size_t i = 0; i < sizeof told / sizeof *told; i++) {
        bool good = true;
        for (size_t cut = 0; cut <= strlen(told[i]); cut++)
            good = good && room_holds(76, told[i], cut);
        CHECK(good);
    }
}

/* With room enough 8 is not given for any other argument either: what is bad is 2. */
static void test_room_arguments(void)
{
    enum { MOST = SECOND_MOST_BYTES, LOOKED_AT = 512 };
    static const int32_t addresses[] = { 76, 77, 75, 78, 0, -1, 332, INT32_MIN, INT32_MAX };
    static const size_t report_lens[] = { 16, 0, 15, 17, 32 };
    static const char *const traces[] = {
        "", LOW_FAULTS RESPONDED RESPONDED RESPONDED, "x", LOW_FAULTS "kind" };
    static const uint32_t records[] = { 0, 5, 0, 2 };
    uint8_t *output = malloc(MOST), report[32], still[LOOKED_AT];
    if (!output)
        abort();
    memset(still, UNTOUCHED, sizeof still);

    for (size_t t = 0; t < sizeof traces / sizeof *traces; t++)
        for (size_t i = 0; i < 9 * 5 * 3 * 6; i++) {
            size_t len = strlen(traces[t]), room = second_room(len);
            const size_t lens[] = { len, MOST + 1, SIZE_MAX };
            const size_t rooms[] = { room, room + 1, room + 16, MOST, MOST + 1, SIZE_MAX };
            int32_t address = addresses[i % 9];
            size_t report_len = report_lens[i / 9 % 5], trace_len = lens[i / 45 % 3];
            size_t output_len = rooms[i / 135];
            memset(output, UNTOUCHED, LOOKED_AT);
            memset(report, UNTOUCHED, sizeof report);
            int32_t code = second_replay(address, trace_len ? (const uint8_t *)traces[t] : NULL,
                                         trace_len, output_len ? output : NULL, output_len,
                                         report_len ? report : NULL, report_len);
            bool taken = address >= 76 && address <= 77 && report_len == 16 && trace_len <= MOST
                && output_len <= MOST;
            if (taken)
                CHECK(code == (t < 2 ? 0 : 7) && word_at(report + 4) == records[t]);
            else
                CHECK(code == 2 && memcmp(output, still, LOOKED_AT) == 0
                      && memcmp(report, still, sizeof report) == 0);
        }
    free(output);
}

static void test_room_by_chance(void)
{
    static uint8_t trace[2300];
    static const uint8_t noise[] = "kind=abc0\n-";
    enum { TURNS = 3000 };
    uint32_t ends[9] = { 0 };

    for (int turn = 0; turn < TURNS; turn++) {
        size_t len = chance_trace(trace, random_number(2) ? sizeof trace : 64 + random_number(300));
        CHECK(room_holds(76 + turn % 2, trace, len));
        ends[second_replay(76 + turn % 2, trace, len, (uint8_t[ROOM]){ 0 }, second_room(len),
                           (uint8_t[16]){ 0 }, 16)]++;
    }
    CHECK(ends[0] > TURNS / 5 && ends[7] > TURNS / 5 && ends[0] + ends[7] == TURNS);
    bool good = true;
    for (int turn = 0; turn < 500; turn++) {
        size_t len = random_number(200);
        for (size_t i = 0; i < len; i++)
            trace[i] = random_number(8) ? noise[random_number(11)] : (uint8_t)random_number(256);
        good = good && room_holds(76, trace, len);
    }
    CHECK(good);

    /* and the traces came to both ends of what there is */
    CHECK(records_seen.shortest == SECOND_SHORTEST_RECORD && records_seen.longest == 39);
    CHECK(answers_seen.longest == SECOND_LONGEST_ANSWER && records_seen.count > 50000);
}

/* Neither number can be better: with one byte less for each record, or one byte more of the trace
   for each answer, some trace is stopped, whatever fixed number of bytes is lent besides. */
static void test_room_best(void)
{
    static const size_t besides[] = { 0, 1, 2, 50, 1000, 50000 };
    enum { FEWER = SECOND_LONGEST_ANSWER - 1, MORE = SECOND_SHORTEST_RECORD + 1 };
    uint8_t report[16];

    for (size_t i = 0; i < sizeof besides / sizeof *besides; i++) {
        /* 2 * 31 + (n - 2) * 33 bytes of answers, n * 32 + k lent: n = k + 4 is the last to fit */
        size_t records = besides[i] + 5, len = records * strlen(RESPONDED);
        uint8_t *trace = malloc(len), *output = malloc(second_room(len) + besides[i]);
        if (!trace || !output)
            abort();
        fill_with_responses(trace, len);
        size_t scant = len / SECOND_SHORTEST_RECORD * FEWER + besides[i];
        CHECK(second_replay(76, trace, len, output, scant, report, 16) == 8);
        CHECK(word_at(report + 4) == records - 1);
        size_t shorter = len - strlen(RESPONDED);
        scant = shorter / SECOND_SHORTEST_RECORD * FEWER + besides[i];
        CHECK(second_replay(76, trace, shorter, output, scant, report, 16) == 0);
        CHECK(word_at(report + 12) == scant);

        scant = len / MORE * SECOND_LONGEST_ANSWER + besides[i];
        CHECK(second_replay(76, trace, len, output, scant, report, 16) == 8);
        CHECK(word_at(report + 4) < records);

        /* with the room of Item 5 none is, and the records are as many as Item 5 lets them be */
        CHECK(second_replay(76, trace, len, output, second_room(len), report, 16) == 0);
        CHECK(word_at(report + 4) == len / SECOND_SHORTEST_RECORD);
        CHECK(word_at(report + 12) == responses_length(records));
        CHECK(word_at(report + 4) > len / MORE);
        free(trace);
        free(output);
    }

    /* nor is there a fixed number besides with which a trace divided by 20 bounds the records */
    enum { RECORDS = 20100, LEN = RECORDS * SECOND_SHORTEST_RECORD };
    static uint8_t trace[LEN], output[RECORDS * SECOND_LONGEST_ANSWER];
    fill_with_responses(trace, LEN);
    CHECK(second_replay(76, trace, LEN, output, second_room(LEN), report, 16) == 0);
    CHECK(word_at(report + 4) == RECORDS && word_at(report + 4) > LEN / MORE + 1000);
}

/* Item 5 leaves document 01's limit of an output: the room of a long trace can't be lent. */
static void test_room_limit(void)
{
    enum { MOST = SECOND_MOST_BYTES, RECORDS = 508400, LAST = 9659618, LAST_ROOM = 16777200 };
    uint8_t *trace = malloc(LAST + 1), *output = malloc(MOST + 17), report[16], still[16];
    if (!trace || !output)
        abort();
    fill_with_responses(trace, LAST + 1);
    memset(still, UNTOUCHED, sizeof still);

    /* 16 MiB is 508400 times 33 and 16 bytes more */
    CHECK(second_room(LAST) == LAST_ROOM && LAST_ROOM <= MOST);
    CHECK(second_room(LAST + 1) == MOST + 17);

    /* the longest trace whose room can be lent: 18 bytes behind the last record are no record */
    memset(output, UNTOUCHED, MOST + 17);
    CHECK(second_replay(76, trace, LAST, output, LAST_ROOM, report, 16) == 7);
    CHECK(word_at(report + 4) == RECORDS && word_at(report + 8) == LAST - 18);
    CHECK(word_at(report + 12) == LAST_ROOM - 4 && responses_length(RECORDS) == LAST_ROOM - 4);
    CHECK(output[LAST_ROOM - 5] == '\n' && output[LAST_ROOM - 4] == UNTOUCHED);
    CHECK(second_replay(76, trace, LAST, output, LAST_ROOM + 1, report, 16) == 7);
    CHECK(second_replay(76, trace, LAST, output, LAST_ROOM - 1, report, 16) == 7);
    CHECK(second_replay(76, trace, LAST, output, LAST_ROOM - 5, report, 16) == 8);
    CHECK(word_at(report + 4) == RECORDS - 1);

    /* one byte more: its room is refused, and all that may be lent is too little */
    memset(report, UNTOUCHED, sizeof report);
    output[0] = UNTOUCHED;
    CHECK(second_replay(76, trace, LAST + 1, output, MOST + 17, report, 16) == 2);
    CHECK(second_replay(76, trace, LAST + 1, output, MOST + 1, report, 16) == 2);
    CHECK(second_replay(76, trace, LAST, output, MOST + 1, report, 16) == 2);
    CHECK(memcmp(report, still, sizeof report) == 0 && output[0] == UNTOUCHED);
    CHECK(second_replay(76, trace, LAST + 1, output, MOST, report, 16) == 8);
    CHECK(word_at(report + 4) == RECORDS && word_at(report + 12) == LAST_ROOM - 4);
    CHECK(output[MOST] == UNTOUCHED);
    free(trace);
    free(output);
}

static void test_room(void)
{
    records_seen = (groups){ 0, SIZE_MAX, 0 };
    answers_seen = records_seen;
    test_room_numbers();
    test_room_by_hand();
    test_room_arguments();
    test_room_by_chance();
    test_room_best();
    test_room_limit();
}

int main(void)
{
    test_fresh();
    test_bad_state();
    test_codes();
    test_registers();
    test_standby();
    test_status();
    test_open_diode();
    test_therm2();
    test_values();
    test_bench_cases();
    test_replay();
    test_malformed();
    test_rooms();
    test_refused_replay();
    test_counters();
    test_walks();
    test_therm2_walks();
    test_room();
    test_history();
    test_session();
    printf("%d passed, %d failed\n", passed, failed);
    return failed != 0;
}
