/*
 * dlaveth_driver.h - the calls of a driver, over dlaveth.h. Plain C, here in full: a driver's own SMBus calls become one of these each.
 *
 *     uint8_t chip[DLAVETH_CHIP_BYTES];
 *     dlaveth_power_up(chip, 76);
 *     dlaveth_convert(chip, 20.0, 85.25);
 *     int status = dlaveth_read_byte_data(chip, 76, 0x02);
 *
 * Each call on a chip takes its 128 bytes, and gives 0 or more, or a negative errno for a refusal:
 *   -ENXIO    nobody answers: not the chip's address; an alert response while ALERT is high, so always while pin 6 is THERM2
 *   -EINVAL   a number out of its range
 *   -EBUSY    no conversion can start or end now
 *   -EBADMSG  these bytes are no chip, or one whose state is not well formed
 * A call that is refused changes nothing, but for dlaveth_power_up, which then leaves bytes that are no chip.
 *
 * DLAVETH_LOG(kind, a, b, c), where it is defined before this header is included, is called with each event that was handed to a chip: as
 * four lines kind=, a=, b= and c= to a file they are a trace, which the tools show.
 */
#ifndef DLAVETH_DRIVER_H
#define DLAVETH_DRIVER_H

#include <errno.h>
#include <string.h>

#include "dlaveth.h"

#ifndef DLAVETH_LOG
#define DLAVETH_LOG(kind, a, b, c) ((void)0)
#endif

/* The SMBus alert response address. */
enum { DLAVETH_ALERT_RESPONSE_ADDRESS = 0x0c };

/* What a code is as an errno, negative; 0 for 0. */
static inline int dlaveth_errno(int code)
{
    switch (code) {
    case DLAVETH_DONE: return 0;
    case DLAVETH_NO_ACK: return -ENXIO;
    case DLAVETH_NO_START:
    case DLAVETH_NO_END: return -EBUSY;
    case DLAVETH_BAD_STATE: return -EBADMSG;
    default: return -EINVAL;
    }
}

/* One event that is not logged: the reply byte, which is 0 where the event reads nothing, or a negative errno. */
static inline int dlaveth_try(uint8_t *chip, int kind, int a, int b, int c)
{
    uint8_t answer[DLAVETH_EVENT_ANSWER_BYTES];
    int code = dlaveth_event(chip, DLAVETH_CHIP_BYTES, kind, a, b, c, answer, sizeof answer);

    return code ? dlaveth_errno(code) : answer[1];
}

/* The same, logged. */
static inline int dlaveth_do(uint8_t *chip, int kind, int a, int b, int c)
{
    DLAVETH_LOG(kind, a, b, c);
    return dlaveth_try(chip, kind, a, b, c);
}

/* A chip that was just powered on, at 76 (0x4c) or 77 (0x4d). Not logged: a trace begins with it. */
static inline int dlaveth_power_up(uint8_t *chip, int address)
{
    return dlaveth_errno(dlaveth_power_on(address, chip, DLAVETH_CHIP_BYTES));
}

/* ---- SMBus, as i2c_smbus_read_byte_data and its like: the address is the 7-bit one ---- */

/* The byte of a register. */
static inline int dlaveth_read_byte_data(uint8_t *chip, int address, int command)
{
    return dlaveth_do(chip, 3, address, command, 0);
}

static inline int dlaveth_write_byte_data(uint8_t *chip, int address, int command, int value)
{
    return dlaveth_do(chip, 2, address, command, value);
}

/* Names a register. */
static inline int dlaveth_write_byte(uint8_t *chip, int address, int command)
{
    return dlaveth_do(chip, 1, address, command, 0);
}

/* An alert response: 2 times the chip's address plus 1, or -ENXIO where ALERT is high. */
static inline int dlaveth_alert_response(uint8_t *chip)
{
    return dlaveth_do(chip, 5, 0, 0, 0);
}

/* The byte of the register that was named last; of the alert response address, 0x0c, an alert response. */
static inline int dlaveth_read_byte(uint8_t *chip, int address)
{
    return address == DLAVETH_ALERT_RESPONSE_ADDRESS ? dlaveth_alert_response(chip) : dlaveth_do(chip, 4, address, 0, 0);
}

/* ---- The lines: 1 high, 0 low. All are asked of a copy, so nothing changes and nothing is logged. ---- */

/* An event of no kind is refused, and its answer has the lines. */

static inline int dlaveth_line(const uint8_t *chip, int place)
{
    uint8_t copy[DLAVETH_CHIP_BYTES], answer[DLAVETH_EVENT_ANSWER_BYTES];

    memcpy(copy, chip, sizeof copy);
    return dlaveth_event(copy, sizeof copy, -1, 0, 0, 0, answer, sizeof answer) == DLAVETH_BAD_STATE ? -EBADMSG : answer[place];
}

/* Pin 6, in either role: ALERT, or THERM2 while configuration bit 5 is set. */
static inline int dlaveth_pin6_line(const uint8_t *chip)
{
    return dlaveth_line(chip, 2);
}

/* ALERT: low exactly where an alert response is answered, so high while pin 6 is THERM2. */
static inline int dlaveth_alert_line(const uint8_t *chip)
{
    uint8_t copy[DLAVETH_CHIP_BYTES];
    int reply;

    memcpy(copy, chip, sizeof copy);
    reply = dlaveth_try(copy, 5, 0, 0, 0);
    return reply == -ENXIO ? 1 : reply < 0 ? reply : 0;
}

static inline int dlaveth_therm_line(const uint8_t *chip)
{
    return dlaveth_line(chip, 3);
}

/* ---- What the world does to the chip ---- */

/* Power goes off and on; the address stays. */
static inline int dlaveth_reset(uint8_t *chip)
{
    return dlaveth_do(chip, 0, 0, 0, 0);
}

/* The greatest whole number not above x, of one that an int holds. */
static inline int dlaveth_floor(double x)
{
    int n = (int)x;

    return x < n ? n - 1 : n;
}

/* 0 where both temperatures are in an event's range, -8192 to under 8192; a number that is none is not. */
static inline int dlaveth_degrees(const uint8_t *chip, double local, double remote)
{
    if (local >= -8192.0 && local < 8192.0 && remote >= -8192.0 && remote < 8192.0)
        return 0;
    return dlaveth_line(chip, 2) < 0 ? -EBADMSG : -EINVAL;
}

/* A conversion starts: busy. -EBUSY in standby, where a write to 0x0f starts one, and while one runs. */
static inline int dlaveth_start(uint8_t *chip)
{
    return dlaveth_do(chip, 6, 0, 0, 0);
}

/* The conversion that runs ends with these degrees, each rounded down, local to whole degrees and remote to quarters. -EBUSY where none
 * runs. What the registers then show is clamped: by default to 0..127 and 0..127.75, in the extended range to -64..191 and -64..191.75.
 * open is 0, or 1 for an open remote diode: then the remote temperature is not stored, and its registers keep the last good one.
 * -EINVAL for any other, and for a temperature, stored or not, that is no number or not in -8192 to under 8192. */
static inline int dlaveth_end(uint8_t *chip, double local, double remote, int open)
{
    int result = dlaveth_degrees(chip, local, remote);

    return result < 0 ? result : dlaveth_do(chip, 7, dlaveth_floor(local), dlaveth_floor(remote * 4.0), open);
}

/* A conversion that starts and ends; in standby, or while one runs, the one that runs ends. -EBUSY in standby where none runs. */
static inline int dlaveth_convert_open(uint8_t *chip, double local, double remote, int open)
{
    uint8_t after[DLAVETH_CHIP_BYTES];
    int started, result = dlaveth_degrees(chip, local, remote);

    if (result < 0)
        return result;
    memcpy(after, chip, sizeof after);
    started = dlaveth_try(after, 6, 0, 0, 0) == 0;
    result = dlaveth_try(after, 7, dlaveth_floor(local), dlaveth_floor(remote * 4.0), open);
    if (result < 0)
        return result;
    if (started)
        dlaveth_start(chip);
    return dlaveth_end(chip, local, remote, open);
}

static inline int dlaveth_convert(uint8_t *chip, double local, double remote)
{
    return dlaveth_convert_open(chip, local, remote, 0);
}

#endif
