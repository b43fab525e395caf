/* The calls of a driver, one by one: what they give, what refuses them, how degrees are rounded. The last line is 'N passed, M failed'. */
#include <stdio.h>

static int logged[4], events;

#define DLAVETH_LOG(kind, a, b, c) (logged[0] = (kind), logged[1] = (a), logged[2] = (b), logged[3] = (c), events++)

#include "dlaveth_driver.h"

static int passed, failed;

static void check(const char *what, int have, int want)
{
    if (have == want) {
        passed++;
    } else {
        failed++;
        printf("FAILED %s: %d, not %d\n", what, have, want);
    }
}

/* The two values after a conversion at these degrees: local, remote in quarters; or its refusal. In the extended range, 64 degrees up. */
static void converts(const char *what, double local, double remote, int want_local, int want_quarters)
{
    uint8_t chip[DLAVETH_CHIP_BYTES];

    dlaveth_power_on(77, chip, sizeof chip);
    dlaveth_write_byte_data(chip, 77, 0x09, 0x04);
    check(what, dlaveth_convert(chip, local, remote), 0);
    check(what, dlaveth_read_byte_data(chip, 77, 0x00) - 64, want_local);
    check(what, dlaveth_read_byte_data(chip, 77, 0x01) * 4 + dlaveth_read_byte_data(chip, 77, 0x10) / 64 - 256, want_quarters);
}

int main(void)
{
    static const double zero = 0.0;
    uint8_t chip[DLAVETH_CHIP_BYTES], before[DLAVETH_CHIP_BYTES];

    check("a bad address", dlaveth_power_up(chip, 75), -EINVAL);
    check("leaves no chip", dlaveth_read_byte(chip, 76), -EBADMSG);
    check("power up", dlaveth_power_up(chip, 76), 0);
    dlaveth_write_byte(chip, 76, 0x33);
    memcpy(before, chip, sizeof chip);
    check("asking for a line", dlaveth_alert_line(chip), 1);
    check("asking for the other", dlaveth_therm_line(chip), 1);
    check("changes nothing", memcmp(chip, before, sizeof chip), 0);
    check("a register read", dlaveth_read_byte_data(chip, 76, 0xfe), 0x41);
    check("a register written", dlaveth_write_byte_data(chip, 76, 0x0b, 100), 0);
    check("and read back", dlaveth_read_byte_data(chip, 76, 0x05), 100);
    check("a register named", dlaveth_write_byte(chip, 76, 0x0b), 0);
    check("is not written", dlaveth_read_byte_data(chip, 76, 0x05), 100);
    check("a register named", dlaveth_write_byte(chip, 76, 0xff), 0);
    check("and read", dlaveth_read_byte(chip, 76), 0x51);

    events = 0;
    check("a write is logged", dlaveth_write_byte_data(chip, 76, 0x19, 85), 0);
    check("once", events, 1);
    check("with its four numbers", logged[0] * 1000000 + logged[1] * 10000 + logged[2] * 100 + logged[3], 2762585);
    check("a conversion is logged", dlaveth_convert(chip, 20.0, -1.0), 0);
    check("as two events", events, 3);
    check("the second its end", logged[0] * 10000 + logged[1] * 100 + logged[2], 71996);
    check("a line is not", dlaveth_therm_line(chip), 1);
    check("logged", events, 3);
    check("a refused conversion is not", dlaveth_convert_open(chip, 20.0, 20.0, 7), -EINVAL);
    check("logged either", events, 3);
    check("a reset", dlaveth_reset(chip), 0);

    memcpy(before, chip, sizeof chip);
    check("another address, read", dlaveth_read_byte_data(chip, 77, 0xfe), -ENXIO);
    check("another address, written", dlaveth_write_byte_data(chip, 77, 0x0b, 1), -ENXIO);
    check("another address, named", dlaveth_write_byte(chip, 77, 0), -ENXIO);
    check("another address, received", dlaveth_read_byte(chip, 77), -ENXIO);
    check("an alert response while ALERT is high", dlaveth_alert_response(chip), -ENXIO);
    check("the same by its address", dlaveth_read_byte(chip, 0x0c), -ENXIO);
    check("an end while none runs", dlaveth_end(chip, 20.0, 20.0, 0), -EBUSY);
    check("an end too cold", dlaveth_end(chip, -8193.0, 20.0, 0), -EINVAL);
    check("no bus address", dlaveth_read_byte(chip, 128), -EINVAL);
    check("no command", dlaveth_read_byte_data(chip, 76, 256), -EINVAL);
    check("no byte", dlaveth_write_byte_data(chip, 76, 0x0b, -1), -EINVAL);
    check("no byte either", dlaveth_write_byte_data(chip, 76, 0x0b, 256), -EINVAL);
    check("no command, written", dlaveth_write_byte_data(chip, 76, 0x10b, 1), -EINVAL);
    check("no command, named", dlaveth_write_byte(chip, 76, 256), -EINVAL);
    check("no remote number", dlaveth_convert(chip, 0.0, zero / zero), -EINVAL);
    check("endlessly cold", dlaveth_convert(chip, -1.0 / zero, 0.0), -EINVAL);
    check("endlessly cold outside", dlaveth_convert(chip, 0.0, -1.0 / zero), -EINVAL);
    check("endlessly hot", dlaveth_convert(chip, 1.0 / zero, 0.0), -EINVAL);
    check("too hot outside", dlaveth_convert(chip, 0.0, 8192.0), -EINVAL);
    check("too cold inside", dlaveth_convert(chip, -8192.5, 0.0), -EINVAL);
    check("too hot", dlaveth_convert(chip, 8192.0, 0.0), -EINVAL);
    check("too cold", dlaveth_convert(chip, 0.0, -8192.25), -EINVAL);
    check("no number", dlaveth_convert(chip, zero / zero, 0.0), -EINVAL);
    check("an endless one", dlaveth_convert(chip, 0.0, 1.0 / zero), -EINVAL);
    check("a diode neither open nor not", dlaveth_convert_open(chip, 0.0, 0.0, 2), -EINVAL);
    check("a refusal changes nothing", memcmp(chip, before, sizeof chip), 0);

    check("both lines are high", dlaveth_alert_line(chip) * 2 + dlaveth_therm_line(chip), 3);
    check("a conversion at 101 degrees", dlaveth_convert(chip, 101.0, 20.0), 0);
    check("both lines are low", dlaveth_alert_line(chip) * 2 + dlaveth_therm_line(chip), 0);
    check("the alert response", dlaveth_alert_response(chip), 153);
    check("by its address", dlaveth_read_byte(chip, 0x0c), 153);
    memcpy(before, chip, sizeof chip);
    check("asking for a line", dlaveth_alert_line(chip), 0);
    check("changes nothing", memcmp(chip, before, sizeof chip), 0);
    check("a reset", dlaveth_reset(chip), 0);
    check("the limit is as at power-on", dlaveth_read_byte_data(chip, 76, 0x05), 0x55);
    check("a start", dlaveth_start(chip), 0);
    check("makes it busy", dlaveth_read_byte_data(chip, 76, 0x02), 0x80);
    check("a second start", dlaveth_start(chip), -EBUSY);
    check("the one that runs is ended", dlaveth_convert(chip, 22.75, 20.0), 0);
    check("with its value", dlaveth_read_byte_data(chip, 76, 0x00), 22);
    check("a start once more", dlaveth_start(chip), 0);
    check("and an end", dlaveth_end(chip, 23.0, 20.0, 0), 0);
    check("with its value", dlaveth_read_byte_data(chip, 76, 0x00), 23);
    check("no diode was open", dlaveth_read_byte_data(chip, 76, 0x02), 0);
    check("an open diode", dlaveth_convert_open(chip, 24.0, 99.0, 1), 0);
    check("its flag, and no remote fault", dlaveth_read_byte_data(chip, 76, 0x02), 0x04);
    check("the local value", dlaveth_read_byte_data(chip, 76, 0x00), 24);
    check("the last good remote one", dlaveth_read_byte_data(chip, 76, 0x01), 20);

    check("pin 6 is ALERT, which an open diode pulls", dlaveth_pin6_line(chip) * 2 + dlaveth_alert_line(chip), 0);
    check("pin 6 as THERM2", dlaveth_write_byte_data(chip, 76, 0x09, 0x20), 0);
    check("no mark is set: it is high", dlaveth_pin6_line(chip), 1);
    check("and so is ALERT", dlaveth_alert_line(chip), 1);
    check("no alert response is answered", dlaveth_alert_response(chip), -ENXIO);
    check("a conversion at 86 degrees", dlaveth_convert(chip, 86.0, 20.0), 0);
    memcpy(before, chip, sizeof chip);
    events = 0;
    check("pin 6 is low", dlaveth_pin6_line(chip), 0);
    check("ALERT is not", dlaveth_alert_line(chip), 1);
    check("asking for either changes nothing", memcmp(chip, before, sizeof chip), 0);
    check("nor is it logged", events, 0);
    check("masked too", dlaveth_write_byte_data(chip, 76, 0x09, 0xa0), 0);
    check("pin 6 is low", dlaveth_pin6_line(chip), 0);
    check("pin 6 as ALERT again", dlaveth_write_byte_data(chip, 76, 0x09, 0x00), 0);
    check("both are low", dlaveth_pin6_line(chip) * 2 + dlaveth_alert_line(chip), 0);
    check("masked", dlaveth_write_byte_data(chip, 76, 0x09, 0x80), 0);
    check("both are high", dlaveth_pin6_line(chip) * 2 + dlaveth_alert_line(chip), 3);
    check("bytes that are no chip have no pin", (chip[0] ^= 1, dlaveth_pin6_line(chip)), -EBADMSG);
    check("and no ALERT", dlaveth_alert_line(chip), -EBADMSG);
    chip[0] ^= 1;

    check("standby", dlaveth_write_byte_data(chip, 76, 0x09, 0x40), 0);
    memcpy(before, chip, sizeof chip);
    check("no conversion in standby", dlaveth_convert(chip, 20.0, 20.0), -EBUSY);
    check("which changes nothing", memcmp(chip, before, sizeof chip), 0);
    check("a one-shot", dlaveth_write_byte_data(chip, 76, 0x0f, 0), 0);
    check("is ended", dlaveth_convert(chip, 33.0, 20.0), 0);
    check("with its value", dlaveth_read_byte_data(chip, 76, 0x00), 33);

    check("code 1", dlaveth_do(chip, 8, 0, 0, 0), -EINVAL);
    check("code 5", dlaveth_do(chip, 7, 0, 0, 0), -EBUSY);
    memset(chip, 0, sizeof chip);
    check("no chip", dlaveth_read_byte_data(chip, 76, 0xfe), -EBADMSG);
    check("no chip, a conversion", dlaveth_convert(chip, 20.0, 20.0), -EBADMSG);
    check("no chip, whatever the degrees", dlaveth_convert(chip, zero / zero, 20.0), -EBADMSG);
    check("no chip, its end", dlaveth_end(chip, 9000.0, 20.0, 0), -EBADMSG);
    check("no chip, a reset", dlaveth_reset(chip), -EBADMSG);
    check("no chip, a line", dlaveth_alert_line(chip), -EBADMSG);
    check("no chip, the other", dlaveth_therm_line(chip), -EBADMSG);

    dlaveth_power_up(chip, 77);
    dlaveth_write_byte_data(chip, 77, 0x0b, 10);
    check("a local fault alone", dlaveth_convert(chip, 20.0, 20.0), 0);
    check("ALERT is low", dlaveth_alert_line(chip), 0);
    check("THERM is high", dlaveth_therm_line(chip), 1);
    check("ALERT is masked", dlaveth_write_byte_data(chip, 77, 0x09, 0x80), 0);
    check("a hot conversion", dlaveth_convert(chip, 90.0, 20.0), 0);
    check("ALERT is high", dlaveth_alert_line(chip), 1);
    check("THERM is low", dlaveth_therm_line(chip), 0);
    check("a reset at 77", dlaveth_reset(chip), 0);
    check("stays at 77", dlaveth_read_byte_data(chip, 77, 0xfe), 0x41);
    check("THERM is high", dlaveth_therm_line(chip), 1);
    chip[4] = 5;    /* a run count that no chip has */
    memcpy(before, chip, sizeof chip);
    check("a state that is not well formed", dlaveth_reset(chip), -EBADMSG);
    check("stays as it was", memcmp(chip, before, sizeof chip), 0);

    dlaveth_power_up(chip, 76);
    check("as hot as can be", dlaveth_convert(chip, 8191.99, 8191.99), 0);
    check("reads the most", dlaveth_read_byte_data(chip, 76, 0x00), 127);
    check("as cold as can be", dlaveth_convert(chip, -8192.0, -8192.0), 0);
    check("reads the least", dlaveth_read_byte_data(chip, 76, 0x01), 0);

    converts("whole", 20.0, 50.0, 20, 200);
    converts("rounded down", 20.99, 50.24, 20, 200);
    converts("to quarters", 20.0, 50.26, 20, 201);
    converts("below zero, down too", -0.01, -0.01, -1, -1);
    converts("below zero, exactly", -5.0, -5.25, -5, -21);

    printf("%d passed, %d failed\n", passed, failed);
    return failed > 0;
}
