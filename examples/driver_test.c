/*
 * A small driver for the ADT7461, and its test against the model. The driver calls the bus as a Linux driver does; the lines under "The bus"
 * are all that ties it to the model. Built by examples/run.sh driver_test, or with any C compiler:
 *     gcc -Iinclude examples/driver_test.c target/staticlib/libdlaveth.a
 */
#include <stdio.h>

#include "dlaveth_driver.h"

/* ---- The bus: bytes are bytes, as in Linux, so that -1 is written as 255 ---- */

struct i2c_client { uint8_t *chip; int addr; };

#define i2c_smbus_read_byte_data(client, command) dlaveth_read_byte_data((client)->chip, (client)->addr, (uint8_t)(command))
#define i2c_smbus_write_byte_data(client, command, value) dlaveth_write_byte_data((client)->chip, (client)->addr, (uint8_t)(command), (uint8_t)(value))
#define i2c_smbus_read_byte(client) dlaveth_read_byte((client)->chip, (client)->addr)

/* ---- The driver ---- */

enum { REMOTE = 0x01, STATUS = 0x02, CONFIG_READ = 0x03, CONFIG = 0x09, LOCAL_HIGH = 0x0b, REMOTE_HIGH = 0x0d, REMOTE_FINE = 0x10, MAKER = 0xfe };
enum { STANDBY = 0x40, THERM2 = 0x20, FAULTS = 0x7c, REMOTE_HIGH_FAULT = 0x10, OPEN_FAULT = 0x04, ALERT_RESPONSE = 0x0c };

static int adt_probe(struct i2c_client *client)
{
    int maker = i2c_smbus_read_byte_data(client, MAKER);

    return maker < 0 ? maker : maker == 0x41 ? 0 : -ENODEV;
}

static int adt_set_high(struct i2c_client *client, int local, int remote)
{
    int result = i2c_smbus_write_byte_data(client, LOCAL_HIGH, local);

    return result < 0 ? result : i2c_smbus_write_byte_data(client, REMOTE_HIGH, remote);
}

/* The remote temperature in thousandths of a degree; while the probe is away, the last good one. */
static int adt_remote(struct i2c_client *client)
{
    int whole = i2c_smbus_read_byte_data(client, REMOTE), fine = i2c_smbus_read_byte_data(client, REMOTE_FINE);

    return whole < 0 ? whole : fine < 0 ? fine : whole * 1000 + fine / 64 * 250;
}

/* The same of these faults, which a status read showed: -ENODATA where the diode was open. */
static int adt_remote_if(struct i2c_client *client, int faults)
{
    return faults < 0 ? faults : faults & OPEN_FAULT ? -ENODATA : adt_remote(client);
}

static int adt_sleep(struct i2c_client *client)
{
    int config = i2c_smbus_read_byte_data(client, CONFIG_READ);

    return config < 0 ? config : i2c_smbus_write_byte_data(client, CONFIG, config | STANDBY);
}

/* Pin 6 to the fan, or back to ALERT. */
static int adt_fan(struct i2c_client *client, int fan)
{
    int config = i2c_smbus_read_byte_data(client, CONFIG_READ);

    return config < 0 ? config : i2c_smbus_write_byte_data(client, CONFIG, fan ? config | THERM2 : config & ~THERM2);
}

/* What the interrupt on ALERT calls: the faults. The status read clears those that are gone, and the alert response then lets ALERT go, if none
 * is left. */
static int adt_alert(struct i2c_client *client)
{
    struct i2c_client everyone = { client->chip, ALERT_RESPONSE };
    int status = i2c_smbus_read_byte_data(client, STATUS);
    int who = i2c_smbus_read_byte(&everyone);

    return status < 0 ? status : who < 0 ? who : who / 2 != client->addr ? -ENODEV : status & FAULTS;
}

/* ---- The test ---- */

static int wrong;

static void check(const char *what, int have, int want)
{
    if (have == want) {
        printf("ok   %s\n", what);
    } else {
        printf("WRONG %s: %d, not %d\n", what, have, want);
        wrong = 1;
    }
}

int main(void)
{
    uint8_t chip[DLAVETH_CHIP_BYTES], saved[DLAVETH_CHIP_BYTES];
    struct i2c_client client = { chip, 76 }, nobody = { chip, 77 };

    check("power up", dlaveth_power_up(chip, 76), 0);
    check("the driver finds the chip", adt_probe(&client), 0);
    check("and none at another address", adt_probe(&nobody), -ENXIO);

    check("limits of 60 degrees", adt_set_high(&client, 60, 60), 0);
    check("a conversion at 20 and 59.75", dlaveth_convert(chip, 20.0, 59.75), 0);
    check("the driver reads it", adt_remote(&client), 59750);
    check("ALERT is high", dlaveth_alert_line(chip), 1);
    memcpy(saved, chip, sizeof chip);    /* all there is to saving a chip */

    check("a conversion at 60.25", dlaveth_convert(chip, 20.0, 60.25), 0);
    check("ALERT falls", dlaveth_alert_line(chip), 0);
    check("the handler sees the fault", adt_alert(&client), REMOTE_HIGH_FAULT);
    check("it is still too hot, so ALERT stays low", dlaveth_alert_line(chip), 0);
    check("a conversion at 40", dlaveth_convert(chip, 20.0, 40.0), 0);
    check("the handler sees it once more, and clears it", adt_alert(&client), REMOTE_HIGH_FAULT);
    check("ALERT is high again", dlaveth_alert_line(chip), 1);
    check("nobody answers the alert response now", adt_alert(&client), -ENXIO);

    check("the probe is pulled", dlaveth_convert_open(chip, 21.0, 0.0, 1), 0);
    check("ALERT falls", dlaveth_alert_line(chip), 0);
    check("the register keeps the last good temperature", adt_remote(&client), 40000);
    check("the driver gives none", adt_remote_if(&client, adt_alert(&client)), -ENODATA);
    check("the probe is back, at 41", dlaveth_convert(chip, 21.0, 41.0), 0);
    check("the first status read shows the open diode once more", adt_remote_if(&client, adt_alert(&client)), -ENODATA);
    check("ALERT is high again", dlaveth_alert_line(chip), 1);
    check("the next one does not", adt_remote_if(&client, dlaveth_read_byte_data(chip, 76, STATUS) & FAULTS), 41000);

    check("pin 6 goes to a fan", adt_fan(&client, 1), 0);
    check("a conversion at 60.25", dlaveth_convert(chip, 20.0, 60.25), 0);
    check("the fan runs", dlaveth_pin6_line(chip), 0);
    check("nobody answers the alert response", adt_alert(&client), -ENXIO);
    check("a conversion at 50.25", dlaveth_convert(chip, 20.0, 50.25), 0);
    check("it runs on, down to 60 less the hysteresis of 10", dlaveth_pin6_line(chip), 0);
    check("a conversion at 50", dlaveth_convert(chip, 20.0, 50.0), 0);
    check("it stops", dlaveth_pin6_line(chip), 1);
    check("pin 6 is ALERT again", adt_fan(&client, 0), 0);
    check("and shows the alarm of the meantime", dlaveth_alert_line(chip), 0);
    check("the handler sees the fault", adt_alert(&client), REMOTE_HIGH_FAULT);
    check("ALERT is high again", dlaveth_alert_line(chip), 1);

    memcpy(chip, saved, sizeof chip);    /* back to 59.75, before the alarm */
    check("the chip sleeps", adt_sleep(&client), 0);
    check("no conversion in standby", dlaveth_convert(chip, 20.0, 20.0), -EBUSY);
    check("a limit lowered under the value in standby", adt_set_high(&client, 60, 50), 0);
    check("counts at once: ALERT falls", dlaveth_alert_line(chip), 0);
    check("the handler sees it, with no conversion between", adt_alert(&client), REMOTE_HIGH_FAULT);

    puts(wrong ? "the driver is wrong" : "the driver is right");
    return wrong;
}
