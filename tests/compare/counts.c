/* counts.c - see counts.h. */
#include "counts.h"
#include "alarms.h"
#include "second.h"

#include <stdio.h>
#include <string.h>

counts counted;
static unsigned zeros;

void counts_zero(void)
{
    memset(&counted, 0, sizeof counted);
    memset(&second_seen_counts, 0, sizeof second_seen_counts);
    memset(alarms_counts, 0, sizeof alarms_counts);
}

static void show(const char *what, const char *which, uint64_t number)
{
    printf("%-26s %-24s %10llu%s\n", what, which, (unsigned long long)number, number == 0 ? "  ZERO" : "");
    zeros += number == 0;
}

static void show_each(const char *what, const char *const names[], const uint64_t numbers[], size_t len)
{
    for (size_t i = 0; i < len; i++)
        show(what, names[i], numbers[i]);
}

/* One line for all 256, and one for each that is missing. */
static void show_commands(const char *what, const uint64_t numbers[256])
{
    unsigned seen = 0, least = 0;
    char which[64];
    for (unsigned i = 0; i < 256; i++) {
        if (numbers[i] < numbers[least])
            least = i;
        seen += numbers[i] != 0;
    }
    snprintf(which, sizeof which, "%u of 256, least 0x%02X", seen, least);
    printf("%-26s %-24s %10llu\n", what, which, (unsigned long long)numbers[least]);
    for (unsigned i = 0; i < 256; i++) {
        snprintf(which, sizeof which, "0x%02X", i);
        if (numbers[i] == 0)
            show(what, which, 0);
    }
}

#define SHOW_EACH(what, names, numbers) show_each(what, names, numbers, sizeof(names) / sizeof *(names))

static const char *const channels[] = {"local", "remote"};
static const char *const flags[] = {"open", "remote low", "remote high", "local low", "local high"};

/* What the second model counted. */
static void show_seen(const second_seen *seen)
{
    static const char *const codes[] = {"0", "1", "2", "3", "4", "5"};
    static const char *const needed[] = {"1", "2", "3", "4"};
    show_commands("commands read", seen->read);
    show_commands("commands written", seen->written);
    SHOW_EACH("answered with code", codes, seen->code);
    show("replay ended with code", "7", seen->code[SECOND_MALFORMED]);
    show("replay ended with code", "8", seen->code[SECOND_NO_ROOM]);
    show("replay refused with code", "2", counted.refused);
    SHOW_EACH("flag set", flags, seen->flag_set);
    SHOW_EACH("flag kept at a read", flags, seen->flag_kept);
    SHOW_EACH("flag cleared at a read", flags, seen->flag_cleared);
    show("latch set", "by an open diode", seen->latch_by_open);
    show("latch set", "by the run count", seen->latch_by_run);
    show("latch set", "in standby", seen->latch_by_standby);
    show("latch cleared", "", seen->latch_cleared);
    show("conversion ended", "default range", seen->converted_default);
    show("conversion ended", "extended range", seen->converted_extended);
    show("conversion ended", "diode open", seen->converted_open);
    show("open diode held back", "remote not converted", seen->held_unconverted);
    show("open diode held back", "remote limit fault", seen->held_fault);
    show("open diode held back", "remote THERM flag", seen->held_therm);
    SHOW_EACH("conversion ended, needed", needed, seen->converted_needed);
    show("conversion started", "by a one-shot", seen->one_shots);
    show("standby comparison", "", seen->standby_compares);
    show("standby comparison", "local alone", seen->standby_local_only);
    SHOW_EACH("mark set", channels, seen->mark_set);
    SHOW_EACH("mark set, bit 5 at 0", channels, seen->mark_set_unseen);
    SHOW_EACH("mark set in standby", channels, seen->mark_set_standby);
    SHOW_EACH("mark kept", channels, seen->mark_kept);
    SHOW_EACH("mark kept clear", channels, seen->mark_kept_clear);
    SHOW_EACH("mark cleared", channels, seen->mark_cleared);
    SHOW_EACH("mark cleared, bit 5 at 0", channels, seen->mark_cleared_unseen);
    SHOW_EACH("mark cleared in standby", channels, seen->mark_cleared_standby);
    SHOW_EACH("mark cleared at code 0", channels, seen->mark_cleared_at_0);
    show("open diode held back", "remote mark", seen->held_mark);
    show("open diode held back", "the same, local moved", seen->held_mark_local);
    show("pin 6 as THERM2", "low", seen->therm2_low);
    show("pin 6 as THERM2", "low, bit 7 set", seen->therm2_low_masked);
    show("pin 6 as THERM2", "high, latch set", seen->therm2_high_latched);
    show("pin 6 as THERM2", "low by its first write", seen->therm2_begun_low);
    show("alert response as THERM2", "latch set", seen->therm2_no_ack);
    show("alert response as THERM2", "line low", seen->therm2_no_ack_low);
    show("bit 5 back to 0", "the latch shows", seen->latch_shown);
}

static void show_both(const char *what, const char *which, uint64_t model, uint64_t second)
{
    bool zero = model == 0 || second == 0;
    printf("%-26s %-24s %10llu %10llu%s\n", what, which, (unsigned long long)model, (unsigned long long)second, zero ? "  ZERO" : "");
    zeros += zero;
}

#define SHOW_BOTH(what, which, count) show_both(what, which, alarms_counts[ALARMS_MODEL].count, alarms_counts[ALARMS_SECOND].count)

/* What the histories met in the answers of the two models. */
static void show_alarms(void)
{
    static const char *const names[HISTORY_CLAIMS] = {
        "status read", "spells", "ALERT line", "alert response", "refused event", "code 0 or not", "THERM2 line",
    };
    printf("%-51s %10s %10s\n", "by the history, in the answers of", "the model", "the second");
    for (int claim = 0; claim < HISTORY_CLAIMS; claim++)
        SHOW_BOTH("claim checked", names[claim], claims[claim]);
    for (int flag = 0; flag < HISTORY_FLAGS; flag++)
        SHOW_BOTH("spell opened", flags[flag], spells[flag]);
    for (int flag = 0; flag < HISTORY_FLAGS; flag++)
        SHOW_BOTH("clearing read showed 1", flags[flag], cleared[flag]);
    for (int flag = 0; flag < HISTORY_FLAGS; flag++)
        SHOW_BOTH("read, fault still there", flags[flag], still[flag]);
    SHOW_BOTH("latch set", "by an open diode", by_open);
    SHOW_BOTH("latch set", "by the run count", by_run);
    SHOW_BOTH("latch set", "in standby", by_standby);
    SHOW_BOTH("latch cleared", "", latch_cleared);
    SHOW_BOTH("alert response", "answered", answered);
    SHOW_BOTH("alert response", "refused", refused);
    SHOW_BOTH("reset in the middle", "", resets);
    SHOW_BOTH("reset in the middle", "flag or latch standing", resets_standing);
    SHOW_BOTH("reset in the middle", "mark standing", resets_marked);
    for (int channel = 0; channel < HISTORY_CHANNELS; channel++) {
        SHOW_BOTH("mark set", channels[channel], marks_set[channel]);
        SHOW_BOTH("mark kept", channels[channel], marks_kept[channel]);
        SHOW_BOTH("mark cleared", channels[channel], marks_cleared[channel]);
    }
    SHOW_BOTH("mark moved", "bit 5 at 0", marks_unseen);
    SHOW_BOTH("mark moved", "in standby", marks_standby);
    SHOW_BOTH("pin 6 as THERM2", "low", therm2_low);
    SHOW_BOTH("pin 6 as THERM2", "low, bit 7 set", therm2_low_masked);
    SHOW_BOTH("alert response", "refused for bit 5 alone", therm2_refused);
    SHOW_BOTH("bit 5 back to 0", "the latch shows", latch_shown);
}

unsigned counts_show(void)
{
    static const char *const addresses[ADDRESSES] = {"76", "77", "0", "12", "75", "78", "-1", "large"};
    static const char *const rooms[ROOMS] = {"0", "exact", "one less", "ample", "random", "33 for each 19", "32 for each 19", "33 for each 20"};
    static const char *const reports[REPORTS] = {"0", "15", "17", "16"};
    zeros = 0;
    show_seen(&second_seen_counts);
    show_alarms();
    SHOW_EACH("address", addresses, counted.address);
    SHOW_EACH("output room", rooms, counted.room);
    show("stopped by 8", "32 for each 19", counted.stopped_32_for_19);
    show("stopped by 8", "33 for each 20", counted.stopped_33_for_20);
    show("records", "as many as can be", counted.most_records);
    SHOW_EACH("report length", reports, counted.report);
    show_each("trace", damage_names, counted.damage, DAMAGES);
    return zeros;
}
