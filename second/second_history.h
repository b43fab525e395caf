/*
 * second_history.h - "no alarm is lost and none invented", checked on what a model answers.
 *
 * A history is told every event and its answer. It keeps what was written and measured, and a list
 * of what each event since the latest power-on was for each latched flag and each THERM2 mark.
 * Whether a flag, a mark or the ALERT latch stands is kept nowhere: the functions below look back
 * over the list, in the demand's words and, for the marks, in those of document 02's Item 4. It is
 * written from document 01, document 02's Items 3 and 4 and the demand, and takes nothing from a
 * model but the answers.
 */
#ifndef SECOND_HISTORY_H
#define SECOND_HISTORY_H

#include "second.h"

#include <stdbool.h>

/* The five latched flags; flag f is bit f + 2 of the status. */
enum {
    HISTORY_OPEN, HISTORY_REMOTE_LOW, HISTORY_REMOTE_HIGH, HISTORY_LOCAL_LOW, HISTORY_LOCAL_HIGH,
    HISTORY_FLAGS
};

/* What an event was for one flag. For the open flag the comparison is the diode check. To the remote flags a
   conversion with the diode open is no comparison: the one before it stays the latest. */
enum {
    HISTORY_NOTHING,        /* made no comparison, read no status */
    HISTORY_NO_FAULT,       /* its comparison found no fault */
    HISTORY_FAULT,          /* its comparison found the fault */
    HISTORY_SHOWED_0,       /* a status read, and the answer showed 0 */
    HISTORY_SHOWED_1        /* a status read, and the answer showed 1 */
};

/* The channels, each of which has a THERM2 mark. */
enum { HISTORY_LOCAL, HISTORY_REMOTE, HISTORY_CHANNELS };

/* Where an event's comparison found the value of one channel. */
enum {
    HISTORY_NOT_COMPARED,   /* it made none of this channel */
    HISTORY_AT_RELEASE,     /* at or below the high limit less the hysteresis (not under 0) */
    HISTORY_BETWEEN,        /* above that, and not above the high limit */
    HISTORY_ABOVE           /* above the high limit */
};

/* What one event was. */
typedef struct {
    uint8_t kind;                       /* its kind, or HISTORY_REFUSED */
    uint8_t needed;                     /* at kind 7 the number that register 22 asks for, else 0 */
    uint8_t was[HISTORY_FLAGS];         /* what it was for each flag */
    uint8_t found[HISTORY_CHANNELS];    /* where it found each channel's value */
} history_moment;
enum { HISTORY_REFUSED = 255 };

/* What was written and measured. */
typedef struct {
    int32_t address;
    int32_t local, remote;          /* the values, as codes; remote the last good one */
    uint8_t written[0x23];          /* bytes as written and kept, by WRITE command */
    uint8_t pointer;
    bool running;                   /* a conversion runs */
} history_record;

/* The claims, checked at every event that they speak of. */
enum {
    HISTORY_STATUS,         /* a status read shows each of bits 6 to 2 as the flag stood before it */
    HISTORY_SPELLS,         /* for each flag: spells opened = clearing reads that showed 1, + 1 if it stands */
    HISTORY_ALERT,          /* with bit 5 at 0 the alert line is ALERT: low exactly if the latch
                               stands and bit 7 is 0 */
    HISTORY_RESPONSE,       /* an alert response is answered exactly if before it the latch stands
                               and bits 7 and 5 are 0, with 2 * address + 1 */
    HISTORY_UNCHANGED,      /* a refused event changes nothing of the history but its length */
    HISTORY_SAME_EVENTS,    /* code 0 exactly for the events that the history takes: both count the same */
    HISTORY_THERM2,         /* with bit 5 at 1 the alert line is THERM2: low exactly if a mark
                               stands, whatever bit 7 is */
    HISTORY_CLAIMS
};
extern const char *const history_claims[HISTORY_CLAIMS];

/* What sets the ALERT latch. */
enum { HISTORY_BY_OPEN = 1, HISTORY_BY_RUN = 2, HISTORY_BY_STANDBY = 4 };

/* How often what was met, over all histories that share them. */
typedef struct {
    uint64_t claims[HISTORY_CLAIMS];            /* claims checked */
    uint64_t spells[HISTORY_FLAGS];             /* spells opened */
    uint64_t cleared[HISTORY_FLAGS];            /* clearing reads that showed 1 */
    uint64_t still[HISTORY_FLAGS];              /* status reads with the fault still there */
    uint64_t by_open, by_run, by_standby;       /* set the latch, which did not stand */
    uint64_t latch_cleared;                     /* alert responses answered with all five flags 0 */
    uint64_t answered, refused;                 /* alert responses */
    uint64_t resets, resets_standing;           /* power-ons behind other events; with a flag or the latch standing */
    uint64_t marks_set[HISTORY_CHANNELS];       /* THERM2 marks that a comparison set, */
    uint64_t marks_cleared[HISTORY_CHANNELS];   /* cleared, */
    uint64_t marks_kept[HISTORY_CHANNELS];      /* or found between, and standing */
    uint64_t marks_unseen, marks_standby;       /* set or cleared with bit 5 at 0; in standby */
    uint64_t therm2_low, therm2_low_masked;     /* events with THERM2 low after; and bit 7 set */
    uint64_t therm2_refused;                    /* of `refused`: for bit 5 alone */
    uint64_t latch_shown;                       /* writes that took bit 5 to 0, ALERT then low */
    uint64_t resets_marked;                     /* power-ons with a mark standing */
} history_counts;

typedef struct {
    history_record record;
    history_moment *list;           /* the events since the latest power-on, the oldest first */
    size_t length, room;
    uint64_t spells[HISTORY_FLAGS], cleared[HISTORY_FLAGS];    /* counted as the list grows: see history_end */
    history_counts *counts;
} second_history;

/*
 * A chip at `address`, 76 or 77, just powered on. `list` is lent, with room for `room` events; a history that
 * is told more of them since one power-on ends the program.
 */
void history_begin(second_history *h, int32_t address, history_moment *list, size_t room, history_counts *counts);

/* Tells one event and its answer. Gives the claims that do not hold, 1 << claim for each; 0 if all do. */
unsigned history_take(second_history *h, int32_t kind, int32_t a, int32_t b, int32_t c, second_answer answer);

/*
 * Counts spells and clearing reads once more over the whole list, which at every event would take too long.
 * Gives 1 << HISTORY_SPELLS if they are others than were counted as the list grew; history_take does the same
 * at a power-on.
 */
unsigned history_end(const second_history *h);

/* ---- the definitions; `n` looks at the first n events since power-on, `i` is one event, from 0 ---- */

/* "its latest comparison (for the open flag, diode check)": HISTORY_NO_FAULT, _FAULT, or _NOTHING if none was made. */
int history_latest_comparison(const second_history *h, int flag, size_t n);

/* "a clearing read is a status read at which its latest comparison found no fault, or none was made" */
bool history_clearing_read(const second_history *h, int flag, size_t i);

/* "The flag stands exactly if a comparison since the last clearing read found the fault." */
bool history_stands(const second_history *h, int flag, size_t n);

/* "The first such comparison opens a spell" */
bool history_opens_spell(const second_history *h, int flag, size_t i);

/* "spells opened since power-on" */
uint64_t history_spells_opened(const second_history *h, int flag, size_t n);

/* "the clearing reads that showed 1" */
uint64_t history_clearing_reads_showing_1(const second_history *h, int flag, size_t n);

/* "completed conversions in a row in which any of the four limit faults was found, held at 4"; with the diode
   open it "looks at local faults only in that conversion", which made no other comparison */
int history_in_a_row(const second_history *h, size_t n);

/* "something that sets it": a kind 7 with the diode open, a kind 7 after which the run count is at least the
   needed number, a standby comparison that finds any limit fault. HISTORY_BY_.. for each; 0 if it does not. */
unsigned history_sets_latch(const second_history *h, size_t i);

/* "alert response answered with all five flags 0" */
bool history_clears_latch(const second_history *h, size_t i);

/* "The ALERT latch stands exactly if something that sets it came after the last alert response answered with
   all five flags 0." */
bool history_latch_stands(const second_history *h, size_t n);

/* "set above the high limit, cleared at or below that limit less the hysteresis (not under 0),
   otherwise kept"; "clear at power-on" */
bool history_mark_stands(const second_history *h, int channel, size_t n);

/* "either mark is set" */
bool history_either_mark_stands(const second_history *h, size_t n);

#endif
