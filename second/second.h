/*
 * second.h - an independent second model of one ADT7461, written from
 * document 01, with document 02's Item 3 in place of its line on the open
 * diode, Item 4 in place of its line on pin 6 as THERM2 and Item 5 beside
 * its lines on the replay, alone and compared byte by byte with the first one.
 *
 * The chip is a file of byte registers, as the part has them, and a few
 * latches and marks. Nothing is allocated; a chip may be copied with =.
 */
#ifndef SECOND_H
#define SECOND_H

#include <stddef.h>
#include <stdint.h>

/* Answer codes of document 01. second_step gives 0 to 6, a replay ends with 0, 2, 7 or 8. */
enum {
    SECOND_DONE = 0,         /* done */
    SECOND_BAD_KIND = 1,     /* kind outside 0..7 */
    SECOND_BAD_FIELD = 2,    /* field out of range or unused field not 0; bad address or length */
    SECOND_NO_ACK = 3,       /* not the chip's address; alert response while ALERT is high */
    SECOND_NO_START = 4,     /* conversion start in standby, or while one runs */
    SECOND_NO_END = 5,       /* conversion end while none runs */
    SECOND_BAD_STATE = 6,    /* state not well formed */
    SECOND_MALFORMED = 7,    /* replay: record malformed */
    SECOND_NO_ROOM = 8       /* replay: the answer does not fit */
};

enum {
    SECOND_REGISTERS = 0x23,           /* size of the register file, read addresses 00..22 */
    SECOND_MOST_BYTES = 16777216,      /* longest trace, and longest output: 16 MiB */
    SECOND_REPORT_BYTES = 16           /* length of a replay's report */
};

/* The two numbers of Item 5: no record is shorter, no answer longer. They stand only here. */
enum {
    SECOND_SHORTEST_RECORD = 19,
    SECOND_LONGEST_ANSWER = 33
};

/*
 * The chip. It is well formed (not refused by code 6) if
 *   reg[i] has no bit that the register never keeps (holes keep none),
 *   address is 76 or 77, run is at most 4, alert_latch is 0 or 1,
 *   found has only bits 6..2, converted and therm2 only bits 1 and 0.
 * The remote value lies in reg 01 and 10 as the chip shows it, so "remote
 * value over 1023" is a low bit set in reg 10.
 */
typedef struct second_chip second_chip;
struct second_chip {
    uint8_t reg[SECOND_REGISTERS]; /* registers by READ address; status, with busy, is reg[0x02];
                                      holes (09..0F, 15..18, 1A..1F) are always 0 */
    uint8_t address;               /* bus address, 76 or 77 */
    uint8_t pointer;               /* address pointer, any command */
    uint8_t found;                 /* bits as in status, 6..2: the latest comparison (for bit 2
                                      the latest diode check) found that fault */
    uint8_t converted;             /* channels converted since power-on: bit 0 local, bit 1 remote,
                                      which a conversion with the diode open does not convert */
    uint8_t run;                   /* run count 0..4 */
    uint8_t alert_latch;           /* 1: the ALERT latch is set */
    uint8_t therm2;                /* THERM2 marks that are set: bit 0 local, bit 1 remote; kept up
                                      whatever configuration bit 5 says */
};

/* What one event is answered. */
typedef struct {
    int code;     /* 0..6 */
    int reply;    /* reply byte, 0 unless code is 0 and the event is one that reads */
    int alert;    /* pin 6 after the event, 1 is high: ALERT, with configuration bit 5 set THERM2 */
    int therm;    /* THERM line after the event, 1 is high */
} second_answer;

/*
 * Makes *chip a chip just powered on at this address and returns 0; for an
 * address other than 76 and 77 makes it all zero bytes and returns 2.
 */
int second_fresh(second_chip *chip, int32_t address);

/*
 * Takes one event. With code 0 *chip is changed by it; with codes 1..6 *chip
 * is not written at all. alert and therm are those of *chip on return.
 */
second_answer second_step(second_chip *chip, int32_t kind, int32_t a, int32_t b, int32_t c);

/*
 * Replays a whole trace on a chip fresh from power-on.
 * Code 2, writing nothing: bad address, trace_len or output_len over
 * SECOND_MOST_BYTES, report_len not SECOND_REPORT_BYTES. Otherwise the
 * answers stand behind each other from output[0], the rest of the output is
 * untouched, and the report holds code, records answered, trace bytes used
 * and output bytes written, each 4 bytes, low byte first. Returns the code.
 * trace and output may be null where their length is 0.
 * Code 8 is never given if output_len is at least second_room(trace_len), and
 * the records answered are never more than trace_len / SECOND_SHORTEST_RECORD.
 */
int32_t second_replay(int32_t address,
                      const uint8_t *trace, size_t trace_len,
                      uint8_t *output, size_t output_len,
                      uint8_t *report, size_t report_len);

/*
 * The output bytes that are enough for a trace of trace_len bytes, whatever
 * they are (Item 5): SECOND_LONGEST_ANSWER for each full SECOND_SHORTEST_RECORD
 * of them; SIZE_MAX where a size_t can't hold that. For a long trace it passes
 * SECOND_MOST_BYTES, and then no replay takes so large an output.
 */
size_t second_room(size_t trace_len);

/*
 * Coverage counters. The model only ever adds to second_seen_counts; the
 * driver may read it, and zero it, between calls. One plain global: not for
 * calls from several threads at once. Built with -DSECOND_COUNTING=0 the
 * model counts nothing and second_seen_counts stays as it is.
 * The record a replay stops at with code 8 is not applied, so it counts in
 * code[8] only.
 */
typedef struct second_seen second_seen;
struct second_seen {
    uint64_t read[256];           /* acknowledged kinds 3 and 4, by the pointer they read at */
    uint64_t written[256];        /* acknowledged kind 2, by command */
    uint64_t code[9];             /* 0..6: answers of second_step; 7, 8: replays that ended so
                                     (the code 2 of a refused replay or address is not counted) */
    /* The five latched flags; index 0 open (bit 2), 1 remote low (3), 2 remote high (4),
       3 local low (5), 4 local high (6): status bit less 2. */
    uint64_t flag_set[5];         /* went from 0 to 1 */
    uint64_t flag_kept[5];        /* stood at a status read and stays: the fault is still there */
    uint64_t flag_cleared[5];     /* stood at a status read and was cleared */
    /* The ALERT latch. Counted only when it goes from 0 to 1; a conversion with both
       reasons counts in both. */
    uint64_t latch_by_open;       /* kind 7 with the diode open */
    uint64_t latch_by_run;        /* kind 7 with the run count at the needed number */
    uint64_t latch_by_standby;    /* comparison at a limit write in standby */
    uint64_t latch_cleared;       /* cleared by an alert response */
    uint64_t converted_default;   /* conversions ended in the default range */
    uint64_t converted_extended;  /* conversions ended in the extended range */
    uint64_t standby_compares;    /* limit writes in standby that compared at least one channel */
    uint64_t one_shots;           /* one-shot writes that started a conversion */
    uint64_t converted_open;      /* conversions ended with the diode open */
    uint64_t converted_needed[4]; /* conversions ended while the needed number was 1, 2, 3, 4 */
    /* Of the conversions ended with the diode open, those that held back ... */
    uint64_t held_unconverted;    /* a remote channel not converted since power-on */
    uint64_t held_fault;          /* a latest remote limit verdict of fault */
    uint64_t held_therm;          /* a remote THERM flag that stood */
    uint64_t standby_local_only;  /* limit writes in standby that compared the local channel only */
    /* The THERM2 marks; index 0 local, 1 remote. Between the thresholds is at or below the high
       limit and above the limit less the hysteresis. A power-on counts in none of them. */
    uint64_t mark_set[2];             /* went from 0 to 1 */
    uint64_t mark_cleared[2];         /* went from 1 to 0 */
    uint64_t mark_set_unseen[2];      /* of mark_set: while configuration bit 5 is 0 */
    uint64_t mark_cleared_unseen[2];  /* of mark_cleared: while configuration bit 5 is 0 */
    uint64_t mark_set_standby[2];     /* of mark_set: at a limit write in standby */
    uint64_t mark_cleared_standby[2]; /* of mark_cleared: at a limit write in standby */
    uint64_t mark_cleared_at_0[2];    /* of mark_cleared: at code 0, hysteresis over the limit */
    uint64_t mark_kept[2];            /* set, and compared between the thresholds */
    uint64_t mark_kept_clear[2];      /* clear, and compared between the thresholds */
    /* Of the conversions ended with the diode open, those that held back ... */
    uint64_t held_mark;               /* a remote mark that was set */
    uint64_t held_mark_local;         /* the same, while the local mark changed */
    /* Pin 6 in the THERM2 role. The first three count answers, whatever their code. */
    uint64_t therm2_low;              /* the line is low */
    uint64_t therm2_low_masked;       /* the same, with bit 7 set */
    uint64_t therm2_high_latched;     /* the line is high, with the latch set and bit 7 at 0 */
    uint64_t therm2_no_ack;           /* alert responses refused with the latch set, bit 7 at 0 */
    uint64_t therm2_no_ack_low;       /* alert responses refused with the line low */
    uint64_t therm2_begun_low;        /* writes that took bit 5 from 0 to 1, the line then low */
    uint64_t latch_shown;             /* writes that took bit 5 from 1 to 0, ALERT then low */
};
extern second_seen second_seen_counts;

#ifndef SECOND_COUNTING
#define SECOND_COUNTING 1
#endif
#if SECOND_COUNTING
#define SECOND_SEEN(counter) ((void)second_seen_counts.counter++)
#else
#define SECOND_SEEN(counter) ((void)0)
#endif

#endif
