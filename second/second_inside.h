/* second_inside.h - what the files of the model share among themselves; not for its callers. */
#ifndef SECOND_INSIDE_H
#define SECOND_INSIDE_H

#include "second.h"

#include <stdbool.h>

/* The four numbers of a record, whatever their meaning. */
typedef struct {
    int32_t kind, a, b, c;
} second_record;

/* ---- second.c ---- */

/* Whether code 6 lets this chip pass. */
bool second_well_formed(const second_chip *chip);

/* ---- second_replay.c ---- */

/* Whether the event's answer fits in `room` bytes. Changes neither the chip nor the counters. */
bool second_answer_fits(const second_chip *chip, const second_record *event, size_t room);

/* Writes an answer's four lines and no byte more, and gives their length. */
size_t second_write_answer(uint8_t *output, second_answer answer);

/* Writes 4 bytes, low byte first. */
void second_write_word(uint8_t *to, size_t number);

#endif
