/* counts.h - what the generated traces reached. The second model counts what happens in the chip; here is the rest. */
#ifndef COUNTS_H
#define COUNTS_H

#include "damage.h"

#include <stdint.h>

typedef enum {
    ADDRESS_76, ADDRESS_77, ADDRESS_0, ADDRESS_12, ADDRESS_75, ADDRESS_78, ADDRESS_NEGATIVE, ADDRESS_LARGE, ADDRESSES
} address_class;
/* The last three: what is enough for the trace's length, and two that are too little for some trace. */
typedef enum { ROOM_0, ROOM_EXACT, ROOM_ONE_LESS, ROOM_AMPLE, ROOM_ANY, ROOM_ENOUGH, ROOM_32_FOR_19, ROOM_33_FOR_20, ROOMS } room_class;
typedef enum { REPORT_0, REPORT_15, REPORT_17, REPORT_16, REPORTS } report_class;

typedef struct {
    uint64_t address[ADDRESSES], report[REPORTS];
    uint64_t refused;                               /* replays that ended with code 2 */
    uint64_t room[ROOMS], damage[DAMAGES];          /* of replays that were not refused */
    uint64_t stopped_32_for_19, stopped_33_for_20;  /* of these, by 8 */
    uint64_t most_records;                          /* as many as the length can have, and more than two */
} counts;
extern counts counted;

/* Sets these counts and the second model's to zero. */
void counts_zero(void);

/* Prints all of them. Gives how many are zero. */
unsigned counts_show(void);

#endif
