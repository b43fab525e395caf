/* alarms.h - no alarm lost and none invented: the history's claims on the answers that a model wrote. */
#ifndef ALARMS_H
#define ALARMS_H

#include "call.h"
#include "second_history.h"

typedef enum { ALARMS_MODEL, ALARMS_SECOND, ALARMS_MODELS } alarms_whose;

/* What the histories met in each model's answers. */
extern history_counts alarms_counts[ALARMS_MODELS];

/*
 * Tells a history every record of the trace that is answered, with the answer in the output, both as they stand
 * there: no other model is asked. At the first event after which a claim does not hold it shows `name`, the event and
 * the claim, and gives false.
 */
bool alarms_hold(alarms_whose whose, const char *name, const call_input *in, const call_result *result);

#endif
