/* events.h - bytes of a fuzzer's input that become records, each aimed at the chip's registers and limits. */
#ifndef EVENTS_H
#define EVENTS_H

#include "second.h"
#include "trace.h"

enum { EVENT_BYTES = 4 };

/* Is handed the chip after each record. */
typedef void event_seen(void *met, const second_chip *chip);

/* Adds a record for every four bytes; what is left behind the last whole event ends the trace as it is. `seen` may be null. */
void events_add(trace *t, int32_t address, const uint8_t *bytes, size_t len, void *met, event_seen *seen);

#endif
