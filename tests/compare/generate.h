/* generate.h - well-formed traces that drive a chip into its deeper states. */
#ifndef GENERATE_H
#define GENERATE_H

#include "random.h"
#include "second.h"
#include "trace.h"

typedef struct {
    randoms *random;
    trace *to;
    second_chip chip;       /* follows the trace, see generate.c */
    const uint8_t *weights; /* how often each action is taken, see generate.c */
} generator;

/* Begins a trace for a chip at `address`, 76 or 77; the character of the trace is chosen at random. */
generator generate_begin(randoms *random, trace *to, int32_t address);

/* Adds one or a few records. */
void generate_more(generator *g);

/* The trace that needs the most output for its length: a conversion that finds the diode open, then so many alert responses, each as short as a
   record can be and answered with as much as an answer can have. */
void generate_hungry(trace *to, int32_t address, int32_t count);

#endif
