/* large.h - traces and outputs at the 16 MiB that a replay takes at most, and one byte more. */
#ifndef LARGE_H
#define LARGE_H

#include "pipes.h"

/* Runs them through both models; at a difference, or another ending than meant, it ends the driver. Gives how many there were. */
uint64_t large_run(pipes *model);

#endif
