/* recorded.h - the recorded traces of tests/traces, with answers worked out by hand. */
#ifndef RECORDED_H
#define RECORDED_H

#include "pipes.h"

/*
 * Runs every trace that INDEX.txt of `folder` names through both models and holds both to its answers and
 * its ending code. At a difference it shows it and ends the driver. Gives how many there were.
 */
uint64_t recorded_run(pipes *model, const char *folder);

#endif
