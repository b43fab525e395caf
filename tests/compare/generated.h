/* generated.h - generated traces through both models, and the counts of what they reached. */
#ifndef GENERATED_H
#define GENERATED_H

#include "pipes.h"

/* Runs `count` traces made from `seed`. At a difference it shows it and ends the driver. */
void generated_run(pipes *model, uint64_t seed, uint64_t count);


#endif
