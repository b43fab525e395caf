/*
 * driver.c - runs traces through the proved model and the second one and compares every byte of what they give.
 *   driver [--seed N] [--count N] TRACES COMMAND..
 * TRACES is the folder of recorded traces, COMMAND starts the model's program. run.sh calls it; a longer run is
 *   tests/compare/run.sh --seed 7 --count 1000000
 */
#include "counts.h"
#include "generated.h"
#include "large.h"
#include "pipes.h"
#include "recorded.h"

#include <errno.h>
#include <stdbool.h>
#include <stdio.h>
#include <stdlib.h>
#include <string.h>

static uint64_t seed = 20260, count = 40000;

static bool read_number(const char *text, uint64_t *number)
{
    char *end;
    errno = 0;
    unsigned long long value = strtoull(text, &end, 10);
    *number = value;
    return errno == 0 && end != text && *end == '\0' && text[0] != '-';
}

/* Gives the place of the first argument that is no option, or 0 if the options are not good. */
static int read_options(int argc, char *argv[])
{
    int at = 1;
    while (at + 1 < argc && strncmp(argv[at], "--", 2) == 0) {
        uint64_t *number = strcmp(argv[at], "--seed") == 0 ? &seed : strcmp(argv[at], "--count") == 0 ? &count : NULL;
        if (number == NULL || !read_number(argv[at + 1], number))
            return 0;
        at += 2;
    }
    return at;
}

int main(int argc, char *argv[])
{
    int at = read_options(argc, argv);
    if (at == 0 || argc - at < 2) {
        fprintf(stderr, "usage: driver [--seed N] [--count N] TRACES COMMAND..\n");
        return 2;
    }
    printf("seed %llu, %llu generated traces\n", (unsigned long long)seed, (unsigned long long)count);
    pipes *model = pipes_start(argv + at + 1);
    uint64_t recorded = recorded_run(model, argv[at]);
    printf("%llu recorded traces as worked out by hand, each with exactly the room that is enough too\n", (unsigned long long)recorded);
    uint64_t large = large_run(model);
    printf("%llu large traces alike\n", (unsigned long long)large);
    generated_run(model, seed, count);
    printf("%llu generated traces alike; they reached\n", (unsigned long long)count);
    pipes_stop(model);
    unsigned zeros = counts_show();
    if (recorded == 0 || zeros > 0) {
        printf("FAILED: %u counts are zero, %llu traces recorded\n", zeros, (unsigned long long)recorded);
        return 1;
    }
    printf("%llu passed, 0 failed\n", (unsigned long long)(2 * recorded + large + count));
    return 0;
}
