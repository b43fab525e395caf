/* fuzzer.c - what libFuzzer calls. MODEL is the command that starts the model's program, its words as C strings. */
#define _POSIX_C_SOURCE 200809L
#include "compare.h"
#include "events.h"
#include "input.h"
#include "random.h"

#include <signal.h>
#include <stdio.h>
#include <string.h>

size_t LLVMFuzzerMutate(uint8_t *bytes, size_t len, size_t most);
int LLVMFuzzerInitialize(int *argc, char ***argv);
int LLVMFuzzerTestOneInput(const uint8_t *bytes, size_t len);
size_t LLVMFuzzerCustomMutator(uint8_t *bytes, size_t len, size_t most, unsigned seed);

static pipes *model;

int LLVMFuzzerInitialize(int *argc, char ***argv)
{
    static char *const command[] = {MODEL, NULL};
    (void)argc;
    (void)argv;
    setvbuf(stdout, NULL, _IOLBF, BUFSIZ);     /* libFuzzer ends the program without writing what stdout holds back */
    compare_name("a fuzzer's input");          /* not at every input: it would take libFuzzer's place as the sanitizers' callback */
    model = pipes_start(command);
    return 0;
}

/* libFuzzer's clock must not break into a read from the pipe, which would look like a model that died. */
static void restart_reads(void)
{
    struct sigaction alarm;
    if (sigaction(SIGALRM, NULL, &alarm) == 0) {
        alarm.sa_flags |= SA_RESTART;
        sigaction(SIGALRM, &alarm, NULL);
    }
}

int LLVMFuzzerTestOneInput(const uint8_t *bytes, size_t len)
{
    static bool first = true;
    if (first)
        restart_reads();    /* libFuzzer sets its handler behind LLVMFuzzerInitialize */
    first = false;
    input_try(model, bytes, len);
    return 0;
}

/* Inserts, repeats, removes or changes one event; the others stay whole. */
static size_t mutate_event(uint8_t *bytes, size_t len, size_t most, randoms *random)
{
    const size_t event = EVENT_BYTES, count = (len - input_head) / event;
    uint8_t *at = bytes + input_head + event * random_below(random, (uint32_t)count + 1);
    size_t rest = (size_t)(bytes + len - at);
    uint32_t choice = random_below(random, 4);
    if (choice < 2 && len + event <= most) {
        uint64_t fresh = random_next(random);
        const uint8_t *old = bytes + input_head + event * random_below(random, (uint32_t)count);
        uint8_t inserted[EVENT_BYTES];
        memcpy(inserted, choice == 0 || count == 0 ? (const void *)&fresh : old, event);
        memmove(at + event, at, rest);
        memcpy(at, inserted, event);
        return len + event;
    }
    if (rest < event)
        return len;
    if (choice == 2) {
        memmove(at, at + event, rest - event);
        return len - event;
    }
    at[random_below(random, (uint32_t)event)] = (uint8_t)random_next(random);
    return len;
}

size_t LLVMFuzzerCustomMutator(uint8_t *bytes, size_t len, size_t most, unsigned seed)
{
    randoms random = {seed};
    uint32_t choice = random_below(&random, 100);
    if (len >= input_head && choice < 5)
        bytes[random_below(&random, (uint32_t)input_head)] = (uint8_t)random_next(&random);
    else if (len >= input_head && choice < 60 && input_is_events(bytes, len))
        len = mutate_event(bytes, len, most, &random);
    else
        len = LLVMFuzzerMutate(bytes, len, most);
    if (input_is_huge(bytes, len) && random_below(&random, 1000) != 0)
        input_shrink(bytes);
    return len;
}
