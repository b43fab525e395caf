/* input.h - a fuzzer's input: bytes that stand for one call of replay (input.c), or for a session (portions.c). */
#ifndef INPUT_H
#define INPUT_H

#include "pipes.h"

#include <stdbool.h>

/*
 * An input begins with a head of so many bytes, which its file has; a byte of it that is missing is 0. Behind it stands the trace as it is, or
 * events of four bytes, each of which becomes a record (events.h).
 */
extern const size_t input_head;

bool input_is_events(const uint8_t *bytes, size_t len);

/* Whether the input stands for an output of 16 MiB, which takes as long as a thousand others; input_shrink makes it another. */
bool input_is_huge(const uint8_t *bytes, size_t len);
void input_shrink(uint8_t *bytes);

/* Has both models called with what the input stands for; does not return if anything is different. */
void input_try(pipes *model, const uint8_t *bytes, size_t len);

#endif
