/* compare.h - one case through both models. */
#ifndef COMPARE_H
#define COMPARE_H

#include "call.h"
#include "pipes.h"

/* Names the case at hand, as printf does: what goes wrong from here on, a sanitizer's finding too, is shown with the name. */
void compare_name(const char *format, ...);
const char *compare_case(void);

/*
 * Has both models called, holds the answers of each to the claims on alarms (alarms.h), and compares return value,
 * every byte of output and report, and the guards; then holds them to document 02, item 5: with room for the trace's
 * length no code 8, with any room no more records than that length can have. At a claim that does not hold, or a
 * difference, it shows the case and ends the driver. Gives the answer of both.
 */
call_result compare_both(pipes *model, const call_input *in);

/* The same without the claims on alarms, whose time goes with the square of the events since the latch was set. */
call_result compare_bytes(pipes *model, const call_input *in);

/* Shows a trace's records around record `number`, counted from 0, and around byte `at` of an output. */
void compare_show_trace(const uint8_t *trace, size_t len, size_t number);
void compare_show_output(const char *whose, const uint8_t *output, size_t len, size_t at);

/* The first place where two buffers differ; `len` if there is none. */
size_t compare_first(const uint8_t *x, const uint8_t *y, size_t len);

/* The number of newlines. */
size_t compare_lines(const uint8_t *bytes, size_t len);

#endif
