/* pipes.h - the driver's end of the pipes to the model's program. */
#ifndef PIPES_H
#define PIPES_H

#include "call.h"

typedef struct pipes pipes;

/* Starts `command`, a program and its arguments, ended by NULL. */
pipes *pipes_start(char *const command[]);

/* Has the model called once. */
call_result pipes_call(pipes *model, const call_input *in);

/* For a program that takes other calls: bytes to it, and bytes from it. */
void pipes_send(pipes *model, const void *bytes, size_t len);
void pipes_receive(pipes *model, void *bytes, size_t len);

/* Ends the program, which must have come to its own end without complaint. */
void pipes_stop(pipes *model);

#endif
