/* pipes.c - see pipes.h. */
#define _POSIX_C_SOURCE 200809L
#include "pipes.h"
#include "wire.h"

#include <signal.h>
#include <stdio.h>
#include <stdlib.h>
#include <sys/types.h>
#include <sys/wait.h>
#include <unistd.h>

struct pipes {
    FILE *to, *from;
    pid_t pid;
};

static _Noreturn void fail(const char *what)
{
    printf("FAILED: the model's program: %s\n", what);
    exit(1);
}

/* The child: its standard input and output become the pipes. */
static _Noreturn void become(char *const command[], const int to[2], const int from[2])
{
    if (dup2(to[0], STDIN_FILENO) >= 0 && dup2(from[1], STDOUT_FILENO) >= 0) {
        close(to[0]);
        close(to[1]);
        close(from[0]);
        close(from[1]);
        execvp(command[0], command);
    }
    perror(command[0]);
    _exit(127);
}

pipes *pipes_start(char *const command[])
{
    int to[2], from[2];
    signal(SIGPIPE, SIG_IGN);   /* a model that died is reported, not died of */
    if (pipe(to) != 0 || pipe(from) != 0)
        fail("no pipe");
    fflush(stdout);             /* else the child has a copy of what is not yet written */
    pipes *model = call_room(sizeof *model);
    model->pid = fork();
    if (model->pid < 0)
        fail("no process");
    if (model->pid == 0)
        become(command, to, from);
    close(to[0]);
    close(from[1]);
    model->to = fdopen(to[1], "wb");
    model->from = fdopen(from[0], "rb");
    if (model->to == NULL || model->from == NULL)
        fail("no stream");
    return model;
}

void pipes_send(pipes *model, const void *bytes, size_t len)
{
    if (fwrite(bytes, 1, len, model->to) != len)
        fail("takes no more");
}

void pipes_receive(pipes *model, void *bytes, size_t len)
{
    if (fflush(model->to) != 0)
        fail("takes no more");
    if (fread(bytes, 1, len, model->from) != len)
        fail("broke off its answer");
}

call_result pipes_call(pipes *model, const call_input *in)
{
    wire_request request = {in->trace_len, in->output_len, in->report_len, in->fill, in->address};
    pipes_send(model, &request, sizeof request);
    pipes_send(model, in->trace, in->trace_len);

    wire_answer answer;
    pipes_receive(model, &answer, sizeof answer);
    call_result result = {answer.code, answer.spoilt, call_room(in->output_len), call_room(in->report_len)};
    pipes_receive(model, result.output, in->output_len);
    pipes_receive(model, result.report, in->report_len);
    return result;
}

void pipes_stop(pipes *model)
{
    int status;
    fclose(model->to);
    if (waitpid(model->pid, &status, 0) != model->pid || !WIFEXITED(status) || WEXITSTATUS(status) != 0)
        fail("did not end well");
    fclose(model->from);
    free(model);
}
