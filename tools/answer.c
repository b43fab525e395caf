/*
 * answer [--address 76|77] [-o FILE] [TRACE]: the answers to a trace as it arrives, as the library writes them, and one message where it
 * stops before the end.
 *
 * What is there of the trace is read, fed to a session, and answered before the next read, so that a record is answered when its last byte
 * has come, and a trace of any length takes the same memory.
 */
#define _XOPEN_SOURCE 700    /* poll, clock_gettime */
#include "dlaveth.h"
#include "names.h"

#include <errno.h>
#include <fcntl.h>
#include <getopt.h>
#include <poll.h>
#include <signal.h>
#include <stdarg.h>
#include <stdio.h>
#include <stdlib.h>
#include <string.h>
#include <sys/stat.h>
#include <time.h>
#include <unistd.h>

enum { FAILED = 1, MISCALLED = 2, LINES = 4, SHOWN_BYTES = 40 };
enum { PORTION_BYTES = 65536, LOOKED_AT_BYTES = 128 };    /* the last: more than a record and what is shown of a line */

static const char *const line_names[LINES] = {RECORD_LINES};

/* ---- what is said */

static struct {
    int on, told;
    size_t length;           /* of the trace; 0 where nobody knows, as of a pipe */
    size_t records, used;    /* answered */
    long long due;           /* milliseconds */
} now;

static void wipe(void)
{
    if (now.told)
        fputs("\r\033[K", stderr);
    now.told = 0;
}

static int fail(const char *form, ...)
{
    va_list rest;
    wipe();
    va_start(rest, form);
    vfprintf(stderr, form, rest);
    va_end(rest);
    fputc('\n', stderr);
    return FAILED;
}

static long long milliseconds(void)
{
    struct timespec time;
    clock_gettime(CLOCK_MONOTONIC, &time);
    return time.tv_sec * 1000LL + time.tv_nsec / 1000000;
}

/* Only a replay that lasts is told of. Where answers go to a terminal, they are what tells. */
static void tell_on(int answers, const struct stat *trace, size_t behind)
{
    now.on = isatty(STDERR_FILENO) && !isatty(answers);
    if (S_ISREG(trace->st_mode) && (size_t)trace->st_size > behind)
        now.length = (size_t)trace->st_size - behind;
    if (now.length > DLAVETH_MOST_BYTES)
        now.length = DLAVETH_MOST_BYTES;
    now.due = milliseconds() + 300;
}

/* Tells how far it is where that is due before more of the trace is there; a wait that follows is then told of as it stands. */
static void tell(int trace)
{
    struct pollfd there = {.fd = trace, .events = POLLIN};
    long long left = now.due - milliseconds();
    size_t percent = now.length > 0 ? now.used * 100 / now.length : 0;

    if (!now.on || (left > 0 && poll(&there, 1, (int)left) != 0))
        return;
    if (now.length > 0)
        fprintf(stderr, "\r%3zu %% of the trace is answered", percent < 100 ? percent : 100);    /* a file may have grown */
    else
        fprintf(stderr, "\rrecords answered: %zu", now.records);
    now.told = 1;
    now.due = milliseconds() + 150;
}

/* ---- why it stops */

/* Whether a line without its end is what stands in a record. The library judges; this only finds what to show. */
static int is_line(const uint8_t *line, size_t length, const char *name)
{
    size_t at = strlen(name);
    if (length <= at || memcmp(line, name, at) != 0)
        return 0;
    if (length == at + 1 && line[at] == '0')
        return 1;
    at += line[at] == '-';
    if (at == length || length - at > 5 || line[at] == '0')
        return 0;
    while (at < length && line[at] >= '0' && line[at] <= '9')
        at++;
    return at == length;
}

/* The start of a line, with no byte in it that a terminal would obey; open where more of it is to come. */
static const char *quoted(const uint8_t *line, size_t length, int open)
{
    static char text[4 * SHOWN_BYTES + 8];
    char *end = text;
    *end++ = '\'';
    for (size_t i = 0; i < length && i < SHOWN_BYTES; i++)
        if (line[i] < ' ' || line[i] > '~' || line[i] == '\'' || line[i] == '\\')
            end += sprintf(end, "\\x%02x", (unsigned)line[i]);
        else
            *end++ = (char)line[i];
    strcpy(end, open || length > SHOWN_BYTES ? "'.." : "'");
    return text;
}

/* Of the record behind those that are answered; ended where the trace ends with these bytes. */
static int malformed(const char *name, const uint8_t *rest, size_t length, int ended)
{
    size_t line = LINES * now.records + 1;
    wipe();
    fprintf(stderr, "%s:%zu: no record begins here (record %zu, behind %zu bytes): ", name, line, now.records + 1, now.used);
    for (int i = 0; i < LINES; i++, line++) {
        const uint8_t *end = memchr(rest, '\n', length);
        size_t bytes = end ? (size_t)(end - rest) : length, named = strlen(line_names[i]);
        const char *last = !end && ended ? ", the last," : "", *shown = quoted(rest, bytes, !end && !ended);
        if (length == 0)
            return fail("the trace ends where line %zu, %sNUMBER, is wanted", line, line_names[i]);
        if (bytes > 0 && rest[bytes - 1] == '\r' && is_line(rest, bytes - 1, line_names[i]))
            return fail("line %zu ends with byte 13 (carriage return), and byte 10 alone must end a line", line);
        if (!is_line(rest, bytes, line_names[i]))
            return fail("line %zu%s is %s, and %sNUMBER is wanted%s", line, last, shown, line_names[i],
                        bytes < named || memcmp(rest, line_names[i], named) != 0 ? ""
                        : ": 1 to 5 digits, a minus before them where negative, no plus, no leading zero, no -0, no space");
        if (!end)
            return fail("line %zu%s is %s, and no byte 10 ends it", line, last, shown);
        rest += bytes + 1;
        length -= bytes + 1;
    }
    return fail("the library refuses it");
}

/* ---- files */

/* Whether a read or write that failed is tried again: a signal came, or who shares the file made it one that does not wait. */
static int again(int file, short events)
{
    struct pollfd there = {.fd = file, .events = events};
    if (errno == EAGAIN)
        return poll(&there, 1, -1) >= 0 || errno == EINTR;
    return errno == EINTR;
}

/* What is there, and a wait where nothing is; 0 at the end. */
static ssize_t get(int file, uint8_t *to, size_t most)
{
    ssize_t got;
    do
        got = read(file, to, most);
    while (got < 0 && again(file, POLLIN));
    return got;
}

static int put(int file, const uint8_t *data, size_t length)
{
    while (length > 0) {
        ssize_t done = write(file, data, length);
        if (done < 0 && !again(file, POLLOUT))
            return -1;
        if (done > 0) {
            data += done;
            length -= (size_t)done;
        }
    }
    return 0;
}

/* A file for the answers, emptied; -1 with a message where there is none. Not the trace, which would be lost before it is read. */
static int emptied(const char *path, const struct stat *trace)
{
    struct stat there;
    int file = -1, old = stat(path, &there) == 0;

    if (old && !S_ISREG(there.st_mode))
        fail("%s: not a plain file", path);
    else if (old && there.st_dev == trace->st_dev && there.st_ino == trace->st_ino)
        fail("%s: this is the trace itself", path);
    else if ((file = open(path, O_WRONLY | O_CREAT | O_TRUNC, 0666)) < 0)
        fail("%s: %s", path, strerror(errno));
    return file;
}

/* ---- the trace as it arrives */

static size_t number(const uint8_t *bytes)
{
    return (size_t)bytes[0] | (size_t)bytes[1] << 8 | (size_t)bytes[2] << 16 | (size_t)bytes[3] << 24;
}

/* To show the record that stopped it, what has come behind these bytes is read too; nothing is waited for. */
static int stopped(const char *name, int file, uint8_t *rest, size_t length, int ended)
{
    struct pollfd there = {.fd = file, .events = POLLIN};
    ssize_t more;
    while (!ended && length < LOOKED_AT_BYTES && poll(&there, 1, 0) > 0
           && (more = get(file, rest + length, LOOKED_AT_BYTES - length)) >= 0) {
        length += (size_t)more;
        ended = more == 0;
    }
    return malformed(name, rest, length, ended);
}

static int answer(int32_t address, const char *name, int file, const char *out, int answers)
{
    static uint8_t text[DLAVETH_CARRIED_BYTES + PORTION_BYTES + LOOKED_AT_BYTES];    /* from the record on that is not answered yet */
    static uint8_t output[DLAVETH_ROOM(DLAVETH_CARRIED_BYTES + PORTION_BYTES)];      /* room for all answers to one portion */
    uint8_t session[DLAVETH_SESSION_BYTES], report[DLAVETH_REPORT_BYTES] = {0};
    size_t carried = 0, over = 0;    /* over: a byte too many was read */
    int32_t code = dlaveth_open(address, session, sizeof session);
    int ended = 0;

    while (code == DLAVETH_DONE && !ended && !over) {
        const size_t from = now.used, left = DLAVETH_MOST_BYTES - from - carried;    /* from: where text begins in the trace */
        tell(file);
        ssize_t more = get(file, text + carried, left < PORTION_BYTES ? left + 1 : PORTION_BYTES);
        if (more < 0)
            return fail("%s: %s", name, strerror(errno));
        ended = more == 0;
        over = (size_t)more > left;
        const size_t portion = (size_t)more - over;
        uint8_t progress[DLAVETH_PROGRESS_BYTES] = {0};    /* a refusal leaves it so */
        code = dlaveth_feed(session, sizeof session, text + carried, portion, ended, output, sizeof output, report, sizeof report,
                            progress, sizeof progress);
        if (put(answers, output, number(progress + 4)) != 0)
            return fail("%s: %s", out, strerror(errno));
        now.records = number(report + 4);
        now.used = number(report + 8);
        carried = carried + portion - (now.used - from);
        memmove(text, text + (now.used - from), carried + over);
    }
    if (code == DLAVETH_MALFORMED)
        return stopped(name, file, text, carried + over, ended);
    if (code != DLAVETH_DONE)
        return fail("%s: the library refuses it with code %d", name, (int)code);
    if (over)
        return fail("%s: too long, a trace has at most %d bytes (16 MiB): its first %zu records are answered", name, DLAVETH_MOST_BYTES,
                    now.records);
    wipe();
    return 0;
}

/* ---- the command */

int main(int count, char **words)
{
    static const struct option options[] = {{"address", required_argument, NULL, 'a'}, {NULL, 0, NULL, 0}};
    static char called[] = "tools/answer.sh";
    const char *address = "76", *name = "standard input", *out = "-";
    struct stat trace;
    int file = STDIN_FILENO, answers = STDOUT_FILENO, option;

    words[0] = called;    /* for getopt's messages */
    while ((option = getopt_long(count, words, "o:", options, NULL)) != -1) {
        if (option == 'o')
            out = optarg;
        else if (option == 'a')
            address = optarg;
        else
            return MISCALLED;
    }
    if (strcmp(address, "76") != 0 && strcmp(address, "77") != 0) {
        fail("%s: --address is 76 or 77", called);
        return MISCALLED;
    }
    if (count - optind > 1) {
        fail("%s: one trace wanted, %d found", called, count - optind);
        return MISCALLED;
    }
    signal(SIGPIPE, SIG_IGN);    /* these two come back as a write's error */
    signal(SIGXFSZ, SIG_IGN);

    if (optind < count && strcmp(words[optind], "-") != 0) {
        name = words[optind];
        file = open(name, O_RDONLY);
    }
    if (file < 0 || fstat(file, &trace) != 0)
        return fail("%s: %s", name, strerror(errno));
    if (S_ISDIR(trace.st_mode))
        return fail("%s: %s", name, strerror(EISDIR));
    if (strcmp(out, "-") == 0)
        out = "standard output";
    else if ((answers = emptied(out, &trace)) < 0)
        return FAILED;
    off_t behind = lseek(file, 0, SEEK_CUR);    /* standard input may have been read in part */
    tell_on(answers, &trace, behind > 0 ? (size_t)behind : 0);
    int failed = answer(atoi(address), name, file, out, answers);
    if (!failed && answers != STDOUT_FILENO && close(answers) != 0)
        return fail("%s: %s", out, strerror(errno));
    return failed;
}
