/* recorded.c - see recorded.h. */
#include "recorded.h"
#include "compare.h"
#include "second.h"

#include <inttypes.h>
#include <stdbool.h>
#include <stdio.h>
#include <stdlib.h>
#include <string.h>

enum { MOST = 65536, SPARE = 100, LINES = 4 };  /* longest file; room behind the answers; lines of a record */

typedef struct {
    uint8_t bytes[MOST];
    size_t len;
} content;

/* One line of the index. */
typedef struct {
    char name[64];
    int32_t address, code;
    size_t room;
} entry;

static _Noreturn void fail(const char *what, const char *where)
{
    printf("FAILED: %s: %s\n", what, where);
    exit(1);
}

static void load(content *c, const char *folder, const char *name, const char *ending)
{
    char path[1024];
    snprintf(path, sizeof path, "%s/%s%s", folder, name, ending);
    FILE *file = fopen(path, "rb");
    if (file == NULL)
        fail("cannot be read", path);
    c->len = fread(c->bytes, 1, MOST, file);
    if (ferror(file) != 0 || c->len == MOST)
        fail("cannot be read whole", path);
    fclose(file);
}

static size_t behind_lines(const content *c, size_t lines)
{
    size_t at = 0;
    while (lines > 0 && at < c->len)
        lines -= c->bytes[at++] == '\n';
    return at;
}

static void put_word(uint8_t *to, size_t word)
{
    for (int i = 0; i < 4; i++)
        to[i] = (uint8_t)(word >> 8 * i & 0xFF);
}

/* The report follows from the answers and the ending code: a record answered is four lines in both texts. */
static void report_wanted(uint8_t *report, const entry *e, const content *records, const content *answers)
{
    size_t count = compare_lines(answers->bytes, answers->len) / LINES;
    put_word(report, (size_t)e->code);
    put_word(report + 4, count);
    put_word(report + 8, behind_lines(records, LINES * count));
    put_word(report + 12, answers->len);
}

static void run_with(pipes *model, const entry *e, const content *records, const content *answers, size_t room, bool wanted)
{
    call_input in = {e->address, records->bytes, records->len, room, SECOND_REPORT_BYTES, records->len};
    call_result both = compare_both(model, &in);

    uint8_t report[SECOND_REPORT_BYTES];
    report_wanted(report, e, records, answers);
    size_t at = answers->len > room ? 0 : compare_first(both.output, answers->bytes, answers->len);
    if (wanted && (at != answers->len || both.code != e->code || memcmp(both.report, report, sizeof report) != 0)) {
        printf("NOT AS RECORDED: %s\nroom %zu: both models return %d, wanted %d\n", e->name, room, both.code, e->code);
        compare_show_output("models", both.output, room, at);
        compare_show_output("wanted", answers->bytes, answers->len, at);
        compare_show_trace(records->bytes, records->len, compare_lines(answers->bytes, at) / LINES);
        exit(1);
    }
    call_result_free(&both);
}

/* As recorded; and once more with exactly the room that is enough for such a length, where only what little room has stopped goes on. */
static void run(pipes *model, const char *folder, const entry *e)
{
    static content records, answers;
    compare_name("recorded, %s", e->name);
    load(&records, folder, e->name, ".trace");
    load(&answers, folder, e->name, ".answers");
    run_with(model, e, &records, &answers, e->room == SIZE_MAX ? answers.len + SPARE : e->room, true);
    run_with(model, e, &records, &answers, second_room(records.len), e->code != SECOND_NO_ROOM);
}

/* name, address, ending code, room of the output or '-' for enough, then words for readers. */
static bool read_entry(entry *e, const char *line)
{
    char room[32];
    if (sscanf(line, "%63s %" SCNd32 " %" SCNd32 " %31s", e->name, &e->address, &e->code, room) != 4)
        return false;
    e->room = strcmp(room, "-") == 0 ? SIZE_MAX : (size_t)strtoul(room, NULL, 10);
    return true;
}

uint64_t recorded_run(pipes *model, const char *folder)
{
    char path[1024], line[1024];
    uint64_t count = 0;
    snprintf(path, sizeof path, "%s/INDEX.txt", folder);
    FILE *index = fopen(path, "r");
    if (index == NULL)
        fail("cannot be read", path);
    while (fgets(line, sizeof line, index) != NULL) {
        entry e;
        if (line[0] == '#')
            continue;
        if (!read_entry(&e, line))
            fail("not an entry", line);
        run(model, folder, &e);
        count++;
    }
    fclose(index);
    return count;
}
