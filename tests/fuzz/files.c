/* files.c - tries inputs from files, each once: files FILE.. MODEL is the command that starts the model's program. */
#include "compare.h"
#include "input.h"

#include <stdio.h>
#include <stdlib.h>

enum { MOST = 65536 };

static void try_file(pipes *model, const char *path)
{
    static uint8_t bytes[MOST];
    FILE *file = fopen(path, "rb");
    size_t len = file == NULL ? MOST : fread(bytes, 1, MOST, file);
    if (len == MOST || ferror(file) != 0) {
        printf("FAILED: cannot be read whole: %s\n", path);
        exit(1);
    }
    fclose(file);
    compare_name("%s", path);
    input_try(model, bytes, len);
}

int main(int argc, char *argv[])
{
    static char *const command[] = {MODEL, NULL};
    pipes *model = pipes_start(command);
    for (int i = 1; i < argc; i++)
        try_file(model, argv[i]);
    pipes_stop(model);
    printf("%d passed, 0 failed\n", argc - 1);
    return 0;
}
