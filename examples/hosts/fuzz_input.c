/* A libFuzzer harness: feeds console input to a guest program until its block list is destroyed.
 *
 * MEZGULD_GUEST names the COM file. The run may make 100,000 steps.
 */
#include <stdio.h>
#include <stdlib.h>
#include <string.h>

#include "mezguld.h"

/* One byte more than a COM file has: of a longer one mezguld_load says that it is none. */
static uint8_t program[65279];
static size_t program_count;

int LLVMFuzzerInitialize(int *argc, char ***argv)
{
    (void)argc;
    (void)argv;
    const char *path = getenv("MEZGULD_GUEST");
    FILE *file = path ? fopen(path, "rb") : NULL;
    if (!file) {
        fprintf(stderr, "MEZGULD_GUEST must name a COM file\n");
        exit(1);
    }
    program_count = fread(program, 1, sizeof program, file);
    if (ferror(file)) {
        perror(path);
        exit(1);
    }
    fclose(file);
    return 0;
}

static void must(mezguld_status status)
{
    if (status != MEZGULD_OK) {
        fprintf(stderr, "%s\n", mezguld_status_text(status));
        exit(1);
    }
}

/* Whether the debugger's listing says that a block list is destroyed. */
static int is_destroyed(const char *text, size_t count)
{
    static const char word[] = "destroyed";
    for (size_t at = 0; at + sizeof word - 1 <= count; at++)
        if (memcmp(text + at, word, sizeof word - 1) == 0)
            return 1;
    return 0;
}

int LLVMFuzzerTestOneInput(const uint8_t *data, size_t size)
{
    static char text[1 << 16];
    mezguld *machine;
    must(mezguld_new(&machine, 0, 0, NULL, 0, 0));
    must(mezguld_add(machine, "MAIN.COM", 8, program, program_count));
    must(mezguld_load(machine, "MAIN.COM", 8, NULL, 0, data, size));
    mezguld_stopped stopped;
    size_t wanted = 0;
    must(mezguld_run(machine, 100000, &stopped));
    must(mezguld_command(machine, "M", 1, &wanted));
    must(mezguld_answer(machine, text, sizeof text, &wanted));
    int destroyed = is_destroyed(text, wanted);
    mezguld_free(machine);
    if (destroyed) {
        fprintf(stderr, "the block list is destroyed:\n%.*s", (int)wanted, text);
        abort();
    }
    return 0;
}
