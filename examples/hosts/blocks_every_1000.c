/* Runs a COM program and prints its block list after each thousand steps.
 *
 *     blocks_every_1000 FILE.COM
 */
#include <stdio.h>
#include <stdlib.h>
#include <string.h>

#include "mezguld.h"

static void must(const char *what, mezguld_status status)
{
    if (status != MEZGULD_OK) {
        fprintf(stderr, "%s: %s\n", what, mezguld_status_text(status));
        exit(1);
    }
}

/* The first bytes of a file. */
static size_t read_file(const char *path, uint8_t *buffer, size_t room)
{
    FILE *file = fopen(path, "rb");
    if (!file) {
        perror(path);
        exit(1);
    }
    size_t count = fread(buffer, 1, room, file);
    if (ferror(file)) {
        perror(path);
        exit(1);
    }
    fclose(file);
    return count;
}

/* Prints the answer of a debugger's command. */
static void print_answer(mezguld *machine, const char *line)
{
    size_t wanted = 0;
    must(line, mezguld_command(machine, line, strlen(line), &wanted));
    char *answer = malloc(wanted + 1);
    if (!answer) {
        perror("malloc");
        exit(1);
    }
    must("mezguld_answer", mezguld_answer(machine, answer, wanted, &wanted));
    fwrite(answer, 1, wanted, stdout);
    free(answer);
}

int main(int argc, char **argv)
{
    /* One byte more than a COM file has: of a longer one mezguld_load says that it is none. */
    static uint8_t program[65279];
    if (argc != 2) {
        fprintf(stderr, "usage: blocks_every_1000 FILE.COM\n");
        return 2;
    }
    size_t count = read_file(argv[1], program, sizeof program);
    mezguld *machine;
    must("mezguld_new", mezguld_new(&machine, 64, 1024, NULL, 0, 0));
    must("mezguld_add", mezguld_add(machine, "MAIN.COM", 8, program, count));
    must("mezguld_load", mezguld_load(machine, "MAIN.COM", 8, NULL, 0, NULL, 0));

    mezguld_stopped stopped;
    do {
        must("mezguld_run", mezguld_run(machine, 1000, &stopped));
        uint64_t steps = 0;
        must("mezguld_steps", mezguld_steps(machine, &steps));
        printf("after %llu steps:\n", (unsigned long long)steps);
        print_answer(machine, "M");
    } while (stopped.why == MEZGULD_STEPS);
    printf("stopped: %u, code %u\n", (unsigned)stopped.why, (unsigned)stopped.code);
    mezguld_free(machine);
    return 0;
}
