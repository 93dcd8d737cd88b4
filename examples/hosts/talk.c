/* A conversation with a guest program, from C: it is run up to its question, looked at, changed, answered, and run
 * again from a snapshot.
 *
 * The guest prints "Your name? ", reads a line by function 0Ah, and says "Hello, " with the name; its exit code is the
 * length of the name. The host stops it before it prints, has it print another text, supplies each name as input, stops
 * it when the name is in memory, and takes the output as it comes.
 */
#include <stdio.h>
#include <stdlib.h>
#include <string.h>

#include "mezguld.h"

static const char guest[] =
    "MOV DX,question\nMOV AH,9\nINT 21h\n"
    "MOV DX,buffer\nMOV AH,0Ah\nINT 21h\n"
    "MOV DX,hello\nMOV AH,9\nINT 21h\n"
    /* The count of the line's bytes is byte 1 of the buffer, and they follow. */
    "MOV BX,1\nMOV CL,[buffer+1]\nMOV CH,0\nMOV DX,buffer+2\nMOV AH,40h\nINT 21h\n"
    "MOV AL,[buffer+1]\nMOV AH,4Ch\nINT 21h\n"
    "question: DB 'Your name? $'\nother: DB 'Who? $'\nhello: DB 10,'Hello, $'\nbuffer: DB 32\n";

static void must(const char *what, mezguld_status status)
{
    if (status != MEZGULD_OK) {
        fprintf(stderr, "%s: %s\n", what, mezguld_status_text(status));
        exit(1);
    }
}

/* Prints what the program has written since the last call, and returns how much it has written in all. */
static size_t show(mezguld *machine, size_t from)
{
    char text[256];
    size_t count = 0;
    must("mezguld_output", mezguld_output(machine, from, text, sizeof text, &count));
    fwrite(text, 1, count, stdout);
    return from + count;
}

/* A machine with the guest loaded, and its input open. */
static mezguld *start(void)
{
    static uint8_t program[1024];
    mezguld *machine;
    size_t count = 0, line = 0;
    mezguld_status status = mezguld_assemble(guest, sizeof guest - 1, program, sizeof program, &count, &line);
    if (status != MEZGULD_OK)
        fprintf(stderr, "line %zu\n", line);
    must("mezguld_assemble", status);
    must("mezguld_new", mezguld_new(&machine, 0, 0, NULL, 0, 0));
    must("mezguld_add", mezguld_add(machine, "GUEST.COM", 9, program, count));
    must("mezguld_load", mezguld_load(machine, "GUEST.COM", 9, NULL, 0, NULL, 0));
    must("mezguld_open_input", mezguld_open_input(machine));
    return machine;
}

/* Has the program print its second text in place of the first one: it is stopped before its first call of function
 * 09h, and DX is changed. */
static void change_question(mezguld *machine)
{
    mezguld_stopped stopped;
    mezguld_cpu registers;
    mezguld_event print = mezguld_at_function(0x21, 9);
    size_t place;
    must("mezguld_run_to", mezguld_run_to(machine, 1000, &print, 1, &stopped, &place));
    if (stopped.why != MEZGULD_EVENT) {
        fprintf(stderr, "the program calls no function 09h\n");
        exit(1);
    }
    must("mezguld_registers", mezguld_registers(machine, &registers));
    registers.dx = (uint16_t)(registers.dx + strlen("Your name? $"));
    must("mezguld_set_registers", mezguld_set_registers(machine, &registers));
}

/* Answers the question in a copy of the machine, and returns the exit code of the program there. The copy is stopped
 * when the line is in memory, and says where. */
static unsigned answer(mezguld *snapshot, size_t shown, const char *name)
{
    mezguld *machine;
    mezguld_stopped stopped;
    mezguld_cpu registers;
    size_t place;
    must("mezguld_copy", mezguld_copy(snapshot, &machine));
    must("mezguld_supply", mezguld_supply(machine, name, strlen(name)));
    must("mezguld_supply", mezguld_supply(machine, "\r", 1));
    /* It waits in function 0Ah, and DX is the offset of its buffer, whose byte 1 is the count of the line. */
    must("mezguld_registers", mezguld_registers(machine, &registers));
    mezguld_event line = mezguld_at_change(registers.ds * 16u + registers.dx + 1, 1);
    must("mezguld_run_to", mezguld_run_to(machine, 1000, &line, 1, &stopped, &place));
    printf("\n[the line comes: %s]", stopped.why == MEZGULD_EVENT && place == 0 ? "yes" : "no");
    must("mezguld_run", mezguld_run(machine, 1000, &stopped));
    show(machine, shown);
    mezguld_free(machine);
    return stopped.why == MEZGULD_EXITED ? stopped.code : 999;
}

int main(void)
{
    mezguld_stopped stopped;
    mezguld *machine = start();
    change_question(machine);
    must("mezguld_run", mezguld_run(machine, 1000, &stopped));
    size_t shown = show(machine, 0);
    printf("[it waits: %s]", stopped.why == MEZGULD_INPUT_ENDED ? "yes" : "no");
    unsigned first = answer(machine, shown, "Ada"), second = answer(machine, shown, "Charles");
    printf("\n[exit codes %u and %u]\n", first, second);
    mezguld_free(machine);
    return first == 3 && second == 7 ? 0 : 1;
}
