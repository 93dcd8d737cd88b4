/* Calls each function of mezguld.h, and expects its statuses and results: without a machine, without a program, with
 * its input closed and open, with buffers that are too small, and with NULL for each pointer. */
#include <stdio.h>
#include <stdlib.h>
#include <string.h>

#include "mezguld.h"

#define EXPECT(fact) ((fact) ? (void)0 : fail(#fact, __LINE__))

static void fail(const char *fact, int line)
{
    fprintf(stderr, "line %d: %s\n", line, fact);
    exit(1);
}

/* Every call that needs a loaded program has this status. */
static void expect_all(mezguld *machine, mezguld_status status)
{
    mezguld_stopped stopped;
    mezguld_cpu registers = {0, 0, 0, 0, 0, 0, 0, 0, 0, 0, 0, 0, 0, 0};
    mezguld_point point = {0, 0};
    mezguld_event event = mezguld_at(0, 0);
    uint64_t steps;
    size_t count;
    char bytes[8] = "";
    EXPECT(mezguld_run(machine, 1, &stopped) == status);
    EXPECT(mezguld_run_until(machine, 1, &point, 1, &stopped) == status);
    EXPECT(mezguld_run_to(machine, 1, &event, 1, &stopped, &count) == status);
    EXPECT(mezguld_steps(machine, &steps) == status);
    EXPECT(mezguld_registers(machine, &registers) == status);
    EXPECT(mezguld_set_registers(machine, &registers) == status);
    EXPECT(mezguld_read(machine, 0, 0, bytes, sizeof bytes) == status);
    EXPECT(mezguld_write(machine, 0, 0, bytes, 0) == status);
    EXPECT(mezguld_read_linear(machine, 0x10FFEF, bytes, sizeof bytes) == status);
    EXPECT(memcmp(bytes, "\0\0\0\0\0\0\0", 8) == 0);
    EXPECT(mezguld_write_linear(machine, 0, bytes, sizeof bytes) == status);
    EXPECT(mezguld_output(machine, 0, bytes, sizeof bytes, &count) == status);
    EXPECT(mezguld_output_count(machine, &count) == status);
    EXPECT(mezguld_open_input(machine) == status);
    EXPECT(mezguld_close_input(machine) == status);
    EXPECT(mezguld_supply(machine, "", 0) == status);
    EXPECT(mezguld_input_left(machine, &count) == status);
    EXPECT(mezguld_command(machine, "R", 1, &count) == status);
    EXPECT(mezguld_check(machine, 1, &stopped, &count) == status);
    EXPECT(mezguld_blocks(machine, NULL, 0, &count, NULL) == status);
    EXPECT(mezguld_page_handles(machine, NULL, 0, &count) == status);
    EXPECT(mezguld_windows(machine, NULL, 0, &count) == status);
    EXPECT(mezguld_extended_blocks(machine, NULL, 0, &count) == status);
    EXPECT(mezguld_upper_blocks(machine, NULL, 0, &count) == status);
    EXPECT(mezguld_high_memory(machine, NULL, NULL) == status);
    EXPECT(mezguld_read_page(machine, 0, 0, 0, bytes, 1) == status);
    EXPECT(mezguld_read_block(machine, 1, 0, bytes, 1) == status);
}

/* A new machine with a program loaded that prints what it reads, and the input "ab". */
static mezguld *load(void)
{
    mezguld *machine = (mezguld *)&machine;
    static const char text[] = "next: MOV AH,1\nINT 21h\nJMP next", wrong[] = "NOP\nNOPE";
    uint8_t program[64];
    size_t count, line;
    EXPECT(mezguld_assemble(wrong, sizeof wrong - 1, program, sizeof program, &count, &line) == MEZGULD_LINE_SYNTAX);
    EXPECT(line == 2);
    EXPECT(mezguld_assemble(text, sizeof text - 1, program, 1, &count, &line) == MEZGULD_TOO_SMALL);
    EXPECT(mezguld_assemble(text, sizeof text - 1, program, sizeof program, &count, &line) == MEZGULD_OK);
    EXPECT(mezguld_new(&machine, 513, 0, NULL, 0, 0) == MEZGULD_TOO_LARGE && machine == NULL);
    EXPECT(mezguld_new(&machine, 1, 1, "A=B", 3, 1) == MEZGULD_BAD_VARIABLES);
    EXPECT(mezguld_new(&machine, 1, 1, "\0A=B", 5, 1) == MEZGULD_BAD_VARIABLES);
    EXPECT(mezguld_new(&machine, 1, 1, "A=B\0\0", 5, 1) == MEZGULD_BAD_VARIABLES);
    EXPECT(mezguld_new(&machine, 1, 1, "", 1, 1) == MEZGULD_BAD_VARIABLES);
    EXPECT(mezguld_new(&machine, 1, 1, "A=B\0C", 6, 1) == MEZGULD_OK);
    mezguld_free(machine);
    EXPECT(mezguld_new(&machine, 1, 1, "A=B", 4, 1) == MEZGULD_OK);
    expect_all(machine, MEZGULD_NOT_LOADED);
    EXPECT(mezguld_add(machine, "", 0, program, count) == MEZGULD_BAD_NAME);
    EXPECT(mezguld_add(machine, "A", 1, program, count) == MEZGULD_OK);
    EXPECT(mezguld_add(machine, "a", 1, program, count) == MEZGULD_NAME_TWICE);
    EXPECT(mezguld_load(machine, "B", 1, "", 0, "", 0) == MEZGULD_NOT_FOUND);
    EXPECT(mezguld_load(machine, "A", 1, " /q", 3, "ab", 2) == MEZGULD_OK);
    EXPECT(mezguld_load(machine, "A", 1, NULL, 0, NULL, 0) == MEZGULD_STARTED);
    return machine;
}

static void talk(mezguld *machine)
{
    mezguld_stopped stopped;
    size_t count;
    char bytes[8];
    EXPECT(mezguld_supply(machine, "x", 1) == MEZGULD_INPUT_CLOSED);
    EXPECT(mezguld_open_input(machine) == MEZGULD_OK && mezguld_supply(machine, "cd", 2) == MEZGULD_OK);
    EXPECT(mezguld_input_left(machine, &count) == MEZGULD_OK && count == 4);
    EXPECT(mezguld_run(machine, 1000, &stopped) == MEZGULD_OK && stopped.why == MEZGULD_INPUT_ENDED);
    EXPECT(stopped.code == 0);
    EXPECT(mezguld_output(machine, 0, bytes, 3, &count) == MEZGULD_TOO_SMALL && count == 4);
    EXPECT(mezguld_output(machine, 1, bytes, 3, &count) == MEZGULD_OK && count == 3 && memcmp(bytes, "bcd", 3) == 0);
    EXPECT(mezguld_output(machine, 4, bytes, 0, &count) == MEZGULD_OK && count == 0);
    EXPECT(mezguld_output(machine, (size_t)-1, bytes, 0, &count) == MEZGULD_OK && count == 0);
}

/* The loaded program stands at its first instruction, MOV AH,1; INT 21h is at offset 0102h, and its JMP at 0104h. */
static void look(mezguld *machine)
{
    mezguld *copy;
    mezguld_stopped stopped;
    mezguld_cpu registers;
    size_t place = 7;
    EXPECT(mezguld_copy(machine, &copy) == MEZGULD_OK && mezguld_registers(copy, &registers) == MEZGULD_OK);
    mezguld_event calls[3] = {
        mezguld_at(registers.cs, 0x100), mezguld_at_function(0x21, 2), mezguld_at_function(0x21, 1)};
    mezguld_event places[2] = {mezguld_at(registers.cs - 1, 0x114), mezguld_at_address(registers.cs * 16u + 0x104)};
    mezguld_event change = mezguld_at_change(registers.cs * 16u + 0x80, 0x10000), other = mezguld_at_call(0x21);
    EXPECT(mezguld_run_to(copy, 0, calls, 3, &stopped, &place) == MEZGULD_OK && stopped.why == MEZGULD_STEPS);
    EXPECT(place == 7);
    EXPECT(mezguld_run_to(copy, 1, calls, 1, &stopped, &place) == MEZGULD_OK && stopped.why == MEZGULD_STEPS);
    EXPECT(place == 7);
    /* The call pushes the flags, CS and IP at offset FFF8h. */
    EXPECT(mezguld_run_to(copy, 9, &change, 1, &stopped, &place) == MEZGULD_OK && stopped.why == MEZGULD_EVENT);
    EXPECT(place == 0);
    EXPECT(mezguld_run_to(copy, 9, places, 2, &stopped, &place) == MEZGULD_OK && stopped.why == MEZGULD_EVENT);
    EXPECT(place == 1);
    EXPECT(mezguld_run_to(copy, 9, calls, 3, &stopped, &place) == MEZGULD_OK && stopped.why == MEZGULD_EVENT);
    EXPECT(place == 0);
    EXPECT(mezguld_run_to(copy, 1, &other, 1, &stopped, &place) == MEZGULD_OK && stopped.why == MEZGULD_EVENT);
    EXPECT(stopped.code == 0 && place == 0);
    place = 7;
    EXPECT(mezguld_run_to(copy, 1, calls, 3, &stopped, &place) == MEZGULD_OK && stopped.why == MEZGULD_STEPS);
    EXPECT(place == 7);
    calls[1].kind = (mezguld_kind)(MEZGULD_AT_FUNCTION + 1);
    EXPECT(mezguld_run_to(copy, 9, calls, 3, &stopped, &place) == MEZGULD_BAD_EVENT && stopped.why == MEZGULD_STEPS);
    EXPECT(place == 7);
    EXPECT(mezguld_run_to(copy, 3, calls, 0, &stopped, &place) == MEZGULD_OK && stopped.why == MEZGULD_STEPS);
    mezguld_free(copy);
}

/* NULL where a count is 0 and where a result is not wanted, and NULL where it is refused. The loaded program has
 * made no step, and has the input "ab". */
static void give_null(mezguld *machine)
{
    char bytes[64];
    size_t count;
    EXPECT(mezguld_read(machine, 0, 0, NULL, 0) == MEZGULD_OK);
    EXPECT(mezguld_read(machine, 0, 0, NULL, 1) == MEZGULD_NULL_POINTER);
    EXPECT(mezguld_write(machine, 0, 0, NULL, 0) == MEZGULD_OK);
    EXPECT(mezguld_write(machine, 0, 0, NULL, 1) == MEZGULD_NULL_POINTER);
    EXPECT(mezguld_read_linear(machine, 0, NULL, 0) == MEZGULD_OK);
    EXPECT(mezguld_read_linear(machine, 0, NULL, 1) == MEZGULD_NULL_POINTER);
    EXPECT(mezguld_write_linear(machine, 0, NULL, 0) == MEZGULD_OK);
    EXPECT(mezguld_write_linear(machine, 0, NULL, 1) == MEZGULD_NULL_POINTER);
    EXPECT(mezguld_run(machine, 0, NULL) == MEZGULD_OK && mezguld_run_until(machine, 0, NULL, 0, NULL) == MEZGULD_OK);
    EXPECT(mezguld_run_until(machine, 0, NULL, 1, NULL) == MEZGULD_NULL_POINTER);
    EXPECT(mezguld_run_to(machine, 0, NULL, 1, NULL, NULL) == MEZGULD_NULL_POINTER);
    EXPECT(mezguld_run_to(machine, 0, NULL, 0, NULL, NULL) == MEZGULD_OK && mezguld_steps(machine, NULL) == MEZGULD_OK);
    EXPECT(mezguld_registers(machine, NULL) == MEZGULD_OK);
    EXPECT(mezguld_set_registers(machine, NULL) == MEZGULD_NULL_POINTER);
    EXPECT(mezguld_output(machine, 0, NULL, 0, NULL) == MEZGULD_OK);
    EXPECT(mezguld_output(machine, 0, NULL, 1, &count) == MEZGULD_NULL_POINTER);
    EXPECT(mezguld_output_count(machine, NULL) == MEZGULD_OK && mezguld_input_left(machine, NULL) == MEZGULD_OK);
    EXPECT(mezguld_supply(machine, NULL, 0) == MEZGULD_INPUT_CLOSED);
    EXPECT(mezguld_supply(machine, NULL, 1) == MEZGULD_NULL_POINTER);
    EXPECT(mezguld_command(machine, NULL, 0, NULL) == MEZGULD_SYNTAX);
    EXPECT(mezguld_command(machine, NULL, 1, NULL) == MEZGULD_NULL_POINTER);
    EXPECT(mezguld_command(machine, "X", 1, NULL) == MEZGULD_OK);
    EXPECT(mezguld_answer(machine, NULL, 1, &count) == MEZGULD_NULL_POINTER);
    EXPECT(mezguld_answer(machine, NULL, 0, &count) == MEZGULD_TOO_SMALL && count != 0);
    EXPECT(mezguld_check(machine, 0, NULL, NULL) == MEZGULD_OK);
    EXPECT(mezguld_add(machine, NULL, 1, NULL, 0) == MEZGULD_NULL_POINTER);
    EXPECT(mezguld_add(machine, "B", 1, NULL, 1) == MEZGULD_NULL_POINTER);
    EXPECT(mezguld_add(NULL, NULL, 1, NULL, 1) == MEZGULD_NO_MACHINE);
    EXPECT(mezguld_load(machine, NULL, 0, NULL, 1, NULL, 0) == MEZGULD_NULL_POINTER);
    EXPECT(mezguld_load(machine, "A", 1, NULL, 0, NULL, 1) == MEZGULD_NULL_POINTER);
    EXPECT(mezguld_load(machine, "A", 1, NULL, 0, NULL, 0) == MEZGULD_STARTED);
    EXPECT(mezguld_assemble(NULL, 0, NULL, 0, NULL, NULL) == MEZGULD_OK);
    EXPECT(mezguld_assemble("NOP", 3, bytes, 64, NULL, NULL) == MEZGULD_OK);
    EXPECT(mezguld_assemble(NULL, 1, bytes, 64, NULL, NULL) == MEZGULD_NULL_POINTER);
    EXPECT(mezguld_assemble("NOP", 3, NULL, 1, NULL, NULL) == MEZGULD_NULL_POINTER);
    EXPECT(mezguld_disassemble(NULL, 0, NULL, 0, &count) == MEZGULD_OK && count == 0);
    EXPECT(mezguld_disassemble(NULL, 1, bytes, 64, NULL) == MEZGULD_NULL_POINTER);
    EXPECT(mezguld_disassemble("\x90", 1, NULL, 0, &count) == MEZGULD_TOO_SMALL);
    EXPECT(mezguld_disassemble("\x90", 1, NULL, 1, &count) == MEZGULD_NULL_POINTER);
    EXPECT(mezguld_new(&machine, 0, 0, NULL, 1, 0) == MEZGULD_NULL_POINTER && machine == NULL);
}

/* What a machine holds: without and with room, and with NULL for each pointer. The loaded program has made no step:
 * the arena has the blocks of its environment and its prefix, the link block and a block of upper memory; handle 0
 * of expanded memory is in use; nothing else is. */
static void list_all(mezguld *machine)
{
    mezguld_block blocks[5];
    mezguld_list_end end = {7, 7};
    mezguld_page_handle handles[2];
    mezguld_window windows[5];
    mezguld_extended_block block;
    mezguld_upper_block upper;
    mezguld_finding finding;
    uint32_t a20 = 7, used = 7;
    uint64_t errors = 7, notes = 7, omitted = 7;
    size_t count = 7;
    char bytes[8] = "";
    memset(windows, 0x77, sizeof windows);
    memset(handles, 0x77, sizeof handles);
    EXPECT(mezguld_blocks(machine, NULL, 1, &count, &end) == MEZGULD_NULL_POINTER && count == 7 && end.at == 7);
    EXPECT(mezguld_blocks(machine, NULL, 0, NULL, NULL) == MEZGULD_TOO_SMALL);
    EXPECT(mezguld_blocks(machine, blocks, 3, &count, &end) == MEZGULD_TOO_SMALL);
    EXPECT(count == 4 && end.destroyed == 0 && end.at == 0);
    EXPECT(mezguld_blocks(machine, blocks, 5, &count, NULL) == MEZGULD_OK && count == 4);
    EXPECT(blocks[0].segment == 0x100 && blocks[0].signature == 'M' && blocks[0].owner == blocks[1].owner);
    EXPECT(blocks[1].segment + 1 == blocks[1].owner);
    EXPECT(blocks[1].signature == 'Z' && blocks[1].list == 0 && blocks[2].segment == 0x9FFF && blocks[2].list == 1);
    EXPECT(blocks[2].owner == 8);
    EXPECT(blocks[3].segment == 0xD000 && blocks[3].size == 0xFFF && blocks[3].signature == 'Z');
    EXPECT(blocks[3].owner == 0);
    EXPECT(mezguld_page_handles(machine, NULL, 1, &count) == MEZGULD_NULL_POINTER);
    EXPECT(mezguld_page_handles(machine, NULL, 0, NULL) == MEZGULD_TOO_SMALL);
    EXPECT(mezguld_page_handles(machine, handles, 0, &count) == MEZGULD_TOO_SMALL && count == 1);
    EXPECT(handles[0].number == 0x7777);
    EXPECT(mezguld_page_handles(machine, handles, 2, &count) == MEZGULD_OK && handles[0].number == 0);
    EXPECT(handles[0].pages == 0 && handles[0].saved == 0);
    EXPECT(memcmp(handles[0].name, "\0\0\0\0\0\0\0", 8) == 0 && handles[1].number == 0x7777);
    EXPECT(mezguld_windows(machine, NULL, 1, &count) == MEZGULD_NULL_POINTER);
    EXPECT(mezguld_windows(machine, windows, 3, &count) == MEZGULD_TOO_SMALL && count == 4);
    EXPECT(windows[0].shows == 0x7777 && mezguld_windows(machine, windows, 5, NULL) == MEZGULD_OK);
    EXPECT(windows[3].shows == 0 && windows[4].shows == 0x7777);
    EXPECT(mezguld_extended_blocks(machine, NULL, 1, &count) == MEZGULD_NULL_POINTER);
    EXPECT(mezguld_extended_blocks(machine, NULL, 0, NULL) == MEZGULD_OK);
    EXPECT(mezguld_extended_blocks(machine, &block, 1, &count) == MEZGULD_OK && count == 0);
    EXPECT(mezguld_upper_blocks(machine, NULL, 1, &count) == MEZGULD_NULL_POINTER);
    EXPECT(mezguld_upper_blocks(machine, NULL, 0, NULL) == MEZGULD_OK);
    EXPECT(mezguld_upper_blocks(machine, &upper, 1, &count) == MEZGULD_OK && count == 0);
    EXPECT(mezguld_high_memory(machine, NULL, NULL) == MEZGULD_OK);
    EXPECT(mezguld_high_memory(machine, &a20, &used) == MEZGULD_OK && a20 == 0 && used == 0);
    EXPECT(mezguld_read_page(machine, 0, 0, 0, NULL, 1) == MEZGULD_NULL_POINTER);
    EXPECT(mezguld_read_page(machine, 0, 0, 0, NULL, 0) == MEZGULD_NO_PAGE);
    EXPECT(mezguld_read_page(machine, 1, 0, 0, bytes, 1) == MEZGULD_NO_HANDLE);
    EXPECT(mezguld_read_page(machine, 64, 0, 0, bytes, 1) == MEZGULD_NO_HANDLE);
    EXPECT(mezguld_read_block(machine, 1, 0, NULL, 1) == MEZGULD_NULL_POINTER);
    EXPECT(mezguld_read_block(machine, 1, 0, NULL, 0) == MEZGULD_NO_HANDLE);
    EXPECT(mezguld_read_block(machine, 0, 0, bytes, 1) == MEZGULD_NO_HANDLE);
    EXPECT(mezguld_read_block(machine, 65, 0, bytes, 1) == MEZGULD_NO_HANDLE);
    EXPECT(mezguld_findings(machine, NULL, 1, &count) == MEZGULD_NULL_POINTER);
    EXPECT(mezguld_findings(machine, NULL, 0, NULL) == MEZGULD_OK);
    EXPECT(mezguld_findings(machine, &finding, 1, &count) == MEZGULD_OK && count == 0);
    EXPECT(mezguld_finding_counts(machine, NULL, NULL, NULL) == MEZGULD_OK);
    EXPECT(mezguld_finding_counts(machine, &errors, &notes, &omitted) == MEZGULD_OK && errors == 0 && notes == 0);
    EXPECT(omitted == 0);
    EXPECT(mezguld_finding_line(machine, 0, NULL, 1, &count) == MEZGULD_NULL_POINTER);
    EXPECT(mezguld_finding_line(machine, 0, NULL, 0, NULL) == MEZGULD_NO_FINDING);
    EXPECT(mezguld_finding_line(machine, (size_t)-1, bytes, 8, &count) == MEZGULD_NO_FINDING && bytes[0] == 0);
}

/* A checked run of a program that allocates a page, divides by 0 (AX / 0) and so ends: an error at the division, and
 * one for the handle that is left. */
static void find(void)
{
    static const char text[] = "MOV BX,1\nMOV AH,43h\nINT 67h\nMOV BL,0\nDIV BL";
    mezguld *machine, *copy;
    mezguld_stopped stopped;
    mezguld_finding found[3];
    uint64_t errors, notes;
    size_t count, length;
    uint8_t program[32];
    char line[160];
    EXPECT(mezguld_assemble(text, sizeof text - 1, program, sizeof program, &count, NULL) == MEZGULD_OK);
    EXPECT(mezguld_new(&machine, 1, 0, NULL, 0, 0) == MEZGULD_OK);
    EXPECT(mezguld_add(machine, "A", 1, program, count) == MEZGULD_OK);
    EXPECT(mezguld_load(machine, "A", 1, NULL, 0, NULL, 0) == MEZGULD_OK);
    EXPECT(mezguld_check(machine, 100, &stopped, &count) == MEZGULD_OK && stopped.why == MEZGULD_EXITED);
    EXPECT(mezguld_copy(machine, &copy) == MEZGULD_OK);
    EXPECT(mezguld_findings(machine, found, 1, &count) == MEZGULD_TOO_SMALL && count == 2);
    EXPECT(mezguld_findings(copy, found, 3, &count) == MEZGULD_OK && count == 2);
    EXPECT(mezguld_finding_counts(machine, &errors, &notes, NULL) == MEZGULD_OK && errors == 2 && notes == 0);
    EXPECT(found[0].kind == MEZGULD_FOUND_DIVISION_ERROR && found[0].is_error == 1);
    EXPECT(found[0].act.how == MEZGULD_INTERRUPT && found[0].act.interrupt == 0);
    EXPECT(found[1].kind == MEZGULD_FOUND_HANDLE_KEPT && found[1].details.handle == 1 && found[1].details.pages == 1);
    EXPECT(found[1].details.saved == 0);
    /* 43h is step 4, after two instructions and INT, which is at offset 105h. */
    EXPECT(found[1].origin_step == 4 && found[1].origin_at.ip == 0x105 && found[1].origin_at.before == 0);
    EXPECT(found[1].origin_at.cs == found[1].process);
    EXPECT(found[0].more == 0 && found[0].last == found[0].step && found[0].origin_step == 0);
    EXPECT(mezguld_finding_line(machine, 0, line, 7, &length) == MEZGULD_TOO_SMALL && length > 7);
    EXPECT(mezguld_finding_line(machine, 0, line, 160, &count) == MEZGULD_OK);
    EXPECT(count == length && memcmp(line, "error: ", 7) == 0 && line[count - 1] == '\n');
    EXPECT(mezguld_finding_line(machine, 2, line, 160, NULL) == MEZGULD_NO_FINDING);
    mezguld_free(machine);
    mezguld_free(copy);
}

/* Linear addresses: A20 is off at the start, so that 100000h is 0 again; F0000h is the ROM, and past 10FFEFh there
 * is nothing. */
static void read_and_write(mezguld *machine)
{
    static const uint8_t none[6] = {0xFF, 0xFF, 0xFF, 0xFF, 0xFF, 0xFF};
    uint8_t bytes[6], more[6];
    EXPECT(mezguld_write_linear(machine, 0x5FFFE, "abcd", 4) == MEZGULD_OK);
    EXPECT(mezguld_read(machine, 0x5FFF, 0xE, bytes, 2) == MEZGULD_OK);
    EXPECT(mezguld_read(machine, 0x6000, 0, bytes + 2, 2) == MEZGULD_OK);
    EXPECT(memcmp(bytes, "abcd", 4) == 0);
    EXPECT(mezguld_read_linear(machine, 0x5FFFD, bytes, 6) == MEZGULD_OK && memcmp(bytes, "\0abcd", 6) == 0);
    EXPECT(mezguld_write_linear(machine, 0x10FFEE, "xyz", 3) == MEZGULD_OK);
    EXPECT(mezguld_read_linear(machine, 0xFFEE, bytes, 2) == MEZGULD_OK && memcmp(bytes, "xy", 2) == 0);
    EXPECT(mezguld_read_linear(machine, 0x10FFEE, bytes, 6) == MEZGULD_OK && memcmp(bytes, "xy", 2) == 0);
    EXPECT(memcmp(bytes + 2, none, 4) == 0);
    EXPECT(mezguld_read_linear(machine, 0xF0000, bytes, 6) == MEZGULD_OK);
    EXPECT(mezguld_write_linear(machine, 0xF0000, "rom", 3) == MEZGULD_OK);
    EXPECT(mezguld_read_linear(machine, 0xF0000, more, 6) == MEZGULD_OK && memcmp(bytes, more, 6) == 0);
    EXPECT(mezguld_write_linear(machine, 0xC0000, "none", 4) == MEZGULD_OK);
    EXPECT(mezguld_write_linear(machine, 0xFFFFFFFE, "none", 4) == MEZGULD_OK);
    EXPECT(mezguld_read_linear(machine, 0xC0000, bytes, 6) == MEZGULD_OK && memcmp(bytes, none, 6) == 0);
    EXPECT(mezguld_read_linear(machine, 0xFFFFFFFD, bytes, 6) == MEZGULD_OK && memcmp(bytes, none, 6) == 0);
    EXPECT(mezguld_read_linear(machine, 0, bytes, 0) == MEZGULD_OK);
    EXPECT(mezguld_write_linear(machine, 0, "", 0) == MEZGULD_OK);
}

int main(void)
{
    mezguld *machine, *copy = (mezguld *)&copy;
    mezguld_stopped stopped;
    size_t count;
    EXPECT(mezguld_version() == MEZGULD_VERSION_NUMBER);
    expect_all(NULL, MEZGULD_NO_MACHINE);
    EXPECT(mezguld_copy(NULL, &copy) == MEZGULD_NO_MACHINE && copy == NULL);
    mezguld_free(NULL);
    EXPECT(mezguld_findings(NULL, NULL, 0, &count) == MEZGULD_NO_MACHINE);
    EXPECT(mezguld_finding_counts(NULL, NULL, NULL, NULL) == MEZGULD_NO_MACHINE);
    EXPECT(mezguld_finding_line(NULL, 0, NULL, 0, &count) == MEZGULD_NO_MACHINE);
    EXPECT(mezguld_answer(NULL, NULL, 0, &count) == MEZGULD_NO_MACHINE);
    find();
    machine = load();
    list_all(machine);
    give_null(machine);
    look(machine);
    read_and_write(machine);
    talk(machine);
    EXPECT(mezguld_copy(machine, &copy) == MEZGULD_OK && copy != machine);
    EXPECT(mezguld_supply(copy, "e", 1) == MEZGULD_OK && mezguld_run(copy, 1000, &stopped) == MEZGULD_OK);
    EXPECT(mezguld_output_count(copy, &count) == MEZGULD_OK && count == 5);
    EXPECT(mezguld_output_count(machine, &count) == MEZGULD_OK && count == 4);
    mezguld_free(machine);
    EXPECT(mezguld_output_count(copy, &count) == MEZGULD_OK && count == 5);
    mezguld_free(copy);
    for (int status = MEZGULD_OK; status <= MEZGULD_NO_FINDING; status++)
        EXPECT(status == 2 || strcmp(mezguld_status_text((mezguld_status)status), "unknown status") != 0);
    puts("as expected");
    return 0;
}
