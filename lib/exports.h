/* The exports of crates/dm_c, whose contracts are proved. lib/mezguld.c calls them; no program does.
 *
 * Each pointer points to as many elements as the count after it says, or to one; none is NULL, not even where a count
 * is 0. A handle is MEZGULD_NONE before a machine is put into it, and C neither writes to it nor copies it.
 */
#ifndef MEZGULD_EXPORTS_H
#define MEZGULD_EXPORTS_H

#include "../include/mezguld.h"

/* A handle: a machine, or none. Its fields are the crate's. */
struct mezguld {
    void *inside;
    uint64_t tag;
};

_Static_assert(sizeof(mezguld) == 16, "the handle has another size in the crate");

#define MEZGULD_NONE {0, 0}

uint32_t dm_c_version(void);
mezguld_status dm_c_new(mezguld *machine, uint32_t ems_pages, uint32_t xms_kib, const char *variables,
                        size_t variables_count, uint32_t upper);
mezguld_status dm_c_copy(mezguld *machine, mezguld *copy);
mezguld_status dm_c_free(mezguld *machine);
mezguld_status dm_c_add(mezguld *machine, const char *name, size_t name_count, const void *program,
                        size_t program_count);
mezguld_status dm_c_load(mezguld *machine, const char *name, size_t name_count, const char *tail, size_t tail_count,
                         const void *input, size_t input_count);
mezguld_status dm_c_run(mezguld *machine, uint64_t steps, mezguld_stopped *stopped);
mezguld_status dm_c_run_until(mezguld *machine, uint64_t steps, const mezguld_point *points, size_t points_count,
                              mezguld_stopped *stopped);
mezguld_status dm_c_run_to(mezguld *machine, uint64_t steps, const mezguld_event *events, size_t events_count,
                           mezguld_stopped *stopped, size_t *index);
mezguld_status dm_c_steps(mezguld *machine, uint64_t *steps);
mezguld_status dm_c_registers(mezguld *machine, mezguld_cpu *registers);
mezguld_status dm_c_set_registers(mezguld *machine, const mezguld_cpu *registers);
mezguld_status dm_c_read(mezguld *machine, uint16_t segment, uint16_t offset, void *buffer, size_t count);
mezguld_status dm_c_write(mezguld *machine, uint16_t segment, uint16_t offset, const void *bytes, size_t count);
mezguld_status dm_c_read_linear(mezguld *machine, uint32_t address, void *buffer, size_t count);
mezguld_status dm_c_write_linear(mezguld *machine, uint32_t address, const void *bytes, size_t count);
mezguld_status dm_c_output(mezguld *machine, size_t from, void *buffer, size_t room, size_t *wanted);
mezguld_status dm_c_output_count(mezguld *machine, size_t *count);
mezguld_status dm_c_open_input(mezguld *machine);
mezguld_status dm_c_close_input(mezguld *machine);
mezguld_status dm_c_supply(mezguld *machine, const void *bytes, size_t count);
mezguld_status dm_c_input_left(mezguld *machine, size_t *left);
mezguld_status dm_c_command(mezguld *machine, const char *line, size_t line_count, size_t *wanted);
mezguld_status dm_c_check(mezguld *machine, uint64_t steps, mezguld_stopped *stopped, size_t *wanted);
mezguld_status dm_c_answer(mezguld *machine, char *buffer, size_t room, size_t *wanted);
mezguld_status dm_c_blocks(mezguld *machine, mezguld_block *buffer, size_t room, size_t *wanted, mezguld_list_end *end);
mezguld_status dm_c_page_handles(mezguld *machine, mezguld_page_handle *buffer, size_t room, size_t *wanted);
mezguld_status dm_c_windows(mezguld *machine, mezguld_window *buffer, size_t room, size_t *wanted);
mezguld_status dm_c_extended_blocks(mezguld *machine, mezguld_extended_block *buffer, size_t room, size_t *wanted);
mezguld_status dm_c_upper_blocks(mezguld *machine, mezguld_upper_block *buffer, size_t room, size_t *wanted);
mezguld_status dm_c_high_memory(mezguld *machine, uint32_t *a20, uint32_t *used);
mezguld_status dm_c_read_page(mezguld *machine, uint16_t handle, uint16_t page, size_t offset, void *buffer,
                              size_t count);
mezguld_status dm_c_read_block(mezguld *machine, uint16_t handle, size_t offset, void *buffer, size_t count);
mezguld_status dm_c_findings(mezguld *machine, mezguld_finding *buffer, size_t room, size_t *wanted);
mezguld_status dm_c_finding_counts(mezguld *machine, uint64_t *errors, uint64_t *notes, uint64_t *omitted);
mezguld_status dm_c_finding_line(mezguld *machine, size_t k, char *buffer, size_t room, size_t *wanted);
mezguld_status dm_c_assemble(const char *text, size_t text_count, void *buffer, size_t room, size_t *wanted,
                             size_t *line);
mezguld_status dm_c_disassemble(const void *program, size_t program_count, char *buffer, size_t room, size_t *wanted);

#endif
