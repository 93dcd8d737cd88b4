/* The functions of include/mezguld.h, over the exports of crates/dm_c.
 *
 * What a call does to a machine is done, and proved, there. This file answers NULL, which the exports never get, tests
 * the variables, and allocates each machine's handle. It only initializes a handle; everything else in it is the
 * crate's. The file needs no header of the C library, so that the kit's compiler makes the same bytes of it on every
 * machine.
 */
#define MEZGULD_INSIDE
#include "exports.h"

void *malloc(size_t size);
void free(void *block);

/* What a pointer of a buffer with no bytes points to. Nobody reads or writes it. */
static union {
    uint64_t number;
    void *pointer;
} nothing;

/* Whether a buffer, text or array is missing. */
static int is_missing(const void *buffer, size_t count)
{
    return buffer == NULL && count != 0;
}

/* Whether these are variables: none is empty, and each is closed by a zero byte. */
static int are_variables(const char *variables, size_t count)
{
    for (size_t at = 0; at < count; at++)
        if (variables[at] == 0 && (at == 0 || variables[at - 1] == 0))
            return 0;
    return count == 0 || variables[count - 1] == 0;
}

/* The buffer, or one of no bytes for NULL. */
static void *room_at(void *buffer)
{
    return buffer == NULL ? &nothing : buffer;
}

/* The bytes, or a pointer to none for NULL. */
static const void *bytes_at(const void *bytes)
{
    return bytes == NULL ? &nothing : bytes;
}

/* The handle of a machine from which a call reads alone. (The exports take the machine out of its handle and put it
 * back.) */
static mezguld *handle_of(const mezguld *machine)
{
    return (mezguld *)machine;
}

/* A handle that holds no machine, or NULL if its allocation failed. */
static mezguld *new_handle(void)
{
    static const mezguld none = MEZGULD_NONE;
    mezguld *handle = malloc(sizeof *handle);
    if (handle != NULL)
        *handle = none;
    return handle;
}

/* Writes the handle to its place if a machine was put into it, else frees it and writes NULL. */
static mezguld_status placed(mezguld_status status, mezguld *handle, mezguld **place)
{
    if (status != MEZGULD_OK) {
        free(handle);
        handle = NULL;
    }
    *place = handle;
    return status;
}

uint32_t mezguld_version(void)
{
    return dm_c_version();
}

mezguld_status mezguld_new(mezguld **machine, uint32_t ems_pages, uint32_t xms_kib, const char *variables,
                           size_t variables_count, uint32_t upper)
{
    if (machine == NULL)
        return MEZGULD_NULL_POINTER;
    *machine = NULL;
    if (is_missing(variables, variables_count))
        return MEZGULD_NULL_POINTER;
    if (!are_variables(variables, variables_count))
        return MEZGULD_BAD_VARIABLES;
    mezguld *handle = new_handle();
    if (handle == NULL)
        return MEZGULD_OUT_OF_MEMORY;
    return placed(dm_c_new(handle, ems_pages, xms_kib, bytes_at(variables), variables_count, upper), handle, machine);
}

mezguld_status mezguld_copy(const mezguld *machine, mezguld **copy)
{
    if (copy == NULL)
        return MEZGULD_NULL_POINTER;
    *copy = NULL;
    if (machine == NULL)
        return MEZGULD_NO_MACHINE;
    mezguld *handle = new_handle();
    if (handle == NULL)
        return MEZGULD_OUT_OF_MEMORY;
    return placed(dm_c_copy(handle_of(machine), handle), handle, copy);
}

void mezguld_free(mezguld *machine)
{
    if (machine == NULL)
        return;
    (void)dm_c_free(machine);
    free(machine);
}

mezguld_status mezguld_add(mezguld *machine, const char *name, size_t name_count, const void *program,
                           size_t program_count)
{
    if (machine == NULL)
        return MEZGULD_NO_MACHINE;
    if (is_missing(name, name_count) || is_missing(program, program_count))
        return MEZGULD_NULL_POINTER;
    return dm_c_add(machine, bytes_at(name), name_count, bytes_at(program), program_count);
}

mezguld_status mezguld_load(mezguld *machine, const char *name, size_t name_count, const char *tail, size_t tail_count,
                            const void *input, size_t input_count)
{
    if (machine == NULL)
        return MEZGULD_NO_MACHINE;
    if (is_missing(name, name_count) || is_missing(tail, tail_count) || is_missing(input, input_count))
        return MEZGULD_NULL_POINTER;
    return dm_c_load(machine, bytes_at(name), name_count, bytes_at(tail), tail_count, bytes_at(input), input_count);
}

mezguld_status mezguld_run(mezguld *machine, uint64_t steps, mezguld_stopped *stopped)
{
    mezguld_stopped unwanted;
    if (machine == NULL)
        return MEZGULD_NO_MACHINE;
    return dm_c_run(machine, steps, stopped == NULL ? &unwanted : stopped);
}

mezguld_status mezguld_run_until(mezguld *machine, uint64_t steps, const mezguld_point *points, size_t points_count,
                                 mezguld_stopped *stopped)
{
    mezguld_stopped unwanted;
    if (machine == NULL)
        return MEZGULD_NO_MACHINE;
    if (is_missing(points, points_count))
        return MEZGULD_NULL_POINTER;
    return dm_c_run_until(machine, steps, bytes_at(points), points_count, stopped == NULL ? &unwanted : stopped);
}

mezguld_status mezguld_run_to(mezguld *machine, uint64_t steps, const mezguld_event *events, size_t events_count,
                              mezguld_stopped *stopped, size_t *index)
{
    mezguld_stopped unwanted;
    size_t nowhere;
    if (machine == NULL)
        return MEZGULD_NO_MACHINE;
    if (is_missing(events, events_count))
        return MEZGULD_NULL_POINTER;
    return dm_c_run_to(machine, steps, bytes_at(events), events_count, stopped == NULL ? &unwanted : stopped,
                       index == NULL ? &nowhere : index);
}

mezguld_status mezguld_steps(const mezguld *machine, uint64_t *steps)
{
    uint64_t unwanted;
    if (machine == NULL)
        return MEZGULD_NO_MACHINE;
    return dm_c_steps(handle_of(machine), steps == NULL ? &unwanted : steps);
}

mezguld_status mezguld_registers(const mezguld *machine, mezguld_cpu *registers)
{
    mezguld_cpu unwanted;
    if (machine == NULL)
        return MEZGULD_NO_MACHINE;
    return dm_c_registers(handle_of(machine), registers == NULL ? &unwanted : registers);
}

mezguld_status mezguld_set_registers(mezguld *machine, const mezguld_cpu *registers)
{
    if (machine == NULL)
        return MEZGULD_NO_MACHINE;
    if (registers == NULL)
        return MEZGULD_NULL_POINTER;
    return dm_c_set_registers(machine, registers);
}

mezguld_status mezguld_read(const mezguld *machine, uint16_t segment, uint16_t offset, void *buffer, size_t count)
{
    if (machine == NULL)
        return MEZGULD_NO_MACHINE;
    if (is_missing(buffer, count))
        return MEZGULD_NULL_POINTER;
    return dm_c_read(handle_of(machine), segment, offset, room_at(buffer), count);
}

mezguld_status mezguld_write(mezguld *machine, uint16_t segment, uint16_t offset, const void *bytes, size_t count)
{
    if (machine == NULL)
        return MEZGULD_NO_MACHINE;
    if (is_missing(bytes, count))
        return MEZGULD_NULL_POINTER;
    return dm_c_write(machine, segment, offset, bytes_at(bytes), count);
}

mezguld_status mezguld_read_linear(const mezguld *machine, uint32_t address, void *buffer, size_t count)
{
    if (machine == NULL)
        return MEZGULD_NO_MACHINE;
    if (is_missing(buffer, count))
        return MEZGULD_NULL_POINTER;
    return dm_c_read_linear(handle_of(machine), address, room_at(buffer), count);
}

mezguld_status mezguld_write_linear(mezguld *machine, uint32_t address, const void *bytes, size_t count)
{
    if (machine == NULL)
        return MEZGULD_NO_MACHINE;
    if (is_missing(bytes, count))
        return MEZGULD_NULL_POINTER;
    return dm_c_write_linear(machine, address, bytes_at(bytes), count);
}

mezguld_status mezguld_blocks(const mezguld *machine, mezguld_block *buffer, size_t room, size_t *wanted,
                              mezguld_list_end *end)
{
    size_t unwanted;
    mezguld_list_end endless;
    if (machine == NULL)
        return MEZGULD_NO_MACHINE;
    if (is_missing(buffer, room))
        return MEZGULD_NULL_POINTER;
    return dm_c_blocks(handle_of(machine), room_at(buffer), room, wanted == NULL ? &unwanted : wanted,
                       end == NULL ? &endless : end);
}

mezguld_status mezguld_page_handles(const mezguld *machine, mezguld_page_handle *buffer, size_t room,
                                    size_t *wanted)
{
    size_t unwanted;
    if (machine == NULL)
        return MEZGULD_NO_MACHINE;
    if (is_missing(buffer, room))
        return MEZGULD_NULL_POINTER;
    return dm_c_page_handles(handle_of(machine), room_at(buffer), room, wanted == NULL ? &unwanted : wanted);
}

mezguld_status mezguld_windows(const mezguld *machine, mezguld_window *buffer, size_t room, size_t *wanted)
{
    size_t unwanted;
    if (machine == NULL)
        return MEZGULD_NO_MACHINE;
    if (is_missing(buffer, room))
        return MEZGULD_NULL_POINTER;
    return dm_c_windows(handle_of(machine), room_at(buffer), room, wanted == NULL ? &unwanted : wanted);
}

mezguld_status mezguld_extended_blocks(const mezguld *machine, mezguld_extended_block *buffer, size_t room,
                                       size_t *wanted)
{
    size_t unwanted;
    if (machine == NULL)
        return MEZGULD_NO_MACHINE;
    if (is_missing(buffer, room))
        return MEZGULD_NULL_POINTER;
    return dm_c_extended_blocks(handle_of(machine), room_at(buffer), room, wanted == NULL ? &unwanted : wanted);
}

mezguld_status mezguld_upper_blocks(const mezguld *machine, mezguld_upper_block *buffer, size_t room,
                                    size_t *wanted)
{
    size_t unwanted;
    if (machine == NULL)
        return MEZGULD_NO_MACHINE;
    if (is_missing(buffer, room))
        return MEZGULD_NULL_POINTER;
    return dm_c_upper_blocks(handle_of(machine), room_at(buffer), room, wanted == NULL ? &unwanted : wanted);
}

mezguld_status mezguld_high_memory(const mezguld *machine, uint32_t *a20, uint32_t *used)
{
    uint32_t unwanted, unused;
    if (machine == NULL)
        return MEZGULD_NO_MACHINE;
    return dm_c_high_memory(handle_of(machine), a20 == NULL ? &unwanted : a20, used == NULL ? &unused : used);
}

mezguld_status mezguld_read_page(const mezguld *machine, uint16_t handle, uint16_t page, size_t offset, void *buffer,
                                 size_t count)
{
    if (machine == NULL)
        return MEZGULD_NO_MACHINE;
    if (is_missing(buffer, count))
        return MEZGULD_NULL_POINTER;
    return dm_c_read_page(handle_of(machine), handle, page, offset, room_at(buffer), count);
}

mezguld_status mezguld_read_block(const mezguld *machine, uint16_t handle, size_t offset, void *buffer, size_t count)
{
    if (machine == NULL)
        return MEZGULD_NO_MACHINE;
    if (is_missing(buffer, count))
        return MEZGULD_NULL_POINTER;
    return dm_c_read_block(handle_of(machine), handle, offset, room_at(buffer), count);
}

mezguld_status mezguld_output(const mezguld *machine, size_t from, void *buffer, size_t room, size_t *wanted)
{
    size_t unwanted;
    if (machine == NULL)
        return MEZGULD_NO_MACHINE;
    if (is_missing(buffer, room))
        return MEZGULD_NULL_POINTER;
    return dm_c_output(handle_of(machine), from, room_at(buffer), room, wanted == NULL ? &unwanted : wanted);
}

mezguld_status mezguld_output_count(const mezguld *machine, size_t *count)
{
    size_t unwanted;
    if (machine == NULL)
        return MEZGULD_NO_MACHINE;
    return dm_c_output_count(handle_of(machine), count == NULL ? &unwanted : count);
}

mezguld_status mezguld_open_input(mezguld *machine)
{
    return machine == NULL ? MEZGULD_NO_MACHINE : dm_c_open_input(machine);
}

mezguld_status mezguld_close_input(mezguld *machine)
{
    return machine == NULL ? MEZGULD_NO_MACHINE : dm_c_close_input(machine);
}

mezguld_status mezguld_supply(mezguld *machine, const void *bytes, size_t count)
{
    if (machine == NULL)
        return MEZGULD_NO_MACHINE;
    if (is_missing(bytes, count))
        return MEZGULD_NULL_POINTER;
    return dm_c_supply(machine, bytes_at(bytes), count);
}

mezguld_status mezguld_input_left(const mezguld *machine, size_t *left)
{
    size_t unwanted;
    if (machine == NULL)
        return MEZGULD_NO_MACHINE;
    return dm_c_input_left(handle_of(machine), left == NULL ? &unwanted : left);
}

mezguld_status mezguld_command(mezguld *machine, const char *line, size_t line_count, size_t *wanted)
{
    size_t unwanted;
    if (machine == NULL)
        return MEZGULD_NO_MACHINE;
    if (is_missing(line, line_count))
        return MEZGULD_NULL_POINTER;
    return dm_c_command(machine, bytes_at(line), line_count, wanted == NULL ? &unwanted : wanted);
}

mezguld_status mezguld_check(mezguld *machine, uint64_t steps, mezguld_stopped *stopped, size_t *wanted)
{
    mezguld_stopped unwanted;
    size_t uncounted;
    if (machine == NULL)
        return MEZGULD_NO_MACHINE;
    return dm_c_check(machine, steps, stopped == NULL ? &unwanted : stopped, wanted == NULL ? &uncounted : wanted);
}

mezguld_status mezguld_answer(const mezguld *machine, char *buffer, size_t room, size_t *wanted)
{
    size_t unwanted;
    if (machine == NULL)
        return MEZGULD_NO_MACHINE;
    if (is_missing(buffer, room))
        return MEZGULD_NULL_POINTER;
    return dm_c_answer(handle_of(machine), room_at(buffer), room, wanted == NULL ? &unwanted : wanted);
}

mezguld_status mezguld_findings(const mezguld *machine, mezguld_finding *buffer, size_t room, size_t *wanted)
{
    size_t unwanted;
    if (machine == NULL)
        return MEZGULD_NO_MACHINE;
    if (is_missing(buffer, room))
        return MEZGULD_NULL_POINTER;
    return dm_c_findings(handle_of(machine), room_at(buffer), room, wanted == NULL ? &unwanted : wanted);
}

mezguld_status mezguld_finding_counts(const mezguld *machine, uint64_t *errors, uint64_t *notes, uint64_t *omitted)
{
    uint64_t unwanted, unneeded, unused;
    if (machine == NULL)
        return MEZGULD_NO_MACHINE;
    return dm_c_finding_counts(handle_of(machine), errors == NULL ? &unwanted : errors,
                               notes == NULL ? &unneeded : notes, omitted == NULL ? &unused : omitted);
}

mezguld_status mezguld_finding_line(const mezguld *machine, size_t k, char *buffer, size_t room, size_t *wanted)
{
    size_t unwanted;
    if (machine == NULL)
        return MEZGULD_NO_MACHINE;
    if (is_missing(buffer, room))
        return MEZGULD_NULL_POINTER;
    return dm_c_finding_line(handle_of(machine), k, room_at(buffer), room, wanted == NULL ? &unwanted : wanted);
}

mezguld_status mezguld_assemble(const char *text, size_t text_count, void *buffer, size_t room, size_t *wanted,
                                size_t *line)
{
    size_t unwanted, unnumbered;
    if (is_missing(text, text_count) || is_missing(buffer, room))
        return MEZGULD_NULL_POINTER;
    return dm_c_assemble(bytes_at(text), text_count, room_at(buffer), room, wanted == NULL ? &unwanted : wanted,
                         line == NULL ? &unnumbered : line);
}

mezguld_status mezguld_disassemble(const void *program, size_t program_count, char *buffer, size_t room, size_t *wanted)
{
    size_t unwanted;
    if (is_missing(program, program_count) || is_missing(buffer, room))
        return MEZGULD_NULL_POINTER;
    return dm_c_disassemble(bytes_at(program), program_count, room_at(buffer), room,
                            wanted == NULL ? &unwanted : wanted);
}
