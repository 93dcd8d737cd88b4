/* What a guest program holds, from C: its blocks of DOS memory, its handles and pages of expanded memory, and what the
 * memory checker finds when it ends, all as records.
 *
 * The guest keeps 512 bytes, allocates a block of five paragraphs and two pages of expanded memory, writes "Hi" to the
 * first page through window 0, and ends without freeing the pages. The host stops it before it ends, lists what it has,
 * and runs it to its end under the memory checker.
 */
#include <stdio.h>
#include <stdlib.h>
#include <string.h>

#include "mezguld.h"

static const char guest[] =
    "MOV SP,200h\nMOV BX,20h\nMOV AH,4Ah\nINT 21h\n"
    "MOV BX,5\nMOV AH,48h\nINT 21h\n"
    "MOV BX,2\nMOV AH,43h\nINT 67h\n"
    "MOV BX,0\nMOV AX,4400h\nINT 67h\n"
    "MOV AX,0E000h\nMOV ES,AX\nES MOV WORD [0],6948h\n"
    "MOV AX,4C00h\nINT 21h\n";

static void must(const char *what, mezguld_status status)
{
    if (status != MEZGULD_OK) {
        fprintf(stderr, "%s: %s\n", what, mezguld_status_text(status));
        exit(1);
    }
}

/* A machine with the guest loaded. */
static mezguld *start(void)
{
    static uint8_t program[1024];
    mezguld *machine;
    size_t count = 0;
    must("mezguld_assemble", mezguld_assemble(guest, sizeof guest - 1, program, sizeof program, &count, NULL));
    must("mezguld_new", mezguld_new(&machine, 4, 0, NULL, 0, 0));
    must("mezguld_add", mezguld_add(machine, "GUEST.COM", 9, program, count));
    must("mezguld_load", mezguld_load(machine, "GUEST.COM", 9, NULL, 0, NULL, 0));
    return machine;
}

/* Prints the blocks. How many there are is asked for first. */
static void list_blocks(const mezguld *machine)
{
    mezguld_list_end end = {0, 0};
    size_t count = 0;
    mezguld_status status = mezguld_blocks(machine, NULL, 0, &count, &end);
    mezguld_block *blocks = malloc((count + 1) * sizeof *blocks);
    if (status != MEZGULD_TOO_SMALL || !blocks) {
        fprintf(stderr, "no blocks: %s\n", mezguld_status_text(status));
        exit(1);
    }
    must("mezguld_blocks", mezguld_blocks(machine, blocks, count, &count, &end));
    for (size_t at = 0; at < count; at++)
        printf("block %04X: owner %04X, %u paragraphs\n", blocks[at].segment + 1, blocks[at].owner,
               (unsigned)blocks[at].size);
    if (end.destroyed)
        printf("destroyed at %04X\n", end.at);
    free(blocks);
}

/* Prints the handles that have pages, the beginning of each page, and what the windows show. (64 handles are all
 * that there can be.) */
static void list_pages(const mezguld *machine)
{
    mezguld_page_handle handles[64];
    mezguld_window windows[4];
    size_t count = 0;
    must("mezguld_page_handles", mezguld_page_handles(machine, handles, 64, &count));
    for (size_t at = 0; at < count; at++)
        for (uint16_t page = 0; page < handles[at].pages; page++) {
            unsigned char bytes[2];
            must("mezguld_read_page", mezguld_read_page(machine, handles[at].number, page, 0, bytes, sizeof bytes));
            printf("handle %u, page %u: %02X %02X\n", (unsigned)handles[at].number, (unsigned)page, bytes[0], bytes[1]);
        }
    must("mezguld_windows", mezguld_windows(machine, windows, 4, &count));
    for (size_t at = 0; at < count; at++)
        if (windows[at].shows)
            printf("window %zu: handle %u, page %u\n", at, (unsigned)windows[at].handle, (unsigned)windows[at].page);
}

/* Prints the findings: two kinds by their records, others by their lines in the report. */
static void list_findings(const mezguld *machine)
{
    static mezguld_finding found[200];
    size_t count = 0;
    must("mezguld_findings", mezguld_findings(machine, found, 200, &count));
    for (size_t at = 0; at < count; at++) {
        char line[400];
        size_t length = 0;
        must("mezguld_finding_line", mezguld_finding_line(machine, at, line, sizeof line, &length));
        printf("%s of process %04X: ", found[at].is_error ? "error" : "note", found[at].process);
        if (found[at].kind == MEZGULD_FOUND_HANDLE_KEPT)
            printf("%u pages of handle %u are left\n", (unsigned)found[at].details.pages,
                   (unsigned)found[at].details.handle);
        else if (found[at].kind == MEZGULD_FOUND_WINDOW_KEPT)
            printf("window %u is left mapped\n", (unsigned)found[at].details.window);
        else
            fwrite(line, 1, length, stdout);
    }
}

int main(void)
{
    mezguld *machine = start();
    mezguld_event end = mezguld_at_function(0x21, 0x4C);
    mezguld_stopped stopped;
    must("mezguld_run_to", mezguld_run_to(machine, 1000, &end, 1, &stopped, NULL));
    list_blocks(machine);
    list_pages(machine);
    must("mezguld_check", mezguld_check(machine, 1000, &stopped, NULL));
    list_findings(machine);
    mezguld_free(machine);
    return 0;
}
