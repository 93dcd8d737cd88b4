/* The proved MS-DOS machine of Mezguld, from C.
 *
 * A machine is made by mezguld_new. Programs are added by mezguld_add, one of them is loaded by mezguld_load, and then
 * it runs, in as many calls of mezguld_run, mezguld_run_until or mezguld_run_to as you like. Between two calls its
 * registers and memory can be read and written, input supplied, output taken, and a snapshot made by mezguld_copy.
 * mezguld_free frees it.
 *
 *     mezguld *machine;
 *     if (mezguld_new(&machine, 64, 1024, NULL, 0, 0) == MEZGULD_OK) {
 *         ...
 *         mezguld_free(machine);
 *     }
 *
 * Each function but mezguld_version and mezguld_free returns a status. Where it is not MEZGULD_OK, nothing has changed
 * and nothing was written, unless the function's comment says otherwise. Each comment names the statuses that the
 * function returns beside OK and NULL_POINTER, without their prefix, in the order in which they are tried;
 * OUT_OF_MEMORY may come before any of them. Texts and bytes have a count, and no zero byte after them.
 *
 * NULL: a machine that is NULL is no machine (NO_MACHINE), and mezguld_free ignores it. A buffer, text or array may be
 * NULL where its count is 0; elsewhere the status is NULL_POINTER, which is tried right after NO_MACHINE (in
 * mezguld_new and mezguld_copy first). A result that is not wanted may be NULL: nothing is written there.
 *
 * What no function can test, and C must keep to:
 *
 *  - A `mezguld *` is NULL, or comes from mezguld_new or mezguld_copy and was not freed. Every other pointer that is
 *    not NULL points to as many elements as the count after it says, or to one where there is no count. What a function
 *    writes overlaps nothing else that it is passed.
 *  - No two calls on one machine overlap, not even two that take a `const mezguld *`. They may come from any threads,
 *    if each call has ended before the next one begins, as under a mutex. No function is called from a signal handler,
 *    or in the forked child of a process with threads; no `longjmp` and no cancellation of a thread leaves a call.
 *  - malloc, realloc and free are those of one allocator, as of the C library.
 *
 * What the functions return, write and change is then proved (of the exports that the library is made of), but for what
 * it adds in C: it holds the handle of each machine, and answers NULL.
 */
#ifndef MEZGULD_H
#define MEZGULD_H

#include <stddef.h>
#include <stdint.h>

/* The version, which `dm --version` and mezguld_version report too; the number is 10000 * major + 100 * minor + patch.
 * A library with another first number has other functions. */
#define MEZGULD_VERSION "2.0.0"
#define MEZGULD_VERSION_MAJOR 2
#define MEZGULD_VERSION_MINOR 0
#define MEZGULD_VERSION_PATCH 0
#define MEZGULD_VERSION_NUMBER 20000

/* What stands before each function that returns a status, which is to be looked at; and before those that make a
 * machine: the place for it, the parameter of this number, is not NULL either. (Where the library itself is
 * compiled, it may be.) */
#if (defined(__GNUC__) || defined(__clang__)) && !defined(MEZGULD_INSIDE)
#define MEZGULD_CALL __attribute__((warn_unused_result))
#define MEZGULD_MAKES(place) __attribute__((warn_unused_result, nonnull(place)))
#else
#define MEZGULD_CALL
#define MEZGULD_MAKES(place)
#endif

#ifdef __cplusplus
extern "C" {
#endif

/* A machine. What it holds is the library's. */
typedef struct mezguld mezguld;

/* The statuses. mezguld_status_text has a text for each. (2 is none.) */
typedef enum mezguld_status {
    MEZGULD_OK = 0,
    MEZGULD_NO_MACHINE = 1,         /* the machine is NULL */
    MEZGULD_OUT_OF_MEMORY = 3,      /* an allocation failed; one for the program's output is the stop MEZGULD_MEMORY */
    MEZGULD_TOO_SMALL = 4,          /* the buffer has less room than `*wanted` */
    MEZGULD_TOO_LARGE = 5,          /* over 512 pages of expanded memory, or over 15,360 KiB of extended memory */
    MEZGULD_VARIABLES_TOO_LONG = 6, /* the variables have over 32,767 bytes */
    MEZGULD_BAD_NAME = 7,           /* the name is empty, has over 64 bytes, or has a zero byte */
    MEZGULD_NAME_TWICE = 8,         /* a program has this name already; case is ignored */
    MEZGULD_STARTED = 9,            /* a program was loaded, or its loading failed for good */
    MEZGULD_TAIL_TOO_LONG = 10,     /* the tail has over 126 bytes */
    MEZGULD_NOT_FOUND = 11,         /* no program has this name */
    MEZGULD_BAD_FORMAT = 12,        /* neither a COM file of at most 65,278 bytes nor a good MZ file */
    MEZGULD_SHORT = 13,             /* conventional memory has no room for the program */
    MEZGULD_NOT_LOADED = 14,        /* no program is loaded */
    MEZGULD_SYNTAX = 15,            /* the line is no command, or clears a breakpoint that is not set */
    MEZGULD_FULL = 16,              /* the line sets a seventeenth breakpoint */
    MEZGULD_LINE_SYNTAX = 17,       /* a line of assembly is no statement */
    MEZGULD_LINE_UNKNOWN = 18,      /* it names a label that no line has */
    MEZGULD_LINE_RANGE = 19,        /* a number, a label or a target on it is out of range */
    MEZGULD_LINE_TWICE = 20,        /* it has the label of a line before it */
    MEZGULD_TOO_LONG = 21,          /* the program has over 65,278 bytes */
    MEZGULD_INPUT_CLOSED = 22,      /* no more input may come: mezguld_open_input opens it */
    MEZGULD_BAD_EVENT = 23,         /* the kind of an event is no mezguld_kind */
    MEZGULD_NULL_POINTER = 24,      /* a pointer is NULL, and what it should point to is needed */
    MEZGULD_BAD_VARIABLES = 25,     /* a variable is empty, or the last one is not closed by a zero byte */
    MEZGULD_NO_HANDLE = 26,         /* the handle is not in use */
    MEZGULD_NO_PAGE = 27,           /* the handle has no page of this number */
    MEZGULD_PAST_END = 28,          /* not all of the bytes are in the page or block */
    MEZGULD_NO_FINDING = 29         /* the report lists no finding of this number */
} mezguld_status;

/* Why a run stopped. After all but EXITED another run goes on from there, and tries again what could not be done. */
typedef enum mezguld_stop {
    MEZGULD_STEPS = 0,       /* all the steps were made */
    MEZGULD_EXITED = 1,      /* the program has ended; every later run returns it again and makes no step */
    MEZGULD_HALTED = 2,      /* HLT is next */
    MEZGULD_UNLISTED = 3,    /* the bytes at CS:IP are no instruction of the 8086 */
    MEZGULD_INPUT_ENDED = 4, /* the next step would read input, and what it wants is not there; see mezguld_supply */
    MEZGULD_DESTROYED = 5,   /* the program would end, and its block list is destroyed */
    MEZGULD_MEMORY = 6,      /* an allocation for more output failed */
    MEZGULD_BREAKPOINT = 7,  /* the last step led to a breakpoint */
    MEZGULD_EVENT = 8        /* the last step led to an event; see mezguld_run_to */
} mezguld_stop;

/* How a run ended: why, and the program's exit code (0 to 255) where it has ended, else 0. */
typedef struct mezguld_stopped {
    mezguld_stop why;
    uint32_t code;
} mezguld_stopped;

/* The registers; `flags` is the word that PUSHF stores: CF is bit 0, PF 2, AF 4, ZF 6, SF 7, TF 8, IF 9, DF 10 and
 * OF 11. */
typedef struct mezguld_cpu {
    uint16_t ax, bx, cx, dx, sp, bp, si, di, cs, ds, es, ss, ip, flags;
} mezguld_cpu;

/* A breakpoint: an exact pair of CS and IP. */
typedef struct mezguld_point {
    uint16_t segment;
    uint16_t offset;
} mezguld_point;

/* The kinds of events, and the fields of a mezguld_event that count for each. */
typedef enum mezguld_kind {
    MEZGULD_AT_PAIR = 0,    /* CS:IP is exactly the pair `segment`, `offset` */
    MEZGULD_AT_ADDRESS = 1, /* CS:IP has the linear address `address`, by any pair; its bit 20 is off while A20 is */
    MEZGULD_AT_CHANGE = 2,  /* one of the `length` bytes from the linear address `address` up reads otherwise than
                             * before the run, whoever wrote it: the program, a service, another page in a window;
                             * none is past 10FFEFh */
    MEZGULD_AT_CALL = 3,    /* the bytes at CS:IP are CDh and `number`: INT is next */
    MEZGULD_AT_FUNCTION = 4 /* the same, and AH is `ah` */
} mezguld_kind;

/* What ends a run after a step. The functions from mezguld_at on make events. */
typedef struct mezguld_event {
    mezguld_kind kind;
    uint32_t address, length;
    uint16_t segment, offset;
    uint8_t number, ah;
} mezguld_event;

/* A header of a block list of DOS (a memory control block): its own segment (findings have that of its block, one
 * above); the owner of the block, 0 if it is free, 8 for DOS, otherwise the segment of a program's PSP; the size of
 * the block in paragraphs; its signature, 5Ah (`Z`) in the last header of its list, otherwise 4Dh (`M`); and its
 * list: 0 for the first one, 1 for that of upper memory where the first does not lead to it. */
typedef struct mezguld_block {
    uint16_t segment, owner, size;
    uint8_t signature, list;
} mezguld_block;

/* How the block lists end: valid (`destroyed` is 0), or destroyed (1) at the segment `at`, where a header has to be and
 * none can. */
typedef struct mezguld_list_end {
    uint16_t destroyed, at;
} mezguld_list_end;

/* A handle of expanded memory in use: its number; how many pages of 16 KiB it has, which are numbered from 0;
 * whether the windows are saved under it (1, otherwise 0); and its name, eight zeros if it has none. */
typedef struct mezguld_page_handle {
    uint16_t number, pages;
    uint32_t saved;
    uint8_t name[8];
} mezguld_page_handle;

/* What a window of the page frame shows: nothing (`shows` is 0), or this page of this handle. */
typedef struct mezguld_window {
    uint16_t shows, handle, page;
} mezguld_window;

/* The block of a handle of extended memory: the linear address of its first byte, how often it is locked, the
 * handle, and the size of the block in KiB. */
typedef struct mezguld_extended_block {
    uint64_t address;
    uint32_t locks;
    uint16_t handle, kib;
} mezguld_extended_block;

/* An upper memory block of the XMS driver: the segment of its first paragraph, as function 10h returned it, and its
 * size in paragraphs. */
typedef struct mezguld_upper_block {
    uint16_t segment, size;
} mezguld_upper_block;

/* The kinds of findings, each with the members of `details` that count for it. `dm check --json` has the same words. */
typedef enum mezguld_finding_kind {
    MEZGULD_FOUND_OVERWRITTEN = 0,          /* `header`, `old_contents`, `new_contents` */
    MEZGULD_FOUND_MAPPED_AWAY = 1,          /* `header` */
    MEZGULD_FOUND_DESTROYED = 2,            /* `header` */
    MEZGULD_FOUND_VALID = 3,                /* none */
    MEZGULD_FOUND_FREED_TWICE = 4,          /* `block` */
    MEZGULD_FOUND_REFUSED = 5,              /* `code` */
    MEZGULD_FOUND_NOT_ALLOCATED = 6,        /* `code` */
    MEZGULD_FOUND_DIVISION_ERROR = 7,       /* none */
    MEZGULD_FOUND_NOT_ENOUGH_MEMORY = 8,    /* `code`, `wanted`, `available` */
    MEZGULD_FOUND_NOT_SERVED = 9,           /* none */
    MEZGULD_FOUND_FREE_READ = 10,           /* `block`, `segment`, `offset` */
    MEZGULD_FOUND_FREE_WRITTEN = 11,        /* `block`, `segment`, `offset` */
    MEZGULD_FOUND_STACK_FREED = 12,         /* `block` */
    MEZGULD_FOUND_WINDOW_LOST = 13,         /* `window`, `segment`, `offset` */
    MEZGULD_FOUND_ROM_WRITTEN = 14,         /* `segment`, `offset` */
    MEZGULD_FOUND_NO_MEMORY_WRITTEN = 15,   /* `segment`, `offset` */
    MEZGULD_FOUND_HEADER_BYTE_WRITTEN = 16, /* `header`, `byte` */
    MEZGULD_FOUND_OTHER_FREED = 17,         /* `block`, `owner` */
    MEZGULD_FOUND_NOT_RESIZED = 18,         /* `wanted` */
    MEZGULD_FOUND_HANDLE_KEPT = 19,         /* `handle`, `pages`, `saved`; this and the next ones: left allocated by a
                                             * program that has ended (an error) or stays resident (a note) */
    MEZGULD_FOUND_WINDOW_KEPT = 20,         /* `window` */
    MEZGULD_FOUND_BLOCK_KEPT = 21,          /* `handle`, `kib`, `locked` */
    MEZGULD_FOUND_UPPER_KEPT = 22,          /* `block` */
    MEZGULD_FOUND_AREA_KEPT = 23,           /* none: the high memory area */
    MEZGULD_FOUND_LINE_KEPT = 24            /* none: address line A20, which is on */
} mezguld_finding_kind;

/* How a step was performed, and the members of a mezguld_act that count then. */
typedef enum mezguld_how {
    MEZGULD_INSTRUCTION = 0, /* an instruction, which ends before the offset `next` */
    MEZGULD_INTERRUPT = 1,   /* a call by `interrupt` */
    MEZGULD_FUNCTION = 2,    /* a call by `interrupt` with `function` in AH */
    MEZGULD_FAR_CALL = 3     /* a far call of the XMS driver with `function` in AH */
} mezguld_how;

/* What was performed in a step. The members that do not count are 0. */
typedef struct mezguld_act {
    mezguld_how how;
    uint16_t next;
    uint8_t interrupt, function;
} mezguld_act;

/* A place in the code of a program: CS:IP of an instruction; if `before` is 1, the address after it. */
typedef struct mezguld_place {
    uint16_t cs, ip, before;
} mezguld_place;

/* Bytes 0 to 4 of a header of a block list. */
typedef struct mezguld_contents {
    uint16_t signature, owner, size;
} mezguld_contents;

/* What a finding is about. The members that do not count for its kind are 0. */
typedef struct mezguld_details {
    mezguld_contents old_contents, new_contents; /* those of a header before the step and after it */
    uint16_t header, byte;    /* the segment of a header, and which byte of it, 5 to 15 */
    uint16_t block, owner;    /* the segment of a block's first paragraph, as the call that allocated it returned it,
                               * one above that of its header, if it has one; and the PSP of the process that owns it */
    uint16_t segment, offset; /* the address of the first byte that an instruction touches there */
    uint16_t window;          /* a window of the page frame, 0 to 3 */
    uint16_t handle;          /* a handle */
    uint16_t pages, saved;    /* how many pages it has, and whether the windows are saved under it (1 or 0) */
    uint16_t kib, locked;     /* the size of its block in KiB, and whether that is locked (1 or 0) */
    uint16_t code;            /* the error code of a call */
    uint16_t wanted, available; /* the paragraphs that a call wants, and those that there are */
} mezguld_details;

/* A finding of a checked run. */
typedef struct mezguld_finding {
    uint64_t step;        /* the number of the step; the first step of a machine is 1 */
    uint64_t more, last;  /* how often it occurs again, and the step of the last occurrence, or its own */
    uint64_t origin_step; /* the step that freed what it is about, or allocated what is left allocated; 0: not known */
    mezguld_finding_kind kind;
    uint32_t is_error;    /* 1 for an error, 0 for a note */
    mezguld_place at, origin_at; /* where the step was performed, and where that of `origin_step` was */
    mezguld_act act;      /* what was performed */
    uint16_t process;     /* the process that performed it: the segment of its PSP */
    mezguld_details details;
} mezguld_finding;

/* The sizes of the types, as the library has them. */
#if defined(__cplusplus) && __cplusplus >= 201103L
#define MEZGULD_HAS_SIZE(type, size) static_assert(sizeof(type) == (size), #type " has another size in the library")
#elif !defined(__cplusplus) && defined(__STDC_VERSION__) && __STDC_VERSION__ >= 201112L
#define MEZGULD_HAS_SIZE(type, size) _Static_assert(sizeof(type) == (size), #type " has another size in the library")
#else
#define MEZGULD_HAS_SIZE(type, size) typedef char type##_has_its_size[sizeof(type) == (size) ? 1 : -1]
#endif

MEZGULD_HAS_SIZE(mezguld_status, 4);
MEZGULD_HAS_SIZE(mezguld_stop, 4);
MEZGULD_HAS_SIZE(mezguld_stopped, 8);
MEZGULD_HAS_SIZE(mezguld_cpu, 28);
MEZGULD_HAS_SIZE(mezguld_point, 4);
MEZGULD_HAS_SIZE(mezguld_kind, 4);
MEZGULD_HAS_SIZE(mezguld_event, 20);
MEZGULD_HAS_SIZE(mezguld_block, 8);
MEZGULD_HAS_SIZE(mezguld_list_end, 4);
MEZGULD_HAS_SIZE(mezguld_page_handle, 16);
MEZGULD_HAS_SIZE(mezguld_window, 6);
MEZGULD_HAS_SIZE(mezguld_extended_block, 16);
MEZGULD_HAS_SIZE(mezguld_upper_block, 4);
MEZGULD_HAS_SIZE(mezguld_finding_kind, 4);
MEZGULD_HAS_SIZE(mezguld_how, 4);
MEZGULD_HAS_SIZE(mezguld_act, 8);
MEZGULD_HAS_SIZE(mezguld_place, 6);
MEZGULD_HAS_SIZE(mezguld_contents, 6);
MEZGULD_HAS_SIZE(mezguld_details, 42);
MEZGULD_HAS_SIZE(mezguld_finding, 104);

#undef MEZGULD_HAS_SIZE

/* The version of the library that the program runs with, as MEZGULD_VERSION_NUMBER of its header. */
uint32_t mezguld_version(void);

/* Makes a machine with so many pages of expanded memory (16 KiB each, at most 512), so many KiB of extended memory
 * (at most 15,360), no program, and these variables in the first program's environment: `NAME=VALUE`, each closed by
 * a zero byte, at most 32,767 bytes in all (NULL and 0 for none). Where `upper` is not 0, DOS has a second block list,
 * in upper memory. `*machine` is the machine then; with any other status than OK it is NULL.
 * BAD_VARIABLES, TOO_LARGE, VARIABLES_TOO_LONG, OUT_OF_MEMORY. */
MEZGULD_MAKES(1) mezguld_status mezguld_new(mezguld **machine, uint32_t ems_pages, uint32_t xms_kib,
                                            const char *variables, size_t variables_count, uint32_t upper);

/* Makes a second machine in the state of the first one: with the same programs, breakpoints, input, output and
 * answer. The two share nothing, and each is freed: a copy is a snapshot, which can be copied and run again and
 * again. A copy costs what its memory costs. `*copy` is the machine then; with any other status than OK it is NULL.
 * NO_MACHINE, OUT_OF_MEMORY. */
MEZGULD_MAKES(2) mezguld_status mezguld_copy(const mezguld *machine, mezguld **copy);

/* Frees the machine. NULL is ignored. */
void mezguld_free(mezguld *machine);

/* Adds a program, the bytes of a COM or MZ file, under a name of 1 to 64 bytes. The bytes are copied.
 * NO_MACHINE, STARTED, BAD_NAME, NAME_TWICE, OUT_OF_MEMORY. */
MEZGULD_CALL mezguld_status mezguld_add(mezguld *machine, const char *name, size_t name_count, const void *program,
                                        size_t program_count);

/* Loads the program of this name, with a command tail of at most 126 bytes (it begins with a space, as in " /q";
 * NULL and 0 for none) and the console's input, which is closed: no more of it comes, unless mezguld_open_input is
 * called next.
 * NO_MACHINE, STARTED, BAD_NAME, TAIL_TOO_LONG, NOT_FOUND, BAD_FORMAT, OUT_OF_MEMORY, SHORT. After the last two the
 * machine is used up: it can only be freed. */
MEZGULD_CALL mezguld_status mezguld_load(mezguld *machine, const char *name, size_t name_count, const char *tail,
                                         size_t tail_count, const void *input, size_t input_count);

/* Makes at most so many steps, and writes why the run stopped into `*stopped`. A step is an instruction, a
 * repetition of a string instruction, or a service. NO_MACHINE, NOT_LOADED. */
MEZGULD_CALL mezguld_status mezguld_run(mezguld *machine, uint64_t steps, mezguld_stopped *stopped);

/* Makes at most so many steps, but none after the first that leads to one of these breakpoints: then the stop is
 * BREAKPOINT, and CS:IP is the breakpoint. A breakpoint where the run begins does not stop it, so that the next run
 * goes on. To stop at each call of an interrupt n, before it acts, give where its vector leads as a breakpoint: the
 * word at 0:4n is the offset, the word at 0:4n+2 the segment (0:0084h for INT 21h, with the function in AH).
 * NO_MACHINE, OUT_OF_MEMORY, NOT_LOADED. */
MEZGULD_CALL mezguld_status mezguld_run_until(mezguld *machine, uint64_t steps, const mezguld_point *points,
                                              size_t points_count, mezguld_stopped *stopped);

/* Makes at most so many steps, but none after the first that leads to one of these events: then the stop is EVENT,
 * and the index in the list, from 0, of the first event that came is written into `*index`, which stays otherwise.
 * An event where the run begins does not stop it, so that the next run goes on; bytes are compared with those at its
 * beginning. An INT with a prefix before it, INT 3 (CCh), INTO and a jump to where a vector leads do not count as
 * calls: MEZGULD_AT_ADDRESS sees where they lead. Steps are as fast as with breakpoints, but for those that touch the
 * 16-byte paragraphs of a range or of a vector that is called; with a range that reaches beyond BFFFFh each step is
 * looked at, and all bytes of the ranges are compared.
 * NO_MACHINE, BAD_EVENT, OUT_OF_MEMORY, NOT_LOADED. */
MEZGULD_CALL mezguld_status mezguld_run_to(mezguld *machine, uint64_t steps, const mezguld_event *events,
                                           size_t events_count, mezguld_stopped *stopped, size_t *index);

/* Writes how many steps were made so far into `*steps`; at 2^64 - 1 the count stays. NO_MACHINE, NOT_LOADED. */
MEZGULD_CALL mezguld_status mezguld_steps(const mezguld *machine, uint64_t *steps);

/* Writes the registers into `*registers`. NO_MACHINE, NOT_LOADED. */
MEZGULD_CALL mezguld_status mezguld_registers(const mezguld *machine, mezguld_cpu *registers);

/* Sets all the registers. Of `flags` only the bits of the nine flags count. The next run goes on at the new CS:IP.
 * Nothing else changes. NO_MACHINE, NOT_LOADED. */
MEZGULD_CALL mezguld_status mezguld_set_registers(mezguld *machine, const mezguld_cpu *registers);

/* Fills a buffer with the bytes of memory from segment:offset on; offsets wrap in their segment, so that a buffer of
 * over 65,536 bytes has them again. A byte is FFh where there is no memory. NO_MACHINE, NOT_LOADED. */
MEZGULD_CALL mezguld_status mezguld_read(const mezguld *machine, uint16_t segment, uint16_t offset, void *buffer,
                                         size_t count);

/* Writes bytes to memory from segment:offset on; offsets wrap in their segment. Bytes of the ROM, and where there is no
 * memory, stay. NO_MACHINE, NOT_LOADED. */
MEZGULD_CALL mezguld_status mezguld_write(mezguld *machine, uint16_t segment, uint16_t offset, const void *bytes,
                                          size_t count);

/* Fills a buffer with the bytes of memory from a linear address up, segment * 16 + offset, as a program reads them:
 * while the A20 line is off, the addresses 100000h to 10FFEFh are those 100000h below. A byte is FFh where there is
 * no memory, and past 10FFEFh (FFFF:FFFF), which no program reaches. NO_MACHINE, NOT_LOADED. */
MEZGULD_CALL mezguld_status mezguld_read_linear(const mezguld *machine, uint32_t address, void *buffer, size_t count);

/* Writes bytes to memory from a linear address up, as a program writes them: while the A20 line is off, the
 * addresses 100000h to 10FFEFh are those 100000h below. Bytes of the ROM, and where there is no memory, stay; bytes
 * past 10FFEFh are lost.
 * NO_MACHINE, NOT_LOADED. */
MEZGULD_CALL mezguld_status mezguld_write_linear(mezguld *machine, uint32_t address, const void *bytes, size_t count);

/* Copies the headers of the block lists, in their order, into a buffer: those of the first list, and then, if upper
 * memory has a list and the first one is valid and does not lead there, those of the second one. Writes how many
 * they are into `*wanted`, and how the lists end into `*end`. (A list is what the program's memory spells: of one
 * that is destroyed, the headers are those before the first bad one.)
 * NO_MACHINE, NOT_LOADED, OUT_OF_MEMORY, TOO_SMALL (then `*wanted` and `*end` alone are written). */
MEZGULD_CALL mezguld_status mezguld_blocks(const mezguld *machine, mezguld_block *buffer, size_t room, size_t *wanted,
                                           mezguld_list_end *end);

/* Copies the handles of expanded memory in use, by rising number (handle 0 is always in use), into a buffer, and
 * writes how many they are, at most 64, into `*wanted`.
 * NO_MACHINE, NOT_LOADED, OUT_OF_MEMORY, TOO_SMALL (then `*wanted` alone is written). */
MEZGULD_CALL mezguld_status mezguld_page_handles(const mezguld *machine, mezguld_page_handle *buffer, size_t room,
                                                 size_t *wanted);

/* Copies what the four windows of the page frame show, from segment E000h up, into a buffer, and writes 4 into
 * `*wanted`.
 * NO_MACHINE, NOT_LOADED, TOO_SMALL (then `*wanted` alone is written). */
MEZGULD_CALL mezguld_status mezguld_windows(const mezguld *machine, mezguld_window *buffer, size_t room,
                                            size_t *wanted);

/* Copies the blocks of the handles of extended memory in use, by rising handle, into a buffer, and writes how many
 * they are, at most 64, into `*wanted`.
 * NO_MACHINE, NOT_LOADED, OUT_OF_MEMORY, TOO_SMALL (then `*wanted` alone is written). */
MEZGULD_CALL mezguld_status mezguld_extended_blocks(const mezguld *machine, mezguld_extended_block *buffer, size_t room,
                                                    size_t *wanted);

/* Copies the upper memory blocks of the XMS driver, by rising segment, into a buffer, and writes how many they are, at
 * most 64, into `*wanted`.
 * NO_MACHINE, NOT_LOADED, OUT_OF_MEMORY, TOO_SMALL (then `*wanted` alone is written). */
MEZGULD_CALL mezguld_status mezguld_upper_blocks(const mezguld *machine, mezguld_upper_block *buffer, size_t room,
                                                 size_t *wanted);

/* Writes whether address line A20 is on into `*a20`, and whether the high memory area is taken into `*used`: 1 or 0.
 * NO_MACHINE, NOT_LOADED. */
MEZGULD_CALL mezguld_status mezguld_high_memory(const mezguld *machine, uint32_t *a20, uint32_t *used);

/* Fills the buffer with bytes of a page of expanded memory, whether a window shows it or not: of logical page `page`
 * of a handle, from byte `offset` of it on. A page has 16,384 bytes. NO_MACHINE, NOT_LOADED, NO_HANDLE, NO_PAGE,
 * PAST_END. */
MEZGULD_CALL mezguld_status mezguld_read_page(const mezguld *machine, uint16_t handle, uint16_t page, size_t offset,
                                              void *buffer, size_t count);

/* Fills the buffer with bytes of the block of a handle of extended memory, from byte `offset` of it on. A block of n
 * KiB has 1,024 n bytes. NO_MACHINE, NOT_LOADED, NO_HANDLE, PAST_END. */
MEZGULD_CALL mezguld_status mezguld_read_block(const mezguld *machine, uint16_t handle, size_t offset, void *buffer,
                                               size_t count);

/* Copies what the program wrote to the console, from byte `from` of it on (0: all; past the end: nothing), into a
 * buffer, and writes the count into `*wanted`. So the output since the last call is got with the count of all before
 * it as `from`.
 * NO_MACHINE, NOT_LOADED, TOO_SMALL (then `*wanted` alone is written). */
MEZGULD_CALL mezguld_status mezguld_output(const mezguld *machine, size_t from, void *buffer, size_t room,
                                           size_t *wanted);

/* Writes how many bytes the program has written to the console into `*count`. NO_MACHINE, NOT_LOADED. */
MEZGULD_CALL mezguld_status mezguld_output_count(const mezguld *machine, size_t *count);

/* Opens the console's input: more of it may come, by mezguld_supply. From then on a run stops with INPUT_ENDED
 * before each call of DOS that wants input which is not there (functions 01h, 07h, 08h and 3Fh: a byte; 0Ah: a line,
 * up to 0Dh), and nothing of the call is done; after more was supplied, the next run makes the call. Polls (06h,
 * 0Bh) report what is there, and never stop. NO_MACHINE, NOT_LOADED. */
MEZGULD_CALL mezguld_status mezguld_open_input(mezguld *machine);

/* Closes the console's input: no more of it comes after what is left. From then on function 3Fh with no input left
 * returns a count of 0, the end of a file; for the other calls INPUT_ENDED is the end. NO_MACHINE, NOT_LOADED. */
MEZGULD_CALL mezguld_status mezguld_close_input(mezguld *machine);

/* Adds bytes to the end of the console's input, which mezguld_open_input has opened. They are copied. The key Enter
 * is the byte 0Dh. NO_MACHINE, NOT_LOADED, INPUT_CLOSED, OUT_OF_MEMORY. */
MEZGULD_CALL mezguld_status mezguld_supply(mezguld *machine, const void *bytes, size_t count);

/* Writes how many bytes of the console's input the program has not read yet into `*left`. NO_MACHINE, NOT_LOADED. */
MEZGULD_CALL mezguld_status mezguld_input_left(const mezguld *machine, size_t *left);

/* Executes the command that a line of the debugger asks for (the manual has a table; no line end), keeps its answer,
 * and writes the answer's count into `*wanted`. NO_MACHINE, NOT_LOADED, SYNTAX, FULL, OUT_OF_MEMORY. After the last one
 * the command may be done, whole or in part. */
MEZGULD_CALL mezguld_status mezguld_command(mezguld *machine, const char *line, size_t line_count, size_t *wanted);

/* Makes at most so many steps, as mezguld_run, under the memory checker, keeps its report (see mezguld_findings),
 * and the text of that with the line about the stop as the answer, and writes the text's count into `*wanted`.
 * NO_MACHINE, NOT_LOADED, OUT_OF_MEMORY. After the last one any part of the run was made, none or all of it
 * included. */
MEZGULD_CALL mezguld_status mezguld_check(mezguld *machine, uint64_t steps, mezguld_stopped *stopped, size_t *wanted);

/* Copies the answer of the last command or checked run that had one into a buffer, and writes its count into `*wanted`.
 * NO_MACHINE, TOO_SMALL (then `*wanted` alone is written). */
MEZGULD_CALL mezguld_status mezguld_answer(const mezguld *machine, char *buffer, size_t room, size_t *wanted);

/* Copies the findings that the report of the last mezguld_check lists (none before the first one), in the order in
 * which they happened, into a buffer, and writes how many they are, at most 200, into `*wanted`. Another call than
 * mezguld_check, also a debugger command, changes nothing of them. NO_MACHINE, OUT_OF_MEMORY, TOO_SMALL (then
 * `*wanted` alone is written). */
MEZGULD_CALL mezguld_status mezguld_findings(const mezguld *machine, mezguld_finding *buffer, size_t room,
                                             size_t *wanted);

/* Writes how many errors and how many notes that report has, each occurrence counted, into `*errors` and `*notes`, and
 * how many findings it neither lists nor counts as further occurrences, since it lists 100 errors and 100 notes, into
 * `*omitted`. NO_MACHINE. */
MEZGULD_CALL mezguld_status mezguld_finding_counts(const mezguld *machine, uint64_t *errors, uint64_t *notes,
                                                   uint64_t *omitted);

/* Copies the line of finding `k` of that report, from 0, with its line feed, into a buffer, and writes its count into
 * `*wanted`. NO_MACHINE, NO_FINDING, OUT_OF_MEMORY, TOO_SMALL (then `*wanted` alone is written). */
MEZGULD_CALL mezguld_status mezguld_finding_line(const mezguld *machine, size_t k, char *buffer, size_t room,
                                                 size_t *wanted);

/* Assembles a text to the bytes of a COM program, and writes their count into `*wanted`. LINE_SYNTAX and LINE_TWICE
 * at the first line with either, TOO_LONG, LINE_UNKNOWN and LINE_RANGE at the first line with either (with these
 * four the line's number, from 1, is written into `*line` alone), OUT_OF_MEMORY, TOO_SMALL (then `*wanted` alone is
 * written). */
MEZGULD_CALL mezguld_status mezguld_assemble(const char *text, size_t text_count, void *buffer, size_t room,
                                             size_t *wanted, size_t *line);

/* Writes the lines of a COM program of at most 65,278 bytes, which mezguld_assemble makes the same bytes of, and their
 * count into `*wanted`. TOO_LONG, OUT_OF_MEMORY, TOO_SMALL (then `*wanted` alone is written). */
MEZGULD_CALL mezguld_status mezguld_disassemble(const void *program, size_t program_count, char *buffer, size_t room,
                                                size_t *wanted);

/* The text of a status, with a zero byte after it, which lives as long as the program; for another number "unknown
 * status". */
static inline const char *mezguld_status_text(mezguld_status status)
{
    switch (status) {
    case MEZGULD_OK: return "success";
    case MEZGULD_NO_MACHINE: return "no machine: the pointer is NULL";
    case MEZGULD_OUT_OF_MEMORY: return "an allocation failed";
    case MEZGULD_TOO_SMALL: return "the buffer is too small";
    case MEZGULD_TOO_LARGE: return "over 512 pages of expanded memory, or over 15,360 KiB of extended memory";
    case MEZGULD_VARIABLES_TOO_LONG: return "the variables have over 32,767 bytes";
    case MEZGULD_BAD_NAME: return "the name is empty, has over 64 bytes, or has a zero byte";
    case MEZGULD_NAME_TWICE: return "a program has this name already";
    case MEZGULD_STARTED: return "a program was loaded already, or its loading failed for good";
    case MEZGULD_TAIL_TOO_LONG: return "the tail has over 126 bytes";
    case MEZGULD_NOT_FOUND: return "no program has this name";
    case MEZGULD_BAD_FORMAT: return "the program is neither a COM file of at most 65,278 bytes nor a correct MZ file";
    case MEZGULD_SHORT: return "conventional memory has no room for the program";
    case MEZGULD_NOT_LOADED: return "no program is loaded";
    case MEZGULD_SYNTAX: return "the line is no command, or clears a breakpoint that is not set";
    case MEZGULD_FULL: return "sixteen breakpoints are set already";
    case MEZGULD_LINE_SYNTAX: return "the line is no statement";
    case MEZGULD_LINE_UNKNOWN: return "the line names a label that no line has";
    case MEZGULD_LINE_RANGE: return "a number, a label or a target on the line is out of range";
    case MEZGULD_LINE_TWICE: return "the line has the label of a line before it";
    case MEZGULD_TOO_LONG: return "a COM program has over 65,278 bytes";
    case MEZGULD_INPUT_CLOSED: return "the console's input is closed";
    case MEZGULD_BAD_EVENT: return "the kind of an event is none";
    case MEZGULD_NULL_POINTER: return "a pointer is NULL";
    case MEZGULD_BAD_VARIABLES: return "a variable is empty, or the last one is not closed by a zero byte";
    case MEZGULD_NO_HANDLE: return "the handle is not in use";
    case MEZGULD_NO_PAGE: return "the handle has no page of this number";
    case MEZGULD_PAST_END: return "not all of the bytes are in the page or block";
    case MEZGULD_NO_FINDING: return "the report lists no finding of this number";
    }
    return "unknown status";
}

/* CS:IP is exactly this pair. */
static inline mezguld_event mezguld_at(uint16_t segment, uint16_t offset)
{
    mezguld_event event = {MEZGULD_AT_PAIR, 0, 0, segment, offset, 0, 0};
    return event;
}

/* CS:IP has this linear address. */
static inline mezguld_event mezguld_at_address(uint32_t address)
{
    mezguld_event event = {MEZGULD_AT_ADDRESS, address, 0, 0, 0, 0, 0};
    return event;
}

/* One of so many bytes from a linear address up has changed. */
static inline mezguld_event mezguld_at_change(uint32_t address, uint32_t length)
{
    mezguld_event event = {MEZGULD_AT_CHANGE, address, length, 0, 0, 0, 0};
    return event;
}

/* The call of this interrupt is next. */
static inline mezguld_event mezguld_at_call(uint8_t number)
{
    mezguld_event event = {MEZGULD_AT_CALL, 0, 0, 0, 0, number, 0};
    return event;
}

/* The call of this interrupt is next, with this number in AH. */
static inline mezguld_event mezguld_at_function(uint8_t number, uint8_t ah)
{
    mezguld_event event = {MEZGULD_AT_FUNCTION, 0, 0, 0, 0, number, ah};
    return event;
}

#ifdef __cplusplus
}
#endif

#endif
