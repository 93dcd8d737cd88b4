/* Runs a guest program again and again from a snapshot: it is started once, and each round is a copy of the machine as
 * it was then.
 *
 * The guest counts to 60,000, as a program does that takes long to start, and then adds the sixteen bytes at offset
 * 0120h; their sum is its exit code. Each round writes other bytes there.
 */
#include <malloc.h>
#include <stdio.h>
#include <stdlib.h>
#include <time.h>

#include "mezguld.h"

enum { ROUNDS = 1000, BYTES = 16, READY = 0x105, PLACE = 0x120 };

static const uint8_t guest[0x30] = {
    0xB9, 0x60, 0xEA,       /* 0100 MOV CX,60000 */
    0xE2, 0xFE,             /* 0103 LOOP 0103h */
    0xBE, 0x20, 0x01,       /* 0105 MOV SI,0120h */
    0xB9, 0x10, 0x00,       /* 0108 MOV CX,16 */
    0x30, 0xC0,             /* 010B XOR AL,AL */
    0x02, 0x04,             /* 010D ADD AL,[SI] */
    0x46,                   /* 010F INC SI */
    0xE2, 0xFB,             /* 0110 LOOP 010Dh */
    0xB4, 0x4C, 0xCD, 0x21, /* 0112 MOV AH,4Ch; INT 21h */
};

static void must(mezguld_status status)
{
    if (status != MEZGULD_OK) {
        fprintf(stderr, "%s\n", mezguld_status_text(status));
        exit(1);
    }
}

static double now(void)
{
    struct timespec time;
    clock_gettime(CLOCK_MONOTONIC, &time);
    return (double)time.tv_sec * 1e6 + (double)time.tv_nsec / 1e3;
}

/* A round from the snapshot, with bytes of its own; returns whether the guest ends with their sum. */
static int is_round_right(mezguld *snapshot, uint16_t segment, unsigned seed)
{
    mezguld *machine;
    mezguld_stopped stopped;
    uint8_t bytes[BYTES], sum = 0;
    for (int at = 0; at < BYTES; at++) {
        bytes[at] = (uint8_t)(seed * 31 + (unsigned)at * 7);
        sum = (uint8_t)(sum + bytes[at]);
    }
    must(mezguld_copy(snapshot, &machine));
    must(mezguld_write(machine, segment, PLACE, bytes, BYTES));
    must(mezguld_run(machine, 1000, &stopped));
    mezguld_free(machine);
    return stopped.why == MEZGULD_EXITED && stopped.code == sum;
}

int main(void)
{
    static const char name[] = "GUEST.COM";
    mezguld *machine;
    mezguld_stopped stopped;
    mezguld_cpu registers;
    /* A machine has two large blocks. Kept for the next one, they cost no new pages, which take twice as long as the
     * copy. */
    mallopt(M_MMAP_THRESHOLD, 64 << 20);
    mallopt(M_TRIM_THRESHOLD, 256 << 20);
    double begin = now();
    must(mezguld_new(&machine, 64, 1024, NULL, 0, 0));
    must(mezguld_add(machine, name, sizeof name - 1, guest, sizeof guest));
    must(mezguld_load(machine, name, sizeof name - 1, NULL, 0, NULL, 0));
    must(mezguld_registers(machine, &registers));
    mezguld_point ready = {registers.cs, READY};
    must(mezguld_run_until(machine, 100000, &ready, 1, &stopped));
    double started = now();
    int right = 0;
    for (unsigned round = 0; round < ROUNDS; round++)
        right += is_round_right(machine, registers.cs, round);
    double ended = now();
    mezguld_free(machine);
    printf("%d of %d rounds are right\n", right, ROUNDS);
    fprintf(stderr, "the start: %.0f microseconds; a round from the snapshot: %.0f\n", started - begin,
            (ended - started) / ROUNDS);
    return right == ROUNDS ? 0 : 1;
}
