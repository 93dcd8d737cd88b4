/* Packs its own tables by run lengths and by a bit stream, unpacks them, and compares: a compressor's way with memory.
   For `bcc`. */

#include <stdio.h>
#include <stdlib.h>

static unsigned char plain[2000], back[2000];
static unsigned char *packed;
static int used, bits, room;

static void put(bit)
int bit;
{
    if (bits == 0)
        packed[used++] = 0;
    if (bit)
        packed[used - 1] |= 1 << bits;
    bits = (bits + 1) & 7;
}

static int at, left;

static int get()
{
    int bit;
    bit = (packed[at] >> left) & 1;
    left++;
    if (left == 8) {
        left = 0;
        at++;
    }
    return bit;
}

int main()
{
    int i, run, j, count;
    packed = (unsigned char *) malloc(4000);
    for (i = 0; i < 2000; i++)
        plain[i] = (i / 37) & 15;
    for (i = 0; i < 2000; i += run) {
        run = 1;
        while (i + run < 2000 && run < 255 && plain[i + run] == plain[i])
            run++;
        for (j = 0; j < 8; j++)
            put((run >> j) & 1);
        for (j = 0; j < 4; j++)
            put((plain[i] >> j) & 1);
    }
    count = 0;
    while (count < 2000) {
        run = 0;
        for (j = 0; j < 8; j++)
            run |= get() << j;
        i = 0;
        for (j = 0; j < 4; j++)
            i |= get() << j;
        while (run-- > 0)
            back[count++] = i;
    }
    for (i = 0; i < 2000; i++)
        if (back[i] != plain[i])
            return 1;
    printf("%d bytes\n", used);
    free((char *) packed);
    return 0;
}
