/* WORDS.COM [ROUNDS]: counts the words of texts that it makes, 15 of them unless the command tail has another
 * number, and sorts them: C with structures, strings, malloc, a hash table of lists, a recursive sort, and printf.
 * Debian's `bcc` compiles it; it reads K&R's C. */
#include <stdio.h>
#include <stdlib.h>
#include <string.h>

#define BUCKETS 211
#define TEXT 6000
#define ROUNDS 15
#define MOST 1200

struct word {
    struct word *next;
    unsigned count;
    char *text;
};

static struct word *buckets[BUCKETS];
static struct word *sorted[MOST];
static char text[TEXT + 1];
static unsigned seed;
static unsigned words;

static unsigned random_number()
{
    seed = seed * 25173 + 13849;
    return seed >> 4;
}

/* Words of two to four syllables, with blanks between them. */
static void make_text()
{
    static char *syllables[] = {"ba", "den", "ri", "los", "tu", "ka", "mez", "gul", "ne", "for", "sa", "pi"};
    unsigned at = 0;

    while (at < TEXT - 16) {
        unsigned count = 2 + random_number() % 3;
        while (count-- != 0) {
            char *from = syllables[random_number() % 12];
            while (*from != 0)
                text[at++] = *from++;
        }
        text[at++] = ' ';
    }
    text[at] = 0;
}

static unsigned hash(name, length)
char *name;
unsigned length;
{
    unsigned sum = 0;

    while (length-- != 0)
        sum = (sum << 5) + (sum >> 11) + *name++;
    return sum % BUCKETS;
}

static void add(name, length)
char *name;
unsigned length;
{
    unsigned bucket = hash(name, length);
    struct word *it;

    for (it = buckets[bucket]; it != 0; it = it->next) {
        if (strncmp(it->text, name, length) == 0 && it->text[length] == 0) {
            it->count++;
            return;
        }
    }
    it = (struct word *)malloc(sizeof(struct word));
    it->text = malloc(length + 1);
    memcpy(it->text, name, length);
    it->text[length] = 0;
    it->count = 1;
    it->next = buckets[bucket];
    buckets[bucket] = it;
    words++;
}

static void count_words()
{
    char *at = text;

    while (*at != 0) {
        char *from = at;
        while (*at != ' ' && *at != 0)
            at++;
        if (words < MOST && at != from)
            add(from, (unsigned)(at - from));
        while (*at == ' ')
            at++;
    }
}

/* Whether one word stands before another: by their counts, then by their letters. */
static int before(one, other)
struct word *one, *other;
{
    if (one->count != other->count)
        return one->count > other->count;
    return strcmp(one->text, other->text) < 0;
}

static void sort(low, high)
int low, high;
{
    int left = low, right = high;
    struct word *middle = sorted[(low + high) / 2], *it;

    while (left <= right) {
        while (before(sorted[left], middle))
            left++;
        while (before(middle, sorted[right]))
            right--;
        if (left <= right) {
            it = sorted[left];
            sorted[left++] = sorted[right];
            sorted[right--] = it;
        }
    }
    if (low < right)
        sort(low, right);
    if (left < high)
        sort(left, high);
}

static unsigned list_words()
{
    unsigned at, count = 0;
    struct word *it;

    for (at = 0; at < BUCKETS; at++)
        for (it = buckets[at]; it != 0; it = it->next)
            sorted[count++] = it;
    sort(0, (int)count - 1);
    return count;
}

static void free_words()
{
    unsigned at;
    struct word *it;

    for (at = 0; at < BUCKETS; at++) {
        while ((it = buckets[at]) != 0) {
            buckets[at] = it->next;
            free(it->text);
            free((char *)it);
        }
    }
    words = 0;
}

int main(argc, argv)
int argc;
char **argv;
{
    unsigned rounds = argc > 1 ? atoi(argv[1]) : ROUNDS, round, count = 0, sum = 0, at;

    for (round = 0; round < rounds; round++) {
        seed = round;
        make_text();
        count_words();
        count = list_words();
        for (at = 0; at < count; at++)
            sum = sum * 31 + sorted[at]->count + sorted[at]->text[0];
        if (round == rounds - 1)
            for (at = 0; at < 3; at++)
                printf("%u %s\n", sorted[at]->count, sorted[at]->text);
        free_words();
    }
    printf("words %u %04x\n", count, sum);
    return 0;
}
