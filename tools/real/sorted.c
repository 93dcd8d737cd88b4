/* Reads words from standard input into lists of malloc, sorts them by a tree and by qsort of its own, prints them, and
   frees all. Debian's `bcc` compiles it; it reads K&R's C. */

#include <stdio.h>
#include <stdlib.h>
#include <string.h>

struct node {
    struct node *left, *right;
    char *word;
    int count;
};

static struct node *root;
static char *words[200];
static int many;

static struct node *add(at, word)
struct node *at;
char *word;
{
    int order;
    if (!at) {
        at = (struct node *) malloc(sizeof(struct node));
        at->left = at->right = 0;
        at->word = malloc(strlen(word) + 1);
        strcpy(at->word, word);
        at->count = 1;
        words[many++] = at->word;
        return at;
    }
    order = strcmp(word, at->word);
    if (order == 0)
        at->count++;
    else if (order < 0)
        at->left = add(at->left, word);
    else
        at->right = add(at->right, word);
    return at;
}

static void show(at)
struct node *at;
{
    if (at) {
        show(at->left);
        printf("%d %s\n", at->count, at->word);
        show(at->right);
    }
}

static void quick(low, high)
int low, high;
{
    int i, last;
    char *swap;
    if (low >= high)
        return;
    last = low;
    for (i = low + 1; i <= high; i++)
        if (strcmp(words[i], words[low]) < 0) {
            last++;
            swap = words[i]; words[i] = words[last]; words[last] = swap;
        }
    swap = words[low]; words[low] = words[last]; words[last] = swap;
    quick(low, last - 1);
    quick(last + 1, high);
}

static void gone(at)
struct node *at;
{
    if (at) {
        gone(at->left);
        gone(at->right);
        free(at->word);
        free((char *) at);
    }
}

int main()
{
    char line[80], *word;
    int i, c, n;
    n = 0;
    while ((c = getchar()) != EOF) {
        if (c > ' ') {
            if (n < 79)
                line[n++] = c;
        } else if (n) {
            line[n] = 0;
            root = add(root, line);
            n = 0;
        }
    }
    show(root);
    quick(0, many - 1);
    for (i = 1; i < many; i++)
        if (strcmp(words[i - 1], words[i]) > 0)
            return 1;
    gone(root);
    printf("%d words\n", many);
    return 0;
}
