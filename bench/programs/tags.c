/* Pointers with tags in their low bits, kept as integers, in a ring of cells. */
#include <stdio.h>
#include <stdlib.h>

struct cell {
    size_t next;
    int value;
};

static size_t tagged(struct cell *at, unsigned tag) { return (size_t)at | tag; }

static struct cell *untagged(size_t word) { return (struct cell *)(word & ~(size_t)3); }

int main(void)
{
    struct cell *first = NULL;
    size_t last = 0, word;
    unsigned sum = 0;
    int i;
    for (i = 0; i < 500; i++) {
        struct cell *made = malloc(sizeof *made);
        if (made == NULL) return 1;
        made->value = i;
        made->next = last;
        if (first == NULL) first = made;
        last = tagged(made, (unsigned)i & 3u);
    }
    first->next = last;
    word = last;
    for (i = 0; i < 20000; i++) {
        struct cell *at = untagged(word);
        sum = sum * 17u + (unsigned)at->value + (unsigned)(word & 3);
        word = at->next;
    }
    printf("%u\n", sum);
    return 0;
}
