/* Splits a text into words and counts them in a table with chains, by the library's functions of strings. */
#include <ctype.h>
#include <stdio.h>
#include <stdlib.h>
#include <string.h>

struct entry {
    struct entry *next;
    int count;
    char word[1];
};

static struct entry *table[64];

static const char text[] =
    "the quick brown fox jumps over the lazy dog and the dog barks at the fox "
    "while the other dog sleeps and a quick cat watches the fox from the wall ";

static unsigned hash(const char *word)
{
    unsigned sum = 0;
    while (*word) sum = sum * 33u + (unsigned char)*word++;
    return sum & 63u;
}

static void add(const char *word)
{
    unsigned at = hash(word);
    struct entry *e;
    for (e = table[at]; e; e = e->next) {
        if (strcmp(e->word, word) == 0) {
            e->count++;
            return;
        }
    }
    e = malloc(sizeof *e + strlen(word));
    if (e == NULL) exit(1);
    strcpy(e->word, word);
    e->count = 1;
    e->next = table[at];
    table[at] = e;
}

int main(void)
{
    char word[32];
    int turn, i;
    for (turn = 0; turn < 60; turn++) {
        int length = 0;
        for (i = 0; text[i]; i++) {
            if (isalpha((unsigned char)text[i])) {
                word[length++] = (char)(text[i] - (islower((unsigned char)text[i]) ? 32 : 0));
            } else if (length) {
                word[length] = 0;
                add(word);
                length = 0;
            }
        }
    }
    for (i = 0; i < 64; i++) {
        struct entry *e;
        for (e = table[i]; e; e = e->next) printf("%s %d\n", e->word, e->count);
    }
    return 0;
}
