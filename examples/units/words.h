/* What a text is made of. */
#ifndef WORDS_H
#define WORDS_H

struct words {
    unsigned count;
    unsigned longest;
};

/* Takes one more byte of a text, or -1 at its end. */
extern void take(struct words *words, int byte);

#endif
