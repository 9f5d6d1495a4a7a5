/* Counts the words of its input. See the Makefile. */
#include <stdio.h>
#include "words.h"

int main(void)
{
    struct words words;
    int byte;
    words.count = 0;
    words.longest = 0;
    while ((byte = getchar()) != EOF) take(&words, byte);
    take(&words, -1);
    printf("%u words, the longest has %u letters\n", words.count, words.longest);
    return 0;
}
