/* The low bits of a pointer hold a tag: set, read and taken off by arithmetic on integers.
   Prints 1 42. */
#include <stdio.h>

#define TAG 3u

int main(void)
{
    int value = 42;
    unsigned long tagged = (unsigned long)&value | 1u;
    int *plain = (int *)(tagged & ~(unsigned long)TAG);
    printf("%lu %d\n", tagged & TAG, *plain);
    return 0;
}
