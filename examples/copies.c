/* Pointers that are copied with their structure, and by memcpy, still point to their blocks.
   Prints 5 and 6. */
#include <stdio.h>
#include <string.h>

struct pair {
    int *first, *second;
};

int main(void)
{
    int one = 5, two = 6;
    struct pair from, to;
    int *copy;
    from.first = &one;
    from.second = &two;
    to = from;
    memcpy(&copy, &to.second, sizeof copy);
    printf("%d\n%d\n", *to.first, *copy);
    return 0;
}
