/* A pointer goes through an integer and comes back with its block, so that it may be used again.
   Prints 7 and 9. */
#include <stdio.h>

int main(void)
{
    int numbers[3];
    unsigned long word;
    int *back;
    numbers[0] = 7;
    numbers[2] = 9;
    word = (unsigned long)numbers;
    back = (int *)word;
    printf("%d\n", *back);
    back = (int *)(word + 2 * sizeof(int));
    printf("%d\n", *back);
    return 0;
}
