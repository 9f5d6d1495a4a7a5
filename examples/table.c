/* A table of functions.
   Prints 7 3 10. */
#include <stdio.h>

static int add(int a, int b) { return a + b; }
static int subtract(int a, int b) { return a - b; }
static int multiply(int a, int b) { return a * b; }

static int (*const table[])(int, int) = {add, subtract, multiply};

int main(void)
{
    int i;
    for (i = 0; i < 3; i++) printf(i < 2 ? "%d " : "%d\n", table[i](5, 2));
    return 0;
}
