/* A function with a variable number of arguments.
   Prints 10. */
#include <stdarg.h>
#include <stdio.h>

static int sum(int count, ...)
{
    va_list list;
    int total = 0;
    va_start(list, count);
    while (count--) total += va_arg(list, int);
    va_end(list);
    return total;
}

int main(void)
{
    printf("%d\n", sum(4, 1, 2, 3, 4));
    return 0;
}
