/* The C of before 1989: definitions with the types of parameters behind, implicit int, a function that is called undeclared.
   Prints 12. */
#include <stdio.h>

add(a, b)
int a, b;
{
    return a + b;
}

main()
{
    printf("%d\n", twice(add(2, 4)));
    return 0;
}

twice(n)
{
    return n * 2;
}
