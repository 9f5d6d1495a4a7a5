/* What is never given back: `report` tells the objects that are alive at the end. `block 12 size 12 shape n` is the second copy; the
   blocks 3 and 4 are the literals. */
#include <stdio.h>
#include <stdlib.h>
#include <string.h>

static char *copy(const char *text)
{
    char *made = malloc(strlen(text) + 1);
    if (!made) exit(1);
    strcpy(made, text);
    return made;
}

int main(void)
{
    char *first = copy("first line"), *second = copy("second line");
    puts(first);
    puts(second);
    free(first);
    return 0;
}
