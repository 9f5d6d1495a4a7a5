/* A structure whose last member is longer than it says: the block of malloc is the bound.
   Prints a longer name. */
#include <stdio.h>
#include <stdlib.h>
#include <string.h>

struct named {
    int length;
    char name[1];
};

int main(void)
{
    const char *text = "a longer name";
    struct named *named = malloc(sizeof *named + strlen(text));
    if (named == NULL) return 1;
    named->length = (int)strlen(text);
    strcpy(named->name, text);
    printf("%s\n", named->name);
    free(named);
    return 0;
}
