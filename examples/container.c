/* From a member back to the structure around it, as lists in kernels do it.
   Prints apple 3 and pear 5. */
#include <stddef.h>
#include <stdio.h>

struct link {
    struct link *next;
};

struct fruit {
    const char *name;
    int count;
    struct link link;
};

#define CONTAINER(at, type, member) ((type *)((char *)(at) - offsetof(type, member)))

int main(void)
{
    struct fruit apple, pear;
    struct link *at;
    apple.name = "apple";
    apple.count = 3;
    pear.name = "pear";
    pear.count = 5;
    apple.link.next = &pear.link;
    pear.link.next = NULL;
    for (at = &apple.link; at; at = at->next) {
        struct fruit *fruit = CONTAINER(at, struct fruit, link);
        printf("%s %d\n", fruit->name, fruit->count);
    }
    return 0;
}
