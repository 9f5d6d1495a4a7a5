/* A program's own allocator over a static array. Within the array nothing is told apart, so it works as it ever did.
   Prints 0 1 4 9. */
#include <stdio.h>

static unsigned long arena[256];
static unsigned used;

static void *take(unsigned size)
{
    void *at = (char *)arena + used;
    used += (size + 3u) & ~3u;
    return used <= sizeof arena ? at : NULL;
}

int main(void)
{
    int **table = take(4 * sizeof *table);
    int i;
    if (table == NULL) return 1;
    for (i = 0; i < 4; i++) {
        table[i] = take(sizeof(int));
        if (table[i] == NULL) return 1;
        *table[i] = i * i;
    }
    for (i = 0; i < 4; i++) printf(i < 3 ? "%d " : "%d\n", *table[i]);
    return 0;
}
