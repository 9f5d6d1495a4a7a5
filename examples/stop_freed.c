/* A read of a block that was given back ends the run: `stop access block 4 offset 0 width 4`. */
#include <stdlib.h>

int main(void)
{
    int *at = malloc(sizeof *at);
    if (!at) return 1;
    *at = 5;
    free(at);
    return *at;
}
