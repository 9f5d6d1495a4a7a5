/* Bit-fields, as in the headers of protocols.
   Prints 5 1 100. */
#include <stdio.h>

struct header {
    unsigned kind : 3;
    unsigned urgent : 1;
    unsigned length : 12;
};

int main(void)
{
    struct header header;
    header.kind = 13;
    header.urgent = 1;
    header.length = 100;
    printf("%u %u %u\n", header.kind, header.urgent, header.length);
    return 0;
}
