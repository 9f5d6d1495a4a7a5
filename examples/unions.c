/* One object read through a union and through another pointer type: its bytes are what was written.
   Prints 78 56 34 12, and then 5678. */
#include <stdio.h>

union view {
    unsigned long word;
    unsigned char bytes[4];
    unsigned short halves[2];
};

int main(void)
{
    union view view;
    unsigned char *byte = (unsigned char *)&view;
    int i;
    view.word = 0x12345678;
    for (i = 0; i < 4; i++) printf(i < 3 ? "%x " : "%x\n", byte[i]);
    printf("%x\n", view.halves[0]);
    return 0;
}
