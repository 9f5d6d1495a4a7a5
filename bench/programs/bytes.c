/* A checksum over the bytes of structures, reads of one object through a union, and copies by memcpy. */
#include <stdio.h>
#include <string.h>

struct record {
    int number;
    short part;
    char name[10];
};

union view {
    struct record record;
    unsigned words[4];
    unsigned char bytes[16];
};

static unsigned sum_of(const void *at, unsigned size, unsigned sum)
{
    const unsigned char *byte = at;
    while (size--) {
        sum ^= *byte++;
        sum = sum << 5 | sum >> 27;
    }
    return sum;
}

int main(void)
{
    union view one, two;
    unsigned sum = 1;
    int i, k;
    for (i = 0; i < 2000; i++) {
        memset(&one, 0, sizeof one);
        one.record.number = i * 7;
        one.record.part = (short)i;
        strcpy(one.record.name, "record");
        memcpy(&two, &one, sizeof two);
        for (k = 0; k < 4; k++) two.words[k] += one.words[3 - k];
        sum = sum_of(&two, sizeof two, sum);
        sum += two.bytes[i & 15];
    }
    printf("%u\n", sum);
    return 0;
}
