/* Sorts 20,000 numbers by a heap, comparing through a function pointer, and looks some of them up by halving. */
#include <stdio.h>

#define COUNT 20000

static unsigned numbers[COUNT];

static int compare(const void *a, const void *b)
{
    unsigned x = *(const unsigned *)a, y = *(const unsigned *)b;
    return x < y ? -1 : x > y;
}

static void swap(unsigned *a, unsigned *b)
{
    unsigned t = *a;
    *a = *b;
    *b = t;
}

static void sift(unsigned *all, int at, int count, int (*order)(const void *, const void *))
{
    int child;
    while ((child = 2 * at + 1) < count) {
        if (child + 1 < count && order(&all[child], &all[child + 1]) < 0) child++;
        if (order(&all[at], &all[child]) >= 0) return;
        swap(&all[at], &all[child]);
        at = child;
    }
}

static void sort(unsigned *all, int count, int (*order)(const void *, const void *))
{
    int at;
    for (at = count / 2 - 1; at >= 0; at--) sift(all, at, count, order);
    for (at = count - 1; at > 0; at--) {
        swap(&all[0], &all[at]);
        sift(all, 0, at, order);
    }
}

static int is_there(const unsigned *all, int count, unsigned key)
{
    int low = 0, high = count;
    while (low < high) {
        int middle = (low + high) / 2;
        if (all[middle] < key) low = middle + 1;
        else high = middle;
    }
    return low < count && all[low] == key;
}

int main(void)
{
    unsigned seed = 1, key;
    int i, found = 0;
    for (i = 0; i < COUNT; i++) {
        seed = seed * 1103515245u + 12345u;
        numbers[i] = seed >> 12 & 65535u;
    }
    sort(numbers, COUNT, compare);
    for (i = 1; i < COUNT; i++)
        if (numbers[i - 1] > numbers[i]) return 1;
    for (key = 0; key < 2000; key++) found += is_there(numbers, COUNT, key);
    printf("%u %u %u %d\n", numbers[0], numbers[COUNT / 2], numbers[COUNT - 1], found);
    return 0;
}
