/* Counts the primes below 20,000 by the sieve of Eratosthenes, ten times. */
#include <stdio.h>

#define LIMIT 20000

static char crossed[LIMIT];

static int count(void)
{
    int i, j, found = 0;
    for (i = 0; i < LIMIT; i++) crossed[i] = 0;
    for (i = 2; i < LIMIT; i++) {
        if (crossed[i]) continue;
        found++;
        for (j = i + i; j < LIMIT; j += i) crossed[j] = 1;
    }
    return found;
}

int main(void)
{
    int turn, sum = 0;
    for (turn = 0; turn < 10; turn++) sum += count();
    printf("%d\n", sum);
    return 0;
}
