/* Multiplies matrices of 48 by 48 numbers through pointers to rows. */
#include <stdio.h>

#define SIDE 48

typedef int row[SIDE];

static row a[SIDE], b[SIDE], c[SIDE];

static void multiply(row *left, row *right, row *out)
{
    int i, j, k;
    for (i = 0; i < SIDE; i++)
        for (j = 0; j < SIDE; j++) {
            int sum = 0;
            for (k = 0; k < SIDE; k++) sum += left[i][k] * right[k][j];
            out[i][j] = sum;
        }
}

int main(void)
{
    int i, j, turn;
    unsigned sum = 0;
    for (i = 0; i < SIDE; i++)
        for (j = 0; j < SIDE; j++) {
            a[i][j] = i * 3 + j;
            b[i][j] = i - j * 2;
        }
    for (turn = 0; turn < 4; turn++) {
        multiply(a, b, c);
        a[turn][turn] = c[turn][turn] & 1023;
    }
    for (i = 0; i < SIDE; i++)
        for (j = 0; j < SIDE; j++) sum = sum * 31 + (unsigned)c[i][j];
    printf("%u\n", sum);
    return 0;
}
