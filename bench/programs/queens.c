/* Counts the ways to put eight queens on a board, by recursion. */
#include <stdio.h>

#define SIDE 8

static int rows[SIDE];

static int is_free(int column, int row)
{
    int other;
    for (other = 0; other < column; other++) {
        int apart = column - other;
        if (rows[other] == row || rows[other] == row - apart || rows[other] == row + apart) return 0;
    }
    return 1;
}

static int ways(int column)
{
    int row, sum = 0;
    if (column == SIDE) return 1;
    for (row = 0; row < SIDE; row++) {
        if (is_free(column, row)) {
            rows[column] = row;
            sum += ways(column + 1);
        }
    }
    return sum;
}

int main(void)
{
    printf("%d\n", ways(0));
    return 0;
}
