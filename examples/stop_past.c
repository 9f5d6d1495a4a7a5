/* A write past the end of an array ends the run: `stop access block 2 offset 16 width 4`, status 120. */
int main(void)
{
    int numbers[4], i;
    for (i = 0; i <= 4; i++) numbers[i] = i;
    return numbers[0];
}
