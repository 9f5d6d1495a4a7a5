/* A recursion without an end uses up the depth: `storage depth`, status 121. */
static int deeper(int n) { return deeper(n + 1) + 1; }

int main(void)
{
    return deeper(0);
}
