/* A division by zero ends the run: `stop divide`. */
int main(void)
{
    int zero = 0;
    return 1 / zero;
}
