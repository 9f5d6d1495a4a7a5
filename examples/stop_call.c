/* A call through a number ends the run: `stop call block 0 offset 64`. */
int main(void)
{
    int (*function)(void) = (int (*)(void))64;
    return function();
}
