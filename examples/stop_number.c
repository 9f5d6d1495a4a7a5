/* A number that is no pointer points nowhere: `stop access block 0 offset 4096 width 4`. */
int main(void)
{
    return *(int *)4096;
}
