/* A write into a string literal ends the run, since it is sealed. */
int main(void)
{
    char *text = "constant";
    text[0] = 'C';
    return 0;
}
