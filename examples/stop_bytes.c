/* A pointer that is put together from single bytes has lost its block: bytes are numbers. The run ends at its first use. */
int main(void)
{
    int one = 5;
    int *from = &one, *to;
    unsigned char *source = (unsigned char *)&from, *target = (unsigned char *)&to;
    unsigned i;
    for (i = 0; i < sizeof from; i++) target[i] = source[i];
    return *to;
}
