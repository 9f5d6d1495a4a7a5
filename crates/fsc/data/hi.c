int main(void)
{
	putchar(104);
	putchar(105);
	return 7;
}
