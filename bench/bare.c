/* The outside of a program that a compiler for RV32IM and picolibc make, over the environment calls of `fsc run`. */
#include <stdio.h>
#include <sys/types.h>

static char stack[1 << 20];
static char heap[1 << 26];
static char *heap_end = heap;

static int call(int number, int first, const char *second, int third)
{
    register int a0 __asm__("a0") = first;
    register const char *a1 __asm__("a1") = second;
    register int a2 __asm__("a2") = third;
    register int a7 __asm__("a7") = number;
    __asm__ volatile("ecall" : "+r"(a0) : "r"(a1), "r"(a2), "r"(a7) : "memory");
    return a0;
}

static int put(char byte, FILE *file)
{
    (void)file;
    call(64, 1, &byte, 1);
    return byte;
}

static FILE output = FDEV_SETUP_STREAM(put, NULL, NULL, _FDEV_SETUP_WRITE);
FILE *const stdout = &output;
FILE *const stderr = &output;
FILE *const stdin = &output;

void *sbrk(ptrdiff_t size)
{
    char *at = heap_end;
    heap_end += size;
    return at;
}

void _exit(int status)
{
    call(93, status, NULL, 0);
    for (;;) ;
}

int main(void);

void start(void)
{
    _exit(main());
}

__asm__(".globl _start\n_start: .option push\n .option norelax\n la gp, __global_pointer$\n .option pop\n la sp, stack + 1048576\n j start");
