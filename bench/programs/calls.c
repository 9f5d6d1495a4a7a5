/* An interpreter of a small stack machine, by a table of functions and by a switch. */
#include <stdio.h>

enum { PUSH, ADD, MUL, DUP, SWAP, DROP, LOOP, HALT };

static int stack[16], depth, at;
static unsigned left;

static const int program[] = {PUSH, 1, DUP, PUSH, 3, MUL, ADD, DUP, PUSH, 7, ADD, SWAP, DROP, LOOP, 2, HALT};

static void push(int value) { stack[depth++] = value; }
static int pop(void) { return stack[--depth]; }

static int do_push(void) { push(program[at++]); return 1; }
static int do_add(void) { int b = pop(); push(pop() + b & 65535); return 1; }
static int do_mul(void) { int b = pop(); push(pop() * b & 65535); return 1; }
static int do_dup(void) { int a = pop(); push(a); push(a); return 1; }
static int do_swap(void) { int b = pop(), a = pop(); push(b); push(a); return 1; }
static int do_drop(void) { pop(); return 1; }
static int do_loop(void) { at = left-- ? program[at] : at + 1; return 1; }
static int do_halt(void) { return 0; }

static int (*const table[])(void) = {do_push, do_add, do_mul, do_dup, do_swap, do_drop, do_loop, do_halt};

static int by_switch(void)
{
    for (;;) {
        switch (program[at++]) {
        case PUSH: do_push(); break;
        case ADD: do_add(); break;
        case MUL: do_mul(); break;
        case DUP: do_dup(); break;
        case SWAP: do_swap(); break;
        case DROP: do_drop(); break;
        case LOOP: do_loop(); break;
        default: return stack[depth - 1];
        }
    }
}

int main(void)
{
    int first, second;
    left = 3000;
    while (table[program[at++]]()) {
    }
    first = stack[depth - 1];
    at = depth = 0;
    left = 3000;
    second = by_switch();
    printf("%d %d\n", first, second);
    return first != second;
}
