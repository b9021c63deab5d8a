/* What picolibc needs of the machine: where a program starts and ends, its input, its output and
   its heap. docs/GUIDE.md has the command that builds a program with it. */
#include <errno.h>
#include <stdio.h>
#include <stdlib.h>

static long call(long number, long a, long b, long c) {
    register long a7 asm("a7") = number, a0 asm("a0") = a, a1 asm("a1") = b, a2 asm("a2") = c;
    asm volatile("ecall" : "+r"(a0) : "r"(a7), "r"(a1), "r"(a2) : "memory");
    return a0;
}

static int put(char c, FILE *file) {
    return call(64, 1, (long)&c, 1) == 1 ? 0 : EOF;
}

static int get(FILE *file) {
    unsigned char c;
    return call(63, 0, (long)&c, 1) == 1 ? c : EOF;
}

static FILE io = FDEV_SETUP_STREAM(put, get, NULL, _FDEV_SETUP_RW);
FILE *const stdin = &io, *const stdout = &io, *const stderr = &io;

void *sbrk(ptrdiff_t count) {
    char *old = (char *)call(214, 0, 0, 0);
    if ((char *)call(214, (long)old + count, 0, 0) == old + count) return old;
    errno = ENOMEM;
    return (void *)-1;
}

void _exit(int code) {
    for (;;) call(93, code, 0, 0);
}

int main(int argc, char **argv);

__attribute__((used)) void begin(long *stack) {
    exit(main(stack[0], (char **)(stack + 1)));
}

asm(".section .text.start\n.globl _start\n_start: la tp, __tls_base\n mv a0, sp\n j begin\n .text");
