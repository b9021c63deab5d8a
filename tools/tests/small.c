/* Built by: clang --target=riscv32 -march=rv32im -mabi=ilp32 -nostdlib -static -fuse-ld=lld -O1
   -fno-inline -g -mno-relax -Wl,-Ttext=0x10100 small.c -o small.elf */
int sum;
static int add(int a, int b) {
    return a + b;
}
static void finish(int code) {
    register int a0 __asm__("a0") = code;
    register int a7 __asm__("a7") = 93;
    __asm__ volatile("ecall" : : "r"(a0), "r"(a7));
}
void _start(void) {
    for (int i = 0; i < 3; i++)
        sum = add(sum, i);
    finish(sum);
}
