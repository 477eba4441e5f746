/* Where a released program begins, in the place of the toolchain's Scrt1.o: that file asks for glibc 2.34, and with this one
 * nothing of the start is newer than 2.2.5; what else the program asks for decides which glibc it runs with (glibc). Those before
 * 2.34 don't run the program's constructors themselves, so they are handed `construct`; newer ones call it too. */

/* The oldest form of the call, which each glibc for x86-64 has. */
__asm__(".symver __libc_start_main, __libc_start_main@GLIBC_2.2.5");
extern int __libc_start_main(int (*program)(int, char **, char **), int count, char **words,
                             void (*construct)(int, char **, char **), void (*end)(void), void (*loader_end)(void),
                             void *stack);

extern int main(int count, char **words, char **settings);
typedef void constructor(int count, char **words, char **settings);
extern constructor *__init_array_start[] __attribute__((visibility("hidden")));
extern constructor *__init_array_end[] __attribute__((visibility("hidden")));

static void construct(int count, char **words, char **settings) {
    for (constructor **at = __init_array_start; at < __init_array_end; at++) (*at)(count, words, settings);
}

/* The stack as the kernel left it: how many words the command line has, and then the words. */
__attribute__((used, noreturn)) static void begin(long *stack, void (*loader_end)(void)) {
    __libc_start_main(main, (int)*stack, (char **)(stack + 1), construct, 0, loader_end, stack);
    __builtin_unreachable();
}

__asm__(".globl _start\n"
        ".type _start,@function\n"
        "_start:\n"
        "    xor %ebp, %ebp\n"
        "    mov %rsp, %rdi\n"
        "    mov %rdx, %rsi\n"
        "    and $-16, %rsp\n"
        "    call begin\n");
