/* start_linux.c - Linux on aarch64, 32-bit Arm or RISC-V with no C library: the start, two system calls, and the three
 * functions that compilers call. Compiled with -fno-builtin, so that the loops here stay loops. */
#include "system.h"

enum { STANDARD_OUTPUT = 1 };

#ifdef __aarch64__

enum { SYS_WRITE = 64, SYS_EXIT = 93 };

static long ask(long number, long a, long b, long c)
{
    register long x8 __asm__("x8") = number;
    register long x0 __asm__("x0") = a;
    register long x1 __asm__("x1") = b;
    register long x2 __asm__("x2") = c;
    __asm__ volatile("svc 0" : "+r"(x0) : "r"(x8), "r"(x1), "r"(x2) : "memory");
    return x0;
}

__asm__(".globl _start\n_start: mov x0, sp\n bl begin\n");

#elif defined __riscv

enum { SYS_WRITE = 64, SYS_EXIT = 93 };

static long ask(long number, long a, long b, long c)
{
    register long a7 __asm__("a7") = number;
    register long a0 __asm__("a0") = a;
    register long a1 __asm__("a1") = b;
    register long a2 __asm__("a2") = c;
    __asm__ volatile("ecall" : "+r"(a0) : "r"(a7), "r"(a1), "r"(a2) : "memory");
    return a0;
}

__asm__(".globl _start\n_start: mv a0, sp\n call begin\n");

#else

enum { SYS_WRITE = 4, SYS_EXIT = 1 };

static long ask(long number, long a, long b, long c)
{
    register long r7 __asm__("r7") = number;
    register long r0 __asm__("r0") = a;
    register long r1 __asm__("r1") = b;
    register long r2 __asm__("r2") = c;
    __asm__ volatile("svc 0" : "+r"(r0) : "r"(r7), "r"(r1), "r"(r2) : "memory");
    return r0;
}

__asm__(".globl _start\n_start: mov r0, sp\n bl begin\n");

#endif

void *memcpy(void *to, const void *from, size_t length)
{
    uint8_t *out = to;
    const uint8_t *in = from;
    while (length-- > 0)
        *out++ = *in++;
    return to;
}

void *memmove(void *to, const void *from, size_t length)
{
    uint8_t *out = to;
    const uint8_t *in = from;
    if ((uintptr_t)out <= (uintptr_t)in)
        return memcpy(to, from, length);
    while (length-- > 0)
        out[length] = in[length];
    return to;
}

void *memset(void *to, int value, size_t length)
{
    uint8_t *out = to;
    while (length-- > 0)
        *out++ = (uint8_t)value;
    return to;
}

void put_bytes(const char *bytes, size_t length)
{
    while (length > 0) {
        const long done = ask(SYS_WRITE, STANDARD_OUTPUT, (long)bytes, (long)length);
        if (done <= 0)
            ask(SYS_EXIT, 2, 0, 0);
        bytes += done;
        length -= (size_t)done;
    }
}

uint32_t instructions(void)
{
    return 0;
}

uint32_t stack_of(void (*deed)(void))
{
    (void)deed;
    return 0;
}

/* What Linux leaves on the stack: how many words, then their addresses, the program's name first. */
__attribute__((used)) void begin(const uintptr_t *stack)
{
    ask(SYS_EXIT, run(stack[0] > 1 ? (const char *)stack[2] : ""), 0, 0);
}
