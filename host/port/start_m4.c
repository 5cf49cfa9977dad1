/* start_m4.c - a bare Cortex-M4 (qemu's board mps2-an386; its mps2-an385 has a Cortex-M3): vectors, text out and the
 * argument in by semihosting, instructions by a timer, stack by painting. */
#include "system.h"

/* ---- semihosting: a breakpoint that the emulator answers ---- */

enum { SYS_OPEN = 0x01, SYS_WRITE = 0x05, SYS_GET_CMDLINE = 0x15, SYS_EXIT_EXTENDED = 0x20 };
enum { OPEN_WRITE = 4, APPLICATION_EXIT = 0x20026 };

static int32_t ask(uint32_t number, const void *block)
{
    register uint32_t r0 __asm__("r0") = number;
    register const void *r1 __asm__("r1") = block;
    __asm__ volatile("bkpt 0xab" : "+r"(r0) : "r"(r1) : "memory");
    return (int32_t)r0;
}

static __attribute__((noreturn)) void leave(uint32_t status)
{
    const uint32_t block[2] = {APPLICATION_EXIT, status};
    ask(SYS_EXIT_EXTENDED, block);
    for (;;)
        ;
}

void put_bytes(const char *bytes, size_t length)
{
    static int32_t file = -1;
    if (file < 0) {
        static const char console[] = ":tt";
        const uint32_t block[3] = {(uint32_t)console, OPEN_WRITE, sizeof console - 1};
        file = ask(SYS_OPEN, block);
    }
    const uint32_t block[3] = {(uint32_t)file, (uint32_t)bytes, length};
    ask(SYS_WRITE, block);
}

/* ---- instructions: a timer of 25 MHz; under qemu's -icount shift=0 an instruction takes a nanosecond ---- */

static volatile uint32_t *const timer = (volatile uint32_t *)0x40000000;
enum { TIMER_CONTROL = 0, TIMER_VALUE = 1, TIMER_RELOAD = 2 };

static void start_timer(void)
{
    timer[TIMER_RELOAD] = 0xFFFFFFFF;
    timer[TIMER_VALUE] = 0xFFFFFFFF;
    timer[TIMER_CONTROL] = 1;
}

uint32_t instructions(void)
{
    return INSTRUCTIONS_UNIT * (0xFFFFFFFF - timer[TIMER_VALUE]);
}

/* ---- stack ---- */

extern uint8_t stack_low[], stack_top[];
enum { MOST_STACK = 65536 };

/* Paints what is below the stack pointer, calls, and looks how far down the paint is gone. No interrupt is on. */
static uint32_t touched(void (*deed)(void), uint8_t paint)
{
    volatile uint8_t *top, *low, *at;
    __asm__ volatile("mov %0, sp" : "=r"(top));
    low = top - MOST_STACK;
    for (at = low; at < top; at++)
        *at = paint;
    deed();
    for (at = low; at < top && *at == paint; at++)
        ;
    return (uint32_t)(top - at);
}

uint32_t stack_of(void (*deed)(void))
{
    const uint32_t first = touched(deed, 0x5C), second = touched(deed, 0xA3);
    return first > second ? first : second;
}

/* ---- the start ---- */

static __attribute__((noreturn, used)) void begin(void)
{
    static char words[256];
    const uint32_t block[2] = {(uint32_t)words, sizeof words};
    const char *word = words;
    start_timer();
    /* the command line: the program's name, then the argument */
    if (ask(SYS_GET_CMDLINE, block) != 0)
        leave(2);
    while (*word != ' ' && *word != 0)
        word++;
    leave((uint32_t)run(*word == ' ' ? word + 1 : word));
}

/* Where the floating-point unit is switched on, if there is one. */
static volatile uint32_t *const coprocessors = (volatile uint32_t *)0xE000ED88;

__attribute__((noreturn)) void reset(void)
{
    *coprocessors |= 0xFu << 20;
    begin();
}

static __attribute__((noreturn)) void fault(void)
{
    static const char text[] = "fault\n";
    put_bytes(text, sizeof text - 1);
    leave(3);
}

/* The stack's top, then where each exception goes; all but the reset are faults here. */
__attribute__((section(".vectors"), used)) static const struct {
    uint8_t *stack;
    void (*handler[15])(void);
} vectors = {
    stack_top,
    {reset, fault, fault, fault, fault, fault, fault, fault, fault, fault, fault, fault, fault, fault, fault},
};
