/* A Cortex-M4 from its reset to main: memory, a clock by SysTick, text by semihosting, and what compilers ask of a C library. No libc. */
#include "board.h"
#include <stddef.h>

enum { HERTZ = 25000000, PAINT = 0x5a5a5a5a, SAY = 0x04, END = 0x20, ENDED = 0x20026 };

extern uint32_t data_load[], data_start[], data_end[], bss_start[], bss_end[], stack_bottom[], stack_top[];
int main(void);

/* ---- the clock */

static volatile uint32_t milliseconds = UINT32_MAX - 5000;

static void systick(void) { milliseconds++; }

static void start_clock(void)
{
    volatile uint32_t *const timer = (volatile uint32_t *)0xe000e010u; /* control, reload, current */
    timer[1] = HERTZ / 1000 - 1;
    timer[2] = 0;
    timer[0] = 7; /* the processor's clock, with an interrupt, on */
}

uint32_t board_clock(void) { return milliseconds; }

void board_wait(void) { __asm__ volatile("wfi"); }

/* ---- semihosting */

static void semihost(uint32_t operation, const void *argument)
{
    register uint32_t r0 __asm__("r0") = operation;
    register const void *r1 __asm__("r1") = argument;
    __asm__ volatile("bkpt 0xab" : "+r"(r0) : "r"(r1) : "memory");
}

void board_say(const char *text) { semihost(SAY, text); }

static void end(int status)
{
    const uint32_t reason[2] = {ENDED, (uint32_t)status};
    semihost(END, reason);
    for (;;) board_wait();
}

/* ---- from reset to main */

uint32_t board_stack_used(void)
{
    const uint32_t *at = stack_bottom;
    while (*at == PAINT) at++;
    return (uint32_t)((const char *)stack_top - (const char *)at);
}

static void reset(void)
{
    const uint32_t *from = data_load;
    uint32_t *to;
#ifdef __ARM_FP
    *(volatile uint32_t *)0xe000ed88u |= 0xfu << 20; /* the FPU on, for an archive with hard float */
    __asm__ volatile("dsb\n isb" ::: "memory");
#endif
    for (to = data_start; to < data_end;) *to++ = *from++;
    for (to = bss_start; to < bss_end;) *to++ = 0;
    for (to = stack_bottom; to < (uint32_t *)__builtin_frame_address(0) - 16;) *to++ = PAINT;
    start_clock();
    end(main());
}

static void fault(void)
{
    board_say("a fault\n");
    end(1);
}

__attribute__((section(".vectors"), used)) static const struct {
    uint32_t *stack;
    void (*handler[15])(void);
} vectors = {stack_top, {reset, fault, fault, fault, fault, fault, 0, 0, 0, 0, fault, fault, 0, fault, systick}};

/* ---- what compilers ask for. Plain loops: a board's own libc has faster ones. */

void *memmove(void *to, const void *from, size_t n)
{
    uint8_t *t = to;
    const uint8_t *f = from;
    size_t i;
    if (t <= f) for (i = 0; i < n; i++) t[i] = f[i];
    else while (n-- > 0) t[n] = f[n];
    return to;
}

void *memcpy(void *restrict to, const void *restrict from, size_t n) { return memmove(to, from, n); }

void *memset(void *to, int byte, size_t n)
{
    uint8_t *t = to;
    while (n-- > 0) *t++ = (uint8_t)byte;
    return to;
}

size_t strlen(const char *text)
{
    size_t n = 0;
    while (text[n] != 0) n++;
    return n;
}

/* The same under the names of ARM's run-time ABI; a number is the alignment that may be relied on, and here is not. */
#define ALIAS(name, of) void name(void) __attribute__((alias(#of)))
void __aeabi_memset(void *to, size_t n, int byte) { memset(to, byte, n); }
void __aeabi_memclr(void *to, size_t n) { memset(to, 0, n); }
#pragma GCC diagnostic ignored "-Wattribute-alias"
ALIAS(__aeabi_memcpy, memcpy);
ALIAS(__aeabi_memcpy4, memcpy);
ALIAS(__aeabi_memcpy8, memcpy);
ALIAS(__aeabi_memmove, memmove);
ALIAS(__aeabi_memmove4, memmove);
ALIAS(__aeabi_memmove8, memmove);
ALIAS(__aeabi_memset4, __aeabi_memset);
ALIAS(__aeabi_memset8, __aeabi_memset);
ALIAS(__aeabi_memclr4, __aeabi_memclr);
ALIAS(__aeabi_memclr8, __aeabi_memclr);
