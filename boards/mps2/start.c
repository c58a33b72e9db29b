/* The reset of QEMU's board mps2-an386 for a program with newlib, whose files and exit go by semihosting. */
#include <stdint.h>
#include <stdlib.h>

extern uint32_t bss_start[], bss_end[], stack_top[];
void initialise_monitor_handles(void);
int main(void);
void _init(void);
void _fini(void);

static void reset(void)
{
    uint32_t *to;
    for (to = bss_start; to < bss_end;) *to++ = 0;
    initialise_monitor_handles();
    exit(main());
}

static void fault(void) { _Exit(99); }

void _init(void) { }
void _fini(void) { }

__attribute__((section(".vectors"), used)) static const struct {
    uint32_t *stack;
    void (*handler[15])(void);
} vectors = {stack_top, {reset, fault, fault, fault, fault, fault, 0, 0, 0, 0, fault, fault, 0, fault, fault}};
