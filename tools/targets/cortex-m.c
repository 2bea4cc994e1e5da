/* Starts a test program on a Cortex-M of QEMU: vectors, memory, semihosting. A fault ends the program with status 4. */
#include <stdint.h>
#include <stdlib.h>

extern uint32_t data_start, data_end, data_load, bss_start, bss_end, stack_top;
int main(void);
void initialise_monitor_handles(void);

#define CONFIGURATION (*(volatile uint32_t *)0xe000ed14)
enum { UNALIGNED_TRAPS = 8 };

void reset(void) {
    uint32_t *to = &data_start, *from = &data_load;
    while (to < &data_end) *to++ = *from++;
    for (to = &bss_start; to < &bss_end;) *to++ = 0;
    /* An ARMv6-M processor traps on unaligned access; make the emulated processor that runs its code trap as well. */
#if __ARM_ARCH == 6
    CONFIGURATION |= UNALIGNED_TRAPS;
#endif
    initialise_monitor_handles();
    exit(main());
}

static void broken(void) { _Exit(4); }

__attribute__((section(".vectors"), used)) static void (*const vectors[])(void) = {
    (void (*)(void)) & stack_top, reset, broken, broken, broken, broken, broken,
};

void _init(void) {}
void _fini(void) {}
