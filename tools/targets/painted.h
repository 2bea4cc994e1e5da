/* Measures the stack that a call uses: fills the stack below the caller with a pattern, and after the call finds the deepest
 * word that was overwritten. Arguments passed on the stack are included.
 *
 * PAINTED(f, ..) is the call f(..), measured under the name f; print_stacks() prints the most that each name used.
 */
#ifndef PAINTED_H
#define PAINTED_H

#include <stdint.h>

enum { PAINTED_WORDS = 4096 };
#define PAINT 0xa5a5a5a5u

static inline __attribute__((always_inline)) volatile uint32_t *stack_pointer(void) {
    volatile uint32_t *at;
#if defined __x86_64__
    __asm__ volatile("mov %%rsp, %0" : "=r"(at));
#elif defined __riscv
    __asm__ volatile("mv %0, sp" : "=r"(at));
#else
    __asm__ volatile("mov %0, sp" : "=r"(at));
#endif
    return at;
}

/* Returns where the pattern ends. Inlined, so that it has no frame of its own below the caller's. */
static inline __attribute__((always_inline)) volatile uint32_t *paint(void) {
    volatile uint32_t *top = stack_pointer();
    for (volatile uint32_t *p = top - PAINTED_WORDS; p != top; p++) *p = PAINT;
    return top;
}

uint32_t painted(const char *name, volatile uint32_t *top, uint32_t result);
void print_stacks(void);

/* The stack pointer is read once: x86-64 moves it for the arguments of the call. */
#define PAINTED(f, ...) \
    ({ \
        volatile uint32_t *painted_top = paint(); \
        uint32_t painted_result = (uint32_t)(f)(__VA_ARGS__); \
        painted(#f, painted_top, painted_result); \
    })

#endif
