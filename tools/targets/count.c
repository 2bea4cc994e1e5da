/* Counts the instructions of one call on Cortex-M4. QEMU runs one instruction per nanosecond (-icount shift=0), and SysTick
 * counts at 25 MHz, so a tick is 40 instructions. Prints `maker suite bytes instructions`; short calls are repeated.
 * With -DSUITE=n it counts the small build of suite n, in place and to another buffer; otherwise the archive, and plain C by
 * both compilers.
 */
#include "one.h"
#include <stdio.h>

typedef uint32_t seal_fn(uint8_t, const uint8_t *, uint32_t, const uint8_t *, uint32_t, const uint8_t *, uint32_t,
                         const uint8_t *, uint32_t, uint8_t *, uint32_t, uint8_t *, uint32_t);

#define CONTROL (*(volatile uint32_t *)0xe000e010)
#define RELOAD (*(volatile uint32_t *)0xe000e014)
#define TICKS (*(volatile uint32_t *)0xe000e018)
enum { MASK = 0xffffff, ON = 5, PER_TICK = 40, AD = 5, MOST = 16384 };

static const uint8_t key[16] = {1, 2, 3}, nonce[16], ad[AD] = {7, 0, 0, 0, 1};
static uint8_t message[MOST], text[MOST], tag[16];

#ifdef SUITE
static uint32_t seal(int maker, int suite, uint32_t len) {
    (void)suite;
    if (maker == 0) return one_seal(key, nonce, ad, AD, text, len, tag);
    return one_seal_to(key, nonce, ad, AD, message, len, text, tag);
}
static const char *const makers[] = {"in-place", "buffer"};
enum { MAKERS = 2 };
#else
seal_fn gcc_columns_seal, kit_columns_seal;
static uint32_t seal(int maker, int suite, uint32_t len) {
    int wide = suite == 1 || suite == 2 || suite == 5;
    uint32_t nonce_len = wide ? 16 : 15, tag_len = wide ? 16 : 8;
    if (maker == 0)
        return comet_seal((uint8_t)suite, key, 16, nonce, nonce_len, ad, AD, message, len, text, len, tag, tag_len);
    return (maker == 1 ? gcc_columns_seal : kit_columns_seal)((uint8_t)suite, key, 16, nonce, nonce_len, ad, AD, message,
                                                              len, text, len, tag, tag_len);
}
static const char *const makers[] = {"archive", "gcc", "clang"};
enum { MAKERS = 3 };
#endif

static void count(int maker, int suite, uint32_t len) {
    int repeats = len == 0 ? 256 : len <= 1024 ? 16 : 1;
    uint32_t status = seal(maker, suite, len), before = TICKS;
    for (int k = 0; k < repeats; k++) status |= seal(maker, suite, len);
    uint32_t ticks = (before - TICKS) & MASK;
    printf("%s %d %u %u\n", makers[maker], suite, (unsigned)len, (unsigned)((uint64_t)ticks * PER_TICK / repeats));
    if (status != 0) printf("refused %u\n", (unsigned)status);
}

int main(void) {
    RELOAD = MASK;
    TICKS = 0;
    CONTROL = ON;
    for (int suite = 1; suite <= 6; suite++) {
#ifdef SUITE
        if (suite != SUITE) continue;
#endif
        for (int maker = 0; maker < MAKERS && suite != 4; maker++) {
            count(maker, suite, 0);
            count(maker, suite, 1024);
            count(maker, suite, MOST);
        }
    }
    return 0;
}
