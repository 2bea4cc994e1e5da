/* Times calls of the archive and of plain C alternately, and prints the time of the best C divided by ours.
 *
 * Each figure is the least of many interleaved runs, so other work on the machine changes it little. The script `time`
 * beside this file builds and runs it. On x86-64 the clock is the time stamp counter, around one call; the targets of
 * docs/SPEED.md hold there. It is coarse (on AMD's Zen 4 it goes by steps of 26, and a call without a message takes some 260),
 * so the ratio of such a call is exact to a tenth. On AArch64 the counter is coarser, so several calls are timed together, and
 * there is no target. Under QEMU's emulation a time means nothing, and the program refuses.
 *
 * Exit status: 0 every target is met (AArch64: measured), 1 a target is missed, 2 outputs differ or the processor is emulated.
 */
#include "snoekeldraf.h"
#include <stdio.h>
#include <stdlib.h>
#include <string.h>

/* ---- the clock ---- */

#if defined __x86_64__
#include <cpuid.h>
#include <x86intrin.h>
enum { HAS_TARGETS = 1 };
static const char processor[] = "x86-64";

static uint64_t now(void) { return __rdtsc(); }

static int calls_at_once(size_t len) { return (void)len, 1; }

static int emulated(void) {
    unsigned a, b, c, d;
    __cpuid(0x40000000, a, b, c, d);
    return b == 0x54474354 && c == 0x43544743 && d == 0x47435447; /* "TCGTCGTCGTCG" */
}
#elif defined __aarch64__
#include <sys/auxv.h>
enum { HAS_TARGETS = 0, HWCAP_REGISTERS = 1 << 11 };
static const char processor[] = "AArch64";

static uint64_t now(void) {
    uint64_t t;
    __asm__ volatile("isb\n\tmrs %0, cntvct_el0" : "=r"(t)::"memory");
    return t;
}

static int calls_at_once(size_t len) { return len >= 65536 ? 1 : len >= 1024 ? 8 : 64; }

/* Whether the processor identifies itself as QEMU's: no implementer, part 0x51. */
static int emulated(void) {
    uint64_t id;
    if (!(getauxval(AT_HWCAP) & HWCAP_REGISTERS)) return 0;
    __asm__("mrs %0, midr_el1" : "=r"(id));
    return id >> 24 == 0 && (id >> 4 & 0xfff) == 0x51;
}
#else
#error "there is a clock for x86-64 and for AArch64"
#endif

/* ---- what is timed ---- */

typedef uint32_t seal_fn(uint8_t, const uint8_t *, uint64_t, const uint8_t *, uint64_t, const uint8_t *, uint64_t,
                         const uint8_t *, uint64_t, uint8_t *, uint64_t, uint8_t *, uint64_t);
typedef uint32_t open_fn(uint8_t, const uint8_t *, uint64_t, const uint8_t *, uint64_t, const uint8_t *, uint64_t,
                         const uint8_t *, uint64_t, const uint8_t *, uint64_t, uint8_t *, uint64_t);
seal_fn gcc_columns_seal, kit_columns_seal;
open_fn gcc_columns_open, kit_columns_open;

enum { OURS, GCC, KIT, MAKERS, MOST = 65536, AD = 16 };
static seal_fn *const seals[MAKERS] = {comet_seal, gcc_columns_seal, kit_columns_seal};
static open_fn *const opens[MAKERS] = {comet_open, gcc_columns_open, kit_columns_open};

static uint8_t key[16] = {1, 2, 3}, nonce[16] = {9}, ad[AD];
static uint8_t message[MOST], text[MAKERS][MOST], opened[MAKERS][MOST], tags[MAKERS][16];

typedef struct {
    int suite, opening;
    size_t len, nonce_len, tag_len;
} job;

static void call(const job *j, int maker) {
    uint8_t suite = (uint8_t)j->suite, *tag = tags[maker];
    uint32_t status;
    if (j->opening)
        status = opens[maker](suite, key, sizeof key, nonce, j->nonce_len, ad, AD, text[OURS], j->len, tags[OURS],
                              j->tag_len, opened[maker], j->len);
    else
        status = seals[maker](suite, key, sizeof key, nonce, j->nonce_len, ad, AD, message, j->len, text[maker], j->len,
                              tag, j->tag_len);
    if (status != 0) {
        printf("suite %d: status %u\n", j->suite, status);
        exit(2);
    }
}

/* Stops the program if some maker's output differs from ours. */
static void compare(const job *j) {
    for (int maker = 0; maker < MAKERS; maker++) {
        if (!j->opening && memcmp(text[maker], text[OURS], j->len) == 0 && memcmp(tags[maker], tags[OURS], j->tag_len) == 0)
            continue;
        if (j->opening && memcmp(opened[maker], message, j->len) == 0) continue;
        printf("suite %d, %zu bytes: outputs differ\n", j->suite, j->len);
        exit(2);
    }
}

/* The least time of each maker for so many calls of this length as one reading of the clock covers. */
static void measure(const job *j, uint64_t best[MAKERS]) {
    int runs = j->len >= 65536 ? 120 : j->len >= 1024 ? 2000 : 8000, at_once = calls_at_once(j->len);
    for (int maker = 0; maker < MAKERS; maker++) best[maker] = UINT64_MAX;
    for (int run = 0; run < runs; run++)
        for (int maker = 0; maker < MAKERS; maker++) {
            uint64_t t = now();
            for (int k = 0; k < at_once; k++) call(j, maker);
            t = now() - t;
            if (t < best[maker]) best[maker] = t;
        }
    compare(j);
}

/* ---- targets, for x86-64 ---- */

static double target(int suite, size_t len) {
    int aes = suite == 1 || suite == 5;
    if (len >= 1024) return 1.0;
    if (len > 0) return aes ? 0.8 : 0.95;
    return aes ? 0.65 : 0.9;
}

static int asked, met;

static void show(const job *j) {
    uint64_t best[MAKERS];
    measure(j, best);
    double ratio = (double)(best[GCC] < best[KIT] ? best[GCC] : best[KIT]) / (double)best[OURS];
    int right = (int)(ratio * 1000 + 0.5) >= (int)(target(j->suite, j->len) * 1000 + 0.5);
    asked++;
    met += right;
    printf("  %5.3f%s (%s)", ratio, HAS_TARGETS && !right ? "!" : " ", best[GCC] < best[KIT] ? "gcc" : "kit");
}

static void show_suite(int suite) {
    static const size_t sizes[] = {0, 64, 1024, 65536};
    int wide = suite == 1 || suite == 2 || suite == 5;
    for (int opening = 0; opening < 2; opening++) {
        printf("suite %d %-7s", suite, opening ? "opening" : "sealing");
        for (int z = 0; z < 4; z++) {
            job j = {suite, 0, sizes[z], wide ? 16 : 15, wide ? 16 : 8};
            call(&j, OURS); /* seals the record that is opened */
            j.opening = opening;
            show(&j);
        }
        printf("\n");
    }
}

int main(void) {
    if (emulated()) {
        puts("time: this processor is emulated, and a time means nothing");
        return 2;
    }
    for (size_t i = 0; i < MOST; i++) message[i] = (uint8_t)(i * 7);
    printf("best C / ours on %s, with the best C's compiler; bytes:\n%-15s  %-12s  %-12s  %-12s  %-12s\n", processor, "", "0", "64",
           "1,024", "65,536");
    for (int suite = 1; suite <= 6; suite++)
        if (suite != 4) show_suite(suite);
    if (HAS_TARGETS)
        printf("%d of %d targets are met\n", met, asked);
    else
        puts("the targets are for x86-64 and were not measured");
    return HAS_TARGETS && met < asked;
}
