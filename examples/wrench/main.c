/* Seals a tightening curve while it is measured, seven values at a time, opens it in place, and tries a damaged tag.
 * wrench.c says how it is built.
 */
#include "wrench.h"
#include <stdio.h>

enum { VALUES = 101, AT_ONCE = 7, CURVE = 2 * VALUES };

/* The torque at step i in hundredths of a newton-metre: it rises and settles. */
static unsigned measured(int i) { return i < 80 ? 60u * (unsigned)i : 4800u + (unsigned)(i % 3); }

static const uint8_t key[WRENCH_KEY] = {0, 1, 2, 3, 4, 5, 6, 7, 8, 9, 10, 11, 12, 13, 14, 15};
static const uint8_t nonce[WRENCH_NONCE] = {2};
static const uint8_t ad[] = {7, 0, 0, 0, SHIFT_NEWTON_METRES}; /* job 7 */
static uint8_t curve[CURVE], text[CURVE + WRENCH_BLOCK], tag[WRENCH_TAG];

/* Measures and seals; returns the first status that is not 0, or 0. */
static uint32_t seal_curve(uint32_t *sealed) {
    comet_session session;
    uint32_t count, status = wrench_start(&session, key, nonce, ad, sizeof ad);
    for (int i = 0; i < VALUES && status == SNOEKELDRAF_OK; i += AT_ONCE) {
        int some = VALUES - i < AT_ONCE ? VALUES - i : AT_ONCE;
        for (int j = i; j < i + some; j++) {
            curve[2 * j] = (uint8_t)measured(j);
            curve[2 * j + 1] = (uint8_t)(measured(j) >> 8);
        }
        status = wrench_part(&session, curve + 2 * i, 2 * (uint32_t)some, text + *sealed, (uint32_t)sizeof text - *sealed, &count);
        *sealed += count;
    }
    if (status == SNOEKELDRAF_OK) {
        status = wrench_end(&session, text + *sealed, tag, &count);
        *sealed += count;
    }
    wrench_wipe(&session); /* after a refusal it still holds key material */
    return status;
}

static int same_curve(void) {
    for (int i = 0; i < CURVE; i++)
        if (text[i] != curve[i]) return 0;
    return 1;
}

int main(void) {
    uint32_t sealed = 0, status = seal_curve(&sealed);
    printf("sealing gives %u: %u bytes, tag ", (unsigned)status, (unsigned)sealed);
    for (int i = 0; i < WRENCH_TAG; i++) printf("%02x", tag[i]);
    status = wrench_open(key, nonce, ad, sizeof ad, text, sealed, tag);
    printf("\nopening gives %u: %s\n", (unsigned)status, same_curve() ? "the curve that was measured" : "another curve");
    tag[0] ^= 1;
    printf("opening with a damaged tag gives %u\n", (unsigned)wrench_open(key, nonce, ad, sizeof ad, text, sealed, tag));
    return 0;
}
