/* Seals a tightening curve while it is being measured, a few values at a time, and opens it by one call. From the root
 * of the repository:
 *
 *     ./run library x86-64                 # or aarch64: the processor of this machine
 *     cc examples/curve.c -Iinclude target/x86-64/libsnoekeldraf.a -o target/curve
 *     target/curve
 */
#include <stdio.h>
#include <stdlib.h>
#include <string.h>

#include "snoekeldraf.h"

enum { SUITE = COMET_SPECK64, VALUES = 101, AT_ONCE = 7, VALUE_BYTES = 2, CURVE_BYTES = VALUE_BYTES * VALUES };

static const uint8_t key[COMET_KEY_BYTES] = {0, 1, 2, 3, 4, 5, 6, 7, 8, 9, 10, 11, 12, 13, 14, 15};
static const uint8_t nonce[COMET_NONCE_BYTES(SUITE)] = {2}; /* from a counter that never repeats */
static const uint8_t ad[] = {7, 0, 0, 0, SHIFT_NEWTON_METRES}; /* job 7 */

static void require(const char *what, uint32_t status)
{
    if (status == SNOEKELDRAF_OK) return;
    printf("%s: %s\n", what, snoekeldraf_words(status));
    exit(1);
}

/* Measures `some` values from index `from` on: hundredths of a newton-metre, which rise and settle. */
static void measure(unsigned from, unsigned some, uint8_t *values)
{
    for (unsigned i = 0; i < some; i++) {
        unsigned torque = from + i < 80 ? 60 * (from + i) : 4800 + (from + i) % 3;
        values[2 * i] = (uint8_t)torque;
        values[2 * i + 1] = (uint8_t)(torque >> 8);
    }
}

int main(void)
{
    uint8_t curve[CURVE_BYTES], text[COMET_PART_ROOM(SUITE, CURVE_BYTES)], tag[COMET_TAG_BYTES(SUITE)];
    size_t sealed = 0; /* bytes of ciphertext so far */
    comet_session session;
    uint32_t count, status;

    require("start", comet_session_start(&session, SUITE, key, sizeof key, nonce, sizeof nonce));
    require("associated data", comet_session_data(&session, ad, sizeof ad));
    for (unsigned i = 0; i < VALUES; i += AT_ONCE) {
        unsigned some = AT_ONCE;
        if (some > VALUES - i) some = VALUES - i;
        uint8_t *part = curve + VALUE_BYTES * i;
        measure(i, some, part);
        require("part", comet_session_part(&session, part, VALUE_BYTES * some, text + sealed, sizeof text - sealed, &count));
        sealed += count;
    }
    /* The end needs an output of one block. This one is too short: the refusal leaves the session unchanged, so we call again. */
    status = comet_session_end(&session, text + sealed, COMET_END_ROOM(SUITE) - 1, tag, sizeof tag, &count);
    printf("end with too little room: %s\n", snoekeldraf_words(status));
    require("end", comet_session_end(&session, text + sealed, sizeof text - sealed, tag, sizeof tag, &count));
    sealed += count;
    printf("sealed %u bytes while measuring; the end gave the last %u\n", (unsigned)sealed, (unsigned)count);

    status = comet_session_part(&session, curve, VALUE_BYTES, text, sizeof text, &count);
    printf("a part after the end: %s\n", snoekeldraf_words(status));

    require("open", comet_open_in_place(SUITE, key, sizeof key, nonce, sizeof nonce, ad, sizeof ad,
                                        text, sealed, tag, sizeof tag));
    int equal = sealed == CURVE_BYTES && memcmp(text, curve, CURVE_BYTES) == 0;
    printf("opened: %s\n", equal ? "the curve that was measured" : "another curve");
    snoekeldraf_forget(); /* clears the stack that the calls used */
    return equal ? 0 : 1;
}
