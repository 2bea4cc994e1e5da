/* The proved library for a wrench with a Cortex-M: sessions of suite 3, which seal a curve while it is measured, and opening
 * in place. From the root of the repository:
 *
 *     ./run library cortex-m4 --with examples/wrench/wrench.c --keep wrench_start,wrench_part,wrench_end,wrench_wipe,wrench_open --small
 *
 * This writes target/cortex-m4/wrench.o: these five functions, and of the library what suite 3 needs. Nothing else is
 * visible in it. It needs memcpy and memset, and arithmetic functions of the compiler's own library (libgcc has them). Any
 * compiler of the target links it; main.c in this folder is a program that uses it:
 *
 *     arm-none-eabi-gcc -mcpu=cortex-m4 -mthumb -Iinclude examples/wrench/main.c target/cortex-m4/wrench.o ..
 *
 * with the start code and linker script of your board in place of the dots. For another processor say its name in place of
 * cortex-m4 (./run library lists them), and leave --small out to build for speed. On Linux on Arm:
 *
 *     ./run library aarch64 --with examples/wrench/wrench.c --keep wrench_start,wrench_part,wrench_end,wrench_wipe,wrench_open
 *     aarch64-linux-gnu-gcc -Iinclude examples/wrench/main.c target/aarch64/wrench.o -o target/wrench
 *
 * The library's functions are proved. The code of this file is not: it only passes constants.
 */
#include "wrench.h"

enum { SUITE = WRENCH_SUITE };

/* Whether a session is of suite 3. A session has its suite in memory; this test makes the suite a constant for the compiler,
 * so that the code of other suites is removed. Other sessions get 9, which comet_session_part returns for no session. */
static int is_ours(const comet_session *session) { return session->word[0] == SUITE; }

uint32_t wrench_start(comet_session *session, const uint8_t key[WRENCH_KEY], const uint8_t nonce[WRENCH_NONCE],
                      const uint8_t *ad, uint32_t ad_len) {
    uint32_t status = comet_session_start(session, SUITE, key, WRENCH_KEY, nonce, WRENCH_NONCE);
    if (status != SNOEKELDRAF_OK) return status;
    if (!is_ours(session)) return SNOEKELDRAF_SESSION;
    status = comet_session_data(session, ad, ad_len);
    if (status != SNOEKELDRAF_OK) comet_session_wipe(session); /* else it could go on without its associated data */
    return status;
}

uint32_t wrench_part(comet_session *session, const uint8_t *part, uint32_t part_len, uint8_t *out, uint32_t out_len,
                     uint32_t *count) {
    *count = 0;
    if (!is_ours(session)) return SNOEKELDRAF_SESSION;
    return comet_session_part(session, part, part_len, out, out_len, count);
}

uint32_t wrench_end(comet_session *session, uint8_t out[WRENCH_BLOCK], uint8_t tag[WRENCH_TAG], uint32_t *count) {
    *count = 0;
    if (!is_ours(session)) return SNOEKELDRAF_SESSION;
    return comet_session_end(session, out, WRENCH_BLOCK, tag, WRENCH_TAG, count);
}

void wrench_wipe(comet_session *session) { comet_session_wipe(session); }

uint32_t wrench_open(const uint8_t key[WRENCH_KEY], const uint8_t nonce[WRENCH_NONCE], const uint8_t *ad, uint32_t ad_len,
                     uint8_t *text, uint32_t text_len, const uint8_t tag[WRENCH_TAG]) {
    return comet_open_in_place(SUITE, key, WRENCH_KEY, nonce, WRENCH_NONCE, ad, ad_len, text, text_len, tag, WRENCH_TAG);
}
