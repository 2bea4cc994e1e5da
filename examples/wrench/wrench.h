/* What a wrench needs of the proved library: suite 3 alone, with its lengths as constants. wrench.c says how it is built.
 * Status codes are those of snoekeldraf.h.
 */
#ifndef WRENCH_H
#define WRENCH_H

#include "snoekeldraf.h"

enum {
    WRENCH_SUITE = COMET_SPECK64,
    WRENCH_KEY = COMET_KEY_BYTES,
    WRENCH_NONCE = COMET_NONCE_BYTES(WRENCH_SUITE),
    WRENCH_TAG = COMET_TAG_BYTES(WRENCH_SUITE),
    WRENCH_BLOCK = COMET_BLOCK_BYTES(WRENCH_SUITE)
};

/* Starts a record with all of its associated data: 4, 0. After 4 the session is nine zeros, and its calls give 9. */
uint32_t wrench_start(comet_session *session, const uint8_t key[WRENCH_KEY], const uint8_t nonce[WRENCH_NONCE],
                      const uint8_t *ad, uint32_t ad_len);

/* Seals a part of the message: 9, 5, 6, 0. out needs part_len + 7 bytes; the call writes *count bytes of ciphertext to it. */
uint32_t wrench_part(comet_session *session, const uint8_t *part, uint32_t part_len, uint8_t *out, uint32_t out_len,
                     uint32_t *count);

/* Ends the record: 9, 0. The call writes the last *count bytes of ciphertext, fewer than 8, to the start of out. */
uint32_t wrench_end(comet_session *session, uint8_t out[WRENCH_BLOCK], uint8_t tag[WRENCH_TAG], uint32_t *count);

/* Overwrites a session that is abandoned with nine zeros: it holds key material. */
void wrench_wipe(comet_session *session);

/* Opens a record in place: 4, 5, 8, 0. After 8 every byte of text is 0. */
uint32_t wrench_open(const uint8_t key[WRENCH_KEY], const uint8_t nonce[WRENCH_NONCE], const uint8_t *ad, uint32_t ad_len,
                     uint8_t *text, uint32_t text_len, const uint8_t tag[WRENCH_TAG]);

#endif
