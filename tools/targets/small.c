/* A small build of suite SUITE, for tools/test-targets: every function on records and sessions, for any lengths.
 * test-targets writes a file that defines SUITE and includes this one, and builds it with tools/library --with.
 */
#include "small.h"

uint32_t small_seal(const uint8_t *key, uint64_t key_len, const uint8_t *nonce, uint64_t nonce_len, const uint8_t *ad,
                    uint64_t ad_len, const uint8_t *msg, uint64_t msg_len, uint8_t *out, uint64_t out_len, uint8_t *tag,
                    uint64_t tag_len) {
    return comet_seal(SUITE, key, key_len, nonce, nonce_len, ad, ad_len, msg, msg_len, out, out_len, tag, tag_len);
}

uint32_t small_open(const uint8_t *key, uint64_t key_len, const uint8_t *nonce, uint64_t nonce_len, const uint8_t *ad,
                    uint64_t ad_len, const uint8_t *text, uint64_t text_len, const uint8_t *tag, uint64_t tag_len,
                    uint8_t *out, uint64_t out_len) {
    return comet_open(SUITE, key, key_len, nonce, nonce_len, ad, ad_len, text, text_len, tag, tag_len, out, out_len);
}

uint32_t small_seal_counted(const uint8_t *key, uint64_t key_len, const uint8_t *nonce, uint64_t nonce_len,
                            const uint8_t *ad, uint64_t ad_len, const uint8_t *msg, uint64_t msg_len, uint8_t *out,
                            uint64_t out_len, uint8_t *tag, uint64_t tag_len, uint64_t *calls) {
    return comet_seal_counted(SUITE, key, key_len, nonce, nonce_len, ad, ad_len, msg, msg_len, out, out_len, tag, tag_len,
                              calls);
}

uint32_t small_open_counted(const uint8_t *key, uint64_t key_len, const uint8_t *nonce, uint64_t nonce_len,
                            const uint8_t *ad, uint64_t ad_len, const uint8_t *text, uint64_t text_len,
                            const uint8_t *tag, uint64_t tag_len, uint8_t *out, uint64_t out_len, uint64_t *calls) {
    return comet_open_counted(SUITE, key, key_len, nonce, nonce_len, ad, ad_len, text, text_len, tag, tag_len, out,
                              out_len, calls);
}

uint32_t small_seal_in_place(const uint8_t *key, uint64_t key_len, const uint8_t *nonce, uint64_t nonce_len,
                             const uint8_t *ad, uint64_t ad_len, uint8_t *text, uint64_t text_len, uint8_t *tag,
                             uint64_t tag_len) {
    return comet_seal_in_place(SUITE, key, key_len, nonce, nonce_len, ad, ad_len, text, text_len, tag, tag_len);
}

uint32_t small_open_in_place(const uint8_t *key, uint64_t key_len, const uint8_t *nonce, uint64_t nonce_len,
                             const uint8_t *ad, uint64_t ad_len, uint8_t *text, uint64_t text_len, const uint8_t *tag,
                             uint64_t tag_len) {
    return comet_open_in_place(SUITE, key, key_len, nonce, nonce_len, ad, ad_len, text, text_len, tag, tag_len);
}

uint32_t small_verify(const uint8_t *key, uint64_t key_len, const uint8_t *nonce, uint64_t nonce_len, const uint8_t *ad,
                      uint64_t ad_len, const uint8_t *text, uint64_t text_len, const uint8_t *tag, uint64_t tag_len) {
    return comet_verify(SUITE, key, key_len, nonce, nonce_len, ad, ad_len, text, text_len, tag, tag_len);
}

uint32_t small_session_start(comet_session *session, const uint8_t *key, uint64_t key_len, const uint8_t *nonce,
                             uint64_t nonce_len) {
    return comet_session_start(session, SUITE, key, key_len, nonce, nonce_len);
}

/* The test of the suite makes it a constant for the compiler: the other suites' code is then left out. */
uint32_t small_session_data(comet_session *session, const uint8_t *ad, uint64_t ad_len) {
    if (session->word[0] != SUITE) return 9;
    return comet_session_data(session, ad, ad_len);
}

uint32_t small_session_part(comet_session *session, const uint8_t *msg, uint64_t msg_len, uint8_t *out, uint64_t out_len,
                            uint32_t *count) {
    *count = 0;
    if (session->word[0] != SUITE) return 9;
    return comet_session_part(session, msg, msg_len, out, out_len, count);
}

uint32_t small_session_end(comet_session *session, uint8_t *out, uint64_t out_len, uint8_t *tag, uint64_t tag_len,
                           uint32_t *count) {
    *count = 0;
    if (session->word[0] != SUITE) return 9;
    return comet_session_end(session, out, out_len, tag, tag_len, count);
}

void small_session_wipe(comet_session *session) { comet_session_wipe(session); }
