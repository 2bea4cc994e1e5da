/* A small build of suite SUITE with constant lengths, as a device with one suite would have it; tools/figures measures it.
 * figures writes a file that defines SUITE and includes this one, and keeps the functions that it measures.
 */
#include "one.h"

enum { KEY = 16, WIDE = SUITE == 1 || SUITE == 2 || SUITE == 5, NONCE = WIDE ? 16 : 15, TAG = WIDE ? 16 : 8 };

uint32_t one_seal(const uint8_t *key, const uint8_t *nonce, const uint8_t *ad, uint32_t ad_len, uint8_t *text,
                  uint32_t text_len, uint8_t *tag) {
    return comet_seal_in_place(SUITE, key, KEY, nonce, NONCE, ad, ad_len, text, text_len, tag, TAG);
}

uint32_t one_open(const uint8_t *key, const uint8_t *nonce, const uint8_t *ad, uint32_t ad_len, uint8_t *text,
                  uint32_t text_len, const uint8_t *tag) {
    return comet_open_in_place(SUITE, key, KEY, nonce, NONCE, ad, ad_len, text, text_len, tag, TAG);
}

uint32_t one_seal_to(const uint8_t *key, const uint8_t *nonce, const uint8_t *ad, uint32_t ad_len, const uint8_t *msg,
                     uint32_t msg_len, uint8_t *out, uint8_t *tag) {
    return comet_seal(SUITE, key, KEY, nonce, NONCE, ad, ad_len, msg, msg_len, out, msg_len, tag, TAG);
}

uint32_t one_start(comet_session *session, const uint8_t *key, const uint8_t *nonce) {
    return comet_session_start(session, SUITE, key, KEY, nonce, NONCE);
}

uint32_t one_data(comet_session *session, const uint8_t *ad, uint32_t ad_len) {
    return session->word[0] == SUITE ? comet_session_data(session, ad, ad_len) : 9;
}

uint32_t one_part(comet_session *session, const uint8_t *msg, uint32_t msg_len, uint8_t *out, uint32_t out_len,
                  uint32_t *count) {
    *count = 0;
    return session->word[0] == SUITE ? comet_session_part(session, msg, msg_len, out, out_len, count) : 9;
}

uint32_t one_end(comet_session *session, uint8_t *out, uint8_t *tag, uint32_t *count) {
    *count = 0;
    return session->word[0] == SUITE ? comet_session_end(session, out, TAG, tag, TAG, count) : 9;
}
