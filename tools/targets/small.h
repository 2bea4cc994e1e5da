/* The functions of a small build of one suite (small.c): those of snoekeldraf.h without the argument suite.
 * On a session of another suite they return 9, as on one that was refused. */
#ifndef SMALL_H
#define SMALL_H

#include "snoekeldraf.h"

uint32_t small_seal(const uint8_t *key, uint64_t key_len, const uint8_t *nonce, uint64_t nonce_len, const uint8_t *ad,
                    uint64_t ad_len, const uint8_t *msg, uint64_t msg_len, uint8_t *out, uint64_t out_len, uint8_t *tag,
                    uint64_t tag_len);
uint32_t small_open(const uint8_t *key, uint64_t key_len, const uint8_t *nonce, uint64_t nonce_len, const uint8_t *ad,
                    uint64_t ad_len, const uint8_t *text, uint64_t text_len, const uint8_t *tag, uint64_t tag_len,
                    uint8_t *out, uint64_t out_len);
uint32_t small_seal_counted(const uint8_t *key, uint64_t key_len, const uint8_t *nonce, uint64_t nonce_len,
                            const uint8_t *ad, uint64_t ad_len, const uint8_t *msg, uint64_t msg_len, uint8_t *out,
                            uint64_t out_len, uint8_t *tag, uint64_t tag_len, uint64_t *calls);
uint32_t small_open_counted(const uint8_t *key, uint64_t key_len, const uint8_t *nonce, uint64_t nonce_len,
                            const uint8_t *ad, uint64_t ad_len, const uint8_t *text, uint64_t text_len,
                            const uint8_t *tag, uint64_t tag_len, uint8_t *out, uint64_t out_len, uint64_t *calls);
uint32_t small_seal_in_place(const uint8_t *key, uint64_t key_len, const uint8_t *nonce, uint64_t nonce_len,
                             const uint8_t *ad, uint64_t ad_len, uint8_t *text, uint64_t text_len, uint8_t *tag,
                             uint64_t tag_len);
uint32_t small_open_in_place(const uint8_t *key, uint64_t key_len, const uint8_t *nonce, uint64_t nonce_len,
                             const uint8_t *ad, uint64_t ad_len, uint8_t *text, uint64_t text_len, const uint8_t *tag,
                             uint64_t tag_len);
uint32_t small_verify(const uint8_t *key, uint64_t key_len, const uint8_t *nonce, uint64_t nonce_len, const uint8_t *ad,
                      uint64_t ad_len, const uint8_t *text, uint64_t text_len, const uint8_t *tag, uint64_t tag_len);
uint32_t small_session_start(comet_session *session, const uint8_t *key, uint64_t key_len, const uint8_t *nonce,
                             uint64_t nonce_len);
uint32_t small_session_data(comet_session *session, const uint8_t *ad, uint64_t ad_len);
uint32_t small_session_part(comet_session *session, const uint8_t *msg, uint64_t msg_len, uint8_t *out, uint64_t out_len,
                            uint32_t *count);
uint32_t small_session_end(comet_session *session, uint8_t *out, uint64_t out_len, uint8_t *tag, uint64_t tag_len,
                           uint32_t *count);
void small_session_wipe(comet_session *session);

#endif
