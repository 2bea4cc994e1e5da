/* The functions of one.c. */
#ifndef ONE_H
#define ONE_H

#include "snoekeldraf.h"

uint32_t one_seal(const uint8_t *key, const uint8_t *nonce, const uint8_t *ad, uint32_t ad_len, uint8_t *text,
                  uint32_t text_len, uint8_t *tag);
uint32_t one_open(const uint8_t *key, const uint8_t *nonce, const uint8_t *ad, uint32_t ad_len, uint8_t *text,
                  uint32_t text_len, const uint8_t *tag);
uint32_t one_seal_to(const uint8_t *key, const uint8_t *nonce, const uint8_t *ad, uint32_t ad_len, const uint8_t *msg,
                     uint32_t msg_len, uint8_t *out, uint8_t *tag);
uint32_t one_start(comet_session *session, const uint8_t *key, const uint8_t *nonce);
uint32_t one_data(comet_session *session, const uint8_t *ad, uint32_t ad_len);
uint32_t one_part(comet_session *session, const uint8_t *msg, uint32_t msg_len, uint8_t *out, uint32_t out_len,
                  uint32_t *count);
uint32_t one_end(comet_session *session, uint8_t *out, uint8_t *tag, uint32_t *count);

#endif
