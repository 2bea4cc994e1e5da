/* Plain C against which the proved library is measured: COMET under the six suites, and the check of a shift file. */
#ifndef PLAIN_COMET_H
#define PLAIN_COMET_H

#include <stddef.h>
#include <stdint.h>

/* Returns status 0, or 1 to 7 or 10 with out and tag unchanged. */
uint32_t plain_seal(uint8_t suite, const uint8_t *key, size_t key_len, const uint8_t *nonce, size_t nonce_len,
                    const uint8_t *ad, size_t ad_len, const uint8_t *msg, size_t msg_len,
                    uint8_t *out, size_t out_len, uint8_t *tag, size_t tag_len);

/* Returns status 0, or 1 to 7 with out unchanged, or 8 for a wrong tag with every byte of out 0. */
uint32_t plain_open(uint8_t suite, const uint8_t *key, size_t key_len, const uint8_t *nonce, size_t nonce_len,
                    const uint8_t *ad, size_t ad_len, const uint8_t *text, size_t text_len,
                    const uint8_t *tag, size_t tag_len, uint8_t *out, size_t out_len);

/* The same two functions with AES-128 by columns, from four tables. */
uint32_t columns_seal(uint8_t suite, const uint8_t *key, size_t key_len, const uint8_t *nonce, size_t nonce_len,
                      const uint8_t *ad, size_t ad_len, const uint8_t *msg, size_t msg_len,
                      uint8_t *out, size_t out_len, uint8_t *tag, size_t tag_len);
uint32_t columns_open(uint8_t suite, const uint8_t *key, size_t key_len, const uint8_t *nonce, size_t nonce_len,
                      const uint8_t *ad, size_t ad_len, const uint8_t *text, size_t text_len,
                      const uint8_t *tag, size_t tag_len, uint8_t *out, size_t out_len);

/* Returns status 0, or 20 to 31 or 34; *row is the row of 25 to 30 and of 34, otherwise 0. */
uint32_t plain_check(const uint8_t *file, size_t file_len, uint32_t *row);

#endif
