/* Mistakes that a compiler can detect. Without an option the file is correct and compiles without a warning. With -DWRONG=N
 * the Nth call is wrong, and tools/test-c requires that gcc warns about it.
 */
#include "snoekeldraf.h"

#ifndef WRONG
#define WRONG 0
#endif

static const uint8_t ring[SHIFT_RING_BYTES] = {0}, key[COMET_KEY_BYTES] = {0};
static const uint8_t nonce[COMET_NONCE_BYTES(COMET_SPECK64)] = {0}, msg[100] = {0};
static uint8_t text[100], tag[COMET_TAG_BYTES(COMET_SPECK64)], out[100];

/* 1: the status is ignored, so that the plaintext would be sent if sealing were refused. */
uint32_t ignored(void);
uint32_t ignored(void)
{
#if WRONG == 1
    comet_seal_in_place(COMET_SPECK64, key, sizeof key, nonce, sizeof nonce, 0, 0, text, sizeof text, tag, sizeof tag);
    return 0;
#else
    return comet_seal_in_place(COMET_SPECK64, key, sizeof key, nonce, sizeof nonce, 0, 0, text, sizeof text, tag, sizeof tag);
#endif
}

/* 2: message and output are the same buffer. */
uint32_t overlapping(void);
uint32_t overlapping(void)
{
#if WRONG == 2
    return comet_seal(COMET_SPECK64, key, sizeof key, nonce, sizeof nonce, 0, 0, text, 100, text, 100, tag, sizeof tag);
#else
    return comet_seal(COMET_SPECK64, key, sizeof key, nonce, sizeof nonce, 0, 0, msg, 100, out, 100, tag, sizeof tag);
#endif
}

/* 3: the output is shorter than its length says. */
uint32_t written_past(void);
uint32_t written_past(void)
{
    uint8_t small[WRONG == 3 ? 50 : 100];
    return comet_seal(COMET_SPECK64, key, sizeof key, nonce, sizeof nonce, 0, 0, msg, 100, small, 100, tag, sizeof tag);
}

/* 4: a key in place of the ring. */
uint32_t read_past(const uint8_t *file, uint64_t len, uint32_t results[3]);
uint32_t read_past(const uint8_t *file, uint64_t len, uint32_t results[3])
{
    return shift_verified(file, len, WRONG == 4 ? key : ring, SHIFT_RING_BYTES, 4103, results, results + 1, results + 2);
}

/* 5: NULL for an output that is always written. */
uint32_t no_row(const uint8_t *file, uint64_t len, uint32_t *row);
uint32_t no_row(const uint8_t *file, uint64_t len, uint32_t *row)
{
    return shift_check(file, len, WRONG == 5 ? 0 : row);
}

/* 6: NULL with a length other than 0. NULL with length 0, as for ad in the calls above, is correct. */
uint32_t no_data(comet_session *session);
uint32_t no_data(comet_session *session)
{
    return comet_session_data(session, 0, WRONG == 6 ? 5 : 0);
}

/* 7: a suite that does not fit into a byte. */
uint32_t large_suite(comet_session *session);
uint32_t large_suite(comet_session *session)
{
    return comet_session_start(session, WRONG == 7 ? 257 : COMET_AES128, key, sizeof key, ring, COMET_NONCE_BYTES(COMET_AES128));
}

/* 8: a list that is shorter than its length says, in elements. */
uint32_t short_list(const uint8_t *file, uint64_t len, uint32_t *count, uint32_t *row);
uint32_t short_list(const uint8_t *file, uint64_t len, uint32_t *count, uint32_t *row)
{
    static uint32_t jobs[WRONG == 8 ? SHIFT_ROWS_MAX / 4 : SHIFT_ROWS_MAX];
    static uint8_t numbers[SHIFT_ROWS_MAX];
    return shift_report(file, len, ring, sizeof ring, jobs, SHIFT_ROWS_MAX, numbers, SHIFT_ROWS_MAX, count, row);
}
