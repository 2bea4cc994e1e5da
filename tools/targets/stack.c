/* Measures the stack of the functions of a small build (one.c) on a record of 1,000 bytes. Prints `function bytes`. */
#include "one.h"
#include "painted.h"
#include <stdio.h>

enum { TEXT = 1000, AD = 21 };
static const uint8_t key[16] = {1, 2, 3}, nonce[16], ad[AD] = {7, 0, 0, 0, 1};
static uint8_t text[TEXT + 16], tag[16], part[16];

static uint32_t records(void) {
    uint32_t status = PAINTED(one_seal, key, nonce, ad, AD, text, TEXT, tag);
    return status | PAINTED(one_open, key, nonce, ad, AD, text, TEXT, tag);
}

/* Passes parts of every length from 0 to 40, more than two blocks, so that every path through the functions is taken. */
static uint32_t sessions(void) {
    comet_session session;
    uint32_t count, status = PAINTED(one_start, &session, key, nonce);
    for (uint32_t len = 0; len <= 5; len++) status |= PAINTED(one_data, &session, ad, len);
    status |= PAINTED(one_data, &session, ad, AD);
    for (uint32_t len = 0; len <= 40; len++) status |= PAINTED(one_part, &session, text, len, text + 100, TEXT - 100, &count);
    return status | PAINTED(one_end, &session, part, tag, &count);
}

int main(void) {
#ifdef SESSIONS
    uint32_t status = sessions();
    (void)records;
#else
    uint32_t status = records();
    (void)sessions;
#endif
    print_stacks();
    if (status != 0) printf("refused %u\n", (unsigned)status);
    return 0;
}
