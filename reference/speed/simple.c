/* The simplest C: one sealer for every cipher, which it calls through a pointer, with blocks as bytes in memory. It checks
 * no length. Its two functions have the parameters of comet_seal and comet_open. It is slower than plain/comet.c, except on
 * the shortest messages, where it is the fastest C. */
#include "names.h"
#include <stddef.h>
#include <stdint.h>
#include <string.h>

/* ---- AES-128 by columns ---- */

static uint8_t sbox[256];
static uint32_t tables[4][256];

static uint8_t twice(uint8_t b) { return (uint8_t)(b << 1 ^ (b >> 7) * 0x1b); }

static uint8_t times(uint8_t a, uint8_t b) {
    uint8_t r = 0;
    for (; b; b >>= 1, a = twice(a))
        if (b & 1) r ^= a;
    return r;
}

static uint32_t rol(uint32_t x, int k) { return k ? x << k | x >> (32 - k) : x; }
static uint16_t rol16(uint16_t x, int k) { return (uint16_t)(x << k | x >> (16 - k)); }

__attribute__((constructor)) static void make_tables(void) {
    for (int x = 0; x < 256; x++) {
        uint8_t inverse = 0, s = 0x63;
        for (int y = 1; y < 256 && !inverse; y++)
            if (times((uint8_t)x, (uint8_t)y) == 1) inverse = (uint8_t)y;
        for (int k = 0; k < 5; k++) s ^= (uint8_t)(inverse << k | inverse >> (8 - k));
        sbox[x] = s;
        uint32_t column = twice(s) | (uint32_t)s << 8 | (uint32_t)s << 16 | (uint32_t)(twice(s) ^ s) << 24;
        for (int row = 0; row < 4; row++) tables[row][x] = rol(column, 8 * row);
    }
}

/* A byte of a word. */
#define BYTE(x, k) ((x) >> 8 * (k)&0xff)

static void aes(const uint8_t *key, const uint8_t *in, uint8_t *out) {
    uint32_t w[4], s[4], t[4];
    uint8_t constant = 1;
    memcpy(w, key, 16);
    memcpy(s, in, 16);
    for (int c = 0; c < 4; c++) s[c] ^= w[c];
    for (int round = 1; round <= 10; round++) {
        w[0] ^= (uint32_t)(sbox[BYTE(w[3], 1)] ^ constant) | (uint32_t)sbox[BYTE(w[3], 2)] << 8 |
                (uint32_t)sbox[BYTE(w[3], 3)] << 16 | (uint32_t)sbox[BYTE(w[3], 0)] << 24;
        for (int c = 1; c < 4; c++) w[c] ^= w[c - 1];
        constant = twice(constant);
        for (int c = 0; c < 4; c++) {
            uint32_t a = s[c], b = s[(c + 1) % 4], d = s[(c + 2) % 4], e = s[(c + 3) % 4];
            if (round < 10)
                t[c] = tables[0][BYTE(a, 0)] ^ tables[1][BYTE(b, 1)] ^ tables[2][BYTE(d, 2)] ^ tables[3][BYTE(e, 3)];
            else
                t[c] = (uint32_t)sbox[BYTE(a, 0)] | (uint32_t)sbox[BYTE(b, 1)] << 8 |
                       (uint32_t)sbox[BYTE(d, 2)] << 16 | (uint32_t)sbox[BYTE(e, 3)] << 24;
            t[c] ^= w[c];
        }
        memcpy(s, t, 16);
    }
    memcpy(out, s, 16);
}

/* ---- CHAM and Speck ---- */

/* One round, in place: the new word replaces the one that leaves the state. */
#define ROUND(rol, a, b, k, i, p, q) a = rol((a ^ (i)) + (rol(b, p) ^ (k)), q)

#define CHAM(name, word, rol, words, size)                                                                             \
    static void name(const uint8_t *key, const uint8_t *in, uint8_t *out) {                                            \
        word k[words], r[2 * words], s[4];                                                                             \
        memcpy(k, key, 16);                                                                                            \
        memcpy(s, in, size);                                                                                           \
        for (int i = 0; i < words; i++) {                                                                              \
            r[i] = k[i] ^ rol(k[i], 1) ^ rol(k[i], 8);                                                                 \
            r[(i + words) ^ 1] = k[i] ^ rol(k[i], 1) ^ rol(k[i], 11);                                                  \
        }                                                                                                              \
        for (word i = 0; i < 80; i += 4) {                                                                             \
            ROUND(rol, s[0], s[1], r[i % (2 * words)], i, 1, 8);                                                       \
            ROUND(rol, s[1], s[2], r[(i + 1) % (2 * words)], i + 1, 8, 1);                                             \
            ROUND(rol, s[2], s[3], r[(i + 2) % (2 * words)], i + 2, 1, 8);                                             \
            ROUND(rol, s[3], s[0], r[(i + 3) % (2 * words)], i + 3, 8, 1);                                             \
        }                                                                                                              \
        memcpy(out, s, size);                                                                                          \
    }
CHAM(cham128, uint32_t, rol, 4, 16)
CHAM(cham64, uint16_t, rol16, 8, 8)

static void speck(const uint8_t *key, const uint8_t *in, uint8_t *out) {
    uint32_t k[4], x[2];
    memcpy(k, key, 16);
    memcpy(x, in, 8);
    for (uint32_t i = 0; i < 27; i++) {
        x[1] = (rol(x[1], 24) + x[0]) ^ k[0];
        x[0] = rol(x[0], 3) ^ x[1];
        uint32_t *l = &k[1 + i % 3];
        *l = (k[0] + rol(*l, 24)) ^ i;
        k[0] = rol(k[0], 3) ^ *l;
    }
    memcpy(out, x, 8);
}

/* ---- the mode ---- */

typedef void cipher(const uint8_t *key, const uint8_t *in, uint8_t *out);
static cipher *const ciphers[7] = {0, aes, cham128, speck, cham64, aes, speck};
static const size_t sizes[7] = {0, 16, 16, 8, 8, 16, 8};

/* Replaces Z by the next block key: version 1 doubles the low 64 bits, version 2 the low 120. */
static void doubled(int version, uint8_t *z) {
    uint64_t lo, hi;
    memcpy(&lo, z, 8);
    if (version == 1) {
        lo = lo << 1 ^ (lo >> 63) * 0x1b;
        memcpy(z, &lo, 8);
        return;
    }
    memcpy(&hi, z + 8, 8);
    uint64_t top = hi & 0xff00000000000000u, drop = hi >> 55 & 1;
    hi = top | (hi << 1 & 0x00ffffffffffffffu) | lo >> 63;
    lo = lo << 1 ^ drop * 0x245;
    memcpy(z, &lo, 8);
    memcpy(z + 8, &hi, 8);
}

static void shuffled(const uint8_t *x, uint8_t *out, size_t n) {
    if (n == 16) {
        uint32_t w[4], v[4];
        memcpy(w, x, 16);
        v[0] = w[3], v[1] = rol(w[2], 31), v[2] = w[0], v[3] = w[1];
        memcpy(out, v, 16);
    } else {
        uint16_t w[4], v[4];
        memcpy(w, x, 8);
        v[0] = w[3], v[1] = rol16(w[2], 15), v[2] = w[0], v[3] = w[1];
        memcpy(out, v, 8);
    }
}

/* Computes the next block key and encrypts y into x. Version 1 adds the mark before the doubling, version 2 after the call. */
static void marked_call(cipher *e, int version, uint8_t mark, uint8_t *z, const uint8_t *y, uint8_t *x) {
    if (version == 1) z[15] ^= mark;
    doubled(version, z);
    e(z, y, x);
    if (version == 2) z[15] ^= mark;
}

static void run(uint8_t suite, int opens, const uint8_t *key, const uint8_t *nonce, const uint8_t *ad, size_t ad_len,
                const uint8_t *m, size_t len, uint8_t *c, uint8_t *tag) {
    cipher *e = ciphers[suite];
    size_t n = sizes[suite];
    int version = suite > 4 ? 2 : 1;
    uint8_t y[16] = {0}, z[16], x[16], s[16], mark = 8;
    if (n == 16) {
        memcpy(y, key, 16);
        e(key, nonce, z);
    } else {
        uint8_t zero[8] = {0};
        e(key, zero, y);
        memcpy(z, key, 16);
        for (int i = 0; i < 15; i++) z[i] ^= nonce[i];
    }
    for (size_t i = 0; i < ad_len; i += n, mark = 0) {
        size_t k = ad_len - i < n ? ad_len - i : n;
        marked_call(e, version, k < n ? mark ^ 16 : mark, z, y, x);
        memcpy(y, x, n);
        for (size_t j = 0; j < k; j++) y[j] ^= ad[i + j];
        if (k < n) y[k] ^= 1;
    }
    mark = 32;
    for (size_t i = 0; i < len; i += n, mark = 0) {
        size_t k = len - i < n ? len - i : n;
        marked_call(e, version, k < n ? mark ^ 64 : mark, z, y, x);
        shuffled(x, s, n);
        memcpy(y, x, n);
        for (size_t j = 0; j < k; j++) {
            uint8_t from = m[i + j], to = from ^ s[j];
            c[i + j] = to;
            y[j] ^= opens ? to : from;
        }
        if (k < n) y[k] ^= 1;
    }
    z[15] ^= 128;
    doubled(version, z);
    e(z, y, tag);
}

uint32_t NAME(simple_seal)(uint8_t s, const uint8_t *key, size_t key_len, const uint8_t *nonce, size_t nonce_len,
                           const uint8_t *ad, size_t ad_len, const uint8_t *m, size_t len, uint8_t *out, size_t out_len,
                           uint8_t *tag, size_t tag_len) {
    (void)key_len, (void)nonce_len, (void)out_len, (void)tag_len;
    run(s, 0, key, nonce, ad, ad_len, m, len, out, tag);
    return 0;
}

uint32_t NAME(simple_open)(uint8_t s, const uint8_t *key, size_t key_len, const uint8_t *nonce, size_t nonce_len,
                           const uint8_t *ad, size_t ad_len, const uint8_t *x, size_t len, const uint8_t *tag,
                           size_t tag_len, uint8_t *out, size_t out_len) {
    (void)key_len, (void)nonce_len;
    uint8_t made[16];
    run(s, 1, key, nonce, ad, ad_len, x, len, out, made);
    if (memcmp(made, tag, tag_len) == 0) return 0;
    memset(out, 0, out_len);
    return 8;
}
