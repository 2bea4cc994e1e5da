/* Plain C written for speed, against which the proved library is measured. AES is there twice: with the S-box as its only
 * table, and by columns from four tables. */
#include "comet.h"
#include <string.h>

#define INLINE static inline __attribute__((always_inline))

enum { LIMIT = 65536 };

/* ---- bytes and words: byte 0 is the least significant ---- */

typedef struct {
    uint64_t lo, hi;
} block;

INLINE uint32_t load32(const uint8_t *p) {
    return p[0] | (uint32_t)p[1] << 8 | (uint32_t)p[2] << 16 | (uint32_t)p[3] << 24;
}

INLINE uint64_t load64(const uint8_t *p) {
    return load32(p) | (uint64_t)load32(p + 4) << 32;
}

INLINE void store64(uint8_t *p, uint64_t x) {
    for (int i = 0; i < 8; i++) p[i] = (uint8_t)(x >> 8 * i);
}

INLINE block load128(const uint8_t *p) {
    return (block){load64(p), load64(p + 8)};
}

INLINE void store128(uint8_t *p, block b) {
    store64(p, b.lo);
    store64(p + 8, b.hi);
}

INLINE block xor128(block a, block b) {
    return (block){a.lo ^ b.lo, a.hi ^ b.hi};
}

INLINE uint32_t rotl32(uint32_t x, int k) {
    return x << k | x >> (32 - k);
}

INLINE uint16_t rotl16(uint16_t x, int k) {
    return (uint16_t)(x << k | x >> (16 - k));
}

/* ---- AES-128 (FIPS 197), with the round keys computed during encryption; a column is a word, row 0 its low byte ---- */

static const uint8_t sbox[256] = {
    0x63, 0x7c, 0x77, 0x7b, 0xf2, 0x6b, 0x6f, 0xc5, 0x30, 0x01, 0x67, 0x2b, 0xfe, 0xd7, 0xab, 0x76,
    0xca, 0x82, 0xc9, 0x7d, 0xfa, 0x59, 0x47, 0xf0, 0xad, 0xd4, 0xa2, 0xaf, 0x9c, 0xa4, 0x72, 0xc0,
    0xb7, 0xfd, 0x93, 0x26, 0x36, 0x3f, 0xf7, 0xcc, 0x34, 0xa5, 0xe5, 0xf1, 0x71, 0xd8, 0x31, 0x15,
    0x04, 0xc7, 0x23, 0xc3, 0x18, 0x96, 0x05, 0x9a, 0x07, 0x12, 0x80, 0xe2, 0xeb, 0x27, 0xb2, 0x75,
    0x09, 0x83, 0x2c, 0x1a, 0x1b, 0x6e, 0x5a, 0xa0, 0x52, 0x3b, 0xd6, 0xb3, 0x29, 0xe3, 0x2f, 0x84,
    0x53, 0xd1, 0x00, 0xed, 0x20, 0xfc, 0xb1, 0x5b, 0x6a, 0xcb, 0xbe, 0x39, 0x4a, 0x4c, 0x58, 0xcf,
    0xd0, 0xef, 0xaa, 0xfb, 0x43, 0x4d, 0x33, 0x85, 0x45, 0xf9, 0x02, 0x7f, 0x50, 0x3c, 0x9f, 0xa8,
    0x51, 0xa3, 0x40, 0x8f, 0x92, 0x9d, 0x38, 0xf5, 0xbc, 0xb6, 0xda, 0x21, 0x10, 0xff, 0xf3, 0xd2,
    0xcd, 0x0c, 0x13, 0xec, 0x5f, 0x97, 0x44, 0x17, 0xc4, 0xa7, 0x7e, 0x3d, 0x64, 0x5d, 0x19, 0x73,
    0x60, 0x81, 0x4f, 0xdc, 0x22, 0x2a, 0x90, 0x88, 0x46, 0xee, 0xb8, 0x14, 0xde, 0x5e, 0x0b, 0xdb,
    0xe0, 0x32, 0x3a, 0x0a, 0x49, 0x06, 0x24, 0x5c, 0xc2, 0xd3, 0xac, 0x62, 0x91, 0x95, 0xe4, 0x79,
    0xe7, 0xc8, 0x37, 0x6d, 0x8d, 0xd5, 0x4e, 0xa9, 0x6c, 0x56, 0xf4, 0xea, 0x65, 0x7a, 0xae, 0x08,
    0xba, 0x78, 0x25, 0x2e, 0x1c, 0xa6, 0xb4, 0xc6, 0xe8, 0xdd, 0x74, 0x1f, 0x4b, 0xbd, 0x8b, 0x8a,
    0x70, 0x3e, 0xb5, 0x66, 0x48, 0x03, 0xf6, 0x0e, 0x61, 0x35, 0x57, 0xb9, 0x86, 0xc1, 0x1d, 0x9e,
    0xe1, 0xf8, 0x98, 0x11, 0x69, 0xd9, 0x8e, 0x94, 0x9b, 0x1e, 0x87, 0xe9, 0xce, 0x55, 0x28, 0xdf,
    0x8c, 0xa1, 0x89, 0x0d, 0xbf, 0xe6, 0x42, 0x68, 0x41, 0x99, 0x2d, 0x0f, 0xb0, 0x54, 0xbb, 0x16,
};

/* A column after SubBytes and ShiftRows: row r comes from the r-th of the four consecutive columns. */
INLINE uint32_t substituted(uint32_t a, uint32_t b, uint32_t c, uint32_t d) {
    return sbox[a & 0xff] | (uint32_t)sbox[b >> 8 & 0xff] << 8 | (uint32_t)sbox[c >> 16 & 0xff] << 16 |
           (uint32_t)sbox[d >> 24] << 24;
}

INLINE uint32_t mixed(uint32_t c) {
    uint32_t next = rotl32(c, 24);
    uint32_t sum = c ^ next;
    uint32_t doubled = (sum & 0x7f7f7f7f) << 1 ^ (sum >> 7 & 0x01010101) * 0x1b;
    return doubled ^ next ^ rotl32(c, 16) ^ rotl32(c, 8);
}

INLINE void next_round_key(uint32_t k[4], uint32_t constant) {
    uint32_t last = rotl32(k[3], 24);
    k[0] ^= substituted(last, last, last, last) ^ constant;
    k[1] ^= k[0];
    k[2] ^= k[1];
    k[3] ^= k[2];
}

static block aes128(block key, block in) {
    uint32_t k[4] = {(uint32_t)key.lo, (uint32_t)(key.lo >> 32), (uint32_t)key.hi, (uint32_t)(key.hi >> 32)};
    uint32_t s[4] = {(uint32_t)in.lo ^ k[0], (uint32_t)(in.lo >> 32) ^ k[1], (uint32_t)in.hi ^ k[2],
                     (uint32_t)(in.hi >> 32) ^ k[3]};
    uint32_t t[4], constant = 1;
    for (int round = 1; round < 10; round++) {
        next_round_key(k, constant);
        constant = constant << 1 ^ (constant >> 7) * 0x11b;
        for (int c = 0; c < 4; c++)
            t[c] = mixed(substituted(s[c], s[(c + 1) % 4], s[(c + 2) % 4], s[(c + 3) % 4])) ^ k[c];
        memcpy(s, t, sizeof s);
    }
    next_round_key(k, constant);
    for (int c = 0; c < 4; c++) t[c] = substituted(s[c], s[(c + 1) % 4], s[(c + 2) % 4], s[(c + 3) % 4]) ^ k[c];
    return (block){t[0] | (uint64_t)t[1] << 32, t[2] | (uint64_t)t[3] << 32};
}

/* ---- AES-128 by columns: one table for each row, which combines the S-box and MixColumns ---- */

static uint32_t tables[4][256];

__attribute__((constructor)) static void make_tables(void) {
    for (int x = 0; x < 256; x++) {
        uint32_t once = sbox[x], twice = once << 1 ^ (once >> 7) * 0x11b;
        uint32_t column = twice | once << 8 | once << 16 | (once ^ twice) << 24;
        for (int row = 0; row < 4; row++, column = rotl32(column, 8)) tables[row][x] = column;
    }
}

static block aes128_columns(block key, block in) {
    uint32_t k[4] = {(uint32_t)key.lo, (uint32_t)(key.lo >> 32), (uint32_t)key.hi, (uint32_t)(key.hi >> 32)};
    uint32_t s[4] = {(uint32_t)in.lo ^ k[0], (uint32_t)(in.lo >> 32) ^ k[1], (uint32_t)in.hi ^ k[2],
                     (uint32_t)(in.hi >> 32) ^ k[3]};
    uint32_t t[4], constant = 1;
    for (int round = 1; round < 10; round++) {
        next_round_key(k, constant);
        constant = constant << 1 ^ (constant >> 7) * 0x11b;
        for (int c = 0; c < 4; c++)
            t[c] = tables[0][s[c] & 0xff] ^ tables[1][s[(c + 1) % 4] >> 8 & 0xff] ^
                   tables[2][s[(c + 2) % 4] >> 16 & 0xff] ^ tables[3][s[(c + 3) % 4] >> 24] ^ k[c];
        memcpy(s, t, sizeof s);
    }
    next_round_key(k, constant);
    for (int c = 0; c < 4; c++) t[c] = substituted(s[c], s[(c + 1) % 4], s[(c + 2) % 4], s[(c + 3) % 4]) ^ k[c];
    return (block){t[0] | (uint64_t)t[1] << 32, t[2] | (uint64_t)t[3] << 32};
}

/* ---- CHAM, 80 rounds: four rounds in an iteration, so that no word has to be moved ---- */

static block cham128(block key, block in) {
    uint32_t k[4] = {(uint32_t)key.lo, (uint32_t)(key.lo >> 32), (uint32_t)key.hi, (uint32_t)(key.hi >> 32)};
    uint32_t a = (uint32_t)in.lo, b = (uint32_t)(in.lo >> 32), c = (uint32_t)in.hi, d = (uint32_t)(in.hi >> 32);
    uint32_t keys[8];
    for (int i = 0; i < 4; i++) {
        keys[i] = k[i] ^ rotl32(k[i], 1) ^ rotl32(k[i], 8);
        keys[(i + 4) ^ 1] = k[i] ^ rotl32(k[i], 1) ^ rotl32(k[i], 11);
    }
    for (uint32_t i = 0; i < 80; i += 4) {
        const uint32_t *r = keys + i % 8;
        a = rotl32((a ^ i) + (rotl32(b, 1) ^ r[0]), 8);
        b = rotl32((b ^ (i + 1)) + (rotl32(c, 8) ^ r[1]), 1);
        c = rotl32((c ^ (i + 2)) + (rotl32(d, 1) ^ r[2]), 8);
        d = rotl32((d ^ (i + 3)) + (rotl32(a, 8) ^ r[3]), 1);
    }
    return (block){a | (uint64_t)b << 32, c | (uint64_t)d << 32};
}

static uint64_t cham64(block key, uint64_t in) {
    uint16_t a = (uint16_t)in, b = (uint16_t)(in >> 16), c = (uint16_t)(in >> 32), d = (uint16_t)(in >> 48);
    uint16_t keys[16];
    for (int i = 0; i < 8; i++) {
        uint16_t k = (uint16_t)((i < 4 ? key.lo : key.hi) >> 16 * (i % 4));
        keys[i] = k ^ rotl16(k, 1) ^ rotl16(k, 8);
        keys[(i + 8) ^ 1] = k ^ rotl16(k, 1) ^ rotl16(k, 11);
    }
    for (int i = 0; i < 80; i += 4) {
        const uint16_t *r = keys + i % 16;
        a = rotl16((uint16_t)((a ^ i) + (rotl16(b, 1) ^ r[0])), 8);
        b = rotl16((uint16_t)((b ^ (i + 1)) + (rotl16(c, 8) ^ r[1])), 1);
        c = rotl16((uint16_t)((c ^ (i + 2)) + (rotl16(d, 1) ^ r[2])), 8);
        d = rotl16((uint16_t)((d ^ (i + 3)) + (rotl16(a, 8) ^ r[3])), 1);
    }
    return a | (uint64_t)b << 16 | (uint64_t)c << 32 | (uint64_t)d << 48;
}

/* ---- Speck-64/128, 27 rounds, with the round keys computed during encryption ---- */

#define SPECK_ROUND(x1, x0, r) (x1 = (rotl32(x1, 24) + x0) ^ (r), x0 = rotl32(x0, 3) ^ x1)

static uint64_t speck64(block key, uint64_t in) {
    uint32_t r = (uint32_t)key.lo;
    uint32_t l0 = (uint32_t)(key.lo >> 32), l1 = (uint32_t)key.hi, l2 = (uint32_t)(key.hi >> 32);
    uint32_t x0 = (uint32_t)in, x1 = (uint32_t)(in >> 32);
    for (uint32_t i = 0; i < 27; i += 3) {
        SPECK_ROUND(x1, x0, r);
        SPECK_ROUND(l0, r, i);
        SPECK_ROUND(x1, x0, r);
        SPECK_ROUND(l1, r, i + 1);
        SPECK_ROUND(x1, x0, r);
        SPECK_ROUND(l2, r, i + 2);
    }
    return x0 | (uint64_t)x1 << 32;
}

/* ---- the mode: marks, next block key, shuffle; then the record, once for each block size ---- */

INLINE void put_mark(block *z, uint64_t mark) {
    z->hi ^= mark << 56;
}

/* Version 1 adds a block's mark before its cipher call, version 2 after it. */
INLINE void mark_before(int version, block *z, uint64_t mark) {
    if (version == 1) put_mark(z, mark);
}

INLINE void mark_after(int version, block *z, uint64_t mark) {
    if (version == 2) put_mark(z, mark);
}

/* Replaces Z by the next block key: version 1 doubles the low 64 bits, version 2 the low 120. */
INLINE void next_key(int version, block *z) {
    if (version == 1) {
        z->lo = z->lo << 1 ^ (z->lo >> 63) * 0x1b;
        return;
    }
    uint64_t kept = z->hi & 0xff00000000000000, high = z->hi ^ kept, dropped = high >> 55;
    z->hi = kept | (high << 1 & 0x00ffffffffffffff) | z->lo >> 63;
    z->lo = z->lo << 1 ^ dropped * 0x245;
}

INLINE block shuffle128(block x) {
    uint32_t x2 = (uint32_t)x.hi;
    return (block){x.hi >> 32 | (uint64_t)rotl32(x2, 31) << 32, x.lo};
}

INLINE uint64_t shuffle64(uint64_t x) {
    uint16_t x2 = (uint16_t)(x >> 32);
    return x >> 48 | (uint64_t)rotl16(x2, 15) << 16 | x << 32;
}

typedef block cipher128(block key, block in);
typedef uint64_t cipher64(block key, uint64_t in);

/* Absorbs the associated data of COMET-128. */
INLINE void absorb128(cipher128 *encrypt, int version, block *y, block *z, const uint8_t *ad, size_t len) {
    uint64_t mark = 0x08;
    for (; len >= 16; ad += 16, len -= 16, mark = 0) {
        mark_before(version, z, mark);
        next_key(version, z);
        *y = xor128(encrypt(*z, *y), load128(ad));
        mark_after(version, z, mark);
    }
    if (len > 0) {
        uint8_t last[16] = {0};
        memcpy(last, ad, len);
        last[len] = 1;
        mark_before(version, z, mark | 0x10);
        next_key(version, z);
        *y = xor128(encrypt(*z, *y), load128(last));
        mark_after(version, z, mark | 0x10);
    }
}

/* Seals or opens the text of COMET-128. */
INLINE void crypt128(cipher128 *encrypt, int version, int opens, block *y, block *z, const uint8_t *text, size_t len,
                     uint8_t *out) {
    uint64_t mark = 0x20;
    for (; len >= 16; text += 16, out += 16, len -= 16, mark = 0) {
        mark_before(version, z, mark);
        next_key(version, z);
        block x = encrypt(*z, *y), in = load128(text), done = xor128(in, shuffle128(x));
        mark_after(version, z, mark);
        store128(out, done);
        *y = xor128(x, opens ? done : in);
    }
    if (len > 0) {
        uint8_t stream[16], last[16] = {0};
        mark_before(version, z, mark | 0x40);
        next_key(version, z);
        block x = encrypt(*z, *y);
        mark_after(version, z, mark | 0x40);
        store128(stream, shuffle128(x));
        for (size_t i = 0; i < len; i++) {
            uint8_t in = text[i];
            out[i] = in ^ stream[i];
            last[i] = opens ? out[i] : in;
        }
        last[len] = 1;
        *y = xor128(x, load128(last));
    }
}

/* Seals or opens a whole record of COMET-128 and writes its tag. */
INLINE void run128(cipher128 *encrypt, int version, int opens, block key, const uint8_t *nonce, const uint8_t *ad, size_t ad_len,
                   const uint8_t *text, size_t len, uint8_t *out, uint8_t *tag) {
    block y = key, z = encrypt(key, load128(nonce));
    absorb128(encrypt, version, &y, &z, ad, ad_len);
    crypt128(encrypt, version, opens, &y, &z, text, len, out);
    put_mark(&z, 0x80);
    next_key(version, &z);
    store128(tag, encrypt(z, y));
}

/* The same three functions for COMET-64. */
INLINE void absorb64(cipher64 *encrypt, int version, uint64_t *y, block *z, const uint8_t *ad, size_t len) {
    uint64_t mark = 0x08;
    for (; len >= 8; ad += 8, len -= 8, mark = 0) {
        mark_before(version, z, mark);
        next_key(version, z);
        *y = encrypt(*z, *y) ^ load64(ad);
        mark_after(version, z, mark);
    }
    if (len > 0) {
        uint8_t last[8] = {0};
        memcpy(last, ad, len);
        last[len] = 1;
        mark_before(version, z, mark | 0x10);
        next_key(version, z);
        *y = encrypt(*z, *y) ^ load64(last);
        mark_after(version, z, mark | 0x10);
    }
}

INLINE void crypt64(cipher64 *encrypt, int version, int opens, uint64_t *y, block *z, const uint8_t *text, size_t len,
                    uint8_t *out) {
    uint64_t mark = 0x20;
    for (; len >= 8; text += 8, out += 8, len -= 8, mark = 0) {
        mark_before(version, z, mark);
        next_key(version, z);
        uint64_t x = encrypt(*z, *y), in = load64(text), done = in ^ shuffle64(x);
        mark_after(version, z, mark);
        store64(out, done);
        *y = x ^ (opens ? done : in);
    }
    if (len > 0) {
        uint8_t stream[8], last[8] = {0};
        mark_before(version, z, mark | 0x40);
        next_key(version, z);
        uint64_t x = encrypt(*z, *y);
        mark_after(version, z, mark | 0x40);
        store64(stream, shuffle64(x));
        for (size_t i = 0; i < len; i++) {
            uint8_t in = text[i];
            out[i] = in ^ stream[i];
            last[i] = opens ? out[i] : in;
        }
        last[len] = 1;
        *y = x ^ load64(last);
    }
}

INLINE void run64(cipher64 *encrypt, int version, int opens, block key, const uint8_t *nonce, const uint8_t *ad, size_t ad_len,
                  const uint8_t *text, size_t len, uint8_t *out, uint8_t *tag) {
    uint8_t wide[16] = {0};
    memcpy(wide, nonce, 15);
    block z = xor128(key, load128(wide));
    uint64_t y = encrypt(key, 0);
    absorb64(encrypt, version, &y, &z, ad, ad_len);
    crypt64(encrypt, version, opens, &y, &z, text, len, out);
    put_mark(&z, 0x80);
    next_key(version, &z);
    store64(tag, encrypt(z, y));
}

INLINE void run(cipher128 *aes, uint8_t suite, int opens, const uint8_t *key, const uint8_t *nonce, const uint8_t *ad,
                size_t ad_len, const uint8_t *text, size_t len, uint8_t *out, uint8_t *tag) {
    block k = load128(key);
    switch (suite) {
    case 1: run128(aes, 1, opens, k, nonce, ad, ad_len, text, len, out, tag); break;
    case 2: run128(cham128, 1, opens, k, nonce, ad, ad_len, text, len, out, tag); break;
    case 3: run64(speck64, 1, opens, k, nonce, ad, ad_len, text, len, out, tag); break;
    case 4: run64(cham64, 1, opens, k, nonce, ad, ad_len, text, len, out, tag); break;
    case 5: run128(aes, 2, opens, k, nonce, ad, ad_len, text, len, out, tag); break;
    default: run64(speck64, 2, opens, k, nonce, ad, ad_len, text, len, out, tag); break;
    }
}

/* Whether the suite has blocks of 16 bytes; otherwise a block has 8 and the nonce 15. */
INLINE int is_wide(uint8_t suite) {
    return suite < 3 || suite == 5;
}

/* The first of statuses 1 to 7 that applies, or 0; the sealer also has 10, just after 1. */
static uint32_t refusal(int opens, uint8_t suite, size_t key_len, size_t nonce_len, size_t ad_len, size_t len,
                        size_t out_len, size_t tag_len) {
    if (suite < 1 || suite > 6) return 1;
    if (!opens && suite == 4) return 10;
    if (key_len != 16) return 2;
    if (nonce_len != (is_wide(suite) ? 16 : 15)) return 3;
    if (ad_len > LIMIT) return 4;
    if (len > LIMIT) return 5;
    if (out_len != len) return 6;
    if (tag_len != (is_wide(suite) ? 16 : 8)) return 7;
    return 0;
}

/* Define a sealer and an opener over one of the two AES functions. */
#define SEALER(name, aes)                                                                                              \
    uint32_t name(uint8_t suite, const uint8_t *key, size_t key_len, const uint8_t *nonce, size_t nonce_len,           \
                  const uint8_t *ad, size_t ad_len, const uint8_t *msg, size_t msg_len,                                \
                  uint8_t *out, size_t out_len, uint8_t *tag, size_t tag_len) {                                        \
        uint32_t status = refusal(0, suite, key_len, nonce_len, ad_len, msg_len, out_len, tag_len);                    \
        if (status == 0) run(aes, suite, 0, key, nonce, ad, ad_len, msg, msg_len, out, tag);                           \
        return status;                                                                                                 \
    }

#define OPENER(name, aes)                                                                                              \
    uint32_t name(uint8_t suite, const uint8_t *key, size_t key_len, const uint8_t *nonce, size_t nonce_len,           \
                  const uint8_t *ad, size_t ad_len, const uint8_t *text, size_t text_len,                              \
                  const uint8_t *tag, size_t tag_len, uint8_t *out, size_t out_len) {                                  \
        uint8_t made[16];                                                                                              \
        uint32_t status = refusal(1, suite, key_len, nonce_len, ad_len, text_len, out_len, tag_len);                   \
        if (status != 0) return status;                                                                                \
        run(aes, suite, 1, key, nonce, ad, ad_len, text, text_len, out, made);                                         \
        if (memcmp(made, tag, tag_len) == 0) return 0;                                                                 \
        memset(out, 0, out_len);                                                                                       \
        return 8;                                                                                                      \
    }

SEALER(plain_seal, aes128)
OPENER(plain_open, aes128)
SEALER(columns_seal, aes128_columns)
OPENER(columns_open, aes128_columns)

/* ---- the shift file's check ---- */

INLINE uint32_t load16(const uint8_t *p) {
    return p[0] | (uint32_t)p[1] << 8;
}

/* The fields of a row after job number and station: its last 28 bytes. */
INLINE const uint8_t *fields(const uint8_t *row, size_t size) {
    return row + size - 28;
}

/* Whether an earlier row has row i's suite, key number and nonce. All 16 nonce bytes can be compared, since status 34
 * ensures that a byte that the suite does not read is 0. */
INLINE int clashes(const uint8_t *rows, size_t size, uint32_t i) {
    const uint8_t *first = fields(rows, size), *row = first + size * i;
    for (const uint8_t *other = first; other < row; other += size)
        if (memcmp(other + 12, row + 12, 16) == 0 && memcmp(other, row, 2) == 0) return 1;
    return 0;
}

/* The first of statuses 25 to 28, 34, 29 and 30 that applies to row i, or 0. *end is the offset at which the body must
 * start, and is advanced to its end. */
INLINE uint32_t check_row(const uint8_t *file, size_t len, size_t size, uint32_t i, uint64_t *end) {
    const uint8_t *rows = file + 8, *row = rows + size * i, *rest = fields(row, size);
    uint32_t job = load32(row), ad = load16(rest + 2), offset = load32(rest + 4), message = load32(rest + 8);
    if (i > 0 && job <= load32(row - size)) return 25;
    if (rest[0] < 1 || rest[0] > 6 || rest[1] > 15) return 26;
    if (ad < 5 || ad > 1024 || message > LIMIT) return 27;
    if (offset != *end) return 28;
    *end += ad + message + (is_wide(rest[0]) ? 16 : 8);
    if (*end > len) return 28;
    if (!is_wide(rest[0]) && rest[27] != 0) return 34;
    if (clashes(rows, size, i)) return 29;
    if (load32(file + offset) != job || file[offset + 4] < 1 || file[offset + 4] > 2) return 30;
    return 0;
}

/* The check of a file with rows of this size, from status 22 on. */
INLINE uint32_t check_rows(const uint8_t *file, size_t file_len, size_t size, uint32_t *row) {
    uint32_t n = load16(file + 2);
    if (n > 512) return 22;
    if (load32(file + 4) != file_len) return 23;
    if (8 + size * n > file_len) return 24;
    uint64_t end = 8 + size * n;
    for (uint32_t i = 0; i < n; i++) {
        uint32_t status = check_row(file, file_len, size, i, &end);
        if (status != 0) {
            *row = i;
            return status;
        }
    }
    return end == file_len ? 0 : 31;
}

uint32_t plain_check(const uint8_t *file, size_t file_len, uint32_t *row) {
    *row = 0;
    if (file_len < 8 || file_len > 1048576) return 20;
    switch (load16(file)) {
    case 1: return check_rows(file, file_len, 32, row);
    case 2: return check_rows(file, file_len, 36, row);
    default: return 21;
    }
}
