/* Plain C for the shift file: plain/comet.c with its check, and on top of them the other functions of the C header, with the
 * same statuses and outputs. AES is always by four tables. */
#include "names.h"
#define plain_seal NAME(plain_seal)
#define plain_open NAME(plain_open)
#define columns_seal NAME(columns_seal)
#define columns_open NAME(columns_open)
#define plain_check NAME(plain_check)
#include "../plain/comet.c"

/* ---- rows ---- */

typedef struct {
    uint32_t job, station, suite, key, ad, at, len, tag;
    const uint8_t *nonce;
} row;

INLINE size_t size_of(const uint8_t *f) { return f[0] == 2 ? 36 : 32; }

INLINE row row_at(const uint8_t *f, uint32_t i) {
    size_t w = size_of(f);
    const uint8_t *p = f + 8 + w * i, *q = p + w - 28;
    return (row){load32(p), w == 36 ? load32(p + 4) : 0, q[0], q[1], load16(q + 2), load32(q + 4), load32(q + 8),
                 is_wide(q[0]) ? 16 : 8, q + 12};
}

INLINE uint32_t opened(const uint8_t *f, row r, const uint8_t *ring, uint8_t *out) {
    const uint8_t *ad = f + r.at, *text = ad + r.ad;
    return columns_open((uint8_t)r.suite, ring + 16 * r.key, 16, r.nonce, r.tag == 16 ? 16 : 15, ad, r.ad, text, r.len,
                        text + r.len, r.tag, out, r.len);
}

INLINE uint32_t sealed(const uint8_t *f, row r, uint32_t suite, const uint8_t *ring, const uint8_t *msg, uint8_t *out,
                       uint8_t *tag) {
    return columns_seal((uint8_t)suite, ring + 16 * r.key, 16, r.nonce, r.tag == 16 ? 16 : 15, f + r.at, r.ad, msg, r.len,
                        out, r.len, tag, r.tag);
}

/* The check of a file of one edition; a draft has edition 0. */
static uint32_t check_as(uint32_t edition, const uint8_t *f, size_t len, uint32_t *r) {
    *r = 0;
    if (len < 8 || len > 1048576) return 20;
    if (load16(f) != edition) return 21;
    return check_rows(f, len, edition == 2 ? 36 : 32, r);
}

uint32_t NAME(lookup)(const uint8_t *f, size_t len, uint32_t job, uint32_t *r) {
    uint32_t number = plain_check(f, len, r);
    if (number) return number;
    uint32_t n = load16(f + 2);
    for (uint32_t i = 0; i < n; i++)
        if (load32(f + 8 + size_of(f) * i) == job) {
            *r = i;
            return 0;
        }
    return 32;
}

uint32_t NAME(search)(const uint8_t *f, size_t len, uint32_t job, uint32_t *r, uint32_t *looked) {
    *r = *looked = 0;
    if (len < 8 || len > 1048576) return 20;
    uint32_t e = load16(f), n = load16(f + 2), s = 0, c = n;
    if (e < 1 || e > 2) return 21;
    if (n > 512) return 22;
    if (load32(f + 4) != len) return 23;
    if (8 + size_of(f) * n > len) return 24;
    while (c) {
        uint32_t m = s + c / 2, seen = load32(f + 8 + size_of(f) * m);
        ++*looked;
        if (seen == job) {
            *r = m;
            return 0;
        }
        if (seen < job) c = c - c / 2 - 1, s = m + 1;
        else c /= 2;
    }
    return 32;
}

uint32_t NAME(open_job)(const uint8_t *f, size_t len, const uint8_t *ring, size_t ring_len, uint32_t job, uint8_t *out,
                        size_t out_len, uint32_t *r) {
    uint32_t number = NAME(lookup)(f, len, job, r), i = *r;
    if (number) return number;
    *r = 0;
    if (ring_len != 256) return 2;
    row x = row_at(f, i);
    if (out_len != x.len) return 6;
    return opened(f, x, ring, out);
}

uint32_t NAME(amended)(const uint8_t *a, size_t a_len, const uint8_t *d, size_t d_len, uint32_t job, uint32_t *file,
                       uint32_t *r, uint32_t *at, uint32_t *len) {
    *file = *r = *at = *len = 0;
    uint32_t i, j, x = NAME(lookup)(a, a_len, job, &i);
    if (x && x != 32) return *file = 1, *r = i, x;
    uint32_t y = NAME(lookup)(d, d_len, job, &j);
    if (y && y != 32) return *file = 2, *r = j, y;
    if (x && y) return 32;
    row e = x == 0 ? row_at(a, i) : row_at(d, j);
    *file = x == 0 ? 1 : 2;
    *r = x == 0 ? i : j;
    *at = e.at;
    *len = e.ad;
    return 0;
}

uint32_t NAME(open_amended)(const uint8_t *a, size_t a_len, const uint8_t *d, size_t d_len, const uint8_t *ring,
                            size_t ring_len, uint32_t job, uint8_t *out, size_t out_len, uint32_t *file, uint32_t *r) {
    uint32_t at, len, number = NAME(amended)(a, a_len, d, d_len, job, file, r, &at, &len), i = *r;
    if (number) return number;
    *r = 0;
    if (ring_len != 256) return 2;
    const uint8_t *f = *file == 1 ? a : d;
    row x = row_at(f, i);
    if (out_len != x.len) return 6;
    return opened(f, x, ring, out);
}

/* ---- compare: merges the two tables into local lists and copies them to the outputs if they fit ---- */

INLINE int same_entry(const uint8_t *f, row x, const uint8_t *g, row y) {
    return x.suite == y.suite && x.key == y.key && x.ad == y.ad && x.station == y.station && x.len == y.len &&
           memcmp(x.nonce, y.nonce, 16) == 0 && memcmp(f + x.at, g + y.at, x.ad + x.len + x.tag) == 0;
}

uint32_t NAME(compare)(const uint8_t *f, size_t f_len, const uint8_t *g, size_t g_len, uint32_t *a, size_t a_len,
                       uint32_t *b, size_t b_len, uint32_t *c, size_t c_len, uint32_t *an, uint32_t *bn, uint32_t *cn,
                       uint32_t *file, uint32_t *r) {
    uint32_t first[512], second[512], differ[512], x = 0, y = 0, z = 0, number;
    *an = *bn = *cn = *file = 0;
    if ((number = plain_check(f, f_len, r))) return *file = 1, number;
    if ((number = plain_check(g, g_len, r))) return *file = 2, number;
    uint32_t n = load16(f + 2), m = load16(g + 2), i = 0, j = 0;
    while (i < n || j < m) {
        row p = {0}, q = {0};
        if (i < n) p = row_at(f, i);
        if (j < m) q = row_at(g, j);
        if (j == m || (i < n && p.job < q.job)) first[x++] = p.job, i++;
        else if (i == n || q.job < p.job) second[y++] = q.job, j++;
        else {
            if (!same_entry(f, p, g, q)) differ[z++] = p.job;
            i++, j++;
        }
    }
    if (x > a_len || y > b_len || z > c_len) return 36;
    memcpy(a, first, 4 * x);
    memcpy(b, second, 4 * y);
    memcpy(c, differ, 4 * z);
    *an = x, *bn = y, *cn = z;
    return 0;
}

/* ---- report ---- */

uint32_t NAME(report)(const uint8_t *f, size_t len, const uint8_t *ring, size_t ring_len, uint32_t *jobs, size_t jobs_len,
                      uint8_t *numbers, size_t numbers_len, uint32_t *count, uint32_t *r) {
    uint8_t scratch[65536];
    *count = *r = 0;
    if (len > 65280) return 20;
    uint32_t number = plain_check(f, len, r);
    if (number) return number;
    if (ring_len != 256) return 2;
    uint32_t n = load16(f + 2);
    if (jobs_len < n || numbers_len < n) return 6;
    for (uint32_t i = 0; i < n; i++) {
        row x = row_at(f, i);
        jobs[i] = x.job;
        numbers[i] = (uint8_t)opened(f, x, ring, scratch);
    }
    *count = n;
    return 0;
}

/* ---- the writer and the reseal pass ---- */

uint32_t NAME(seal_file)(const uint8_t *f, size_t len, const uint8_t *ring, size_t ring_len, uint8_t *out, size_t out_len,
                         uint32_t *r) {
    static const uint8_t zero[16];
    uint32_t number = check_as(0, f, len, r);
    if (number) return number;
    uint32_t n = load16(f + 2);
    for (uint32_t i = 0; i < n; i++) {
        row x = row_at(f, i);
        if (memcmp(f + x.at + x.ad + x.len, zero, x.tag)) return *r = i, 33;
    }
    for (uint32_t i = 0; i < n; i++)
        if (row_at(f, i).suite == 4) return *r = i, 10;
    if (ring_len != 256) return 2;
    if (out_len != len) return 6;
    memcpy(out, f, len);
    out[0] = 1;
    for (uint32_t i = 0; i < n; i++) {
        row x = row_at(f, i);
        size_t at = x.at + x.ad;
        sealed(f, x, x.suite, ring, f + at, out + at, out + at + x.len);
    }
    return 0;
}

uint32_t NAME(unseal_file)(const uint8_t *f, size_t len, const uint8_t *ring, size_t ring_len, uint8_t *out, size_t out_len,
                           uint32_t *r) {
    uint32_t number = check_as(1, f, len, r);
    if (number) return number;
    if (ring_len != 256) return 2;
    if (out_len != len) return 6;
    memcpy(out, f, len);
    out[0] = 0;
    uint32_t n = load16(f + 2);
    for (uint32_t i = 0; i < n; i++) {
        row x = row_at(f, i);
        size_t at = x.at + x.ad;
        if (opened(f, x, ring, out + at)) return memset(out, 0, len), *r = i, 8;
        memset(out + at + x.len, 0, x.tag);
    }
    return 0;
}

uint32_t NAME(reseal)(const uint8_t *f, size_t len, const uint8_t *ring, size_t ring_len, uint8_t *out, size_t out_len,
                      uint32_t *r) {
    uint8_t table[16392], room[65536];
    uint32_t number = check_as(1, f, len, r);
    if (number) return number;
    uint32_t n = load16(f + 2);
    memcpy(table, f, 8 + 32 * n);
    for (uint32_t i = 0; i < n; i++)
        if (table[12 + 32 * i] == 4) table[12 + 32 * i] = 3;
    for (uint32_t i = 0; i < n; i++)
        if (clashes(table + 8, 32, i)) return *r = i, 29;
    if (ring_len != 256) return 2;
    if (out_len != len) return 6;
    memcpy(out, f, len);
    memcpy(out, table, 8 + 32 * n);
    for (uint32_t i = 0; i < n; i++) {
        row x = row_at(f, i);
        if (x.suite != 4) continue;
        if (opened(f, x, ring, room)) return memset(out, 0, len), *r = i, 8;
        sealed(f, x, 3, ring, room, out + x.at + x.ad, out + x.at + x.ad + x.len);
    }
    memset(room, 0, sizeof room);
    __asm__ volatile("" : : "r"(room) : "memory");
    return 0;
}

/* ---- editions ---- */

uint32_t NAME(to_edition2)(const uint8_t *f, size_t len, uint8_t *out, size_t out_len, uint32_t *r) {
    uint32_t number = check_as(1, f, len, r), n = number ? 0 : load16(f + 2);
    if (number) return number;
    size_t now = len + 4 * n;
    if (now > 1048576) return 20;
    if (out_len != now) return 6;
    uint32_t total = (uint32_t)now;
    memcpy(out, f, 4);
    out[0] = 2;
    memcpy(out + 4, &total, 4);
    for (uint32_t i = 0; i < n; i++) {
        const uint8_t *p = f + 8 + 32 * i;
        uint8_t *q = out + 8 + 36 * i;
        uint32_t at = load32(p + 8) + 4 * n;
        memcpy(q, p, 4);
        memset(q + 4, 0, 4);
        memcpy(q + 8, p + 4, 28);
        memcpy(q + 12, &at, 4);
    }
    memcpy(out + 8 + 36 * n, f + 8 + 32 * n, len - 8 - 32 * n);
    return 0;
}

uint32_t NAME(to_edition1)(const uint8_t *f, size_t len, uint8_t *out, size_t out_len, uint32_t *r) {
    uint32_t number = check_as(2, f, len, r), n = number ? 0 : load16(f + 2);
    if (number) return number;
    for (uint32_t i = 0; i < n; i++)
        if (load32(f + 12 + 36 * i)) return *r = i, 35;
    size_t now = len - 4 * n;
    if (out_len != now) return 6;
    uint32_t total = (uint32_t)now;
    memcpy(out, f, 4);
    out[0] = 1;
    memcpy(out + 4, &total, 4);
    for (uint32_t i = 0; i < n; i++) {
        const uint8_t *p = f + 8 + 36 * i;
        uint8_t *q = out + 8 + 32 * i;
        uint32_t at = load32(p + 12) - 4 * n;
        memcpy(q, p, 4);
        memcpy(q + 4, p + 8, 28);
        memcpy(q + 8, &at, 4);
    }
    memcpy(out + 8 + 32 * n, f + 8 + 36 * n, len - 8 - 36 * n);
    return 0;
}
