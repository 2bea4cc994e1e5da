/* Calls every case for each implementation between two marks; the plugin (plugin.c) writes the instruction count at each
 * mark. The standard output has a line for each pair of marks: case, unit, divisor of the count, implementation; `count`
 * joins both. The results of all implementations are compared with the proved library's: a difference ends the run.
 *
 *   harness              all cases
 *   harness ONLY         the cases whose name starts with ONLY; ONLY$ is one case by its whole name
 *   harness ONLY$ WHO    one implementation alone
 */
#include "snoekeldraf.h"
#include <stdio.h>
#include <stdlib.h>
#include <string.h>

/* ---- marks ---- */

static long calls_made;
static const char *only = "", *alone = "";
static int chosen(const char *name) {
    size_t n = strlen(only);
    if (n && only[n - 1] == '$') return strlen(name) == n - 1 && strncmp(name, only, n - 1) == 0;
    return strncmp(name, only, n) == 0;
}

static inline __attribute__((always_inline)) void system_call(long number, long id) {
    long r;
    __asm__ volatile("syscall" : "=a"(r) : "a"(number), "D"(id) : "rcx", "r11", "memory");
}

#define COUNT(name, unit, by, impl, call)                                                                              \
    do {                                                                                                               \
        if (chosen(name) && (!*alone || strcmp(alone, impl) == 0)) {                                                   \
            printf("%s\t%s\t%zu\t%s\n", name, unit, (size_t)(by), impl);                                               \
            fflush(stdout);                                                                                            \
            call;                                                                                                      \
            system_call(0x5245, calls_made++);                                                                         \
            call;                                                                                                      \
            system_call(0x5245, calls_made++);                                                                         \
        }                                                                                                              \
    } while (0)

/* Whether some case whose name begins with `start` may be chosen; if not, its data need not be built. */
static int may(const char *start) {
    size_t a = strlen(only), b = strlen(start);
    return strncmp(start, only, a < b ? a : b) == 0;
}

/* Whether the results of a case are compared: only if every implementation was called. */
static int compared_too(const char *name) { return !*alone && chosen(name); }

static void must(int right, const char *what) {
    if (right) return;
    printf("DIFFERS\t%s\t1\t-\n", what);
    exit(1);
}

/* ---- implementations ---- */

typedef uint8_t B;
typedef const uint8_t *P;
typedef uint32_t U;
typedef size_t N;
typedef U seal_fn(B, P, N, P, N, P, N, P, N, B *, N, B *, N);
typedef U open_fn(B, P, N, P, N, P, N, P, N, P, N, B *, N);
typedef U check_fn(P, N, U *);
typedef U lookup_fn(P, N, U, U *);
typedef U search_fn(P, N, U, U *, U *);
typedef U open_job_fn(P, N, P, N, U, B *, N, U *);
typedef U file_fn(P, N, P, N, B *, N, U *);
typedef U compare_fn(P, N, P, N, U *, N, U *, N, U *, N, U *, U *, U *, U *, U *);
typedef U report_fn(P, N, P, N, U *, N, B *, N, U *, U *);
typedef U amended_fn(P, N, P, N, U, U *, U *, U *, U *);
typedef U open_amended_fn(P, N, P, N, P, N, U, B *, N, U *, U *);
typedef U move_fn(P, N, B *, N, U *);

typedef struct {
    const char *name;
    check_fn *check;
    lookup_fn *lookup;
    search_fn *search;
    open_job_fn *open_job;
    file_fn *seal_file, *unseal_file, *reseal;
    compare_fn *compare;
    report_fn *report;
    amended_fn *amended;
    open_amended_fn *open_amended;
    move_fn *up, *back;
} files;

#define DECLARE(p)                                                                                                     \
    extern seal_fn p##_plain_seal, p##_columns_seal, p##_simple_seal;                                                   \
    extern open_fn p##_columns_open, p##_simple_open;                                                                  \
    extern check_fn p##_plain_check;                                                                                   \
    extern lookup_fn p##_lookup;                                                                                       \
    extern search_fn p##_search;                                                                                       \
    extern open_job_fn p##_open_job;                                                                                   \
    extern file_fn p##_seal_file, p##_unseal_file, p##_reseal;                                                         \
    extern compare_fn p##_compare;                                                                                     \
    extern report_fn p##_report;                                                                                       \
    extern amended_fn p##_amended;                                                                                     \
    extern open_amended_fn p##_open_amended;                                                                           \
    extern move_fn p##_to_edition2, p##_to_edition1;
DECLARE(gcc)
DECLARE(clang)
DECLARE(kit)
enum { WHO = 4 };
#define FILES(p)                                                                                                       \
    {#p, p##_plain_check, p##_lookup, p##_search, p##_open_job, p##_seal_file, p##_unseal_file, p##_reseal,            \
     p##_compare, p##_report, p##_amended, p##_open_amended, p##_to_edition2, p##_to_edition1}
static const files who[WHO] = {
    {"ours", shift_check, shift_lookup, shift_search, shift_open_job, shift_seal_file, shift_unseal_file, shift_reseal,
     shift_compare, shift_report, shift_amended, shift_open_amended, shift_to_edition2, shift_to_edition1},
    FILES(gcc), FILES(clang), FILES(kit)};

typedef struct {
    const char *name;
    seal_fn *seal;
    open_fn *open;
} modes;
static const modes mode[] = {{"ours", comet_seal, comet_open},
                             {"gcc", gcc_columns_seal, gcc_columns_open},
                             {"clang", clang_columns_seal, clang_columns_open},
                             {"kit", kit_columns_seal, kit_columns_open},
                             {"gcc-plain", gcc_plain_seal, 0},
                             {"clang-plain", clang_plain_seal, 0},
                             {"kit-plain", kit_plain_seal, 0},
                             {"gcc-simple", gcc_simple_seal, gcc_simple_open},
                             {"clang-simple", clang_simple_seal, clang_simple_open},
                             {"kit-simple", kit_simple_seal, kit_simple_open}};
enum { MODES = sizeof mode / sizeof *mode };

#define EACH(i) for (int i = 0; i < WHO; i++)

/* ---- data ---- */

static uint64_t seed = 88172645463325252u;
static B byte(void) {
    seed ^= seed << 13, seed ^= seed >> 7, seed ^= seed << 17;
    return (B)(seed >> 32);
}

static B key[16], nonce[16], ad[65536], msg[65536], one[65536 + 16], two[65536 + 16], tag[16], tag2[16], ring[256];
enum { MIB = 1048576 };

static int wide(int s) { return s < 3 || s == 5; }

/* ---- sealing and opening ---- */

static void modes_all(void) {
    static const N texts[] = {0, 1, 15, 64, 1024, 65536}, data[] = {0, 16};
    char name[80];
    for (int s = 1; s <= 6; s++)
        for (int d = 0; d < 2; d++)
            for (int t = 0; t < 6; t++) {
                N n = texts[t], a = data[d], nl = wide(s) ? 16 : 15, tl = wide(s) ? 16 : 8;
                char other[80];
                snprintf(name, sizeof name, "seal %d ad %zu msg %zu", s, a, n);
                snprintf(other, sizeof other, "open %d ad %zu msg %zu", s, a, n);
                if (!chosen(name) && !chosen(other)) continue;
                gcc_simple_seal((B)s, key, 16, nonce, nl, ad, a, msg, n, one, n, tag, tl);
                for (int i = 0; i < MODES && s != 4; i++) {
                    memset(two, 0xee, n), memset(tag2, 0xee, tl);
                    COUNT(name, "byte", n, mode[i].name,
                          mode[i].seal((B)s, key, 16, nonce, nl, ad, a, msg, n, two, n, tag2, tl));
                    if (compared_too(name))
                        must(memcmp(one, two, n) == 0 && memcmp(tag, tag2, tl) == 0, name);
                }
                snprintf(name, sizeof name, "open %d ad %zu msg %zu", s, a, n);
                for (int i = 0; i < MODES; i++) {
                    if (!mode[i].open) continue;
                    memset(two, 0xee, n);
                    COUNT(name, "byte", n, mode[i].name,
                          mode[i].open((B)s, key, 16, nonce, nl, ad, a, one, n, tag, tl, two, n));
                    if (compared_too(name)) must(memcmp(msg, two, n) == 0, name);
                }
            }
}

/* The cost of a refused call, and of a wrong tag, which adds the wiping of the output. */
static void refusals(void) {
    EACH(i) {
        COUNT("refused 1", "call", 1, mode[i].name, mode[i].seal(9, key, 16, nonce, 16, ad, 16, msg, 64, two, 64, tag2, 16));
        COUNT("refused 7", "call", 1, mode[i].name, mode[i].seal(1, key, 16, nonce, 16, ad, 16, msg, 64, two, 64, tag2, 8));
        COUNT("forged 3 msg 65536", "byte", 65536, mode[i].name,
              mode[i].open(3, key, 16, nonce, 15, ad, 16, msg, 65536, tag2, 8, two, 65536));
    }
}

/* ---- sessions ---- */

static uint32_t refused; /* the OR of all statuses of the session calls */

static void session(int s, N part, N all) {
    N nl = wide(s) ? 16 : 15, tl = wide(s) ? 16 : 8, at = 0;
    comet_session state;
    uint32_t count = 0, status = comet_session_start(&state, (B)s, key, 16, nonce, nl);
    status |= comet_session_data(&state, ad, 16);
    for (N i = 0; i < all; i += part) {
        N k = all - i < part ? all - i : part;
        status |= comet_session_part(&state, msg + i, k, two + at, k + 15, &count);
        at += count;
    }
    status |= comet_session_end(&state, two + at, 16, tag2, tl, &count);
    refused |= status;
}

static void sessions(void) {
    static const N parts[] = {8, 64, 100, 1024, 65536};
    char name[80];
    for (int s = 1; s <= 6; s++) {
        if (s == 4) continue;
        N nl = wide(s) ? 16 : 15, tl = wide(s) ? 16 : 8;
        comet_seal((B)s, key, 16, nonce, nl, ad, 16, msg, 65536, one, 65536, tag, tl);
        for (int p = 0; p < 5; p++) {
            snprintf(name, sizeof name, "session %d parts of %zu", s, parts[p]);
            memset(two, 0xee, sizeof two);
            COUNT(name, "byte", 65536, "ours", session(s, parts[p], 65536));
            if (compared_too(name)) must(!refused && memcmp(one, two, 65536) == 0 && memcmp(tag, tag2, tl) == 0, name);
        }
    }
}

/* ---- files ---- */

static void put16(B *p, U x) { p[0] = (B)x, p[1] = (B)(x >> 8); }
static void put32(B *p, U x) { put16(p, x), put16(p + 2, x >> 16); }

/* Writes a draft of n rows to f and returns its length. Row i has job 10 i + 10, a bytes of associated data and a message
 * of m bytes. Suite 0 stands for 1, 2, 3, 5, 6 cyclically. like: the nonces differ in their last bytes only, like counters. */
static N draft(B *f, U n, N a, N m, int suite, int like) {
    static const B cycle[5] = {1, 2, 3, 5, 6};
    N at = 8 + 32 * n;
    seed = 7;
    memset(f, 0, MIB);
    for (U i = 0; i < n; i++) {
        B *p = f + 8 + 32 * i, s = suite ? (B)suite : cycle[i % 5];
        put32(p, 10 * i + 10);
        p[4] = s, p[5] = i % 16;
        put16(p + 6, (U)a), put32(p + 8, (U)at), put32(p + 12, (U)m);
        for (int k = 0; k < 15; k++) p[16 + k] = like ? 0x5a : byte();
        if (like) put16(p + 28, i);
        put32(f + at, 10 * i + 10);
        f[at + 4] = 1 + i % 2;
        for (N k = 5; k < a + m; k++) f[at + k] = byte();
        at += a + m + (wide(s) ? 16 : 8);
    }
    put16(f + 2, n), put32(f + 4, (U)at);
    return at;
}

/* Writes the sealed file of such a draft; also for suite 4, which is retired and which the writer refuses. */
static N file(B *f, U n, N a, N m, int suite, int like) {
    static B d[MIB];
    U r;
    N len = draft(d, n, a, m, suite == 4 ? 3 : suite, like);
    must(gcc_seal_file(d, len, ring, 256, f, len, &r) == 0, "draft");
    for (U i = 0; i < n && suite == 4; i++) {
        B *p = f + 8 + 32 * i, *b = f + 8 + 32 * n + i * (a + m + 8);
        p[4] = 4;
        gcc_simple_seal(4, ring + 16 * p[5], 16, p + 16, 15, b, a, d + (b + a - f), m, b + a, m, b + a + m, 8);
    }
    return len;
}

/* Writes a file of n rows of suite 1 that all hash to the same bits of the check's Bloom filter (crates/shift_check/src/marks.rt):
 * the two words of a nonce fold to the same value in each row. So every row is compared with every earlier one. */
static N colliding(B *f, U n) {
    N len = file(f, n, 5, 0, 1, 0);
    for (U i = 0; i < n; i++) {
        uint64_t b = i + 1, a = 0x0123456789abcdef ^ b << 35 ^ b >> 29;
        f[8 + 32 * i + 5] = 0;
        memcpy(f + 8 + 32 * i + 16, &a, 8), memcpy(f + 8 + 32 * i + 24, &b, 8);
    }
    return len;
}

static B f1[MIB], f2[MIB], f3[MIB], o1[MIB], o2[MIB];
static U l1[3][512], l2[3][512], v1[5], v2[5];
static B n1[512];

static void checks(void) {
    char name[80];
    for (int like = 0; like < 2; like++)
        for (U n = 64; n <= 512; n *= 2) {
            N len = file(f1, n, 5, 0, 0, like);
            snprintf(name, sizeof name, "check %u rows %s nonces", n, like ? "counter" : "random");
            EACH(i) COUNT(name, "row", n, who[i].name, must(who[i].check(f1, len, v1) == 0, name));
        }
    N len = colliding(f1, 512);
    EACH(i) COUNT("check 512 rows made to collide", "row", 512, who[i].name, must(who[i].check(f1, len, v1) == 0, "collide"));
    for (U n = 1; n < 16; n *= 2) {
        len = file(f1, n, 5, 0, 0, 0);
        snprintf(name, sizeof name, "check %u rows", n);
        EACH(i) COUNT(name, "row", n, who[i].name, must(who[i].check(f1, len, v1) == 0, name));
    }
    len = file(f1, 512, 16, 1987, 0, 0);
    EACH(i) COUNT("check 512 rows 1 MiB", "row", 512, who[i].name, must(who[i].check(f1, len, v1) == 0, "check"));
    len = file(f1, 15, 16, 65536, 0, 0);
    EACH(i) COUNT("check 15 rows 1 MiB", "row", 15, who[i].name, must(who[i].check(f1, len, v1) == 0, "check"));
}

static void jobs(void) {
    char name[80];
    N len = file(f1, 512, 16, 1987, 0, 0);
    for (U k = 507; k < 512; k++) {
        U job = 10 * k + 10;
        snprintf(name, sizeof name, "open_job 512 rows 1 MiB suite %d", f1[8 + 32 * k + 4]);
        EACH(i) COUNT(name, "call", 1, who[i].name, must(who[i].open_job(f1, len, ring, 256, job, o1, 1987, v1) == 0, name));
    }
    static const U which[] = {10, 2570, 5120, 15};
    for (int k = 0; k < 4; k++) {
        snprintf(name, sizeof name, "lookup job %u of 512 rows", which[k]);
        EACH(i) COUNT(name, "call", 1, who[i].name, who[i].lookup(f1, len, which[k], v1));
        snprintf(name, sizeof name, "search job %u of 512 rows", which[k]);
        EACH(i) COUNT(name, "call", 1, who[i].name, who[i].search(f1, len, which[k], v1, v1 + 1));
    }
    U row = 0;
    EACH(i) {
        must(who[i].lookup(f1, len, 5120, &row) == 0 && row == 511, "lookup");
        must(who[i].search(f1, len, 5120, &row, v1) == 0 && row == 511, "search");
    }
    N small = file(f2, 8, 16, 100, 0, 0);
    EACH(i) COUNT("amended 8 rows, day 512 rows", "call", 1, who[i].name,
                  must(who[i].amended(f2, small, f1, len, 5120, v1, v1 + 1, v1 + 2, v1 + 3) == 0 && v1[0] == 2, "amended"));
    EACH(i) COUNT("open_amended from the day 512 rows", "call", 1, who[i].name,
                  must(who[i].open_amended(f2, small, f1, len, ring, 256, 5120, o1, 1987, v1, v1 + 1) == 0, "open_amended"));
    EACH(i) COUNT("open_amended from the amendment 8 rows", "call", 1, who[i].name,
                  must(who[i].open_amended(f2, small, f1, len, ring, 256, 10, o1, 100, v1, v1 + 1) == 0, "open_amended"));
}

static void compared(const char *name, N a, N b, N by) {
    EACH(i) {
        memset(l1, 0xee, sizeof l1);
        COUNT(name, "byte", by, who[i].name,
              must(who[i].compare(f1, a, f2, b, l1[0], 512, l1[1], 512, l1[2], 512, v1, v1 + 1, v1 + 2, v1 + 3,
                                  v1 + 4) == 0, name));
        if (compared_too(name)) {
            if (i) must(memcmp(l1, l2, sizeof l1) == 0 && memcmp(v1, v2, sizeof v1) == 0, name);
            memcpy(l2, l1, sizeof l1), memcpy(v2, v1, sizeof v1);
        }
    }
}

static void compares(void) {
    char name[80];
    for (U n = 64; n <= 512; n *= 2) {
        N len = file(f1, n, 5, 0, 0, 0);
        memcpy(f2, f1, len);
        snprintf(name, sizeof name, "compare equal %u rows small", n);
        compared(name, len, len, n);
    }
    for (N m = 250; m <= 2000; m *= 2) {
        N len = file(f1, 512, 16, m - 13, 0, 0);
        memcpy(f2, f1, len);
        snprintf(name, sizeof name, "compare equal 512 rows of %zu", m);
        compared(name, len, len, len);
    }
    N len = file(f1, 512, 16, 1987, 0, 0);
    memcpy(f2, f1, len);
    for (U i = 0; i < 512; i++) {
        U at = f2[8 + 32 * i + 8] | f2[8 + 32 * i + 9] << 8 | f2[8 + 32 * i + 10] << 16;
        f2[at + 16] ^= 1;
    }
    compared("compare 512 rows of 2000, all differ early", len, len, len);
    for (U i = 0; i < 512; i++) {
        U at = f2[8 + 32 * i + 8] | f2[8 + 32 * i + 9] << 8 | f2[8 + 32 * i + 10] << 16;
        put32(f2 + 8 + 32 * i, 10 * i + 11), put32(f2 + at, 10 * i + 11);
    }
    compared("compare 512 rows of 2000, no job in both", len, len, len);
}

static void reports(void) {
    static const U rows[] = {64, 128, 256, 512};
    char name[80];
    for (int k = 0; k < 4; k++) {
        N body = (65280 - 8) / rows[k] - 32 - 13, len = file(f1, rows[k], 16, body - 16, 0, 0);
        must(len <= 65280 && len > 64000, "report");
        snprintf(name, sizeof name, "report %u rows 65,280 bytes", rows[k]);
        EACH(i) {
            memset(n1, 0xee, sizeof n1);
            COUNT(name, "byte", len, who[i].name,
                  must(who[i].report(f1, len, ring, 256, l1[0], 512, n1, 512, v1, v1 + 1) == 0 && v1[0] == rows[k], name));
            for (U j = 0; j < rows[k] && compared_too(name); j++) must(n1[j] == 0, name);
        }
    }
}

static void written(const char *name, file_fn *const f[WHO], N len) {
    EACH(i) {
        memset(o1, 0xee, len);
        COUNT(name, "byte", len, who[i].name, must(f[i](f1, len, ring, 256, o1, len, v1) == 0, name));
        if (compared_too(name)) {
            if (i) must(memcmp(o1, o2, len) == 0, name);
            memcpy(o2, o1, len);
        }
    }
}

static void writers(void) {
    file_fn *const seals[WHO] = {who[0].seal_file, who[1].seal_file, who[2].seal_file, who[3].seal_file};
    file_fn *const opens[WHO] = {who[0].unseal_file, who[1].unseal_file, who[2].unseal_file, who[3].unseal_file};
    file_fn *const again[WHO] = {who[0].reseal, who[1].reseal, who[2].reseal, who[3].reseal};
    char name[80];
    for (U n = 64; n <= 512; n *= 2) {
        N len = draft(f1, n, 5, 0, 0, 0);
        snprintf(name, sizeof name, "seal_file %u rows small", n);
        written(name, seals, len);
    }
    for (N m = 250; m <= 2000; m *= 2) {
        N len = draft(f1, 512, 16, m - 13, 0, 0);
        snprintf(name, sizeof name, "seal_file 512 rows of %zu", m);
        written(name, seals, len);
        len = file(f1, 512, 16, m - 13, 0, 0);
        snprintf(name, sizeof name, "unseal_file 512 rows of %zu", m);
        written(name, opens, len);
        len = file(f1, 512, 16, m - 13, 4, 0);
        snprintf(name, sizeof name, "reseal 512 rows of %zu, all suite 4", m);
        written(name, again, len);
        len = file(f1, 512, 16, m - 13, 0, 0);
        snprintf(name, sizeof name, "reseal 512 rows of %zu, none suite 4", m);
        written(name, again, len);
    }
    N len = file(f1, 1, 16, 20, 4, 0);
    written("reseal 1 row of 20", again, len);
    static const int suites[] = {1, 2, 3, 5, 6};
    for (int k = 0; k < 5; k++) {
        len = draft(f1, 15, 16, 65536, suites[k], 0);
        snprintf(name, sizeof name, "seal_file 15 rows of 65536 suite %d", suites[k]);
        written(name, seals, len);
    }
}

static void moved(const char *name, move_fn *const f[WHO], const B *from, N len, N out) {
    EACH(i) {
        memset(o1, 0xee, out);
        COUNT(name, "byte", len, who[i].name, must(f[i](from, len, o1, out, v1) == 0, name));
        if (compared_too(name)) {
            if (i) must(memcmp(o1, o2, out) == 0, name);
            memcpy(o2, o1, out);
        }
    }
}

static void moves(void) {
    move_fn *const up[WHO] = {who[0].up, who[1].up, who[2].up, who[3].up};
    move_fn *const back[WHO] = {who[0].back, who[1].back, who[2].back, who[3].back};
    char name[80];
    U r;
    for (N m = 0; m <= 1960; m += 980) {
        N len = file(f1, 512, 16, m, 0, 0), out = len + 4 * 512;
        snprintf(name, sizeof name, "to_edition2 512 rows of %zu", m);
        moved(name, up, f1, len, out);
        must(gcc_to_edition2(f1, len, f3, out, &r) == 0, name);
        snprintf(name, sizeof name, "to_edition1 512 rows of %zu", m);
        moved(name, back, f3, out, len);
    }
}

#ifdef YARD
/* ---- the reader, which has no C interface; the crate yard exports it ---- */

extern uint64_t yard_cursor(P, N, uint64_t);

static void readers(void) {
    char name[80];
    for (U n = 64; n <= 512; n *= 2) {
        N len = file(f1, n, 5, 0, 0, 0);
        snprintf(name, sizeof name, "reader over %u rows", n);
        COUNT(name, "row", n, "ours", must(yard_cursor(f1, len, n + 1) == n, name));
    }
}
#endif

int main(int argc, char **argv) {
    if (argc > 2) alone = argv[2];
    for (int i = 0; i < 16; i++) key[i] = (B)(17 * i), nonce[i] = i < 15 ? (B)(3 * i + 1) : 0;
    for (int i = 0; i < 256; i++) ring[i] = byte();
    for (int i = 0; i < 65536; i++) ad[i] = byte(), msg[i] = byte();
    const char *whose = alone;
    alone = "";
    COUNT("nothing", "call", 1, "ours", (void)0);
    alone = whose;
    if (argc > 1) only = argv[1];
    if (may("seal ") || may("open ")) modes_all();
    if (may("refused ") || may("forged ")) refusals();
    if (may("session ")) sessions();
    if (may("check ")) checks();
    if (may("open_job ") || may("lookup ") || may("search ") || may("amended ") || may("open_amended ")) jobs();
    if (may("compare ")) compares();
    if (may("report ")) reports();
    if (may("seal_file ") || may("unseal_file ") || may("reseal ")) writers();
    if (may("to_edition")) moves();
#ifdef YARD
    if (may("reader ")) readers();
#endif
    return 0;
}
