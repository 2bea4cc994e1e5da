/* Calls the proved library for the comparison: reads calls from the standard input and writes their results to the
 * standard output. reference/src/bridge.rs is the other end.
 *
 * A call is an index into the table `functions` (1 byte), then the function's arguments in the order of snoekeldraf.h.
 * An integer takes 8 bytes. A byte string or an output buffer is its length (4 bytes) and that many bytes. A session
 * is an output buffer of the 72 bytes of its words.
 * A result is the function's return value (4 bytes, 0 for a void function), then every output buffer, in the same order.
 * Integers are little-endian. The program exits at the end of its input, and with status 2 on a malformed call.
 */
#include "snoekeldraf.h"
#include <stdio.h>
#include <stdlib.h>

/* ---- the arguments of a call; all lie in `buffer`, which the next call reuses ---- */

typedef struct {
    uint8_t *at;
    size_t len;
} bytes;

/* A byte string as two arguments: pointer and length. */
#define SLICE(b) (b).at, (b).len

/* A list of 32-bit integers as two arguments: pointer and count. */
#define LIST(b) (uint32_t *)(b).at, (b).len / 4

static _Alignas(16) uint8_t buffer[1 << 23];
static size_t used;
static bytes outputs[16];
static int output_count;

static void get(void *to, size_t len) {
    if (fread(to, 1, len, stdin) != len) exit(2);
}

static uint64_t number(void) {
    uint64_t x;
    get(&x, 8);
    return x;
}

/* Reads a byte string. Each starts at a multiple of 16, so that it can also hold integers or a session. */
static bytes input(void) {
    uint32_t len;
    get(&len, 4);
    bytes b = {buffer + used, len};
    if (len > sizeof buffer - used) exit(2);
    get(b.at, len);
    used += (b.len + 15) / 16 * 16;
    return b;
}

/* Reads an output buffer with its contents before the call; main writes it back. */
static bytes output(void) {
    return outputs[output_count++] = input();
}

static uint32_t *output_u32(void) {
    return (uint32_t *)output().at;
}

static uint64_t *output_u64(void) {
    return (uint64_t *)output().at;
}

/* ---- the functions ---- */

static uint32_t seal(void) {
    uint8_t suite = (uint8_t)number();
    bytes key = input(), nonce = input(), ad = input(), msg = input(), out = output(), tag = output();
    return comet_seal(suite, SLICE(key), SLICE(nonce), SLICE(ad), SLICE(msg), SLICE(out), SLICE(tag));
}

static uint32_t open_record(void) {
    uint8_t suite = (uint8_t)number();
    bytes key = input(), nonce = input(), ad = input(), text = input(), tag = input(), out = output();
    return comet_open(suite, SLICE(key), SLICE(nonce), SLICE(ad), SLICE(text), SLICE(tag), SLICE(out));
}

static uint32_t check(void) {
    bytes file = input();
    return shift_check(SLICE(file), output_u32());
}

static uint32_t lookup(void) {
    bytes file = input();
    uint32_t job = (uint32_t)number();
    return shift_lookup(SLICE(file), job, output_u32());
}

static uint32_t associated(void) {
    bytes file = input();
    uint32_t job = (uint32_t)number(), *at = output_u32(), *len = output_u32();
    return shift_associated(SLICE(file), job, at, len);
}

static uint32_t open_job(void) {
    bytes file = input(), ring = input();
    uint32_t job = (uint32_t)number();
    bytes out = output();
    return shift_open_job(SLICE(file), SLICE(ring), job, SLICE(out), output_u32());
}

static uint32_t entry(void) {
    bytes file = input();
    uint32_t job = (uint32_t)number(), *row = output_u32(), *ad_at = output_u32(), *ad_len = output_u32(),
             *text_at = output_u32(), *text_len = output_u32();
    return shift_entry(SLICE(file), job, row, ad_at, ad_len, text_at, text_len);
}

static comet_session *session(void) {
    bytes b = output();
    if (b.len != sizeof(comet_session)) exit(2);
    return (comet_session *)b.at;
}

static uint32_t session_start(void) {
    comet_session *s = session();
    uint8_t suite = (uint8_t)number();
    bytes key = input(), nonce = input();
    return comet_session_start(s, suite, SLICE(key), SLICE(nonce));
}

static uint32_t session_data(void) {
    comet_session *s = session();
    bytes ad = input();
    return comet_session_data(s, SLICE(ad));
}

static uint32_t session_part(void) {
    comet_session *s = session();
    bytes msg = input(), out = output();
    return comet_session_part(s, SLICE(msg), SLICE(out), output_u32());
}

static uint32_t session_end(void) {
    comet_session *s = session();
    bytes out = output(), tag = output();
    return comet_session_end(s, SLICE(out), SLICE(tag), output_u32());
}

static uint32_t session_wipe(void) {
    comet_session_wipe(session());
    return 0;
}

static uint32_t seal_file(void) {
    bytes draft = input(), ring = input(), out = output();
    return shift_seal_file(SLICE(draft), SLICE(ring), SLICE(out), output_u32());
}

static uint32_t unseal_file(void) {
    bytes file = input(), ring = input(), out = output();
    return shift_unseal_file(SLICE(file), SLICE(ring), SLICE(out), output_u32());
}

static uint32_t search(void) {
    bytes file = input();
    uint32_t job = (uint32_t)number(), *row = output_u32(), *looked = output_u32();
    return shift_search(SLICE(file), job, row, looked);
}

static uint32_t reseal(void) {
    bytes file = input(), ring = input(), out = output();
    return shift_reseal(SLICE(file), SLICE(ring), SLICE(out), output_u32());
}

static uint32_t compare(void) {
    bytes first = input(), second = input(), only_first = output(), only_second = output(), differ = output();
    uint32_t *first_count = output_u32(), *second_count = output_u32(), *differ_count = output_u32(),
             *file = output_u32(), *row = output_u32();
    return shift_compare(SLICE(first), SLICE(second), LIST(only_first), LIST(only_second), LIST(differ), first_count,
                         second_count, differ_count, file, row);
}

static uint32_t to_edition2(void) {
    bytes file = input(), out = output();
    return shift_to_edition2(SLICE(file), SLICE(out), output_u32());
}

static uint32_t to_edition1(void) {
    bytes file = input(), out = output();
    return shift_to_edition1(SLICE(file), SLICE(out), output_u32());
}

static uint32_t amended(void) {
    bytes amendment = input(), day = input();
    uint32_t job = (uint32_t)number(), *file = output_u32(), *row = output_u32(), *at = output_u32(),
             *len = output_u32();
    return shift_amended(SLICE(amendment), SLICE(day), job, file, row, at, len);
}

static uint32_t open_amended(void) {
    bytes amendment = input(), day = input(), ring = input();
    uint32_t job = (uint32_t)number();
    bytes out = output();
    uint32_t *file = output_u32(), *row = output_u32();
    return shift_open_amended(SLICE(amendment), SLICE(day), SLICE(ring), job, SLICE(out), file, row);
}

static uint32_t seal_counted(void) {
    uint8_t suite = (uint8_t)number();
    bytes key = input(), nonce = input(), ad = input(), msg = input(), out = output(), tag = output();
    return comet_seal_counted(suite, SLICE(key), SLICE(nonce), SLICE(ad), SLICE(msg), SLICE(out), SLICE(tag),
                              output_u64());
}

static uint32_t open_counted(void) {
    uint8_t suite = (uint8_t)number();
    bytes key = input(), nonce = input(), ad = input(), text = input(), tag = input(), out = output();
    return comet_open_counted(suite, SLICE(key), SLICE(nonce), SLICE(ad), SLICE(text), SLICE(tag), SLICE(out),
                              output_u64());
}

static uint32_t report(void) {
    bytes file = input(), ring = input(), jobs = output(), numbers = output();
    uint32_t *count = output_u32(), *row = output_u32();
    return shift_report(SLICE(file), SLICE(ring), LIST(jobs), SLICE(numbers), count, row);
}

static uint32_t seal_in_place(void) {
    uint8_t suite = (uint8_t)number();
    bytes key = input(), nonce = input(), ad = input(), text = output(), tag = output();
    return comet_seal_in_place(suite, SLICE(key), SLICE(nonce), SLICE(ad), SLICE(text), SLICE(tag));
}

/* The next two only read the tag, and comet_verify only reads the text. Both are sent back as well, so that the
 * comparison sees a byte that was written by mistake. */

static uint32_t open_in_place(void) {
    uint8_t suite = (uint8_t)number();
    bytes key = input(), nonce = input(), ad = input(), text = output(), tag = output();
    return comet_open_in_place(suite, SLICE(key), SLICE(nonce), SLICE(ad), SLICE(text), SLICE(tag));
}

static uint32_t verify(void) {
    uint8_t suite = (uint8_t)number();
    bytes key = input(), nonce = input(), ad = input(), text = output(), tag = output();
    return comet_verify(suite, SLICE(key), SLICE(nonce), SLICE(ad), SLICE(text), SLICE(tag));
}

static uint32_t moved_length(void) {
    bytes file = input();
    return (uint32_t)shift_moved_length(SLICE(file));
}

static uint32_t verified(void) {
    bytes file = input(), ring = input();
    uint32_t job = (uint32_t)number(), *row = output_u32(), *at = output_u32(), *len = output_u32();
    return shift_verified(SLICE(file), SLICE(ring), job, row, at, len);
}

static uint32_t rows(void) {
    bytes file = input();
    uint32_t *edition = output_u32(), *rows = output_u32();
    return shift_rows(SLICE(file), edition, rows);
}

static uint32_t row(void) {
    bytes file = input();
    uint32_t index = (uint32_t)number();
    bytes fields = output();
    if (fields.len != sizeof(shift_fields)) exit(2);
    return shift_row(SLICE(file), index, (shift_fields *)fields.at);
}

static uint32_t (*const functions[])(void) = {
    seal, open_record, check, lookup, associated, open_job, entry,
    session_start, session_data, session_part, session_end,
    seal_file, unseal_file,
    search,
    reseal,
    compare,
    to_edition2, to_edition1,
    amended, open_amended,
    seal_counted, open_counted,
    report,
    seal_in_place, open_in_place, verify,
    moved_length,
    session_wipe,
    verified,
    rows, row,
};

int main(void) {
    for (int function; (function = getchar()) != EOF; fflush(stdout)) {
        used = 0;
        output_count = 0;
        if ((size_t)function >= sizeof functions / sizeof *functions) exit(2);
        uint32_t status = functions[function]();
        fwrite(&status, 4, 1, stdout);
        for (int i = 0; i < output_count; i++) fwrite(outputs[i].at, 1, outputs[i].len, stdout);
    }
    return 0;
}
