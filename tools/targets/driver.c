/* Runs the gate's test data through the C functions of a target's library, and writes the lines of the test programs.
 *
 * The input is one byte, 'c', 's', 'f' or 'w', and then the stdin of test_comet, test_session, test_shift or test_writer.
 * reference/README.md has the format of calls and lines. The driver leaves out lines that no C function produces: those of
 * test_shift's ops 6 to 9, which are what the plant's programs print, and the reader's in op 5.
 *
 * It also checks what the lines do not show: the bytes before and after every output buffer, the inputs, and values that are
 * documented in terms of another function. A fault is a line `fault ..`, which no expectation contains.
 *
 * With -DSUITE=n the driver calls a small build of suite n (small.c) and writes `skipped` for calls of another suite.
 * Input and output are take() and put(): files.c has them for a C library, run-wasm.mjs for WebAssembly.
 */
#include "driver.h"

/* ---- buffers ---- */

enum { GUARD = 16, FILL = 0xa5, MOST_OUTPUTS = 4 };

static uint8_t input_buffer[300000], output_buffer[140000];
static uint32_t list_buffer[3][520 + 2 * GUARD];
static size_t input_used, output_used;
static bytes outputs[MOST_OUTPUTS];
static int output_count;
static unsigned call_count;

static void fill(uint8_t *to, size_t len, uint8_t value) {
    while (len-- > 0) *to++ = value;
}

static int filled(const uint8_t *at, size_t len) {
    while (len-- > 0)
        if (*at++ != FILL) return 0;
    return 1;
}

/* Starts a call. Its buffers begin at another alignment than those of the last call: the functions accept any. */
static void begin(void) {
    call_count++;
    input_used = call_count % 8;
    output_used = call_count / 8 % 8;
    output_count = 0;
}

static bytes reserve(uint32_t len) {
    bytes b = {input_buffer + input_used, len};
    if (len > sizeof input_buffer - input_used) stop("input is too long");
    input_used += len;
    return b;
}

bytes input(uint32_t len) {
    bytes b = reserve(len);
    if (take(b.at, len) != len) stop("input ends early");
    return b;
}

bytes output(uint32_t len) {
    bytes b = {output_buffer + output_used + GUARD, len};
    if (len + 2 * GUARD > sizeof output_buffer - output_used) stop("output is too long");
    fill(output_buffer + output_used, len + 2 * GUARD, FILL);
    output_used += len + 2 * GUARD;
    return outputs[output_count++] = b;
}

list output_list(int which, uint32_t len) {
    list l = {list_buffer[which] + GUARD, len};
    if (len > 520) stop("list is too long");
    fill((uint8_t *)list_buffer[which], sizeof list_buffer[which], FILL);
    return l;
}

uint32_t sum_of_inputs(void) {
    uint32_t sum = 0;
    for (size_t i = 0; i < input_used; i++) sum = sum * 31 + input_buffer[i];
    return sum;
}

void check_guards(uint32_t sum) {
    for (int i = 0; i < output_count; i++) {
        bytes b = outputs[i];
        if (!filled(b.at - GUARD, GUARD) || !filled(b.at + b.len, GUARD)) fault("wrote outside an output");
    }
    if (sum != sum_of_inputs()) fault("wrote to an input");
}

void check_list(int which, list l) {
    if (!filled((const uint8_t *)list_buffer[which], 4 * GUARD)) fault("wrote before a list");
    if (!filled((const uint8_t *)(l.at + l.len), 4 * GUARD)) fault("wrote after a list");
}

/* ---- lines ---- */

static char text[512];
static size_t text_len;

static void flush(void) {
    put(text, text_len);
    text_len = 0;
}

void letter(char c) {
    if (text_len == sizeof text) flush();
    text[text_len++] = c;
}

void word(const char *s) {
    while (*s) letter(*s++);
}

void end_line(void) { letter('\n'); }

void number(uint64_t n) {
    char digits[20];
    int k = 0;
    do digits[k++] = (char)('0' + n % 10);
    while ((n /= 10) > 0);
    while (k > 0) letter(digits[--k]);
}

void and_number(uint64_t n) {
    letter(' ');
    number(n);
}

void hex_digits(uint32_t n, int digits) {
    while (digits-- > 0) letter("0123456789abcdef"[n >> 4 * digits & 15]);
}

enum { PRIME = 5 }; /* the fold's modulus is 2^32 - 5, so 2^32 is congruent to 5 */

uint32_t folded(uint32_t fold, uint8_t byte) {
    uint64_t x = (uint64_t)fold * 257 + byte + 1;
    x = (x >> 32) * PRIME + (uint32_t)x;
    x = (x >> 32) * PRIME + (uint32_t)x;
    return x >= 0xffffffffu - PRIME + 1 ? (uint32_t)(x + PRIME) : (uint32_t)x;
}

uint32_t folded_bytes(uint32_t fold, bytes b) {
    for (uint32_t i = 0; i < b.len; i++) fold = folded(fold, b.at[i]);
    return fold;
}

void and_bytes(bytes b) {
    letter(' ');
    if (b.len > 64) {
        number(b.len);
        letter(':');
        hex_digits(folded_bytes(0, b), 8);
        return;
    }
    for (uint32_t i = 0; i < b.len; i++) hex_digits(b.at[i], 2);
}

void and_list(list l) {
    for (uint32_t i = 0; i < l.len; i++) and_number(l.at[i]);
}

void fault(const char *what) {
    word("fault in call ");
    number(call_count);
    word(": ");
    word(what);
    end_line();
}

void stop(const char *what) {
    fault(what);
    flush();
    leave(2);
}

/* ---- calls ---- */

static uint32_t number_at(const uint8_t *b) {
    return b[0] | (uint32_t)b[1] << 8 | (uint32_t)b[2] << 16 | (uint32_t)b[3] << 24;
}

static int next_call(call *c) {
    uint8_t head[30];
    size_t got = take(head, sizeof head);
    if (got == 0) return 0;
    if (got != sizeof head) stop("input ends early");
    c->op = head[0];
    c->suite = head[1];
    c->job = number_at(head + 2);
    for (int i = 0; i < 6; i++) c->n[i] = number_at(head + 6 + 4 * i);
    begin();
    return 1;
}

/* Checks the library's functions that are plain C, not proved; a small build does not contain them. */
static void check_plain(void) {
#ifndef SUITE
    if (snoekeldraf_version() != SNOEKELDRAF_VERSION) fault("snoekeldraf_version");
    for (uint32_t status = 0; status < 256; status++)
        if (snoekeldraf_words(status)[0] == 0) fault("snoekeldraf_words");
    snoekeldraf_forget();
    for (unsigned suite = 0; suite < 256; suite++) comet_forget((uint8_t)suite);
#endif
}

void run(void) {
    call c;
    char kind = 0;
    take(&kind, 1);
    check_plain();
    while (next_call(&c)) switch (kind) {
        case 'c': run_record(&c); break;
        case 's': run_session(&c); break;
#ifndef SUITE
        case 'f': run_file(&c); break;
        case 'w': run_writer(&c); break;
#endif
        default: stop("there are no such cases");
        }
    flush();
}
